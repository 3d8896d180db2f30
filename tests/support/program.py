"""Finding the built program, and running it once, to its end, within limits."""
from __future__ import annotations

import os
import resource
import signal
import subprocess
from dataclasses import dataclass
from pathlib import Path
from typing import Callable, Iterable, Optional, Sequence, Union

from .listing import Word, only_own_files

ROOT = Path(__file__).resolve().parents[2]
COMMANDS = ROOT / "tests" / "data" / "commands"
SECONDS = 120


@dataclass(frozen=True)
class Ended:
    """How a run of a program ended: its status, negative for a signal, and what it wrote."""

    status: int
    output: bytes
    faults: bytes

    def __str__(self) -> str:
        return f"status {self.status}, output {short(self.output)}, faults {short(self.faults)}"


@dataclass(frozen=True)
class Limits:
    """Limits of a process, set in it before the program starts.

    `memory` is bytes of its data: what it asks for, and not its stack, whose growth no program is
    told to be refused. No file grows beyond `file_size` bytes: a write there fails, or, where its
    signal is not ignored, that ends the process.
    """

    memory: Optional[int] = None
    file_size: Optional[int] = None
    ignores_file_signal: bool = True

    def prepare(self) -> Optional[Callable[[], None]]:
        if self == Limits():
            return None

        def set_limits() -> None:
            resource.setrlimit(resource.RLIMIT_CORE, (0, 0))
            if self.memory is not None:
                resource.setrlimit(resource.RLIMIT_DATA, (self.memory, self.memory))
            if self.file_size is not None:
                way = signal.SIG_IGN if self.ignores_file_signal else signal.SIG_DFL
                signal.signal(signal.SIGXFSZ, way)
                resource.setrlimit(resource.RLIMIT_FSIZE, (self.file_size, self.file_size))

        return set_limits


NO_LIMITS = Limits()


class NotBuilt(Exception):
    """That a program is missing, with its name."""


@dataclass(frozen=True)
class Program:
    """A built program. It is told that its name is `dukpt`, whatever its file is called."""

    path: Path

    @property
    def name(self) -> str:
        return os.path.relpath(self.path, ROOT) if ROOT in self.path.parents else str(self.path)

    def run(
        self,
        *words: Word,
        given: Union[bytes, int] = b"",
        folder: Optional[os.PathLike] = None,
        limits: Limits = NO_LIMITS,
        output: int = subprocess.PIPE,
        faults: int = subprocess.PIPE,
        seconds: float = SECONDS,
    ) -> Ended:
        """Runs it to its end. `given` is its input, or a file descriptor that is; `output` and
        `faults` may be such too. A run that does not end in so many seconds is an error of the
        test, and so is one that leaves more in its folder than its own files."""
        feeds = {"input": given} if isinstance(given, bytes) else {"stdin": given}
        with only_own_files(folder, words, (output, faults)) as place:
            done = subprocess.run(
                ["dukpt", *map(os.fspath, words)],
                executable=str(self.path),
                cwd=place,
                stdout=output,
                stderr=faults,
                timeout=seconds,
                check=False,
                preexec_fn=limits.prepare(),
                **feeds,
            )
        return Ended(done.returncode, done.stdout or b"", done.stderr or b"")


def built(crate: str) -> list[Program]:
    """The programs that the gate leaves of a crate, as each of the two compilers makes it."""
    out = ROOT / "crates" / crate / "out"
    both = [out / crate, out / f"{crate}.by-rattle"]
    return [Program(path) for path in both if path.exists()] or [Program(both[0])]


def programs(given: Iterable[str]) -> list[Program]:
    """The programs of these paths, or with none of them those that the gate leaves."""
    found = [Program(Path(path).absolute()) for path in given] or built("dukpt")
    for it in found:
        demand_built(it)
    return found


def demand_built(program: Program) -> None:
    if not os.access(program.path, os.X_OK) or program.path.is_dir():
        raise NotBuilt(f"{program.name} is not built: rt ci builds it")


def behind_shell(folder: Path, program: Program, way: str) -> Program:
    """The program, behind a shell that does this first."""
    script = folder / "program"
    script.write_text(f"#!/bin/sh\n{way}\nexec {program.path} \"$@\"\n")
    script.chmod(0o755)
    return Program(script)


def short(value: object, most: int = 200) -> str:
    text = value if isinstance(value, str) else repr(value)
    return text if len(text) <= most else text[:most] + " .."


def spoken(words: Sequence[Word]) -> str:
    """A command as one would type it."""
    return "dukpt " + " ".join(os.fsdecode(word) or "''" for word in words)
