"""Building the static library of `dukpt_c` with the Rattle kit, for this machine or for WebAssembly.

The kit builds a proved crate alone: each build proves `dukpt_c` again, over the libraries below it,
which take most of the time. Where those stand built, as the gate leaves them, they are taken. Else
`rt lib` proves them first.
"""
from __future__ import annotations

import re
import shutil
import subprocess
import tempfile
from dataclasses import dataclass
from pathlib import Path
from typing import Iterable, Iterator

ROOT = Path(__file__).resolve().parents[2]
CRATES = ROOT / "crates"
CRATE = "dukpt_c"
# What the module's memory has, in bytes: a mebibyte for its stack, and what a caller puts behind it.
MODULE_MEMORY = 1_310_720
LINUX, WEB = "x86_64-unknown-linux-gnu", "wasm64-unknown-unknown"
SOURCES = ("src", "specs", "proofs")


class NotBuilt(Exception):
    """Why the library cannot be built, in a line."""


@dataclass(frozen=True)
class Kit:
    """The Rattle kit, by its folder."""

    folder: Path

    @classmethod
    def found(cls) -> Kit:
        """The kit whose command `rt` is on the path."""
        return cls(Path(said("rt", "doc")).parent)

    @staticmethod
    def version() -> str:
        """What `rt version` prints: the kit's name, and its logic."""
        return said("rt", "version")

    def build(self, target: str, to: Path) -> None:
        """Proves `dukpt_c` and writes its static library for a target."""
        needed = libraries()
        words = ["build", "--crate-name", CRATE, "src/lib.rt", "--crate-type", "staticlib"]
        words += ["--target", target, "-L", f"dependency={self.folder / 'rlibs'}"]
        for name in ["std", *needed[CRATE]]:
            words += ["--extern", f"{name}={self.library(name, needed)}"]
        for name in sorted(set(needed) - {CRATE}):
            words += ["-L", f"dependency={self.library(name, needed).parent}"]
        words += ["--antt-project", str(self.folder / "rattle/logic/antt-project.json")]
        words += ["--logic-built", str(self.folder / "logic_built"), "--jobs", "2"]
        words += ["--toolchain", str(self.folder / "toolchain"), "--backend", "llvm", "-o", str(to)]
        self.call("rattle", *words)

    def link_module(self, archive: Path, to: Path) -> None:
        """Writes the WebAssembly module of a static library."""
        self.call(
            "rattle-link", "--target", WEB, "--toolchain", str(self.folder / "toolchain"),
            "--memory", str(MODULE_MEMORY), "-o", str(to), str(archive))

    def library(self, name: str, needed: dict[str, list[str]]) -> Path:
        """A library as it is built: of the repository, or of the kit."""
        return built(name) if name in needed else self.folder / "rlibs" / f"{name}.rlib"

    def call(self, command: str, *words: str) -> None:
        run([str(self.folder / "bin" / command), *words], CRATES / CRATE)


def archive() -> Path:
    """The static library for this machine, built where it is missing or a source is newer."""
    made = CRATES / CRATE / "out" / f"lib{CRATE}.a"
    if not is_newest(made, libraries()):
        prove_below()
    # Where `rt lib` had to prove what is below, it left the archive too.
    if not is_newest(made, libraries()):
        made.parent.mkdir(exist_ok=True)
        Kit.found().build(LINUX, made)
    return made


def module() -> Path:
    """The WebAssembly module, with memory of 64-bit addresses, built likewise."""
    made = CRATES / CRATE / "out" / f"{CRATE}.wasm"
    if not is_newest(made, libraries()):
        prove_below()
        made.parent.mkdir(exist_ok=True)
        kit = Kit.found()
        with tempfile.TemporaryDirectory(prefix="dukpt-module-") as folder:
            kit.build(WEB, Path(folder) / "module.a")
            kit.link_module(Path(folder) / "module.a", made)
    return made


def prove_below() -> None:
    """Proves what `dukpt_c` stands on, where that is not built, or a source is newer."""
    below = sorted(set(libraries()) - {CRATE})
    if not all(is_current(name) for name in below):
        run(["rt", "lib"], CRATES / CRATE)


def libraries() -> dict[str, list[str]]:
    """`dukpt_c` and the repository's crates below it, with the libraries that each uses."""
    uses = dict(uses_of_crates())
    found: dict[str, list[str]] = {}
    waiting = [CRATE]
    while waiting:
        name = waiting.pop()
        if name in uses and name not in found:
            found[name] = uses[name]
            waiting += uses[name]
    return found


def uses_of_crates() -> Iterator[tuple[str, list[str]]]:
    for line in (ROOT / "crates.txt").read_text(encoding="utf-8").splitlines():
        head, colon, uses = line.partition("#")[0].partition(":")
        if colon:
            yield re.split(r"\s+", head.strip())[0], uses.split()


def built(name: str) -> Path:
    return CRATES / name / "out" / "rlib" / f"{name}.rlib"


def is_current(name: str) -> bool:
    """Whether a library is built, and none of its sources is newer."""
    return is_newest(built(name), [name])


def is_newest(made: Path, crates: Iterable[str]) -> bool:
    """Whether something is made, and no source of these crates is newer."""
    return made.exists() and not any(
        file.stat().st_mtime > made.stat().st_mtime
        for name in crates
        for part in SOURCES
        for file in (CRATES / name / part).rglob("*")
        if file.is_file())


def said(*words: str) -> str:
    """What a command of the kit prints, without its last end of line."""
    return run(list(words), ROOT).strip()


def run(words: list[str], folder: Path) -> str:
    """Runs a command of the kit in a folder, and gives what it says. That is shown where it
    fails."""
    if shutil.which(words[0]) is None:
        raise NotBuilt("rt is not on PATH: put the kit's bin folder on it")
    ended = subprocess.run(
        words, cwd=folder, stdin=subprocess.DEVNULL, stdout=subprocess.PIPE,
        stderr=subprocess.STDOUT, text=True, errors="replace", check=False)
    if ended.returncode:
        raise NotBuilt(f"{Path(words[0]).name} did not build {CRATE}\n{ended.stdout[-2000:].rstrip()}")
    return ended.stdout
