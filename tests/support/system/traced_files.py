"""The calls of a program on files, as strace tells them, with the calls that it is to change."""
from __future__ import annotations

import re
import shutil
import subprocess
from collections import Counter
from dataclasses import dataclass
from pathlib import Path
from typing import Iterator, Sequence

from ..program import SECONDS, Ended, Word

# One line of strace: the call, its arguments, what it gave, and whether strace made it fail.
LINE = re.compile(r"^(\w+)\((.*)\) += (-?\d+|\?)(.*)$", re.MULTILINE)
OPENS = ("open", "openat", "openat2", "creat")
READS = ("read", "pread64", "readv", "preadv", "preadv2")
WRITES = ("write", "pwrite64", "writev", "pwritev", "pwritev2", "ftruncate", "fallocate", "sendfile",
          "copy_file_range", "splice")
SYNCS = ("fsync", "fdatasync")
REMOVES = ("unlink", "unlinkat")
CALLS = (*OPENS, "flock", *READS, *WRITES, *SYNCS, *REMOVES)
QUOTED = re.compile(r'"([^"]*)"')


@dataclass(frozen=True)
class Call:
    """A call of the program: which one of its name it is, as strace counts them from 1, its file and
    its arguments, the bytes that it read or wrote, and whether strace made it fail."""

    name: str
    count: int
    file: str
    words: str
    span: range
    is_changed: bool

    def __str__(self) -> str:
        return f"{self.name} of {self.file or 'no file'}"


def traced(
    words: Sequence[Word], folder: Path, trace: Path, first: str, changes: Sequence[str] = (),
    given: int = subprocess.DEVNULL,
) -> tuple[Ended, list[Call]]:
    """How a command ends in which strace makes these changes, and its calls from the one that opens a
    file of this name. `given` is a file descriptor that is its input."""
    strace = shutil.which("strace")
    if strace is None:
        raise AssertionError("strace is not installed: apt-get install strace")
    options = [it for one in (f"trace={','.join(CALLS)}", *changes) for it in ("-e", one)]
    done = subprocess.run([strace, "-o", trace, *options, *words], cwd=folder, stdin=given,
                          capture_output=True, timeout=SECONDS, check=False)
    return Ended(done.returncode, done.stdout, done.stderr), [*calls_in(trace.read_text(), first)]


def calls_in(trace: str, first: str) -> Iterator[Call]:
    """The calls of a trace, from the one that opens this file."""
    files: dict[str, str] = {}
    counts: Counter[str] = Counter()
    is_open = False
    for name, words, gave, more in LINE.findall(trace):
        counts[name] += 1
        if name in (*OPENS, *REMOVES):
            file = QUOTED.findall(words)[0]
            files[gave] = file
        else:
            file = files.get(words.split(",")[0], "")
        is_open = is_open or file == first
        if is_open:
            yield Call(name, counts[name], file, words, span_of(name, words, gave),
                       more.endswith("(INJECTED)"))


def span_of(name: str, words: str, gave: str) -> range:
    """The bytes that a call read or wrote, where it says at what place."""
    if name not in ("pread64", "pwrite64") or not gave.isdigit():
        return range(0)
    first = int(words.split(", ")[-1])
    return range(first, first + int(gave))


def covered(calls: Sequence[Call]) -> list[range]:
    """The bytes of all the calls, as stretches apart from one another."""
    found: list[range] = []
    for it in sorted((it.span for it in calls if it.span), key=lambda it: it.start):
        if found and it.start <= found[-1].stop:
            found[-1] = range(found[-1].start, max(found[-1].stop, it.stop))
        else:
            found.append(it)
    return found


def places(calls: Sequence[Call], names: Sequence[str], file: str) -> list[int]:
    """Which of the calls have one of these names and this file."""
    return [at for at, it in enumerate(calls) if it.file == file and it.name in names]


def assert_kept(calls: Sequence[Call], file: str, folder: str, size: int, but: range = range(0)) -> None:
    """That a file is made where none is, locked, and then written, all of its bytes, but that these may
    stay; that it is synced behind its last write, and its folder behind all; and that nothing is
    removed."""
    made, locked, written, synced = (
        places(calls, names, file) for names in (OPENS, ("flock",), WRITES, SYNCS))
    bytes_written = {at for it in covered([calls[at] for at in written]) for at in it}
    holds = {
        "it is made once": len(made) == 1 and "O_CREAT|O_EXCL" in calls[made[0]].words,
        "it is locked, and written behind that":
            len(locked) == 1 and made[0] < locked[0] < min(written, default=0),
        "each of its bytes is written": bytes_written | {*but} == {*range(size)},
        "it is synced behind its last write": max(synced, default=-1) > max(written, default=0),
        "its folder is synced last": places(calls, SYNCS, folder) == [len(calls) - 1],
        "nothing is removed": not any(it.name in REMOVES for it in calls),
    }
    lacks = [what for what, it in holds.items() if not it]
    assert not lacks, f"not so: {lacks}, in {[str(it) for it in calls]}"
