"""The addresses of all instructions of a program and of all data that they touch, in their order: of two
runs side by side.

They come from valgrind's tool lackey, with the calls of the system between them. Where two runs have the
same ones, no branch and no address depended on what was different in them.
"""
from __future__ import annotations

import os
import re
import subprocess
import threading
from bisect import bisect_right
from collections import Counter
from contextlib import contextmanager
from dataclasses import dataclass, field
from pathlib import Path
from typing import BinaryIO, Iterator, NamedTuple, Optional, Sequence

from ..library.library import demand
from ..program import Ended, Program, Word

LACKEY = ("valgrind", "--tool=lackey", "--trace-mem=yes", "--basic-counts=no", "--trace-syscalls=yes")
# How long a run may take.
SECONDS = 900
# Where valgrind puts a program that may stand anywhere.
ANYWHERE = 0x108000
# How many bytes of a trace are compared at once, and how many line by line where some of them differ.
PIECE, STEP = 1 << 16, 1 << 13
# The number of the process in a call of the system, and what valgrind says for itself.
PROCESS, REMARK = re.compile(rb"(?<=^SYSCALL\[)\d+"), re.compile(rb"^(?:==|--)", re.MULTILINE)
# The first read of standard input.
READS_INPUT = re.compile(rb"^SYSCALL\[\d+,\d+\]\(0\) sys_read \( 0,", re.MULTILINE)
# A byte that is read, and four.
BYTE, FOUR = (re.compile(rb" L [0-9a-f]+,%d\n" % it) for it in (1, 4))
# Tables by which a digit is looked up that is written.
DIGITS = (b"0123456789ABCDEF", b"0123456789abcdef")


def left_by(byte: int, following: int) -> int:
    """What the generator of CRC-32 leaves of a byte, with so many bytes and eight zero bits behind it, the
    lowest bit first."""
    for _ in range(8 * (following + 1)):
        byte = byte >> 1 ^ 0xEDB88320 * (byte & 1)
    return byte


# The tables of the check sums of a journal, one behind the other.
CHECK_SUMS = b"".join(left_by(byte, following).to_bytes(4, "little")
                      for following in range(8) for byte in range(256))


class Symbols:
    """The functions of a program, and its tables of digits and of check sums, where they stand under
    valgrind."""

    def __init__(self, program: Program) -> None:
        demand("nm", "readelf")
        head = said("readelf", "--file-header", "--segments", "--wide", program.path)
        base = ANYWHERE if re.search(r"^\s*Type:\s+DYN", head, re.MULTILINE) else 0
        lines = [line.split(" ", 2) for line in said("nm", "--defined-only", program.path).splitlines()]
        found = [(base + int(place, 16), name) for place, kind, name in lines if kind in "tTwW"]
        self.places, self.names = zip(*sorted(found))
        self.main = re.compile(rb"^I  %08x," % dict((name, place) for place, name in found)["main"],
                               re.MULTILINE)
        self.end, data = 0, program.path.read_bytes()
        self.digits: list[range] = []
        self.check_sums: list[range] = []
        for line in re.findall(r"^\s*LOAD\s+(.*)$", head, re.MULTILINE):
            offset, place, _, size = (int(it, 16) for it in line.split()[:4])
            self.end = max(self.end, base + place + size)
            for tables, parts in ((self.digits, DIGITS), (self.check_sums, (CHECK_SUMS,))):
                for at in places_in(data[offset : offset + size], parts):
                    tables.append(range(base + place + at, base + place + at + len(parts[0])))

    def function(self, line: bytes) -> str:
        """The function that has the instruction of a line, if there was one."""
        place = place_of(line) if line else 0
        at = bisect_right(self.places, place) - 1
        return self.names[at] if at >= 0 and place < self.end else "a library"

    def are_digits(self, *lines: bytes) -> bool:
        """Whether each of these lines reads a byte of the same table of digits."""
        return all(map(BYTE.fullmatch, lines)) and are_in_one(self.digits, lines)

    def are_check_sums(self, *lines: bytes) -> bool:
        """Whether each of these lines reads a word of the same tables of check sums."""
        return all(map(FOUR.fullmatch, lines)) and are_in_one(self.check_sums, lines)


def are_in_one(tables: Sequence[range], lines: Sequence[bytes]) -> bool:
    """Whether the addresses of these lines are all of one table."""
    return any(all(place_of(it) in table for it in lines) for table in tables)


def said(*words: Word) -> str:
    return subprocess.run(words, capture_output=True, text=True, check=True).stdout


def places_in(data: bytes, parts: Sequence[bytes]) -> Iterator[int]:
    return (it.start() for part in parts for it in re.finditer(re.escape(part), data))


def place_of(line: bytes) -> int:
    """The address of a line: `I  0401ab70,3` is an instruction, and ` L`, ` S` and ` M` are data."""
    return int(line[3 : line.index(b",")], 16)


class Run(NamedTuple):
    """A run that is traced: its arguments, its folder and its input."""

    words: Sequence[Word]
    folder: Path
    given: bytes = b""


class Trace:
    """A trace as it comes, and where the program is in it."""

    def __init__(self, stream: BinaryIO) -> None:
        self.stream, self.buffer, self.at = stream, b"", 0
        # The last instruction.
        self.last = b""

    def fill(self) -> None:
        """Has a piece there, or all that is left, and passes what valgrind says for itself."""
        while len(self.buffer) - self.at < PIECE:
            more = self.stream.read(PIECE)
            if not more:
                break
            self.buffer, self.at = self.buffer[self.at :] + more, 0
        while REMARK.match(self.buffer, self.at):
            self.at = self.buffer.index(b"\n", self.at) + 1

    @property
    def is_over(self) -> bool:
        return self.at == len(self.buffer)

    def ahead(self, size: int) -> bytes:
        """So many bytes at most, up to the end of a line."""
        remark = REMARK.search(self.buffer, self.at, self.at + size)
        end = self.buffer.rfind(b"\n", self.at, remark.start() if remark else self.at + size)
        return self.buffer[self.at : end + 1]

    def pass_bytes(self, size: int) -> None:
        """Passes whole lines."""
        last = self.buffer.rfind(b"I  ", self.at, self.at + size)
        if last >= 0:
            self.last = self.buffer[last : self.buffer.index(b"\n", last)]
        self.at += size

    def pass_to(self, first: re.Pattern[bytes]) -> None:
        """Passes all before a line."""
        self.fill()
        while not (found := first.search(self.buffer, self.at)):
            self.at = max(self.at, self.buffer.rfind(b"\n") + 1)
            self.fill()
            if self.is_over:
                raise AssertionError(f"the trace has no {first.pattern!r}")
        self.at = found.start()


@dataclass
class Found:
    """Where two runs differ: of each function, how often an access to data has another address, and how
    often that is one of a table of digits, or of the tables of check sums; and the function in which their
    ways part, where the comparison ends. So many lines of their traces were compared."""

    addresses: Counter[str] = field(default_factory=Counter)
    digits: Counter[str] = field(default_factory=Counter)
    check_sums: Counter[str] = field(default_factory=Counter)
    parted: Optional[str] = None
    lines: int = 0

    @property
    def is_digits_alone(self) -> bool:
        return not self.addresses and not self.check_sums and self.parted is None

    @property
    def is_check_sums_alone(self) -> bool:
        return not self.addresses and not self.digits and self.parted is None

    @property
    def is_tables_alone(self) -> bool:
        return not self.addresses and self.parted is None

    @property
    def is_nothing(self) -> bool:
        return self.is_digits_alone and self.is_check_sums_alone

    def __str__(self) -> str:
        parts = [f"{count:,} differ in {name}" for name, count in self.addresses.most_common()]
        parts += [f"{count:,} in digits of {name}" for name, count in self.digits.most_common()]
        parts += [f"{count:,} in check sums of {name}" for name, count in self.check_sums.most_common()]
        if self.parted is not None:
            parts.append(f"the ways part in {self.parted}")
        return f"of {self.lines:,} addresses {', '.join(parts) or 'none differs'}"


class Comparison:
    """Of two traces, piece by piece as far as they are the same, and else line by line."""

    def __init__(self, symbols: Symbols, one: Trace, other: Trace) -> None:
        self.symbols, self.both, self.found = symbols, (one, other), Found()

    def compare(self) -> Found:
        while self.found.parted is None and self.fill():
            one, other = (it.ahead(PIECE) for it in self.both)
            if one == other:
                self.passes(one.count(b"\n"), one, other)
            else:
                self.step(*(it.ahead(STEP) for it in self.both))
        return self.found

    def fill(self) -> bool:
        """Whether more of either is there."""
        for it in self.both:
            it.fill()
        return any(not it.is_over for it in self.both)

    def passes(self, count: int, *parts: bytes) -> None:
        """Passes so many lines, with these bytes of each trace."""
        for it, part in zip(self.both, parts):
            it.pass_bytes(len(part))
        self.found.lines += count

    def step(self, *parts: bytes) -> None:
        """As many lines as are in both parts, unless the ways part before."""
        last, count = self.both[0].last, 0
        both = [part.splitlines(keepends=True) for part in parts]
        for count, (one, other) in enumerate(zip(*both), 1):
            if one != other:
                self.differ(last, PROCESS.sub(b"", one), PROCESS.sub(b"", other))
                if self.found.parted is not None:
                    return
            if one.startswith(b"I"):
                last = one
        if count:
            self.passes(count, *(b"".join(lines[:count]) for lines in both))
        else:
            self.part(last)

    def differ(self, last: bytes, *lines: bytes) -> None:
        """Two lines behind an instruction, which may be the same but for the number of the process."""
        if lines[0] == lines[1]:
            return
        if any(not it.startswith(b" ") for it in lines):
            self.part(last)
        elif self.symbols.are_digits(*lines):
            self.found.digits[self.symbols.function(last)] += 1
        elif self.symbols.are_check_sums(*lines):
            self.found.check_sums[self.symbols.function(last)] += 1
        else:
            self.found.addresses[self.symbols.function(last)] += 1

    def part(self, last: bytes) -> None:
        self.found.parted = self.symbols.function(last)


@contextmanager
def started(program: Program, run: Run) -> Iterator[subprocess.Popen]:
    """A run whose trace comes on standard error. Its output goes into a file of its folder."""
    demand("valgrind")
    (run.folder / "input").write_bytes(run.given)
    with open(run.folder / "input", "rb") as given, open(run.folder / "output", "wb") as taken:
        # The loader reads the environment: it is the same in all runs.
        process = subprocess.Popen(
            [*LACKEY, program.path, *map(os.fspath, run.words)], cwd=run.folder, stdin=given, stdout=taken,
            stderr=subprocess.PIPE, bufsize=0, env={"PATH": os.environ.get("PATH", os.defpath)})
    timer = threading.Timer(SECONDS, process.kill)
    timer.start()
    try:
        yield process
    finally:
        timer.cancel()
        process.kill()
        process.wait()
        process.stderr.close()


def compared(
    program: Program, one: Run, other: Run, from_input: bool = False
) -> tuple[Found, list[Ended]]:
    """Where two runs differ, from the program's `main` or from its first read of the input on, and how
    each ended. They run beside one another."""
    symbols = Symbols(program)
    begin = READS_INPUT if from_input else symbols.main
    with started(program, one) as its, started(program, other) as theirs:
        traces = [Trace(process.stderr) for process in (its, theirs)]
        for trace in traces:
            trace.pass_to(begin)
        found, ended = Comparison(symbols, *traces).compare(), []
        for process, run in ((its, one), (theirs, other)):
            while process.stderr.read(PIECE):
                pass
            ended.append(Ended(process.wait(), (run.folder / "output").read_bytes(), b""))
    return found, ended
