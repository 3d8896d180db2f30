"""A program that runs on while it is given frames: what it answers, and how it ends."""
from __future__ import annotations

import errno
import fcntl
import os
import random
import re
import select
import signal
import socket
import subprocess
import time
from dataclasses import dataclass
from enum import Enum
from pathlib import Path
from typing import Callable, Iterable, Iterator, Optional

from ..program import NO_LIMITS, Ended, Limits, Program, Word, spoken
from .client import split

SECONDS = 240
# How much of an output is read at once.
PIECE = 1 << 16
FOREVER = float("inf")
# How often a service is looked at before it is taken to be asleep, and the seconds between.
LOOKS, BETWEEN_LOOKS = 6, 0.02
# In so many parts of a second the system counts the time of a processor.
TICKS = os.sysconf("SC_CLK_TCK")


class Pipes(Enum):
    """What a service has for its input and its output, where nothing else stands in their place."""

    # Pipes of the size that the system gives them.
    WIDE = "wide"
    # Pipes that hold a page.
    NARROW = "narrow"
    # For the input a socket that keeps pieces apart: each of them is one read.
    PACKETS = "packets"
    # One socket for both, as a connection is, that holds a few kilobytes each way.
    CONNECTION = "connection"


class Hung(AssertionError):
    """That a service neither did what was waited for, nor ended."""


@dataclass(frozen=True)
class How:
    """How a service is started. `given` and `taken` are open files in the place of its pipes."""

    pipes: Pipes = Pipes.WIDE
    given: Optional[int] = None
    taken: Optional[int] = None
    limits: Limits = NO_LIMITS
    # Whether a write to an output that is closed fails, and does not end the process by a signal.
    ignores_pipe_signal: bool = False

    def prepare(self) -> Optional[Callable[[], None]]:
        set_limits = self.limits.prepare()
        if not self.ignores_pipe_signal:
            return set_limits

        def ignore_signal_and_set_limits() -> None:
            signal.signal(signal.SIGPIPE, signal.SIG_IGN)
            if set_limits:
                set_limits()

        return ignore_signal_and_set_limits


PLAIN = How()
PACKETS = How(Pipes.PACKETS)
NARROW = How(Pipes.NARROW)
CONNECTION = How(Pipes.CONNECTION)


class Service:
    """A process of a program. `end` waits for its end; nothing waits longer than `seconds`."""

    def __init__(
        self,
        program: Program,
        folder: Path,
        *words: Word,
        how: How = PLAIN,
        seconds: float = SECONDS,
    ) -> None:
        self.name = spoken(words)
        self.deadline = time.monotonic() + seconds
        self.collected = bytearray()
        self.input, theirs = (None, how.given) if how.given is not None else input_pair(how.pipes)
        self.is_connection = how.pipes is Pipes.CONNECTION
        if self.is_connection:
            self.output, taken = os.dup(self.input), os.dup(theirs)
        else:
            self.output, taken = (None, how.taken) if how.taken is not None else os.pipe()
        if how.pipes is Pipes.NARROW:
            for mine in (self.input, self.output):
                if mine is not None:
                    fcntl.fcntl(mine, fcntl.F_SETPIPE_SZ, os.sysconf("SC_PAGE_SIZE"))
        # A pipe, and no file: a limit of files would hold for it too.
        self.process = subprocess.Popen(
            ["dukpt", *map(os.fspath, words)],
            executable=str(program.path),
            cwd=folder,
            stdin=theirs,
            stdout=taken,
            stderr=subprocess.PIPE,
            preexec_fn=how.prepare(),
        )
        if self.input is not None:
            os.close(theirs)
            os.set_blocking(self.input, False)
        if self.output is not None:
            os.close(taken)
            os.set_blocking(self.output, False)

    # Its input and its output

    def close_input(self) -> None:
        if self.input is not None:
            if self.is_connection:
                with socket.socket(fileno=os.dup(self.input)) as it:
                    it.shutdown(socket.SHUT_WR)
            os.close(self.input)
            self.input = None

    def close_output(self) -> None:
        if self.output is not None:
            os.close(self.output)
            self.output = None

    def ready(self, for_writing: bool, until: float) -> tuple[bool, bool]:
        """Waits until the output has something, or the input takes something where that is asked
        for, or the moment has come: whether the one, and whether the other."""
        if time.monotonic() > self.deadline:
            raise Hung(f"{self.name}: no end within its time")
        readers = [] if self.output is None else [self.output]
        writers = [self.input] if for_writing and self.input is not None else []
        wait = max(0, min(until, self.deadline) - time.monotonic())
        readable, writable, _ = select.select(readers, writers, [], min(wait, 1))
        return bool(readable), bool(writable)

    def take(self, most: int = PIECE) -> bool:
        """Reads what stands on the output; false at its end, where it is closed."""
        try:
            piece = os.read(self.output, most)
        except BlockingIOError:
            return True
        except ConnectionResetError:
            # The end of a connection of which the other side left something unread.
            piece = b""
        self.collected += piece
        if not piece:
            self.close_output()
        return bool(piece)

    def give(self, rest: bytes, pieces: Iterator[bytes]) -> Optional[bytes]:
        """Writes on for as long as the input takes it. It answers what is left of a piece, or
        `None` behind the last piece, or where nobody reads any more."""
        left: Optional[bytes] = rest
        try:
            while left is not None:
                count = os.write(self.input, left) if left else 0
                left = left[count:] or next(pieces, None)
        except BlockingIOError:
            return left
        except OSError as why:
            if why.errno not in (errno.EPIPE, errno.ECONNRESET):
                raise
        return None

    def talk(
        self,
        pieces: Iterable[bytes],
        until: float = FOREVER,
        closes: bool = True,
        most: int = PIECE,
        pause: float = 0,
    ) -> None:
        """Gives the pieces, closes the input behind them if it is to, and reads answers as they
        come, at most so many bytes at once and with a pause before each: to the end of the output,
        or to a moment."""
        left = iter(pieces)
        rest: Optional[bytes] = b"" if self.input is not None else None
        while (rest is not None or self.output is not None) and time.monotonic() < until:
            readable, writable = self.ready(rest is not None, until)
            if writable and rest is not None:
                rest = self.give(rest, left)
                if rest is None and closes:
                    self.close_input()
            if readable:
                time.sleep(pause)
                if not self.take(most):
                    return

    def ask(self, frames: Iterable[bytes], until: float = FOREVER) -> None:
        """Gives each frame when the one before has its answer, to the last or to a moment."""
        for frame in frames:
            before = len(self.collected)
            self.exchange(frame, lambda: bool(split(bytes(self.collected[before:]))[0]), until)

    def ask_all(self, stream: bytes, count: int) -> None:
        """Gives a stream, and reads until so many more bytes have come. The input stays open."""
        wanted = len(self.collected) + count
        self.exchange(stream, lambda: len(self.collected) >= wanted, FOREVER)

    def exchange(self, given: bytes, is_enough: Callable[[], bool], until: float) -> None:
        """Gives bytes, and reads until there is enough, or to the end of the output or a moment."""
        rest: Optional[bytes] = given
        while rest is not None or not is_enough():
            if self.output is None or time.monotonic() >= until:
                return
            readable, writable = self.ready(rest is not None, until)
            if writable and rest is not None:
                rest = self.give(rest, iter(()))
            if readable:
                self.take()

    # The process

    def peak(self) -> int:
        """The most memory that it has had so far, in KiB."""
        status = Path(f"/proc/{self.process.pid}/status").read_text()
        found = re.search(r"^VmHWM:\s*(\d+) kB$", status, re.MULTILINE)
        if not found:
            raise AssertionError("the system does not show the memory of a process")
        return int(found[1])

    def look(self) -> tuple[bool, float]:
        """Whether it is asleep, as one is that waits for its input or its output; and how many
        seconds of a processor it has taken so far."""
        text = Path(f"/proc/{self.process.pid}/stat").read_text(errors="replace")
        fields = text.rpartition(")")[2].split()
        return fields[0] == "S", (int(fields[11]) + int(fields[12])) / TICKS

    def sleeps(self) -> None:
        """Waits until it is asleep at each of a few looks, and has taken no time between them."""
        seen: list[tuple[bool, float]] = []
        while len(seen) < LOOKS or not seen[-1][0] or len(set(seen[-LOOKS:])) > 1:
            if time.monotonic() > self.deadline or self.process.poll() is not None:
                raise AssertionError(f"{self.name}: it does not wait")
            time.sleep(BETWEEN_LOOKS)
            seen.append(self.look())

    def kill(self) -> None:
        self.process.kill()

    def end(self) -> Ended:
        """Closes its input, and waits for its end."""
        self.close_input()
        while self.output is not None:
            if self.ready(False, self.deadline)[0]:
                self.take()
        try:
            left = max(0.1, self.deadline - time.monotonic())
            faults = self.process.communicate(timeout=left)[1]
        except subprocess.TimeoutExpired:
            raise Hung(f"{self.name}: no end within its time") from None
        return Ended(self.process.returncode, bytes(self.collected), faults)

    def release(self) -> None:
        """Ends it where it runs on, and closes what is open."""
        self.close_input()
        self.close_output()
        self.process.kill()
        self.process.wait()
        self.process.stderr.close()


def input_pair(pipes: Pipes) -> tuple[int, int]:
    """The end of an input that is written to, and the one that is read."""
    if pipes is Pipes.PACKETS:
        mine, theirs = socket.socketpair(socket.AF_UNIX, socket.SOCK_SEQPACKET)
        return mine.detach(), theirs.detach()
    if pipes is Pipes.CONNECTION:
        mine, theirs = socket.socketpair()
        for it in (mine, theirs):
            it.setsockopt(socket.SOL_SOCKET, socket.SO_SNDBUF, 1)
        return mine.detach(), theirs.detach()
    theirs, mine = os.pipe()
    return mine, theirs


def cuts(stream: bytes, chance: random.Random, most: int) -> list[bytes]:
    """A stream in pieces of 1 to so many bytes."""
    at, pieces = 0, []
    while at < len(stream):
        size = chance.randint(1, most)
        pieces.append(stream[at : at + size])
        at += size
    return pieces
