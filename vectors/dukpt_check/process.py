"""An adapter as a process, which may crash, hang, and write what it likes.

Three threads move its streams, so that no pipe that is full stops the check: one writes the
requests, one reads the lines of standard output, and one reads standard error, of which the end is
kept.
"""
from __future__ import annotations

import os
import queue
import signal
import subprocess
import threading
import time
from dataclasses import dataclass
from typing import IO, Optional, Sequence, Union

# The longest line that is taken for an answer, in bytes.
LONGEST = 1 << 16
# How many lines wait to be read, before the adapter itself has to wait.
MOST_LINES = 256
# How much of either end of standard error is kept, in bytes.
KEPT = 4096
# How long a process may take to end, and its last output to be read, in seconds.
LEFT_OVER = 2.0


class CannotStart(Exception):
    """Why the adapter cannot be started, in a line."""


@dataclass(frozen=True)
class Ended:
    """The adapter ended before it answered: its status, negative for a signal, and the end of what
    it wrote to standard error."""

    status: int
    said: str

    def __str__(self) -> str:
        """What happened, in words."""
        is_signal = self.status < 0
        how = f"by {signal_name(-self.status)}" if is_signal else f"with status {self.status}"
        return f"the adapter ended {how} before it answered"


@dataclass(frozen=True)
class Silent:
    """No answer came in time."""

    seconds: float
    said: str

    def __str__(self) -> str:
        """What happened, in words."""
        return (f"no answer came within {self.seconds:g} s: it hangs, does not flush its output"
                " after each line, or is slow (--timeout)")


@dataclass(frozen=True)
class TooLong:
    """A line did not end."""

    said: str

    def __str__(self) -> str:
        """What happened, in words."""
        return f"a line of the adapter has more than {LONGEST:,} bytes"


Trouble = Union[Ended, Silent, TooLong]


def signal_name(number: int) -> str:
    """A signal's name, as SIGSEGV."""
    try:
        return signal.Signals(number).name
    except ValueError:
        return f"signal {number}"


class Adapter:
    """A running adapter."""

    def __init__(self, words: Sequence[str]) -> None:
        """Starts the program that these words name."""
        try:
            # In a group of its own, so that what it starts is ended with it.
            self._process = subprocess.Popen(
                list(words), stdin=subprocess.PIPE, stdout=subprocess.PIPE, stderr=subprocess.PIPE,
                bufsize=0, start_new_session=os.name == "posix")
        except (OSError, ValueError) as why:
            raise CannotStart(f"the adapter {words[0]} cannot be started: {why}") from why
        self._is_stopped = threading.Event()
        self._said = bytearray()
        self._asked: queue.Queue[Optional[bytes]] = queue.Queue()
        self._lines: queue.Queue[Optional[bytes]] = queue.Queue(MOST_LINES)
        self._threads = [
            threading.Thread(target=work, args=(stream,), daemon=True)
            for work, stream in ((self._write, self._process.stdin),
                                 (self._read, self._process.stdout),
                                 (self._keep, self._process.stderr))]
        for thread in self._threads:
            thread.start()

    def send(self, line: bytes) -> None:
        """Hands a line over, and does not wait until it is read."""
        self._asked.put(line)

    def receive(self, seconds: float) -> Union[bytes, Trouble]:
        """The next line of the adapter, or what came in its place within so many seconds."""
        try:
            line = self._lines.get(timeout=max(0.0, seconds))
        except queue.Empty:
            return Silent(seconds, self._tail())
        if line is None:
            return self._ended()
        return line if len(line) <= LONGEST else TooLong(self._tail())

    def stop(self) -> None:
        """Ends the adapter, and what it started."""
        self._is_stopped.set()
        self._asked.put(None)
        if os.name == "posix":
            try:
                os.killpg(self._process.pid, signal.SIGKILL)
            except (ProcessLookupError, PermissionError):
                pass
        self._process.kill()
        self._process.wait()
        for thread in self._threads:
            thread.join(LEFT_OVER)

    def finish(self) -> None:
        """Closes the adapter's input, as at the end of the cases, and stops what does not end."""
        self._asked.put(None)
        try:
            self._process.wait(LEFT_OVER)
        except subprocess.TimeoutExpired:
            pass
        self.stop()

    def _ended(self) -> Ended:
        """How the adapter ended, whose standard output has no more lines."""
        deadline = time.monotonic() + LEFT_OVER
        try:
            self._process.wait(LEFT_OVER)
        except subprocess.TimeoutExpired:
            # It closed its output, and still runs.
            self._process.kill()
            self._process.wait()
        self._threads[-1].join(max(0.0, deadline - time.monotonic()))
        return Ended(self._process.returncode, self._tail())

    def _tail(self) -> str:
        """The end of what the adapter wrote to standard error."""
        return bytes(self._said).decode("utf-8", "replace").strip()

    def _write(self, stream: IO[bytes]) -> None:
        """Writes the requests, in a thread of its own."""
        with stream:
            for line in iter(self._asked.get, None):
                try:
                    rest = memoryview(line)
                    while rest:
                        rest = rest[stream.write(rest) or 0 :]
                except (OSError, ValueError):
                    return

    def _read(self, stream: IO[bytes]) -> None:
        """Reads whole lines, in a thread of its own. A last line that does not end is none."""
        kept = bytearray()
        with stream:
            while not self._is_stopped.is_set():
                read = stream.read(1 << 16)
                if not read:
                    break
                kept += read
                *lines, rest = bytes(kept).split(b"\n")
                kept = bytearray(rest)
                if len(kept) > LONGEST:
                    lines.append(rest)
                    kept.clear()
                for line in lines:
                    self._hand(line)
            self._hand(None)

    def _hand(self, line: Optional[bytes]) -> None:
        """Hands a line to whoever receives it, unless the adapter is stopped."""
        while not self._is_stopped.is_set():
            try:
                self._lines.put(line, timeout=0.2)
                return
            except queue.Full:
                continue

    def _keep(self, stream: IO[bytes]) -> None:
        """Reads standard error to its end, in a thread of its own, and keeps the last of it."""
        with stream:
            while True:
                read = stream.read(1 << 16)
                if not read:
                    return
                self._said += read
                if len(self._said) > 2 * KEPT:
                    self._said[KEPT:-KEPT] = b"\n..\n"
