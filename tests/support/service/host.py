"""`dukpt-host` as it runs: its clients, what it tells, and the process below it."""
from __future__ import annotations

import os
import re
import signal
import socket
import ssl
import subprocess
import threading
import time
import urllib.error
import urllib.request
from glob import glob
from pathlib import Path
from typing import Callable, Iterator, Optional, Sequence

from ..program import ROOT
from .client import split
from .journal_case import JournalCase

HOST = ROOT / "share/host/dukpt-host"
HERE = "127.0.0.1:0"
ON_JOURNAL = ("--journal", "journal")
# The keys of `bank.toml` are in the clear.
TEST_KEYS = ("bank.toml", "--test-keys")
SECONDS = 60
PIECE = 1 << 16
SAMPLE = re.compile(r"^(\w+)(?:\{(.*)\})? (\S+)$", re.M)


class Running:
    """A host that was started in a folder. Its lines are read as they come."""

    def __init__(self, home: Path, keys: Sequence[str], store: Sequence[str], *words: str,
                 environment: Optional[dict[str, str]] = None,
                 prepare: Optional[Callable[[], None]] = None, behind: Sequence[str] = ()) -> None:
        self.lines: list[str] = []
        self.process = subprocess.Popen(
            [*behind, HOST, *keys, *store, "--listen", HERE, "--metrics", HERE, *words],
            cwd=home, stdin=subprocess.DEVNULL, stderr=subprocess.PIPE, text=True,
            preexec_fn=prepare, env={**os.environ, **(environment or {})})
        self.reader = threading.Thread(target=self.read_lines, daemon=True)
        self.reader.start()

    def read_lines(self) -> None:
        for line in self.process.stderr:
            self.lines.append(line.rstrip("\n"))

    # What it tells

    def told(self, text: str, count: int = 1, seconds: float = SECONDS) -> str:
        """Waits for the line, of so many, that has a text."""
        until = time.monotonic() + seconds
        while time.monotonic() < until:
            found = [it for it in self.lines if text in it]
            if len(found) >= count:
                return found[count - 1]
            if self.process.poll() is not None and not self.reader.is_alive():
                break
            time.sleep(0.005)
        raise AssertionError(f"no line with {text!r}: .. {self.lines[-5:]}")

    def address(self, text: str) -> tuple[str, int]:
        host, _, port = self.told(text).rpartition(" ")[2].rpartition(":")
        return host, int(port)

    def get(self, path: str) -> tuple[int, str]:
        host, port = self.address("metrics and health on")
        try:
            with urllib.request.urlopen(f"http://{host}:{port}{path}", timeout=SECONDS) as it:
                return it.status, it.read().decode()
        except urllib.error.HTTPError as why:
            return why.code, why.read().decode()

    def health(self) -> tuple[int, str]:
        return self.get("/health")

    def metrics(self) -> dict[str, float]:
        """Each sample, by its name and its labels as they are written."""
        return {name + labels: float(value)
                for name, labels, value in SAMPLE.findall(self.get("/metrics")[1])}

    # Clients

    def connect(self, context: Optional[ssl.SSLContext] = None, room: int = 0) -> Client:
        """A client that connects, with so much room for what it has not read, if that is told."""
        raw = socket.socket()
        raw.settimeout(SECONDS)
        if room:
            raw.setsockopt(socket.SOL_SOCKET, socket.SO_RCVBUF, room)
        raw.connect(self.address("listening on"))
        return Client(context.wrap_socket(raw) if context else raw)

    # The process below

    def below(self) -> int:
        """The process that serves, waiting until there is one."""
        until = time.monotonic() + SECONDS
        while time.monotonic() < until:
            for child in children_of(self.process.pid):
                if b"\0serve\0" in command_of(child):
                    return child
            time.sleep(0.005)
        raise AssertionError("no process serves")

    def stop(self, way: int = signal.SIGTERM) -> int:
        """Tells it to end, and answers its status."""
        if self.process.poll() is None:
            self.process.send_signal(way)
        return self.end()

    def end(self) -> int:
        status = self.process.wait(SECONDS)
        self.reader.join(SECONDS)
        return status

    def release(self) -> None:
        if self.process.poll() is None:
            self.process.kill()
            self.process.wait()
        self.reader.join(SECONDS)
        self.process.stderr.close()


def children_of(process: int) -> Iterator[int]:
    """The processes below one, of all depths. One may end meanwhile."""
    for children in glob(f"/proc/{process}/task/*/children"):
        for child in map(int, text_of(Path(children)).split()):
            yield child
            yield from children_of(child)


def text_of(file: Path) -> str:
    try:
        return file.read_text()
    except OSError:
        return ""


def command_of(process: int) -> bytes:
    try:
        return Path(f"/proc/{process}/cmdline").read_bytes()
    except OSError:
        return b""


class Client:
    """A client of a host: what it read so far stands in `read`, and `is_closed` once that ended."""

    def __init__(self, it: socket.socket) -> None:
        self.socket, self.read, self.is_closed = it, b"", False

    def send(self, data: bytes) -> bool:
        """Sends bytes, unless the other side takes none any more."""
        try:
            self.socket.sendall(data)
        except OSError:
            return False
        return True

    def send_in(self, pieces: Sequence[bytes]) -> None:
        """Sends pieces, and then the end of this side, while something else reads."""
        if all([self.send(it) for it in pieces]):
            self.end_side()

    def end_side(self) -> None:
        try:
            self.socket.shutdown(socket.SHUT_WR)
        except OSError:
            pass

    def take(self) -> bool:
        """Reads what comes next: false at the end."""
        try:
            data = self.socket.recv(PIECE)
        except socket.timeout:
            raise
        except OSError:
            data = b""
        self.read += data
        self.is_closed = self.is_closed or not data
        return bool(data)

    @property
    def answers(self) -> list[bytes]:
        return split(self.read)[0]

    def take_answers(self, count: int) -> list[bytes]:
        """Reads until so many answers have come in all, or to the end."""
        while len(self.answers) < count and self.take():
            pass
        return self.answers

    def ask(self, frame: bytes) -> Optional[bytes]:
        """The answer to one more frame; none where the connection ends."""
        count = len(self.answers)
        self.send(frame)
        found = self.take_answers(count + 1)
        return found[count] if len(found) > count else None

    def take_all(self) -> bytes:
        while self.take():
            pass
        return self.read

    def close(self) -> None:
        self.socket.close()


class HostCase(JournalCase):
    """A test of a host over the file `journal`."""

    def start_host(
        self, *words: str, keys: Sequence[str] = TEST_KEYS,
        environment: Optional[dict[str, str]] = None, **how: object
    ) -> Running:
        named = {"DUKPT": str(self.program.path), **(environment or {})}
        host = Running(self.home, keys, ON_JOURNAL, *words, environment=named, **how)
        self.addCleanup(host.release)
        return host

    def connect(
        self, host: Running, context: Optional[ssl.SSLContext] = None, room: int = 0
    ) -> Client:
        client = host.connect(context, room)
        self.addCleanup(client.close)
        return client

    def state(self) -> str:
        return (self.home / "journal.state").read_text()


def at_once(works: Sequence[Callable[[], None]]) -> None:
    """Does all of it side by side. What fails in one fails here."""
    faults: list[BaseException] = []

    def guarded(work: Callable[[], None]) -> None:
        try:
            work()
        except BaseException as why:
            faults.append(why)

    threads = [threading.Thread(target=guarded, args=(it,)) for it in works]
    for it in threads:
        it.start()
    for it in threads:
        it.join()
    if faults:
        raise faults[0]
