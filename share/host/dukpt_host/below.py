"""The process below: `dukpt serve CONFIG --journal FILE`, which judges all frames."""
from __future__ import annotations

import asyncio
import fcntl
import os
import socket
from contextlib import contextmanager
from dataclasses import dataclass
from pathlib import Path
from typing import Callable, Iterator, Optional, Sequence, Union, cast

from .deciding import Ended
from .frames import Cutter

# Room for a group in its input, whatever the system gives a socket by itself.
INPUT = 1 << 18
# So much is kept of what it says on standard error.
MOST_SAID = 4096
JOURNAL_FAILED = "journal: failed"


@dataclass(frozen=True)
class End:
    """How it ended: its status, negative for a signal, and its lines on standard error."""

    status: int
    lines: Sequence[str]

    @property
    def is_killed(self) -> bool:
        """Whether a signal ended it, so that a sync may have failed unseen. By itself it ends with
        a status up to 2; `asyncio` tells 255 where the status was taken before it looked."""
        return not 0 <= self.status <= 2

    @property
    def has_failed(self) -> bool:
        """Whether the journal failed."""
        return JOURNAL_FAILED in self.lines

    def __str__(self) -> str:
        how = f"signal {-self.status}" if self.status < 0 else f"status {self.status}"
        return ": ".join([how, *self.lines])


class Below(asyncio.SubprocessProtocol):
    """A running process. Its input is a socket that keeps writes apart: one write is one read."""

    def __init__(self, given: socket.socket, on_end: Callable[[], None]) -> None:
        self.given, self.on_end = given, on_end
        self.cutter = Cutter()
        self.answers: list[bytes] = []
        self.wanted = 0
        self.came: Optional[asyncio.Future[None]] = None
        self.said = b""
        self.ended = asyncio.get_running_loop().create_future()

    def connection_made(self, transport: asyncio.BaseTransport) -> None:
        self.transport = cast(asyncio.SubprocessTransport, transport)

    def pipe_data_received(self, fd: int, data: bytes) -> None:
        if fd == 2:
            self.said = (self.said + data)[:MOST_SAID]
            return
        self.answers += self.cutter.cut(data)
        if len(self.answers) >= self.wanted:
            self.tell()

    def connection_lost(self, exc: Optional[Exception]) -> None:
        """It has ended, and all that it wrote was read."""
        self.given.close()
        status = self.transport.get_returncode()
        lines = self.said.decode(errors="replace").splitlines()
        self.ended.set_result(End(0 if status is None else status, lines))
        self.tell()
        self.on_end()

    def tell(self) -> None:
        if self.came and not self.came.done():
            self.came.set_result(None)

    @property
    def has_ended(self) -> bool:
        return self.ended.done()

    def give(self, frames: Sequence[bytes]) -> None:
        """Gives it a group, in one write. The group before has its answers, so there is room."""
        self.wanted += len(frames)
        try:
            self.given.send(b"".join(frames))
        except OSError:
            # It has ended, which is told soon. To kill it now could take its status away.
            pass

    async def take(self) -> list[bytes]:
        """The answers to the group that it was given."""
        if len(self.answers) < self.wanted and not self.has_ended:
            self.came = asyncio.get_running_loop().create_future()
            await self.came
        if len(self.answers) < self.wanted:
            raise Ended
        answers, self.answers, self.wanted = self.answers, [], 0
        return answers

    def end_input(self) -> None:
        """Ends its input. It answers what it has read, and ends by itself."""
        self.given.close()

    def kill(self) -> None:
        if not self.has_ended:
            self.transport.kill()

    async def end(self) -> End:
        found: End = await asyncio.shield(self.ended)
        return found


async def start(program: str, config: Union[str, bytearray], journal: Path,
                on_end: Callable[[], None]) -> Below:
    """Starts it, in a session of its own: what ends this one by its terminal leaves it alone. As in
    this process, a file that grows too large is a write that fails, and no signal."""
    mine, theirs = socket.socketpair(socket.AF_UNIX, socket.SOCK_SEQPACKET)
    with theirs, readable(config) as (path, handles):
        mine.setsockopt(socket.SOL_SOCKET, socket.SO_SNDBUF, INPUT)
        _, below = await asyncio.get_running_loop().subprocess_exec(
            lambda: Below(mine, on_end), program, "serve", path, "--journal", str(journal),
            stdin=theirs.fileno(), pass_fds=handles, start_new_session=True, restore_signals=False)
    return below


@contextmanager
def readable(config: Union[str, bytearray]) -> Iterator[tuple[str, Sequence[int]]]:
    """The path under which a configuration is read, and the handle that it needs. A text comes by a
    pipe with room for all of it: it is read once, and never on a disk."""
    if isinstance(config, str):
        yield config, ()
        return
    given, into = os.pipe()
    try:
        try:
            fcntl.fcntl(into, fcntl.F_SETPIPE_SZ, len(config))
            os.write(into, config)
        finally:
            os.close(into)
        yield f"/dev/fd/{given}", (given,)
    finally:
        os.close(given)
