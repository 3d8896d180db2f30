"""A connection: frames of a client, and their answers in the same order."""
from __future__ import annotations

import asyncio
import ssl
from time import monotonic
from typing import Optional, Protocol, Sequence, cast

from .frames import Cutter
from .waiting import Source, Waiting


class Keeper(Protocol):
    """Who has all connections."""

    waiting: Waiting
    unread: int

    def opened(self, it: Connection) -> None: ...

    def closed(self, it: Connection) -> None: ...

    def came(self, frames: int) -> None: ...

    def dropped(self, answers: int) -> None: ...


class Connection(asyncio.Protocol, Source):
    """A client. No more is read once its end is decided; it is closed when all that was read is
    answered. `why` is the word by which that is counted."""

    transport: asyncio.Transport

    def __init__(self, keeper: Keeper, peer: str) -> None:
        super().__init__()
        self.keeper, self.peer = keeper, peer
        self.cutter = Cutter()
        self.unanswered = 0
        self.why = ""
        self.is_made = self.is_ending = self.is_gone = False
        # When something came of it or went to it, and since when a frame has been unfinished.
        self.moved = monotonic()
        self.begun: Optional[float] = None

    # From the client

    def connection_made(self, transport: asyncio.BaseTransport) -> None:
        # The loop of uvloop has transports of its own.
        self.transport, self.is_made = cast(asyncio.Transport, transport), True
        self.keeper.opened(self)

    def data_received(self, data: bytes) -> None:
        if self.is_ending:
            return
        self.moved = now = monotonic()
        frames = self.cutter.cut(data)
        if not self.cutter.rest:
            self.begun = None
        elif frames or self.begun is None:
            self.begun = now
        if frames:
            self.unanswered += len(frames)
            self.keeper.came(len(frames))
            self.keeper.waiting.add(self, frames, now)
        if self.cutter.is_broken:
            self.end("no frame")

    def eof_received(self) -> bool:
        """The client ends its side. Over TLS that ends both sides."""
        self.end("cut frame" if self.cutter.rest else "client")
        return not isinstance(self.transport.get_extra_info("ssl_object"), ssl.SSLObject)

    def connection_lost(self, exc: Optional[Exception]) -> None:
        self.is_gone = self.is_ending = True
        # Over TLS a line that ends without a word is no end of its side.
        self.why = self.why or ("cut frame" if self.cutter.rest else "client")
        self.keeper.closed(self)

    # To the client

    def answered(self, answers: Sequence[bytes]) -> None:
        if self.is_gone or self.transport.is_closing():
            self.keeper.dropped(len(answers))
            return
        self.unanswered -= len(answers)
        self.moved = monotonic()
        self.transport.write(b"".join(answers))
        if self.transport.get_write_buffer_size() > self.keeper.unread:
            self.cut_off("slow reader")
        elif self.is_ending and not self.unanswered:
            self.close()

    def lost(self, why: str) -> None:
        """Frames get no answer, so no later one may: the client would take it for theirs."""
        self.end(why)
        self.unanswered = 0
        self.close()

    # Its end

    def end(self, why: str) -> None:
        """Reads no more, and closes when all is answered."""
        if not self.is_ending:
            self.is_ending, self.why, self.begun = True, why, None
            self.moved = monotonic()
            self.transport.pause_reading()
        if not self.unanswered:
            self.close()

    def close(self) -> None:
        """Closes it behind what was written, and only once. In the loop of Python, what is closed
        twice over TLS can neither be aborted nor asked anything any more."""
        if not self.transport.is_closing():
            self.transport.close()

    def cut_off(self, why: str) -> None:
        """Ends it at once, with what was not read."""
        self.why = why
        self.is_ending = True
        self.transport.abort()

    def pause(self) -> None:
        if not self.is_ending:
            self.transport.pause_reading()

    def resume(self) -> None:
        if not self.is_ending:
            self.transport.resume_reading()
