"""All connections, and the limits that each of them keeps."""
from __future__ import annotations

from dataclasses import dataclass
from time import monotonic

from .connection import Connection
from .log import Log
from .metrics import Metrics
from .waiting import Waiting

# Ends that a line tells.
FAULTS = {
    "no frame": "bytes that are no frame",
    "cut frame": "its input ends in a frame",
    "unfinished frame": "a frame is not finished in time",
    "slow reader": "it does not read its answers",
    "idle": "nothing came for too long",
    "restart": "the service below was started again, and frames have no answer",
    "unknown": "what came of frames is not known, and they have no answer",
    "not serving": "the host does not serve",
}


@dataclass(frozen=True)
class Limits:
    """How many connections there may be, how many bytes of answers one may leave unread, and for
    how many seconds it may be silent, have a frame unfinished, and read its last answers."""

    connections: int = 1000
    unread: int = 1 << 18
    idle: float = 3600
    frame: float = 30
    closing: float = 10


class Connections:
    """The connections that there are."""

    def __init__(self, limits: Limits, waiting: Waiting, metrics: Metrics, log: Log) -> None:
        self.limits, self.waiting, self.metrics, self.log = limits, waiting, metrics, log
        self.unread = limits.unread
        self.all: set[Connection] = set()
        # Why all are ended, also those that open from then on.
        self.ending = ""
        metrics.connections = lambda: len(self.all)

    def opened(self, it: Connection) -> None:
        self.all.add(it)
        self.metrics.opened += 1
        if self.ending:
            it.end(self.ending)

    def closed(self, it: Connection) -> None:
        self.all.discard(it)
        self.waiting.paused.discard(it)
        self.metrics.closed[it.why] += 1
        if it.why in FAULTS:
            self.log.clients.tell(f"{it.peer}: closed: {FAULTS[it.why]}")

    def came(self, frames: int) -> None:
        self.metrics.frames += frames

    def dropped(self, answers: int) -> None:
        self.metrics.dropped += answers

    def look(self) -> None:
        """Ends those that are beyond a limit of time."""
        now, limits = monotonic(), self.limits
        for it in list(self.all):
            silent = now - it.moved
            if it.begun is not None and now - it.begun > limits.frame:
                it.end("unfinished frame")
            elif it.is_ending and not it.unanswered and silent > limits.closing:
                it.transport.abort()
            elif not it.unanswered and not it.is_ending and silent > limits.idle:
                it.cut_off("idle")

    def end_all(self, why: str) -> None:
        """Reads no more of any, also of who is being let in, and closes each when all that was read
        is answered."""
        self.ending = why
        for it in list(self.all):
            it.end(why)

    def lose_all(self, why: str) -> None:
        """Closes all at once, with what waits of them."""
        for it in list(self.all):
            self.lose(it, why)

    def lose(self, it: Connection, why: str) -> None:
        """Closes one of which frames get no answer."""
        self.metrics.unanswered += self.waiting.forget(it)
        it.lost(why)
