"""A connection to the database that has a group at a time."""
from __future__ import annotations

import asyncio
from time import monotonic
from typing import Any, Callable, Optional, Sequence

from dukpt import Module

from ..deciding import Ended
from ..log import Log
from .counts import Counts
from .opening import told
from .places import PLACE, REFUSED, frame_in, parted, places_of
from .settling import settle

# Seconds that a group may take. A standby that is gone for longer is seen by the watch before.
PATIENCE = 10.0
# Above so many frames keys are used in a thread, beside which other groups go on.
AT_ONCE = 128


class Doubtful(Exception):
    """That the database warned while it settled a group: its wait for the standby was cancelled."""


class Lane:
    """It ends at the first group of which it does not know what came. The group may be kept then,
    or may not: whoever asks again is told."""

    def __init__(self, connection: Any, is_replicated: bool, module: Module, counts: Counts,
                 log: Log) -> None:
        self.connection, self.is_replicated, self.module = connection, is_replicated, module
        self.counts, self.log = counts, log
        self.has_ended = False
        self.has_warned = False
        self.deciding: Optional[asyncio.Task[list[bytes]]] = None
        connection.add_log_listener(self.hear)

    def give(self, frames: Sequence[bytes]) -> None:
        self.deciding = asyncio.create_task(self.decide(frames))

    async def take(self) -> list[bytes]:
        assert self.deciding is not None
        try:
            return await self.deciding
        except Exception as why:
            self.log.line(f"what came of a group is not known: {told(why)}")
            self.counts.lost += 1
            self.kill()
            raise Ended from None

    async def decide(self, frames: Sequence[bytes]) -> list[bytes]:
        """The answers to frames. Refusals alone are a group of none, which is settled too: so an
        answer always says that the database settles."""
        judged = parted(await apart(self.module.judge_places, places_of(frames)))
        group = [it for it in judged if it[0] != REFUSED]
        settled = await self.settle(group)
        answers = iter(parted(await apart(self.module.answer_places, b"".join(settled))))
        return [frame_in(it if it[0] == REFUSED else next(answers)) for it in judged]

    async def settle(self, group: Sequence[bytes]) -> list[bytes]:
        """Settles a group in time. Nothing is cancelled: to cancel the wait for the standby would
        let others see what it does not have yet."""
        self.has_warned = False
        began = monotonic()
        limit = asyncio.get_running_loop().call_later(PATIENCE, self.connection.terminate)
        try:
            settled = await settle(self.connection, group, self.is_replicated)
        finally:
            limit.cancel()
        if self.has_warned:
            raise Doubtful("the wait for the standby was cancelled")
        self.counts.seconds.add(monotonic() - began)
        return settled

    def hear(self, _: Any, message: Any) -> None:
        """The function of the book warns of nothing, but the server of a wait that ended early."""
        if getattr(message, "severity_en", None) == "WARNING":
            self.has_warned = True

    def rest(self) -> None:
        """Takes no further group."""
        self.has_ended = True

    def kill(self) -> None:
        self.has_ended = True
        self.connection.terminate()


async def apart(step: Callable[[bytes], bytes], places: bytes) -> bytes:
    """What a step of the module makes, in a thread where that takes long."""
    is_long = len(places) > AT_ONCE * PLACE
    return await asyncio.to_thread(step, places) if is_long else step(places)
