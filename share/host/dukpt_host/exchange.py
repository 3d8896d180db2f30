"""Groups of frames to whatever decides them, and the answers back to whoever sent them."""
from __future__ import annotations

import asyncio
from itertools import chain
from time import monotonic
from typing import Sequence

from .connection import Connection
from .connections import Connections
from .deciding import Decider, Ended
from .frames import KIND, PROBE, REFUSAL, belongs, says
from .log import Log
from .metrics import Metrics
from .waiting import Part, Source, Waiting


class Probe(Source):
    """Asks for an answer that changes nothing. `has_answer` tells whether it came."""

    def __init__(self) -> None:
        super().__init__()
        self.has_answer: asyncio.Future[bool] = asyncio.get_running_loop().create_future()

    def answered(self, answers: Sequence[bytes]) -> None:
        self.tell(True)

    def lost(self, why: str) -> None:
        self.tell(False)

    def tell(self, how: bool) -> None:
        if not self.has_answer.done():
            self.has_answer.set_result(how)


class Exchange:
    """Each decider has one group; what comes meanwhile is the next one. `loss` is the word for
    the end of a connection whose frames have no answer."""

    def __init__(self, waiting: Waiting, connections: Connections, metrics: Metrics, log: Log,
                 loss: str) -> None:
        self.waiting, self.connections = waiting, connections
        self.metrics, self.log, self.loss = metrics, log, loss
        self.groups: dict[Decider, list[Part]] = {}
        # When each of them was given.
        self.given: dict[Decider, float] = {}
        self.is_stopping = False
        metrics.waiting = self.frames_without_answer

    def stop(self) -> None:
        """Decides what was read, and nothing behind that."""
        self.is_stopping = True
        self.waiting.stirred.set()

    async def serve(self, decider: Decider) -> None:
        """Until a decider ends, or until this stops and nothing is left for it."""
        try:
            while await self.has_group(decider):
                answers = await decider.take()
                group, took = self.groups[decider], monotonic() - self.given.pop(decider)
                if not all_belong(group, answers):
                    self.log.line("an answer is not that to its frame: what gave it is ended")
                    decider.kill()
                    raise Ended
                del self.groups[decider]
                self.waiting.done(group)
                # It works on the next group while these answers go out.
                if not decider.has_ended:
                    self.give(decider)
                self.hand_out(group, answers)
                if frames_of_connections(group):
                    self.metrics.deciding.add(took)
        except Ended:
            self.lose_group(decider)

    async def has_group(self, decider: Decider) -> bool:
        """Waits until it has a group. There is none where it has ended, or this stops."""
        while decider not in self.groups:
            if decider.has_ended:
                return False
            self.give(decider)
            if decider not in self.groups:
                if self.is_stopping:
                    return False
                await self.waiting.stirred.wait()
        return True

    def give(self, decider: Decider) -> None:
        self.waiting.stirred.clear()
        group = self.waiting.group()
        if group:
            self.groups[decider], self.given[decider] = group, monotonic()
            decider.give(frames_of(group))
            count = frames_of_connections(group)
            if count:
                self.metrics.groups.add(count)

    def hand_out(self, group: Sequence[Part], answers: Sequence[bytes]) -> None:
        now, first = monotonic(), 0
        for part in group:
            last = first + len(part.frames)
            part.source.answered(answers[first:last])
            first = last
        self.count(group, answers, now)

    def count(self, group: Sequence[Part], answers: Sequence[bytes], now: float) -> None:
        """Counts what connections were answered. It is done for all of a group at once, and behind
        the answers."""
        first, counted = 0, list[bytes]()
        for part in group:
            last = first + len(part.frames)
            if isinstance(part.source, Connection):
                mine = answers[first:last]
                counted += mine
                self.metrics.seconds.add(now - part.came, len(mine))
                for it in mine:
                    if it[KIND] == REFUSAL:
                        self.log.refused(part.source.peer, it)
            first = last
        self.metrics.answers.update(map(says, counted))

    def lose_group(self, decider: Decider) -> None:
        """The frames of the group get no answer: their connections end."""
        group = self.groups.pop(decider, [])
        self.given.pop(decider, None)
        self.waiting.done(group)
        self.metrics.unanswered += frames_of_connections(group)
        self.lose({part.source for part in group})

    def lose_all(self) -> None:
        """No frame that waits gets an answer."""
        self.lose(set(self.waiting.turns))

    def lose(self, sources: set[Source]) -> None:
        for source in sources:
            if isinstance(source, Connection):
                self.connections.lose(source, self.loss)
            else:
                self.waiting.forget(source)
                source.lost(self.loss)

    def frames_without_answer(self) -> int:
        groups = [*chain.from_iterable(self.groups.values())]
        sources = {part.source for part in groups} | set(self.waiting.turns)
        return frames_of_connections([*groups, *chain.from_iterable(it.parts for it in sources)])

    async def probe(self, seconds: float) -> bool:
        """Whether frames are decided within so many seconds: one that changes nothing, and all that
        are under way."""
        probe = Probe()
        self.waiting.add(probe, [PROBE], monotonic())
        try:
            is_answered = await asyncio.wait_for(probe.has_answer, seconds)
        except asyncio.TimeoutError:
            return False
        finally:
            self.waiting.forget(probe)
        return is_answered and all(monotonic() - it <= seconds for it in self.given.values())


def frames_of(group: Sequence[Part]) -> list[bytes]:
    return [*chain.from_iterable(part.frames for part in group)]


def all_belong(group: Sequence[Part], answers: Sequence[bytes]) -> bool:
    frames = frames_of(group)
    return len(frames) == len(answers) and all(map(belongs, frames, answers))


def frames_of_connections(parts: Sequence[Part]) -> int:
    return sum(len(it.frames) for it in parts if isinstance(it.source, Connection))
