"""The process below for as long as this host lives: its starts, its ends, what follows on them."""
from __future__ import annotations

import asyncio
from time import monotonic
from typing import Iterator, Union

from prometheus_client.core import GaugeMetricFamily
from prometheus_client.metrics_core import Metric

from .below import Below, End, start
from .deciding import Ended
from .exchange import Exchange
from .frames import PROBE
from .journal import Held, Refused, State, put_copy, room_of
from .log import Log
from .metrics import Metrics, by_word, from_zero
from .serving import NotStarted
from .settings import Journal

# Seconds before a start where the one before answered nothing: the first, and the most.
FIRST_DELAY, MOST_DELAY = 0.1, 10.0
STARTS = "the service below is being started"


class Service:
    """Where only a human can help, `has_failed` is set: nobody is let in any more, and nothing is
    started again."""

    right = "serving"
    silent = "the service below gives no answer"

    def __init__(self, config: Union[str, bytearray], journal: Journal, exchange: Exchange,
                 metrics: Metrics, log: Log) -> None:
        # The path of its configuration, or the text of one that stands in no file.
        self.config, self.program, self.journal = config, journal.program, journal.path
        self.exchange, self.metrics, self.log = exchange, metrics, log
        self.state = State(self.journal)
        self.wrong = STARTS
        self.has_failed = False
        self.restarts = from_zero(("killed", "ended"))
        # Set once it is known how the first start went; and when this is to stop.
        self.settled, self.stopping = asyncio.Event(), asyncio.Event()

    @property
    def is_open(self) -> bool:
        return not self.has_failed

    @property
    def status(self) -> int:
        """1 where the journal has failed."""
        return 1 if self.has_failed else 0

    def stop(self) -> None:
        self.stopping.set()
        self.exchange.stop()

    async def run(self) -> None:
        try:
            await self.serve_on()
        except Refused as why:
            self.fail(str(why))
            await self.stopping.wait()
        self.exchange.lose_all()
        if isinstance(self.config, bytearray):
            self.config[:] = bytes(len(self.config))

    async def serve_on(self) -> None:
        """Starts the process, again where it ended and nothing was lost, until this is to stop."""
        held, failures, is_up = self.state.held(), 0, False
        while not self.stopping.is_set():
            if held is Held.FAILED:
                raise Refused("the journal failed: put a checked copy in its place, and then remove"
                              f" {self.state.path}")
            if held is Held.RUNNING:
                await self.recover()
            has_answered, end = await self.serve_once()
            held, is_up = self.judge(end), is_up or has_answered
            if self.stopping.is_set() or held is Held.FAILED:
                continue
            if not is_up and not end.is_killed:
                raise NotStarted(str(end))
            failures = 0 if has_answered else failures + 1
            self.restarts["killed" if end.is_killed else "ended"] += 1
            await self.pause(failures)

    async def recover(self) -> None:
        """Goes on over a checked copy of the journal, behind a service that was not seen to end."""
        began = monotonic()
        self.wrong = "the journal is being copied, since a sync may have failed unseen"
        await put_copy(self.program, self.journal)
        self.state.keep(Held.NOTHING)
        self.log.note(f"the journal was copied and checked in {monotonic() - began:.2f} s")

    async def serve_once(self) -> tuple[bool, End]:
        """Serves by one process, to its end: whether it answered at all, and how it ended."""
        began = monotonic()
        self.wrong = self.wrong or STARTS
        self.state.keep(Held.RUNNING)
        below = await start(self.program, self.config, self.journal,
                            self.exchange.waiting.stirred.set)
        has_answered = await answers(below)
        if has_answered:
            room = room_of(self.journal)
            self.log.note(f"serving after {monotonic() - began:.2f} s, with room for {room.left} of"
                          f" {room.records} records")
            self.wrong, self.metrics.is_serving = "", True
            self.settled.set()
            await self.exchange.serve(below)
        below.end_input()
        end = await below.end()
        self.metrics.is_serving = False
        return has_answered, end

    def judge(self, end: End) -> Held:
        """What is kept of an end."""
        if not (self.stopping.is_set() and end.status == 0 and not end.lines):
            self.wrong = f"the service below ended: {end}"
            self.log.line(self.wrong)
        if end.has_failed:
            self.state.keep(Held.FAILED)
            return Held.FAILED
        if end.is_killed:
            return Held.RUNNING
        self.state.keep(Held.NOTHING)
        return Held.NOTHING

    async def pause(self, failures: int) -> None:
        """Waits before a start, longer each time where the last ones were in vain."""
        if failures:
            delay = min(MOST_DELAY, FIRST_DELAY * 2 ** (failures - 1))
            try:
                await asyncio.wait_for(self.stopping.wait(), delay)
            except asyncio.TimeoutError:
                pass

    def fail(self, why: str) -> None:
        """Waits for a human: no frame is answered any more."""
        self.wrong, self.has_failed = why, True
        self.log.line(f"nothing is served until somebody sees to it: {why}")
        self.exchange.lose_all()
        self.exchange.connections.lose_all("not serving")
        self.settled.set()

    def collect(self) -> Iterator[Metric]:
        yield by_word("dukpt_restarts", "Starts of the service after its end.", self.restarts)
        room = room_of(self.journal)
        for name, text, level in (
                ("dukpt_journal_records", "Records of the journal.", room.records),
                ("dukpt_journal_room", "Records left.", room.left),
                ("dukpt_journal_room_payments", "Payments that can still be kept.", room.payments)):
            yield GaugeMetricFamily(name, text, value=level)


async def answers(below: Below) -> bool:
    """Whether the process comes up, and answers a frame that changes nothing."""
    below.give([PROBE])
    try:
        await below.take()
    except Ended:
        return False
    return True
