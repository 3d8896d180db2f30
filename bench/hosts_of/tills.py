"""Tills: each pays, asks again over other connections, reverses, and knows what it was told."""
from __future__ import annotations

import asyncio
import random
import time
from concurrent.futures import ProcessPoolExecutor
from dataclasses import dataclass
from typing import Iterator, Optional

from tests.support.formats.journal_records import NONE_STANDS, UNDONE
from tests.support.service.client import PURCHASES, Exchange, payments_of, refusal, usable
from tests.support.service.reversals import Reversing, reversals_of

FRONT = ("10.0.0.10", 7000)
# Seconds that a till waits for an answer, and before it asks again; and between two deals at most.
PATIENCE, REST, PAUSE = 3.0, (0.2, 0.4), 3.0
# How many deals are made at once. Of so many one is reversed, and one is asked for two amounts.
BATCH, REVERSED, DOUBLE = 2000, 3, 16
USED = 5


class Wrong(Exception):
    """What must never be."""


@dataclass
class Deal:
    """A payment, and what a till has been told of it."""

    payment: Exchange
    # Another request with its number, of which a host may accept one alone.
    rival: Optional[Exchange] = None
    reversal: Optional[Reversing] = None
    is_known: bool = False
    told: Optional[int] = None

    @property
    def amount(self) -> int:
        return int.from_bytes(self.payment.frame[-20:-16], "big")

    @property
    def code(self) -> int:
        return int(self.payment.answer[14:16])

    @property
    def stands(self) -> bool:
        return self.is_known and self.code == 0 and self.reversal is None


def deals_from(counter: int) -> tuple[list[Deal], int]:
    """Deals under the usable counters from one on, and the counter behind them."""
    def own() -> Iterator[int]:
        nonlocal counter
        while True:
            counter += 1
            if usable(counter):
                yield counter

    free = own()
    counters = [next(free) for _ in range(BATCH)]
    bought = [PURCHASES[it % len(PURCHASES)] if it % 2 else PURCHASES[0] for it in range(BATCH)]
    made = [Deal(it) for it in payments_of(counters, bought)]
    reversed_ = range(0, BATCH, REVERSED)
    for at, it in zip(reversed_, reversals_of([(next(free), counters[at]) for at in reversed_])):
        made[at].reversal = it
    double = [it for it in range(0, BATCH, DOUBLE) if made[it].reversal is None]
    for at, it in zip(double, payments_of([counters[it] for it in double], [PURCHASES[1]] * len(double))):
        made[at].rival = it
    return made, counter


class Line:
    """A connection of a till, made anew where it ended."""

    def __init__(self) -> None:
        self.streams: Optional[tuple[asyncio.StreamReader, asyncio.StreamWriter]] = None

    async def ask(self, frame: bytes) -> Optional[bytes]:
        try:
            async with asyncio.timeout(PATIENCE):
                if self.streams is None:
                    self.streams = await asyncio.open_connection(*FRONT)
                reader, writer = self.streams
                writer.write(frame)
                head = await reader.readexactly(2)
                return head + await reader.readexactly(int.from_bytes(head, "big"))
        except (OSError, EOFError, asyncio.TimeoutError):
            self.close()
            return None

    def close(self) -> None:
        if self.streams is not None:
            self.streams[1].transport.abort()
        self.streams = None


class Tills:
    """All of them, with their deals and the times of their answers."""

    def __init__(self, chance: random.Random, count: int, pool: ProcessPoolExecutor) -> None:
        self.chance, self.count, self.pool = chance, count, pool
        self.counter, self.ready = 0, list[Deal]()
        # The deals behind them, which are made meanwhile.
        self.making: Optional[asyncio.Future[tuple[list[Deal], int]]] = None
        self.deals: list[Deal] = []
        self.refilling = asyncio.Lock()
        self.is_ending = False
        self.tasks: list[asyncio.Task[None]] = []
        self.asked_again = self.given_up = self.answers = 0
        # Since when each question waits. From a moment on, when the first answer came to a question that
        # was asked behind it, and for how long a question waited that was answered behind it.
        self.waiting: dict[object, float] = {}
        self.since = float("inf")
        self.first_at: Optional[float] = None
        self.longest = 0.0

    async def begin(self) -> None:
        self.make()
        await self.refill()

    def make(self) -> None:
        loop = asyncio.get_running_loop()
        self.making = loop.run_in_executor(self.pool, deals_from, self.counter)

    async def refill(self) -> None:
        assert self.making
        self.ready, self.counter = await self.making
        self.chance.shuffle(self.ready)
        self.make()

    async def next(self) -> Deal:
        async with self.refilling:
            if not self.ready:
                await self.refill()
            self.deals.append(self.ready.pop())
            return self.deals[-1]

    def open(self) -> None:
        self.is_ending = False
        self.tasks = [asyncio.create_task(self.live()) for _ in range(self.count)]

    async def end(self) -> None:
        """Each ends its deal."""
        self.is_ending = True
        await asyncio.gather(*self.tasks)

    async def leave(self) -> None:
        """All go at once, whatever they wait for."""
        for it in self.tasks:
            it.cancel()
        await asyncio.gather(*self.tasks, return_exceptions=True)
        self.waiting.clear()

    # When answers come

    def begin_watch(self) -> None:
        """Counts from now on."""
        self.since, self.first_at, self.longest = time.monotonic(), None, 0.0

    def has_left(self, since: float) -> bool:
        """Whether a question waits that was asked before."""
        return min(self.waiting.values(), default=since) < since

    def check_living(self) -> None:
        """Raises what a till found."""
        for it in self.tasks:
            if it.done() and not it.cancelled():
                it.result()

    # One of them

    async def ask(self, line: Line, frame: bytes) -> Optional[bytes]:
        asked = time.monotonic()
        answer = await line.ask(frame)
        if answer is not None:
            self.answers += 1
            if asked >= self.since and self.first_at is None:
                self.first_at = time.monotonic()
        return answer

    async def until_answered(self, line: Line, frame: bytes) -> bytes:
        me = object()
        self.waiting[me] = time.monotonic()
        while (answer := await self.ask(line, frame)) is None:
            self.asked_again += 1
            await asyncio.sleep(self.chance.uniform(*REST))
        self.longest = max(self.longest, time.monotonic() - self.waiting.pop(me))
        return answer

    async def live(self) -> None:
        line = Line()
        try:
            await asyncio.sleep(self.chance.uniform(0, PAUSE))
            while not self.is_ending:
                await self.act(line, await self.next())
                await asyncio.sleep(self.chance.uniform(0, PAUSE))
        finally:
            line.close()

    async def act(self, line: Line, deal: Deal) -> None:
        if deal.rival is not None:
            await self.pay_twice(line, deal, deal.rival)
        elif deal.reversal is not None:
            await self.pay_and_reverse(line, deal, deal.reversal)
        else:
            demand(await self.until_answered(line, deal.payment.frame), deal.payment.answer)
            deal.is_known = True
        if deal.reversal is None and self.chance.random() < 0.3:
            line.close()
            demand(await self.until_answered(line, deal.payment.frame), deal.payment.answer)

    async def pay_twice(self, line: Line, deal: Deal, rival: Exchange) -> None:
        """Two requests with one number at once. One is accepted, and the other one refused."""
        other = Line()
        try:
            one, two = await asyncio.gather(self.until_answered(line, deal.payment.frame),
                                            self.until_answered(other, rival.frame))
        finally:
            other.close()
        if two == rival.answer:
            one, two, deal.payment = two, one, rival
        assert deal.payment.number
        demand(one, deal.payment.answer)
        demand(two, refusal(deal.payment.number, USED))
        deal.is_known = True

    async def pay_and_reverse(self, line: Line, deal: Deal, reversal: Reversing) -> None:
        """Reverses a payment, also one to which no answer came."""
        answer = await self.ask(line, deal.payment.frame)
        if answer is None:
            self.given_up += 1
        else:
            demand(answer, deal.payment.answer)
            deal.is_known = True
        answer = await self.until_answered(line, reversal.frame)
        deal.told = reversal.told(answer)
        possible = [NONE_STANDS] if deal.code else [UNDONE] if deal.is_known else [NONE_STANDS, UNDONE]
        if deal.told not in possible:
            raise Wrong(f"reversal {reversal.frame.hex()}: {answer.hex()}")
        if self.chance.random() < 0.3:
            line.close()
            demand(await self.until_answered(line, reversal.frame), answer)
        if self.chance.random() < 0.3:
            assert deal.payment.number
            demand(await self.until_answered(line, deal.payment.frame),
                   refusal(deal.payment.number, USED))


def demand(found: bytes, wanted: bytes) -> None:
    if found != wanted:
        raise Wrong(f"the answer {found.hex()}, and not {wanted.hex()}")
