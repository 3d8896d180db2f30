"""The lanes to the database, and the watch over it, for as long as this host lives."""
from __future__ import annotations

import asyncio
from typing import Any, Iterator, Optional

from dukpt import Module
from prometheus_client.metrics_core import Metric

from ..exchange import Exchange
from ..log import Log
from ..metrics import Metrics
from ..settings import Database
from .counts import Counts
from .lane import Lane
from .opening import FAULTS, NotServed, open_ready, standbys, told

# How often the database is looked at, and when a lane is opened again, in seconds.
EVERY, REST = 1.0, 0.5
STARTS = "the database has not been looked at yet"


class BookService:
    """It serves while the database keeps what it acknowledges, as `demands` has it. Else nobody is
    let in, and whoever is in is sent away."""

    silent = "the database does not settle a group"

    def __init__(self, database: Database, module: Module, exchange: Exchange, metrics: Metrics,
                 log: Log) -> None:
        self.database, self.module, self.exchange = database, module, exchange
        self.metrics, self.log = metrics, log
        self.counts = Counts()
        self.wrong = STARTS
        self.right = "serving" if database.is_replicated else "serving, not replicated"
        self.settled, self.stopping = asyncio.Event(), asyncio.Event()
        # Set while the lanes are to be open, or this is to stop.
        self.stirred = asyncio.Event()
        self.lanes: set[Lane] = set()
        self.watching: Optional[Any] = None

    @property
    def is_open(self) -> bool:
        return not self.wrong

    @property
    def status(self) -> int:
        return 0

    def stop(self) -> None:
        self.stopping.set()
        self.stirred.set()
        self.exchange.stop()

    async def run(self) -> None:
        watch = asyncio.create_task(self.watch())
        try:
            await asyncio.gather(*(self.keep_lane() for _ in range(self.database.groups)))
        finally:
            watch.cancel()
            # A database that is silent by now would not answer a farewell either.
            if self.watching is not None:
                self.watching.terminate()
            self.exchange.lose_all()
            self.module.close()

    def collect(self) -> Iterator[Metric]:
        yield from self.counts.collect()

    # The watch

    async def watch(self) -> None:
        while True:
            try:
                await self.look()
            except NotServed as why:
                self.close(str(why))
            except Exception as why:
                # A host that does not see the database any more has to stop serving over it.
                self.close(f"the database does not answer: {told(why)}")
            else:
                self.open()
            self.settled.set()
            await asyncio.sleep(EVERY)

    async def look(self) -> None:
        """Looks at the database. It raises where that cannot be served over."""
        if self.watching is None:
            self.watching = await open_ready(self.database)
        try:
            self.counts.standbys = await standbys(self.watching, self.database.is_replicated)
        except Exception:
            self.watching.terminate()
            self.watching = None
            raise

    def open(self) -> None:
        if self.wrong:
            self.log.note(f"{self.right}, with {self.counts.standbys} synchronous standbys")
            self.wrong, self.metrics.is_serving = "", True
            self.stirred.set()

    def close(self, why: str) -> None:
        """Serves nobody, until the database is right again. Groups that are under way may end."""
        if why != self.wrong:
            self.log.line(f"nothing is served: {why}")
        self.wrong, self.metrics.is_serving = why, False
        self.counts.standbys = 0
        if not self.stopping.is_set():
            self.stirred.clear()
        for it in self.lanes:
            it.rest()
        self.exchange.waiting.stirred.set()
        self.exchange.connections.lose_all("not serving")

    # The lanes

    async def keep_lane(self) -> None:
        """Serves by one connection after another, while the database is right, to the stop."""
        while True:
            await self.stirred.wait()
            if self.stopping.is_set():
                return
            try:
                lane = await self.open_lane()
            except Exception as why:
                # A fault that nobody foresaw ends no host either: the watch tells of it.
                if not self.wrong:
                    self.log.clients.tell(f"a connection to the database is not open: {told(why)}")
                await asyncio.sleep(REST)
                continue
            await self.serve(lane)

    async def open_lane(self) -> Lane:
        connection = await open_ready(self.database)
        try:
            return Lane(connection, self.database.is_replicated, self.module, self.counts, self.log)
        except FAULTS as why:
            # It has ended again meanwhile.
            raise NotServed(told(why)) from None

    async def serve(self, lane: Lane) -> None:
        self.lanes.add(lane)
        self.counts.lanes = len(self.lanes)
        if not self.wrong:
            await self.exchange.serve(lane)
        self.lanes.discard(lane)
        self.counts.lanes = len(self.lanes)
        lane.kill()
