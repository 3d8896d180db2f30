"""All parts together: how the host starts, and how it stops."""
from __future__ import annotations

import asyncio
import signal
import socket
from time import monotonic
from typing import Optional, Union

from .connections import Connections
from .exchange import Exchange
from .listening import Door, context_of, listeners, name_of, notify, watchdog
from .log import Log
from .metrics import Metrics
from .serving import Serving
from .settings import Journal, Settings
from .waiting import Waiting
from .web import LONGEST, Web

# How often limits of time are looked at, in seconds.
TICK = 0.25


class Host:
    """The parts of a host. Its sockets are open once it is made. It lets in whom it can answer.
    `mark` stands before all that its health says."""

    def __init__(self, settings: Settings, log: Log) -> None:
        self.settings, self.log = settings, log
        self.mark = "test keys: " if settings.has_test_keys else ""
        self.metrics = Metrics()
        self.connections = Connections(settings.limits, Waiting(), self.metrics, log)
        self.service = service_of(settings, self.connections, self.metrics, log)
        self.metrics.of_service = self.service.collect
        context = context_of(settings.tls)
        self.sockets = listeners(settings)
        self.door = Door(lambda: self.service.is_open, context, self.connections, self.metrics, log)

    async def run(self) -> int:
        """Serves until a signal asks for the end."""
        for way in (signal.SIGTERM, signal.SIGINT, signal.SIGHUP):
            asyncio.get_running_loop().add_signal_handler(way, self.stop)
        web = await self.open_web()
        serving = asyncio.create_task(self.service.run())
        beats = asyncio.create_task(self.beat())
        doors = [asyncio.create_task(self.let_in(it)) for it in self.sockets]
        stopping = asyncio.create_task(self.service.stopping.wait())
        await asyncio.wait([serving, stopping, beats, *doors], return_when=asyncio.FIRST_COMPLETED)
        # These go on for ever, but for a fault that nobody foresaw: that ends the host.
        broken = [it for it in (beats, *doors) if it.done()]
        if broken:
            self.stop()
        notify("STOPPING=1")
        for task in doors:
            task.cancel()
        for it in self.sockets:
            it.close()
        self.connections.end_all("stop")
        try:
            await serving
        finally:
            await self.see_out()
            beats.cancel()
            if web:
                web.close()
        for task in broken:
            await task
        return self.service.status

    def stop(self) -> None:
        """Reads no more, has what was read answered, and then ends."""
        self.connections.end_all("stop")
        self.service.stop()

    async def let_in(self, listener: socket.socket) -> None:
        await self.service.settled.wait()
        self.log.note(f"listening on {name_of(listener.getsockname())}")
        await self.door.watch(listener)

    async def open_web(self) -> Optional[asyncio.Server]:
        if self.settings.metrics is None:
            return None
        host, port = self.settings.metrics
        talk = Web(self.metrics, self.service, self.mark).talk
        server = await asyncio.start_server(talk, host, port, limit=LONGEST)
        for it in server.sockets:
            self.log.note(f"metrics and health on {name_of(it.getsockname())}")
        return server

    async def beat(self) -> None:
        """Looks at limits of time, and tells systemd how it is."""
        await self.service.settled.wait()
        notify("READY=1")
        every, due, told = watchdog(), 0.0, ""
        while True:
            self.connections.look()
            self.log.look()
            status = self.mark + (self.service.wrong or self.service.right)
            if status != told:
                told = status
                notify(f"STATUS={status}")
            if every and monotonic() >= due:
                due = monotonic() + every
                notify("WATCHDOG=1")
            await asyncio.sleep(TICK)

    async def see_out(self) -> None:
        """Waits until the clients have read their last answers, but not for those that do not."""
        until = monotonic() + self.settings.limits.closing
        while self.connections.all and monotonic() < until:
            await asyncio.sleep(0.01)
        for it in list(self.connections.all):
            it.transport.abort()
        await asyncio.sleep(0)


def service_of(settings: Settings, connections: Connections, metrics: Metrics,
               log: Log) -> Serving:
    """The service over a journal or a database. Only the second one needs the libraries for it; and
    test keys over a journal need none."""
    store, waiting = settings.store, connections.waiting
    if isinstance(store, Journal):
        from .service import Service
        exchange = Exchange(waiting, connections, metrics, log, "restart")
        return Service(configuration_below(settings), store, exchange, metrics, log)
    from .book.service import BookService
    from .keys import module_of
    exchange = Exchange(waiting, connections, metrics, log, "unknown")
    return BookService(store, module_of(settings), exchange, metrics, log)


def configuration_below(settings: Settings) -> Union[str, bytearray]:
    """The path of the configuration of the process below, or its text."""
    if settings.has_test_keys:
        return settings.config
    from .keys import clear_text
    return clear_text(settings)
