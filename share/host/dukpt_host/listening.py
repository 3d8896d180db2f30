"""The sockets that clients come by: how they are opened, and how each client is let in."""
from __future__ import annotations

import asyncio
import ipaddress
import os
import socket
import ssl
from typing import Any, Callable, Optional

from systemd import daemon  # type: ignore[import]

from .connection import Connection
from .connections import Connections
from .log import Log
from .metrics import Metrics
from .settings import Address, Settings, Tls

BACKLOG = 512
# Seconds: a TLS handshake; a rest where the system has no more handles.
HANDSHAKE, REST = 10.0, 0.5
# A client that is gone without a word is noticed after 60 seconds, and 3 times 10.
KEEP_ALIVE = ((socket.TCP_KEEPIDLE, 60), (socket.TCP_KEEPINTVL, 10), (socket.TCP_KEEPCNT, 3))


class NotOpened(Exception):
    """Why no socket listens."""


def listeners(settings: Settings) -> list[socket.socket]:
    """The sockets that systemd hands over, or else those of the addresses."""
    found = [socket.socket(fileno=it) for it in daemon.listen_fds()]
    try:
        found = found or [it for address in settings.listen for it in bound(address)]
    except OSError as why:
        raise NotOpened(f"cannot listen: {why}") from None
    for it in found:
        it.setblocking(False)
        if not (settings.tls or settings.is_plain or is_local(it)):
            raise NotOpened(f"other machines reach {name_of(it.getsockname())}: --tls or --plain?")
    return found


def bound(address: Address) -> list[socket.socket]:
    """A socket for each address that a name has."""
    host, port = address
    made = []
    for family, _, _, _, where in socket.getaddrinfo(host, port, type=socket.SOCK_STREAM):
        made.append(socket.create_server(where[:2], family=family, backlog=BACKLOG))
    return made


def is_local(it: socket.socket) -> bool:
    """Whether no other machine reaches a socket."""
    if it.family == socket.AF_UNIX:
        return True
    return ipaddress.ip_address(it.getsockname()[0].partition("%")[0]).is_loopback


def name_of(address: Any) -> str:
    if isinstance(address, tuple):
        return f"[{address[0]}]:{address[1]}" if ":" in address[0] else f"{address[0]}:{address[1]}"
    return "unix"


def context_of(tls: Optional[Tls]) -> Optional[ssl.SSLContext]:
    """Demands of each client a certificate that one of the authorities signed."""
    if tls is None:
        return None
    context = ssl.SSLContext(ssl.PROTOCOL_TLS_SERVER)
    context.minimum_version = ssl.TLSVersion.TLSv1_2
    context.verify_mode = ssl.CERT_REQUIRED
    try:
        for it in (tls.authorities, tls.certificate, tls.key):
            # Only this fault names the file.
            with open(it, "rb"):
                pass
        context.load_verify_locations(tls.authorities)
        context.load_cert_chain(tls.certificate, tls.key, no_password)
    except (OSError, ValueError) as why:
        raise NotOpened(f"TLS: {why}") from None
    return context


def no_password() -> str:
    """Nobody is there to type one."""
    raise ValueError("the key has a password")


class Door:
    """Lets clients in, while it is open."""

    def __init__(self, is_open: Callable[[], bool], context: Optional[ssl.SSLContext],
                 connections: Connections, metrics: Metrics, log: Log) -> None:
        self.is_open, self.context, self.connections = is_open, context, connections
        self.metrics, self.log = metrics, log
        self.entering: dict[asyncio.Task[None], Connection] = {}

    async def watch(self, listener: socket.socket) -> None:
        """Takes the clients of a socket, for ever."""
        loop = asyncio.get_running_loop()
        while True:
            try:
                taken, address = await loop.sock_accept(listener)
            except OSError as why:
                self.log.clients.tell(f"a connection could not be taken: {why}")
                await asyncio.sleep(REST)
                continue
            self.meet(taken, name_of(address))

    def meet(self, taken: socket.socket, peer: str) -> None:
        outside = sum(not it.is_made for it in self.entering.values())
        count = len(self.connections.all) + outside
        if not self.is_open() or count >= self.connections.limits.connections:
            self.refuse(taken, peer, "too many" if self.is_open() else "not serving")
            return
        it = Connection(self.connections, peer)
        task = asyncio.create_task(self.enter(taken, it))
        self.entering[task] = it
        task.add_done_callback(self.entering.pop)

    def refuse(self, taken: socket.socket, peer: str, why: str) -> None:
        self.metrics.refused[why] += 1
        self.log.clients.tell(f"{peer}: not let in: {why}")
        taken.close()

    async def enter(self, taken: socket.socket, it: Connection) -> None:
        closing = self.connections.limits.closing
        times = {"ssl_handshake_timeout": HANDSHAKE, "ssl_shutdown_timeout": closing}
        try:
            prepare(taken, self.connections.limits.unread)
            transport, _ = await asyncio.get_running_loop().connect_accepted_socket(
                lambda: it, taken, ssl=self.context,
                **(times if self.context else {}))
            if not self.is_open():
                transport.abort()
        except OSError as why:
            self.refuse(taken, it.peer, "no TLS" if self.context else "gone")
            self.log.clients.tell(f"{it.peer}: {getattr(why, 'reason', None) or told(why)}")


def told(why: OSError) -> str:
    return str(why) or type(why).__name__


def prepare(it: socket.socket, unread: int) -> None:
    """Has the system look whether a client is there still, and hold about so many bytes for it."""
    it.setsockopt(socket.SOL_SOCKET, socket.SO_SNDBUF, unread)
    if it.family != socket.AF_UNIX:
        it.setsockopt(socket.SOL_SOCKET, socket.SO_KEEPALIVE, 1)
        for option, value in KEEP_ALIVE:
            it.setsockopt(socket.IPPROTO_TCP, option, value)


def notify(*lines: str) -> None:
    """Tells systemd, where it asked to be told."""
    daemon.notify("\n".join(lines))


def watchdog() -> float:
    """How often systemd wants to hear of this process, in seconds; 0 where it does not."""
    return int(os.environ.get("WATCHDOG_USEC", "0")) / 2e6
