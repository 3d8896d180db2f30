"""What is seen of a host in its own process alone. It is a program of its own, which Debian's Python runs,
as it runs the host, in a folder with a configuration, `bank.toml` and two components:

    python3 -m tests.support.service.inside WHAT

It writes what it finds, a line for each.
"""
from __future__ import annotations

import asyncio
import socket
import sys
from pathlib import Path
from types import SimpleNamespace
from typing import Any, Callable, Iterator, Sequence
from unittest.mock import Mock

import asyncpg
import uvloop

sys.path.insert(0, str(Path(__file__).resolve().parents[3] / "share/host"))
import dukpt_host.host  # noqa: E402
from dukpt import Module  # noqa: E402
from dukpt_host import arguments, components, keys  # noqa: E402
from dukpt_host.book import opening  # noqa: E402
from dukpt_host.book import lane  # noqa: E402
from dukpt_host.book import service as book  # noqa: E402
from dukpt_host.book.counts import Counts  # noqa: E402
from dukpt_host.book.lane import Lane  # noqa: E402
from dukpt_host.book.places import PAYMENT, PLACE, parted  # noqa: E402
from dukpt_host.book.service import BookService  # noqa: E402
from dukpt_host.configuration import Refused  # noqa: E402
from dukpt_host.connection import Connection  # noqa: E402
from dukpt_host.connections import Connections, Limits  # noqa: E402
from dukpt_host.exchange import Exchange  # noqa: E402
from dukpt_host.frames import MALFORMED, PROBE  # noqa: E402
from dukpt_host.host import Host  # noqa: E402
from dukpt_host.listening import is_local, prepare  # noqa: E402
from dukpt_host.log import Log  # noqa: E402
from dukpt_host.metrics import Metrics  # noqa: E402
from dukpt_host.service import Service  # noqa: E402
from dukpt_host.settings import Database, Journal  # noqa: E402
from dukpt_host.waiting import Waiting  # noqa: E402

# Longer than anything here takes.
SECONDS = 60.0
# A frame without contents, and its refusal.
FRAME, ANSWER = PROBE, b"\0\x0d\1" + MALFORMED
# By then a client is in, and its frame is read.
TURNS = 30
WORDS = ("host.toml", "--component", "lmk.1", "--component", "lmk.2", "--postgres", "postgresql:///none")
TEST_KEYS = ("bank.toml", "--test-keys", "--postgres", "postgresql:///none")


def exchange() -> Exchange:
    waiting, metrics, log = Waiting(), Metrics(), Log()
    return Exchange(waiting, Connections(Limits(), waiting, metrics, log), metrics, log, "unknown")


# A client that comes as the host is told to end


class AtEnd:
    """In the place of a service: it answers what was read when it is told to end."""

    wrong, right, silent, is_open, status, has_ended = "", "serving", "", True, 0, False

    def __init__(self, all_of: Exchange) -> None:
        self.exchange = all_of
        self.settled, self.stopping = asyncio.Event(), asyncio.Event()
        self.settled.set()

    def stop(self) -> None:
        self.stopping.set()
        self.exchange.stop()

    def give(self, frames: Sequence[bytes]) -> None:
        self.answers = [ANSWER] * len(frames)

    async def take(self) -> list[bytes]:
        return self.answers

    async def run(self) -> None:
        await self.stopping.wait()
        await self.exchange.serve(self)

    def collect(self) -> Iterator[Any]:
        return iter(())


def standing_in(_: object, connections: Connections, metrics: Metrics, log: Log) -> AtEnd:
    return AtEnd(Exchange(connections.waiting, connections, metrics, log, "unknown"))


class Telling(Host):
    """It is told to end so many turns of its loop behind the first client."""

    turns = 0

    async def run(self) -> int:
        meet, loop = self.door.meet, asyncio.get_running_loop()

        def later(left: int) -> None:
            if left:
                loop.call_soon(later, left - 1)
            else:
                self.stop()

        def meeting(taken: socket.socket, peer: str) -> None:
            meet(taken, peer)
            later(self.turns)

        setattr(self.door, "meet", meeting)
        return await super().run()


async def told_to_end(turns: int) -> str:
    """How many frames were read of a client that had sent one, how many answers it has, the status."""
    host = Telling(arguments.read((*WORDS, "--listen", "127.0.0.1:0")), Log())
    host.turns = turns
    with socket.create_connection(host.sockets[0].getsockname(), SECONDS) as client:
        client.sendall(FRAME)
        status = await asyncio.wait_for(host.run(), SECONDS)
        try:
            read = client.recv(100)
        except ConnectionResetError:
            read = b""
    return f"{host.metrics.frames} read, {read.count(ANSWER)} answered, status {status}"


def entering() -> Iterator[str]:
    """Each thing that comes of it, over all turns in which it may be told."""
    setattr(dukpt_host.host, "service_of", standing_in)
    for loop in (None, uvloop.new_event_loop):
        for turns in range(TURNS):
            with asyncio.Runner(loop_factory=loop) as runner:
                yield runner.run(told_to_end(turns))


# A client that reads nothing, and whose frames are lost


async def unread() -> str:
    """How many connections there are behind the time for last answers, of one whose frames are answered
    once they are lost, as those of a group that is under way may be."""
    waiting, metrics, log = Waiting(), Metrics(), Log()
    of_all = Connections(Limits(unread=1 << 30, closing=0.1), waiting, metrics, log)
    mine, theirs = socket.socketpair()
    with theirs:
        mine.setblocking(False)
        it, frames = Connection(of_all, "it"), 1 << 16
        await asyncio.get_running_loop().create_connection(lambda: it, sock=mine)
        it.unanswered += frames + 1
        it.answered([ANSWER] * frames)
        of_all.lose_all("not serving")
        it.answered([ANSWER])
        until = asyncio.get_running_loop().time() + SECONDS
        while of_all.all and asyncio.get_running_loop().time() < until:
            await asyncio.sleep(0.2)
            of_all.look()
    return f"{len(of_all.all)} connections, {metrics.dropped} answers dropped"


class Closing(asyncio.Transport):
    """A line over which nobody says that it has ended. It counts how often it is closed."""

    closed = 0

    def is_closing(self) -> bool:
        return self.closed > 0

    def close(self) -> None:
        self.closed += 1

    def pause_reading(self) -> None:
        pass


def closed() -> Iterator[str]:
    """How often a connection is closed that is lost, and lost and ended again."""
    waiting, metrics, log = Waiting(), Metrics(), Log()
    of_all, line = Connections(Limits(), waiting, metrics, log), Closing()
    Connection(of_all, "it").connection_made(line)
    for _ in range(2):
        of_all.lose_all("not serving")
        of_all.end_all("stop")
    yield f"closed {line.closed} times"


# Sockets


class Bound:
    """In the place of a socket that listens at an address."""

    family = socket.AF_INET

    def __init__(self, host: str) -> None:
        self.host = host

    def getsockname(self) -> tuple[str, int]:
        return self.host, 7000


def reached() -> Iterator[str]:
    """Which addresses no other machine reaches; and how it is noticed that a client is gone."""
    places: Any = [Bound(it) for it in ("127.0.0.1", "127.8.8.8", "::1", "0.0.0.0", "::", "10.0.0.11",
                                        "169.254.1.1", "192.168.1.1", "203.0.113.1", "fe80::1%lo", "fd00::1")]
    yield " ".join(it.host for it in places if is_local(it))
    with socket.socket() as taken:
        prepare(taken, 1 << 16)
        options = (socket.TCP_KEEPIDLE, socket.TCP_KEEPINTVL, socket.TCP_KEEPCNT)
        seconds = [taken.getsockopt(socket.IPPROTO_TCP, it) for it in options]
        yield f"{taken.getsockopt(socket.SOL_SOCKET, socket.SO_KEEPALIVE)} {seconds}"


# A connection to the database that ends as soon as it is open


class Ended:
    def add_log_listener(self, _: object) -> None:
        raise asyncpg.InterfaceError("connection is closed")

    def terminate(self) -> None:
        pass


class Recording:
    """In the place of a module."""

    closed = 0

    def close(self) -> None:
        self.closed += 1


async def lanes() -> str:
    """How often a host opens one, that goes on until it is told to end behind the third; and how often it
    closes its module."""
    module, opened = Recording(), list[object]()

    async def open_ready(*_: object) -> Ended:
        opened.append(None)
        if len(opened) == 3:
            it.stop()
        return Ended()

    async def standbys(*_: object) -> int:
        return 1

    setattr(book, "open_ready", open_ready)
    setattr(book, "standbys", standbys)
    with_all: Any = exchange()
    it = book.BookService(Database((), True, 1), module, with_all, with_all.metrics, with_all.log)
    await asyncio.wait_for(it.run(), SECONDS)
    return f"opened {len(opened)}, closed {module.closed}"


# What a server says while it settles


def heard() -> Iterator[str]:
    """Which messages of a server, which speaks another language, tell that its wait was cancelled."""
    with_all, connection = exchange(), Mock()
    for own, english in (("WARNUNG", "WARNING"), ("HINWEIS", "NOTICE")):
        it = Lane(connection, True, Module.__new__(Module), Counts(), with_all.log)
        it.hear(connection, SimpleNamespace(severity=own, severity_en=english))
        yield f"{own}: {it.has_warned}"


# A watch that meets a fault that nobody foresaw


async def watched() -> str:
    """What a host says of itself while its watch meets one, and behind that."""
    with_all: Any = exchange()
    it = book.BookService(Database((), True, 1), Module.__new__(Module), with_all, with_all.metrics, with_all.log)
    looks, seen, turns = [True, False, True], list[str](), asyncio.Semaphore(0)

    async def open_ready(*_: object) -> Ended:
        return Ended()

    async def standbys(*_: object) -> int:
        await turns.acquire()
        if not looks.pop(0):
            raise KeyError("unforeseen")
        return 1

    setattr(book, "open_ready", open_ready)
    setattr(book, "standbys", standbys)
    setattr(book, "EVERY", 0.0)
    watch = asyncio.create_task(it.watch())
    while looks:
        it.settled.clear()
        turns.release()
        await asyncio.wait_for(it.settled.wait(), SECONDS)
        seen.append(it.wrong or it.right)
    watch.cancel()
    return "; ".join(seen)


# A piece that meets a fault that nobody foresaw


class Said(Log):
    """It keeps its lines. One with this text cannot be written, which is no fault of the stream."""

    def __init__(self, broken: str = "no line") -> None:
        super().__init__()
        self.lines, self.broken = list[str](), broken

    def line(self, text: str, mark: str = "") -> None:
        if self.broken in text:
            raise ValueError("unforeseen")
        self.lines.append(text)


class Answering(AtEnd):
    """In the place of a service: it answers each group at once."""

    async def run(self) -> None:
        await self.exchange.serve(self)
        await self.stopping.wait()
        await self.exchange.serve(self)


class Settling:
    """In the place of a module, to which each frame is a payment, and its answer `ANSWER`."""

    def judge_places(self, places: bytes) -> bytes:
        return b"".join(bytes([PAYMENT]) + bytes(PLACE - 1) for _ in parted(places))

    def answer_places(self, places: bytes) -> bytes:
        return b"".join(ANSWER.ljust(PLACE, b"\0") for _ in parted(places))

    def close(self) -> None:
        pass


class Kept:
    """In the place of a database: it counts what was settled, and how often a settle broke."""

    def __init__(self) -> None:
        self.settled = self.breaks = 0

    async def settle(self, _: object, group: Sequence[bytes], __: bool) -> list[bytes]:
        if not self.breaks:
            self.breaks += 1
            raise ValueError("unforeseen")
        self.settled += len(group)
        return [*group]


class Open(Ended):
    """A connection to a database that stays open."""

    def add_log_listener(self, _: object) -> None:
        pass


async def asked(host: Host, count: int = 3) -> str:
    """How many answers a client gets that sends so many frames and reads to the end, or to one too many."""
    reader, writer = await asyncio.open_connection(*host.sockets[0].getsockname()[:2])
    writer.write(FRAME * count)
    data, wanted = b"", ANSWER * count
    try:
        while len(data) < len(wanted) and (more := await reader.read(1 << 16)):
            data += more
        data += await asyncio.wait_for(reader.read(1 << 16), 0.2)
    except (OSError, asyncio.TimeoutError):
        pass
    writer.close()
    return f"{len(data) // len(ANSWER)} of {count}" if wanted.startswith(data) else f"wrong: {data.hex()}"


async def came(host: Host, frames: int) -> None:
    """Waits until so many frames were read."""
    while host.metrics.frames < frames:
        await asyncio.sleep(0.001)


async def end_of(running: asyncio.Task[int], host: Host, seconds: float = SECONDS) -> str:
    """How a host ends, which is told to where it does not by itself in so many seconds."""
    done, _ = await asyncio.wait([running], timeout=seconds)
    host.stop()
    try:
        end = f"status {await asyncio.wait_for(running, SECONDS)}"
    except ValueError as why:
        end = f"fault {why}"
    return f"{'by itself' if done else 'told to'}, {end}"


def made(log: Log) -> Host:
    return Host(arguments.read((*WORDS, "--listen", "127.0.0.1:0", "--closing", "0.5")), log)


# So long it is looked at a host that is to go on.
WATCHED = 0.5


async def broken_settle() -> str:
    """Of a group that the first client waits for nobody knows what came. Its connection ends, and the next one
    goes on over another connection to the database."""
    kept, log, seen = Kept(), Said(), list[BookService]()

    async def open_ready(*_: object) -> Open:
        return Open()

    async def standbys(*_: object) -> int:
        return 1

    def service(_: object, connections: Connections, metrics: Metrics, log: Log) -> Any:
        with_all = Exchange(connections.waiting, connections, metrics, log, "unknown")
        module: Any = Settling()
        seen.append(BookService(Database((), True, 1), module, with_all, metrics, log))
        return seen[0]

    setattr(book, "open_ready", open_ready)
    setattr(book, "standbys", standbys)
    setattr(lane, "settle", kept.settle)
    setattr(dukpt_host.host, "service_of", service)
    host = made(log)
    running = asyncio.create_task(host.run())
    found = [await asked(host), await asked(host)]
    told = [it for it in log.lines if "unforeseen" in it]
    return (f"{found}, {kept.settled} settled, {seen[0].counts.lost} lost, "
            f"{host.metrics.closed['unknown']} unknown; {await end_of(running, host, WATCHED)}; {told}")


def breaks(*_: object) -> Any:
    raise ValueError("unforeseen")


async def broken_answer(piece: str) -> str:
    """A line of an answer that cannot be written, or what counts answers, in a host that answers at once."""
    setattr(dukpt_host.host, "service_of", answering)
    log = Said("refused 00" if piece == "line" else "no line")
    host = made(log)
    if piece == "count":
        setattr(host.metrics.seconds, "add", breaks)
    running = asyncio.create_task(host.run())
    return f"{await asked(host)}; {await end_of(running, host)}"


async def broken_beside(piece: str) -> str:
    """What looks at limits of time, or lets clients in, beside a client whose frames were read and are answered
    when the host ends."""
    setattr(dukpt_host.host, "service_of", standing_in)
    host = made(Said())
    look, meet = host.connections.look, host.door.meet

    def looking() -> None:
        if host.metrics.frames:
            breaks()
        look()

    def meeting(taken: socket.socket, peer: str) -> None:
        if host.metrics.frames:
            taken.close()
            breaks()
        meet(taken, peer)

    setattr(*((host.connections, "look", looking) if piece == "beat" else (host.door, "meet", meeting)))
    running = asyncio.create_task(host.run())
    first = asyncio.create_task(asked(host))
    await came(host, 3)
    if piece == "door":
        await asked(host)
    return f"{await first}; {await end_of(running, host)}"


async def broken_frames() -> str:
    """What takes the frames of a client, the first time: its connection ends, and the next one has answers.
    asyncio tells of it."""
    setattr(dukpt_host.host, "service_of", answering)
    host, told, turns = made(Said()), list[str](), [breaks]
    add = host.connections.waiting.add

    def adding(*given: Any) -> None:
        if turns:
            turns.pop()()
        add(*given)

    setattr(host.connections.waiting, "add", adding)
    asyncio.get_running_loop().set_exception_handler(lambda _, of: told.append(str(of.get("exception"))))
    running = asyncio.create_task(host.run())
    found = [await asked(host), await asked(host)]
    return f"{found}; {await end_of(running, host, WATCHED)}; {told}"


async def full() -> str:
    """A host of which no line finds room."""
    setattr(dukpt_host.host, "service_of", answering)
    told, sys.stderr = sys.stderr, open("/dev/full", "w", encoding="utf-8")
    host = made(Log())
    running = asyncio.create_task(host.run())
    found = f"{await asked(host)}; {await end_of(running, host, WATCHED)}"
    sys.stderr = told
    return found


def answering(_: object, connections: Connections, metrics: Metrics, log: Log) -> Answering:
    return Answering(Exchange(connections.waiting, connections, metrics, log, "unknown"))


def broken() -> Iterator[str]:
    """What comes of each, in the loop of Python and in that of uvloop."""
    for name, work in (("settle", broken_settle), ("line", lambda: broken_answer("line")),
                       ("count", lambda: broken_answer("count")), ("beat", lambda: broken_beside("beat")),
                       ("door", lambda: broken_beside("door")), ("frames", broken_frames), ("full", full)):
        for loop in (None, uvloop.new_event_loop):
            with asyncio.Runner(loop_factory=loop) as runner:
                yield f"{name}: {runner.run(work())}"


# Several places of a database, of which some are silent


class Opened:
    """A connection to a place."""

    def __init__(self, place: str, ended: list[str]) -> None:
        self.place, self.ended = place, ended

    def terminate(self) -> None:
        self.ended.append(self.place)


async def places() -> str:
    """What is opened of places of which one is silent, and what is ended of those that nobody takes; and what
    is told of places of which none can be served over."""
    ended = list[str]()

    async def open_place(place: str, _: object) -> Opened:
        if place == "silent":
            await asyncio.Event().wait()
        if place == "standby":
            raise opening.NotThere(place)
        if place == "wrong":
            raise opening.NotServed(place)
        return Opened(place, ended)

    setattr(opening, "open_place", open_place)
    found = await asyncio.wait_for(opening.open_ready(
        Database(("silent", "standby", "wrong", "one", "other"), True, 1)), SECONDS)
    await asyncio.sleep(0.01)
    told = [f"opened {found.place}" if found.place not in ended else "opened and ended",
            f"ended {len(ended)}, left {len(asyncio.all_tasks()) - 1}"]
    for names in (("standby", "wrong", "standby"), ("standby", "standby")):
        try:
            await opening.open_ready(Database(names, True, 1))
        except opening.NotServed as why:
            told.append(f"{type(why).__name__}: {why}")
    return "; ".join(told).replace("opened other", "opened one")


# What has keys


class Wiped:
    """What is wiped of keys from now on: how much that is, and how much of it keeps a byte; and the
    modules that are made."""

    def __init__(self) -> None:
        self.held: list[bytearray] = []
        self.modules = list[Module]()
        wipe = components.wipe

        def wiping(it: bytearray) -> None:
            wipe(it)
            self.held.append(it)

        def making(*given: Any) -> Module:
            self.modules.append(Module(*given))
            return self.modules[-1]

        for module in (components, keys):
            setattr(module, "wipe", wiping)
        setattr(keys, "Module", making)

    def told(self, name: str) -> str:
        held, modules = self.held, self.modules
        self.held, self.modules = [], []
        return (f"{name}: {len(held)} wiped, {sum(map(any, held))} of them not; "
                f"{sum('closed' in repr(it) for it in modules)} of {len(modules)} modules closed")


def wiped() -> Iterator[str]:
    seen, settings = Wiped(), arguments.read(WORDS)
    keys.module_of(settings)
    yield seen.told("a module")
    keys.module_of(arguments.read(TEST_KEYS))
    yield seen.told("a module of test keys")
    text = keys.clear_text(settings)
    yield seen.told("a text")
    of_all = exchange()
    below = Service(text, Journal("none", Path("journal")), of_all, of_all.metrics, of_all.log)
    below.stop()
    asyncio.run(below.run())
    yield f"the text behind its host: {sum(map(bool, text))} bytes"
    config = Path("host.toml")
    config.write_text(config.read_text().replace('zone = "', 'zone = "B'))
    for make in (keys.module_of, keys.clear_text):
        try:
            make(settings)
        except Refused as why:
            yield seen.told(str(why))


WHAT: dict[str, Callable[[], Iterator[str]]] = {
    "entering": entering, "reached": reached, "closed": closed, "unread": lambda: iter([asyncio.run(unread())]),
    "lanes": lambda: iter([asyncio.run(lanes())]), "heard": heard, "wiped": wiped, "broken": broken,
    "watched": lambda: iter([asyncio.run(watched())]), "places": lambda: iter([asyncio.run(places())])}


def main(words: Sequence[str]) -> None:
    for line in WHAT[words[0]]():
        print(line)


if __name__ == "__main__":
    main(sys.argv[1:])
