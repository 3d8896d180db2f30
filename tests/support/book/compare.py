"""Compares the statement of the book with the model and with the book that is proved, over random groups:
what each is answered, and what is kept. It is a program of its own, which Debian's Python runs, as it runs
the host:

    python3 -m tests.support.book.compare DSN SEED GROUPS LANES

With one lane each group comes behind the one before. With more, groups come at once, over so many
connections, and the clock of the server tells in which order they were settled: it is read while the
terminals of a group are held. It ends with status 1 and a line at the first difference.
"""
from __future__ import annotations

import asyncio
import random
import sys
from collections import deque
from typing import Any, Optional, Sequence

import asyncpg

from ..models.model_book import Asked, Book
from ..program import ROOT
from .groups import COUNTER_BITS, World, number_of, worlds
from .proved import Group, difference

sys.path.insert(0, str(ROOT / "share/host"))
from dukpt_host.book import settling  # noqa: E402
from dukpt_host.book.opening import SESSION  # noqa: E402

TERMINALS = "select iksn from dukpt.terminal where iksn between $1 and $2"
ROWS = """select kind, ksn, mac, amount, code, reverses, state, reversed_by from dukpt.number
where ksn between $1 and $2"""
IN_ORDER = """select said, clock_timestamp() from dukpt.settle($1, $2, $3, $4, $5, $6) as said"""


class Differs(Exception):
    """Where statement, model and proved book differ."""


def judged(it: Asked) -> bytes:
    """In the form of the library's `dukpt_host_judge`: docs/LIBRARY.md."""
    if it.reversed is None:
        found = b"\1\0" + it.number + it.amount.to_bytes(4, "big") + b"%02d" % it.code + it.mac
    else:
        found = b"\2\0" + it.number + it.reversed + it.mac
    return found.ljust(64, b"\0")


def said(given: Asked, settled: bytes) -> Optional[int]:
    """What is said of one, in the form of `dukpt_host_answer`, where all else stays as it was judged."""
    place, used, known_again = judged(given), 3, 2
    if settled == place[:1] + bytes([used]) + place[2:]:
        return None
    code = slice(16, 18) if given.reversed is None else slice(30, 31)
    wanted = bytearray(place)
    wanted[1], wanted[code] = known_again, settled[code]
    if settled != wanted:
        raise Differs(f"settled: {place.hex()} as {settled.hex()}")
    return settled[30] if given.reversed else int(settled[code])


async def compare_kept(connection: Any, world: World, book: Book) -> None:
    """The numbers that are kept, and the terminals that were asked about."""
    found, terminals = set(), set()
    for it in world.terminals:
        both = number_of(it, 0), number_of(it, (1 << COUNTER_BITS) - 1)
        found |= set(map(tuple, await connection.fetch(ROWS, *both)))
        terminals |= {row["iksn"] for row in await connection.fetch(TERMINALS, *both)}
    if found != book.rows():
        raise Differs(f"kept: {sorted(map(str, found ^ book.rows()))[0]}")
    asked = {int.from_bytes(it.number, "big") >> COUNTER_BITS for group in world.groups for it in group}
    if terminals != {(it << COUNTER_BITS).to_bytes(10, "big") for it in asked}:
        raise Differs(f"terminals: {sorted(it.hex() for it in terminals)}")


def compare_group(group: Sequence[Asked], found: Sequence[Optional[int]], book: Book) -> None:
    wanted = book.settle(group)
    if list(found) != wanted:
        at = next(at for at, (one, other) in enumerate(zip(found, wanted)) if one != other)
        raise Differs(f"frame {at} of {[(it.number[-1], it.reversed) for it in group]}: {found[at]},"
                      f" and not {wanted[at]}")


async def one_by_one(connection: Any, world: World) -> Sequence[Group]:
    book = Book()
    for group in world.groups:
        found = await settling.settle(connection, list(map(judged, group)), False)
        compare_group(group, list(map(said, group, found)), book)
    await compare_kept(connection, world, book)
    return world.groups


async def at_once(connections: Sequence[Any], world: World) -> Sequence[Group]:
    """The groups in the order in which they were settled."""
    left, done = deque(world.groups), []

    async def lane(connection: Any) -> None:
        while left:
            group = left.popleft()
            columns = settling.columns_of(list(map(judged, group)))
            found, when = await connection.fetchrow(IN_ORDER, *columns)
            done.append((when, group, found))

    await asyncio.gather(*map(lane, connections))
    book = Book()
    in_order = sorted(done, key=lambda it: it[0])
    for _, group, found in in_order:
        compare_group(group, found, book)
    await compare_kept(connections[0], world, book)
    return [group for _, group, _ in in_order]


async def compare(dsn: str, seed: str, groups: int, lanes: int) -> None:
    chance = random.Random(seed)
    connections = [await asyncpg.connect(dsn, server_settings=SESSION) for _ in range(lanes)]
    for it in connections:
        await it.execute("set synchronous_commit = off")
    settled = []
    try:
        for world in worlds(chance, groups):
            if lanes == 1:
                settled.append(await one_by_one(connections[0], world))
            else:
                settled.append(await at_once(connections, world))
    finally:
        for it in connections:
            it.terminate()
    differs = difference(settled)
    if differs:
        raise Differs(differs)


def main(words: Sequence[str]) -> int:
    dsn, seed, groups, lanes = words
    try:
        asyncio.run(compare(dsn, seed, int(groups), int(lanes)))
    except (Differs, asyncpg.PostgresError) as why:
        print(f"{type(why).__name__}: {why}")
        return 1
    return 0


if __name__ == "__main__":
    sys.exit(main(sys.argv[1:]))
