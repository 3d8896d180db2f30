"""Groups of payments and reversals at random, of few numbers, so that most meet others."""
from __future__ import annotations

import random
from dataclasses import dataclass
from typing import Iterator, Optional, Sequence

from ..models.model_book import Asked

CODES = (0, 0, 0, 51, 14, 30, 55)
MACS = (b"one  MAC", b"other it")
# A world has so many terminals and groups, a group so many frames.
TERMINALS, GROUPS, FRAMES = 2, 8, 12
COUNTER_BITS = 21
# The counters of each terminal, up to the highest bits.
COUNTERS = (1, 2, 3, 1 << 15, 1 << 16, 3 << 18, 1 << 20)


# The types of what the statement is given.
TYPES = ("int2", "bytea", "bytea", "int8", "int2", "bytea")


@dataclass(frozen=True)
class World:
    """Groups over terminals that no other world has."""

    terminals: Sequence[int]
    groups: Sequence[Sequence[Asked]]


def number_of(terminal: int, counter: int) -> bytes:
    return (0xFFFF << 64 | terminal << COUNTER_BITS | counter).to_bytes(10, "big")


def worlds(chance: random.Random, groups: int) -> Iterator[World]:
    """Worlds with so many groups in all, or some more."""
    count, first = 0, chance.getrandbits(30) << 12
    while count < groups:
        # Terminals of one world stand apart, so that orders by number and by place differ.
        terminals = [first, first + 1]
        first += TERMINALS
        chance.shuffle(terminals)
        made = [group_of(chance, terminals) for _ in range(GROUPS)]
        count += len(made)
        yield World(terminals, made)


def group_of(chance: random.Random, terminals: Sequence[int]) -> list[Asked]:
    group: list[Asked] = []
    for _ in range(chance.randint(1, FRAMES)):
        if group and chance.random() < 0.2:
            group.append(chance.choice(group))
        else:
            group.append(asked(chance, chance.choice(terminals)))
    return group


def asked(chance: random.Random, terminal: int) -> Asked:
    own, other = (number_of(terminal, it) for it in chance.sample(COUNTERS, 2))
    mac = MACS[chance.random() < 0.15]
    if chance.random() < 0.6:
        return Asked(own, mac, chance.randrange(1 << 32), chance.choice(CODES))
    return Asked(own, mac, reversed=other)


def call_of(group: Sequence[Asked]) -> str:
    """The statement that settles a group, in SQL."""
    rows = [("1", typed(it.number), typed(it.mac), str(it.amount), str(it.code), "null") if it.is_payment
            else ("2", typed(it.number), typed(it.mac), "null", "null", typed(it.reversed))
            for it in group]
    lists = (f"array[{', '.join(column)}]::pg_catalog.{kind}[]" for column, kind in zip(zip(*rows), TYPES))
    return f"select dukpt.settle({', '.join(lists)})"


def typed(value: Optional[bytes]) -> str:
    return f"'\\x{value.hex()}'" if value is not None else "null"
