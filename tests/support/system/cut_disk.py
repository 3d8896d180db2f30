"""A file that keeps apart what was not synced, and what a loss of power leaves of it.

A sync makes all that was written before it sure. Of a range that was written since, a loss of power
leaves any bytes: the old ones, the new ones, a part of each, or others. It changes no other byte.
"""
from __future__ import annotations

import errno
import random
from dataclasses import dataclass
from enum import Enum
from typing import Callable, Optional


@dataclass(frozen=True)
class Write:
    """A write that no sync has made sure."""

    at: int
    data: bytes


# What a write that was not synced may leave: of the bytes before it, its own, and chance.
Leaves = Callable[[bytes, bytes, random.Random], bytes]


def a_part(old: bytes, new: bytes, chance: random.Random) -> bytes:
    """The write was torn: one stretch of it is new."""
    first, last = sorted(chance.choices(range(len(new) + 1), k=2))
    return old[:first] + new[first:last] + old[last:]


def any_bytes(old: bytes, new: bytes, chance: random.Random) -> bytes:
    return bytes(chance.choice((a, b, 0, 1, 255, chance.randrange(256))) for a, b in zip(old, new))


def the_write(old: bytes, new: bytes, chance: random.Random) -> bytes:
    return new


# One of them is drawn for each write.
LEAVES: tuple[Leaves, ...] = (
    the_write,
    the_write,
    lambda old, new, chance: old,
    lambda old, new, chance: bytes(len(new)),
    a_part,
    lambda old, new, chance: a_part(new, old, chance),
    any_bytes,
)


class CutDisk:
    """What a read gives (`seen`), what is sure (`sure`), and the writes since the last sync."""

    def __init__(self, image: bytes) -> None:
        self.seen, self.sure = bytearray(image), bytearray(image)
        self.writes: list[Write] = []

    def read(self, at: int, count: int) -> bytes:
        return bytes(self.seen[at : at + count])

    def write(self, at: int, data: bytes) -> None:
        self.seen[at : at + len(data)] = data
        self.writes.append(Write(at, data))

    def sync(self) -> None:
        for it in self.writes:
            self.sure[it.at : it.at + len(it.data)] = it.data
        self.writes.clear()

    def drop(self) -> None:
        """The writes are lost, and a read gives what stood there before."""
        self.seen[:] = self.sure
        self.writes.clear()

    def forget(self) -> None:
        """The writes are lost, and a read gives them all the same until the power is lost."""
        self.writes.clear()

    def cut(self, chance: random.Random) -> None:
        """The power is lost. Writes may reach the file in another order than they came in."""
        chance.shuffle(self.writes)
        for it in self.writes:
            here = slice(it.at, it.at + len(it.data))
            self.sure[here] = chance.choice(LEAVES)(bytes(self.sure[here]), it.data, chance)
        self.drop()


class PowerLost(Exception):
    """That the power is lost in this call."""


class Place(Enum):
    """Where in a call the power is lost."""

    BEFORE = "before it"
    AMID = "in the midst of it"
    AFTER = "behind it, before its caller is told"


@dataclass(frozen=True)
class Stop:
    """The call in which the power is lost: the writes and syncs of a life are counted from 0."""

    call: int
    place: Place


class Lies(Enum):
    """Which syncs of a life do nothing, and are answered as done."""

    NONE = "no sync"
    ALL = "any sync"
    START = "the sync at the start"
    BODY = "the sync of a record's body"
    GATE = "the sync of a record's gate"

    def at(self, sync: int) -> bool:
        """Whether a sync is such a one: they are counted from 0, and bodies and gates take turns
        behind the start."""
        kind = Lies.START if sync == 0 else Lies.BODY if sync % 2 else Lies.GATE
        return self in (Lies.ALL, kind)


class Lost(Enum):
    """What becomes of the unsynced writes where a sync fails."""

    DROPPED = "a read gives what stood there before"
    FORGOTTEN = "a read gives them until the power is lost"


@dataclass(frozen=True)
class Failure:
    """A call that fails once, counted as in `Stop`; of a sync, with what becomes of the writes."""

    call: int
    lost: Lost = Lost.DROPPED


@dataclass(frozen=True)
class Plan:
    """How a file behaves in a life of the process that uses it."""

    seed: int = 0
    stop: Optional[Stop] = None
    lies: Lies = Lies.NONE
    failure: Optional[Failure] = None
    # The first read that fails, counted from 0, and how many do.
    failed_read: Optional[int] = None
    failed_reads: int = 1
    # Whether reads and writes take a part of what is asked for, at times.
    in_pieces: bool = False


class PlannedDisk:
    """A file that behaves as planned."""

    def __init__(self, image: bytes) -> None:
        self.disk = CutDisk(image)
        self.begin(Plan())

    def begin(self, plan: Plan) -> None:
        self.plan, self.chance = plan, random.Random(plan.seed)
        self.calls = self.syncs = self.reads = 0
        self.is_off = False

    @property
    def size(self) -> int:
        return len(self.disk.seen)

    def read(self, at: int, count: int) -> bytes:
        self.demand_power()
        self.reads += 1
        first = self.plan.failed_read
        if first is not None and first < self.reads <= first + self.plan.failed_reads:
            raise OSError(errno.EIO, "a read that fails")
        return self.disk.read(at, self.taken(count))

    def write(self, at: int, data: bytes) -> int:
        """How many bytes it took."""
        place = self.next_call()
        if self.fails():
            raise OSError(errno.EIO, "a write that fails")
        if at + len(data) > self.size:
            raise OSError(errno.ENOSPC, "the file never grows")
        if place is not Place.BEFORE:
            is_torn = place is Place.AMID
            data = data[: self.chance.randrange(len(data)) if is_torn else self.taken(len(data))]
            self.disk.write(at, data)
        self.lose_power_at(place)
        return len(data)

    def sync(self) -> None:
        place, lies = self.next_call(), self.plan.lies.at(self.syncs)
        self.syncs += 1
        if self.fails():
            self.lose_writes()
            raise OSError(errno.EIO, "a sync that fails")
        if place in (None, Place.AFTER) and not lies:
            self.disk.sync()
        self.lose_power_at(place)

    def lose_writes(self) -> None:
        if self.plan.failure and self.plan.failure.lost is Lost.FORGOTTEN:
            self.disk.forget()
        else:
            self.disk.drop()

    # What is planned for a call

    def demand_power(self) -> None:
        if self.is_off:
            raise OSError(errno.EIO, "the power is lost")

    def next_call(self) -> Optional[Place]:
        """Counts a call. It answers where in it the power is lost, if it is."""
        self.demand_power()
        self.calls += 1
        stop = self.plan.stop
        return stop.place if stop and stop.call == self.calls - 1 else None

    def fails(self) -> bool:
        failure = self.plan.failure
        return failure is not None and failure.call == self.calls - 1

    def lose_power_at(self, place: Optional[Place]) -> None:
        if place is not None:
            self.is_off = True
            raise PowerLost()

    def taken(self, count: int) -> int:
        """How much of so many bytes is taken at once: all, or at times a part."""
        if count > 1 and self.plan.in_pieces and self.chance.random() < 0.5:
            return self.chance.randint(1, count - 1)
        return count
