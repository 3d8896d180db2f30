"""Cases at random for each call of the library, with what it has to answer, by thousands.

A case is the arguments of a call, its status, and what it writes. The values come of the ciphers of
many cases at once (`many`); most cases are right ones. `spoiled` changes right ones a bit, to be
judged one by one.
"""
from __future__ import annotations

import random
from dataclasses import dataclass
from typing import Callable, Iterator, Sequence, Union

from ..formats.frames import bytes_of
from ..formats.images import IMAGE_2, image_of
from ..standards import many
from ..standards.dukpt import (
    COUNTER_BITS, MOST_PAST, NO_KEY, REQUEST_DATA_VARIANT, RESPONSE_DATA_VARIANT, SPENT, Registers,
    counter_of, held, iksn_of, next_counter, pin_key, request_key, response_key, usable)
from ..standards.pin_blocks import PAN_LENGTHS, PIN_LENGTHS
from .library_calls import STATUS

Argument = Union[bytes, int]
# The room for a frame, and for a key block.
FRAME_ROOM, BLOCK_ROOM = 64, 512
# About as many terminals as the library works on at once.
NEAR_GROUPS = (63, 64, 65, 127, 128, 129, 130)


@dataclass(frozen=True)
class Case:
    """The arguments of a call, its status, and each argument behind it."""

    given: list[Argument]
    status: int
    behind: list[Argument]


# The arguments of a right case, or of one with a status, and the fronts of what is written.
Drawn = tuple[list[Argument], int, Sequence[Argument]]
Draw = Callable[["Chance", int], Iterator[Drawn]]

# Of each call the kinds of its arguments (`b` bytes, `o` bytes that it writes, `c` a number of 32
# bits that it writes, `n` one that it takes), and what draws cases.
CALLS: dict[str, tuple[str, Draw]] = {}


def drawn(name: str, kinds: str) -> Callable[[Draw], Draw]:
    def keep(draw: Draw) -> Draw:
        CALLS[f"dukpt_{name}"] = kinds, draw
        return draw
    return keep


def cases(name: str, chance: random.Random, count: int) -> list[Case]:
    """So many cases of a call. What it may write is full of bytes at random before."""
    kinds, draw = CALLS[name]
    found = []
    for given, status, fronts in draw(Chance(chance), count):
        left = iter(fronts)
        behind = list(given)
        if status == 0:
            for at, kind in enumerate(kinds):
                if kind in "oc":
                    behind[at] = in_front(next(left), given[at])
        found.append(Case(given, status, behind))
    return found


def in_front(front: Argument, old: Argument) -> Argument:
    if isinstance(front, int) or isinstance(old, int):
        return front
    return front + old[len(front) :]


def spoiled(these: Sequence[Case], chance: random.Random, count: int) -> list[list[Argument]]:
    """The arguments of some of these cases, of each of which one or two arguments are changed."""
    made = []
    for it in chance.choices(these, k=count):
        given = list(it.given)
        for at in chance.choices(range(len(given)), k=chance.choice((1, 1, 2))):
            given[at] = changed(given[at], chance)
        made.append(given)
    return made


def changed(value: Argument, chance: random.Random) -> Argument:
    if isinstance(value, int):
        return chance.choice((0, 1, 7, 1 << 31, (1 << 32) - 1, chance.getrandbits(32)))
    way = chance.randrange(4)
    if way == 0 or not value:
        return value + chance.randbytes(chance.choice((1, 2, 8)))
    at = chance.randrange(len(value))
    if way == 1:
        return value[: chance.choice((0, at, len(value) - 1))]
    if way == 2:
        return value[:at] + chance.choice((b"0", b" ", b"G", b"\x00", b"\xff")) + value[at + 1 :]
    return value[:at] + bytes([value[at] ^ 1 << chance.randrange(8)]) + value[at + 1 :]


class Chance:
    """Lists of values at random."""

    def __init__(self, chance: random.Random) -> None:
        self.chance = chance

    def bytes(self, count: int, *sizes: int) -> list[bytes]:
        """Bytes of one of these sizes each."""
        return [self.chance.randbytes(self.chance.choice(sizes)) for _ in range(count)]

    def keys(self, count: int) -> list[bytes]:
        return self.bytes(count, 16)

    def group_sizes(self, count: int) -> list[int]:
        """How many terminals each call has: mostly few, and some near one or two groups of them."""
        return [self.chance.choice(NEAR_GROUPS) if self.chance.random() < 0.03
                else self.chance.randrange(4) for _ in range(count)]

    def tdes_keys(self, count: int) -> list[bytes]:
        return self.bytes(count, 16, 24)

    def numbers(self, count: int) -> list[int]:
        return [self.chance.getrandbits(32) for _ in range(count)]

    def serials(self, count: int) -> list[int]:
        """Numbers with any counter; some near zero and near the greatest."""
        return [iksn_of(self.chance.getrandbits(80)) + self.counter() for _ in range(count)]

    def counter(self) -> int:
        near = self.chance.randrange(1 << self.chance.randrange(1, 22))
        return near if self.chance.random() < 0.9 else SPENT - 1 - near

    def iksns(self, count: int) -> list[int]:
        return [iksn_of(self.chance.getrandbits(80)) for _ in range(count)]

    def usables(self, count: int) -> list[int]:
        """Numbers of transactions."""
        return [iksn_of(serial) + self.usable_near(counter_of(serial))
                for serial in self.serials(count)]

    def usable_near(self, counter: int) -> int:
        return next_counter(counter - 1) % SPENT or 1

    def digits(self, count: int, lengths: range) -> list[str]:
        return ["".join(self.chance.choices("0123456789", k=self.chance.choice(lengths)))
                for _ in range(count)]

    def pins(self, count: int) -> list[str]:
        return self.digits(count, PIN_LENGTHS)

    def pans(self, count: int) -> list[str]:
        return self.digits(count, PAN_LENGTHS)

    def fields(self, count: int) -> list[bytes]:
        return [bytes(self.chance.choices(range(0x20, 0x7F), k=7)) for _ in range(count)]

    def registers(self, count: int) -> list[Registers]:
        """Terminals with keys at random in the registers, past numbers, and some spent."""
        found = []
        for serial in self.usables(count):
            counter = counter_of(serial) if self.chance.random() < 0.98 else SPENT
            past = tuple(self.iksns(self.chance.randrange(MOST_PAST + 1)))
            keys = tuple(NO_KEY if held(counter, place) is None else self.chance.randbytes(16)
                         for place in range(COUNTER_BITS))
            found.append(Registers(iksn_of(serial), counter, keys, past))
        return found


# Keys and numbers


@drawn("initial_key", "bbo")
def initial_key(chance: Chance, count: int) -> Iterator[Drawn]:
    bases, iksns, olds = chance.keys(count), chance.iksns(count), chance.keys(count)
    for base, iksn, old, made in zip(bases, iksns, olds, many.initial_keys(bases, iksns)):
        yield [base, bytes_of(iksn), old], 0, [made]


@drawn("derive", "bbo")
def derive(chance: Chance, count: int) -> Iterator[Drawn]:
    bases, serials, olds = chance.keys(count), chance.serials(count), chance.keys(count)
    initials = many.initial_keys(bases, list(map(iksn_of, serials)))
    keys = many.transaction_keys(initials, serials)
    for base, serial, old, key in zip(bases, serials, olds, keys):
        yield [base, bytes_of(serial), old], 0, [key]


@drawn("derive_many", "bbo")
def derive_many(chance: Chance, count: int) -> Iterator[Drawn]:
    sizes, bases = chance.group_sizes(count), chance.keys(count)
    serials = chance.serials(sum(sizes))
    each = [base for base, size in zip(bases, sizes) for _ in range(size)]
    keys = many.transaction_keys(many.initial_keys(each, list(map(iksn_of, serials))), serials)
    made = iter(zip(serials, keys))
    for base, size in zip(bases, sizes):
        these = [next(made) for _ in range(size)]
        ksns = b"".join(bytes_of(serial) for serial, _ in these)
        yield [base, ksns, chance.chance.randbytes(16 * size)], 0, [b"".join(it for _, it in these)]


@drawn("derive_from_initial", "bbo")
def derive_from_initial(chance: Chance, count: int) -> Iterator[Drawn]:
    initials, serials, olds = chance.keys(count), chance.serials(count), chance.keys(count)
    keys = many.transaction_keys(initials, serials)
    for initial, serial, old, key in zip(initials, serials, olds, keys):
        yield [initial, bytes_of(serial), old], 0, [key]


def variant_drawn(name: str, variant: Callable[[bytes], bytes]) -> None:
    @drawn(name, "bo")
    def draw(chance: Chance, count: int) -> Iterator[Drawn]:
        for key, old in zip(chance.keys(count), chance.keys(count)):
            yield [key, old], 0, [variant(key)]


for variant in (pin_key, request_key, response_key):
    variant_drawn(variant.__name__, variant)


def data_key_drawn(name: str, mask: bytes) -> None:
    @drawn(name, "bo")
    def draw(chance: Chance, count: int) -> Iterator[Drawn]:
        keys = chance.keys(count)
        for key, old, made in zip(keys, chance.keys(count), many.data_keys(keys, mask)):
            yield [key, old], 0, [made]


data_key_drawn("request_data_key", REQUEST_DATA_VARIANT)
data_key_drawn("response_data_key", RESPONSE_DATA_VARIANT)


@drawn("check_usable", "b")
def check_usable(chance: Chance, count: int) -> Iterator[Drawn]:
    for serial in chance.serials(count):
        yield [bytes_of(serial)], 0 if usable(counter_of(serial)) else STATUS["NotUsable"], []


@drawn("next_number", "bo")
def next_number(chance: Chance, count: int) -> Iterator[Drawn]:
    for serial, old in zip(chance.serials(count), chance.bytes(count, 10)):
        counter = next_counter(counter_of(serial))
        status = STATUS["Spent"] if counter == SPENT else 0
        yield [bytes_of(serial), old], status, [bytes_of(iksn_of(serial) + counter % SPENT)]


def check_value_drawn(name: str, size: int, made: Callable[[list[bytes]], list[bytes]]) -> None:
    @drawn(name, "bo")
    def draw(chance: Chance, count: int) -> Iterator[Drawn]:
        keys = chance.tdes_keys(count)
        for key, old, value in zip(keys, chance.bytes(count, size), made(keys)):
            yield [key, old], 0, [value[:size]]


check_value_drawn("check_value", 3, lambda keys: many.encrypted(keys, [bytes(8)] * len(keys)))
check_value_drawn("cmac_check_value", 5, lambda keys: many.cmacs(keys, [bytes(8)] * len(keys)))


# Registers


@drawn("registers_load", "bbo")
def registers_load(chance: Chance, count: int) -> Iterator[Drawn]:
    initials, iksns, olds = chance.keys(count), chance.iksns(count), chance.bytes(count, IMAGE_2)
    firsts = many.registers_at(initials, [iksn + 1 for iksn in iksns])
    for initial, iksn, old, it in zip(initials, iksns, olds, firsts):
        yield [initial, bytes_of(iksn), old], 0, [image_of(it)]


@drawn("registers_at", "bbo")
def registers_at(chance: Chance, count: int) -> Iterator[Drawn]:
    initials, serials = chance.keys(count), chance.usables(count)
    olds = chance.bytes(count, IMAGE_2)
    found = many.registers_at(initials, serials)
    for initial, serial, old, it in zip(initials, serials, olds, found):
        yield [initial, bytes_of(serial), old], 0, [image_of(it)]


def images(chance: Chance, these: Sequence[Registers]) -> list[bytes]:
    """Their images, some of the first version."""
    return [image_of(it, 1 if not it.past and chance.chance.random() < 0.5 else 2) for it in these]


@drawn("registers_number", "bo")
def registers_number(chance: Chance, count: int) -> Iterator[Drawn]:
    these = chance.registers(count)
    for it, image, old in zip(these, images(chance, these), chance.bytes(count, 10)):
        status = STATUS["Spent"] if it.next is None else 0
        yield [image, old], status, [bytes_of(it.next or 0)]


@drawn("registers_next", "booo")
def registers_next(chance: Chance, count: int) -> Iterator[Drawn]:
    these = chance.registers(count)
    olds = zip(chance.bytes(count, IMAGE_2), chance.keys(count), chance.bytes(count, 10))
    done = iter(many.taken([it for it in these if it.next is not None]))
    for it, image, old in zip(these, images(chance, these), olds):
        if it.next is None:
            yield [image, *old], STATUS["Spent"], []
        else:
            key, serial, left = next(done)
            yield [image, *old], 0, [image_of(left), key, bytes_of(serial)]


@drawn("registers_reload", "bbbo")
def registers_reload(chance: Chance, count: int) -> Iterator[Drawn]:
    these, initials, iksns = chance.registers(count), chance.keys(count), chance.iksns(count)
    for at, it in enumerate(these):
        if chance.chance.random() < 0.1:
            iksns[at] = chance.chance.choice((it.iksn, *it.past))
    firsts = many.registers_at(initials, [iksn + 1 for iksn in iksns])
    olds = chance.bytes(count, IMAGE_2)
    for it, image, initial, first, old in zip(these, images(chance, these), initials, firsts, olds):
        had = (*it.past, it.iksn)
        given: list[Argument] = [image, initial, bytes_of(first.iksn), old]
        if chance.chance.random() < 0.03:
            # Two faults: the number is looked at before the image.
            given = [b"\x03" + image[1:], initial, bytes_of(first.iksn + 1), old]
            yield given, STATUS["NotInitial"], []
        elif first.iksn in had:
            yield given, STATUS["IksnSpent"], []
        elif len(had) > MOST_PAST:
            yield given, STATUS["LoadsSpent"], []
        else:
            yield given, 0, [image_of(Registers(first.iksn, 1, first.keys, had))]
