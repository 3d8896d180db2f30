"""The cases of `call_cases` for reversals, their replies, and streams of frames."""
from __future__ import annotations

from typing import Iterator

from ..formats.frames import LONGEST_BODY, STATES, bytes_of, reverses
from ..standards import many
from ..standards.dukpt import iksn_of
from .call_cases import FRAME_ROOM, Argument, Chance, Drawn, drawn
from .library_calls import STATUS


def pairs(chance: Chance, count: int) -> tuple[list[int], list[int]]:
    """Numbers, and of each another one of its terminal, which it can reverse."""
    serials, others = chance.serials(count), []
    for serial in serials:
        other = serial
        while not reverses(serial, other):
            other = iksn_of(serial) + chance.usable_near(chance.counter())
        others.append(other)
    return serials, others


def strangers(chance: Chance, serial: int, other: int) -> int:
    """A number that another one cannot reverse: itself, one of another terminal, or one that
    numbers no transaction."""
    return chance.chance.choice((
        serial, other ^ 1 << chance.chance.randrange(21, 80), iksn_of(serial),
        iksn_of(serial) + 0x7FF))


@drawn("reversal_request", "bbboc")
def reversal_request(chance: Chance, count: int) -> Iterator[Drawn]:
    keys, (serials, others) = chance.keys(count), pairs(chance, count)
    made = many.reversals(keys, serials, others)
    olds = zip(chance.bytes(count, FRAME_ROOM), chance.numbers(count))
    for key, serial, other, old, frame in zip(keys, serials, others, olds, made):
        if chance.chance.random() < 0.1:
            wrong = strangers(chance, serial, other)
            yield [key, bytes_of(serial), bytes_of(wrong), *old], STATUS["NotReversed"], []
        else:
            yield [key, bytes_of(serial), bytes_of(other), *old], 0, [frame, len(frame)]


@drawn("read_reversal", "booo")
def read_reversal(chance: Chance, count: int) -> Iterator[Drawn]:
    serials, others = pairs(chance, count)
    olds = zip(chance.bytes(count, 10), chance.bytes(count, 10), chance.bytes(count, 8))
    made = many.reversals(chance.keys(count), serials, others)
    for serial, other, frame, old in zip(serials, others, made, olds):
        yield [frame, *old], 0, [bytes_of(serial), bytes_of(other), frame[-8:]]


@drawn("check_reversal", "bb")
def check_reversal(chance: Chance, count: int) -> Iterator[Drawn]:
    keys = chance.keys(count)
    for key, frame in zip(keys, many.reversals(keys, *pairs(chance, count))):
        yield [key, frame], 0, []


@drawn("reversal_reply", "bbbnoc")
def reversal_reply(chance: Chance, count: int) -> Iterator[Drawn]:
    """Some have two faults: the numbers are looked at before the state."""
    keys, (serials, others) = chance.keys(count), pairs(chance, count)
    states = [chance.chance.choice((*STATES, *STATES, *STATES, 2, 128, 129, 256, 1 << 31))
              for _ in range(count)]
    made = many.reversal_replies(keys, serials, others, [state % 256 for state in states])
    olds = zip(chance.bytes(count, FRAME_ROOM), chance.numbers(count))
    for key, serial, other, state, old, frame in zip(keys, serials, others, states, olds, made):
        fault = "Ok" if state in STATES else "NotAState"
        if chance.chance.random() < 0.1:
            other, fault = strangers(chance, serial, other), "NotReversed"
        given: list[Argument] = [key, bytes_of(serial), bytes_of(other), state, *old]
        yield given, STATUS[fault], [frame, len(frame)]


def replies(
    chance: Chance, count: int
) -> tuple[list[bytes], list[int], list[int], list[int], list[bytes]]:
    """Keys, numbers, those that they reverse, states, and the replies of them."""
    keys, (serials, others) = chance.keys(count), pairs(chance, count)
    states = [chance.chance.choice(STATES) for _ in range(count)]
    return keys, serials, others, states, many.reversal_replies(keys, serials, others, states)


@drawn("read_reversal_reply", "booc")
def read_reversal_reply(chance: Chance, count: int) -> Iterator[Drawn]:
    _, *drawn_parts = replies(chance, count)
    olds = zip(chance.bytes(count, 10), chance.bytes(count, 10), chance.numbers(count))
    for serial, other, state, frame, old in zip(*drawn_parts, olds):
        yield [frame, *old], 0, [bytes_of(serial), bytes_of(other), state]


@drawn("check_reversal_reply", "bbbb")
def check_reversal_reply(chance: Chance, count: int) -> Iterator[Drawn]:
    """One in five was asked for under another number, or for the reversal of another one."""
    keys, serials, others, _, made = replies(chance, count)
    for key, serial, other, frame in zip(keys, serials, others, made):
        asked, status = [serial, other], 0
        if chance.chance.random() < 0.2:
            asked[chance.chance.randrange(2)] ^= 1 << chance.chance.randrange(80)
            status = STATUS["NotMine"]
        yield [key, *map(bytes_of, asked), frame], status, []


@drawn("frame_length", "bc")
def frame_length(chance: Chance, count: int) -> Iterator[Drawn]:
    for old, tail in zip(chance.numbers(count), chance.bytes(count, *range(6))):
        data = b"\x00" + bytes([chance.chance.randrange(70)]) + tail
        data = tail if chance.chance.random() < 0.2 else data
        length = int.from_bytes(data[:2], "big")
        fault = "PartOfFrame" if len(data) < 2 else "TooLong" if length > LONGEST_BODY else "Ok"
        yield [data, old], STATUS[fault], [length + 2]
