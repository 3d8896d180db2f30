"""The terminals' side of reversals: their frames, and the replies that a host over a journal owes
them. As `client`, of which it has the keys and MACs, it is written from docs/FORMATS.md alone.
"""
from __future__ import annotations

from dataclasses import dataclass
from functools import lru_cache
from typing import Optional, Sequence

from ..formats.journal_records import NONE_STANDS, UNDONE
from ..standards.dukpt import counter_of, request_key, response_key
from ..standards.macs import retail_mac as slow_mac
from .client import (
    REQUEST_VARIANT, RESPONSE_VARIANT, Exchange, columns, framed, keys_of, masked, number_of, payments,
    refusal, retail_mac, values)


@dataclass(frozen=True)
class Reversing(Exchange):
    """A reversal of another number. `answer` is the reply that none stands, and `undone` the one that
    a payment stood."""

    reversed: bytes = b""
    undone: bytes = b""

    @property
    def mac(self) -> bytes:
        return self.frame[-8:]

    def reply(self, state: int) -> bytes:
        return self.undone if state == UNDONE else self.answer

    def told(self, answer: bytes) -> Optional[int]:
        """The state that an answer tells, if it is a reply to this reversal with a right MAC."""
        return {self.answer: NONE_STANDS, self.undone: UNDONE}.get(answer)


def sealed(counters: Sequence[int], bodies: Sequence[bytes], variant: str) -> list[bytes]:
    """The frame of each body with a MAC under the key of the counter beside it; all bodies have one
    length."""
    made, every = keys_of(counters), (1 << len(counters)) - 1
    keys, text = columns([made[it] for it in counters]), columns(bodies)
    mac = retail_mac(masked(keys, variant, every), text, every)
    return [framed(body) for body in values(text + mac, len(bodies))]


def reversals_of(pairs: Sequence[tuple[int, int]]) -> list[Reversing]:
    """The reversal under the first counter of each pair, of the number that has the second."""
    if not pairs:
        return []
    counters = [own for own, _ in pairs]
    numbers = [number_of(own) + number_of(other) for own, other in pairs]
    frames = sealed(counters, [b"\x01\x04" + it for it in numbers], REQUEST_VARIANT)
    none, undone = (sealed(counters, [b"\x01\x05" + it + bytes([state]) for it in numbers],
                           RESPONSE_VARIANT) for state in (NONE_STANDS, UNDONE))
    return [Reversing(frame, nothing, it[:10], it[10:], something)
            for frame, it, nothing, something in zip(frames, numbers, none, undone)]


def reversal_of(own: int, other: int) -> Reversing:
    return reversals_of([(own, other)])[0]


def reversal_under(key: bytes, serial: int, other: int) -> Reversing:
    """The reversal of another number of any terminal, under the transaction key of this one."""
    numbers = serial.to_bytes(10, "big") + other.to_bytes(10, "big")
    text = b"\x01\x04" + numbers
    none, undone = (b"\x01\x05" + numbers + bytes([state]) for state in (NONE_STANDS, UNDONE))
    frame = framed(text + slow_mac(request_key(key), text))
    nothing, something = (framed(it + slow_mac(response_key(key), it)) for it in (none, undone))
    return Reversing(frame, nothing, numbers[:10], numbers[10:], something)


# Counters of eleven one bits and of none.
UNUSABLE = (0x7FF, 0)
# The numbers of what is refused, which no test accepts.
OWN, OTHER = 0x1FF000, 0x1FE000


@lru_cache(1)
def refused_reversals() -> tuple[Exchange, ...]:
    """Frames that are refused with each of the reasons 1 to 4, whenever they come."""
    return (*malformed_reversals(), *unauthentic_reversals())


def malformed_reversals() -> list[Exchange]:
    """No frames; and reversals that are right but for what they reverse, each with the MAC of its own
    bytes: themselves, a number of another terminal or of another key set, and one that is unusable."""
    good = reversal_of(OWN, OTHER)
    body, own, other = good.frame[2:], number_of(OWN), number_of(OTHER)
    strangers = [own, number_of(OTHER + (1 << 21)), b"\x00" + other[1:],
                 *(number_of(it) for it in UNUSABLE)]
    frames = sealed([OWN] * len(strangers), [b"\x01\x04" + own + it for it in strangers],
                    REQUEST_VARIANT)
    # Where the key set is unknown, or the own number is unusable too, they are malformed first.
    unknown = framed(b"\x01\x04" + (b"\x00" + own[1:]) * 2 + body[22:])
    unusable = framed(b"\x01\x04" + number_of(0) * 2 + body[22:])
    shapes = [body[:-1], body + b"\x00", body[:2], b"\x02" + body[1:], b"\x01\x05" + body[2:],
              b"\x01\x06" + body[2:], b"\x01\x01" + body[2:], good.answer[2:], good.undone[2:]]
    return [Exchange(it, refusal(bytes(10), 1))
            for it in (*frames, unknown, unusable, *map(framed, shapes))]


def unauthentic_reversals() -> list[Exchange]:
    """With a key set that nobody has, with an unusable number of their own, and with a MAC that is
    not theirs."""
    good, another = reversals_of([(OWN, OTHER), (OWN, OTHER - 0x1000)])
    own, mac = number_of(OWN), good.mac
    foreign, foreign_unusable = (b"\x00" + number_of(it)[1:] for it in (OWN, 0x7FF))
    renumbered = [(foreign, b"\x00" + good.reversed[1:], 2),
                  (foreign_unusable, b"\x00" + good.reversed[1:], 2),
                  *((number_of(it), good.reversed, 3) for it in UNUSABLE)]
    text = b"\x01\x04" + own + good.reversed
    as_reply = sealed([OWN], [text], RESPONSE_VARIANT)[0][-8:]
    of_other_key = sealed([OTHER], [text], REQUEST_VARIANT)[0][-8:]
    macs = [mac[:-1] + bytes([mac[-1] ^ 1]), bytes([mac[0] ^ 0x80]) + mac[1:], bytes(8), another.mac,
            as_reply, of_other_key]
    return [*(Exchange(framed(b"\x01\x04" + one + other + mac), refusal(one, reason))
              for one, other, reason in renumbered),
            *(Exchange(framed(text + it), refusal(own, 4)) for it in macs)]


def serial_of(it: Exchange) -> int:
    """The number that a frame uses."""
    assert it.number is not None
    return int.from_bytes(it.number, "big")


def counter_in(it: Exchange) -> int:
    return counter_of(serial_of(it))


@lru_cache(4)
def undoing(count: int) -> tuple[Reversing, ...]:
    """For each of the first so many payments a reversal, under numbers that come behind all of
    them, in their order."""
    paid = payments(2 * count)
    return tuple(reversals_of([(counter_in(later), counter_in(it))
                               for it, later in zip(paid[:count], paid[count:])]))
