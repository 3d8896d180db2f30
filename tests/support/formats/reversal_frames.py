"""Reading reversals and their replies, as docs/FORMATS.md has them."""
from __future__ import annotations

from dataclasses import dataclass
from typing import Optional, Union

from .frames import STATES, Refusal, Reply, body_of_kind, read_answer, reverses


@dataclass(frozen=True)
class ReversalRequest:
    """A reversal of another number, under `serial`."""

    serial: int
    reversed: int
    mac: bytes
    # What the MAC is made of.
    text: bytes


@dataclass(frozen=True)
class ReversalReply:
    """Its reply. The state is 1 where an approved payment of the reversed number was kept."""

    serial: int
    reversed: int
    state: int
    mac: bytes
    text: bytes


Answer = Union[Reply, Refusal, ReversalReply]


def numbers_in(rest: bytes) -> Optional[tuple[int, int]]:
    """A number and the one that it reverses: another one of its terminal, which can be used."""
    serial, other = (int.from_bytes(it, "big") for it in (rest[:10], rest[10:20]))
    return (serial, other) if reverses(serial, other) else None


def read_reversal(frame: bytes) -> Optional[ReversalRequest]:
    """The fields of a reversal, if the bytes are one. The MAC is not tested."""
    rest = body_of_kind(frame, 4)
    numbers = numbers_in(rest) if rest is not None and len(rest) == 28 else None
    return ReversalRequest(*numbers, frame[-8:], frame[2:-8]) if numbers else None


def read_reversal_reply(frame: bytes) -> Optional[ReversalReply]:
    """The fields of the reply to a reversal, if the bytes are one."""
    rest = body_of_kind(frame, 5)
    numbers = numbers_in(rest) if rest is not None and len(rest) == 29 else None
    if rest is None or numbers is None or rest[20] not in STATES:
        return None
    return ReversalReply(*numbers, rest[20], frame[-8:], frame[2:-8])


def reversed_in(frame: bytes) -> int:
    """The number that a reversal or its reply reverses."""
    return int.from_bytes(frame[14:24], "big")


def read_any_answer(frame: bytes) -> Optional[Answer]:
    """The fields of an answer of a host over a journal."""
    return read_reversal_reply(frame) or read_answer(frame)
