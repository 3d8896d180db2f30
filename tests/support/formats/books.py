"""What the second cell of a till keeps: its book, the state of its last purchase, byte by byte."""
from __future__ import annotations

from dataclasses import dataclass
from typing import Optional, Union

from ..standards.dukpt import counter_of, usable
from .frames import CODES
from .images import BODY

FRONT = 0x81
OPEN, APPROVED, DECLINED, UNDONE = 1, 2, 3, 4
# The bytes in front of the zeros.
LENGTH = 17


@dataclass(frozen=True)
class Open:
    """A request may have gone out, and nobody knows what came of it."""

    serial: int
    amount: int


@dataclass(frozen=True)
class Approved:
    serial: int
    amount: int


@dataclass(frozen=True)
class Declined:
    serial: int
    code: str


@dataclass(frozen=True)
class Undone:
    serial: int


Last = Union[Open, Approved, Declined, Undone]


def book_of(last: Last) -> bytes:
    """The body of a book."""
    state, amount, code = fields_of(last)
    front = bytes([FRONT, state]) + last.serial.to_bytes(10, "big")
    return (front + amount.to_bytes(4, "big") + bytes([code])).ljust(BODY, b"\x00")


def fields_of(last: Last) -> tuple[int, int, int]:
    if isinstance(last, Open):
        return OPEN, last.amount, 0
    if isinstance(last, Approved):
        return APPROVED, last.amount, 0
    return (DECLINED, 0, int(last.code)) if isinstance(last, Declined) else (UNDONE, 0, 0)


def read_book(body: bytes) -> Optional[Last]:
    """The state of the last purchase, if a body is that of a book."""
    serial = int.from_bytes(body[2:12], "big")
    amount, code = int.from_bytes(body[12:16], "big"), f"{body[16]:02}"
    made: dict[int, Last] = {OPEN: Open(serial, amount), APPROVED: Approved(serial, amount),
                             DECLINED: Declined(serial, code), UNDONE: Undone(serial)}
    last = made.get(body[1])
    is_right = (last is not None and usable(counter_of(serial)) and book_of(last) == body
                and (not isinstance(last, Declined) or code in CODES[1:]))
    return last if is_right else None
