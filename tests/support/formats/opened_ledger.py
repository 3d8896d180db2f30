"""What comes of a file where `issue` opens it as a ledger, or `copy-ledger` as one of version 1, by
docs/FORMATS.md: what it keeps, or the line with which it is refused."""
from __future__ import annotations

from enum import Enum
from typing import Union

from .ledger_file import DamagedLedger, Kept, identity_of, kept_in
from .left_files import LEDGER, OLD_LEDGER
from .log_file import DamagedLog, open_numbers


class Refusal(Enum):
    """The line of `issue`."""

    DAMAGED = "ledger: damaged"
    OLD = "ledger: version 1, use copy-ledger"


Opened = Union[list[Kept], Refusal]


def opened(image: bytes) -> Opened:
    """What `issue` finds."""
    if identity_of(image) is None:
        return Refusal.OLD if OLD_LEDGER.is_left(image) else Refusal.DAMAGED
    try:
        return kept_in(image) if LEDGER.is_left(image) else Refusal.DAMAGED
    except DamagedLedger:
        return Refusal.DAMAGED


def old_kept_in(image: bytes) -> Opened:
    """What a ledger of version 1 keeps, in a file that one left: initial key serial numbers, of
    which one may stand there twice."""
    if identity_of(image) is not None or not OLD_LEDGER.is_left(image):
        return Refusal.DAMAGED
    try:
        numbers = open_numbers(image)
    except DamagedLog:
        return Refusal.DAMAGED
    return [Kept(it) for it in numbers] if all(map(has_no_counter, numbers)) else Refusal.DAMAGED


def has_no_counter(number: bytes) -> bool:
    return not number[7] & 0x1F and not number[8] and not number[9]
