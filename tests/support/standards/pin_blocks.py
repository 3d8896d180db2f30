"""PIN blocks of ISO 9564-1 format 0, as integers of 64 bits."""
from __future__ import annotations

from typing import Optional

DIGITS = frozenset("0123456789")
PIN_LENGTHS = range(4, 13)
PAN_LENGTHS = range(12, 20)


def is_number(text: str, lengths: range) -> bool:
    return len(text) in lengths and DIGITS.issuperset(text)


def account_field(pan: str) -> int:
    """The twelve rightmost digits of a PAN without its check digit."""
    return int(pan[:-1][-12:], 16)


def pin_block(pin: str, pan: str) -> int:
    return int(f"0{len(pin):X}{pin}".ljust(16, "F"), 16) ^ account_field(pan)


def pin_in(block: int, pan: str) -> Optional[str]:
    """The PIN whose block under a PAN this is, if it is one's."""
    field = f"{block ^ account_field(pan):016X}"
    pin = field[2:].rstrip("F")
    is_one = is_number(pin, PIN_LENGTHS) and field[:2] == f"0{len(pin):X}"
    return pin if is_one else None


def fault_of(pin: bytes, pan: bytes) -> Optional[str]:
    """What the command `pin` reports of these arguments."""
    for name, word, lengths in (("Pin", pin, PIN_LENGTHS), ("Pan", pan, PAN_LENGTHS)):
        if len(word) not in lengths:
            return f"{name}Length"
        if not word.isdigit():
            return f"{name}Digit"
    return None
