"""Key serial numbers, and the order in which a terminal uses them (ANSI X9.24-1:2009 annex A)."""
from __future__ import annotations

from ._library import Data, call, room


def check_usable(ksn: Data) -> None:
    """Tests that a key serial number (10 bytes) numbers a transaction: its counter has one to ten
    one bits.

    Raises `Length`, then `NotUsable`.

    >>> check_usable(bytes.fromhex("FFFF9876543210E00001"))
    >>> check_usable(bytes.fromhex("FFFF9876543210E007FF"))
    Traceback (most recent call last):
    dukpt.faults.NotUsable: NotUsable (3): the counter numbers no transaction: it is zero or has \
more than ten one bits
    """
    call("dukpt_check_usable", ksn=ksn)


def next_number(ksn: Data) -> bytes:
    """The key serial number (10 bytes) that a terminal uses after this one (10): that with the
    least usable counter above its own.

    Raises `Length`, then `Spent`.

    >>> next_number(bytes.fromhex("FFFF9876543210E007FE")).hex().upper()
    'FFFF9876543210E00800'
    """
    following = room(10)
    call("dukpt_next_number", ksn=ksn, next=following)
    return following.raw
