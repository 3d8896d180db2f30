"""What the example terminal tells and keeps: the lines on its standard error, and IMAGE.book."""
from __future__ import annotations

from typing import Optional

from ..formats.books import LENGTH, Approved, Declined, Last, Open, Undone, book_of, read_book
from ..formats.images import BODY


def book_file(last: Last) -> bytes:
    """The bytes of IMAGE.book: those that stand in front of the zeros in a till's book."""
    return book_of(last)[:LENGTH]


def read_book_file(data: bytes) -> Optional[Last]:
    return read_book(data.ljust(BODY, b"\x00")) if len(data) == LENGTH else None


def told(last: Last) -> str:
    """A purchase, as a line tells it."""
    if isinstance(last, Open):
        return f"open {last.serial:020X} {last.amount}"
    if isinstance(last, Approved):
        return f"approved {last.serial:020X} {last.amount}"
    if isinstance(last, Declined):
        return f"declined {last.serial:020X} {last.code}"
    return f"undone {last.serial:020X}"


__all__ = ["Approved", "Declined", "Last", "Open", "Undone", "book_file", "read_book_file", "told"]
