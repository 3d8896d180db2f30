"""Large journals and logs as files: of many terminals, of which each uses its numbers in order.

They are written from docs/FORMATS.md, a column of bytes of many records at once, since a record at a
time would take minutes.
"""
from __future__ import annotations

import os
from pathlib import Path
from typing import Iterable, Optional

from ..service.client import IKSN
from . import log_file
from .checked_journal import IDENTITY, header_of, with_check_sums
from .journal_records import MOST_FOLLOWERS, OPEN, Payment

# A key serial number has ten bytes. Two of them tell the terminals apart, and the last three have
# the counter, behind three bits that are the terminal's too.
TERMINAL, COUNTER = 5, 7
# In a record, a number stands behind so many bytes.
IN_A_JOURNAL, IN_A_LOG = 4, 1


class Rounds:
    """Records in rounds: in each one every terminal has its next number. Terminal 0 is that of
    `client`."""

    def __init__(self, records: bytes, at: int, terminals: range, identity: Optional[int] = None
                 ) -> None:
        """Of records of these terminals, with the number at this place of each; of a file with this
        identity, those of a journal."""
        self.identity = identity
        self.terminals = len(terminals)
        self.size = len(records) // self.terminals
        self.at, self.records = at, bytearray(records)
        first = IKSN.to_bytes(10, "big")
        names = [(int.from_bytes(first[TERMINAL:COUNTER], "big") + it) % (1 << 16)
                 for it in terminals]
        for place in range(10):
            self.put(place, first[place : place + 1] * self.terminals)
        self.put(TERMINAL, bytes(it >> 8 for it in names))
        self.put(TERMINAL + 1, bytes(it & 255 for it in names))

    def put(self, place: int, column: bytes) -> None:
        """A byte of the number of each record."""
        self.records[self.at + place :: self.size] = column

    def round(self, counter: int) -> bytearray:
        number = (IKSN + counter).to_bytes(10, "big")
        for place in range(COUNTER, 10):
            self.put(place, number[place : place + 1] * self.terminals)
        return self.records

    def rounds(self, counters: Iterable[int], place: int = 0) -> bytes:
        """A round for each counter, behind so many records."""
        return b"".join(self.written(it, place + at * self.terminals)
                        for at, it in enumerate(counters))

    def written(self, counter: int, place: int) -> bytes:
        """A round behind so many records, as it stands in the file."""
        records = bytes(self.round(counter))
        return records if self.identity is None else with_check_sums(records, self.identity, 1 + place)

    def write(self, path: Path, counters: Iterable[int], room: int) -> None:
        """A file of a round for each counter, with room for so many records more."""
        with open(path, "wb") as it:
            it.write(b"" if self.identity is None else header_of(self.identity))
            for at, counter in enumerate(counters):
                it.write(self.written(counter, at * self.terminals))
            it.write(bytes(self.size * room))
            it.flush()
            os.fsync(it.fileno())


def payments_in_rounds(terminals: range) -> Rounds:
    """Of a journal. Each round is a group."""
    count = len(terminals)
    assert count <= MOST_FOLLOWERS + 1
    payment = Payment(0, 1, 0, bytes(8))
    records = payment.record(OPEN, count - 1) + payment.record(0) * (count - 1)
    return Rounds(records, IN_A_JOURNAL, terminals, IDENTITY)


def numbers_in_rounds(terminals: range) -> Rounds:
    """Of a log."""
    return Rounds(log_file.record(bytes(10)) * len(terminals), IN_A_LOG, terminals)
