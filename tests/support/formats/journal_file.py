"""A journal as a file, of version 2: making one, reading one strictly, and what appends make of it.

docs/FORMATS.md has the layout, under "Disk of a journal".
"""
from __future__ import annotations

import os
from pathlib import Path
from typing import Iterable, Optional, Sequence

from .checked_journal import (
    HEADER, IDENTITY, identity_of, journal_of, read_entries, with_check_sums)
from .journal_records import OPEN, RECORD, Entry, Group, Payment, Place, Reversal

# The bytes of a record behind its gate, which an append writes first.
BODY = slice(1, RECORD)
# Where less than this part of a journal is left, that is kept for reversals.
LAST_PART = 16


def most_payments(records: int) -> int:
    """How many payments a journal of so many records takes, where no reversal is sent."""
    return records - -(-records // LAST_PART) + 1


def records_for(payments: int) -> int:
    """The fewest records of a journal that takes so many payments."""
    return payments + max(0, payments - 2) // (LAST_PART - 1)


class DamagedJournal(AssertionError):
    """That a file is no journal, or not the one that it was made as."""


def make_journal(path: Path, room: int, groups: Sequence[Group] = ()) -> bytes:
    """Makes a journal with room for so many entries that keeps these groups, written and synced, and
    answers its bytes."""
    image = journal_of(groups, room - sum(map(len, groups)))
    with open(path, "wb") as it:
        it.write(image)
        it.flush()
        os.fsync(it.fileno())
    return image


def groups_in(image: bytes) -> list[list[Entry]]:
    """The groups that a journal keeps; what is damaged is an error."""
    rows = read_entries(image)
    if isinstance(rows, Place):
        raise DamagedJournal(f"the journal breaks a rule at bytes {rows.first} to {rows.last}")
    groups: list[list[Entry]] = []
    for place, (first, _, entry) in enumerate(rows):
        if place == first:
            groups.append([])
        groups[-1].append(entry)
    demand_new_numbers([it for _, _, it in rows])
    return groups


def demand_new_numbers(entries: Iterable[Entry]) -> None:
    """The number of each entry was not used before: not by an entry, nor was it reversed."""
    used: set[int] = set()
    for it in entries:
        if it.serial in used:
            raise DamagedJournal(f"the journal has the number {it.serial:020X} twice")
        used.add(it.serial)
        if isinstance(it, Reversal):
            used.add(it.reversed)


def entries_in(image: bytes) -> list[Entry]:
    """The entries that a journal keeps, in their order."""
    return [it for group in groups_in(image) for it in group]


def payments_in(image: bytes) -> list[Payment]:
    """The payments that a journal keeps which has no reversal."""
    entries = entries_in(image)
    payments = [it for it in entries if isinstance(it, Payment)]
    if len(payments) < len(entries):
        raise DamagedJournal("the journal has a reversal, which nobody sent")
    return payments


def bodies_of(group: Group, place: int, identity: int = IDENTITY) -> list[bytes]:
    """What an append behind so many entries writes of each record before it opens the first."""
    records = [it.record(OPEN, 0 if at else len(group) - 1) for at, it in enumerate(group)]
    written = with_check_sums(b"".join(records), identity, 1 + place)
    return [written[at : at + RECORD][BODY] for at in range(0, len(written), RECORD)]


def appended(image: bytes, groups: Sequence[Group], count: Optional[int] = None) -> bytes:
    """A journal, which keeps so many entries, if that is known, to which groups were appended. No
    other byte of it is changed: neither the gate of a record that follows nor what stands behind
    them."""
    found, identity = bytearray(image), identity_of(image)
    assert identity is not None
    place = len(entries_in(image)) if count is None else count
    for group in groups:
        at = HEADER + RECORD * place
        found[at] = OPEN
        for body in bodies_of(group, place, identity):
            found[at + 1 : at + RECORD] = body
            at += RECORD
        place += len(group)
    return bytes(found)
