"""What comes of a file where a service, `show` or `copy-journal` opens it as a journal, by docs/FORMATS.md:
the entries that it keeps, or the line with which it is refused. And which changes of its bytes are found.
"""
from __future__ import annotations

from enum import Enum
from typing import Sequence, Union

from . import journal_records
from .checked_journal import HEADER, identity_of, read_entries
from .journal_file import DamagedJournal, demand_new_numbers
from .journal_records import OPEN, RECORD, Entry, Group, Place, starts_of
from .left_files import JOURNAL, OLD_JOURNAL


class Refusal(Enum):
    """The line of a service."""

    DAMAGED = "journal: failed"
    OLD = "journal: version 1, use copy-journal"


Opened = Union[list[Entry], Refusal]


def opened(image: bytes) -> Opened:
    """What a service finds."""
    if identity_of(image) is None:
        return Refusal.OLD if OLD_JOURNAL.is_left(image) else Refusal.DAMAGED
    return kept_in(image)


def copied(image: bytes) -> Opened:
    """What `copy-journal` finds, which takes version 1 too."""
    return kept_in(image)


def kept_in(image: bytes) -> Opened:
    """The entries of a journal of either version, in a file that one left."""
    is_old = identity_of(image) is None
    if not (OLD_JOURNAL if is_old else JOURNAL).is_left(image):
        return Refusal.DAMAGED
    rows = journal_records.read_entries(image) if is_old else read_entries(image)
    if isinstance(rows, Place):
        return Refusal.DAMAGED
    entries = [it for _, _, it in rows]
    try:
        demand_new_numbers(entries)
    except DamagedJournal:
        return Refusal.DAMAGED
    return entries


def is_found(groups: Sequence[Group], at: int, before: int, after: int) -> bool:
    """Whether a change of this byte, of the header or of a record of these groups, is found as damage: each
    is, but for a gate that is closed behind it, unless that gate opened a group before the last one."""
    record, place = divmod(at, RECORD)
    if at < HEADER or place:
        return before != after
    if before == OPEN:
        return record - 1 != starts_of(groups)[-2]
    return after == OPEN
