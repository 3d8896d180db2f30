"""A host over a journal: what it answers to frames in turn, and the payments and reversals that it
keeps of them.

It is written from docs/FORMATS.md and docs/OPERATION.md. The frames are those of `client` and
`reversals`, which know whether they have a right MAC, and the reply that each is owed.
"""
from __future__ import annotations

from dataclasses import dataclass
from itertools import accumulate
from typing import Iterable, Iterator, Optional, Sequence

from ..formats.frames import write_reply
from ..formats.journal_file import LAST_PART
from ..formats.journal_records import NONE_STANDS, UNDONE, Entry, Payment, Reversal
from ..service.client import BDK, Exchange, refusal
from ..service.reversals import Reversing
from ..standards.dukpt import derive

# How many of the entries that it keeps a host answers again: the latest.
LATEST = 1 << 20
# Frames that one read ends are answered in groups of so many at most; a read takes so many bytes.
MOST_FRAMES = 1024
READ = 1 << 16

USED, FULL = 5, 6


@dataclass(frozen=True)
class Judged:
    """The answer to a frame, and the entry that is kept of it, if it is accepted."""

    answer: bytes
    entry: Optional[Entry] = None


def payment_of(it: Exchange) -> Payment:
    """What a journal keeps of a request that is accepted: docs/FORMATS.md has the places."""
    assert it.number is not None
    return Payment(int.from_bytes(it.number, "big"), int.from_bytes(it.frame[-20:-16], "big"),
                   int(it.answer[14:16]), it.frame[-8:])


def payments_of_all(given: Iterable[Exchange]) -> list[Payment]:
    return [payment_of(it) for it in given]


class Judge:
    """A host that keeps these entries, and has room for so many in all."""

    def __init__(self, entries: Iterable[Entry], room: int) -> None:
        self.entries: list[Entry] = list(entries)
        self.room = room
        # Where the entry of each number stands, and the numbers that were reversed.
        self.places = {it.serial: at for at, it in enumerate(self.entries)}
        self.reversed = {it.reversed for it in self.entries if isinstance(it, Reversal)}

    @property
    def left(self) -> int:
        return self.room - len(self.entries)

    @property
    def takes_payments(self) -> bool:
        """Whether more is left than what is kept for reversals."""
        return LAST_PART * self.left >= self.room

    def judge(self, it: Exchange) -> Judged:
        if it.number is None:
            return Judged(it.answer)
        if isinstance(it, Reversing):
            return self.judge_reversal(it, it.number)
        return self.judge_payment(it, it.number)

    def judge_payment(self, it: Exchange, number: bytes) -> Judged:
        asked = payment_of(it)
        if self.is_used(asked.serial):
            return Judged(self.reply_again(it, asked) or refusal(number, USED))
        if not self.takes_payments:
            return Judged(refusal(number, FULL))
        self.keep(asked)
        return Judged(it.answer, asked)

    def judge_reversal(self, it: Reversing, number: bytes) -> Judged:
        serial, reversed_serial = (int.from_bytes(one, "big") for one in (number, it.reversed))
        if self.is_used(serial):
            found = self.latest(serial, it.mac)
            is_again = isinstance(found, Reversal)
            return Judged(it.reply(found.state) if is_again else refusal(number, USED))
        if self.left == 0:
            return Judged(refusal(number, FULL))
        state = UNDONE if self.was_approved(reversed_serial) else NONE_STANDS
        made = Reversal(serial, reversed_serial, state, it.mac)
        self.keep(made)
        self.reversed.add(reversed_serial)
        return Judged(it.reply(state), made)

    def is_used(self, serial: int) -> bool:
        return serial in self.places or serial in self.reversed

    def keep(self, entry: Entry) -> None:
        self.places[entry.serial] = len(self.entries)
        self.entries.append(entry)

    def entry(self, serial: int) -> Optional[Entry]:
        """The entry of a number, if it has one."""
        place = self.places.get(serial)
        return None if place is None else self.entries[place]

    def was_approved(self, serial: int) -> bool:
        """Whether an approved payment of a number is kept, undone or not."""
        found = self.entry(serial)
        return isinstance(found, Payment) and found.code == 0

    def was_reversed(self, serial: int) -> bool:
        return serial in self.reversed

    def latest(self, serial: int, mac: bytes) -> Optional[Entry]:
        """The entry of a number, if it has this MAC and is one of the latest."""
        place = self.places.get(serial)
        if place is None or place < len(self.entries) - LATEST:
            return None
        return self.entries[place] if self.entries[place].mac == mac else None

    def reply_again(self, it: Exchange, asked: Payment) -> Optional[bytes]:
        """The reply with the code that is kept, if it is the same request, one of the latest, and
        its payment was not undone."""
        kept = self.latest(asked.serial, asked.mac)
        if not isinstance(kept, Payment) or self.was_reversed(kept.serial):
            return None
        if kept.code == asked.code:
            return it.answer
        return write_reply(derive(BDK, kept.serial), kept.serial, f"{kept.code:02}")


def judged(given: Iterable[Exchange], entries: Iterable[Entry], room: int) -> list[Judged]:
    """What a host that keeps these entries makes of frames in turn."""
    judge = Judge(entries, room)
    return [judge.judge(it) for it in given]


def answers_of(found: Iterable[Judged]) -> bytes:
    return b"".join(it.answer for it in found)


def added_by(found: Iterable[Judged]) -> list[Entry]:
    return [it.entry for it in found if it.entry is not None]


def books_of(entries: Iterable[Entry]) -> dict[int, int]:
    """The payments that stand, by their numbers: those that were approved, and of which no reversal
    is kept."""
    kept = list(entries)
    undone = {it.reversed for it in kept if isinstance(it, Reversal)}
    return {it.serial: it.amount for it in kept
            if isinstance(it, Payment) and it.code == 0 and it.serial not in undone}


# Groups


def reads_of_file(size: int) -> list[int]:
    """How many bytes of a file are read behind each of its reads."""
    return [*range(READ, size, READ), size]


def groups_by_reads(
    given: Sequence[Exchange], found: Sequence[Judged], reads: Iterable[int]
) -> list[list[Entry]]:
    """The groups of entries, where so many bytes are read behind each read."""
    groups = []
    for frames in frames_by_reads(given, reads):
        for first in range(0, len(frames), MOST_FRAMES):
            groups.append(added_by(found[at] for at in frames[first : first + MOST_FRAMES]))
    return [group for group in groups if group]


def frames_by_reads(given: Sequence[Exchange], reads: Iterable[int]) -> Iterator[range]:
    """The places of the frames that each read ends."""
    ends = list(accumulate(len(it.frame) for it in given))
    first = 0
    for read in reads:
        last = first
        while last < len(ends) and ends[last] <= read:
            last += 1
        yield range(first, last)
        first = last


def wrong_group(
    given: Sequence[Exchange], found: Sequence[Judged], groups: Iterable[Sequence[Entry]]
) -> Optional[str]:
    """What is wrong with the way in which added entries are grouped: any is right in which the
    frames from the first to the last of a group may have come by one read."""
    ends = list(accumulate(len(it.frame) for it in given))
    places = [at for at, it in enumerate(found) if it.entry is not None]
    at = 0
    for group in groups:
        first, last = places[at], places[at + len(group) - 1]
        at += len(group)
        if last - first >= MOST_FRAMES:
            return f"a group of {len(group)} entries of {last - first + 1} frames"
        if ends[last] - ends[first] >= READ:
            return f"a group of {len(group)} entries of {ends[last] - ends[first]} bytes"
    return None
