"""Which files a service or `issue` opens to write: those that a log, a journal or a ledger left, by
docs/FORMATS.md, "A file that is a log, a journal or a ledger". And what a start reads of a file to
see that."""
from __future__ import annotations

from dataclasses import dataclass
from typing import Callable, Optional

from . import ledger_file, log_file
from .checked_journal import identity_of
from .journal_records import BOTH_KINDS, wrong_bytes

OPEN = 1


@dataclass(frozen=True)
class Records:
    """A format of records: their bytes, how many a stop leaves in part, in which bytes an open one says
    how many follow, and how many in front are headers, each of which is a group by itself."""

    size: int
    most: int
    followers: slice
    headers: int = 0
    # Whether the first record is such as a file begins with.
    is_front: Callable[[bytes], bool] = lambda first: True

    def of(self, image: bytes) -> list[bytes]:
        return [image[at : at + self.size] for at in range(0, len(image), self.size)]

    def kept(self, image: bytes) -> int:
        """How many records in front belong to groups."""
        opens = [at for at, it in enumerate(self.of(image)) if it[0] == OPEN]
        if not opens:
            return 0
        return opens[-1] + 1 + self.following(opens[-1], image[self.size * opens[-1] :][: self.size])

    def following(self, place: int, record: bytes) -> int:
        """How many follow an open record at a place."""
        return 0 if place < self.headers else int.from_bytes(record[self.followers], "big")

    def foreign(self, image: bytes) -> Optional[int]:
        """The last record that is not zero, where these whole records are such as no log, journal
        or ledger leaves."""
        records, kept = self.of(image), self.kept(image)
        rest = list(enumerate(records))[kept:]
        is_left = (all(not it[0] for at, it in rest if at > kept)
                   and all(not any(it) for at, it in rest if at >= kept + self.most)
                   and not (len(records) == 1 and kept == 0 and any(records[0])))
        return None if is_left else max(at for at, it in enumerate(records) if any(it))

    def is_left(self, image: bytes) -> bool:
        return (bool(image) and len(image) % self.size == 0 and self.is_front(image[: self.size])
                and self.foreign(image) is None)


LOG = Records(16, 1, slice(0, 0))

def is_closed_or_whole(record: bytes) -> bool:
    return record[0] != OPEN or not wrong_bytes(record, False, BOTH_KINDS)


def is_header(record: bytes) -> bool:
    return identity_of(record) is not None


# A journal of version 1, and one of version 2.
OLD_JOURNAL = Records(32, 4096, slice(2, 4), is_front=is_closed_or_whole)
JOURNAL = Records(32, 4096, slice(2, 4), headers=1, is_front=is_header)


def is_closed_or_numbered(record: bytes) -> bool:
    return record[0] != OPEN or not any(record[log_file.ZEROS])


def is_ledger_header(record: bytes) -> bool:
    return ledger_file.identity_of(record) is not None


# A ledger of version 1, which has the form of a log, and one of version 2.
OLD_LEDGER = Records(16, 1, slice(0, 0), is_front=is_closed_or_numbered)
LEDGER = Records(32, 1, slice(0, 0), headers=1, is_front=is_ledger_header)

# A start looks through so many bytes at once, from the end on.
PIECE = 1 << 16
# A read of fewer bytes takes so many, as far as the file has them, and they are held.
AHEAD = 4096


# A read of a file: from this place on so many bytes.
Take = Callable[[int, int], bytes]


class Looks:
    """The reads that come to a file, of those that a start asks for before it writes."""

    def __init__(self, form: Records, size: int, take: Take) -> None:
        self.form, self.size, self.take = form, size, take
        self.held, self.data = range(0), b""

    def read(self, at: int, count: int) -> bytes:
        if count >= AHEAD:
            return self.take(at, count)
        if not (self.held.start <= at and at + count <= self.held.stop):
            ahead = range(at, min(at + AHEAD, self.size))
            try:
                self.data, self.held = self.take(at, len(ahead)), ahead
            except OSError:
                return self.take(at, count)
        return self.data[at - self.held.start :][:count]

    def last(self, end: int, offers: int) -> Optional[int]:
        """The last record before this one of which the first byte, or with 0 any byte, is looked for:
        piece after piece is read from there on to the front."""
        size = self.form.size
        while end > 0:
            count = min(end, PIECE // size)
            end -= count
            found = self.form.of(self.read(size * end, size * count))
            for at in reversed(range(count)):
                if offers == 0 and any(found[at]) or offers == 1 and found[at][0] == OPEN:
                    return end + at
                if offers == 2 and found[at][0]:
                    return end + at
        return None


def look(form: Records, size: int, take: Take) -> None:
    """Reads a file of whole records: for its header; for the last record that is used; before it for
    the last that is open, and what that says to follow; and for the last with a gate."""
    looks = Looks(form, size, take)
    if form.headers:
        looks.read(0, form.size)
    used = looks.last(size // form.size, 0)
    if used is None:
        return
    last = looks.last(used + 1, 1)
    if last is not None and last >= form.headers and form.followers.stop:
        looks.read(form.size * last + form.followers.start, 2)
    looks.last(used + 1, 2)


def looked(form: Records, image: bytes) -> list[tuple[int, int]]:
    """The reads of a file with these bytes, as how many bytes and from where on."""
    calls: list[tuple[int, int]] = []

    def take(at: int, count: int) -> bytes:
        calls.append((count, at))
        return image[at : at + count]

    look(form, len(image), take)
    return calls
