"""The base of the tests of `dukpt serve CONFIG --journal FILE`: a folder with a journal."""
from __future__ import annotations

import os
from dataclasses import replace
from pathlib import Path
from typing import Iterable, Optional, Sequence

from ..formats import journal_file
from ..formats.checked_journal import room_in
from ..formats.journal_file import appended, entries_in, groups_in, records_for
from ..formats.journal_records import RECORD, Entry, Group
from ..models.model_journal import (
    Judged, added_by, answers_of, groups_by_reads, judged, reads_of_file, wrong_group)
from ..program import Ended, Word
from .client import Exchange, payments, refused_requests
from .service import PACKETS, PLAIN, How
from .service_case import ServiceCase, frames_of, stream_of

ON_JOURNAL = ("serve", "bank.toml", "--journal", "journal")

CANNOT_OPEN = "journal: cannot open"
JOURNAL_FAILED = "journal: failed"
OLD_VERSION = "journal: version 1, use copy-journal"


def alone(given: Iterable[Entry]) -> list[list[Entry]]:
    """Each entry as a group of its own."""
    return [[it] for it in given]


class JournalCase(ServiceCase):
    """A test of a service over the file `journal`."""

    @property
    def journal(self) -> Path:
        return self.home / "journal"

    def make_journal(self, room: int, groups: Sequence[Group] = ()) -> bytes:
        """Makes the file `journal` anew, with room for so many entries, and answers its bytes."""
        return journal_file.make_journal(self.journal, room, groups)

    def make_room(self, payments: int) -> bytes:
        """The same with room for so many payments, and none more."""
        return self.make_journal(records_for(payments))

    def kept(self) -> list[Entry]:
        """The payments and reversals that the journal keeps."""
        return entries_in(self.journal.read_bytes())

    # Runs that are judged

    def check_run(
        self,
        requests: Sequence[Exchange],
        pieces: Optional[Iterable[bytes]] = None,
        behind: bytes = b"",
        fault: str = "",
        how: How = PLAIN,
        words: Sequence[Word] = ON_JOURNAL,
        what: str = "",
    ) -> list[Judged]:
        """That a service over the journal answers each request as it should, in whatever groups its
        reads make of them, and ends with this fault, if one is named. The requests come in these
        pieces, or at once with these bytes behind them."""
        before = self.journal.read_bytes()
        found = judged(requests, entries_in(before), room_in(before))
        ended = self.run_service(words, [stream_of(requests) + behind] if pieces is None else pieces,
                                 how)
        self.assert_output(ended, answers_of(found), fault, what)
        self.assert_grown(before, requests, found, what)
        return found

    def check_packets(self, packets: Sequence[Sequence[Exchange]], what: str = "") -> None:
        """The same where each packet of requests is one read, so that each byte is known."""
        before, requests = self.journal.read_bytes(), [it for packet in packets for it in packet]
        found = judged(requests, entries_in(before), room_in(before))
        ended = self.run_service(ON_JOURNAL, [stream_of(it) for it in packets], PACKETS)
        self.assert_output(ended, answers_of(found), "", what)
        reads = [len(stream_of([it for packet in packets[: at + 1] for it in packet]))
                 for at in range(len(packets))]
        self.assert_bytes(appended(before, groups_by_reads(requests, found, reads)), what)

    def check_file(
        self,
        requests: Sequence[Exchange],
        behind: bytes = b"",
        fault: str = "",
        words: Sequence[Word] = ON_JOURNAL,
        what: str = "",
        kept: Optional[Sequence[Entry]] = None,
    ) -> list[Judged]:
        """The same where the requests stand in a file, whose reads are known, and with them each
        byte of the journal. To read the entries that it keeps takes long if they are very many, and
        these may be known."""
        before, stream = self.journal.read_bytes(), stream_of(requests) + behind
        kept = entries_in(before) if kept is None else kept
        found = judged(requests, kept, room_in(before))
        ended = self.serve_file(stream, words)
        self.assert_output(ended, answers_of(found), fault, what)
        groups = groups_by_reads(requests, found, reads_of_file(len(stream)))
        self.assert_bytes(appended(before, groups, len(kept)), what)
        return found

    def serve_file(
        self, stream: bytes, words: Sequence[Word] = ON_JOURNAL, how: How = PLAIN
    ) -> Ended:
        """How a service ends whose input is a file with these bytes."""
        self.write("input", stream)
        with open(self.home / "input", "rb") as given:
            return self.run_service(words, [], replace(how, given=given.fileno()))

    # What is demanded of the journal

    def assert_bytes(self, wanted: bytes, what: str) -> None:
        """That the journal has exactly these bytes."""
        found = self.journal.read_bytes()
        if found != wanted:
            at = next((at for at, (a, b) in enumerate(zip(found, wanted)) if a != b),
                      min(len(found), len(wanted)))
            here = slice(at - at % RECORD, at - at % RECORD + RECORD)
            self.fail(f"{what}: record {at // RECORD} of the journal, byte {at % RECORD}: "
                      f"{found[here].hex()}, and not {wanted[here].hex()}")

    def assert_grown(
        self, before: bytes, requests: Sequence[Exchange], found: Sequence[Judged], what: str
    ) -> None:
        """That the journal has the entries of before, those that the requests added, in a way to
        group them that reads may have, and else the bytes of before."""
        after = self.journal.read_bytes()
        groups = groups_in(after)[len(groups_in(before)) :]
        self.assertEqual([it for group in groups for it in group], added_by(found), what)
        self.assert_bytes(appended(before, groups), what)
        wrong = wrong_group(requests, found, groups)
        self.assertIsNone(wrong, what)

    def assert_payments(self, entries: Sequence[Entry], what: str) -> None:
        self.assertEqual(self.kept(), list(entries), what)

    # Requests

    def any_order(self, count: int) -> list[Exchange]:
        """So many payments in any order, with what is always refused between them, and some once
        more at any later place."""
        requests: list[Exchange] = []
        for it in self.chance.sample(payments(count), count):
            requests.append(it)
            requests += self.sometimes(0.2, refused_requests())
            requests += self.sometimes(0.2, requests)
        return requests


def sync_file(path: Path) -> None:
    handle = os.open(path, os.O_RDONLY)
    try:
        os.fsync(handle)
    finally:
        os.close(handle)


__all__ = [
    "CANNOT_OPEN", "JOURNAL_FAILED", "ON_JOURNAL", "JournalCase", "alone", "frames_of", "stream_of"]
