"""The calls of the service on its journal and its streams, in their order, as the system sees them."""
from __future__ import annotations

from typing import Sequence

from ..service.test_service_log_calls import REPLIED, Opens as OpensOfLogs, TracedCase, opening
from ..support.formats.checked_journal import HEADER, journal_of
from ..support.formats.journal_file import appended, records_for
from ..support.formats.journal_records import RECORD
from ..support.formats.left_files import AHEAD, JOURNAL, looked
from ..support.models.model_journal import groups_by_reads, judged, payments_of_all
from ..support.program import Ended
from ..support.service.client import Exchange, payments
from ..support.service.journal_case import JournalCase, stream_of
from ..support.service.service_case import answers_to

SYNCED = "fdatasync(journal)"
READ = "read(0, 65536 bytes)"
# A start reads so many bytes of the journal at once.
PIECE = 1 << 16


def reads(size: int) -> list[str]:
    """What is read of a journal of so many bytes: its header, which takes bytes ahead, and the records in
    pieces."""
    pieces = range(HEADER, size, PIECE)
    return [f"pread64(journal, {min(AHEAD, size)} bytes at 0)",
            *(f"pread64(journal, {min(PIECE, size - at)} bytes at {at})" for at in pieces
              if size - at >= AHEAD or at + min(PIECE, size - at) > AHEAD)]


def start(image: bytes) -> list[str]:
    """The journal is looked at, to see that it is one. Then all records are read, once."""
    looks = [f"pread64(journal, {count} bytes at {at})" for count, at in looked(JOURNAL, image)]
    return [*opening("journal"), *looks, SYNCED, *reads(len(image))]


def group(place: int, count: int) -> list[str]:
    """The bodies of a group are written and synced, and then the gate of the first; then all
    answers go out in one write."""
    bodies = [f"pwrite64(journal, {RECORD - 1} bytes at {HEADER + RECORD * (place + at) + 1})"
              for at in range(count)]
    return [*bodies, SYNCED, f"pwrite64(journal, 1 bytes at {HEADER + RECORD * place})", SYNCED, REPLIED]


class Traced(TracedCase, JournalCase):
    store, record = "journal", RECORD

    def traced(
        self, requests: Sequence[Exchange], configuration: str = "bank.toml"
    ) -> tuple[Ended, list[str]]:
        """Where the length of the journal is looked at is left out."""
        ended, steps = super().traced(requests, configuration)
        return ended, [it for it in steps if it != "the length of journal"]


class Calls(Traced):
    def test_groups(self) -> None:
        """A group of one read, and those of a read that has more than a group's frames. What is not
        new costs nothing but its answer."""
        for old, count in ((0, 1), (0, 3), (2, 5), (0, 1024), (3, 1030)):
            requests = payments(old + count)
            room = records_for(old + count) + 2
            self.make_journal(room, [payments_of_all(requests[:old])] if old else [])
            before = self.journal.read_bytes()
            ended, steps = self.traced(requests)
            self.assert_ended(ended, 0, answers_to(requests), b"", "under strace")
            found = judged(requests, payments_of_all(requests[:old]), room)
            groups = groups_by_reads(requests, found, [len(stream_of(requests))])
            self.assert_bytes(appended(before, groups), "under strace")
            wanted, at = [*start(before), READ], old
            for it in groups:
                wanted += group(at, len(it))
                at += len(it)
            self.assertEqual(steps, [*wanted, READ], f"{old} and {count}")
            after = self.journal.read_bytes()
            ended, steps = self.traced(requests)
            self.assert_ended(ended, 0, answers_to(requests), b"", "under strace")
            replies = [REPLIED] * len(range(0, len(requests), 1024))
            self.assertEqual(steps, [*start(after), READ, *replies, READ], "once more")

    def test_a_long_journal(self) -> None:
        """It is read in pieces, and nothing is read anew behind a start."""
        kept, room = payments_of_all(payments(2500)), 5000
        image = journal_of([kept[:1000], kept[1000:]], room - len(kept))
        self.journal.write_bytes(image)
        ended, steps = self.traced([payments(1)[0], payments(2501)[-1]])
        self.assertEqual(ended.status, 0)
        self.assertEqual(steps, [*start(image), READ, *group(len(kept), 1), READ])


class Opens(Traced, OpensOfLogs):
    """As over a log."""

    looks = ()
