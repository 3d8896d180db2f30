"""A journal that fails while the service has it open: a call on it, a file that may not grow or is
cut short, a full file system.

Behind the first call that fails nothing is acknowledged any more, and no answer of its group goes
out. Nothing that was acknowledged is lost.
"""
from __future__ import annotations

import os
import signal
from typing import Sequence

from ..support.formats.checked_journal import HEADER, blank, header_of, journal_of
from ..support.formats.journal_file import appended, bodies_of, payments_in, records_for
from ..support.formats.journal_records import RECORD
from ..support.models.model_journal import groups_by_reads, judged, payments_of_all
from ..support.program import Ended, Limits
from ..support.service.client import Exchange, payments
from ..support.service.journal_case import (
    JOURNAL_FAILED, ON_JOURNAL, JournalCase, alone, frames_of, stream_of)
from ..support.service.service import PACKETS, How
from ..support.service.service_case import LOG_FAILED, answers_to
from ..support.system.cut_disk import Failure, Lost, Plan
from ..support.system.cut_file import CutFile
from ..support.system.small_files import PAGE, SmallFiles

# Groups of so many payments each; the journal has room for some more.
SIZES, ROOM = (3, 1, 5), 12
PAYMENTS = sum(SIZES)
# How many records of a long journal are read at once.
LONG_ROOM = 5000


def packets_of(requests: Sequence[Exchange]) -> list[list[Exchange]]:
    packets, at = [], 0
    for size in SIZES:
        packets.append(list(requests[at : at + size]))
        at += size
    return packets


def group_of(call: int) -> int:
    """Into which group this call falls, counted from the sync of the start: a group has a write
    for each body, a sync, the write of the gate, and a sync."""
    at = 1
    for group, size in enumerate(SIZES):
        at += size + 3
        if call < at:
            return group
    return len(SIZES)


CALLS = 1 + sum(size + 3 for size in SIZES)


class FailedCalls(JournalCase):
    """One call fails, and each later one is answered as done. What was written since the last sync
    is lost: a read gives what stood there before; or it is read for as long as the power is on."""

    weight = 5

    def test_each_call(self) -> None:
        file = CutFile(self.folder(), b"")
        self.addCleanup(file.close)
        for lost in Lost:
            for call in range(CALLS):
                self.fail_at(file, Failure(call, lost))

    def fail_at(self, file: CutFile, failure: Failure) -> None:
        what, requests = f"{failure}", payments(PAYMENTS)
        file.make(blank(ROOM))
        file.begin(Plan(failure=failure))
        packets = packets_of(requests)
        done = 0 if failure.call == 0 else group_of(failure.call)
        accepted = [it for packet in packets[:done] for it in packet]
        words = ("serve", "bank.toml", "--journal", file.path)
        self.check(words, [stream_of(it) for it in packets], answers_to(accepted), JOURNAL_FAILED,
                   PACKETS, what)
        self.assertEqual(file.calls(), failure.call + 1, f"{what}: calls behind one that failed")
        image = file.image()
        kept = payments_in(image)
        groups = [payments_of_all(it) for it in packets]
        either = [[it for group in groups[:count] for it in group]
                  for count in (done, done + (failure.call > 0))]
        self.assertIn(kept, either, f"{what}: the old payments, or these and the whole group")
        self.journal.write_bytes(image)
        self.check_file(requests, what=f"over a copy behind {what}")
        self.check_file(requests, what=f"over a copy behind {what}, again")
        file.begin(Plan())
        power_off = payments_in(file.cut(0))
        self.assertEqual(power_off[: len(accepted)], payments_of_all(accepted),
                         f"{what}: an acknowledged payment is lost")


class FailedReads(JournalCase):
    """A read of a start fails: then the service does not start, or reads it all the same; and it
    changes nothing."""

    weight = 2

    def test_each_read(self) -> None:
        requests = payments(2101)
        image = journal_of([payments_of_all(requests[:1024]),
                            *alone(payments_of_all(requests[1024:2100]))], LONG_ROOM - 2100)
        file = CutFile(self.folder(), image)
        self.addCleanup(file.close)
        words = ("serve", "bank.toml", "--journal", file.path)
        self.check(words, [], b"")
        reads = file.reads()
        self.assertGreater(reads, 2, "a start reads a long journal in pieces")
        for read in range(reads):
            for count in (1, 3):
                what = f"{count} reads of a start fail from {read} on"
                file.begin(Plan(failed_read=read, failed_reads=count))
                ended = self.run_service(words, [stream_of(requests[:1])])
                if ended.status == 0:
                    self.assertEqual(count, 1, what)
                    self.assert_output(ended, answers_to(requests[:1]), "", what)
                else:
                    self.assert_output(ended, b"", JOURNAL_FAILED, what)
                self.assertEqual(file.image(), image, what)

    def test_reads_and_writes_in_pieces(self) -> None:
        """Calls that take a part of what is asked for are made again for the rest."""
        requests = payments(300)
        file = CutFile(self.folder(), b"")
        self.addCleanup(file.close)
        words = ("serve", "bank.toml", "--journal", file.path)
        room = records_for(280)
        file.make(blank(room))
        for seed in range(4):
            file.begin(Plan(seed, in_pieces=True))
            before = file.image()
            found = judged(requests[: 100 * seed + 50], payments_in(before), room)
            stream = stream_of(requests[: 100 * seed + 50])
            self.write("input", stream)
            with open(self.home / "input", "rb") as given:
                ended = self.run_service(words, [], How(given=given.fileno()))
            self.assert_output(ended, b"".join(it.answer for it in found), "", "in pieces")
            groups = groups_by_reads(requests, found, [len(stream)]) if stream else []
            self.assertEqual(file.image(), appended(before, groups), "in pieces")


class CutShort(JournalCase):
    """The file loses bytes at its end while a service has it open."""

    def test_cut_short(self) -> None:
        """The next acceptance fails, wherever the end is now; what needs none is answered."""
        size, next_record = HEADER + ROOM * RECORD, HEADER + 3 * RECORD
        for left in (0, 1, RECORD, next_record - 1, next_record, next_record + 1,
                     next_record + RECORD, size - RECORD, size - 1):
            self.cut_to(left)

    def cut_to(self, left: int) -> None:
        requests, what = payments(PAYMENTS), f"a journal that is cut to {left} bytes"
        self.make_journal(ROOM)
        service = self.start(*ON_JOURNAL)
        service.ask(frames_of(requests[:3]))
        os.truncate(self.journal, left)
        service.ask(frames_of(requests[:1]))
        service.talk(frames_of(requests[3:]))
        answers = answers_to(requests[:3] + requests[:1])
        self.assert_output(service.end(), answers, JOURNAL_FAILED, what)

    def test_a_file_that_grows(self) -> None:
        """What is appended while a service has it open is not taken for its own."""
        requests = payments(PAYMENTS)
        self.make_journal(ROOM)
        service = self.start(*ON_JOURNAL)
        service.ask(frames_of(requests[:2]))
        with open(self.journal, "ab") as it:
            it.write(bytes(RECORD))
        service.talk(frames_of(requests[2:]))
        self.assert_output(service.end(), answers_to(requests[:2]), JOURNAL_FAILED, "it grew")
        self.check_file(requests, what="behind a file that grew")


class Limited(JournalCase):
    """A journal that may not grow beyond some byte, at which a write is cut."""

    weight = 3
    # How many records the limit has room for, how many bytes more, and how many are used before.
    limits = ((0, 0, 0), (0, 1, 0), (0, 9, 0), (5, 1, 0), (7, 8, 0), (9, 31, 0), (9, 15, 9),
              (64, 0, 0), (64, 0, 50), (128, 10, 50))

    def test_reported(self) -> None:
        """Where the signal is ignored the write fails."""
        for limit in self.limits:
            for size in (1, 4):
                ended, answers = self.stop_in_a_write(*limit, size, True)
                self.assert_output(ended, answers, JOURNAL_FAILED, f"{limit}")

    def test_by_signal(self) -> None:
        """Where it is not, the signal ends the process."""
        for limit in self.limits:
            for size in (1, 4):
                ended, answers = self.stop_in_a_write(*limit, size, False)
                self.assert_ended(ended, -signal.SIGXFSZ, answers, b"", f"{limit}")

    def stop_in_a_write(
        self, room: int, beyond: int, used: int, size: int, ignored: bool
    ) -> tuple[Ended, bytes]:
        """How a run ends whose groups have so many payments, and the answers of those groups that
        the limit has room for."""
        requests, what = payments(room + 12), f"a limit of {room} records and {beyond} bytes"
        self.make_journal(256, alone(payments_of_all(requests[:used])))
        fresh = requests[used:]
        packets = [fresh[at : at + size] for at in range(0, len(fresh), size)]
        whole = (room - used) // size
        done = fresh[: size * whole]
        how = How(PACKETS.pipes,
                  limits=Limits(file_size=HEADER + room * RECORD + beyond, ignores_file_signal=ignored))
        ended = self.run_service(ON_JOURNAL, [stream_of(it) for it in packets], how)
        self.assertEqual(self.kept(), payments_of_all([*requests[:used], *done]), what)
        self.check_file(requests, what=f"behind {what}")
        return ended, answers_to(done)


class FullFileSystem(JournalCase):
    """A sparse journal on a file system that has room for the first pages of it alone, which groups
    fill: then a write of a body fails for want of room."""

    weight = 3
    pages, journal_pages = 2, 4
    fits = (pages * PAGE - HEADER) // RECORD

    def setUp(self) -> None:
        super().setUp()
        self.small = SmallFiles(self.folder(), self.pages)
        self.addCleanup(self.small.close)
        self.path = self.small.folder / "journal"
        self.words = ("serve", "wide.toml", "--journal", self.path)

    def test_groups_until_it_is_full(self) -> None:
        """Those that fit are kept and answered. Of the one that does not fit no answer goes out, and
        its gate stays closed: its bodies end where the room does."""
        for size in (1, 3, 100, 300):
            self.fill(size)

    def fill(self, size: int) -> None:
        """Gives groups of so many payments, each by one read."""
        what, requests = f"groups of {size}", payments(self.fits + 2 * size)
        packets = [requests[at : at + size] for at in range(0, len(requests), size)]
        done = size * (self.fits // size)
        empty = self.make_sparse()
        self.check(self.words, [stream_of(it) for it in packets], answers_to(requests[:done]),
                   JOURNAL_FAILED, PACKETS, what)
        self.assertEqual(self.small.free(), 0, f"{what}: the file system is not full")
        wanted = bytearray(appended(empty, [payments_of_all(it) for it in packets[: done // size]]))
        torn = bodies_of(payments_of_all(requests[done : done + size]), done)[: self.fits - done]
        for place, body in enumerate(torn, done):
            at = HEADER + RECORD * place
            wanted[at + 1 : at + RECORD] = body
        self.journal.write_bytes(self.path.read_bytes())
        self.assert_bytes(bytes(wanted), what)
        self.assert_payments(payments_of_all(requests[:done]), what)
        self.still_full(requests, done, what)
        self.check_file(requests, what=f"{what}: where there is room")

    def still_full(self, requests: Sequence[Exchange], done: int, what: str) -> None:
        """Another service over it answers again what is kept, and fails at the next number."""
        again, more = requests[:done:50], requests[done : self.fits + 1]
        self.check(self.words, [stream_of(again), stream_of(more)], answers_to(again),
                   JOURNAL_FAILED, PACKETS, f"{what}: over it once more")
        self.assertEqual(payments_in(self.path.read_bytes()), payments_of_all(requests[:done]), what)

    def make_sparse(self) -> bytes:
        """Makes the journal anew, with zeros that take no room behind its header."""
        self.path.unlink(missing_ok=True)
        with open(self.path, "wb") as it:
            it.write(header_of())
            it.truncate(self.journal_pages * PAGE)
        self.assertEqual(self.small.free(), self.pages - 1, "the zeros of a sparse journal take room")
        return header_of().ljust(self.journal_pages * PAGE, b"\x00")

    def test_another_file_takes_the_room(self) -> None:
        """While a service has the journal open: what the page that it has holds is kept."""
        page = (PAGE - HEADER) // RECORD
        requests = payments(page + 20)
        self.make_sparse()
        service = self.start(*self.words)
        service.ask(frames_of(requests[:5]))
        (self.small.folder / "other").write_bytes(bytes(self.small.free() * PAGE))
        service.ask(frames_of(requests[5:]))
        self.assert_output(service.end(), answers_to(requests[:page]), JOURNAL_FAILED, "one by one")
        self.journal.write_bytes(self.path.read_bytes())
        self.assert_payments(payments_of_all(requests[:page]), "one by one")
        self.check_file(requests, what="where there is room")


class BothStores(JournalCase):
    """A line says which store failed."""

    def test_the_line(self) -> None:
        self.write("journal", bytes(33))
        self.write("log", bytes(33))
        self.check(ON_JOURNAL, [], b"", JOURNAL_FAILED)
        self.check(("serve", "bank.toml", "--log", "log"), [], b"", LOG_FAILED)
