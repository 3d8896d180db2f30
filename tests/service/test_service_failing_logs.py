"""A log that fails while the service has it open: a call on it, or a file that is cut short.

After the first call that fails nothing is acknowledged any more, whatever later calls would
answer.
"""
from __future__ import annotations

import os
from typing import Sequence

from ..support.formats import left_files
from ..support.formats.log_file import RECORD, log_image, numbers_in
from ..support.program import Word
from ..support.service.client import Exchange, payments
from ..support.service.service_case import (
    LOG_FAILED, ON_LOG, ServiceCase, answers_to, frames_of, numbers_of, stream_of)
from ..support.system.cut_disk import Failure, Lost, Plan
from ..support.system.cut_file import CutFile

PAYMENTS, ROOM, LONG_ROOM = 6, 8, 600
# The writes and syncs of an acceptance, behind the sync at the start.
CALLS = 4


class FailedCalls(ServiceCase):
    """One call fails, and each later one is answered as done. What was written since the last sync
    is lost: a read gives what stood there before; or it is read for as long as the power is on."""

    weight = 5

    def test_each_call(self) -> None:
        file = CutFile(self.folder(), b"")
        self.addCleanup(file.close)
        for lost in Lost:
            for call in range(1 + CALLS * 3):
                self.fail_at(file, Failure(call, lost))

    def fail_at(self, file: CutFile, failure: Failure) -> None:
        what, requests = f"{failure}", payments(PAYMENTS)
        file.make(log_image([], ROOM))
        file.begin(Plan(failure=failure))
        accepted = requests[: max(0, failure.call - 1) // CALLS]
        words = ("serve", "bank.toml", "--log", file.path)
        self.check(words, [stream_of(requests)], answers_to(accepted), LOG_FAILED, what=what)
        self.assertEqual(file.calls(), failure.call + 1, f"{what}: calls behind one that failed")
        if failure.lost is Lost.DROPPED:
            file.begin(Plan())
            self.go_on(words, file.image(), requests, accepted, what)
            self.assertEqual(set(numbers_in(file.cut(0), ROOM)), set(numbers_of(requests)), what)
        else:
            # A copy on a sound disk has what is read.
            self.log.write_bytes(file.image())
            self.go_on(ON_LOG, file.image(), requests, accepted, what)

    def go_on(
        self,
        words: Sequence[Word],
        image: bytes,
        requests: Sequence[Exchange],
        accepted: Sequence[Exchange],
        what: str,
    ) -> None:
        """The log has each number that was acknowledged and one more at most, and the next service
        goes on from there."""
        kept = numbers_in(image, ROOM)
        self.assertEqual(kept, numbers_of(requests)[: len(kept)], what)
        self.assertIn(len(kept) - len(accepted), (0, 1), what)
        self.check_requests(words, requests, kept, ROOM, what=f"behind {what}")


class FailedReads(ServiceCase):
    """Reads of a start fail, and each later one would be answered. Of a piece at once nothing is read then;
    where the bytes ahead of a record cannot be read, the record is read alone."""

    def setUp(self) -> None:
        super().setUp()
        self.image = log_image(numbers_of(payments(PAYMENTS)[:-1]), LONG_ROOM)
        self.file = CutFile(self.folder(), self.image)
        self.addCleanup(self.file.close)
        self.words = ("serve", "bank.toml", "--log", self.file.path)
        self.check(self.words, [], b"")
        self.reads = self.file.reads()
        looks = left_files.looked(left_files.LOG, self.image)
        self.pieces = {at for at, (count, _) in enumerate(looks) if count > left_files.AHEAD}

    def test_each_read(self) -> None:
        """That of a piece; and of a record the one of the bytes ahead, and that of the record."""
        self.assertEqual(self.pieces, {0})
        self.assertGreater(self.reads, 4, "a start reads a long log's records in turn")
        for read in range(self.reads):
            failed = 1 if read in self.pieces else 2
            what = f"{failed} from read {read} of a start on fail"
            self.file.begin(Plan(failed_read=read, failed_reads=failed))
            requests = payments(PAYMENTS)
            self.check(self.words, [stream_of(requests)], b"", LOG_FAILED, what=what)
            self.assertEqual(self.file.reads(), read + failed, f"{what}: reads behind them")
            self.assertEqual(self.file.image(), self.image, what)

    def test_reads_ahead(self) -> None:
        """The one of the bytes ahead alone: the log is read all the same."""
        for read in {*range(self.reads)} - self.pieces:
            what = f"read {read} of a start fails"
            self.file.begin(Plan(failed_read=read))
            self.check(self.words, [], b"", what=what)
            self.assertGreater(self.file.reads(), self.reads, what)
            self.assertEqual(self.file.image(), self.image, what)


class CutShort(ServiceCase):
    """The file loses bytes at its end while a service has it open."""

    def test_cut_short(self) -> None:
        """The next acceptance fails, wherever the end is now."""
        size, next_record = ROOM * RECORD, 3 * RECORD
        for left in (0, 1, RECORD, next_record - 1, next_record, next_record + 1,
                     next_record + RECORD, size - RECORD, size - 1):
            self.cut_to(left)

    def cut_to(self, left: int) -> None:
        requests, what = payments(PAYMENTS), f"a log that is cut to {left} bytes"
        self.make_log(ROOM)
        service = self.start(*ON_LOG)
        service.ask(frames_of(requests[:3]))
        os.truncate(self.log, left)
        service.talk(frames_of(requests[:1] + requests[3:]))
        answers = answers_to(requests[:3] + requests[:1])
        self.assert_output(service.end(), answers, LOG_FAILED, what)
