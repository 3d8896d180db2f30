"""How long a service takes to start over a journal or a log that keeps very much, and the most memory
that it has then; and a copy of such a journal."""
from __future__ import annotations

import os
import time
from typing import Sequence

from ..support.formats.checked_journal import CHECK, HEADER, identity_of, with_check_sums
from ..support.formats.journal_file import LAST_PART
from ..support.formats.journal_records import RECORD
from ..support.formats.large_stores import Rounds, numbers_in_rounds, payments_in_rounds
from ..support.models.model_journal import USED
from ..support.program import Word
from ..support.service.client import (
    PURCHASES, Exchange, first_counters, payments, payments_of, refusal)
from ..support.service.journal_case import ON_JOURNAL, JournalCase
from ..support.service.service_case import ON_LOG
from .test_service_speed import EMPTY_FRAME

TERMINALS = range(1000)
# Each terminal has a thousand numbers; ten times as many with `--times 10`, and no more.
NUMBERS, MOST_TIMES = 1000, 10
# What a journal of ten million payments may take, in seconds and in bytes. So many of the bytes are
# for the latest payments, which are no more than in a journal of a million: they are in a queue, and
# then in a map that is made of it.
ALL, SECONDS, BYTES, OF_THE_LATEST = 10_000_000, 5.0, 120_000_000, 105_000_000
# So many numbers of each terminal are five million payments.
VERY_MANY = 5000
# Of so many records of a copy the check sum is computed.
SOME = 1000
# A shorter time is no share of that, but may be what the start of any process takes.
LEAST_SECONDS = 1.5
# A log of a million numbers may take so much, where they are in order, and where every second number
# is missing.
LOG_SECONDS, IN_ORDER, APART = 1.5, 6_000_000, 70_000_000


class StartCase(JournalCase):
    """The time is that of the processor, since other tests run beside this one."""

    weight = 5

    def start_over(
        self, words: Sequence[Word], rounds: Rounds, counters: Sequence[int], new: Exchange,
        room: int = 1,
    ) -> tuple[float, int]:
        """The seconds that a start takes, and the most bytes. Then the first number is refused, and a
        new one is accepted."""
        rounds.write(self.home / words[-1], counters, room)
        used = payments(1)[0]
        assert used.number is not None
        began, service = time.monotonic(), self.start(*words)
        service.ask([EMPTY_FRAME])
        took, (_, seconds), peak = time.monotonic() - began, service.look(), 1024 * service.peak()
        service.ask([used.frame, new.frame])
        answers = refusal(bytes(10), 1) + refusal(used.number, USED) + new.answer
        self.assert_output(service.end(), answers, "", "behind a start")
        self.tells(f"{len(TERMINALS) * len(counters)} records: {seconds:.2f} s of a processor, within "
                   f"{took:.2f} s, and {peak / 1e6:.1f} MB")
        return seconds, peak


class OverJournals(StartCase):
    def test_numbers_in_order(self) -> None:
        self.start_over_each(NUMBERS * min(self.times, MOST_TIMES))

    def test_very_many_and_their_copy(self) -> None:
        """Memory may be refused at any size, by contract. It is not where there is enough."""
        self.start_over_each(VERY_MANY)
        began = time.monotonic()
        ended = self.program.run("copy-journal", "journal", "copy", folder=self.home)
        self.tells(f"copied within {time.monotonic() - began:.2f} s")
        self.assert_output(ended, b"", "", "a copy of very many")
        self.assert_copied()

    def assert_copied(self) -> None:
        """The copy has the same entries in the same groups, under an identity of its own. Of some records
        the check sums are computed."""
        old, new = self.journal.read_bytes(), (self.home / "copy").read_bytes()
        self.assertEqual(len(new), len(old))
        its, theirs = identity_of(old), identity_of(new)
        assert its is not None and theirs is not None
        self.assertNotEqual(its, theirs)
        said = [it for it in range(RECORD) if it not in range(RECORD)[CHECK]]
        self.assertEqual([it for it in said if old[HEADER + it :: RECORD] != new[HEADER + it :: RECORD]], [])
        for place in self.chance.sample(range(1, len(old) // RECORD), SOME):
            record = slice(RECORD * place, RECORD * (place + 1))
            self.assertEqual(with_check_sums(new[record], theirs, place),
                             with_check_sums(old[record], its, place), f"record {place}")

    def times_as_long(self) -> int:
        """How many times that a program may take: Rattle's own compiler optimizes less than LLVM."""
        return 3 if os.fspath(self.program.path).endswith(".by-rattle") else 1

    def start_over_each(self, numbers: int) -> None:
        """Where each terminal has so many numbers."""
        counters = first_counters(numbers + 1)
        new = payments_of(counters[-1:], PURCHASES[:1])[0]
        records = len(TERMINALS) * numbers
        seconds, peak = self.start_over(
            ON_JOURNAL, payments_in_rounds(TERMINALS), counters[:-1], new,
            1 + records // (LAST_PART - 1))
        share = records / ALL
        self.assertLess(seconds, self.times_as_long() * max(LEAST_SECONDS, share * SECONDS))
        self.assertLess(peak, OF_THE_LATEST + share * (BYTES - OF_THE_LATEST))


class OverLogs(StartCase):
    def test_numbers_in_order(self) -> None:
        counters = first_counters(NUMBERS + 1)
        self.start_over_log(counters[:-1], payments(len(counters))[-1], IN_ORDER)

    def test_every_second_number(self) -> None:
        self.start_over_log(first_counters(2 * NUMBERS)[::2], payments(2)[-1], APART)

    def start_over_log(self, counters: Sequence[int], new: Exchange, most: int) -> None:
        seconds, peak = self.start_over(ON_LOG, numbers_in_rounds(TERMINALS), counters, new)
        self.assertLess(seconds, LOG_SECONDS)
        self.assertLess(peak, most)
