"""Runs of a service on one journal, each of which but the last is killed, at any moment, while
requests are piped to it as fast as it takes them.

Over all runs of a history a number has one payment, and all its replies are equal. Each reply that
was read is in the journal, and each request that is sent again after a kill gets its reply.
"""
from __future__ import annotations

import signal
import time
from typing import Iterable

from ..support.case import in_parts
from ..support.formats.journal_records import Entry
from ..support.models.model_journal import answers_of, payment_of
from ..support.service.client import Exchange, payments, refused_requests
from ..support.service.journal_case import JournalCase, stream_of
from ..support.service.journal_kills import KilledRuns
from ..support.service.service import FOREVER, NARROW, PLAIN, SECONDS, Service, cuts

# The payments of a history are so many of these, and the journal has room for all but a few.
PAYMENTS, ALL, LACKS = 4000, 8000, 20
KILLS = 16
WORDS = ("serve", "wide.toml", "--journal", "journal")
# Requests come all at once, or in pieces of at most so many bytes.
PIECES = (0, 0, 60, 400, 5000)


class Kills(KilledRuns):
    """Histories of killed runs; each part of the test has some."""

    weight = 8

    def setUp(self) -> None:
        super().setUp()
        self.histories = 0

    @in_parts(3)
    def test_histories(self) -> None:
        self.start_takes = self.measure_a_run(0)
        self.each_takes = max(0.0, self.measure_a_run(PAYMENTS) - self.start_takes) / PAYMENTS
        while self.kills < KILLS * self.times:
            self.begin_history()
            for _ in range(self.chance.randint(1, 6)):
                if self.kills < KILLS * self.times:
                    self.kill_a_run()
            self.end_history()
        self.assertGreaterEqual(8 * self.midst, self.kills,
                                "too few kills fell in the midst of acceptances")
        self.assertGreater(self.again, 0, "no reply was given again")
        self.tells(f"{self.kills} kills in {self.histories} histories, {self.midst} in the midst of "
                   f"acceptances, {self.torn} in the midst of a group, {self.unread} payments whose "
                   f"replies were not read; {self.again} replies given again")

    def measure_a_run(self, count: int) -> float:
        """How long a run takes that is not killed."""
        self.make_room(PAYMENTS)
        began = time.monotonic()
        self.check_run(payments(ALL)[:count], words=WORDS, what="a run that is not killed")
        return time.monotonic() - began

    def begin_history(self) -> None:
        first = self.chance.randrange(ALL - PAYMENTS + 1)
        self.items = payments(ALL)[first : first + PAYMENTS]
        self.replies = {}
        self.make_room(PAYMENTS - LACKS)
        self.histories += 1

    def order(self) -> list[Exchange]:
        """A stretch of all, with some once more, and some that are always refused."""
        count = self.chance.choice((50, 600, 1500))
        order = self.chance.sample(self.items, count)
        order += self.chance.choices(self.items, k=count // 4)
        order += self.chance.choices(refused_requests(), k=count // 20)
        if self.chance.random() < 0.7:
            self.chance.shuffle(order)
        return order

    def kill_a_run(self) -> None:
        order, before = self.order(), self.journal.read_bytes()
        size = self.chance.choice(PIECES)
        pieces = cuts(stream_of(order), self.chance, size) if size else [stream_of(order)]
        work = self.each_takes * len(order)
        # Through pipes of a page a service is never far ahead of its answers' reader.
        is_narrow = self.chance.random() < 0.5
        service = self.start(*WORDS, how=NARROW if is_narrow else PLAIN)
        if is_narrow:
            self.feed(service, pieces, self.chance.randrange(15 * len(order)), SECONDS)
            time.sleep(self.chance.uniform(0, 0.002))
        else:
            self.feed(service, pieces, FOREVER,
                      0.8 * self.start_takes + self.chance.uniform(0, work))
        service.kill()
        ended = service.end()
        service.release()
        self.assertEqual((ended.status, ended.faults), (-signal.SIGKILL, b""), "a killed run")
        self.judge_kill(before, order, ended.output)

    def feed(
        self, service: Service, pieces: Iterable[bytes], wanted: float, seconds: float
    ) -> None:
        """Gives pieces and reads answers, until so many bytes of these have come, or the time is
        over."""
        until = time.monotonic() + seconds
        left, rest = iter(pieces), b""
        while len(service.collected) < wanted and time.monotonic() < until:
            readable, writable = service.ready(rest is not None, until)
            if writable and rest is not None:
                rest = service.give(rest, left)
            if readable and not service.take(500):
                return

    def end_history(self) -> None:
        """Everything is sent once more, and nothing is killed: each number that ever had a reply
        gets that reply, and the journal is full."""
        order = self.chance.sample(self.items, PAYMENTS)
        found = self.check_run(order, words=WORDS, what="a run behind kills")
        self.read_replies(answers_of(found), self.kept())
        self.assertEqual(len(self.kept()), PAYMENTS - LACKS, "in the end the journal is full")
        self.assertEqual(len(self.replies), PAYMENTS - LACKS, "in the end each has its reply")


class KillsOneByOne(JournalCase):
    """Each request waits for its answer, and the run is killed behind some answer."""

    weight = 2

    def test_behind_each_answer(self) -> None:
        """What was answered is kept, in groups of one, and nothing else; the one that is on its way
        is kept or not."""
        requests = payments(60)
        self.make_room(60)
        listed: list[Entry] = []
        while len(listed) < 40:
            count = self.chance.randint(0, 5)
            service = self.start(*WORDS)
            service.ask([it.frame for it in requests[len(listed) : len(listed) + count]])
            if self.chance.random() < 0.5:
                service.give(requests[len(listed) + count].frame, iter(()))
                time.sleep(self.chance.uniform(0, 0.002))
            service.kill()
            service.end()
            service.release()
            wanted = [*listed, *(payment_of(it) for it in requests[len(listed) :][:count])]
            kept = self.kept()
            self.assertEqual(kept[: len(wanted)], wanted)
            self.assertLessEqual(len(kept), len(wanted) + 1)
            listed = kept
            self.check_run(requests[: len(listed)], words=WORDS, what="all that are kept")
