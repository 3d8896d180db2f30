"""Runs of a service on one log, each of which but the last is killed, at any moment.

A killed run has acknowledged nothing that its log does not keep, and no later one accepts that
again. In each run everything is sent again, and some of it again at once or later in the same run.
"""
from __future__ import annotations

import signal
import time
from enum import Enum
from typing import Sequence

from ..support.case import in_parts
from ..support.formats.log_file import read_log
from ..support.service.client import Exchange, answered, payments, refused_requests, split
from ..support.service.service import cuts
from ..support.service.service_case import ServiceCase, frames_of, numbers_of, stream_of

# The payments of a history are a stretch of so many, of these.
PAYMENTS = 150
ALL = 2000
ROOM = PAYMENTS + 3
# How many acceptances a run shall reach, about, before it is killed.
SHARE = 15
KILLS = 50
WORDS = ("serve", "wide.toml", "--log", "log")


class Manner(Enum):
    """How a run is given its requests."""

    ONE_BY_ONE = "each when the one before has its answer"
    SMALL = "in pieces of 1 to 60 bytes"
    GREAT = "in pieces of 1 to 400 bytes"
    WHOLE = "all at once"


PIECES = {Manner.SMALL: 60, Manner.GREAT: 400}
MANNERS = (Manner.ONE_BY_ONE, Manner.SMALL, Manner.GREAT, Manner.WHOLE, Manner.WHOLE)


class Kills(ServiceCase):
    """Histories of killed runs; each part of the test has some."""

    weight = 6

    def setUp(self) -> None:
        super().setUp()
        self.kills = self.midst = self.unread = self.histories = self.again = 0

    @in_parts(4)
    def test_histories(self) -> None:
        self.measure_a_run()
        while self.kills < KILLS * self.times:
            self.begin_history()
            # Behind few kills there is much left for the last run.
            for _ in range(self.chance.randint(1, 12)):
                if self.kills < KILLS * self.times and len(self.listed) < PAYMENTS:
                    self.kill_a_run()
            self.end_history()
        self.assertGreaterEqual(8 * self.midst, self.kills,
                                "too few kills fell in the midst of acceptances")
        self.assertGreater(self.again, 0, "no reply was given again")
        self.tells(f"{self.kills} kills in {self.histories} histories, {self.midst} in the midst "
                   f"of acceptances, {self.unread} behind a number whose answer was not read; "
                   f"{self.again} replies given again")

    def measure_a_run(self) -> None:
        """Finds the longest time behind which a run is killed at first: twice what a run needs that
        accepts twice the share."""
        requests = payments(ALL)[: 2 * SHARE]
        self.make_log(len(requests))
        began = time.monotonic()
        self.check_requests(WORDS, requests, what="a run that is not killed")
        self.longest = 2 * (time.monotonic() - began)
        self.assert_image(numbers_of(requests), "a run that is not killed")

    def begin_history(self) -> None:
        first = self.chance.randrange(ALL - PAYMENTS + 1)
        self.items = [*payments(ALL)[first : first + PAYMENTS], *refused_requests()]
        # What the log keeps, and in which run each number was accepted, and with which reply.
        self.listed: list[bytes] = []
        self.accepted: dict[bytes, tuple[int, bytes]] = {}
        self.run_number = 0
        self.make_log(ROOM)
        self.histories += 1

    def kill_a_run(self) -> None:
        manner = self.chance.choice(MANNERS)
        order = self.order(manner)
        moment = self.chance.uniform(0, self.longest)
        service = self.start(*WORDS)
        until = time.monotonic() + moment
        if manner is Manner.ONE_BY_ONE:
            service.ask(frames_of(order), until)
        elif manner is Manner.WHOLE:
            service.talk([stream_of(order)], until, closes=False)
        else:
            pieces = cuts(stream_of(order), self.chance, PIECES[manner])
            service.talk(pieces, until, closes=False)
        time.sleep(max(0, until - time.monotonic()))
        service.kill()
        ended = service.end()
        service.release()
        self.assertEqual((ended.status, ended.faults), (-signal.SIGKILL, b""), "a killed run")
        self.count_kill(self.judge_run(order, ended.output))

    def end_history(self) -> None:
        """Everything is sent once more, and nothing is killed: in the end each number is used."""
        order = self.order(Manner.WHOLE)
        ended = self.run_service(WORDS, [stream_of(order)])
        answers, _ = answered(order, self.listed, ROOM)
        self.assert_output(ended, b"".join(answers), "", "a run behind kills")
        self.judge_run(order, ended.output)
        self.assertEqual(len(self.listed), PAYMENTS, "in the end the log has each number")
        self.assert_image(self.listed, "in the end")

    # The order of a run

    def order(self, manner: Manner) -> list[Exchange]:
        """As they stand, from some place on and around, or in any order, with some of them once
        more; one by one, those that are not used come first. And some are repeated."""
        order = self.items + self.chance.choices(self.items, k=5)
        way = self.chance.randrange(3)
        if way == 0:
            self.chance.shuffle(order)
        elif way == 1:
            at = self.chance.randrange(len(self.items))
            order = order[at:] + order[:at]
        if manner is Manner.ONE_BY_ONE:
            used = set(self.listed)
            order.sort(key=lambda it: it.number is None or it.number in used)
        return self.with_repeats(order)

    def with_repeats(self, order: Sequence[Exchange]) -> list[Exchange]:
        """The order, in which a quarter comes again: behind a few others, or behind many."""
        repeated: list[Exchange] = []
        for at, it in enumerate(order):
            repeated.append(it)
            if self.chance.random() < 0.25:
                back = self.chance.randrange(min(at + 1, self.chance.choice((4, 120))))
                repeated.append(order[at - back])
        return repeated

    # Its judgement

    def judge_run(self, order: Sequence[Exchange], output: bytes) -> int:
        """Judges what a run wrote and what the log keeps behind it, by the history so far. It
        answers how many numbers were accepted and their answers read."""
        self.run_number += 1
        kept = read_log(self.log, ROOM)
        count = self.judge_replies(output, kept)
        answers, listed = answered(order, self.listed, ROOM)
        if not b"".join(answers).startswith(output):
            self.fail("an answer is not that to its request")
        more = len(kept) - len(self.listed)
        self.assertIn(more, (count, count + 1), f"numbers more in the log, and {count} accepted")
        self.assertEqual(kept[: len(self.listed)], self.listed, "the numbers kept before")
        self.assertEqual(kept, listed[: len(kept)], "the log is that of the requests")
        self.unread += more - count
        self.listed = kept
        return count

    def judge_replies(self, output: bytes, kept: Sequence[bytes]) -> int:
        """Each number that was replied to is in the log, was accepted in no run before, and has one
        reply. It answers how many there are."""
        in_log, count = set(kept), 0
        for answer in split(output)[0]:
            if answer[2:4] != b"\x01\x02":
                continue
            number, here = answer[4:14], (self.run_number, answer)
            self.assertIn(number, in_log, "accepted, and not in the log")
            self.assertEqual(self.accepted.setdefault(number, here), here,
                             f"{number.hex()} was accepted in two runs, or in two ways")
            count += 1
        numbers = {it for it, (run, _) in self.accepted.items() if run == self.run_number}
        self.again += count - len(numbers)
        return len(numbers)

    def count_kill(self, accepted: int) -> None:
        """Counts a kill, and changes the time of a run so that it accepts about its share."""
        self.kills += 1
        if accepted > 0 and len(self.listed) < PAYMENTS:
            self.midst += 1
        if accepted > 2 * SHARE:
            self.longest = max(self.longest * 3 / 4, 0.001)
        elif accepted == 0:
            self.longest = min(self.longest * 3 / 2, 5)
