"""Peers of a service over a journal that send and never read, or are silent."""
from __future__ import annotations

import signal
import time

from ..support.models.model_journal import READ, payments_of_all
from ..support.service.client import payments, split
from ..support.service.journal_case import CANNOT_OPEN, ON_JOURNAL, JournalCase, stream_of
from ..support.service.service import CONNECTION, NARROW, How, Service
from ..support.service.service_case import IN_A_FRAME, WRITE_FAILED, answers_to

# More than a service takes whose pipes hold a page, or whose socket as little.
COUNT = 600
# For so long a service that waits is watched, in seconds.
WATCHED = 0.3


class PeerCase(JournalCase):
    """A test of a service that waits for its peer."""

    weight = 2

    def assert_waits(self, service: Service) -> None:
        """That it is asleep, and stays so: it takes no processor time, no memory and no payment."""
        service.sleeps()
        before = service.look(), service.peak(), self.kept()
        time.sleep(WATCHED)
        self.assertEqual((service.look(), service.peak(), self.kept()), before, "it goes on")
        self.assertIsNone(service.process.poll(), "it ended by itself")


class NeverReads(PeerCase):
    """A peer that sends requests and reads no answer. The service waits where its output is full:
    it reads no further, and keeps nothing more."""

    def setUp(self) -> None:
        super().setUp()
        self.requests = payments(COUNT)

    def fill(self, how: How) -> tuple[Service, bytes]:
        """A service that was given bytes until it took no more, and what is left of them."""
        self.make_room(COUNT)
        service = self.start(*ON_JOURNAL, how=how)
        rest, left = b"", stream_of(self.requests)
        while left != rest:
            rest = left
            left = service.give(rest, iter(())) or b""
            service.sleeps()
        self.assertGreater(len(rest), 0, "it read everything, and nobody read its answers")
        return service, rest

    def test_it_waits(self) -> None:
        """It keeps no more than it can have read, and all that it has answered so far. Behind a
        kill nothing of that is lost."""
        for how in (NARROW, CONNECTION):
            service, rest = self.fill(how)
            self.assert_waits(service)
            self.assertEqual(service.give(rest, iter(())), rest, "it reads on")
            kept, given = self.kept(), len(stream_of(self.requests)) - len(rest)
            self.assertEqual(kept, payments_of_all(self.requests[: len(kept)]))
            self.assertLessEqual(len(kept), given // len(self.requests[0].frame))
            service.kill()
            ended = service.end()
            answers = answers_to(self.requests)[: len(ended.output)]
            self.assert_ended(ended, -signal.SIGKILL, answers, b"", how.pipes.value)
            count = len(split(answers)[0])
            self.assertLessEqual(count, len(kept), "what is answered is kept")
            self.tells(f"{how.pipes.value}: {given} bytes taken, {len(kept)} payments kept, "
                       f"{count} answered")
            self.check_file(self.requests, what="behind a peer that never read")

    def test_it_goes_on(self) -> None:
        """Where the peer reads at last, it gets each answer."""
        for how in (NARROW, CONNECTION):
            service, rest = self.fill(how)
            service.talk([rest])
            self.assert_output(service.end(), answers_to(self.requests), "", how.pipes.value)
            self.assertEqual(self.kept(), payments_of_all(self.requests))

    def test_the_peer_goes_away(self) -> None:
        """That is a failed write. The next run gives each reply again."""
        for how in (NARROW, CONNECTION):
            service, _ = self.fill(how)
            kept = self.kept()
            service.close_output()
            self.assert_output(service.end(), b"", WRITE_FAILED, how.pipes.value)
            self.assertEqual(self.kept(), kept)
            self.check_file(self.requests, what="behind a peer that went away")


class Silent(PeerCase):
    """A peer that sends nothing, or stops in the midst of a frame. The service waits, and keeps its
    journal locked."""

    def test_silent_peers(self) -> None:
        one, two = (it.frame for it in payments(2))
        for given, whole, fault in ((b"", 0, ""), (one, 1, ""), (one[:20], 0, IN_A_FRAME),
                                    (one[:1], 0, IN_A_FRAME), (one + two[:-1], 1, IN_A_FRAME)):
            self.make_room(3)
            answers, what = answers_to(payments(whole)), f"{len(given)} bytes"
            service = self.start(*ON_JOURNAL, how=CONNECTION)
            service.ask_all(given, len(answers))
            self.assert_waits(service)
            self.check(ON_JOURNAL, [two], b"", CANNOT_OPEN, what="beside it")
            self.assert_output(service.end(), answers, fault, what)
            self.assert_payments(payments_of_all(payments(whole)), what)

    def test_a_part_of_a_read(self) -> None:
        """What came whole is answered before the rest of a frame comes, however much came."""
        requests = payments(READ // len(payments(1)[0].frame) + 100)
        before = requests[:-1]
        self.make_room(len(requests))
        service = self.start(*ON_JOURNAL)
        service.ask_all(stream_of(before) + requests[-1].frame[:30], len(answers_to(before)))
        self.assertEqual(bytes(service.collected), answers_to(before))
        self.assert_waits(service)
        self.assert_payments(payments_of_all(before), "before the rest of a frame")
        service.talk([requests[-1].frame[30:]])
        self.assert_output(service.end(), answers_to(requests), "", "the rest of a frame")
