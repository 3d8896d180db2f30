"""The tests of journals, on stand-ins for the service: they find each wrong way to keep one."""
from __future__ import annotations

from enum import Enum
from typing import Sequence

from ..service.test_service_stand_ins import InLives, StandInCase
from ..support.formats.checked_journal import blank
from ..support.service.client import PAN, PIN, Purchase, payments, payments_of, refused_requests
from ..support.service.journal_lives import ALL, ROOM, JournalLives
from ..support.service.journal_stand_in import Way
from ..support.service.service_case import ServiceCase
from ..support.system.cut_file import CutFile
from .test_journal_calls import Calls
from .test_journal_changes import SIZES, Copied, Served, Shown
from .test_journal_failures import FailedCalls, FullFileSystem
from .test_journal_files import Damaged, Right
from .test_journal_input import EndOfInput, Groups
from .test_journal_kills import KillsOneByOne
from .test_journal_peers import NeverReads, Silent
from .test_journal_service import Lives, Rows
from .test_journal_torn import Torn

# What is found by lives whose power is lost, and what by another test.
BY_LIVES = (Way.NO_SYNC, Way.BODIES_UNSYNCED, Way.GATE_UNSYNCED, Way.ANSWERS_FIRST, Way.GATE_FIRST,
            Way.ONE_WRITE, Way.OPEN_FOLLOWERS, Way.IN_MEMORY, Way.NO_REPEATS, Way.LOSES_THE_LAST)
BY_TESTS = (
    (Calls, "test_groups", (
        Way.NO_SYNC, Way.BODIES_UNSYNCED, Way.GATE_UNSYNCED, Way.ANSWERS_FIRST, Way.GATE_FIRST,
        Way.ONE_WRITE, Way.WHOLE_RECORDS, Way.EACH_ALONE, Way.SMALL_GROUPS, Way.SMALL_READS)),
    (FailedCalls, "test_each_call", (Way.GOES_ON, Way.ANSWERS_FIRST)),
    (FullFileSystem, "test_groups_until_it_is_full", (Way.LEAVES_OUT, Way.GATE_FIRST)),
    (FullFileSystem, "test_another_file_takes_the_room", (Way.LEAVES_OUT, Way.ANSWERS_FIRST)),
    (Right, "test_closed_records", (Way.OPEN_FOLLOWERS,)),
    (Damaged, "test_sizes", (Way.LOOKS_AT_NOTHING,)),
    (Damaged, "test_a_number_twice", (Way.LOOKS_AT_NOTHING,)),
    (Groups, "test_short_frames", (Way.SMALL_GROUPS, Way.EACH_ALONE)),
    (EndOfInput, "test_no_frame", (Way.SMALL_READS, Way.IN_MEMORY)),
    (Lives, "test_another_request_of_a_number", (Way.ANY_MAC, Way.NO_REPEATS)),
    (Lives, "test_far_repeats", (Way.NO_REPEATS, Way.IN_MEMORY)),
    (Rows, "test_one_of_each", (Way.ANY_MAC, Way.LOSES_THE_LAST)),
    (KillsOneByOne, "test_behind_each_answer", (Way.ANSWERS_FIRST, Way.IN_MEMORY)),
    (NeverReads, "test_it_waits", (Way.NEVER_WAITS, Way.IN_MEMORY)),
    (NeverReads, "test_it_goes_on", (Way.IN_MEMORY,)),
    (NeverReads, "test_the_peer_goes_away", (Way.NEVER_WAITS,)),
    (Silent, "test_silent_peers", (Way.GIVES_UP, Way.NO_LOCK)),
    (Silent, "test_a_part_of_a_read", (Way.GIVES_UP,)),
    (Torn, "test_a_few", (Way.GATE_FIRST, Way.ONE_WRITE, Way.BODIES_UNSYNCED)),
)
# What is found by changes of bytes on the disk, each by a service, `show` and `copy-journal`.
BY_CHANGES = (
    ("test_each_byte", (Way.NO_CHECK_SUMS,)),
    ("test_moved", (Way.NO_CHECK_SUMS, Way.ANY_PLACE, Way.ANY_JOURNAL)),
    ("test_lost_gates", (Way.ANY_GATE,)),
    ("test_torn", (Way.TORN_IS_DAMAGE,)),
)
# And what needs a reader of reversals, of which the stand-in of a service knows none.
BY_RUNS = (("test_four_bytes", (Way.NO_CHECK_SUMS,)), ("test_runs_of_bits", (Way.NO_CHECK_SUMS,)))


class StandIns(InLives, StandInCase):
    module, right = "tests.support.service.journal_stand_in", Way.RIGHT
    by_lives, most = BY_LIVES, 2000

    def setUp(self) -> None:
        super().setUp()
        counters = range(1, 60)
        others = payments_of(counters, [Purchase(PAN, PIN, 7000, "00")] * len(counters))
        self.assertLessEqual(ALL, 3000)
        self.write_table((*payments(3000), *refused_requests(), *others))

    def lives(self, way: Enum) -> JournalLives:
        file = CutFile(self.folder(), blank(ROOM))
        self.addCleanup(file.close)
        return JournalLives(self.stand_in(way), self.home, file, self.chance)

    def test_ways_that_other_tests_find(self) -> None:
        for case, test, ways in BY_TESTS:
            self.assertEqual(self.faults(Way.RIGHT, case, test), "", test)
            for way in ways:
                self.assertIn("AssertionError", self.faults(way, case, test),
                              f"{case.__name__}.{test}: {way.value}")


class Changed(StandInCase):
    """Stand-ins over journals whose bytes were changed."""

    module, right, cases = "tests.support.service.journal_stand_in", Way.RIGHT, 24

    def setUp(self) -> None:
        super().setUp()
        self.write_table(payments(sum(SIZES) + 2))

    def judge(self, case: type[ServiceCase], test: str, ways: Sequence[Way]) -> None:
        self.assertEqual(self.faults(Way.RIGHT, case, test), "", f"{case.__name__}.{test}")
        for way in ways:
            self.assertIn("AssertionError", self.faults(way, case, test), f"{case.__name__}.{test}: {way.value}")

    def test_served(self) -> None:
        for test, ways in (*BY_CHANGES, ("test_the_version", (Way.ANY_HEADER,))):
            self.judge(Served, test, ways)

    def test_shown(self) -> None:
        for test, ways in (*BY_CHANGES, *BY_RUNS):
            self.judge(Shown, test, ways)

    def test_copied(self) -> None:
        for test, ways in (*BY_CHANGES, *BY_RUNS):
            self.judge(Copied, test, ways)
