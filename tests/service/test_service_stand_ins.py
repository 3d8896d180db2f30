"""The judge of lives, on stand-ins for the service: it finds each wrong way to keep a log."""
from __future__ import annotations

import sys
import time
import unittest
from enum import Enum
from typing import ClassVar, Sequence, Union

from ..support.case import Case
from ..support.formats.bank import BANK
from ..support.formats.log_file import log_image
from ..support.program import ROOT, Program
from ..support.service.client import Exchange, payments, refused_requests
from ..support.service.journal_lives import JournalLives
from ..support.service.lives import ALL, ROOM, Finding, Lives, Wrong
from ..support.service.service_case import ServiceCase
from ..support.service.stand_in import Way, write_table
from ..support.system.cut_file import CutFile
from .test_service_failing_logs import CutShort, FailedCalls, FailedReads
from .test_service_log_calls import Calls

SCRIPT = """#!{python} -ISB
import sys
sys.path.insert(0, {root!r})
from {module} import main
sys.exit(main({way!r}, {table!r}))
"""
CUTS = 30
# Of a test that tries many cases, so many are tried.
CASES = 60
# What is found by lives whose power is lost, and what by another test.
BY_LIVES = (Way.NO_SYNC, Way.BODY_UNSYNCED, Way.GATE_UNSYNCED, Way.ONE_WRITE, Way.GATE_FIRST,
            Way.REWRITES, Way.IN_MEMORY)
BY_TESTS = ((Way.GOES_ON, FailedCalls, "test_each_call"), (Way.GROWS, CutShort, "test_cut_short"),
            (Way.READS_ZEROS, FailedReads, "test_each_read"),
            (Way.NO_SYNC, Calls, "test_two_acceptances"),
            (Way.GATE_UNSYNCED, Calls, "test_two_acceptances"),
            (Way.LENGTH_FIRST, Calls, "test_two_acceptances"),
            (Way.LOOKS_BEFORE, Calls, "test_two_acceptances"),
            (Way.SMALL_READS, Calls, "test_two_acceptances"))


class StandInCase(Case):
    """A test of stand-ins for a service, in a folder with the table of their answers."""

    weight = 20
    # The module of the stand-in, its right way, and the ways that lives find, each in so many cuts.
    module: ClassVar[str]
    right: ClassVar[Enum]
    by_lives: ClassVar[Sequence[Enum]]
    most: ClassVar[int]
    cases: ClassVar[int] = CASES

    def setUp(self) -> None:
        super().setUp()
        self.home = self.folder()
        (self.home / "bank.toml").write_bytes(BANK)

    def write_table(self, requests: Sequence[Exchange]) -> None:
        write_table(str(self.home / "table"),
                    {it.frame: (it.answer, it.number or b"") for it in requests})

    def stand_in(self, way: Enum) -> Program:
        script = self.home / way.name.lower()
        script.write_text(SCRIPT.format(python=sys.executable, root=str(ROOT), module=self.module,
                                        way=way.value, table=str(self.home / "table")))
        script.chmod(0o755)
        return Program(script)

    def lives(self, way: Enum) -> Union[Lives, JournalLives]:
        raise NotImplementedError

    def faults(self, way: Enum, case: type[ServiceCase], test: str) -> str:
        """What a test tells of a stand-in."""
        tried, result = case(test), unittest.TestResult()
        tried.program = self.stand_in(way)
        setattr(tried, "cases", self.cases)
        tried.run(result)
        return "\n".join(text for _, text in result.failures + result.errors)


class InLives:
    """What lives find whose power is lost."""

    def test_the_right_way(self: StandInCase) -> None:
        """Nothing."""
        lives, began = self.lives(self.right), time.monotonic()
        lives.play(CUTS * self.times)
        self.tells(f"{lives}; {time.monotonic() - began:.1f} s")

    def test_wrong_ways(self: StandInCase) -> None:
        for way in self.by_lives:
            lives, began = self.lives(way), time.monotonic()
            with self.assertRaises(Wrong, msg=way.value) as found:
                lives.play(self.most)
            self.assertIsNot(found.exception.finding, Finding.END, str(found.exception))
            self.tells(f"{way.value}: {lives.cuts} cuts, {time.monotonic() - began:.1f} s, "
                       f"{found.exception.finding.value}")


class StandIns(InLives, StandInCase):
    module, right, by_lives, most = "tests.support.service.stand_in", Way.RIGHT, BY_LIVES, 3000

    def setUp(self) -> None:
        super().setUp()
        self.write_table((*payments(ALL), *refused_requests()))
        self.file = CutFile(self.folder(), log_image([], ROOM))
        self.addCleanup(self.file.close)

    def lives(self, way: Enum) -> Lives:
        return Lives(self.stand_in(way), self.home, self.file, self.chance)

    def test_ways_that_other_tests_find(self) -> None:
        for way, case, test in BY_TESTS:
            self.assertEqual(self.faults(Way.RIGHT, case, test), "", test)
            self.assertIn("AssertionError", self.faults(way, case, test), way.value)
