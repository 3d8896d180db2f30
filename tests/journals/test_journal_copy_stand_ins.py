"""The tests of the calls of `copy-journal` and of its kills, on stand-ins for it: they find each wrong way to
copy, and nothing in a right one. What kills leave is judged by the program itself."""
from __future__ import annotations

import sys
import unittest
from pathlib import Path

from ..support.case import ProgramCase
from ..support.program import ROOT
from ..support.system.copy_stand_in import CopyWay
from .test_journal_copy_calls import CallCase, Calls, Kills, Losses

SCRIPT = """import sys
sys.path.insert(0, {root!r})
from tests.support.system.copy_stand_in import main
sys.exit(main({way!r}))
"""
RIGHT = (CopyWay.LAST_BYTE_LAST, CopyWay.KIND_LAST)
# What each test finds.
FOUND = (
    (Calls, "test_calls", (
        CopyWay.MADE_FIRST, CopyWay.READS_A_PART, CopyWay.LOCKED_LATE, CopyWay.NOT_LOCKED,
        CopyWay.OLD_NOT_LOCKED, CopyWay.NO_ZEROS, CopyWay.SYNCED_EARLY, CopyWay.NOT_SYNCED,
        CopyWay.FOLDER_FIRST, CopyWay.FOLDER_NOT_SYNCED, CopyWay.OLD_WRITTEN,
        CopyWay.OLD_TO_WRITE, CopyWay.OVERWRITES, CopyWay.NOT_CHECKED, CopyWay.CHECKED_UNSYNCED,
        CopyWay.CHECKED_LATE, CopyWay.CHECKED_IN_PART)),
    (Calls, "test_syncs_for_a_loss_of_power", (
        CopyWay.MARK_NOT_SYNCED, CopyWay.SIZE_NOT_SYNCED, CopyWay.LAST_WITH_THE_REST,
        CopyWay.FIRST_TO_LAST, CopyWay.RECORD_LAST, CopyWay.HEAD_LAST)),
    (Losses, "test_any_bytes_since_a_sync", (
        CopyWay.KIND_WITH_THE_REST, CopyWay.LAST_WITH_THE_REST)),
    (Kills, "test_less_than_a_piece", (CopyWay.FIRST_TO_LAST, CopyWay.FRONT_LAST)),
    (Kills, "test_in_its_removal", (CopyWay.MARKED_FRONT_LAST, CopyWay.NOT_REMOVED)),
)


class StandIns(ProgramCase):
    weight = 8

    def test_each_way(self) -> None:
        for case, test, ways in FOUND:
            for way in RIGHT:
                self.assertEqual(self.faults(way, case, test), "", f"{test}: {way.value}")
            for way in ways:
                found = self.faults(way, case, test)
                self.assertIn("AssertionError", found, f"{test}: {way.value}")

    def faults(self, way: CopyWay, case: type[CallCase], test: str) -> str:
        """What a test tells of a stand-in."""
        script = self.folder() / "copy"
        script.write_text(SCRIPT.format(root=str(ROOT), way=way.value))
        tried, result = copying_by(case, script)(test), unittest.TestResult()
        tried.program = self.program
        tried.run(result)
        return "\n".join(text for _, text in result.failures + result.errors)


def copying_by(case: type[CallCase], script: Path) -> type[CallCase]:
    """A test whose copies a script makes."""
    class Scripted(case):
        def setUp(self) -> None:
            super().setUp()
            self.copier = [sys.executable, "-ISB", script]

    return Scripted
