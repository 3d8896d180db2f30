"""The service on a log or a journal whose power is lost, at any of its calls on it; on a log at any time
too.

The file is on a file system in user space, which keeps apart what was not synced. Where the power is
lost it kills the service, and leaves any bytes of that.
"""
from __future__ import annotations

import time
from typing import ClassVar, Union

from ..support.case import in_parts
from ..support.formats.checked_journal import blank
from ..support.formats.log_file import log_image
from ..support.service import journal_lives, lives
from ..support.service.lives import Finding, Wrong
from ..support.service.service_case import ServiceCase
from ..support.system.cut_disk import Lies
from ..support.system.cut_file import CutFile

# In so many losses of power a file system that lies has to be found; it mostly takes some few, and
# some hundreds where it is the sync at the start.
MOST = 5000
AnyLives = Union[lives.Lives, journal_lives.JournalLives]


class StoreCase(ServiceCase):
    """A test of lives over one kind of store."""

    kind: ClassVar[type[AnyLives]]
    zeros: ClassVar[bytes]

    def lives(self, lies: Lies = Lies.NONE) -> AnyLives:
        file = CutFile(self.folder(), self.zeros)
        self.addCleanup(file.close)
        return self.kind(self.program, self.home, file, self.chance, lies)

    def play_histories(self, cuts: int) -> None:
        played, began = self.lives(), time.monotonic()
        played.play(cuts * self.times)
        self.assertGreater(5 * played.midst, played.cuts, "too few lives ended amid acceptances")
        self.tells(f"{played}, {60 * played.cuts / (time.monotonic() - began):.0f} cuts a minute")


class PowerCuts:
    """Each part of the test of histories has its own."""

    def test_syncs_that_do_nothing(self: StoreCase) -> None:
        """Over a file system that answers a sync and does none, the service is one that lacks it:
        the judge has to find that."""
        for lies in Lies:
            if lies is not Lies.NONE:
                played, began = self.lives(lies), time.monotonic()
                with self.assertRaises(Wrong, msg=f"{lies.value} is not missed") as found:
                    played.play(MOST)
                self.assertIsNot(found.exception.finding, Finding.END, str(found.exception))
                self.tells(f"without {lies.value}: {played.cuts} cuts, "
                           f"{time.monotonic() - began:.1f} s, {found.exception.finding.value}")


class OnLog(PowerCuts, StoreCase):
    weight = 30
    kind, zeros = lives.Lives, log_image([], lives.ROOM)

    @in_parts(3)
    def test_histories(self) -> None:
        self.play_histories(2000)


class OnJournal(PowerCuts, StoreCase):
    weight = 20
    kind, zeros = journal_lives.JournalLives, blank(journal_lives.ROOM)

    @in_parts(2)
    def test_histories(self) -> None:
        self.play_histories(500)
