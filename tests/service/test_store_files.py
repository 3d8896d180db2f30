"""The file of a service, a log or a journal: what cannot be opened, and what another one has locked.

What is a log or a journal, and what is refused as damaged, stands in `test_service_logs` and
`test_journal_files`.
"""
from __future__ import annotations

import contextlib
import fcntl
import os
import subprocess
from typing import ClassVar, Iterator

from ..support.formats import checked_journal, log_file
from ..support.program import SECONDS, Ended
from ..support.service.client import payments
from ..support.service.service_case import ServiceCase, answers_to, frames_of

# What it needs is the program. The store goes there before it is closed to writers.
ON_READ_ONLY = """
mount -t tmpfs none mounted && cp "$2" mounted && mount -o remount,ro mounted || exit 77
exec "$1" serve bank.toml --"$2" mounted/"$2"
"""


@contextlib.contextmanager
def turn_of_devices() -> Iterator[None]:
    """A lock on a device is that of the whole machine, so one test at a time has them."""
    folder = os.open("/dev", os.O_RDONLY)
    try:
        fcntl.flock(folder, fcntl.LOCK_EX)
        yield
    finally:
        os.close(folder)


class StoreCase(ServiceCase):
    """A test of a service over a store."""

    # The word for it.
    store: ClassVar[str]

    def blank(self, records: int) -> bytes:
        """A new store, with room for so many."""
        raise NotImplementedError

    def words(self, name: str) -> list[str]:
        return ["serve", "bank.toml", f"--{self.store}", name]

    def make(self, records: int) -> None:
        self.write(self.store, self.blank(records))

    def refuse(self, fault: str, name: str, what: str) -> None:
        self.check(self.words(name), frames_of(payments(1)), b"", f"{self.store}: {fault}", what=what)


class StoreFiles:
    def test_no_file(self: StoreCase) -> None:
        """None is ever made."""
        os.mkdir(self.home / "folder")
        names = ("missing", f"missing/{self.store}", "folder", ".", "", f"bank.toml/{self.store}")
        for name in names:
            self.refuse("cannot open", name, repr(name))
        found = sorted(it.name for it in self.home.iterdir())
        self.assertEqual(found, ["bank.toml", "folder", "wide.toml"], "what is there")

    def test_a_file_system_for_reading_alone(self: StoreCase) -> None:
        """It needs no rights, as one that is full."""
        self.make(3)
        os.mkdir(self.home / "mounted")
        done = subprocess.run(
            ["unshare", "--user", "--map-root-user", "--mount", "sh", "-c", ON_READ_ONLY, "sh",
             self.program.path, self.store],
            cwd=self.home, input=payments(1)[0].frame, capture_output=True, timeout=SECONDS,
            check=False)
        ended = Ended(done.returncode, done.stdout, done.stderr)
        self.assertNotEqual(ended.status, 77, f"there is no such file system: {ended}")
        fault = f"{self.store}: cannot open"
        self.assert_output(ended, b"", fault, "a file system for reading alone")

    def test_devices(self: StoreCase) -> None:
        """They can be opened, and have no size of a store's."""
        with turn_of_devices():
            for name in ("/dev/null", "/dev/full", "/dev/zero"):
                self.refuse("failed", name, name)

    def test_beside_any_lock(self: StoreCase) -> None:
        """Whoever has the file locked keeps a service out, at once, and shares no lock with it."""
        self.make(2)
        for kind in (fcntl.LOCK_SH, fcntl.LOCK_EX):
            with open(self.home / self.store, "rb") as other:
                fcntl.flock(other, kind)
                self.refuse("cannot open", self.store, f"a lock {kind}")
        service = self.start(*self.words(self.store))
        service.ask(frames_of(payments(1)))
        with open(self.home / self.store, "rb") as other, self.assertRaises(BlockingIOError):
            fcntl.flock(other, fcntl.LOCK_SH | fcntl.LOCK_NB)
        self.assert_output(service.end(), answers_to(payments(1)), "", "behind other locks")


class OfLog(StoreFiles, StoreCase):
    store = "log"

    def blank(self, records: int) -> bytes:
        return bytes(log_file.RECORD * records)


class OfJournal(StoreFiles, StoreCase):
    store = "journal"

    def blank(self, records: int) -> bytes:
        return checked_journal.blank(records)
