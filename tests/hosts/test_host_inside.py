"""`dukpt-host` in its own process: what is wiped, a client that comes as the host is told to end, one that
reads nothing, which addresses others reach, a connection to the database that ends as soon as it is open,
places of it that are silent, and pieces that break."""
from __future__ import annotations

import os
import subprocess

from ..support.book.hosts import library
from ..support.case import Case
from ..support.formats.bank import BANK
from ..support.program import ROOT
from ..support.service.host import SECONDS
from ..support.service.host_keys import HostKeys
from .test_book_statement import PYTHON

FAULT = "config: zone: no key block"
NOT_READ, READ = (f"{it} read, {it} answered, status 0" for it in range(2))


class Inside(Case):
    weight = 5

    def found(self, what: str) -> list[str]:
        """The lines of the program that looks."""
        home, variables = self.folder(), library()
        HostKeys(self.chance).write(home)
        (home / "bank.toml").write_bytes(BANK)
        variables["PYTHONPATH"] += f":{ROOT}"
        done = subprocess.run([PYTHON, "-B", "-m", "tests.support.service.inside", what], cwd=home,
                              capture_output=True, text=True, check=False, timeout=2 * SECONDS,
                              env={**os.environ, **variables})
        self.assertEqual(done.returncode, 0, done.stderr)
        return done.stdout.splitlines()

    def test_told_to_end_as_a_client_comes(self) -> None:
        """Whenever that is, a frame that was read is answered, in the loop of Python and in that of
        uvloop."""
        found = self.found("entering")
        self.assertEqual(set(found), {NOT_READ, READ})
        self.assertEqual((found[0], found[-1]), (NOT_READ, READ))

    def test_reads_nothing(self) -> None:
        """A client that reads nothing is closed in the end, also where its frames were lost and answered."""
        self.assertEqual(self.found("unread"), ["0 connections, 1 answers dropped"])

    def test_closed_once(self) -> None:
        """A connection is closed once, whatever ends it: asyncio forgets how to end one over TLS that is
        closed again."""
        self.assertEqual(self.found("closed"), ["closed 1 times"])

    def test_reached(self) -> None:
        """An address is one of this machine alone, or other machines reach it; of a client that is gone
        without a word the system knows after a minute and a half."""
        self.assertEqual(self.found("reached"), ["127.0.0.1 127.8.8.8 ::1", "1 [60, 10, 3]"])

    def test_lanes(self) -> None:
        """A host goes on behind connections that end at once. It closes its module when it ends."""
        self.assertEqual(self.found("lanes"), ["opened 3, closed 1"])

    def test_heard(self) -> None:
        """That a wait for the standby was cancelled is heard in whatever language the server says it."""
        self.assertEqual(self.found("heard"), ["WARNUNG: True", "HINWEIS: False"])

    def test_watched(self) -> None:
        """A fault of the watch that nobody foresaw has nothing served, until the database is seen again."""
        self.assertEqual(self.found("watched"), [
            "serving; the database does not answer: 'unforeseen'; serving"])

    def test_broken(self) -> None:
        """Where a piece meets a fault that nobody foresaw, a connection ends or the host does, and the fault is
        told. What was answered is answered once, and what was read before is still answered, but for a group
        of which nobody knows what came. A line that finds no room is no fault."""
        ends = "3 of 3; by itself, fault unforeseen"
        wanted = [
            "settle: ['0 of 3', '3 of 3'], 3 settled, 1 lost, 1 unknown; told to, status 0; "
            "['what came of a group is not known: unforeseen']",
            *(f"{it}: {ends}" for it in ("line", "count", "beat", "door")),
            "frames: ['0 of 3', '3 of 3']; told to, status 0; ['unforeseen']",
            "full: 3 of 3; told to, status 0"]
        self.assertEqual(self.found("broken"), [it for it in wanted for _ in range(2)])

    def test_places(self) -> None:
        """A place that is silent holds up no other one, and each connection that is not taken is ended."""
        self.assertEqual(self.found("places"), [
            "opened one; ended 1, left 0; NotServed: wrong; NotThere: no primary: standby"])

    def test_wiped(self) -> None:
        """Lines, digits and local master key of components keep no byte, whether or not a start succeeds;
        nor does the text for the process below, behind that. Modules that nobody needs are closed."""
        self.assertEqual(self.found("wiped"), [
            "a module: 5 wiped, 0 of them not; 0 of 1 modules closed",
            "a module of test keys: 1 wiped, 0 of them not; 0 of 1 modules closed",
            "a text: 5 wiped, 0 of them not; 1 of 1 modules closed",
            "the text behind its host: 0 bytes",
            f"{FAULT}: 5 wiped, 0 of them not; 1 of 1 modules closed",
            f"{FAULT}: 5 wiped, 0 of them not; 1 of 1 modules closed"])
