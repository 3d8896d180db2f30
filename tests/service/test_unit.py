"""The unit of the service forbids it much: nothing that script and program do, as strace sees it."""
from __future__ import annotations

import os
import re
import shutil
import signal
import socket
import subprocess
from pathlib import Path
from typing import Iterable, Iterator

from ..support.program import ROOT, SECONDS
from ..support.service.client import payments
from ..support.service.service_case import ServiceCase

UNIT = ROOT / "share/deploy/dukpt@.service"
SERVE = ROOT / "share/deploy/dukpt-serve"
# In tenths: 7.4 is what systemd says of a unit that forbids little.
WORST = 10
CALL = re.compile(r"^\d+ +(\w+)\(", re.M)
# systemd sets these for a unit with a user. Without them bash asks for that user, by a socket first.
GIVEN = {"HOME": "/", "SHELL": "/usr/sbin/nologin", "USER": "dukpt", "LOGNAME": "dukpt"}
WRITTEN_AND_RUN = re.compile(r"PROT_WRITE\|PROT_EXEC|PROT_EXEC\|PROT_WRITE")
NAMESPACE = re.compile(r"\bCLONE_NEW\w+")


class Unit(ServiceCase):
    weight = 5

    def setUp(self) -> None:
        super().setUp()
        for command, package in (("strace", "strace"), ("systemd-analyze", "systemd")):
            self.assertIsNotNone(shutil.which(command),
                                 f"{command} is not installed: apt-get install {package}")
        self.text = UNIT.read_text()

    def test_rating(self) -> None:
        done = subprocess.run(
            ["systemd-analyze", "security", "--offline=yes", "--no-pager", f"--threshold={WORST}",
             UNIT], capture_output=True, text=True, check=False)
        self.assertEqual(done.returncode, 0, f"{done.stdout[-300:]}{done.stderr}")

    def test_calls(self) -> None:
        """As the connection ends, and as the service is told to end."""
        allowed = filtered(re.findall(r"^SystemCallFilter=(.*)$", self.text, re.M))
        for ends in (True, False):
            traced = self.traced(ends)
            used = set(CALL.findall(traced))
            self.assertGreater(len(used), 30)
            self.assertEqual(used - allowed, set(), "calls that the unit forbids")
            self.assertIn("RestrictAddressFamilies=none\n", self.text)
            self.assertNotIn("socket", used)
            for setting, pattern in (("MemoryDenyWriteExecute", WRITTEN_AND_RUN),
                                     ("RestrictNamespaces", NAMESPACE)):
                self.assertIn(f"\n{setting}=yes\n", self.text)
                self.assertEqual(pattern.findall(traced), [], setting)
        self.tells(f"{len(used)} calls of the system")

    def traced(self, ends: bool) -> str:
        """What strace writes of a connection with one payment."""
        log, trace = self.home / "log", self.home / "trace"
        log.unlink(missing_ok=True)
        self.assertEqual(self.program.run("new-log", str(log), "16").status, 0)
        mine, theirs = socket.socketpair()
        with mine, theirs:
            process = subprocess.Popen(
                ["strace", "-f", "-qq", "-o", trace, SERVE, "bank.toml", str(log)], cwd=self.home,
                stdin=theirs, stdout=theirs, stderr=subprocess.PIPE,
                env={**os.environ, **GIVEN, "DUKPT": str(self.program.path)})
            self.addCleanup(process.kill)
            theirs.close()
            mine.sendall(payments(1)[0].frame)
            self.assertGreater(len(mine.recv(64)), 0)
            if ends:
                mine.shutdown(socket.SHUT_WR)
            else:
                os.kill(next(children_of(process.pid)), signal.SIGTERM)
            faults = process.communicate(timeout=SECONDS)[1]
        self.assertEqual((process.returncode, faults), (0, b""))
        return trace.read_text()


def children_of(process: int) -> Iterator[int]:
    yield from map(int, Path(f"/proc/{process}/task/{process}/children").read_text().split())


def filtered(settings: Iterable[str]) -> set[str]:
    """The calls that the filters of a unit let through, in their order."""
    allowed: set[str] = set()
    for setting in settings:
        names = {call for name in setting.lstrip("~").split() for call in calls_of(name)}
        allowed = allowed - names if setting.startswith("~") else allowed | names
    return allowed


def calls_of(name: str) -> Iterator[str]:
    """A call itself, or those of a group, as systemd lists them."""
    if not name.startswith("@"):
        yield name
        return
    done = subprocess.run(["systemd-analyze", "syscall-filter", "--no-pager", name],
                          capture_output=True, text=True, check=True)
    for line in done.stdout.splitlines()[1:]:
        word = line.strip()
        if word and not word.startswith("#"):
            yield from calls_of(word)
