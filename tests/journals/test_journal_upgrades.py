"""What docs/DEPLOYMENT.md has an operator type over a journal, as it stands there: to bring one of version 1
to version 2, and to add records. And what services and hosts make of one of version 1."""
from __future__ import annotations

import os
import re
import signal
import subprocess

from ..hosts.test_host_documented import DEPLOYMENT, blocks_of
from ..support.formats.checked_journal import identity_of, plain_of, room_in
from ..support.formats.journal_records import RECORD
from ..support.models.model_journal import added_by, answers_of, judged, payments_of_all
from ..support.program import SECONDS
from ..support.service.client import payments
from ..support.service.host import HostCase
from ..support.service.journal_case import JOURNAL_FAILED, OLD_VERSION, ON_JOURNAL, frames_of
from ..support.service.reversals import undoing
from .test_copy_journals import copied

# Where the document has the journal; how many records it adds, and how many are enough here.
FOLDER, FILE = "/var/lib/dukpt", "payments.journal"
MORE, FEWER = 1_000_000, 5_000
# In the place of a command: it notes its words, and does what they say behind options.
NOTES = """#!/bin/sh
echo "${0##*/} $*" >>"$NOTED"
while [ "${1#--}" != "$1" ]; do shift; done
[ "${0##*/}" = systemctl ] || exec "$@"
"""


class UpgradeCase(HostCase):
    """A test over a journal of version 1 that keeps payments and reversals."""

    def make_old(self, room: int = 40) -> bytes:
        """Makes the file `journal` of version 1, and answers its bytes."""
        paid, undo = payments(9), undoing(9)
        self.frames = [*paid, *undo[:4], *payments(30)[24:]]
        kept = added_by(judged(self.frames[:13], [], room))
        plain = plain_of(self.make_journal(room, [kept[:1], kept[1:9], kept[9:]]))
        assert plain is not None
        self.journal.write_bytes(plain)
        return plain

    def bash(self, commands: str) -> list[str]:
        """Runs these commands of root's in the folder of the journal, and answers those that go to the system
        or to another account."""
        made, noted = self.folder(), self.folder() / "noted"
        noted.touch()
        for name in ("systemctl", "setpriv"):
            (made / name).write_text(NOTES)
            (made / name).chmod(0o755)
        (made / "dukpt").symlink_to(self.program.path)
        done = subprocess.run(
            ["bash", "-euc", commands.replace(FOLDER, str(self.home))], cwd=self.home, capture_output=True,
            text=True, timeout=SECONDS, check=False,
            env={**os.environ, "PATH": f"{made}:{os.environ['PATH']}", "NOTED": str(noted)})
        self.assertEqual((done.returncode, done.stdout, done.stderr), (0, "", ""), commands)
        return noted.read_text().splitlines()


class Documented(UpgradeCase):
    def test_to_version_2(self) -> None:
        """The commands make a copy in the place of the old journal, which stays. A service over it goes on."""
        old = self.make_old()
        self.journal.rename(self.home / FILE)
        commands = blocks_of(DEPLOYMENT, "Upgrades")[-1]
        self.assertIn(f"cd {FOLDER}\n", commands)
        noted = self.bash(commands)
        self.assertEqual([it.split()[:2] for it in noted if it.startswith("systemctl")],
                         [["systemctl", "stop"], ["systemctl", "start"]])
        self.assertTrue(any(it.startswith("setpriv --reuid=dukpt ") for it in noted), noted)
        made = (self.home / FILE).read_bytes()
        self.assertEqual(made, copied(old, made))
        self.assertEqual((self.home / f"{FILE}.old").read_bytes(), old)
        (self.home / FILE).rename(self.journal)
        self.check_file(self.frames, what="behind the upgrade")
        self.assertEqual(len(self.kept()), len(self.frames))

    def test_more_records(self) -> None:
        """A full journal has more room then, and nothing else of it changes."""
        self.make_journal(3)
        self.check_file(payments(9), what="a full one")
        kept, before = self.kept(), self.journal.read_bytes()
        commands = re.findall(r"`(dukpt grow-journal [^`]+)`", DEPLOYMENT.read_text())
        self.assertEqual(len(commands), 1)
        self.assertTrue(commands[0].endswith(f" {MORE}"), commands)
        self.journal.rename(self.home / FILE)
        self.bash(commands[0].replace(str(MORE), str(FEWER)))
        (self.home / FILE).rename(self.journal)
        self.assert_bytes(before + bytes(RECORD * FEWER), "made larger")
        # A sparse file would take its room later, or find none.
        self.assertGreaterEqual(512 * self.journal.stat().st_blocks, RECORD * FEWER)
        found = judged(payments(9), kept, room_in(self.journal.read_bytes()))
        ended = self.serve_file(b"".join(frames_of(payments(9))))
        self.assert_output(ended, answers_of(found), "", "more records")
        self.assertEqual(len(added_by(found)), 6)

    def test_another_journal_behind(self) -> None:
        """A new journal that is appended is damage, since it has a header in front; nothing is lost."""
        self.make_journal(3)
        self.check_file(payments(2), what="before")
        before = self.journal.read_bytes()
        self.assertEqual(self.program.run("new-journal", "more", "5", folder=self.home).status, 0)
        self.journal.write_bytes(before + (self.home / "more").read_bytes())
        self.check(ON_JOURNAL, frames_of(payments(3)), b"", JOURNAL_FAILED, what="another one behind")
        self.journal.write_bytes(before)
        self.check_file(payments(3), what="without it")


class Old(UpgradeCase):
    """What is made of a journal of version 1."""

    weight = 3

    def test_a_service(self) -> None:
        """It ends with a line that says what to do, and leaves the file as it is."""
        old = self.make_old()
        self.check(ON_JOURNAL, frames_of(self.frames), b"", OLD_VERSION, what="version 1")
        self.assert_bytes(old, "served and changed")

    def test_a_host(self) -> None:
        """It is not started over one, and says why."""
        old = self.make_old()
        host = self.start_host()
        self.assertEqual(host.end(), 1)
        host.told(f"not started: status 1: {OLD_VERSION}")
        self.assert_bytes(old, "a host over version 1")
        self.assertEqual(self.state(), "")

    def test_behind_a_kill(self) -> None:
        """A host that was killed goes on over a checked copy: so it is of version 2, and has all that was
        answered."""
        self.make_journal(60)
        host = self.start_host()
        client, given = self.connect(host), payments(8)
        for it in given[:5]:
            self.assertEqual(client.ask(it.frame), it.answer)
        host.stop(signal.SIGKILL)
        plain = plain_of(self.journal.read_bytes())
        assert plain is not None
        self.journal.write_bytes(plain)
        host = self.start_host()
        client = self.connect(host)
        for it in given:
            self.assertEqual(client.ask(it.frame), it.answer)
        self.assertEqual(host.stop(), 0)
        self.assertIsNotNone(identity_of(self.journal.read_bytes()))
        self.assertEqual(self.kept(), payments_of_all(given))
