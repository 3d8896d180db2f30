"""The test command `.ci/run`, over commands that stand in for those that it runs."""
from __future__ import annotations

import shutil
import subprocess
from pathlib import Path

from ..support.case import Case
from ..support.program import ROOT, SECONDS, Ended

# What the script takes of the system. `dpkg-query`, `apt-get` and `id` are stand-ins.
OF_THE_SYSTEM = ("bash", "cat", "dirname", "env", "grep", "sed")
# Notes its call, and ends with the status that a file of its name has.
NOTES = """#!/bin/sh
echo "${0##*/} $*" >>"$NOTED"
read -r status <"$STATUSES/${0##*/}"
exit "$status"
"""
QUERY = """#!/bin/sh
for it in "$@"; do :; done
grep -qx "$it" "$STATUSES/installed" && echo "install ok installed"
"""
INSTALLS = """#!/bin/sh
echo "apt-get $*" >>"$NOTED"
[ "$1" = update ] || cat "$STATUSES/there" >>"$STATUSES/installed"
"""
USER = """#!/bin/sh
cat "$STATUSES/user"
"""
RUNS = ["rt ci", "test ", "wrong-bodies --share 100"]
INSTALLED = ["apt-get update -qq", "apt-get install -y two three -qq"]
FAULT = b"the test bench needs: apt-get install -y two three\n"


class TestCommand(Case):
    def setUp(self) -> None:
        super().setUp()
        self.home, self.commands, self.statuses = self.folder(), self.folder(), self.folder()
        for folder in (".ci", "tests", "tools"):
            (self.home / folder).mkdir()
        shutil.copy(ROOT / ".ci" / "run", self.home / ".ci")
        (self.home / "tests" / "needed.txt").write_text("# What is needed.\none\ntwo # words\nthree\n")
        for name in OF_THE_SYSTEM:
            (self.commands / name).symlink_to(str(shutil.which(name)))
        self.put(self.commands / "dpkg-query", QUERY)
        self.put(self.commands / "id", USER)
        for path in (self.commands / "rt", self.home / "tools" / "test",
                     self.home / "tools" / "wrong-bodies"):
            self.put(path, NOTES)
            (self.statuses / path.name).write_text("0\n")
        self.has("one", "two", "three")
        (self.statuses / "user").write_text("0\n")

    @staticmethod
    def put(path: Path, text: str) -> None:
        path.write_text(text)
        path.chmod(0o755)

    def has(self, *packages: str) -> None:
        (self.statuses / "installed").write_text("".join(f"{it}\n" for it in packages))

    def run_it(self) -> tuple[Ended, list[str]]:
        """How it ends in some folder, and what it ran."""
        noted = self.statuses / "noted"
        noted.write_text("")
        told = {"PATH": str(self.commands), "NOTED": str(noted), "STATUSES": str(self.statuses)}
        done = subprocess.run([self.home / ".ci" / "run"], cwd=self.statuses, env=told, check=False,
                              stdin=subprocess.DEVNULL, capture_output=True, timeout=SECONDS)
        return Ended(done.returncode, done.stdout, done.stderr), noted.read_text().splitlines()

    def test_all_parts_run(self) -> None:
        """It fails if one fails, with the status of the first that does."""
        for gate, bench, bodies, status in ((0, 0, 0, 0), (2, 1, 3, 2), (0, 4, 3, 4), (0, 0, 5, 5)):
            for name, it in (("rt", gate), ("test", bench), ("wrong-bodies", bodies)):
                (self.statuses / name).write_text(f"{it}\n")
            self.assertEqual(self.run_it(), (Ended(status, b"", b""), RUNS))

    def test_seed(self) -> None:
        """What is random comes of the commit's name, in the bench and in the wrong bodies."""
        self.put(self.commands / "git", "#!/bin/sh\necho 0000beef\n")
        seeded = [RUNS[0], *(f"{it.rstrip()} --seed {0xbeef}" for it in RUNS[1:])]
        self.assertEqual(self.run_it(), (Ended(0, b"", b""), seeded))
        self.put(self.commands / "git", "#!/bin/sh\nexit 128\n")
        self.assertEqual(self.run_it(), (Ended(0, b"", b""), RUNS))

    def test_missing_packages_are_installed(self) -> None:
        self.put(self.commands / "apt-get", INSTALLS)
        (self.statuses / "there").write_text("two\nthree\n")
        self.has("one")
        self.assertEqual(self.run_it(), (Ended(0, b"", b""), [*INSTALLED, *RUNS]))
        self.assertEqual(self.run_it(), (Ended(0, b"", b""), RUNS))

    def test_nothing_runs_without_packages(self) -> None:
        """Without root, without apt-get, and where one is missing behind the installation."""
        self.has("one")
        self.assertEqual(self.run_it(), (Ended(1, b"", FAULT), []))
        self.put(self.commands / "apt-get", INSTALLS)
        (self.statuses / "there").write_text("two\n")
        (self.statuses / "user").write_text("1000\n")
        self.assertEqual(self.run_it(), (Ended(1, b"", FAULT), []))
        (self.statuses / "user").write_text("0\n")
        self.assertEqual(self.run_it(), (Ended(1, b"", FAULT), INSTALLED))
