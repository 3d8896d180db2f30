"""What a change touches and costs, by `tools/touched`: over a repository of four crates, each kind of
change; and the minutes, which name each crate of this repository once."""
from __future__ import annotations

import os
import re
import subprocess
import sys
from pathlib import Path

from tests.support.case import Case
from tests.support.program import ROOT

TOUCHED = ROOT / "tools" / "touched"
MINUTES = ROOT / "tools" / "touched_of" / "minutes.txt"
LIST = "# Lowest first.\nlow:\nmiddle: hex low\nside staticlib: low\ntop: middle\n"
FILES = {
    "crates.txt": LIST, "HANDLES": "Handles allowed: none.\n", "README.md": "it\n",
    "crates/low/src/lib.rt": "low\n", "crates/low/specs/It.antt": "low\n",
    "crates/middle/src/lib.rt": "middle\n", "crates/middle/must-fail/one.edit": "one\n",
    "crates/side/src/lib.rt": "side\n", "crates/top/src/main.rt": "top\n",
    "crates/top/stdout": "top\n", "docs/IT.md": "it\n", "tests/page/test_it.py": "it\n",
}
HEAD = f"{'proved again':22}{'minutes':>8}"
# No setting of whoever runs this.
QUIET = {**os.environ, "GIT_CONFIG_GLOBAL": os.devnull, "GIT_CONFIG_SYSTEM": os.devnull}


def proved(name: str, minutes: str, why: str) -> str:
    return f"{name:22}{minutes:>8}  {why}"


class TestTouched(Case):
    def setUp(self) -> None:
        super().setUp()
        self.home = self.folder()
        self.minutes = self.folder() / "minutes.txt"
        self.minutes.write_text("# Minutes.\nlow 1.5\nmiddle 2\ntop 4.2\n")
        self.git("init", "--quiet")
        self.write(FILES)
        self.commit()

    def git(self, *words: str) -> None:
        subprocess.run(
            ["git", "-c", "user.name=it", "-c", "user.email=it@it.example", *words],
            cwd=self.home, env=QUIET, check=True)

    def commit(self) -> None:
        self.git("add", "--all")
        self.git("commit", "--quiet", "--message", "it")

    def write(self, files: dict[str, str]) -> None:
        for name, text in files.items():
            path = self.home / name
            path.parent.mkdir(parents=True, exist_ok=True)
            path.write_text(text)

    def lines_of(self, *words: str) -> list[str]:
        done = self.run_touched(*words)
        self.assertEqual((done.returncode, done.stderr), (0, ""))
        return done.stdout.splitlines()

    def run_touched(self, *words: str) -> subprocess.CompletedProcess[str]:
        return subprocess.run(
            [sys.executable, TOUCHED, "--root", self.home, "--minutes", self.minutes, *words],
            cwd=self.folder(), env=QUIET, capture_output=True, text=True, check=False)

    def test_nothing(self) -> None:
        self.assertEqual(self.lines_of(), ["nothing changed"])
        self.assertEqual(self.lines_of("HEAD..HEAD"), ["nothing changed"])

    def test_definition(self) -> None:
        """A definition of the lowest crate: all that stand on it, and one has no number."""
        self.write({"crates/low/specs/It.antt": "lower\n"})
        self.assertEqual(self.lines_of(), [
            HEAD, proved("low", "1.5", "specs"), proved("middle", "2.0", "above"),
            proved("side", "unknown", "above"), proved("top", "4.2", "above"),
            "4 crates: 7.7 processor minutes, without side",
            "to judge the wrong bodies: tools/wrong-bodies low"])

    def test_no_proof(self) -> None:
        """A test, a document and what a program is run on: no crate is proved again."""
        self.write({"tests/page/test_it.py": "is\n", "tests/page/test_new.py": "new\n",
                    "docs/IT.md": "is\n", "README.md": "is\n", "crates/top/stdout": "is\n"})
        self.assertEqual(self.lines_of(), [
            "no crate is proved again", "no proof: README.md", "no proof: crates/top/",
            "no proof: docs/", "no proof: tests/page/ (2 files)"])

    def test_new_crate(self) -> None:
        """A new crate, of files that git does not know yet, and its line."""
        self.write({"crates.txt": LIST + "new: top\n", "crates/new/src/lib.rt": "new\n"})
        self.assertEqual(self.lines_of(), [
            HEAD, proved("new", "unknown", "crates.txt, src"),
            "1 crate: 0.0 processor minutes, without new",
            "to judge the wrong bodies: tools/wrong-bodies new"])

    def test_lines_of_crates(self) -> None:
        """Another library of a crate, a crate that is gone, and a comment."""
        self.write({"crates.txt": "# Other words.\nlow:\nmiddle: hex itoa low\ntop: middle\n"})
        self.assertEqual(self.lines_of(), [
            HEAD, proved("middle", "2.0", "crates.txt"), proved("top", "4.2", "above"),
            "2 crates: 6.2 processor minutes", "side is no crate any more",
            "to judge the wrong bodies: tools/wrong-bodies middle"])

    def test_comment(self) -> None:
        self.write({"crates.txt": LIST.replace("Lowest", "The lowest")})
        self.assertEqual(self.lines_of(), ["no crate is proved again"])

    def test_handles(self) -> None:
        """Each crate's verdict rests on the handles."""
        self.write({"HANDLES": "Handles allowed: Net\n"})
        self.assertEqual(
            [line.split()[0] for line in self.lines_of()[1:5] if line.endswith("  HANDLES")],
            ["low", "middle", "side", "top"])

    def test_wrong_bodies(self) -> None:
        """One that the gate tries, and one of a script: neither proves a crate again."""
        self.write({"crates/middle/must-fail/one.edit": "other\n",
                    "crates/low/wrong-bodies/lib.edits": "new\n"})
        self.assertEqual(self.lines_of(), [
            "no crate is proved again",
            "the gate tries must-fail/ of middle again, and proves nothing for it: rt must-fail middle",
            "to judge the wrong bodies: tools/wrong-bodies low"])

    def test_ranges(self) -> None:
        """From one commit to another, and from a commit to the files that are there."""
        self.write({"crates/top/src/main.rt": "other\n"})
        self.commit()
        self.write({"crates/middle/src/lib.rt": "other\n"})
        self.commit()
        self.write({"crates/side/src/lib.rt": "other\n"})
        for given, wanted in (
            ("HEAD~2..HEAD~1", {"top": "src"}), ("HEAD~2..", {"middle": "src", "top": "src"}),
            ("HEAD~1...HEAD", {"middle": "src", "top": "above"}),
            ("HEAD~1", {"middle": "src", "side": "src", "top": "above"}), ("HEAD", {"side": "src"}),
        ):
            rows = [re.split(" {2,}", line) for line in self.lines_of(given)[1:]]
            self.assertEqual({row[0]: row[2] for row in rows if len(row) == 3}, wanted, given)

    def test_refused(self) -> None:
        """What is no revision, and minutes that are none."""
        for given in ("nothing", "HEAD..nothing", "--output=it"):
            self.assertNotEqual(self.run_touched(given).returncode, 0, given)
        for text in ("low\n", "low 1\nlow 2\n", "low many\n"):
            self.minutes.write_text(text)
            done = self.run_touched()
            self.assertEqual((done.returncode, done.stdout), (1, ""), text)
            self.assertTrue(done.stderr.startswith("tools/touched: "), done.stderr)


class TestMinutes(Case):
    def test_crates(self) -> None:
        """Each crate has its minutes, in the order of crates.txt, and no other name has."""
        names = re.compile(r"^(\w+)", re.M)
        self.assertEqual(names.findall(MINUTES.read_text()),
                         names.findall(Path(ROOT / "crates.txt").read_text()))
