"""The command `tools/wrong-bodies`, over two crates and a kit that stands in for the true one."""
from __future__ import annotations

import os
import shutil
import subprocess
import sys
from typing import Sequence

from ..support.case import Case
from ..support.program import ROOT, SECONDS

READ = ("tools/wrong-bodies", "tools/library_of/__init__.py", "tools/library_of/kit.py")
# The kit's command, which notes its checks, and its prover: it refuses each function with `bad` in it,
# and all where a definition has that; and, while it proves, it edits a file that it is given.
RT = """#!/bin/sh
case $1 in
version) cat "$KIT/version" ;;
doc) echo "$KIT/START-HERE.md" ;;
check) echo "rt check ${PWD##*/}" >>"$NOTED"; mkdir -p out/incremental; echo logic=proved ;;
esac
"""
RATTLE = """#!{python}
import os, re, sys
crate = sys.argv[sys.argv.index("--crate-name") + 1]
with open(os.environ["NOTED"], "a") as noted:
    noted.write("prover " + crate + "\\n")
if os.environ["EDITED"]:
    with open(os.environ["EDITED"], "a") as edited:
        edited.write("\\n")
with open("src/lib.rt") as source:
    bodies = re.findall(r"^fn (\\w+)\\(\\) {{\\n(.*)\\n}}$", source.read(), re.M)
false = os.path.exists("specs/Law.antt") and "bad" in open("specs/Law.antt").read()
wrong = [name for name, body in bodies if false or "bad" in body]
for name, _ in bodies:
    print("fn " + crate + "::" + name + ": " + ("not proved" if name in wrong else "proved"))
print("logic=not-proved" if wrong else "logic=proved")
"""
CODE = "fn first() {\n    1\n}\n\nfn second() {\n    2\n}\n"
PROVER = ["prover high"]
OTHER = "second.is_three\nrefuses: high::second\nold: 2\nnew: 3\n"
NOT_REFUSED = ("high/lib: second.is_three: NOT REFUSED: high::second: proved; "
               "what fails by itself: nothing")


def entry(crate: str, number: int) -> str:
    """One that the prover refuses."""
    return f"first.wrong_{number}\nrefuses: {crate}::first\nold: 1\nnew: bad {number}\n"


class WrongBodies(Case):
    def setUp(self) -> None:
        super().setUp()
        self.home, self.kit, self.cache = self.folder(), self.folder(), self.folder()
        for name in READ:
            (self.home / name).parent.mkdir(parents=True, exist_ok=True)
            shutil.copy(ROOT / name, self.home / name)
        (self.home / "crates.txt").write_text("# A comment.\nlow:\nhigh: low hex\n")
        for crate in ("low", "high"):
            for part in ("src", "proofs", "wrong-bodies"):
                (self.home / "crates" / crate / part).mkdir(parents=True)
            (self.home / "crates" / crate / "src" / "lib.rt").write_text(CODE)
        (self.kit / "bin").mkdir()
        for name, text in (("rt", RT), ("rattle", RATTLE.format(python=sys.executable))):
            (self.kit / "bin" / name).write_text(text)
            (self.kit / "bin" / name).chmod(0o755)
        (self.kit / "version").write_text("a kit\n")
        self.noted = self.kit / "noted"
        self.write_edits("low")
        self.write_edits("high", entry("high", 1))

    def write_edits(self, crate: str, *entries: str) -> None:
        path = self.home / "crates" / crate / "wrong-bodies" / "lib.edits"
        path.unlink(missing_ok=True)
        if entries:
            path.write_text("\n".join(entries))

    def judge(self, *words: str, edited: str = "") -> tuple[int, list[str], list[str]]:
        """The status, what is printed, and the checks that were made."""
        self.noted.write_text("")
        told = {"PATH": f"{self.kit}/bin:/usr/bin:/bin", "KIT": str(self.kit), "NOTED": str(self.noted),
                "EDITED": edited, "XDG_CACHE_HOME": str(self.cache)}
        done = subprocess.run([sys.executable, self.home / READ[0], *words], env=told, cwd=self.cache,
                              capture_output=True, text=True, timeout=SECONDS, check=False)
        self.assertEqual(done.stderr, "")
        return done.returncode, done.stdout.splitlines(), self.noted.read_text().splitlines()

    def check(self, found: tuple[int, list[str], list[str]], status: int, lines: Sequence[str],
              checks: Sequence[str]) -> None:
        self.assertEqual(found, (status, list(lines), list(checks)))

    def check_judged(self, why: str) -> None:
        """The one wrong body is judged, over the crate as it stands."""
        lines = ["high/lib: first.wrong_1: refused", "1 refused, 0 of them as before, 0 not refused"]
        status, printed, checks = self.judge()
        self.assertEqual((status, printed, checks[-2:]), (0, lines, PROVER * 2), why)

    def check_known(self) -> None:
        self.check(self.judge(), 0, ["high/lib: first.wrong_1: refused, as before",
                                     "1 refused, 1 of them as before, 0 not refused"], [])

    def test_one_that_is_proved(self) -> None:
        """It is found beside one that is refused, and each time again."""
        self.write_edits("high", entry("high", 1), OTHER)
        self.check(self.judge(), 1,
                   ["high/lib: first.wrong_1: refused", NOT_REFUSED,
                    "1 refused, 0 of them as before, 1 not refused"],
                   ["rt check high", *PROVER * 3])
        self.check(self.judge(), 1,
                   ["high/lib: first.wrong_1: refused, as before", NOT_REFUSED,
                    "1 refused, 1 of them as before, 1 not refused"],
                   ["rt check high", *PROVER * 2])

    def test_one_of_a_law(self) -> None:
        """It changes a definition, and stands alone: the next one is judged over the definition as it was."""
        (self.home / "crates" / "high" / "specs").mkdir()
        (self.home / "crates" / "high" / "specs" / "Law.antt").write_text("Law = good\n")
        law = "second.law_is_false\nrefuses: high::second\nfile: specs/Law.antt\nold: good\nnew: bad\n"
        self.write_edits("high", law, OTHER)
        self.check(self.judge(), 1,
                   [NOT_REFUSED, "high/lib: second.law_is_false: refused",
                    "1 refused, 0 of them as before, 1 not refused"],
                   ["rt check high", *PROVER * 3])

    def test_what_changed_is_judged_again(self) -> None:
        self.check_judged("at first")
        self.check_known()
        for path in ("crates/high/src/lib.rt", "crates/high/proofs/Lib.antt", "crates/low/src/lib.rt",
                     "crates/low/proofs/Lib.antt", "tools/wrong-bodies"):
            with open(self.home / path, "a", encoding="utf-8") as it:
                it.write("# changed\n")
            self.check_judged(path)
        (self.kit / "version").write_text("another kit\n")
        self.check_judged("the kit")
        self.write_edits("high", entry("high", 1).replace("bad", "very bad"))
        self.check_judged("the wrong body")
        (self.home / "crates.txt").write_text("low:\nhigh: low\n")
        self.check_judged("what it uses")
        (self.home / "crates" / "other").mkdir()
        self.check_known()
        self.assertEqual(self.judge("--anew")[1][-1], "1 refused, 0 of them as before, 0 not refused")

    def test_changed_while_judged(self) -> None:
        """Nothing is kept of a verdict where a file changed before it came."""
        changed = self.home / "crates" / "low" / "src" / "lib.rt"
        self.assertEqual(self.judge(edited=str(changed))[0], 0)
        changed.write_text(CODE)
        self.check_judged("behind the change")

    def test_unused_is_removed(self) -> None:
        """Behind a month in which no run looked at it."""
        self.check_judged("at first")
        (kept,) = (self.cache / "dukpt" / "wrong-bodies").iterdir()
        for days, remains in ((29, True), (31, False)):
            then = os.stat(self.noted).st_mtime - days * 24 * 3600
            os.utime(kept, (then, then))
            self.judge("-k", "another")
            self.assertEqual(kept.exists(), remains)

    def test_libraries_of_the_gate(self) -> None:
        """Where the gate left what is below, nothing is proved but the crate, from nothing."""
        made = self.home / "crates" / "low" / "out" / "rlib"
        (made / "low.rlib").mkdir(parents=True)
        self.assertEqual(self.judge("--anew")[2], PROVER * 2)
        stamp, source = made / "stamp", self.home / "crates" / "low" / "src" / "lib.rt"
        stamp.write_text("")
        self.assertEqual(self.judge("--anew")[2], ["rt check high", *PROVER * 2])
        stamp.unlink()
        later = os.stat(made / "low.rlib").st_mtime + 1
        os.utime(source, (later, later))
        self.assertEqual(self.judge("--anew")[2], ["rt check high", *PROVER * 2])

    def test_share(self) -> None:
        """A seed draws the same again, and seeds draw each. They take no crate more than are needed."""
        self.write_edits("low", *(entry("low", it) for it in range(2)))
        self.write_edits("high", *(entry("high", it) for it in range(4)))
        drawn: set[str] = set()
        for seed in range(5):
            words = ("--anew", "--share", "3", "--seed", str(seed))
            status, lines, _ = self.judge(*words)
            head, *labels, last = lines
            self.assertEqual((status, head), (0, f"wrong-bodies: --share 3 --seed {seed}"))
            self.assertEqual((len(labels), last), (2, "2 refused, 0 of them as before, 0 not refused"))
            self.assertEqual(len({it.partition("/")[0] for it in labels}), 1)
            drawn.update(labels)
        self.assertEqual(self.judge(*words)[1], lines)
        self.assertEqual(len(drawn), 6)
