"""The command `tools/test`: which tests it finds, how it names their parts, and its seeds."""
from __future__ import annotations

import argparse
import re

from ..support.case import Case, in_parts, name_of
from ..support.program import ROOT
from ..support.runner import TwiceNamed, jobs_of, modules, run, seed_of

# A module as documents name it: `test_find`, `test_find.py`, or with `test_page_..` all that begin so.
NAMED = re.compile(r"`(test_\w+)(\.\.|\.py)?`")


def missing(text: str) -> list[str]:
    """The modules that a text names, and that are not there."""
    there = [it.rpartition(".")[2] for it in modules()]
    return [name for name, end in NAMED.findall(text)
            if not (any(it.startswith(name) for it in there) if end == ".." else name in there)]


class Parts(Case):
    """A test in parts, which is itself one of the bench."""

    @in_parts(3)
    def test_each_draws_its_own(self) -> None:
        """By its name, which has the number of the part."""
        self.assertIn(self.part, (1, 2, 3))
        self.assertEqual(self.name, f"test_runner.Parts.test_each_draws_its_own_{self.part}")
        whole = type(self)("test_each_draws_its_own")
        whole.setUp()
        self.assertNotEqual(self.chance.random(), whole.chance.random())


class Runner(Case):
    def test_modules(self) -> None:
        """Those of all folders, and no two of one name."""
        tests = self.folder() / "tests"
        for name in ("one/test_b.py", "test_c.py", "one/deep/test_a.py", "one/other.py"):
            (tests / name).parent.mkdir(parents=True, exist_ok=True)
            (tests / name).write_text("")
        self.assertEqual(modules(tests), ["tests.one.deep.test_a", "tests.one.test_b", "tests.test_c"])
        (tests / "test_a.py").write_text("")
        with self.assertRaisesRegex(TwiceNamed, r"^(one/deep/)?test_a\.py and .*test_a\.py have one name$"):
            modules(tests)

    def test_parts(self) -> None:
        """Each is a job, and runs as the part that its name says."""
        found = list(jobs_of(Parts))
        name = "test_runner.Parts.test_each_draws_its_own"
        self.assertEqual([it.name for it in found], [f"{name}_{part}" for part in (1, 2, 3)])
        for job in found:
            self.assertEqual(run(job, self.seed, self.times).fault, "")
        self.assertEqual([it.part for it in jobs_of(Runner)], [0] * 5)

    def test_names(self) -> None:
        """A test's name, by which it draws, has no folder."""
        for front in ("tests.", "tests.tools.", "tests.a.b."):
            self.assertEqual(name_of(f"{front}test_a.Case.test_b", 0), "test_a.Case.test_b")
            self.assertEqual(name_of(f"{front}test_a.Case.test_b", 12), "test_a.Case.test_b_12")

    def test_seeds(self) -> None:
        self.assertEqual([seed_of(it) for it in ("0", "48879")], [0, 0xbeef])
        self.assertGreater(len({seed_of("random") for _ in range(8)}), 1)
        for word in ("", "-1", "0x1", "Random"):
            with self.assertRaisesRegex(argparse.ArgumentTypeError, "is no number, and not `random`$"):
                seed_of(word)

    def test_documents(self) -> None:
        """They name modules that are there."""
        for file in (ROOT / "CONTRIBUTING.md", ROOT / "README.md", *sorted((ROOT / "docs").glob("*.md"))):
            self.assertEqual(missing(file.read_text(encoding="utf-8")), [], file.name)
        planted = ("`test_runner`, `test_runer`, `test_runner.py`, `test_page_..`, `test_pages_..`, "
                   "`test_new_logs.py`")
        self.assertEqual(missing(planted), ["test_runer", "test_pages_", "test_new_logs"])
