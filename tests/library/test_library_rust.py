"""The Rust crate: its own tests and examples, and cases at random through each of its functions."""
from __future__ import annotations

import re
import subprocess

from ..support.case import Case
from ..support.library.library import demand
from ..support.library.rust_library import CRATE, cargo, results, write_cases

# The module that calls the exports, and the one that overwrites secrets: how many blocks each has.
UNSAFE = {"calls.rs": 1, "wipe.rs": 3}
# How the tests out of the readme are called.
README = re.compile(r"^test \S+ - Readme \(line \d+\) \.\.\. ok$", re.MULTILINE)


class TestCrate(Case):
    weight = 4

    def assert_passed(self, done: subprocess.CompletedProcess[str]) -> int:
        """That the crate's tests passed, without a warning. Gives how many they are."""
        self.assertEqual(done.returncode, 0, f"{done.stdout}\n{done.stderr}")
        self.assertNotIn("warning", done.stderr)
        found = results(done.stdout)
        self.assertTrue(found, done.stdout)
        return sum(passed for passed, _ in found)

    def test_crate(self) -> None:
        """All tests of the crate, with those in its comments and its readme."""
        path, count = write_cases(self.folder(), self.chance, self.times)
        done = cargo("test", "--", "--include-ignored", "--show-output", DUKPT_CASES=path)
        passed = self.assert_passed(done)
        self.assertEqual({ignored for _, ignored in results(done.stdout)}, {0})
        self.assertIn(f"\n{count} cases\n", done.stdout)
        self.assertEqual(len(README.findall(done.stdout)), 2)
        self.tells(f"{passed} tests, {count} cases")

    def test_without_std(self) -> None:
        """The crate without its features, and the tests that it has then."""
        self.assert_passed(cargo("test", "--no-default-features"))

    def test_optimized(self) -> None:
        """The optimizing compiler leaves no secret in memory that is given back."""
        self.assert_passed(cargo("test", "--release", "--test", "secrets"))

    def test_lints(self) -> None:
        """clippy has nothing to say of any part."""
        demand("cargo-clippy")
        for features in ([], ["--no-default-features"], ["--features", "static"]):
            done = cargo("clippy", "--quiet", "--all-targets", *features, "--", "-D", "warnings")
            self.assertEqual((done.returncode, done.stderr), (0, ""), features)

    def test_unsafe_code(self) -> None:
        """Two modules have it."""
        texts = {path.name: path.read_text() for path in sorted(CRATE.glob("src/**/*.rs"))}
        has = re.compile(r"\bunsafe\b *[{(]|\bunsafe\b +(fn|impl|extern)")
        self.assertEqual({name: len(has.findall(text)) for name, text in texts.items()
                          if has.search(text)}, UNSAFE)
