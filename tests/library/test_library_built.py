"""When tests build the library, and when they ask first: a proof of all of it may take an hour."""
from __future__ import annotations

import os
import time
from pathlib import Path
from unittest.mock import patch

from ..support import runner
from ..support.case import Case
from ..support.library import library
from ..support.library.library import FILES, MAY_BUILD, NOT_BUILT, VARIABLE, LibraryMissing, built_library
from ..support.runner import Job, run

SOURCE = "fn one() {}\n"


class Asks(Case):
    """Over a repository of one source, whose library is a folder of texts."""

    def setUp(self) -> None:
        super().setUp()
        self.root = self.folder()
        self.built, self.source = self.root / "out" / "library", self.root / "crates" / "inner" / "lib.rt"
        self.source.parent.mkdir(parents=True)
        self.source.write_text(SOURCE)
        self.builds = 0
        self.enterContext(patch.multiple(
            library, ROOT=self.root, BUILT=self.built, build=self.build, SUMS=self.root / "sums",
            SOURCES=(self.root / "crates",)))
        self.enterContext(patch.dict(os.environ))
        for name in (VARIABLE, MAY_BUILD):
            os.environ.pop(name, None)

    def build(self) -> None:
        self.builds += 1
        self.write(self.built)

    def write(self, folder: Path) -> None:
        folder.mkdir(parents=True, exist_ok=True)
        for name in FILES:
            (folder / name).write_text(f"{self.builds} of {self.source.read_text()}")

    def change(self, text: str) -> None:
        """Writes the source at a later time than all that is built."""
        self.source.write_text(text)
        later = time.time() + 60
        os.utime(self.source, (later, later))

    def lack(self) -> None:
        built_library()

    def refused(self) -> None:
        with self.assertRaises(LibraryMissing) as found:
            built_library()
        self.assertEqual(str(found.exception), NOT_BUILT)
        self.assertEqual(len(NOT_BUILT.splitlines()), 1)

    def test_asks(self) -> None:
        """Nothing is built that the run was not told to build."""
        self.refused()
        self.assertFalse(self.built.exists())
        os.environ[MAY_BUILD] = "yes"
        self.assertEqual((built_library(), built_library(), self.builds), (self.built, self.built, 1))
        del os.environ[MAY_BUILD]
        self.assertEqual((built_library(), self.builds), (self.built, 1))

    def test_same_text(self) -> None:
        """A source that is newer and the same is no other; one with another text is, in a folder of a
        folder too."""
        self.build()
        built_library()
        self.change(SOURCE)
        self.assertEqual(built_library(), self.built)
        self.change("fn other() {}\n")
        self.refused()
        self.change(SOURCE)
        self.assertEqual(built_library(), self.built)
        (self.built / "BUILD").write_text("another build")
        self.refused()

    def test_named(self) -> None:
        """The library that is named is taken as it is, and built nowhere."""
        other = self.root / "other"
        self.write(other)
        os.environ[VARIABLE] = str(other / "libdukpt.so.0")
        self.assertEqual((built_library(), self.builds), (other, 0))
        (other / "libdukpt.a").unlink()
        with self.assertRaisesRegex(LibraryMissing, r"has no libdukpt\.a$"):
            built_library()

    def test_is_said_in_a_line(self) -> None:
        """By the runner, of a test that asks for the library."""
        job = Job(Asks.__module__, Asks.__name__, "test_named", 0, None, 1)
        with patch.object(Asks, "test_named", Asks.lack):
            self.assertEqual(run(job, self.seed, self.times).fault, NOT_BUILT)

    def test_the_whole_bench_builds(self) -> None:
        """And a part of it where `--build` says so."""
        chosen = ["-k", "no_such_test"]
        cases: list[tuple[list[str], bool]] = [([], True), (chosen, False), ([*chosen, "--build"], True)]
        for words, may in cases:
            with (patch.dict(os.environ), patch("sys.argv", ["test", *words]),
                  patch.object(runner, "jobs", return_value=[]), patch("builtins.print")):
                os.environ.pop(MAY_BUILD, None)
                runner.main()
                self.assertEqual(MAY_BUILD in os.environ, may, words)
