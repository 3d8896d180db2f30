"""How the Python package is installed, finds its library, and refuses a wrong one."""
from __future__ import annotations

import os
import re
import shutil
import subprocess
import sys
from pathlib import Path

from ..support.case import Case
from ..support.library.library import built_library, demand
from ..support.library.library_calls import CALLS
from ..support.library.python_library import PACKAGE, SHARED, VARIABLE

FIRST = """import dukpt
bdk = bytes.fromhex("0123456789ABCDEFFEDCBA9876543210")
print(dukpt.derive(bdk, bytes.fromhex("FFFF9876543210E00001")).hex().upper())
print(dukpt._library.LIBRARY._name)
"""
KEY = "042666B49184CFA368DE9628D0397BC9"
VERSION = r"0\.1\.0"
SECONDS = 300


class PackageCase(Case):
    def setUp(self) -> None:
        super().setUp()
        self.home = self.folder()
        self.library = built_library() / SHARED

    def run_python(
        self, where: Path, code: str = FIRST, *words: str, **variables: str
    ) -> subprocess.CompletedProcess[str]:
        """A Python of its own, with the package in a folder and these variables alone."""
        return subprocess.run(
            [sys.executable, *words, "-c", code], cwd=self.home, capture_output=True, text=True,
            env=self.environment(PYTHONPATH=str(where), **variables), timeout=SECONDS, check=False)

    def environment(self, **variables: str) -> dict[str, str]:
        """What names neither a library nor a package, and these variables."""
        kept = {name: value for name, value in os.environ.items()
                if name not in (VARIABLE, "LD_LIBRARY_PATH", "PYTHONPATH")}
        return {**kept, **variables}

    def assert_loads(self, where: Path, library: str, **variables: str) -> None:
        done = self.run_python(where, **variables)
        self.assertEqual(done.stdout.splitlines(), [KEY, library], done.stderr)

    def assert_refused(self, pattern: str, where: Path = PACKAGE, **variables: str) -> None:
        done = self.run_python(where, **variables)
        self.assertEqual((done.returncode, done.stdout), (1, ""))
        self.assertRegex(done.stderr.splitlines()[-1], f"^ImportError: {pattern}")

    def copied(self, *parts: str) -> Path:
        """The folder of a copy of the package."""
        folder = self.home.joinpath(*parts)
        shutil.copytree(PACKAGE / "dukpt", folder / "dukpt",
                        ignore=shutil.ignore_patterns("__pycache__", SHARED))
        return folder

    def place(self, *parts: str) -> str:
        """The path of a copy of the library."""
        path = self.home.joinpath(*parts)
        path.parent.mkdir(parents=True, exist_ok=True)
        shutil.copy(self.library, path)
        return str(path)


class TestFinding(PackageCase):
    def test_the_order(self) -> None:
        """Each place is taken before the next one."""
        where = self.copied("library", "python")
        system = self.place("system", SHARED)
        self.assert_loads(where, SHARED, LD_LIBRARY_PATH=str(Path(system).parent))
        built = self.place("out", "library", SHARED)
        self.assert_loads(where, built, LD_LIBRARY_PATH=str(Path(system).parent))
        beside = self.place("library", "python", "dukpt", SHARED)
        self.assert_loads(where, beside)
        named = self.place("named", "any-name.so")
        self.assert_loads(where, named, **{VARIABLE: named})

    def test_a_missing_file_that_is_named(self) -> None:
        """No other one is taken in its place."""
        where = self.copied("library", "python")
        self.place("out", "library", SHARED)
        missing = str(self.home / "missing.so")
        self.assert_refused(rf"{SHARED} cannot be loaded \({missing}: .*tools/library builds it",
                            where, **{VARIABLE: missing})

    def test_no_repository(self) -> None:
        """Beyond a repository out/library means nothing."""
        where = self.copied("a", "site")
        self.place("out", "library", SHARED)
        system = self.place("system", SHARED)
        self.assert_loads(where, SHARED, LD_LIBRARY_PATH=str(Path(system).parent))


class TestWrongLibraries(PackageCase):
    """Stand-ins that are no library of this version."""

    def stand_in(self, version: int, without: str = "") -> str:
        demand("gcc")
        names = [name for name in (*CALLS, "dukpt_wipe_host_stack")
                 if name not in ("dukpt_version", without)]
        code = f"unsigned dukpt_version(void) {{ return {version}; }}\n"
        code += "".join(f"unsigned {name}(void) {{ return 1; }}\n" for name in names)
        source, made = self.home / "stand_in.c", self.home / "stand_in.so"
        source.write_text(code)
        subprocess.run(["gcc", "-shared", "-fPIC", "-o", made, source], check=True)
        return str(made)

    def test_another_version(self) -> None:
        """Another major or minor version is refused, before a call is missed."""
        for version, text in ((0x000200, "0.2.0"), (0x010100, "1.1.0"), (0x000001, "0.0.1"),
                              (0x010000, "1.0.0")):
            for without in ("", "dukpt_wrap"):
                made = self.stand_in(version, without)
                self.assert_refused(
                    rf"dukpt is {VERSION}, and its library {made} is {re.escape(text)}: install "
                    r"both of one major and minor version", **{VARIABLE: made})

    def test_another_patch(self) -> None:
        """It works together with the package."""
        for version, text in ((0x000100, "0.1.0"), (0x000101, "0.1.1"), (0x0001FF, "0.1.255")):
            made = self.stand_in(version)
            done = self.run_python(PACKAGE, "import dukpt; print(dukpt.version())",
                                   **{VARIABLE: made})
            self.assertEqual((done.stdout, done.stderr), (f"{text}\n", ""))

    def test_a_call_that_is_missing(self) -> None:
        made = self.stand_in(0x000100, "dukpt_wrap")
        self.assert_refused(rf"{made} has no dukpt_wrap", **{VARIABLE: made})

    def test_no_library(self) -> None:
        text = self.home / "text.so"
        text.write_text("no library")
        self.assert_refused(rf"{SHARED} cannot be loaded", **{VARIABLE: str(text)})


class TestOptimized(PackageCase):
    def test_without_docstrings(self) -> None:
        """Under -OO a fault still has its name and its number."""
        code = ("import dukpt\ntry: dukpt.registers_number(b'')\n"
                "except dukpt.DukptError as why: print(why)")
        done = self.run_python(PACKAGE, code, "-OO", **{VARIABLE: str(self.library)})
        self.assertEqual((done.stdout, done.stderr), ("NotAnImage (5)\n", ""))
