"""Running vectors/dukpt_check as a command, over the vectors or a few cases; its adapters."""
from __future__ import annotations

import json
import os
import re
import subprocess
import sys
from dataclasses import dataclass
from pathlib import Path
from typing import Any, Sequence

from ..case import Case
from ..library.library import LibraryMissing, built_library, compiler, demand
from ..library.python_library import PACKAGE, SHARED, VARIABLE
from ..library.rust_library import BUILT, cargo
from ..program import ROOT, Ended, Word

VECTORS = ROOT / "vectors"
ADAPTERS = VECTORS / "adapters"
SECONDS = 300
# The row of an area in the text, and the first line of a cause with the lines that belong to it.
ROW = re.compile(r"^(\S.*?) +([ABCD-]) +([\d,]+) +([\d,]+) +([\d,]+)  \S", re.MULTILINE)
CAUSE = re.compile(r"^\d+\. (.*?): (\w+), (.*(?:\n   .*)*)", re.MULTILINE)

Edit = tuple[str, str]


@dataclass(frozen=True)
class Grade:
    """A row of the report's table."""

    letter: str
    right: int
    deviations: int
    unsupported: int


@dataclass(frozen=True)
class Cause:
    """What the report tells of deviations together: area, operation, and the text behind these, in
    one line."""

    area: str
    operation: str
    text: str


@dataclass(frozen=True)
class Report:
    """The report as text, and how the command ended."""

    ended: Ended
    text: str

    @property
    def grades(self) -> dict[str, Grade]:
        """The grade of each area."""
        return {row[0]: Grade(row[1], *(int(it.replace(",", "")) for it in row[2:]))
                for row in ROW.findall(self.text)}

    @property
    def causes(self) -> list[Cause]:
        """The deviations, summed up."""
        return [Cause(area, operation, " ".join(text.split()))
                for area, operation, text in CAUSE.findall(self.text)]


class CheckCase(Case):
    """A test of the check."""

    def check(self, *words: Word, **variables: str) -> Ended:
        """Runs the command in the folder of the vectors."""
        done = subprocess.run(
            [sys.executable, "-m", "dukpt_check", *map(os.fspath, words)], cwd=VECTORS,
            capture_output=True, stdin=subprocess.DEVNULL, timeout=SECONDS, check=False,
            env={**os.environ, **variables})
        return Ended(done.returncode, done.stdout, done.stderr)

    def report(self, *words: Word, **variables: str) -> Report:
        """The report of a run that could run."""
        ended = self.check(*words, **variables)
        self.assertIn(ended.status, (0, 1), ended)
        self.assertEqual(ended.faults, b"")
        report = Report(ended, ended.output.decode())
        deviations = sum(it.deviations for it in report.grades.values())
        self.assertEqual(ended.status, 1 if deviations else 0, report.text)
        return report

    def small_vectors(self, *tests: dict[str, Any], **group: Any) -> Path:
        """A folder with a file of a few cases."""
        folder = self.folder()
        whole = {"operation": "usable", "comment": "counters",
                 "section": "ANSI X9.24-1:2009 annex A", "inputs": {}, **group,
                 "tests": list(tests)}
        file = {"algorithm": "TDES-DUKPT", "schema": "vectors.schema.json",
                "generatorVersion": "0.1.0", "numberOfTests": len(tests), "header": [],
                "notes": {"TenOneBits": {"description": "The counter has ten one bits.",
                                         "section": "ANSI X9.24-1:2009 annex A.2"}},
                "testGroups": [whole]}
        (folder / "small.json").write_text(json.dumps(file))
        return folder

    def script(self, text: str, name: str = "adapter.py") -> list[Word]:
        """The command of an adapter in Python with this text."""
        path = self.folder() / name
        path.write_text(text)
        return [sys.executable, path]


# Adapters


def source_of(name: str, edits: Sequence[Edit]) -> str:
    """The source of an adapter in which these texts become others. Each stands there once."""
    text = (ADAPTERS / name).read_text()
    for old, new in edits:
        if text.count(old) != 1:
            raise AssertionError(f"{name} has {text.count(old)} times {old!r}")
        text = text.replace(old, new)
    return text


def adapter(name: str, folder: Path, edits: Sequence[Edit] = ()) -> list[Word]:
    """Builds an adapter in a folder, perhaps with a mistake, and gives its command."""
    copied = folder / name
    copied.write_text(source_of(name, edits))
    if name.endswith(".py"):
        return [sys.executable, copied]
    program = copied.with_suffix("")
    if name.endswith(".c"):
        library = built_library()
        compiler("-std=c11", "-Wall", "-Wextra", "-Wpedantic", "-Werror", "-O1", "-I", library,
                 "-o", program, copied, library / "libdukpt.a")
    else:
        build_rust(copied, program)
    return [program]


def build_rust(source: Path, program: Path) -> None:
    """Compiles a program over the crate of library/rust."""
    demand("rustc")
    done = cargo("build", "--quiet", "--lib")
    if done.returncode != 0:
        raise LibraryMissing(f"cargo builds no library:\n{done.stdout}{done.stderr}")
    crate = BUILT / "debug" / "libdukpt.rlib"
    compiler("--edition", "2021", "-C", "opt-level=1", "-D", "warnings", "--extern",
             f"dukpt={crate}", "-L", crate.parent / "deps", "-o", program, source, command="rustc")


def variables() -> dict[str, str]:
    """What the adapter over the Python package needs to find it, and its library."""
    return {VARIABLE: str(built_library() / SHARED), "PYTHONPATH": str(PACKAGE)}
