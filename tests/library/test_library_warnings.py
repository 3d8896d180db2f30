"""What compilers say of wrong programs over the header of C, call by call, and the texts of statuses."""
from __future__ import annotations

import os
import re
import shutil
import subprocess
from typing import Iterator, Sequence
from unittest.mock import patch

from ..support.case import Case
from ..support.library.library import (
    PACKAGES, STRICT, LibraryMissing, built_library, compiler, demand, ran)
from ..support.library.library_calls import CALLS, FAULTS
from ..support.program import ROOT

HEADER = ROOT / "library" / "c" / "dukpt.h"
NEEDED = ROOT / "tests" / "needed.txt"
# The compilers, each with the options of its language, and whether it sees overlaps.
COMPILERS = (
    ("gcc", ("-x", "c", "-std=c99"), True), ("g++", ("-x", "c++", "-std=c++17"), True),
    ("clang", ("-x", "c", "-std=c99"), False), ("clang++", ("-x", "c++", "-std=c++17"), False))
DROPPED, NULL, OVERLAP = "unused-result", "nonnull", "restrict"
WARNING = re.compile(r"\[-W(?:error=)?([\w-]+)")
SLICES, POINTERS = ("bytes", "buffer"), ("bytes", "buffer", "count")
STATUS = re.compile(r"^    DUKPT_(?:FAULT_)?(\w+) = (\d+),?\s*/\*(.*?)\*/", re.MULTILINE | re.DOTALL)
PROGRAM = """#include <dukpt.h>
static uint8_t in[512], out[8][512];
static uint32_t counts[8];
{functions}
int main(void)
{{
    (void)in, (void)out, (void)counts;
    return 0;
}}
"""


def arguments(kinds: Sequence[str]) -> list[str]:
    """The arguments of a right call: what is written stands apart."""
    words = {"bytes": "in, sizeof in", "buffer": "out[{0}], sizeof out[{0}]", "count": "&counts[{0}]",
             "number": "0"}
    return [words[kind].format(at) for at, kind in enumerate(kinds)]


def with_null(kinds: Sequence[str]) -> Iterator[list[str]]:
    """For each pointer the arguments with null in its place; a slice has the length 0 then."""
    for at, kind in enumerate(kinds):
        if kind in POINTERS:
            given = arguments(kinds)
            given[at] = "NULL, 0" if kind in SLICES else "NULL"
            yield given


def with_overlap(kinds: Sequence[str]) -> Iterator[list[str]]:
    """For each slice that is written the arguments with another slice in the same place."""
    for at, kind in enumerate(kinds):
        others = [it for it, other in enumerate(kinds) if it != at and other in SLICES]
        if kind == "buffer" and others:
            given = arguments(kinds)
            given[others[0]] = given[at]
            yield given


class Warnings(Case):
    """A program has one wrong call in each function, and as many warnings as it has functions."""

    def count(self, command: str, words: Sequence[str], calls: Sequence[str]) -> list[str]:
        """The kinds of the warnings of a program with these calls, the whole text of each."""
        source = self.folder() / "wrong.c"
        functions = "\n".join(f"uint32_t call{at}(void);\nuint32_t call{at}(void) {{ {it}; return 0; }}"
                              for at, it in enumerate(calls))
        source.write_text(PROGRAM.format(functions=functions))
        done = subprocess.run(
            [command, *words, "-O1", "-Wall", "-Wextra", f"-I{HEADER.parent}", "-c", str(source),
             "-o", "/dev/null"], capture_output=True, text=True, check=False)
        self.assertEqual(done.returncode, 0, done.stderr)
        return WARNING.findall(done.stderr)

    def compilers(self) -> Iterator[tuple[str, Sequence[str], bool]]:
        for command, words, sees_overlaps in COMPILERS:
            demand(command)
            yield command, words, sees_overlaps

    def test_a_compiler_that_is_missing(self) -> None:
        """Each of the four is needed: where one is missing its package is named, and that is a failure."""
        self.assertEqual({PACKAGES[it] for it, _, _ in COMPILERS} - {*NEEDED.read_text().split()}, set())
        for missing, _, _ in COMPILERS:
            there, others = self.folder(), [it for it, _, _ in COMPILERS if it != missing]
            for command in others:
                (there / command).symlink_to(str(shutil.which(command)))
            fault = f"{missing} is not installed: apt-get install {PACKAGES[missing]}"
            with patch.dict(os.environ, PATH=str(there)), self.assertRaises(LibraryMissing) as found:
                [*self.compilers()]
            self.assertEqual(str(found.exception), fault)

    def test_right(self) -> None:
        calls = [f"return {name}({', '.join(arguments(it.kinds))})" for name, it in CALLS.items()]
        for command, words, _ in self.compilers():
            self.assertEqual(self.count(command, words, calls), [], command)

    def test_dropped_status(self) -> None:
        calls = [f"{name}({', '.join(arguments(it.kinds))})" for name, it in CALLS.items()]
        for command, words, _ in self.compilers():
            self.assertEqual(self.count(command, words, calls), [DROPPED] * len(calls), command)

    def test_null(self) -> None:
        calls = [f"return {name}({', '.join(given)})"
                 for name, it in CALLS.items() for given in with_null(it.kinds)]
        for command, words, _ in self.compilers():
            self.assertEqual(self.count(command, words, calls), [NULL] * len(calls), command)
        self.tells(f"{len(calls)} null pointers")

    def test_overlap(self) -> None:
        calls = [f"return {name}({', '.join(given)})"
                 for name, it in CALLS.items() for given in with_overlap(it.kinds)]
        for command, words, sees_overlaps in self.compilers():
            wanted = [OVERLAP] * len(calls) if sees_overlaps else []
            self.assertEqual(self.count(command, words, calls), wanted, command)
        self.tells(f"{len(calls)} overlaps")


class StatusTexts(Case):
    """`dukpt_status_text`, by the comments of the header."""

    def test_texts(self) -> None:
        found = STATUS.findall(HEADER.read_text())
        wanted = [" ".join(text.split()) for _, _, text in found]
        self.assertEqual([int(number) for _, number, _ in found], [*range(len(FAULTS))])
        self.assertEqual(len(set(wanted)), len(FAULTS))
        self.assertEqual(self.said([*range(len(FAULTS))]), wanted)
        self.assertEqual(self.said([len(FAULTS), 255, 256, 1 << 31, (1 << 32) - 1]),
                         ["unknown status"] * 5)

    def said(self, numbers: Sequence[int]) -> list[str]:
        folder, library = self.folder(), built_library()
        (folder / "texts.c").write_text(
            '#include <dukpt.h>\n#include <stdio.h>\nint main(void)\n{\n'
            + "".join(f"    puts(dukpt_status_text({it}u));\n" for it in numbers)
            + "    return 0;\n}\n")
        compiler("-std=c99", *STRICT, f"-I{library}", folder / "texts.c", "-o", folder / "texts",
                 library / "libdukpt.a")
        return ran(folder / "texts").splitlines()
