"""The circuits of the selection functions: what is made of their list is as tools/circuits makes it.

A change that is planted in a made file, or in the list, is told by tools/circuits --check.
"""
from __future__ import annotations

import ast
import re
import shutil
import subprocess
import sys
from typing import Sequence

from ..support.case import Case
from ..support.program import ROOT, SECONDS

TOOL, PARTS = "tools/circuits", "tools/circuits_of"
LIST, TABLES = "tools/circuits.txt", "crates/duk_des/specs/Tables.antt"
CRATE = "crates/duk_lanes"
MADE = [name for number in range(1, 9) for name in (
    f"{CRATE}/src/boxes/s{number}.rt", f"{CRATE}/proofs/CircuitOf{number}.antt",
    f"{CRATE}/proofs/boxes/s{number}/select{number}/Answers.antt")]
FUNCTION, LEMMA, ANSWER = MADE[3:6]
WRONG = [f"{CRATE}/wrong-bodies/boxes/s{number}.edits" for number in (1, 4, 6)]


class Circuits(Case):
    """The tool, in a copy of what it reads."""

    def setUp(self) -> None:
        super().setUp()
        self.copy = self.folder()
        shutil.copytree(ROOT / PARTS, self.copy / PARTS,
                        ignore=shutil.ignore_patterns("__pycache__"))
        for name in (TOOL, LIST, TABLES, *MADE, *WRONG):
            (self.copy / name).parent.mkdir(parents=True, exist_ok=True)
            shutil.copy2(ROOT / name, self.copy / name)

    def run_tool(self, *words: str) -> tuple[int, list[str]]:
        done = subprocess.run([sys.executable, str(self.copy / TOOL), *words], capture_output=True,
                              text=True, timeout=SECONDS, check=False)
        return done.returncode, (done.stdout + done.stderr).splitlines()

    def read(self, name: str) -> str:
        return (self.copy / name).read_text(encoding="utf-8")

    def write(self, name: str, text: str) -> None:
        (self.copy / name).write_text(text, encoding="utf-8")

    def plant(self, name: str, pattern: str, new: str) -> tuple[str, int]:
        """Changes the first place in a file that matches; gives what the file had, and the line
        that is another."""
        before = self.read(name)
        found = re.search(pattern, before)
        assert found is not None, (name, pattern)
        after = before[: found.start()] + found.expand(new) + before[found.end() :]
        self.assertNotEqual(after, before)
        self.write(name, after)
        pairs = enumerate(zip(before.splitlines(), after.splitlines()), 1)
        return before, next((at for at, (one, other) in pairs if one != other), 0)


class TestMade(Circuits):
    def test_nothing_planted(self) -> None:
        self.assertEqual(self.run_tool("--check"), (0, ["no differences"]))
        self.assertEqual(self.run_tool("--make"), (0, ["no changes"]))

    def test_by_hand(self) -> None:
        """A change of a made file is told with its line, and --make takes it back."""
        planted = (
            (FUNCTION, r"\.xor\(", ".or("), (FUNCTION, r"box2", "box3"),
            (FUNCTION, r"\[(x\d+), (x\d+)", r"[\2, \1"), (LEMMA, r"Xor (\d+) (\d+)", r"Or \1 \2"),
            (LEMMA, r"= refl", "= ?"), (ANSWER, r"is_box2 \(lane", "is_box3 (lane"),
            (WRONG[0], r"new: .*", "new: []"),
        )
        for name, pattern, new in planted:
            before, line = self.plant(name, pattern, new)
            said = f"{name} is not what tools/circuits makes: line {line}"
            self.assertEqual(self.run_tool("--check"), (1, [said]))
            self.assertEqual(self.run_tool("--make"), (0, [name]))
            self.assertEqual(self.read(name), before)
        self.tells(f"{len(planted)} found")

    def test_gone(self) -> None:
        (self.copy / LEMMA).unlink()
        self.assertEqual(self.run_tool("--check"),
                         (1, [f"{LEMMA} is not what tools/circuits makes: line 1"]))
        self.assertEqual(self.run_tool("--make"), (0, [LEMMA]))


class TestList(Circuits):
    def test_other_circuit(self) -> None:
        """A list whose circuits are not the boxes, and one that is no list of circuits."""
        planted: Sequence[tuple[str, str, str]] = (
            (r"= (\w+) xor ", r"= \1 or ", f"{LIST}: the circuit of box 1 is not S1"),
            (r"outputs (x\d+) (x\d+)", r"outputs \2 \1", f"{LIST}: the circuit of box 1 is not S1"),
            (r"box 8", "box 9", f"{LIST} has no box 8"),
            (r"x2 = .*", "x2 = a nor b", "x2 = a nor b is no gate x2"),
            (r"x2 = .*", "x2 = a and x2", "x2 is no input, and no gate before it"),
            (r"x2 = .*", "x3 = a and b", "x3 = a and b is no gate x2"),
            (r"box 1\n", "", "x1 = {} stands in no circuit"),
            (r"(?s)outputs [^\n]*\n$", "", "the circuit of box 8 has no outputs"),
        )
        first = re.search(r"x1 = (.*)", self.read(LIST))
        assert first is not None
        for pattern, new, why in planted:
            before, _ = self.plant(LIST, pattern, new)
            said = [f"circuits: {why.format(first[1])}"]
            self.assertEqual(self.run_tool("--check"), (1, said))
            self.assertEqual(self.run_tool("--make"), (1, said))
            self.write(LIST, before)
        self.tells(f"{len(planted)} found")

    def test_same_circuit(self) -> None:
        """A circuit of the same box with its gates written another way: all made of it is stale."""
        self.plant(LIST, r"= (\w+) xor (\w+)", r"= \2 xor \1")
        status, said = self.run_tool("--check")
        self.assertEqual((status, [it.split()[0] for it in said]), (1, MADE[:2]))

    def test_other_box(self) -> None:
        """A definition of S1 with two entries exchanged."""
        self.plant(TABLES, r"14 ∷ 4 ∷", "4 ∷ 14 ∷")
        self.assertEqual(self.run_tool("--check"),
                         (1, [f"circuits: {LIST}: the circuit of box 1 is not S1"]))

    def test_search(self) -> None:
        """The search ends with circuits that are no larger, and that are the boxes."""
        listed = re.split(r"(?m)^box ", self.read(LIST))
        sizes = [len(re.findall(r"(?m)^x\d+ = ", it)) for it in listed[1:]]
        status, said = self.run_tool("--search", "--seconds", "0.2", "--seed",
                                     str(self.chance.randrange(1 << 32)))
        self.assertEqual((status, len(said)), (0, 9))
        for size, line in zip(sizes, said):
            self.assertLessEqual(int(line.split()[1]), size)
        self.assertEqual(self.run_tool("--make")[0], 0)

    def test_python_3_9(self) -> None:
        for file in (ROOT / PARTS).glob("*.py"):
            ast.parse(file.read_text("utf-8"), str(file), feature_version=(3, 9))
