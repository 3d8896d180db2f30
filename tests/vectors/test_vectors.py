"""The test vectors of vectors/: that they are as tools/vectors makes them, that this bench's own
ciphers and formats have the same answer to each, and what their document says of them."""
from __future__ import annotations

import contextlib
import io
import json
import re
import subprocess
import sys
from pathlib import Path
from typing import Any, Callable, Iterator, Sequence

import jsonschema

from vectors_of.flags import FLAGS
from vectors_of.main import compare, write

from ..support.case import Case, ProgramCase
from ..support.library.library import built_library
from ..support.program import ROOT
from ..support.vectors.vector_model import answer

FOLDER = ROOT / "vectors"
SCHEMA = "vectors.schema.json"
SECONDS = 1800
MOST_CASES, LEAST_CASES, MOST_BYTES = 10_000, 3_000, 4_000_000
# The flag of walks over many numbers. That over a whole life takes as long as all other cases.
LONG = "ManyNumbers"
LIFE = 1_048_575

Group = dict[str, Any]
Test = dict[str, Any]


def files() -> dict[str, dict[str, Any]]:
    """The files of vectors, by their names."""
    return {path.name: json.loads(path.read_text(encoding="ascii"))
            for path in sorted(FOLDER.glob("*.json")) if path.name != SCHEMA}


def tests_of(files_: dict[str, dict[str, Any]]) -> Iterator[tuple[Group, Test]]:
    """Each test of these files, with its group."""
    for file in files_.values():
        for group in file["testGroups"]:
            for test in group["tests"]:
                yield group, test


def wanted(test: Test) -> Any:
    """The outputs of a case, or its fault."""
    return test["outputs"] if test["result"] == "valid" else test["fault"]


def is_life(test: Test) -> bool:
    """Whether a case is that of all numbers of a terminal."""
    return bool(test["inputs"].get("count") == LIFE)


def differs(group: Group, test: Test) -> bool:
    """Whether the model has another answer than the file."""
    return answer(group["operation"], {**group["inputs"], **test["inputs"]}) != wanted(test)


def changed(value: Any) -> Any:
    """Another value than this one, as like it as may be."""
    if isinstance(value, bool) or value is None:
        return not value
    if isinstance(value, int):
        return value ^ 1
    if isinstance(value, list):
        return [changed(value[0]), *value[1:]]
    return value[:-1] + ("1" if value[-1:] != "1" else "2")


def quiet(function: Callable[..., int], *words: Any) -> int:
    """The status of a part of the tool, whose lines are not shown."""
    with contextlib.redirect_stdout(io.StringIO()):
        return function(*words)


class TestMade(ProgramCase):
    """The files are those that the proved program and library make."""

    weight = 4

    def test_bytes(self) -> None:
        """`tools/vectors --check` makes them anew, and compares every byte."""
        library = built_library() / "libdukpt.so.0"
        done = subprocess.run(
            [sys.executable, ROOT / "tools" / "vectors", "--check", "--library", library,
             "--program", self.program.path],
            capture_output=True, text=True, timeout=SECONDS, check=False)
        self.assertEqual((done.returncode, done.stderr), (0, ""), done.stdout)
        self.tells(done.stdout.strip())


class TestCheck(Case):
    """`tools/vectors --check` sees a file that is not as it is made."""

    def test_other_bytes(self) -> None:
        """With a stand-in for what is made: the bytes alone are compared."""
        folder, texts = self.folder(), {"one.json": "{}\n", "two.json": "[1]\n"}
        quiet(write, texts, folder)
        self.assertEqual(quiet(compare, texts, folder), 0)
        for name, text in (("one.json", "{}"), ("two.json", "[2]\n"), ("three.json", "{}\n")):
            kept = folder / name
            before = kept.read_bytes() if kept.exists() else None
            kept.write_text(text, encoding="ascii")
            self.assertEqual(quiet(compare, texts, folder), 1, name)
            kept.unlink() if before is None else kept.write_bytes(before)
        (folder / "one.json").unlink()
        self.assertEqual(quiet(compare, texts, folder), 1)


class TestAnswers(Case):
    """This bench's own ciphers and formats have the same answer to each case."""

    weight = 3

    def agree(self, *names: str) -> None:
        """That the model has the answer of each case of these files."""
        tried = 0
        for group, test in tests_of({name: files()[name] for name in names}):
            if not is_life(test):
                what = f"{group['operation']} {test['tcId']}: {test['comment']}"
                found = answer(group["operation"], {**group["inputs"], **test["inputs"]})
                self.assertEqual(found, wanted(test), what)
                tried += 1
        self.tells(f"{tried} cases")

    def test_keys(self) -> None:
        self.agree("initial_key.json", "derive.json", "next_number.json")

    def test_registers(self) -> None:
        self.agree("registers.json", "walk.json")

    def test_ciphers(self) -> None:
        self.agree("check_value.json", "tdes.json", "retail_mac.json", "cmac.json")

    def test_blocks(self) -> None:
        self.agree("pin_block.json", "key_block.json", "frames.json")

    def test_images(self) -> None:
        self.agree("images.json")

    def test_each_file_is_tried(self) -> None:
        """The tests above name all files."""
        text = Path(__file__).read_text(encoding="utf-8")
        tried = {name for call in re.findall(r"self\.agree\(([^)]*)\)", text)
                 for name in re.findall(r'"([a-z_]+\.json)"', call)}
        self.assertEqual(tried, set(files()))

    def test_planted(self) -> None:
        """Of each operation, results, faults and each output are changed: the model sees it."""
        planted = 0
        for group, test in self.one_of_each():
            if test["result"] == "invalid":
                self.assertTrue(differs(group, {**test, "result": "valid", "outputs": {}}), test)
                planted += 1
                continue
            self.assertTrue(differs(group, {**test, "result": "invalid", "fault": "Length"}), test)
            for name, value in test["outputs"].items():
                other = {**test["outputs"], name: changed(value)}
                self.assertTrue(differs(group, {**test, "outputs": other}), f"{name} of {test}")
                planted += 1
        self.assertGreater(planted, 80)
        self.tells(f"{planted} planted differences")

    def one_of_each(self) -> Iterator[tuple[Group, Test]]:
        """A case at random of each operation and result."""
        found: dict[tuple[str, str], list[tuple[Group, Test]]] = {}
        for group, test in tests_of(files()):
            if not is_life(test):
                found.setdefault((group["operation"], test["result"]), []).append((group, test))
        return (self.chance.choice(these) for these in found.values())


class TestLife(Case):
    """The keys of all numbers of a terminal."""

    weight = 4

    def test_whole(self) -> None:
        """The walk over all of them."""
        tried = 0
        for group, test in tests_of(files()):
            if is_life(test):
                self.assertFalse(differs(group, test), test)
                tried += test["inputs"]["count"]
        self.assertEqual(tried, LIFE)
        self.tells(f"{tried:,} keys")


class TestForm(Case):
    """The files have the form that the schema and the document say."""

    def test_schema(self) -> None:
        """The schema is one, and takes each file."""
        schema = json.loads((FOLDER / SCHEMA).read_text(encoding="ascii"))
        jsonschema.Draft202012Validator.check_schema(schema)
        validator = jsonschema.Draft202012Validator(schema)
        for name, file in files().items():
            faults = [f"{list(it.absolute_path)}: {it.message}"[:300]
                      for it in validator.iter_errors(file)]
            self.assertEqual(faults[:3], [], name)

    def test_schema_refuses(self) -> None:
        """It says something: each of these is refused."""
        schema = json.loads((FOLDER / SCHEMA).read_text(encoding="ascii"))
        validator = jsonschema.Draft202012Validator(schema)
        text = json.dumps(files()["registers.json"])
        for old, new in (('"operation": "registers"', '"operation": "register"'),
                         ('"initial_key":', '"bdk":'), ('"result": "valid"', '"result": "right"'),
                         ('"registers": [', '"registers": ["00", '),
                         ('"tcId": 4001', '"tcId": "x"'),
                         ('"fault":', '"why":'), ('"numberOfTests":', '"tests":'),
                         ('"section":', '"sections":')):
            other = json.loads(text.replace(old, new, 1))
            self.assertNotEqual(json.dumps(other), text, old)
            self.assertFalse(validator.is_valid(other), f"{new} is taken")

    def test_numbers(self) -> None:
        """Each case has a number of its own, and each file says how many it has."""
        numbers: list[int] = []
        for name, file in files().items():
            self.assertEqual(file["schema"], SCHEMA)
            own = [test["tcId"] for _, test in tests_of({name: file})]
            self.assertEqual(own, list(range(own[0], own[0] + file["numberOfTests"])), name)
            numbers += own
        self.assertEqual(len(set(numbers)), len(numbers))
        self.assertLessEqual(len(numbers), MOST_CASES)
        self.assertGreaterEqual(len(numbers), LEAST_CASES)
        size = sum(path.stat().st_size for path in FOLDER.glob("*.json"))
        self.assertLess(size, MOST_BYTES)
        self.tells(f"{len(numbers)} cases, {size:,} bytes")

    def test_inputs(self) -> None:
        """A case has with its group all inputs of its operation, and no other is the same."""
        known: dict[str, set[str]] = {}
        seen: dict[str, int] = {}
        for group, test in tests_of(files()):
            inputs = {**group["inputs"], **test["inputs"]}
            names = known.setdefault(group["operation"], set(inputs))
            self.assertEqual(set(inputs), names, test)
            text = json.dumps([group["operation"], inputs], sort_keys=True)
            self.assertNotIn(text, seen, f"{test['tcId']} is {seen.get(text)} again")
            seen[text] = test["tcId"]

    def test_flags(self) -> None:
        """Each flag of a case is explained in its file, and each that is explained is used."""
        used: set[str] = set()
        for name, file in files().items():
            own = {flag for _, test in tests_of({name: file}) for flag in test["flags"]}
            self.assertEqual(set(file["notes"]), own, name)
            for flag in own:
                self.assertEqual(file["notes"][flag], FLAGS[flag])
            used |= own
        self.assertEqual(used, set(FLAGS))

    def test_many_numbers(self) -> None:
        """Each walk over more than 50,000 numbers has the flag, and no other."""
        for group, test in tests_of(files()):
            inputs = {**group["inputs"], **test["inputs"]}
            is_long = group["operation"] == "walk" and inputs["skip"] + inputs["count"] > 50_000
            self.assertEqual(LONG in test["flags"], is_long, test)

    def test_no_transaction(self) -> None:
        """Each operation that takes the number of a transaction refuses others: zero, and eleven
        one bits or more of each count."""
        for operation in ("derive", "derive_from_initial", "registers"):
            counts = set()
            for group, test in tests_of(files()):
                if group["operation"] == operation and test.get("fault") == "NotUsable":
                    self.assertNotIn("OwnRule", test["flags"])
                    counts.add(bin(int(test["inputs"]["ksn"], 16) & 0x1FFFFF).count("1"))
            self.assertLessEqual({0, 11, 20, 21}, counts, operation)
            self.assertFalse(counts & set(range(1, 11)), operation)
            if operation != "registers":
                self.assertEqual(counts, {0, *range(11, 22)})

    def test_own_rules(self) -> None:
        """A group whose section is this project's alone has the flag, or is of its frames."""
        for group, test in tests_of(files()):
            if group["section"] == "this project's own":
                self.assertIn("OwnRule", test["flags"], test)


class TestDocument(Case):
    """What README.md says of the files."""

    def about_files(self) -> str:
        """What stands there before the part on the judge."""
        text, judging, _ = (FOLDER / "README.md").read_text(encoding="utf-8").partition(
            "\n## Judging an implementation\n")
        self.assertTrue(judging, "README.md has no part on judging an implementation")
        return text

    def test_files(self) -> None:
        """Its table has each file with its operations and its number of cases."""
        text = self.about_files()
        rows = [[cell.strip() for cell in line.strip("|").split("|")]
                for line in text.splitlines() if re.match(r"\| `[a-z_]+\.json` \|", line)]
        told = {row[0].strip("`"): (code_words(row[1]), int(row[2].replace(",", "")))
                for row in rows}
        there = {name: (sorted({group["operation"] for group in file["testGroups"]}),
                        file["numberOfTests"]) for name, file in files().items()}
        # Their operations have tables of their own.
        for name in ("frames.json", "images.json"):
            there[name] = [], there[name][1]
        self.assertEqual(told, there)
        total = sum(count for _, count in there.values())
        self.assertIn(f"{total:,} cases", text)

    def test_operations(self) -> None:
        """Its tables have the inputs and outputs of each operation."""
        text = self.about_files()
        told = {}
        for line in text.splitlines():
            cells = [cell.strip() for cell in line.strip("|").split("|")]
            if re.match(r"\| `[a-z_]+` \|", line) and len(cells) >= 3:
                told[cells[0].strip("`")] = code_words(cells[1]), code_words(cells[2])
        there: dict[str, tuple[list[str], list[str]]] = {}
        for group, test in tests_of(files()):
            if test["result"] == "valid":
                inputs = {**group["inputs"], **test["inputs"]}
                there[group["operation"]] = sorted(inputs), sorted(test["outputs"])
        self.assertEqual({name: told.get(name) for name in there}, there)

    def test_example(self) -> None:
        """Its case is one of the files, and its answer that case's."""
        text = self.about_files()
        asked, answered = [json.loads(found) for found in re.findall(
            r'^    (\{"tcId": \d+(?:[^{}]|\n)*\})$', text, re.M)]
        (group, test), = [it for it in tests_of(files()) if it[1]["tcId"] == asked["tcId"]]
        self.assertEqual(asked, {"tcId": test["tcId"], "operation": group["operation"],
                                 **group["inputs"], **test["inputs"]})
        self.assertEqual(answered, {"tcId": test["tcId"], **test["outputs"]})

    def test_flags(self) -> None:
        """It names the two flags with a meaning for whoever runs the cases."""
        text = self.about_files()
        for flag in ("OwnRule", LONG):
            self.assertIn(f"`{flag}`", text)


def code_words(cell: str) -> Sequence[str]:
    """The words of a cell that stand between backquotes."""
    return sorted(re.findall(r"`([^`]+)`", cell))
