"""The reports of vectors/dukpt_check: as text, as JUnit's XML, as an HTML page; and its wheel."""
from __future__ import annotations

import ast
import os
import re
import shutil
import subprocess
import sys
from html.parser import HTMLParser
from typing import Any, Optional
from xml.etree import ElementTree

from ..support.library.library import LibraryMissing
from ..support.program import Word
from ..support.vectors.vectors_check import VECTORS, CheckCase

# Texts that a report must not take for its own.
COMMENT = "a <b>bold</b> & \"quoted\" ]]> comment"
ERROR = "<script>alert(1)</script> &amp; \x00\x1b[31m\ud800 ]]>"
ADAPTER = f"""
import json, sys
for line in sys.stdin:
    case = json.loads(line)
    if case["tcId"] == 4:
        print(json.dumps({{"tcId": 4, "unsupported": True}}), flush=True)
    elif case["tcId"] == 5:
        print({ERROR[:-6]!r}.encode("utf-8", "replace").decode(), flush=True)
    elif case["tcId"] == 6:
        print(json.dumps({{"tcId": 6, "mac": "00"}}), flush=True)
    else:
        print(json.dumps({{"tcId": case["tcId"], "error": {ERROR!r}}}), flush=True)
"""
VOID = {"meta", "br"}
# Elements that the next one of their kind, or the end of their parent, ends.
OPEN_ENDED = {"td", "th", "dt", "dd"}


class Page(HTMLParser):
    """A page that is read: its elements, their attributes, and its text."""

    def __init__(self, text: str) -> None:
        super().__init__()
        self.open: list[str] = []
        self.elements: list[str] = []
        self.attributes: list[tuple[str, Optional[str]]] = []
        self.text = ""
        self.feed(text)
        self.close()

    def handle_starttag(self, tag: str, attributes: list[tuple[str, Optional[str]]]) -> None:
        self.elements.append(tag)
        self.attributes += attributes
        if tag not in VOID | OPEN_ENDED:
            self.open.append(tag)

    def handle_endtag(self, tag: str) -> None:
        if not self.open or self.open.pop() != tag:
            raise AssertionError(f"</{tag}> ends another element")

    def handle_data(self, data: str) -> None:
        self.text += data


class ReportCase(CheckCase):
    def setUp(self) -> None:
        super().setUp()
        valid = {"flags": ["TenOneBits"], "result": "valid", "outputs": {"mac": "AB" * 8}}
        valid["comment"] = COMMENT
        tests = [{"tcId": number, "inputs": {"message": f"{number:02}"}, **valid}
                 for number in range(1, 7)]
        tests.append({**tests[0], "tcId": 7, "result": "invalid", "fault": "Length"})
        self.vectors = self.small_vectors(*tests, operation="retail_mac", section="X9.19 <5> & 6",
                                          comment=COMMENT)
        self.adapter = self.script(ADAPTER)

    def written(self, *kinds: str, words: tuple[Word, ...] = ()) -> list[str]:
        """The reports of these kinds of one run, each from a file of its own."""
        folder = self.folder()
        for kind in kinds:
            words += ("--report", kind, "--out", folder / kind)
        ended = self.check("--vectors", self.vectors, *words, *self.adapter)
        self.assertEqual((ended.status, ended.output), (1, b""), ended)
        self.assertEqual(ended.faults,
                         b"dukpt-check: 5 deviations in 6 cases; 1 unsupported\n")
        return [(folder / kind).read_text("utf-8") for kind in kinds]


class TestReports(ReportCase):
    def test_junit(self) -> None:
        [text] = self.written("junit")
        root = ElementTree.fromstring(text)
        suites = root.findall("testsuite")
        self.assertEqual([it.get("name") for it in suites], ["MACs"])
        for it in (root, suites[0]):
            counts = [it.get(name) for name in ("tests", "failures", "errors", "skipped")]
            self.assertEqual(counts, ["7", "4", "1", "1"])
        tests = suites[0].findall("testcase")
        self.assertEqual([it.get("name") for it in tests],
                         [f"{number} {COMMENT}" for number in range(1, 8)])
        kinds = [it[0].tag if len(it) else "" for it in tests]
        self.assertEqual(kinds, ["failure"] * 3 + ["skipped", "error", "failure", ""])
        self.assertEqual(tests[0][0].get("type"), "a valid case is refused")
        told = tests[0][0].text or ""
        for part in ("section: X9.19 <5> & 6", "flag TenOneBits: The counter has ten one bits.",
                     "inputs: message 01", f"expected: mac {'AB' * 8}",
                     "found: a refusal: <script>alert(1)</script> &amp; \\x00\\x1B[31m"):
            self.assertIn(part, told)
        properties = {it.get("name"): it.get("value") for it in root.iter("property")}
        self.assertEqual(properties["grade"], "D")

    def test_html(self) -> None:
        [text] = self.written("html")
        page = Page(text)
        self.assertEqual(page.open, [])
        self.assertEqual(set(page.elements) & {"script", "b", "link", "img", "iframe", "object"},
                         set())
        names = {name for name, _ in page.attributes}
        self.assertLessEqual(names, {"lang", "charset", "name", "content", "class"})
        self.assertNotRegex(text, r"url\(|@import|https?:")
        for part in ("prefers-color-scheme: dark", "@media print"):
            self.assertIn(part, text)
        plain = " ".join(page.text.split())
        for part in (COMMENT, "X9.19 <5> & 6", "<script>alert(1)</script> &amp;",
                     "5 deviations in 6 cases; 1 unsupported", "retail_mac (1)",
                     "The counter has ten one bits."):
            self.assertIn(part, plain)

    def test_text(self) -> None:
        [text] = self.written("text")
        self.assertNotRegex(text, r"[\x00-\x09\x0b-\x1f\x7f]")
        self.assertLessEqual(max(map(len, text.splitlines())), 140)
        self.assertIn("all 5 valid cases", text)
        self.assertIn(COMMENT.split(" ]]>")[0], " ".join(text.split()))

    def test_together(self) -> None:
        """Several reports of one run tell of the same cases; --examples says how many in full."""
        for count, shown in ((1, 1), (0, 5), (99, 5)):
            text, page, junit = self.written(
                "text", "html", "junit", words=("--examples", str(count)))
            self.assertEqual(len(re.findall(r"^   case \d", text, re.MULTILINE)), shown)
            self.assertEqual(page.count("<article>"), shown)
            self.assertEqual(junit.count("<testcase "), 7)
            self.assertEqual("and 4 more: cases 2, 3, 5, 6" in text, count == 1)

    def test_standard_output(self) -> None:
        """A report without a file goes there."""
        ended = self.check("--vectors", self.vectors, "--report", "junit", *self.adapter)
        self.assertEqual(ElementTree.fromstring(ended.output).tag, "testsuites")

    def test_no_room(self) -> None:
        ended = self.check("--vectors", self.vectors, "--report", "html", "--out",
                           self.folder() / "missing" / "file", *self.adapter)
        self.assertEqual((ended.status, ended.output), (2, b""))
        self.assertIn(b"No such file", ended.faults)


# A right value and a wrong one, and what is said of it: nothing where the last is empty.
HINTS = (
    ("0123456789ABCDEF", "89ABCDEF01234567", "the two halves are exchanged"),
    ("0123456789ABCDEF", "EFCDAB8967452301", "the order of the bytes is reversed"),
    ("0022446688AACCEE", "0123456789ABCDEF", "the parity bits are adjusted"),
    ("0123456789ABCDEF", "01234567", "the end is missing"),
    ("0123456789ABCDEF", "CDEF", "the beginning is missing"),
    ("0123456789ABCDEF", "0123456789ABCDEF00", "more follows what is right"),
    # Of one value nothing is said that it may have by accident.
    ("0123456789ABCDEF", "0123456700000000", ""),
    ("0123456789ABCDEF", "0000000089ABCDEF", ""),
    ("0123456789ABCDEF", "0123456789ABCDEE", ""),
    ("0123456789ABCDEF", "FEDCBA9876543211", ""),
    (["AA", None], [None, "aa"], "the order of the list is reversed"),
    (["AA", None], ["AA", "BB"], ""),
    ("AA", True, ""),
)


class TestHints(CheckCase):
    """What the report says that wrong values have in common."""

    def hint(self, *pairs: tuple[Any, Any]) -> str:
        """What the text says of a case with these outputs, each with what an adapter gives."""
        outputs = {f"mac{place}": right for place, (right, _) in enumerate(pairs)}
        found = {f"mac{place}": wrong for place, (_, wrong) in enumerate(pairs)}
        test = {"tcId": 1, "inputs": {}, "result": "valid", "outputs": outputs}
        words = self.script(f"input()\nprint(__import__('json').dumps({{'tcId': 1, **{found}}}))\n")
        report = self.report("--vectors", self.small_vectors(test), *words)
        lines = [line for line in report.text.splitlines() if "each wrong value" in line]
        self.assertLessEqual(len(lines), 1)
        return "".join(lines).strip()

    def test_hints(self) -> None:
        for right, wrong, told in HINTS:
            said = self.hint((right, wrong))
            self.assertEqual(said.split(", and")[0], told and f"in each wrong value {told}", wrong)

    def test_all_wrong_values(self) -> None:
        """Nothing is said that does not hold of all; a mask, or a half that is right, is said where
        three different values show it."""
        swapped = "0123456789ABCDEF", "89ABCDEF01234567"
        self.assertEqual(self.hint(swapped, ("AABB", "AABC")), "")
        masked = ("0123456789ABCDEF", "0123456789ABCD10"), ("00000000000000FF", "0" * 16)
        self.assertEqual(self.hint(*masked), "")
        self.assertEqual(self.hint(*masked, masked[0]), "")
        self.assertEqual(self.hint(*masked, ("F" * 16, "F" * 14 + "00")),
                         "each wrong value is the right one xored with 00000000000000FF")
        self.assertEqual(self.hint(*masked, ("00", "01")), "")
        half = [(right, right[:8] + wrong) for right, wrong in (
            ("0123456789ABCDEF", "00000000"), ("F" * 16, "12345678"), ("0" * 16, "11111111"))]
        self.assertEqual(self.hint(*half[:2]), "")
        self.assertEqual(self.hint(*half),
                         "in each wrong value the first half is right, and the second one is not")


class TestPackage(CheckCase):
    """The folder stands alone."""

    def test_old_python(self) -> None:
        """The modules are read by Python 3.9, and import nothing but the standard library."""
        known = {*sys.stdlib_module_names, "dukpt"}
        for path in [*(VECTORS / "dukpt_check").glob("*.py"), *(VECTORS / "adapters").glob("*.py"),
                     *(VECTORS / "backend").glob("*.py")]:
            read = ast.parse(path.read_text(), feature_version=(3, 9))
            for it in ast.walk(read):
                names = [it.module] if isinstance(it, ast.ImportFrom) and not it.level else []
                names += [name.name for name in it.names] if isinstance(it, ast.Import) else []
                for name in names:
                    self.assertIn(name.split(".")[0], known, path)

    def test_wheel(self) -> None:
        """pip installs the folder without a network, with the vectors in it."""
        pip = [sys.executable, "-m", "pip"]
        if subprocess.run([*pip, "--version"], capture_output=True, check=False).returncode:
            raise LibraryMissing("pip is not installed: apt-get install python3-pip")
        home = self.folder()
        shutil.copytree(VECTORS, home / "vectors", ignore=shutil.ignore_patterns("__pycache__"))
        done = subprocess.run(
            [*pip, "install", "--quiet", "--no-index", "--target", home / "installed",
             home / "vectors"], cwd=home, capture_output=True, text=True, timeout=300, check=False)
        self.assertEqual(done.returncode, 0, done.stderr)
        shutil.rmtree(home / "vectors")
        listed = subprocess.run(
            [home / "installed" / "bin" / "dukpt-check", "--list"], cwd=home, capture_output=True,
            env={**os.environ, "PYTHONPATH": str(home / "installed")}, check=False)
        self.assertEqual((listed.returncode, listed.stderr), (0, b""))
        self.assertEqual(listed.stdout, self.check("--list").output)
        self.assertRegex(listed.stdout, rb"(?m)^key blocks +unwrap ")
        inside = home / "installed" / "dukpt_check" / "vectors"
        self.assertEqual({it.name for it in inside.iterdir()},
                         {it.name for it in VECTORS.glob("*.json")})
