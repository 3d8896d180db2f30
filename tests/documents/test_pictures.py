"""The pictures of texts in docs/pictures: they are what tools/pictures draws, show what they are drawn of, and
look right in a browser. `test_page_stage_pictures` has those of the page's stage."""
from __future__ import annotations

import re
import shutil
import subprocess
import sys
import xml.etree.ElementTree as ElementTree

from ..support.case import Case
from ..support.documents.drawn_pictures import DRAWN, SVG, closed, looks, texts_of, uses_of
from ..support.page.page_case import shared_browser
from ..support.page.stage_pictures import EXAMPLES, PICTURES
from ..support.program import ROOT, SECONDS

TOOL, PARTS, FOLDER = "tools/pictures", "tools/pictures_of", "docs/pictures"
LIST, DOCUMENT, MEASURED = "crates.txt", "docs/ARCHITECTURE.md", "docs/latency.tsv"
# A picture that a document shows: what it says in words, and its file.
SHOWN = re.compile(r"!\[([^\[\]]*)\]\((?:docs/)?pictures/(\w+\.svg)\)")
# What a file that stands alone does not have: an address.
OUTSIDE = re.compile(r"url\(|@import|href=|https?://(?!www\.w3\.org/2000/svg)")


class Pictures(Case):
    """The tool, in a copy of what it reads."""

    def setUp(self) -> None:
        super().setUp()
        self.copy = self.folder()
        for name in (PARTS, FOLDER):
            shutil.copytree(ROOT / name, self.copy / name, ignore=shutil.ignore_patterns("__pycache__"))
        for name in (TOOL, LIST, DOCUMENT, MEASURED):
            shutil.copy2(ROOT / name, self.copy / name)

    def run_tool(self, *words: str) -> tuple[int, list[str]]:
        done = subprocess.run([sys.executable, str(self.copy / TOOL), "--without-browser", *words],
                              capture_output=True, text=True, timeout=SECONDS, check=False)
        return done.returncode, (done.stdout + done.stderr).splitlines()

    def plant(self, name: str, old: str, new: str) -> None:
        path = self.copy / name
        text = path.read_text(encoding="utf-8")
        self.assertIn(old, text, name)
        path.write_text(text.replace(old, new, 1), encoding="utf-8")


class TestMade(Pictures):
    def test_files(self) -> None:
        """All files of the folder are made, and these as they stand."""
        found = sorted(it.name for it in PICTURES.iterdir())
        self.assertEqual(found, sorted([*DRAWN, *(f"{it.replace('-', '_')}.svg" for it in EXAMPLES)]))
        self.assertEqual(self.run_tool("--check"), (0, []))
        self.assertEqual(self.run_tool(), (0, [f"{self.copy / FOLDER}: {len(DRAWN)} pictures"]))
        for name in DRAWN:
            self.assertEqual((self.copy / FOLDER / name).read_bytes(), (PICTURES / name).read_bytes())

    def test_by_hand(self) -> None:
        """A byte that is another is told, also at the end, and so is a file that is gone."""
        for name in DRAWN:
            path = self.copy / FOLDER / name
            before = path.read_bytes()
            at = self.chance.randrange(len(before))
            for after in (before[:at] + bytes([before[at] ^ 1]) + before[at + 1 :],
                          self.chance.choice((before[:-1], before + b"\n")), None):
                path.unlink() if after is None else path.write_bytes(after)
                self.assertEqual(self.run_tool("--check"),
                                 (1, [f"tools/pictures: {name} is not what tools/pictures makes"]))
            path.write_bytes(before)
        self.assertEqual(self.run_tool("--check"), (0, []))

    def test_crates(self) -> None:
        """Crates and uses that the picture has not, or the document, are told."""
        stale = "architecture.svg is not what tools/pictures makes"
        planted = (
            (LIST, "duk_des:\n", "duk_des:\nduk_more: duk_des\n",
             f"{DOCUMENT} does not say in its table what duk_more is"),
            (LIST, "duk_lanes: duk_des duk_tdes\n", "",
             f"{DOCUMENT} has duk_lanes in its table, which {LIST} has not"),
            (LIST, "duk_pin:\n", "duk_pin: duk_des\n", stale),
            (LIST, "duk_des:\n", "duk_des: duk_tdes\n",
             f"{LIST}: duk_des uses duk_tdes, which does not stand before it"),
            (LIST, "# The ends:", "# Other ends:", stale),
            (LIST, "duk_pin:\n", "duk_pin\n", f"{LIST}: duk_pin is no line of a further crate"),
            (DOCUMENT, "| `duk_tree` |", "| `duk_trees` |",
             f"{DOCUMENT} does not say in its table what duk_tree is"),
            (DOCUMENT, "| `duk_pin` | ", "| `duk_pin` | all ", stale),
            (DOCUMENT, "| `duk_pin` | ", f"| `duk_pin` | {'x' * 60}", f"{'x' * 60}PINs, is wider than"),
            (DOCUMENT, "| crate | what", "| crates | what", f"{DOCUMENT} has no table of crates"),
        )
        for name, old, new, told in planted:
            before = (self.copy / name).read_bytes()
            self.plant(name, old, new)
            status, lines = self.run_tool("--check")
            self.assertEqual((status, len(lines)), (1, 1), lines)
            self.assertTrue(lines[0].startswith(f"tools/pictures: {told}"), lines)
            (self.copy / name).write_bytes(before)
        self.tells(f"{len(planted)} found")


class TestShown(Pictures):
    def test_crates(self) -> None:
        """Each crate has a box, and stands on what crates.txt says, directly or through another."""
        uses, svg = uses_of((ROOT / LIST).read_text()), (PICTURES / "architecture.svg").read_text()
        texts = texts_of(svg)
        self.assertEqual([it for it in uses if texts.count(it) != 1], [])
        desc = ElementTree.fromstring(svg).findtext(f"{SVG}desc") or ""
        told = {name: on.split(", ") if on else []
                for name, on in re.findall(r"^(duk\w+): [^.]*\.(?: On (.*)\.)?$", desc, re.M)}
        self.assertEqual(list(told), list(uses))
        self.assertEqual(closed(told), closed(uses))
        # The same by the boxes: a line leads to a crate, or its name stands there.
        named = re.findall(r"[\w]+", " ".join(self.behind_on(svg)))
        lines = svg.count('class="way thin"')
        self.assertEqual(len(named) + lines, sum(len(it) for it in told.values()))
        self.tells(f"{len(uses)} crates, {lines} lines, {len(named)} names")

    def behind_on(self, svg: str) -> list[str]:
        """The lines of the boxes behind the word `on`."""
        found = []
        for box in ElementTree.fromstring(svg).iter(f"{SVG}g"):
            texts = [it.text or "" for it in box.iter(f"{SVG}text") if it.get("class") == "soft"]
            found += [" ".join(texts).removeprefix("on ")] if texts else []
        return found

    def test_words(self) -> None:
        """Whoever does not see a picture reads what it says: in its file, and where it is shown."""
        for name in DRAWN:
            root = ElementTree.fromstring((PICTURES / name).read_text())
            self.assertEqual((root.tag, root.get("role")), (f"{SVG}svg", "img"))
            self.assertGreater(len(root.findtext(f"{SVG}title") or ""), 20, name)
            self.assertGreater(len(root.findtext(f"{SVG}desc") or ""), 500, name)
            self.assertEqual(OUTSIDE.findall((PICTURES / name).read_text()), [], name)
        shown: dict[str, list[str]] = {}
        for path in (ROOT / "README.md", *sorted((ROOT / "docs").glob("*.md"))):
            for words, name in SHOWN.findall(path.read_text()):
                shown.setdefault(name, []).append(words)
        self.assertLessEqual({*DRAWN}, {*shown})
        self.assertEqual([name for name, words in shown.items() if min(map(len, words)) < 60], [])

    def test_looks(self) -> None:
        """No text leaves its box or the sheet, and none lies on another one; one that does is found."""
        browser, count = shared_browser(), 0
        for name in DRAWN:
            texts, found = looks(browser, PICTURES / name)
            self.assertEqual(found, [], name)
            count += texts
        self.assertGreater(count, 200)
        planted = (("architecture.svg", ">PINs, PANs and PIN blocks<", f">{'PINs ' * 12}<", "leaves its place"),
                   ("hosts.svg", ">answers<", f">{'answers ' * 8}<", "lies on the box of"),
                   ("journal.svg", ">copy-journal<", f">{'copy-journal ' * 3}<", "lies on"),
                   ("keys.svg", ">enciphers<", f">{'enciphers ' * 30}<", "leaves its place"))
        for name, old, new, told in planted:
            self.plant(f"{FOLDER}/{name}", old, new)
            self.assertIn(told, " ".join(looks(browser, self.copy / FOLDER / name)[1]))
        self.tells(f"{count} texts")
