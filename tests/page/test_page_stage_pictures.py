"""The page's stage as a picture: how frames arrive, who is at rest, and the picture as a file."""
from __future__ import annotations

import re
import xml.etree.ElementTree as ElementTree

from ..support.page.browser import page_address
from ..support.page.page_stage_case import LOAD, PAY, StageCase
from ..support.page.stage_pictures import EXAMPLES, PICTURES, pictures, saved

SVG = "{http://www.w3.org/2000/svg}"
# What a picture that stands alone does not have: a variable of the page, an address.
OUTSIDE = re.compile(r"var\(|url\(|@import|href=|https?://(?!www\.w3\.org/2000/svg)")


class TestFrames(StageCase):
    """How frames arrive: late, again, not at all."""

    def test_ways(self) -> None:
        self.put(f"{LOAD}\n{PAY}\nup 1\n")
        seen = self.seen()
        self.assertIn("under way", seen["texts"])
        self.assertEqual((seen["arrows"], seen["crosses"], seen["here"]), (3, 0, 1))
        self.put(f"{LOAD}\n{PAY}\nup 1\nup 1\ndown 2 t1\ndown 1 t1\n")
        seen = self.seen()
        self.assertEqual((seen["arrows"], seen["again"], seen["crosses"], seen["here"]), (7, 1, 0, 0))
        for words in ("request 1", "request 1 again", "answer 2", "answer 1, late"):
            self.assertIn(words, seen["texts"])
        self.put(f"{LOAD}\n{PAY}\nup 1\n# answer 1 is lost\n")
        seen = self.seen()
        self.assertIn("lost", seen["texts"])
        self.assertEqual((seen["crosses"], seen["here"]), (1, 0))

    def test_rest(self) -> None:
        """Where the totals differ, it says who is not at rest and why."""
        self.put(f"{LOAD}\n{PAY}\nup 1\nreverse t1\nup 2\ndown 2 t1\n", over_journal=True)
        for count, is_rest, words in (
                (1, "true", "At rest"), (2, "false", "The host keeps nothing of it. To settle it: deliver its "
                 "request, and then the reply, or reverse it."),
                (3, "false", "The host approved it; the answer is under way. To settle it: deliver its reply, "
                 "or reverse it."),
                (4, "false", "t1 does not wait for that answer any more. To settle it: deliver its reversal, "
                 "and then the answer."),
                (5, "false", "The host undid it; the answer is under way. To settle it: deliver the answer to "
                 "its reversal."),
                (6, "true", "At rest")):
            self.move(count)
            rest = self.seen()["rest"]
            self.assertEqual((rest[0], words in rest[1]), (is_rest, True), f"{count}: {rest[1]}")
        self.move(3)
        self.assertIn("Paid at the terminals: 0. Paid at the host: 500.", self.seen()["rest"][1])


class TestSaved(StageCase):
    def test_file(self) -> None:
        """What is saved is an SVG that stands alone, has the same texts, and is of the light scheme."""
        self.browser.prefer(prefers_color_scheme="dark")
        for name in EXAMPLES:
            self.open()
            self.show("stage")
            kind, text = saved(self.browser, name)
            self.assertEqual(kind, "image/svg+xml")
            root = ElementTree.fromstring(text)
            self.assertEqual(root.tag, f"{SVG}svg")
            self.assertEqual([it.text or "" for it in root.iter(f"{SVG}text")], self.seen()["texts"])
            self.assertTrue(root.find(f"{SVG}title").text and root.find(f"{SVG}desc").text)
            self.assertEqual(OUTSIDE.findall(text), [])
            self.check_alone(text)

    def test_documents(self) -> None:
        """Those of docs/pictures are what the page draws: `tools/pictures` makes them, and the others there."""
        for name, text in pictures(self.browser, self.path).items():
            self.assertEqual((PICTURES / name).read_text(encoding="utf-8"), text, name)

    def check_alone(self, text: str) -> None:
        """Opened by itself it has its colours and its size."""
        file = self.folder() / "stage.svg"
        file.write_text(text, encoding="utf-8")
        self.browser.open(page_address(file))
        fills = self.browser.run(
            "return ['.sheet', '.name', '.flight.request'].map((it) => {"
            " const style = getComputedStyle(document.querySelector(it));"
            " return it === '.flight.request' ? style.stroke : style.fill; });")
        self.assertEqual(fills, ["rgb(255, 255, 255)", "rgb(27, 31, 36)", "rgb(11, 92, 173)"])
