"""The page in use: by the keyboard alone, with labels, readable in both schemes and on narrow
screens."""
from __future__ import annotations

import os
from pathlib import Path

from ..support.formats.images import image_of
from ..support.formats.journal_records import BY_HAND
from ..support.formats.log_file import log_image
from ..support.page.browser import END, HOME, LEFT, RIGHT, TAB, page_address
from ..support.page.page_case import PANELS, READY, PageCase
from ..support.page.page_values import IKSN, INITIAL, upper
from ..support.standards.dukpt import registers_at, serial_text

# Where screenshots go; without it none is made.
SHOTS = "DUKPT_PAGE_SHOTS"
WIDTHS = (320, 360, 1280)
LEAST_CONTRAST = 4.5
LEAST_TARGET = 24
# The width of a sheet (A4) between its margins, in CSS pixels.
PAPER = 718
SCHEMES = ("light", "dark")

# What of a panel can take the focus: of radio buttons of one name the chosen one does.
FOCUSED = """
const shown = (it) => it.checkVisibility({ visibilityProperty: true }) && !it.disabled
  && !(it.type === "radio" && !it.checked);
return [...document.querySelectorAll(
  `#panel-${arguments[0]} :is(input, select, textarea, button), #panel-${arguments[0]} summary`)]
  .filter(shown).map((it) => it.id || it.dataset.copies || it.textContent);"""
# Fields and buttons without a name that a screen reader says.
NAMELESS = """
const text = (it) => it.textContent.trim();
const named = (it) => it.getAttribute("aria-label") || (it.tagName === "BUTTON" ? text(it)
  : it.querySelector("title") || [...(it.labels || [])].some((label) => text(label)));
return [...document.querySelectorAll("input, select, textarea, button:not(:disabled), svg, [role=button]")]
  .filter((it) => !named(it)).map((it) => it.id || it.outerHTML);"""
# Tables without a name.
UNNAMED_TABLES = """
return [...document.querySelectorAll("table")].filter(
  (it) => !(it.getAttribute("aria-label") || it.caption?.textContent || "").trim()).map(
  (it) => it.textContent.slice(0, 60));"""
# What is pressed, where it is smaller than so many CSS pixels in either direction.
SMALL = """
return [...document.querySelectorAll("button, summary, select, [role=button], [type=radio]")]
  .filter((it) => it.checkVisibility({ visibilityProperty: true }))
  .map((it) => (it.type === "radio" ? it.labels[0] : it))
  .map((it) => [it.id || it.className.baseVal || it.textContent, it.getBoundingClientRect()])
  .filter(([, { width, height }]) => Math.min(width, height) < arguments[0])
  .map(([name, { width, height }]) => [name, width, height]);"""
# On paper: the buttons that are seen, whether colours stay, what is behind the text, and how wide it is.
PRINTED = """
const style = getComputedStyle(document.body);
return [[...document.querySelectorAll("button")].filter((it) => it.checkVisibility()).map(
  (it) => it.textContent), style.printColorAdjust, style.backgroundColor,
  document.scrollingElement.scrollWidth];"""
# Puts a wrong value into each field of a panel.
SPOIL = """
for (const it of document.querySelectorAll(`#panel-${arguments[0]} :is(
    input:not([type=radio], [type=range], [type=file]), textarea)`)) {
  it.value = "wrong";
  it.dispatchEvent(new Event("input", { bubbles: true }));
}"""
# Each text that is seen, with its contrast to what is behind it, where that is too small.
FAINT = """
const parse = (text) => {
  const found = text.match(/^rgba?\\(([\\d.]+), ([\\d.]+), ([\\d.]+)(?:, ([\\d.]+))?\\)$/);
  if (!found) throw new Error("this colour is not understood: " + text);
  return [Number(found[1]), Number(found[2]), Number(found[3]), Number(found[4] ?? 1)];
};
const over = (top, below) => {
  const part = top[3];
  return [0, 1, 2].map((at) => top[at] * part + below[at] * (1 - part)).concat(1);
};
const light = (color) => {
  const [red, green, blue] = color.map((it) => {
    const part = it / 255;
    return part <= 0.04045 ? part / 12.92 : ((part + 0.055) / 1.055) ** 2.4;
  });
  return 0.2126 * red + 0.7152 * green + 0.0722 * blue;
};
const contrast = (one, other) => {
  const [low, high] = [light(one), light(other)].sort((a, b) => a - b);
  return (high + 0.05) / (low + 0.05);
};
const isDark = matchMedia("(prefers-color-scheme: dark)").matches;
const canvas = isDark ? [18, 18, 18, 1] : [255, 255, 255, 1];
const ground = (element) => {
  const layers = [];
  for (let it = element; it; it = it.parentElement) {
    layers.push(parse(getComputedStyle(it).backgroundColor));
  }
  return layers.reverse().reduce((below, top) => over(top, below), canvas);
};
const opacity = (element) => {
  let whole = 1;
  for (let it = element; it; it = it.parentElement) whole *= Number(getComputedStyle(it).opacity);
  return whole;
};
const found = [];
let count = 0;
const look = (element, text) => {
  if (!element.checkVisibility({ visibilityProperty: true })) return;
  if (element.disabled || !text.trim()) return;
  if (element.closest("script, style, title, noscript, option")) return;
  const style = getComputedStyle(element);
  const behind = ground(element);
  const ink = parse(element.ownerSVGElement ? style.fill : style.color);
  ink[3] *= opacity(element);
  const has = contrast(over(ink, behind), behind);
  count += 1;
  if (has < arguments[0]) found.push([element.id || element.className.baseVal || element.className
    || element.tagName, text.trim().slice(0, 40), Math.round(has * 100) / 100]);
};
const walker = document.createTreeWalker(document.body, NodeFilter.SHOW_TEXT);
while (walker.nextNode()) look(walker.currentNode.parentElement, walker.currentNode.data);
for (const field of document.querySelectorAll("input, textarea, select")) look(field, field.value);
return [count, found];"""


class TestKeyboard(PageCase):
    def focused(self) -> str:
        return self.browser.run(
            "const it = document.activeElement; return it.id || it.dataset.copies"
            " || (it.matches('td button') ? it.textContent : it.tagName);")

    def test_tabs(self) -> None:
        """Arrows, Home and End move among the tabs, and show their panels."""
        self.browser.element("#tab-derive").click()
        for keys, panel in (((RIGHT,), "tree"), ((RIGHT, RIGHT), "block"), ((LEFT,), "pin"),
                            ((END,), PANELS[-1]), ((RIGHT,), "derive"), ((LEFT,), PANELS[-1]),
                            ((HOME,), "derive")):
            self.browser.press(*keys)
            self.assertEqual(self.focused(), f"tab-{panel}")
            self.assertEqual(self.browser.run(
                "return [...document.querySelectorAll('[role=tabpanel]')].filter("
                "(it) => it.checkVisibility()).map((it) => it.id);"), [f"panel-{panel}"])
            self.assertEqual(self.browser.run(
                "return [...document.querySelectorAll('[role=tab]')].filter((it) =>"
                " it.tabIndex === 0 && it.getAttribute('aria-selected') === 'true').map("
                "(it) => it.id);"), [f"tab-{panel}"])

    def test_fields(self) -> None:
        """The Tab key reaches each field and button of each panel, in their order on the page."""
        for at, panel in enumerate(PANELS):
            self.browser.run("document.getElementById(arguments[0]).focus();", f"tab-{PANELS[0]}")
            self.browser.press(HOME, *[RIGHT] * at)
            wanted = self.browser.run(FOCUSED, panel)
            reached: list[str] = []
            while len(reached) < 4 * len(wanted) + 20:
                self.browser.press(TAB)
                name = self.focused()
                if name == "BODY" or name in reached:
                    break
                reached.append(name)
            self.assertEqual([it for it in reached if it in wanted], wanted, panel)

    def test_seen_focus(self) -> None:
        """What has the focus by the keyboard is marked by an outline."""
        self.browser.element("#tab-derive").click()
        for _ in range(5):
            self.browser.press(TAB)
            width = self.browser.run(
                "return parseFloat(getComputedStyle(document.activeElement).outlineWidth);")
            self.assertGreaterEqual(width, 2, self.focused())


class TestLooks(PageCase):
    def test_labels(self) -> None:
        self.assertEqual(self.browser.run(NAMELESS), [])
        self.assertEqual(self.browser.run(
            "return [document.documentElement.lang, document.title !== '', "
            "document.querySelectorAll('h1').length];"), ["en", True, 1])

    def test_tables(self) -> None:
        """Each table has a name, those that the page makes of frames and files too."""
        self.show("frame")
        log = log_image([(IKSN + 1).to_bytes(10, "big")], 2)
        image = image_of(registers_at(bytes.fromhex(INITIAL), IKSN, 8))
        for kind, data in (("log", log), ("image", image), ("journal", bytes.fromhex(BY_HAND))):
            self.set(frame_file_kind=kind)
            self.set(file_text=upper(data))
            self.assertEqual(self.text("file-text-fault"), "")
            self.assertNotEqual(self.browser.run(
                "return document.querySelectorAll('#file-found table').length;"), 0)
            self.assertEqual(self.browser.run(UNNAMED_TABLES), [])

    def test_contrast(self) -> None:
        """In both schemes, of each panel, with and without faults."""
        for scheme in SCHEMES:
            self.browser.prefer(prefers_color_scheme=scheme)
            self.open()
            for is_faulty in (False, True):
                for panel in PANELS:
                    self.show(panel)
                    if is_faulty:
                        self.browser.run(SPOIL, panel)
                    count, faint = self.browser.run(FAINT, LEAST_CONTRAST)
                    self.assertEqual(faint, [], f"{scheme} {panel}")
                    self.assertGreater(count, 15)

    def test_widths(self) -> None:
        """No panel is wider than a narrow screen, and nothing to press is too small; a picture of
        each, where they are asked for."""
        for width in WIDTHS:
            self.browser.resize(width, 800)
            self.open()
            for panel in PANELS:
                self.show(panel)
                wide = self.browser.run("return document.scrollingElement.scrollWidth;")
                self.assertLessEqual(wide, width, panel)
                self.assertEqual(self.browser.run(SMALL, LEAST_TARGET), [], f"{width} {panel}")
                self.picture(panel, width)
                self.browser.run(SPOIL, panel)
                wide = self.browser.run("return document.scrollingElement.scrollWidth;")
                self.assertLessEqual(wide, width, f"{panel} with faults")
                self.open()

    def test_print(self) -> None:
        """On paper a dark scheme is light, colours stay, and what is pressed is left out, but for
        the numbers of registers."""
        self.browser.resize(PAPER, 1000)
        self.open()
        self.show("tree")
        self.browser.command("Emulation.setEmulatedMedia", media="print",
                             features=[{"name": "prefers-color-scheme", "value": "dark"}])
        try:
            seen, adjust, ground, wide = self.browser.run(PRINTED)
            count, faint = self.browser.run(FAINT, LEAST_CONTRAST)
        finally:
            self.browser.command("Emulation.setEmulatedMedia", media="", features=[])
        self.assertEqual(seen, [serial_text(IKSN + (1 << place)) for place in reversed(range(21))])
        self.assertEqual((adjust, ground), ("exact", "rgb(255, 255, 255)"))
        self.assertLessEqual(wide, PAPER)
        self.assertEqual(faint, [])
        self.assertGreater(count, 15)

    def picture(self, panel: str, width: int) -> None:
        folder = os.environ.get(SHOTS)
        if not folder:
            return
        Path(folder).mkdir(parents=True, exist_ok=True)
        for scheme in SCHEMES:
            self.browser.prefer(prefers_color_scheme=scheme)
            self.browser.screenshot(Path(folder) / f"{panel}-{width}-{scheme}.png")
        self.browser.prefer()


class TestOldBrowser(PageCase):
    """Where a browser has no 64-bit memory, a sentence stands in the place of the panels."""

    def test_without_module(self) -> None:
        for script in ("delete window.WebAssembly;", "WebAssembly.validate = () => false;"):
            name = self.browser.command(
                "Page.addScriptToEvaluateOnNewDocument", source=script)["identifier"]
            try:
                self.check_sentence()
            finally:
                self.browser.command("Page.removeScriptToEvaluateOnNewDocument", identifier=name)

    def test_without_scripts(self) -> None:
        """Where no script runs, which may be too new for a browser, the sentence comes too."""
        copy = self.folder() / "dukpt.html"
        text = self.path.read_text(encoding="utf-8")
        copy.write_text(text.replace('<script type="module">', '<script type="none">'),
                        encoding="utf-8")
        self.browser.open(page_address(copy))
        self.assertEqual(self.browser.element("#unsupported").text, "")
        self.browser.wait_until("return document.getElementById('unsupported').checkVisibility("
                                "{ visibilityProperty: true });", seconds=20)
        self.assert_sentence()

    def test_ready(self) -> None:
        """Where the page runs, the sentence is not shown."""
        self.assertFalse(self.browser.run(
            "return document.getElementById('unsupported').checkVisibility();"))

    def check_sentence(self) -> None:
        self.browser.open("about:blank")
        self.browser.open(page_address(self.path))
        self.browser.wait_until("return document.documentElement.dataset.state !== 'loading';")
        self.assert_sentence()

    def assert_sentence(self) -> None:
        self.assertFalse(self.browser.run(READY))
        said = self.browser.element("#unsupported")
        for words in ("JavaScript", "64-bit memory", "Chrome and Edge have it from version 133 on",
                      "Firefox from 134 on"):
            self.assertIn(words, said.text)
        self.assertEqual(said.attribute("role"), "alert")
        self.assertFalse(self.browser.run(
            "return document.getElementById('work').checkVisibility();"))
        self.assert_quiet()
