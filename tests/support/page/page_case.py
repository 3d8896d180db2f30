"""The base of each test of the page: a browser that shows it, and hands and eyes on it."""
from __future__ import annotations

from multiprocessing.util import Finalize
from pathlib import Path
from typing import Any, ClassVar, Sequence

from ..case import Case
from ..program import ROOT
from .browser import Browser, BrowserFault, page_address

PAGE = ROOT / "page" / "dukpt.html"
# The panels, by what their tabs' names end with.
PANELS = ("derive", "tree", "pin", "block", "mac", "cipher", "find", "frame", "stage")
READY = "return document.documentElement.dataset.state === 'ready';"

# Sets fields to values, with the event that the browser sends as somebody types.
SET = """
for (const [name, value] of Object.entries(arguments[0])) {
  const field = document.getElementById(name);
  if (field.type === "radio") { if (value) field.click(); continue; }
  field.value = value;
  field.dispatchEvent(new Event("input", { bubbles: true }));
}"""

# Gives each field that follows the working set a value of its own.
UNHOOK = """
for (const it of document.querySelectorAll(".hook[aria-pressed=true]")) it.click();"""

# What results and faults have, behind each case of values of fields.
TRY = """
const [fields, cases, results] = arguments;
const text = (name) => document.getElementById(name).textContent;
return cases.map((values) => {
  fields.forEach((name, at) => {
    const field = document.getElementById(name);
    if (field.value === values[at]) return;
    field.value = values[at];
    field.dispatchEvent(new Event("input", { bubbles: true }));
  });
  return [results.map(text), fields.map((name) => text(name + "-fault"))];
});"""

# The texts of cells of the rows that a selector finds, with attributes of the rows.
ROWS = """
const [selector, attributes, cells] = arguments;
return [...document.querySelectorAll(selector)].map((row) => [
  ...attributes.map((name) => row.getAttribute(name)),
  ...cells.map((name) => row.querySelector("." + name).textContent)]);"""


# The browser of this process, which its tests use one after the other.
shared: list[Browser] = []


def shared_browser() -> Browser:
    """A browser with an empty page, as a new one has. It ends with the process."""
    for browser in shared:
        try:
            browser.renew()
            return browser
        except BrowserFault:
            browser.end()
    browser = Browser()
    # The processes of the runner's pool leave out what `atexit` has.
    Finalize(browser, browser.end, exitpriority=10)
    shared[:] = [browser]
    return browser


class PageCase(Case):
    """A test of the page in a browser, begun with the page as it is opened."""

    weight = 3
    # Which file is opened, and which panel is shown then.
    path: Path = PAGE
    panel: ClassVar[str] = "derive"
    # Whether it has a browser of its own, which notes each request.
    notes_requests: ClassVar[bool] = False

    def setUp(self) -> None:
        super().setUp()
        self.assertTrue(self.path.exists(), f"{self.path} is missing: tools/page makes it")
        if self.notes_requests:
            self.browser = Browser(notes_requests=True)
            self.addCleanup(self.browser.end)
        else:
            self.browser = shared_browser()
        self.open()
        self.show(self.panel)

    def open(self, fragment: str = "") -> None:
        """Opens the page anew, and waits until it is ready."""
        self.browser.open("about:blank")
        self.browser.open(page_address(self.path, fragment))
        self.browser.wait_until(READY, seconds=30)

    # Hands

    def show(self, panel: str) -> None:
        """Shows a panel, by a click at its tab."""
        self.browser.element(f"#tab-{panel}").click()

    def type(self, field: str, text: str) -> None:
        """Types a text in the place of what a field has, key by key."""
        element = self.browser.element(f"#{field}")
        element.clear()
        element.type(text)

    def set(self, **values: str) -> None:
        """Sets fields, one after the other; an underscore of a name stands for its hyphen."""
        self.browser.run(SET, {name.replace("_", "-"): it for name, it in values.items()})

    def unhook(self) -> None:
        """Presses the button of each field that follows the working set: it keeps its value."""
        self.browser.run(UNHOOK)

    def click(self, name: str) -> None:
        self.browser.element(f"#{name}").click()

    # Eyes

    def text(self, name: str) -> str:
        return self.texts(name)[0]

    def texts(self, *names: str) -> list[str]:
        """The texts of elements by their names."""
        return self.browser.run(
            "return arguments[0].map((it) => document.getElementById(it).textContent);", names)

    def value(self, name: str) -> str:
        return self.browser.run("return document.getElementById(arguments[0]).value;", name)

    def rows(self, selector: str, attributes: Sequence[str], cells: Sequence[str]
             ) -> list[list[Any]]:
        """Attributes and cells of each row."""
        return self.browser.run(ROWS, selector, attributes, cells)

    def tried(self, fields: Sequence[str], cases: Sequence[Sequence[str]], results: Sequence[str]
              ) -> list[tuple[list[str], list[str]]]:
        """The results of each case of values, and the faults of the fields."""
        return [tuple(it) for it in self.browser.run(TRY, fields, cases, results)]

    # Judgement

    def assert_shown(self, wanted: dict[str, str], what: object = "") -> None:
        """That elements have these texts."""
        found = dict(zip(wanted, self.texts(*wanted)))
        self.assertEqual(found, wanted, what)

    def assert_tried(self, fields: Sequence[str], cases: Sequence[Sequence[str]],
                     results: Sequence[str], wanted: Sequence[Sequence[str]]) -> None:
        """That cases of right values have these results, and no faults."""
        for values, found, should in zip(cases, self.tried(fields, cases, results), wanted):
            given = dict(zip(fields, values))
            self.assertEqual(found, (list(should), [""] * len(fields)), f"{given} at {results}")

    def assert_quiet(self) -> None:
        """That nothing stands on the console but what tests wrote there."""
        self.assertEqual(self.browser.log(), [])
