"""The pictures of docs/pictures: the worked examples of the page's stage, as it saves them."""
from __future__ import annotations

from pathlib import Path

from ..program import ROOT
from .browser import Browser, page_address

PAGE = ROOT / "page" / "dukpt.html"
PICTURES = ROOT / "docs" / "pictures"
# The examples, by what their buttons' names end with.
EXAMPLES = ("payment", "lost-reply", "power-failure", "second-life", "reversal")
OPENED = """
const work = document.getElementById("stage-work");
return document.documentElement.dataset.state === "ready" && !work.hidden;"""
# Chooses an example, goes to its end, and takes what a save gives to the browser as a file.
SAVED = """
const [name] = arguments;
const caught = [];
const made = URL.createObjectURL;
URL.createObjectURL = (blob) => { caught.push(blob); return made.call(URL, blob); };
try {
  for (const it of [`stage-example-${name}`, "stage-last", "stage-save"]) {
    document.getElementById(it).click();
  }
} finally {
  URL.createObjectURL = made;
}
return [caught[0].type, await caught[0].text()];"""


def saved(browser: Browser, name: str) -> tuple[str, str]:
    """The type and the text of the picture of an example, of a page whose stage is shown."""
    kind, text = browser.run_async(SAVED, name)
    return kind, text


def pictures(browser: Browser, page: Path) -> dict[str, str]:
    """The pictures of all examples, by the names of their files."""
    browser.open(page_address(page, "panel=stage"))
    browser.wait_until(OPENED, seconds=30)
    return {f"{name.replace('-', '_')}.svg": saved(browser, name)[1] for name in EXAMPLES}
