"""The pictures that tools/pictures draws of texts: what they show, and what looks wrong in a browser."""
from __future__ import annotations

import re
import xml.etree.ElementTree as ElementTree
from pathlib import Path
from typing import Mapping, Sequence

from ..page.browser import Browser, page_address

DRAWN = ("architecture.svg", "hosts.svg", "journal.svg", "keys.svg", "latency.svg")
SVG = "{http://www.w3.org/2000/svg}"
# What leaves its box or the sheet, or lies on another text. The place of a text has room above and below its
# letters, so that lines may share four pixels.
LOOKS = """
const within = (one, other) => one.left >= other.left && one.right <= other.right + 0.5
    && one.top >= other.top - 1 && one.bottom <= other.bottom + 0.5;
const meet = (one, other) => one.left < other.right - 1 && other.left < one.right - 1
    && one.top < other.bottom - 4 && other.top < one.bottom - 4;
const place = (it) => it.getBoundingClientRect();
const sheet = document.querySelector(".sheet"), boxes = [...document.querySelectorAll(".box")];
const texts = [...document.querySelectorAll("text")], found = [];
texts.forEach((it, at) => {
  const box = it.closest(".box");
  if (!within(place(it), place(box ? box.querySelector("rect") : sheet))) {
    found.push(`${it.textContent} leaves its place`);
  }
  for (const other of box ? [] : boxes) {
    if (meet(place(it), place(other))) found.push(`${it.textContent} lies on the box of ${other.textContent}`);
  }
  for (const other of texts.slice(at + 1)) {
    if (meet(place(it), place(other))) found.push(`${it.textContent} lies on ${other.textContent}`);
  }
});
return [texts.length, found];"""


def texts_of(svg: str) -> list[str]:
    return [it.text or "" for it in ElementTree.fromstring(svg).iter(f"{SVG}text")]


def looks(browser: Browser, path: Path) -> tuple[int, list[str]]:
    """How many texts a picture has, and what looks wrong."""
    browser.open(page_address(path))
    count, found = browser.run(LOOKS)
    return count, found


def uses_of(text: str) -> dict[str, list[str]]:
    """The crates of crates.txt, each with the crates among what it uses."""
    rows = re.findall(r"^(\w+)(?: staticlib)?:(.*)$", text, re.M)
    names = {name for name, _ in rows}
    return {name: [it for it in used.split() if it in names] for name, used in rows}


def closed(uses: Mapping[str, Sequence[str]]) -> dict[str, set[str]]:
    """All that each reaches. The list is in order: what is used stands before."""
    reached: dict[str, set[str]] = {}
    for name, used in uses.items():
        reached[name] = set(used).union(*(reached[it] for it in used))
    return reached
