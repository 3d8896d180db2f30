"""The base of the tests of files on the page: dropping files, and what is shown of each."""
from __future__ import annotations

import base64
from dataclasses import dataclass
from typing import Any, Optional

from ..formats.journal_records import Journals, Place
from .page_case import PageCase

# How many rows and how many sums are shown.
MOST_ROWS = 1000
# What the page shows of the file.
LOOK = """
const text = (id) => document.getElementById(id).textContent;
const rows = (name) => [...document.querySelectorAll(`#file-found tr[${name}]`)].map(
  (row) => [...row.cells].map((it) => it.textContent));
const look = () => {
  const fault = document.getElementById("frame-file-fault");
  const found = document.getElementById("file-found");
  return { kind: found.dataset.kind ?? "", fault: fault.textContent,
    from: fault.dataset.from, to: fault.dataset.to, taken: text("file-taken"),
    words: [...found.querySelectorAll("p")].map((it) => it.textContent).join(" "),
    title: found.querySelector("h4")?.textContent,
    rows: rows("data-record"), sums: rows("data-iksn") };
};
const turn = () => new Promise((done) => {
  const channel = new MessageChannel();
  channel.port1.onmessage = done;
  channel.port2.postMessage(0);
});
const drop = (file) => {
  const dataTransfer = new DataTransfer();
  dataTransfer.items.add(file);
  document.dispatchEvent(new DragEvent("drop", { dataTransfer, cancelable: true }));
};
const fileOf = (name, data) =>
  new File([Uint8Array.from(atob(data), (it) => it.charCodeAt(0))], name);
const isShown = () => text("file-found") !== "" || text("frame-file-fault") !== "";
"""
# Drops files, one after the other, and looks at each.
DROP = LOOK + """
const seen = [];
for (const [name, data] of arguments[0]) {
  drop(fileOf(name, data));
  while (!isShown()) await turn();
  seen.push(look());
}
return seen;"""


@dataclass(frozen=True)
class Seen:
    """What is shown of a file."""

    kind: str
    fault: str
    place: Optional[Place]
    taken: str
    words: str
    title: Optional[str]
    rows: list[list[str]]
    sums: list[list[str]]


def seen(it: dict[str, Any]) -> Seen:
    place = Place(int(it["from"]), int(it["to"])) if it.get("from") is not None else None
    return Seen(it["kind"], it["fault"], place, it["taken"], it["words"], it["title"], it["rows"],
                it["sums"])


class FileCase(PageCase):
    panel = "frame"

    def setUp(self) -> None:
        super().setUp()
        self.journals = Journals(self.chance)

    def drop(self, *files: bytes, kind: str = "guess") -> list[Seen]:
        """What is shown of each of the files, which are dropped one after the other."""
        self.set(frame_file_kind=kind)
        named = [(f"{at}.bin", base64.b64encode(it).decode()) for at, it in enumerate(files)]
        return [seen(it) for it in self.browser.run_async(DROP, named)]

    def look(self) -> Seen:
        """What is shown of the file that was given last."""
        return seen(self.browser.run(LOOK + "return look();"))

    def assert_damaged(self, found: Seen, place: Place, what: str = "") -> None:
        """That a file is refused at this place, and nothing of it or of another is shown."""
        self.assertEqual(found.place, place, f"{what}: {found.fault}")
        at = (f"Byte {place.first}:" if place.first == place.last
              else f"Bytes {place.first} to {place.last}:")
        self.assertIn(at, found.fault, what)
        self.assertEqual((found.kind, found.words, found.rows, found.sums), ("", "", [], []), what)
