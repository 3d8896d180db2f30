"""The base of each test of the page's stage: hands on it, and what is seen of a moment."""
from __future__ import annotations

from typing import Any, ClassVar

from .page_case import PageCase

# A terminal's first load, and a purchase with the card of the stage's configuration.
LOAD = "load t1 FFFF9876543210E00000"
PAY = "begin t1 4012345678909 1234 500"
# More than a script has: the slider goes to its end.
MOST_EVENTS = 1 << 20
OPENED = "return !document.getElementById('stage-work').hidden;"
# Puts a configuration and a script on the stage.
PUT = """
const [config, script, isJournal] = arguments;
const put = (id, value) => { document.getElementById(id).value = value; };
put("stage-config", config);
put("stage-script", script);
document.getElementById(isJournal ? "stage-journal" : "stage-log").checked = true;
document.getElementById("stage-script").dispatchEvent(new Event("input", { bubbles: true }));"""
MOVE = """
const slider = document.getElementById("stage-time");
slider.value = arguments[0];
slider.dispatchEvent(new Event("input", { bubbles: true }));"""
# What is seen of a moment.
SEEN = """
const all = (selector) => [...document.querySelectorAll(selector)];
const text = (it) => it.textContent;
const whole = (it) => Number(text(it).replaceAll(",", ""));
const rows = all("#stage-books [data-number]").map((it) => [
  it.querySelector(".number").title, [whole(it.querySelector(".amount")),
  it.querySelector(".till").dataset.is, it.querySelector(".host").dataset.is]]);
return {
  count: Number(document.getElementById("stage-time").value),
  till: whole(document.querySelector("#stage-books .totals .till")),
  host: whole(document.querySelector("#stage-books .totals .host")),
  purchases: Object.fromEntries(rows),
  lines: all("#stage-events .line").map(text),
  events: all("#stage-events .event").map(text),
  laws: all("#stage-laws li").map((it) => [it.dataset.law, text(it.querySelector(".numbers"))]),
  stores: Object.fromEntries(all("#stage-stores dd").map((it) => [it.dataset.end, text(it)])),
  pending: Object.fromEntries(
    all("#stage-thief .thief").map((it) => [it.dataset.end, it.dataset.pending])),
  rest: [document.getElementById("stage-rest").dataset.rest, text(document.getElementById("stage-rest"))],
  arrows: all("#stage-picture .tip").length, again: all("#stage-picture .flight.again").length,
  crosses: all("#stage-picture .transit .cross").length,
  here: all("#stage-picture .transit .here").length,
  stopped: all("#stage-picture .stopped").length,
  texts: all("#stage-picture text").map(text),
};"""


class StageCase(PageCase):
    panel: ClassVar[str] = "stage"

    def show(self, panel: str) -> None:
        super().show(panel)
        if panel == "stage":
            self.browser.wait_until(OPENED, seconds=30)

    def put(self, script: str, over_journal: bool = False, config: str = "") -> None:
        """Plays a script to its end; without a configuration under that which the stage has."""
        self.browser.run(PUT, config or self.value("stage-config"), script, over_journal)
        self.move(MOST_EVENTS)

    def move(self, count: int) -> None:
        """Goes to the moment behind so many events."""
        self.browser.run(MOVE, count)

    def seen(self) -> dict[str, Any]:
        return self.browser.run(SEEN)

    def example(self, name: str) -> None:
        self.click(f"stage-example-{name}")

    @property
    def script(self) -> list[str]:
        """The lines of the script that are events or remarks of lost frames."""
        return [it for it in self.value("stage-script").split("\n")
                if it and (not it.startswith("#") or it.endswith("is lost"))]
