"""The panel "Tree and registers": after each transaction and at each place of a terminal's life its
picture is that of the model, register by register."""
from __future__ import annotations

import bisect
import math
from functools import lru_cache
from typing import Any, Optional, Sequence

from ..support.library.call_cases import Chance
from ..support.page.browser import END, HOME, LEFT, RIGHT
from ..support.page.page_case import PageCase
from ..support.page.page_values import BASE, IKSN, INITIAL, upper
from ..support.standards import many
from ..support.standards.des import encrypt_block
from ..support.standards.dukpt import (
    COUNTER_BITS, NO_KEY, SPENT, Registers, counter_of, held, iksn_of, registers_at, serial_text,
    usable)
from ..support.standards.many import filled_places, own_place

ATTRIBUTES = ["data-place", "data-state", "data-change"]
CELLS = ["place", "register", "number", "key", "kcv", "below"]
# What the panel shows: the registers, the picture's nodes, and texts.
SHOWN = """
const row = (it) => [...arguments[0].map((name) => it.getAttribute(name)),
  ...arguments[1].map((name) => it.querySelector("." + name).textContent)];
const look = () => ({
  rows: [...document.querySelectorAll("#tree-registers tr[data-place]")].map(row),
  nodes: [...document.querySelectorAll("#tree-picture g[data-kind]")].map(
    (it) => [it.getAttribute("data-counter"), it.getAttribute("data-kind")]),
  ksn: document.getElementById("tree-ksn").value,
  place: document.getElementById("tree-place").value,
  slider: document.getElementById("tree-slider").value,
  left: document.getElementById("tree-left").textContent,
  taken: [document.getElementById("tree-taken-number").textContent,
    document.getElementById("tree-taken-key").textContent],
  fault: document.getElementById("tree-ksn-fault").textContent,
});
const frame = () => new Promise((done) => requestAnimationFrame(() => setTimeout(done)));
"""
LOOK = SHOWN + "return look();"
TAKE = SHOWN + """
const seen = [];
for (let count = 0; count < arguments[2]; count += 1) {
  document.getElementById("tree-take").click();
  seen.push(look());
}
return seen;"""
SLIDE = SHOWN + """
const seen = [];
const slider = document.getElementById("tree-slider");
for (const place of arguments[2]) {
  slider.value = place;
  slider.dispatchEvent(new Event("input", { bubbles: true }));
  await frame();
  seen.push(look());
}
return seen;"""


@lru_cache(1)
def life() -> list[int]:
    """The usable counters in their order."""
    return list(filter(usable, range(SPENT)))


@lru_cache(1 << 12)
def check_value(key: bytes) -> str:
    return upper(encrypt_block(key, bytes(8))[:3])


def below(counter: int, place: int) -> int:
    """How many numbers follow from the key of a counter whose last one bit has this place: it may
    have ten one bits."""
    free = 10 - bin(counter).count("1")
    return sum(math.comb(place, ones) for ones in range(free + 1))


def rows_of(registers: Registers, used: Optional[int], filled: Sequence[int]) -> list[list[Any]]:
    """The rows of registers, the highest first."""
    rows = []
    for place in reversed(range(COUNTER_BITS)):
        number, key = held(registers.counter, place), registers.keys[place]
        change = "used" if place == used else "filled" if place in filled else None
        front = [str(place), "empty" if number is None else "held", change, str(place)]
        front.append(str(COUNTER_BITS - place))
        if number is None:
            rows.append([*front, "", "", "", ""])
        else:
            rows.append([*front, serial_text(registers.iksn + number), upper(key),
                         check_value(key), f"{below(number, place):,}"])
    return rows


class TreeCase(PageCase):
    panel = "tree"

    def look(self) -> dict[str, Any]:
        return self.browser.run(LOOK, ATTRIBUTES, CELLS)

    def take(self, count: int) -> list[dict[str, Any]]:
        """What is shown after each of so many presses of the button."""
        return self.browser.run(TAKE, ATTRIBUTES, CELLS, count)

    def slide(self, places: Sequence[int]) -> list[dict[str, Any]]:
        """What is shown at each place that the slider is moved to."""
        return self.browser.run_async(SLIDE, ATTRIBUTES, CELLS, places)

    def check(self, seen: dict[str, Any], registers: Registers, used: Optional[int] = None,
              filled: Sequence[int] = (), taken: Sequence[str] = ("", "")) -> None:
        """That what is seen are these registers."""
        what = f"next {registers.counter:06X}"
        rows = [[*it[:-3], it[-3].replace("empty", ""), *it[-2:]] for it in seen["rows"]]
        self.assertEqual(rows, rows_of(registers, used, filled), what)
        place = self.place_of(registers.counter)
        serial = "" if registers.next is None else serial_text(registers.next)
        self.assertEqual(seen["ksn"], serial, what)
        self.assertEqual(seen["left"], f"{len(life()) + 1 - place:,}", what)
        shown = str(min(place, len(life())))
        self.assertEqual((seen["place"], seen["slider"]), (shown, shown), what)
        self.assertEqual(seen["taken"], list(taken), what)
        self.assertEqual(seen["fault"], "", what)
        self.check_nodes(seen["nodes"], registers)

    @staticmethod
    def place_of(counter: int) -> int:
        """From 1; behind the last for a spent terminal."""
        return bisect.bisect_left(life(), counter) + 1

    def check_nodes(self, nodes: list[list[str]], registers: Registers) -> None:
        """The picture: the next number, the future ones, and above them what was used."""
        of_kind: dict[str, set[int]] = {kind: set() for kind in ("root", "used", "next", "future")}
        for counter, kind in nodes:
            of_kind[kind].add(int(counter, 16))
        numbers = {held(registers.counter, place) for place in range(COUNTER_BITS)} - {None}
        self.assertEqual(of_kind["root"], {0})
        self.assertEqual(of_kind["next"], numbers & {registers.counter})
        self.assertEqual(of_kind["future"], numbers - {registers.counter})
        above = set()
        for number in numbers:
            while number & number - 1:
                number &= number - 1
                above.add(number)
        self.assertLessEqual(above, of_kind["used"])
        self.assertTrue(all(it < registers.counter for it in of_kind["used"]))

    def check_takes(self, registers: Registers, seen: Sequence[dict[str, Any]]) -> Registers:
        """That each look behind a press is the model's next state, and what was used and filled."""
        for it in seen:
            used, filled = own_place(registers), list(filled_places(registers))
            key, serial, registers = registers.take()
            self.check(it, registers, used, filled, (serial_text(serial), upper(key)))
        return registers


class TestTakes(TreeCase):
    def test_from_the_first(self) -> None:
        """Pressed and clicked from a new terminal on."""
        self.set(tree_bdk=BASE, tree_ksn=serial_text(IKSN + 1))
        registers = registers_at(bytes.fromhex(INITIAL), IKSN, 1)
        self.check(self.look(), registers)
        self.click("tree-take")
        registers = self.check_takes(registers, [self.look()])
        registers = self.check_takes(registers, self.take(70))
        self.set(tree_ksn=serial_text(IKSN + registers.counter))
        self.check(self.look(), registers)
        self.assert_quiet()

    def test_from_places_at_random(self) -> None:
        chance, count = Chance(self.chance), 12 * self.times
        bases = chance.keys(count)
        serials = [serial - counter_of(serial) + min(counter_of(serial), 0x1FE000)
                   for serial in chance.usables(count)]
        initials = many.initial_keys(bases, list(map(iksn_of, serials)))
        for base, serial, registers in zip(bases, serials, many.registers_at(initials, serials)):
            self.set(tree_bdk=base.hex(), tree_ksn=serial_text(serial))
            self.check(self.look(), registers)
            self.check_takes(registers, self.take(8))

    def test_last(self) -> None:
        """The last numbers, and then a spent terminal."""
        last = life()[-4]
        self.set(tree_from_initial="chosen", tree_initial=INITIAL)
        self.set(tree_ksn=serial_text(IKSN + last))
        registers = registers_at(bytes.fromhex(INITIAL), IKSN, last)
        registers = self.check_takes(registers, self.take(4))
        self.assertEqual(registers.counter, SPENT)
        self.assertEqual(registers.keys, (NO_KEY,) * COUNTER_BITS)
        self.assertTrue(self.browser.element("#tree-take").property("disabled"))
        self.assertIsNotNone(self.browser.element("#panel-tree").attribute("data-spent"))
        # The slider brings it back to life.
        seen = self.slide([len(life()), 1])
        for it, counter in zip(seen, (life()[-1], 1)):
            self.check(it, registers_at(bytes.fromhex(INITIAL), IKSN, counter))
        self.assertFalse(self.browser.element("#tree-take").property("disabled"))


class TestPlaces(TreeCase):
    def test_slider(self) -> None:
        """At its ends and at random, and the same of a place that is typed."""
        places = [1, 2, len(life()) // 2, len(life()) - 1, len(life())]
        places += [self.chance.randrange(1, len(life()) + 1) for _ in range(40 * self.times)]
        base, iksn = self.chance.randbytes(16), iksn_of(self.chance.getrandbits(80))
        self.set(tree_bdk=base.hex(), tree_ksn=serial_text(iksn + 1))
        initial = many.initial_keys([base], [iksn]) * len(places)
        models = many.registers_at(initial, [iksn + life()[place - 1] for place in places])
        for seen, registers in zip(self.slide(places), models):
            self.check(seen, registers)
        for place, registers in list(zip(places, models))[:12]:
            self.set(tree_place=str(place))
            self.check(self.look(), registers)

    def test_keys_of_the_slider(self) -> None:
        """The keys of the keyboard move it."""
        self.set(tree_bdk=BASE, tree_ksn=serial_text(IKSN + 1))
        self.browser.run("document.getElementById('tree-slider').focus();")
        initial = bytes.fromhex(INITIAL)
        for keys, place in (((RIGHT, RIGHT, RIGHT), 4), ((LEFT,), 3), ((END,), len(life())),
                            ((HOME,), 1)):
            self.browser.press(*keys)
            counter = life()[place - 1]
            self.browser.wait_until(
                "return document.getElementById('tree-ksn').value === arguments[0];",
                serial_text(IKSN + counter), seconds=20)
            self.check(self.look(), registers_at(initial, IKSN, counter))
