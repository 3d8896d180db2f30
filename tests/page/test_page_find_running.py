"""The panel "Find the key" while it searches: the page answers, and nothing stays of another search."""
from __future__ import annotations

import re

from ..commands.test_find import CLEAR, made_at, number_at
from ..support.commands.finding import MOST_NUMBERS
from ..support.library.call_cases import Chance
from ..support.page.page_finding import FindCase
from ..support.page.page_values import BASE, IKSN, INITIAL, upper
from ..support.standards import many
from ..support.standards.des import encrypt_block
from ..support.standards.dukpt import derive, serial_text

# The longest time from one frame that the browser draws to the next, while a search runs.
LONGEST_GAP = """
const gaps = [];
const began = performance.now();
let last = began;
document.getElementById("find-start").click();
while (last - began < 600) {
  await new Promise((done) => requestAnimationFrame(done));
  gaps.push(performance.now() - last);
  last = performance.now();
}
const isRunning = !document.getElementById("find-stop").disabled;
document.getElementById("find-stop").click();
return [Math.max(...gaps), isRunning];"""
MOST_MILLISECONDS, ROUNDS = 100, 20
RESULTS = ["find-number", "find-key-name", "find-way", "find-key"]


class TestWhileItSearches(FindCase):
    def setUp(self) -> None:
        super().setUp()
        # No key of a number makes this but by a chance of one in 2^40.
        self.set(find_kind="cipher", find_hidden="00" * 8, find_clear=CLEAR, find_bdk=BASE,
                 find_begin="number", find_ksn=serial_text(IKSN + 1), find_window=str(MOST_NUMBERS))

    def numbers_tried(self) -> int:
        words = re.match("([0-9,]+) of 100,000 numbers tried$", self.text("find-tried"))
        return int(words[1].replace(",", "")) if words else 0

    def disabled(self) -> tuple[bool, bool]:
        return tuple(self.browser.element(f"#find-{it}").property("disabled")
                     for it in ("start", "stop"))

    def begin(self) -> None:
        self.click("find-start")
        # What an earlier search left of its progress does not count.
        self.browser.wait_until("return document.getElementById('find-progress').value > 200"
                                " && !document.getElementById('find-stop').disabled;")
        self.assertEqual(self.disabled(), (True, False))

    def test_frames(self) -> None:
        """The browser draws a frame every 100 ms at least. Where other programs take the processor
        from it, it is tried again."""
        gaps = []
        while not gaps or (min(gaps) > MOST_MILLISECONDS and len(gaps) < ROUNDS):
            gap, is_running = self.browser.run_async(LONGEST_GAP)
            self.assertTrue(is_running, "the search ended too soon to be measured")
            gaps.append(gap)
        self.tells(f"{min(gaps):.0f} ms at most between two frames; {len(gaps) - 1} further tries")
        self.assertLessEqual(min(gaps), MOST_MILLISECONDS)

    def test_stop(self) -> None:
        """It stops at once, says how far it came, and begins anew."""
        self.begin()
        bar = self.browser.element("#find-progress")
        self.assertEqual((bar.property("max"), bar.attribute("aria-label")),
                         (MOST_NUMBERS, "Numbers tried"))
        self.click("find-stop")
        stopped = self.numbers_tried()
        self.assertTrue(200 < stopped < MOST_NUMBERS)
        self.assertEqual(bar.property("value"), stopped)
        self.assertEqual(self.disabled(), (False, True))
        self.assertEqual(self.text("find-said"),
                         f"Stopped: {stopped:,} numbers from {serial_text(IKSN + 1)} on are tried.")
        self.assert_shown(dict.fromkeys(RESULTS, ""))
        self.browser.run_async("await new Promise((done) => setTimeout(done, 200));")
        self.assertEqual(self.numbers_tried(), stopped)
        number = number_at(7)
        block = encrypt_block(derive(bytes.fromhex(BASE), number), bytes.fromhex(CLEAR))
        found = self.searched({"find-hidden": upper(block)})
        self.assertEqual(self.line_of(found[0]), f"found {serial_text(number)} key")
        self.assert_quiet()

    def test_changed_field(self) -> None:
        """A field that changes ends the search, and leaves no result of it."""
        for name, value in (("find_bdk", INITIAL), ("find_clear", "00" * 8), ("find_hidden", "x"),
                            ("find_window", "99998"), ("find_ksn", serial_text(IKSN + 2)),
                            ("find_kind", "mac"), ("find_begin", "first")):
            self.set(find_kind="cipher", find_begin="number")
            before = self.value(name.replace("_", "-"))
            if (name, value) == ("find_begin", "first"):
                self.set(find_ksn=serial_text(IKSN + 0x100))
            self.begin()
            self.set(**{name: value})
            self.assertEqual(self.disabled(), (value == "x", True), name)
            self.browser.run_async("await new Promise((done) => setTimeout(done, 100));")
            self.assert_shown({**dict.fromkeys(RESULTS, ""), "find-tried": "", "find-said": ""})
            self.set(**{name: before})
        self.assert_quiet()

    def test_other_panels(self) -> None:
        """Other panels answer rightly while it searches, and the search stays right."""
        place = 30_000
        (what, _, clear), line = made_at(place, "clear")
        self.set(find_hidden=what, find_clear=clear)
        self.begin()
        chance = Chance(self.chance)
        keys, blocks = chance.tdes_keys(20), chance.bytes(20, 8)
        for key, block, hidden in zip(keys, blocks, many.encrypted(keys, blocks)):
            self.assert_tried(["tdes-key", "tdes-data"], [[upper(key), upper(block)]], ["tdes-result"],
                              [[upper(hidden)]])
        self.browser.wait_until("return document.getElementById('find-said').textContent !== '';")
        self.assertEqual([self.text("find-number"), self.numbers_tried()], [line.split()[1], place + 1])

    def test_result_goes(self) -> None:
        """A result stays as long as the fields ask for the same, and goes when they do not."""
        number = number_at(3)
        block = encrypt_block(derive(bytes.fromhex(BASE), number), bytes.fromhex(CLEAR))
        fields = {"find-hidden": upper(block), "find-begin": "first"}
        self.assertEqual(self.searched(fields)[0][0], serial_text(number))
        self.set(find_ksn=serial_text(number), find_hidden=block.hex(" "), find_mac="12")
        self.assertEqual(self.text("find-number"), serial_text(number))
        self.set(find_clear="00" * 8)
        self.assert_shown(dict.fromkeys([*RESULTS, "find-said"], ""))
        self.set(find_clear=CLEAR)
        self.assert_shown(dict.fromkeys([*RESULTS, "find-said"], ""))
