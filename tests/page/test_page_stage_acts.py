"""The page's stage in use: events by its buttons, by mouse and by keyboard, and by the script's text."""
from __future__ import annotations

from ..support.page.browser import TAB
from ..support.page.page_stage_case import LOAD, PAY, StageCase

SPACE = " "


class TestButtons(StageCase):
    def press(self, name: str) -> None:
        """Presses a button."""
        self.click(name)

    def begin(self) -> None:
        """An empty script over a journal."""
        self.put("", over_journal=True)

    def check(self, *script: str) -> None:
        """That the script is this, and that the stage shows all its events."""
        self.assertEqual(self.script, list(script))
        events = [it for it in script if not it.startswith("#")]
        self.assertEqual(self.seen()["events"], events)

    def test_reversal(self) -> None:
        """A payment whose reply is lost, and its reversal, without a word of script."""
        self.begin()
        wanted: list[str] = []
        for name, line in (
                ("stage-load", LOAD), ("stage-begin", PAY), ("stage-deliver-request-1", "up 1"),
                ("stage-lose-answer-1", "# answer 1 is lost"), ("stage-reverse", "reverse t1"),
                ("stage-deliver-request-2", "up 2"), ("stage-deliver-answer-2", "down 2 t1"),
                ("stage-again-request-1", "up 1"), ("stage-restart", "restart t1"),
                ("stage-restart-host", "restart host"), ("stage-arm", "arm t1 1"),
                ("stage-load", "load t1 FFFF9876543210C00000")):
            self.press(name)
            wanted.append(line)
            self.check(*wanted)
        self.press("stage-undo")
        self.check(*wanted[:-1])
        seen = self.seen()
        self.assertEqual((seen["till"], seen["host"]), (0, 0))
        self.assertEqual(seen["purchases"], {"FFFF9876543210E00001": [500, "undone", "undone"]})

    def test_choices(self) -> None:
        """Terminal, card, amount, store and steps are those that were chosen."""
        self.begin()
        choose = "const it = document.getElementById(arguments[0]); it.selectedIndex = arguments[1];"
        self.browser.run(choose, "stage-terminal", 1)
        self.press("stage-load")
        self.browser.run(choose, "stage-card", 1)
        self.type("stage-amount", "0042")
        self.press("stage-begin")
        self.browser.run(choose, "stage-store", 3)  # the second book: cells stand in front
        self.type("stage-steps", "7")
        self.press("stage-arm")
        self.check("load t2 FFFF9876543210E00000", "begin t2 4012345678909 9999 42", "arm t2 book 7")

    def test_places(self) -> None:
        """What is chosen comes behind the event that is shown."""
        self.begin()
        for name in ("stage-load", "stage-begin", "stage-deliver-request-1"):
            self.press(name)
        self.move(1)
        self.press("stage-arm")
        self.assertEqual(self.script, [LOAD, "arm t1 1", PAY, "up 1"])
        self.assertEqual(self.seen()["events"], [LOAD, "arm t1 1"])
        self.move(4)
        self.assertEqual(self.seen()["lines"][2:], ["t1 fault Store Device", "no such frame"])
        self.move(2)
        self.press("stage-undo")
        self.assertEqual(self.script, [LOAD, PAY, "up 1"])

    def test_over_a_log(self) -> None:
        """There are no reversals and no books."""
        self.put("")
        self.assertFalse(self.browser.run(
            "return document.getElementById('stage-reverse').checkVisibility();"))
        self.assertEqual(self.browser.run(
            "return [...document.getElementById('stage-store').options].map((it) => it.value);"),
            ["t1", "t2", "host"])


class TestKeys(TestButtons):
    """The same by the keyboard alone."""

    def press(self, name: str) -> None:
        self.browser.run("document.getElementById(arguments[0]).focus();", name)
        self.browser.press(SPACE)

    def test_focus(self) -> None:
        """A button that stays keeps the focus; where it is gone, the frames have it."""
        self.begin()
        focused = "return document.activeElement.id;"
        self.press("stage-load")
        self.assertEqual(self.browser.run(focused), "stage-load")
        self.press("stage-begin")
        self.press("stage-deliver-request-1")
        self.assertEqual(self.browser.run(focused), "stage-frames")
        self.browser.press(TAB)
        self.assertEqual(self.browser.run(focused), "stage-deliver-answer-1")


class TestText(StageCase):
    """The script's text, which is typed."""

    def test_typed(self) -> None:
        self.put("")
        script = self.browser.element("#stage-script")
        for count, line in enumerate((LOAD, PAY, "up 1"), 1):
            script.type(f"{line}\n")
            seen = self.seen()
            self.assertEqual((len(seen["events"]), seen["count"]), (count, count))
        self.assertTrue(self.browser.run("return document.activeElement.id === 'stage-script';"))
        self.click("stage-deliver-answer-1")
        self.assertEqual(self.script, [LOAD, PAY, "up 1", "down 1 t1"])
        self.assert_quiet()
