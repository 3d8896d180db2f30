"""The page's stage in time: its steps, the worked examples with their narrator, and faults of texts."""
from __future__ import annotations

from ..support.page.browser import END, HOME, LEFT, RIGHT
from ..support.page.page_stage_case import LOAD, PAY, StageCase
from ..support.page.stage_pictures import EXAMPLES
from ..support.program import ROOT

# What the narrator says at each event.
NARRATED = """
const text = (id) => document.getElementById(id).textContent;
return Array.from({ length: Number(document.getElementById("stage-time").max) }, () => {
  document.getElementById("stage-forward").click();
  return text("stage-said");
});"""


class TestTime(StageCase):
    def test_steps(self) -> None:
        """Buttons, and the slider by keys; what is shown of a moment is what its front has alone."""
        self.example("lost-reply")
        lines = [it for it in self.script if not it.startswith("#")]
        self.assertEqual(self.seen()["count"], 0)
        for name, count in (("forward", 1), ("forward", 2), ("back", 1), ("last", len(lines)),
                            ("forward", len(lines)), ("back", len(lines) - 1), ("first", 0), ("back", 0)):
            self.click(f"stage-{name}")
            self.assertEqual(self.seen()["count"], count, name)
        self.browser.run("document.getElementById('stage-time').focus();")
        for key, count in ((RIGHT, 1), (RIGHT, 2), (END, len(lines)), (LEFT, len(lines) - 1), (HOME, 0)):
            self.browser.press(key)
            self.assertEqual(self.seen()["events"], lines[:count])
        for count in (3, 8, len(lines)):
            self.example("lost-reply")
            self.move(count)
            then = self.seen()
            self.put("\n".join(self.front(count)))
            self.assertEqual(self.seen(), then)

    def front(self, count: int) -> list[str]:
        """The lines of the script up to so many events, with the remarks of lost frames behind them."""
        found: list[str] = []
        for line in self.script:
            count -= not line.startswith("#")
            if count < 0:
                break
            found.append(line)
        return found

    def test_rows(self) -> None:
        """A click at a row of the picture goes to its moment."""
        self.example("payment")
        self.click("stage-last")
        self.browser.element("#stage-picture [data-row='3'] .soft").click()
        self.assertEqual(self.seen()["count"], 3)


class TestExamples(StageCase):
    def test_files(self) -> None:
        """Those of `examples/` have the same events there, and the same lines."""
        for name in EXAMPLES[:-1]:
            self.example(name)
            self.click("stage-last")
            seen = self.seen()
            file = ROOT / "examples" / f"{name.replace('-', '_')}.script"
            events = [it for it in file.read_text().split("\n") if it and not it.startswith("#")]
            self.assertEqual(seen["events"], events, name)
            self.assertEqual(seen["lines"], file.with_suffix(".out").read_text().split("\n")[:-1], name)

    def test_narrator(self) -> None:
        """Each event has a sentence of its own, and each example a title."""
        for name in EXAMPLES:
            self.example(name)
            self.assertTrue(self.text("stage-title"), name)
            said = self.browser.run(NARRATED)
            self.assertEqual(len(set(said)), len(said), name)
            self.assertGreater(len(said), 5, name)

    def test_ends(self) -> None:
        """What each example ends with: the totals, and whether that is rest."""
        for name, till, host, is_rest in (
                ("payment", 500, 500, "true"), ("lost-reply", 1000, 1500, "false"),
                ("power-failure", 500, 500, "true"), ("second-life", 500, 1000, "false"),
                ("reversal", 500, 500, "true")):
            self.example(name)
            self.click("stage-last")
            seen = self.seen()
            self.assertEqual((seen["till"], seen["host"], seen["rest"][0]), (till, host, is_rest), name)
            self.assertNotIn("broken", [it[0] for it in seen["laws"]], name)


class TestFaults(StageCase):
    def fault(self, name: str) -> str:
        return self.text(f"stage-{name}-fault")

    def test_script(self) -> None:
        """A line that is no event is named; what is above it is played."""
        self.put(f"{LOAD}\n# a comment\n{PAY}\nup  1\ndown 1 t1\n")
        self.assertIn("Line 4 is not an event", self.fault("script"))
        self.assertEqual(self.seen()["events"], [LOAD, PAY])
        self.put(f"{LOAD}\nreverse t1\n")
        self.assertIn("it needs a journal", self.fault("script"))
        self.put(f"{LOAD}\nreverse t1\n", over_journal=True)
        self.assertEqual((self.fault("script"), self.seen()["lines"][1]), ("", "t1 fault NothingOpen"))

    def test_configuration(self) -> None:
        config = self.value("stage-config")
        self.put(LOAD, config=config.replace("terminals = 2", "terminals = 17"))
        self.assertIn("config: bad terminals", self.fault("config"))
        self.assertEqual(self.seen()["events"], [])
        self.put("load t3 FFFF9876543210E00000", config=config.replace("terminals = 2", "terminals = 3"))
        self.assertEqual(self.fault("config"), "")
        self.assertIn("t3", self.seen()["texts"])
