"""What the page's stage says of a moment: one thing in all its parts, and nothing that did not happen."""
from __future__ import annotations

from ..support.page.page_stage_case import LOAD, PAY, StageCase

PAY_T2 = PAY.replace("t1", "t2")
CHANGED = "The script was changed: what the narrator says may not fit."
PARTS = """return [...document.querySelectorAll(arguments[0])].map((it) => it.textContent);"""


class TestNarrator(StageCase):
    def test_put_in(self) -> None:
        """An event that a button puts in has no narration, and its neighbours keep theirs."""
        self.example("payment")
        self.move(4)
        before = self.text("stage-said")
        self.assertEqual(self.text("stage-changed"), "")
        self.browser.run("document.getElementById('stage-terminal').value = 't2';")
        self.click("stage-load")
        self.assertEqual((self.text("stage-said"), self.text("stage-changed")), ("", CHANGED))
        self.assertEqual(self.seen()["events"][4], "load t2 FFFF9876543210C00000")
        self.click("stage-back")
        self.assertEqual(self.text("stage-said"), before)
        self.move(6)
        self.assertIn("The next payment has the next number", self.text("stage-said"))

    def test_taken_out(self) -> None:
        """An event that is taken out takes its narration along."""
        self.example("reversal")
        self.move(2)
        said = self.text("stage-said")
        self.assertIn("Someone pays 500", said)
        self.click("stage-undo")
        self.assertNotIn("Someone pays 500", self.value("stage-script"))
        self.assertNotIn("\n\n\n", self.value("stage-script"))
        self.assertEqual(self.text("stage-changed"), CHANGED)

    def test_lost_before(self) -> None:
        """What is put in comes behind the frames that are given up in the moment that is shown."""
        self.example("reversal")
        self.move(3)
        self.click("stage-restart")
        self.assertEqual(self.script[2:5], ["up 1", "# answer 1 is lost", "restart t1"])

    def test_other_store(self) -> None:
        self.example("reversal")
        self.click("stage-log")
        self.assertIn("The host keeps another store than in the example", self.text("stage-changed"))

    def test_configuration(self) -> None:
        """Without a configuration it is said at the top why nothing is played."""
        config = self.value("stage-config")
        self.put(LOAD, config=config.replace("terminals = 2", "terminals = 17"))
        self.example("payment")
        self.assertIn("The configuration cannot be read", self.text("stage-said"))


class TestOneThing(StageCase):
    """All parts of the stage say the same of a moment."""

    def test_numbers(self) -> None:
        """Numbers are shortened as far as they stay apart."""
        self.put("\n".join((LOAD, "load t2 FFFF9876543200E00000", PAY, PAY_T2)), over_journal=True)
        shown = self.browser.run(PARTS, "#stage-books .number")
        self.assertEqual(shown, ["…10E00001", "…00E00001"])
        texts = self.seen()["texts"]
        for it in shown:
            self.assertIn(f"takes number {it}", texts)
        self.put(f"{LOAD}\n{PAY}\n")
        self.assertEqual(self.browser.run(PARTS, "#stage-books .number"), ["…E00001"])

    def test_book(self) -> None:
        """A book whose power failed: the terminal is stopped, and its restart tells what it completed."""
        events = [LOAD, PAY, "up 1", "arm t1 book 1", "down 1 t1"]
        self.put("\n".join(events), over_journal=True)
        laws = self.seen()["laws"]
        self.assertEqual(laws[5], ["waits", "t1 waits, because it is stopped: 1 payment stands, 0 were told."])
        self.put("\n".join((*events, "restart t1")), over_journal=True)
        laws = self.seen()["laws"]
        self.assertEqual(laws[3], ["holds", "1 transaction completed, 1 with the host's own reply; "
                                            "1 of them told at a restart."])
        self.assertEqual(laws[5], ["holds", "t1 is at rest: 1 payment stands, 1 was told."])

    def test_forgotten(self) -> None:
        """Over a log the host forgets its replies: then nothing settles a payment."""
        events = [LOAD, PAY, "up 1", "# answer 1 is lost"]
        self.put("\n".join(events))
        self.assertIn("deliver its request again, and the host gives the same reply", self.seen()["rest"][1])
        self.put("\n".join((*events, "restart host", "up 1", "down 2 t1")))
        self.assertIn("the host forgot its reply, and nothing settles it", self.seen()["rest"][1])
        self.assertIn("the host forgot its reply, and nothing settles it",
                      self.browser.run(PARTS, "#stage-books .why"))

    def test_help(self) -> None:
        """The hint beside the buttons, the summary and the table say in one way what settles a purchase."""
        for events, known, wanted in (
                (["up 1", "restart t1"], "t1 does not wait for that answer any more", "reverse it"),
                (["up 1", "reverse t1"], "t1 does not wait for that answer any more",
                 "deliver its reversal, and then the answer"),
                (["up 1", "arm t1 book 0", "down 1 t1", "restart t1"], "t1 has not kept the answer",
                 "reverse it"),
                (["up 1"], "the answer is under way", "deliver its reply, or reverse it")):
            self.put("\n".join((LOAD, PAY, *events)), over_journal=True)
            self.assertEqual(self.text("stage-advice"), f"t1 has a purchase open: {wanted}.")
            self.assertIn(f"The host approved it; {known}. To settle it: {wanted}.", self.seen()["rest"][1])
            self.assertEqual(self.browser.run(PARTS, "#stage-books .why")[0], wanted)
        self.put("\n".join((LOAD, "arm t1 book 1", PAY, "restart t1")), over_journal=True)
        self.assertIn("The host keeps nothing of it. To settle it: reverse it.", self.seen()["rest"][1])

    def test_what_settles_nothing(self) -> None:
        """Where a journal is full a reversal is refused, and stays so; a stopped host is restarted first."""
        large = self.value("stage-config")
        full = large.replace("log = 100", "log = 1")
        nothing = "the journal is full and takes no reversal: nothing settles it here"
        for config, events, wanted in (
                (full, ["up 1", "reverse t1", "up 2", "down 2 t1"], nothing),
                (full, ["up 1", "reverse t1", "up 2", "restart t1", "reverse t1"], nothing),
                (large, ["up 1", "reverse t1"], "deliver its reversal, and then the answer"),
                (large, ["arm host 0", "up 1"],
                 "restart the host, and then deliver its request, and then the reply, or reverse it"),
                (large, ["up 1", "restart t1", "reverse t1", "arm host 0", "up 2"],
                 "restart the host, and then deliver its reversal, and then the answer")):
            self.put("\n".join((LOAD, PAY, *events)), over_journal=True, config=config)
            self.assertIn(f"To settle it: {wanted}.", self.seen()["rest"][1])

    def test_cut_log(self) -> None:
        """At once, and not only behind the restart, it is known that a log has a number."""
        for passes, host in ((0, "nothing"), (1, "undecided")):
            self.put("\n".join((LOAD, PAY, f"arm host {passes}", "up 1")))
            self.assertEqual(self.seen()["purchases"]["FFFF9876543210E00001"], [500, "waiting", host])

    def test_full_journal(self) -> None:
        """A journal keeps a sixteenth of its records for reversals: it is not full then."""
        config = self.value("stage-config").replace("log = 100", "log = 32")
        events = [LOAD]
        for number in range(1, 33):
            events += [PAY, f"up {number}", f"down {number} t1"]
        self.put("\n".join(events[:-1]), over_journal=True, config=config)
        seen = self.seen()
        self.assertIn("31 of 32 records", seen["stores"]["host"])
        self.assertIn("no room for payments (6)", seen["texts"])
        config = config.replace("log = 32", "log = 10")
        self.put("\n".join(events[:34]), over_journal=True, config=config)
        seen = self.seen()
        self.assertIn("10 of 10 records", seen["stores"]["host"])
        self.assertIn("refused: journal full (6)", seen["texts"])
        self.assertNotIn("no room for payments (6)", seen["texts"])
        config = self.value("stage-config").replace("log = 10", "log = 32")
        self.put("\n".join(events[:-1]), config=config.replace("log = 32", "log = 31"))
        self.assertIn("refused: log full (6)", self.seen()["texts"])

    def test_armed(self) -> None:
        """A failure that is to come is told of a store, until a restart takes it back."""
        self.put(f"{LOAD}\narm t1 3\n{PAY}\n")
        self.assertIn("Its cell lets 1 device step pass", self.seen()["stores"]["t1"])
        self.put(f"{LOAD}\narm t1 3\n{PAY}\nrestart t1\n")
        self.assertNotIn("pass", self.seen()["stores"]["t1"])

    def test_loaded_again(self) -> None:
        self.put(f"{LOAD}\n{PAY}\nload t1 FFFF9876543210C00000\n")
        self.assertIn("cannot derive any of its 2 initial keys", self.text("stage-thief"))


class TestFields(StageCase):
    def test_numbers(self) -> None:
        """What is no number comes into no script, and it is said below the field."""
        self.example("payment")
        self.move(5)
        for field, button, wrong in (
                ("stage-amount", "stage-begin", ("-5", "abc", "", "4294967296", "5.00")),
                ("stage-steps", "stage-arm", ("-1", "", "1e3"))):
            for text in wrong:
                before = self.value("stage-script")
                self.type(field, text)
                self.click(button)
                self.assertEqual(self.value("stage-script"), before, text)
                self.assertIn("is a whole number from 0 to 4,294,967,295", self.text(f"{field}-fault"))
            self.type(field, "7")
            self.click(button)
            self.assertEqual(self.text(f"{field}-fault"), "")
            self.assertNotEqual(self.value("stage-script"), before)

    def test_lines(self) -> None:
        """A line that is no event is quoted, with what was expected."""
        for line, words in (
                ("begin t1 4012345678909 1234 5.00", "“begin T PAN PIN AMOUNT”"),
                ("begin t1 4012345678909 12 500", "PIN 4 to 12 digits"),
                ("LOAD t1 FFFF9876543210E00000", "“load T IKSN”, in small letters"),
                ("load t1 FFFF9876543210E00001", "whose counter, the last 21 bits, is zero"),
                ("arm t1 book x", "“arm T book N”"), ("pay", "The first word has to be load, begin")):
            self.put(f"{LOAD}\n{line}\n", over_journal=True)
            fault = self.text("stage-script-fault")
            self.assertIn(f"Line 2 is not an event: “{line}”", fault)
            self.assertIn(words, fault)

    def test_strays(self) -> None:
        """A remark that loses a frame which was not sent is told."""
        self.put(f"{LOAD}\n{PAY}\n# request 1 is lost\n")
        self.assertEqual(self.text("stage-script-note"), "")
        self.put(f"{LOAD}\n# request 1 is lost\n{PAY}\n")
        self.assertEqual(self.text("stage-script-note"), "Line 2: there is no request 1 to lose yet.")

    def test_reverse(self) -> None:
        """The button is off where no purchase is open."""
        self.put(f"{LOAD}\n{PAY}\n", over_journal=True)
        off = "return document.getElementById('stage-reverse').getAttribute('aria-disabled');"
        self.assertEqual(self.browser.run(off), "false")
        self.move(1)
        self.assertEqual(self.browser.run(off), "true")
        self.click("stage-reverse")
        self.assertEqual(self.script, [LOAD, PAY])

    def test_saved(self) -> None:
        self.example("payment")
        self.click("stage-save")
        self.assertEqual(self.text("stage-saved"), "Saved as dukpt-stage.svg.")


class TestPlaces(StageCase):
    def test_scrolled(self) -> None:
        """In a long picture the names of the columns stay in sight, and no row is cut by them."""
        self.browser.resize(1280, 700)
        self.example("reversal")
        self.click("stage-last")
        head, row, bottom, box = self.browser.run("""
            const box = document.getElementById("stage-box").getBoundingClientRect();
            const place = (it) => it.getBoundingClientRect();
            const head = place(document.querySelector("#stage-picture .head"));
            const rows = [...document.querySelectorAll("#stage-picture .event .row")].map(place);
            const cut = rows.find((it) => it.top < head.bottom - 1 && it.bottom > head.bottom + 1);
            return [head.top - box.top, cut ? 1 : 0, rows.at(-1).bottom, box.bottom];""")
        self.assertLess(abs(head), 12)
        self.assertEqual(row, 0)
        self.assertLess(bottom, box)

    def test_narrow(self) -> None:
        """On a narrow screen the notes of the last event are seen, and it is said that the picture moves."""
        self.browser.resize(500, 800)
        for name in ("payment", "power-failure"):
            self.example(name)
            for count in range(1, 9):
                self.move(count)
                seen = self.browser.run("""
                    const box = document.getElementById("stage-box").getBoundingClientRect();
                    const rows = document.querySelectorAll("#stage-picture .event");
                    const said = [...rows][rows.length - 1].querySelector(".said").getBoundingClientRect();
                    return [said.left >= box.left, said.right <= box.right];""")
                self.assertEqual(seen, [True, True], f"{name} {count}")
        self.assertFalse(self.browser.run("return document.getElementById('stage-wide').hidden;"))
        self.browser.resize(1280, 800)
        self.example("second-life")
        self.click("stage-last")
        self.assertTrue(self.browser.run("return document.getElementById('stage-wide').hidden;"))

    def test_colours(self) -> None:
        """A decline is an answer as others are, and a failure that is to come is no failure."""
        self.put(f"{LOAD}\n{PAY.replace('500', '10001')}\nup 1\narm host 1\n")
        count = "return document.querySelectorAll('#stage-picture ' + arguments[0]).length;"
        for selector, wanted in ((".flight.refusal", 0), (".flight.answer", 1), (".coming", 1), (".cut", 0)):
            self.assertEqual(self.browser.run(count, selector), wanted, selector)

    def test_order(self) -> None:
        """The buttons stand directly below the picture."""
        follows = self.browser.run("""
            const it = document.getElementById("stage-begin");
            return ["stage-box", "stage-books"].map((id) =>
              it.compareDocumentPosition(document.getElementById(id)));""")
        self.assertEqual(follows, [2, 4])
