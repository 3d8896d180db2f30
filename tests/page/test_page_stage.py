"""The page's stage beside the models of terminals and tills: what is shown of random scripts, and of
stores at each step at which the power fails."""
from __future__ import annotations

import random
from typing import Callable

from ..support.formats import configuration
from ..support.formats.configuration import Configuration
from ..support.page.page_stage import Reader, Shown
from ..support.page.page_stage_case import LOAD, PAY, StageCase
from ..support.worlds import scenes, scenes_books
from ..support.worlds.books_play import BooksPlay
from ..support.worlds.scenes import Play
from ..support.worlds.worlds import Bank, random_bank

# How many scripts of each kind are tried, and how many events and terminals they have at the most.
SCRIPTS = 8
MOST_EVENTS = 120
MOST_TERMINALS = 4
TERMINAL_SCENES = (
    scenes.payment, scenes.each_code, scenes.lost_reply, scenes.late_request, scenes.any_order,
    scenes.given_up, scenes.loaded_before, scenes.armed_for_later, scenes.strays)
TILL_SCENES = (
    scenes_books.payment, scenes_books.lost_reply, scenes_books.undone, scenes_books.never_came,
    scenes_books.again, scenes_books.restarted, scenes_books.told_again, scenes_books.earlier_life,
    scenes_books.refused_while_open, scenes_books.waiting, scenes_books.crossed, scenes_books.strays)


def stops(play: Play) -> None:
    """An end whose store fails at some step of something that it does, and is restarted."""
    chance = play.chance
    end = chance.choice((play.any_terminal(), f"{play.any_terminal()} book", "host"))
    if end.endswith("book") and not isinstance(play, BooksPlay):
        end = "host"
    play.happens(f"arm {end} {chance.randrange(9)}")
    for _ in range(2):
        at = end.split(" ")[0] if end != "host" else play.any_terminal()
        play.happens(f"begin {at} {play.bank.cards[0].pan} {play.bank.cards[0].pin} 7")
        if play.sent:
            play.up(play.sent)
        if isinstance(play, BooksPlay) and chance.random() < 0.5:
            play.happens(f"reverse {at}")
            if play.sent:
                play.up(play.sent)
        if play.answered:
            play.down(play.answered, at)
    if chance.random() < 0.8:
        play.happens(f"restart {end.split(' ')[0]}")


def random_script(chance: random.Random, bank: Configuration, over_journal: bool) -> list[str]:
    """The events of a script of some scenes."""
    play = BooksPlay(chance, bank) if over_journal else Play(chance, bank)
    for number in range(1, min(3, bank.terminals) + 1):
        play.load(f"t{number}")
    known: tuple[Callable[..., None], ...] = TILL_SCENES if over_journal else TERMINAL_SCENES
    for scene in chance.sample(known, 2):
        scene(play)
        stops(play)
    return play.events[:MOST_EVENTS]


class TestScripts(StageCase):
    def test_terminals(self) -> None:
        self.try_scripts(over_journal=False)

    def test_tills(self) -> None:
        self.try_scripts(over_journal=True)

    def try_scripts(self, over_journal: bool) -> None:
        moments = 0
        for _ in range(SCRIPTS * self.times):
            bank = self.small_bank()
            events = random_script(self.chance, bank.says, over_journal)
            self.put("\n".join(events), over_journal, bank.text.decode())
            counts = sorted({len(events), *self.chance.sample(range(len(events)), min(5, len(events)))})
            moments += len(counts)
            self.compare(Reader(bank.says, over_journal), events, counts)
        self.tells(f"{moments} moments")

    def small_bank(self) -> Bank:
        """A bank with a card, and with few terminals."""
        while True:
            bank = random_bank(self.chance, self.chance.choice(("memory", "disk")), 200)
            if bank.says.cards and bank.says.terminals <= MOST_TERMINALS:
                return bank

    def compare(self, reader: Reader, events: list[str], counts: list[int]) -> None:
        """That each of these moments is shown as the models have it."""
        for count, event in enumerate([*events, ""]):
            if count in counts:
                self.move(count)
                what = "\n".join(events[:count])
                self.compare_moment(reader, events[:count], what)
            if event:
                reader.happens(event)

    def compare_moment(self, reader: Reader, events: list[str], what: str) -> None:
        seen, wanted = self.seen(), reader.shown()
        self.assertEqual((seen["events"], seen["lines"]), (events, reader.lines), what)
        self.assertEqual((seen["till"], seen["host"]), (wanted.till, wanted.host), what)
        found = {name: tuple(it) for name, it in seen["purchases"].items()}
        self.assertEqual({it: found.get(it) for it in wanted.purchases}, wanted.purchases, what)
        others = {it: found[it][2] for it in found if it not in wanted.purchases}
        self.assertNotIn("approved", others.values(), what)
        self.compare_laws(seen["laws"], wanted, reader.over_journal, seen["rest"][0] == "true", what)
        self.assertEqual(seen["pending"], {at: wanted.pending[at] for at in seen["pending"]}, what)
        numbers = reader.next_numbers()
        for at, text in seen["stores"].items():
            if at != "host":
                state = numbers[int(at[1:]) - 1]
                word = state.removeprefix("next ") if state.startswith("next") else {
                    "spent": "no number left", "empty": "no initial key"}[state]
                self.assertIn(word, text, what)

    def compare_laws(self, laws: list[list[str]], wanted: Shown, over_journal: bool, is_rest: bool,
                     what: str) -> None:
        last = "silent" if not over_journal else "holds" if is_rest else "waits"
        self.assertEqual([it[0] for it in laws], ["holds"] * 5 + [last], what)
        self.assertIn(f"{wanted.used} different", laws[0][1], what)
        self.assertRegex(laws[1][1], rf"^{wanted.accepted} times? accepted, {wanted.accepted} number")
        self.assertRegex(laws[2][1], rf"^{wanted.accepted} of {wanted.accepted} accepted requests ")
        self.assertRegex(laws[3][1], r"^(\d+) transactions? completed, \1 with ", what)
        self.assertIn(f"; {wanted.held} key", laws[4][1], what)


class TestPower(StageCase):
    """The device step at which the power fails, of each store."""

    def test_steps(self) -> None:
        config = self.value("stage-config")
        for stores, over_journal, end, steps, name in (
                ("memory", False, "t1", 2, "cell"), ("disk", False, "t1", 8, "cell"),
                ("memory", True, "t1 book", 2, "book"), ("disk", True, "t1 book", 8, "book"),
                ("memory", False, "host", 2, "log"), ("disk", False, "host", 4, "log"),
                ("memory", True, "host", 4, "journal")):
            for passes in {0, 1, steps - 1, steps}:
                self.put(f"{LOAD}\narm {end} {passes}\n{PAY}\nup 1\n", over_journal,
                         config.replace('"memory"', f'"{stores}"'))
                seen = self.seen()
                failed = [it for it in seen["texts"] if it.startswith("at device step")]
                what = f"{end} {passes} {stores}"
                is_cut = any(it.endswith("fault Store Device") for it in seen["lines"])
                self.assertEqual(is_cut, passes < steps, what)
                wanted = [f"at device step {passes + 1} of {steps} of its {name}"] if is_cut else []
                self.assertEqual(failed, wanted, what)
                self.assertEqual(seen["stopped"], len(wanted), what)

    def test_doubt(self) -> None:
        """While the host is stopped in the middle of a write, and behind its restart, the stage shows
        what its journal keeps: of a payment and of a reversal, at each step."""
        config = self.value("stage-config")
        bank = configuration.read(config.encode())
        for passes in range(5):
            for front, last in (
                    ([LOAD, PAY], 1), ([LOAD, PAY, "reverse t1"], 2),
                    ([LOAD, PAY, "up 1", "reverse t1"], 2),
                    ([LOAD, "arm t1 book 1", PAY, "restart t1", "reverse t1"], 1)):
                events = [*front, f"arm host {passes}", f"up {last}", "restart host"]
                self.put("\n".join(events), over_journal=True)
                reader = Reader(bank, over_journal=True)
                for count, event in enumerate(events, 1):
                    reader.happens(event)
                    self.move(count)
                    seen, wanted = self.seen(), reader.shown()
                    found = {name: tuple(seen["purchases"][name]) for name in wanted.purchases}
                    self.assertEqual((found, seen["host"]), (wanted.purchases, wanted.host),
                                     events[:count])
                    self.assertEqual(len(seen["laws"]), 6)

    def test_load(self) -> None:
        """A load whose write was cut may be kept: then the payments behind it are the terminal's own."""
        self.put(f"arm t1 1\n{LOAD}\nrestart t1\n{PAY}\nup 1\n")
        seen = self.seen()
        self.assertEqual(seen["lines"][1:3], ["t1 fault Store Device", "t1 next FFFF9876543210E00001"])
        self.assertEqual(seen["host"], 500)
        self.assertNotIn("broken", [it[0] for it in seen["laws"]])
