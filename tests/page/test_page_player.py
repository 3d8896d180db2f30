"""The page's player: the lines that it plays are those of an independent model, and what `dukpt
run` prints. Its script `page/player.js` is tried in the page, over the module that the page carries,
many scripts in one call.
"""
from __future__ import annotations

import random
from collections import Counter
from dataclasses import dataclass, replace
from typing import Callable, Optional, Sequence

from ..support.case import ProgramCase
from ..support.formats import configuration
from ..support.formats.bank import BANK, SCRIPT
from ..support.formats.script import first_bad_line
from ..support.page.page_case import PageCase
from ..support.page.page_player import (
    Fault, Played, changed_in_memory, load_player, module, play_all, play_long,
    source)
from ..support.worlds.books_walk import random_walk_bank, walked
from ..support.worlds.outcomes import kind_of
from ..support.worlds.scenes import random_play, script_of
from ..support.worlds.scenes_books import random_books_play, random_journal_room
from ..support.worlds.spoiled import spoiled_configuration, spoiled_script
from ..support.worlds.worlds import random_bank, random_room

# Scripts of either kind, how many of them are played in one call, and what is spoiled of each.
SCRIPTS, AT_ONCE, SPOILED = 1000, 50, 200
# The share of scripts of tills that is made of scenes: the others are walks, which are shorter.
SCENES = 0.25
# In how many scripts a planted fault is found.
TRIES = 40
# The words with which the player refuses what its memory or its room does not hold.
NO_MEMORY = Fault("memory", 0, "the player has no memory left for this")
NO_ROOM = Fault("room", 0, "the lines have more than 1048576 bytes")
# The places of the memory that a run changes for good: the two ends of its heap.
ENDS_OF_HEAP = 16


@dataclass(frozen=True)
class Drawn:
    """A script, its configuration, and the lines that the model gives."""

    config: bytes
    script: bytes
    is_journal: bool
    lines: Sequence[str]


def of_terminals(chance: random.Random, number: int) -> Drawn:
    """A script of terminals, over stores in memory and on disks in turn."""
    bank = random_bank(chance, ("memory", "disk")[number % 2], random_room(chance))
    play = random_play(chance, bank.says)
    return Drawn(bank.text, script_of(chance, play.events), False, play.lines)


def of_tills(chance: random.Random, number: int) -> Drawn:
    """A script of tills over a journal."""
    if chance.random() < SCENES:
        bank = random_bank(chance, ("memory", "disk")[number % 2], random_journal_room(chance))
        play = random_books_play(chance, bank.says)
    else:
        bank = random_walk_bank(chance)
        play = walked(chance, bank.says, ages=False)
    return Drawn(bank.text, script_of(chance, play.events), True, play.lines)


def either(chance: random.Random, number: int) -> Drawn:
    return (of_terminals, of_tills)[number % 2](chance, number // 2)


class PlayerCase(PageCase):
    """A test of the player, which is loaded in the page."""

    def setUp(self) -> None:
        super().setUp()
        load_player(self.browser)

    def drawn(self, draw: Callable[[random.Random, int], Drawn], count: int) -> list[Drawn]:
        return [draw(random.Random(self.chance.getrandbits(64)), it) for it in range(count)]

    def played(self, drawn: Sequence[Drawn]) -> list[Played]:
        return play_all(self.browser, [(it.config, it.script, it.is_journal) for it in drawn])

    def play(self, config: bytes, script: bytes, is_journal: bool = False) -> Played:
        return play_all(self.browser, [(config, script, is_journal)])[0]

    def play_long(self, count: int, is_journal: bool = False) -> Played:
        """A script of so many deliveries of a frame that was never sent."""
        return play_long(self.browser, BANK, b"up 1\n", count, is_journal)

    def assert_plays(self) -> None:
        """That a script is played as it is in a new player."""
        self.assertEqual(self.play(BANK, SCRIPT).fault, None)


class TestModel(PlayerCase):
    """Scripts at random: what is played is what the model says."""

    weight = 6

    def try_scripts(self, draw: Callable[[random.Random, int], Drawn]) -> None:
        tally: Counter[str] = Counter()
        for _ in range(SCRIPTS * self.times // AT_ONCE):
            drawn = self.drawn(draw, AT_ONCE)
            for it, found in zip(drawn, self.played(drawn), strict=True):
                self.assertEqual(found, Played(list(it.lines), None), it)
                tally.update(map(kind_of, it.lines))
        count = SCRIPTS * self.times
        self.tells(f"{count} scripts, {sum(tally.values())} lines of {len(tally)} kinds")

    def test_terminals(self) -> None:
        self.try_scripts(of_terminals)

    def test_tills(self) -> None:
        self.try_scripts(of_tills)


class TestProgram(ProgramCase, PlayerCase):
    """The same scripts in the page and by the program."""

    weight = 6

    def test_run(self) -> None:
        count = self.share_of(2 * SCRIPTS)
        for _ in range(-(-count // AT_ONCE)):
            drawn = self.drawn(either, AT_ONCE)
            for it, found in zip(drawn, self.played(drawn), strict=True):
                self.assertEqual(found, self.printed(it), it)
        self.tells(f"{count} scripts")

    def printed(self, drawn: Drawn) -> Played:
        """What `dukpt run` prints of a script."""
        home = self.folder()
        (home / "bank.toml").write_bytes(drawn.config)
        (home / "all.script").write_bytes(drawn.script)
        words = ["run", "bank.toml", "all.script", *(["--journal"] if drawn.is_journal else [])]
        ended = self.program.run(*words, folder=home)
        self.assertEqual((ended.status, ended.faults), (0, b""), drawn)
        return Played(ended.output.decode().splitlines(), None)


class TestFaults(PlayerCase):
    def test_configurations(self) -> None:
        """Spoiled configurations: their first fault, in the words of `dukpt run`."""
        texts = (spoiled_configuration(self.chance) for _ in range(SPOILED))
        drawn = [Drawn(it, b"", self.chance.random() < 0.5, []) for it in texts if is_text(it)]
        wrong = 0
        for it, found in zip(drawn, self.played(drawn), strict=True):
            why = fault_of_configuration(it.config)
            self.assertEqual(found, Played([], why and Fault("config", 0, why)), it.config)
            wrong += why is not None
        self.assertGreater(wrong, SPOILED // 4)
        self.tells(f"{len(drawn)} configurations, {wrong} of them wrong")

    def test_scripts(self) -> None:
        """Spoiled scripts: the first line that is no event, over a log and over a journal."""
        spoiled = (replace(it, script=spoiled_script(self.chance, it.script), lines=[])
                   for it in self.drawn(either, SPOILED))
        wrong = [it for it in spoiled if is_text(it.script)
                 and first_bad_line(it.script, it.is_journal) is not None]
        for it, found in zip(wrong, self.played(wrong), strict=True):
            line = first_bad_line(it.script, it.is_journal)
            why = Fault("script", line, f"line {line}: not an event")
            self.assertEqual(found, Played([], why), it.script)
        self.assertGreater(len(wrong), SPOILED // 4)
        self.tells(f"{len(wrong)} scripts")

    def test_lines_of_tills(self) -> None:
        """What only tills do is no event of a script of terminals."""
        for script in (b"reverse t1\n", b"arm t1 book 0\n"):
            self.assertEqual(self.play(BANK, script, True).fault, None)
            self.assertEqual(self.play(BANK, script).fault.kind, "script")

    def test_longest_configuration(self) -> None:
        longest = BANK + b"#" * (configuration.LONGEST - len(BANK))
        self.assertEqual(self.play(longest, SCRIPT).fault, None)
        too_long = Fault("config", 0, "config: too long")
        self.assertEqual(self.play(longest + b"#", SCRIPT), Played([], too_long))


class TestMemory(PlayerCase):
    def test_full(self) -> None:
        """A script that fills the heap, one that leaves it nothing, and what is played then."""
        for is_journal in (False, True):
            for count in (400_000, 20_000_000):
                self.assertEqual(self.play_long(count, is_journal), Played([], NO_MEMORY), count)
                self.assert_plays()

    def test_room(self) -> None:
        """The longest text of lines, and a line more."""
        line = "no such frame"
        count = 1_048_576 // len(f"{line}\n")
        self.assertEqual(self.play_long(count), Played([line] * count, None))
        self.assertEqual(self.play_long(count + 1), Played([], NO_ROOM))
        self.assert_plays()

    def test_largest_bank(self) -> None:
        """The most terminals, over the largest log and journal."""
        for stores in ("memory", "disk"):
            size = f"terminals = 16\nstores = '{stores}'".encode()
            bank = BANK.replace(b"terminals = 2", size).replace(b"log = 100", b"log = 100000")
            for is_journal in (False, True):
                self.assertEqual(self.play(bank, b"restart t16", is_journal).lines, ["t16 empty"])

    def test_nothing_stays(self) -> None:
        """Behind a run, however it ends, the memory is as it was: no key and no PIN stays in it."""
        for it in (*self.drawn(either, 4), Drawn(BANK, b"none", False, [])):
            self.played([it])
            self.assertLessEqual(changed_in_memory(self.browser), ENDS_OF_HEAP, it)
        self.play_long(400_000, True)
        self.assertLessEqual(changed_in_memory(self.browser), ENDS_OF_HEAP)


class TestPlanted(PlayerCase):
    """Faults in copies of the script and the module are found by what the tests above compare."""

    weight = 3

    def test_found(self) -> None:
        drawn = self.drawn(either, TRIES)
        wanted = [Played(list(it.lines), None) for it in drawn]
        for what, old, new in (
            ("a log in the place of a journal", "isJournal ? 1 : 0", "0"),
            ("a journal in the place of a log", "isJournal ? 1 : 0", "1"),
            ("a script without its last byte", "slice(scriptAt, script.length)",
             "slice(scriptAt, script.length - 2)"),
            ("no last line", ".slice(0, -1)", ".slice(0, -2)"),
            ("as many bytes as the first run", "word(lengthAt))",
             "(globalThis.first ??= word(lengthAt)))"),
        ):
            self.assertEqual(source().count(old), 1, what)
            load_player(self.browser, script=source().replace(old, new))
            self.assertNotEqual(self.played(drawn), wanted, what)
        for one, other in ((b"accepted", b"repeated"), (b"IksnSpent", b"NotLoaded"),
                           (b"undone", b"opened")):
            load_player(self.browser, code=exchanged(module(), one, other))
            self.assertNotEqual(self.played(drawn), wanted, one)
        load_player(self.browser)
        self.assertEqual(self.played(drawn), wanted)

    def test_left(self) -> None:
        for old in ("player.arena_end();", "memory.fill(0, 0, STACK);",
                    "memory.fill(0, front, end);"):
            self.assertEqual(source().count(old), 1, old)
            load_player(self.browser, script=source().replace(old, ""))
            self.assert_plays()
            self.assertGreater(changed_in_memory(self.browser), ENDS_OF_HEAP, old)


def exchanged(code: bytes, one: bytes, other: bytes) -> bytes:
    """A module with two words of the same length exchanged."""
    assert one in code and len(one) == len(other), one
    return other.join(part.replace(other, one) for part in code.split(one))


def fault_of_configuration(text: bytes) -> Optional[str]:
    try:
        configuration.read(text)
    except configuration.Refused as why:
        return str(why)
    return None


def is_text(data: bytes) -> bool:
    """Whether bytes are UTF-8, as all that stands in a field of the page is."""
    try:
        data.decode()
    except UnicodeDecodeError:
        return False
    return True
