"""Random worlds with reversals: tills, a host over a journal and a network that loses, repeats and
reorders, whose ends stop at any device step. The lines of `dukpt run --journal`, to the letter.

A model says them, and behind each event it is judged by the law of books, as the lines of the program
are; all that can come does. Tills and hosts that do one thing wrong are found by their lines, and those
that break the law by it.
"""
from __future__ import annotations

import random
from collections import Counter
from typing import Callable, Iterator, Optional

from ..support.case import Case, in_parts
from ..support.formats import configuration
from ..support.formats.bank import BANK, BankCase
from ..support.formats.books import Approved, Declined, Open, Undone, book_of, read_book
from ..support.formats.frames import write_reversal
from ..support.formats.images import BODY
from ..support.formats.script import first_bad_line
from ..support.models.model_books import Books, Disagreement, played
from ..support.service.client import BDK, refused_requests
from ..support.service.reversals import refused_reversals, reversals_of, serial_of
from ..support.standards.dukpt import derive
from ..support.worlds.books_agree import Auditor
from ..support.worlds.books_lines import LinesLaw
from ..support.worlds.books_play import BooksPlay
from ..support.worlds.books_walk import no_change, random_walk_bank, walked
from ..support.worlds.outcomes import BOOKS_KINDS, WALK_KINDS
from ..support.worlds.scenes import script_of
from ..support.worlds.scenes_books import random_books_play, random_journal_room, strays
from ..support.worlds.spoiled import spoiled_script
from ..support.worlds.worlds import Bank, random_bank
from ..support.worlds.wrong_books import BREAKS_LAW, KEEPS_LAW, Spoil
from .test_worlds import WorldsCase, first_other_line

# Of worlds that the program plays too: those made of scenes, and walks; and of walks that the model
# plays alone.
WORLDS, WALKS, LONE_WALKS = 300, 1200, 2000
SPOILED = 60
# In how many worlds each wrong end is found.
TRIES = 3000

# A script by hand with its lines.
BY_HAND = (
    ("load t1 FFFF9876543210E00000", "t1 loaded FFFF9876543210E00000"),
    ("reverse t1", "t1 fault NothingOpen"),
    ("begin t1 4012345678909 1234 500", "t1 sent 1 FFFF9876543210E00001"),
    ("begin t1 4012345678909 1234 500", "t1 fault Open"),
    ("load t1 FFFF9876543211000000", "t1 fault Open"),
    ("up 1", "answer 1 accepted FFFF9876543210E00001 00"),
    ("up 1", "answer 2 repeated FFFF9876543210E00001 00"),
    ("restart t1", "t1 next FFFF9876543210E00002 open FFFF9876543210E00001"),
    ("down 1 t1", "t1 fault NotPending"),
    ("reverse t1", "t1 reversing 2 FFFF9876543210E00002 of FFFF9876543210E00001"),
    ("down 2 t1", "t1 fault NotPending"),
    ("up 2", "answer 3 undone FFFF9876543210E00002 of FFFF9876543210E00001 01"),
    ("up 2", "answer 4 undone FFFF9876543210E00002 of FFFF9876543210E00001 01"),
    ("reverse t1", "t1 reversing 3 FFFF9876543210E00003 of FFFF9876543210E00001"),
    ("down 3 t1", "t1 fault NotMine"),
    ("up 3", "answer 5 undone FFFF9876543210E00003 of FFFF9876543210E00001 01"),
    ("up 1", "answer 6 refused FFFF9876543210E00001 5"),
    ("down 6 t1", "t1 fault NotMine"),
    ("restart host", "host used 3"),
    ("up 3", "answer 7 undone FFFF9876543210E00003 of FFFF9876543210E00001 01"),
    ("down 7 t1", "t1 undone FFFF9876543210E00001"),
    ("down 7 t1", "t1 fault NothingOpen"),
    ("restart t1", "t1 next FFFF9876543210E00004 undone FFFF9876543210E00001"),
    ("begin t1 4012345678909 1234 500", "t1 sent 4 FFFF9876543210E00004"),
    ("reverse t1", "t1 reversing 5 FFFF9876543210E00005 of FFFF9876543210E00004"),
    ("up 5", "answer 8 undone FFFF9876543210E00005 of FFFF9876543210E00004 00"),
    ("up 4", "answer 9 refused FFFF9876543210E00004 5"),
    ("down 8 t1", "t1 undone FFFF9876543210E00004"),
    ("begin t1 4012345678909 1234 10001", "t1 sent 6 FFFF9876543210E00006"),
    ("up 6", "answer 10 accepted FFFF9876543210E00006 51"),
    ("arm t1 book 0", "t1 book armed 0"),
    ("down 10 t1", "t1 fault Store Device"),
    ("reverse t1", "t1 fault Stopped"),
    ("restart t1", "t1 next FFFF9876543210E00007 open FFFF9876543210E00006"),
    ("reverse t1", "t1 reversing 7 FFFF9876543210E00007 of FFFF9876543210E00006"),
    ("arm host 3", "host armed 3"),
    ("up 7", "host fault Store Device"),
    ("up 7", "host fault Stopped"),
    ("restart host", "host used 5"),
    ("up 7", "answer 11 undone FFFF9876543210E00007 of FFFF9876543210E00006 00"),
    ("down 11 t1", "t1 undone FFFF9876543210E00006"),
    ("begin t1 4012345678909 1234 500", "t1 sent 8 FFFF9876543210E00008"),
    ("up 8", "answer 12 accepted FFFF9876543210E00008 00"),
    ("arm t1 book 1", "t1 book armed 1"),
    ("down 12 t1", "t1 fault Store Device"),
    ("restart t1", "t1 next FFFF9876543210E00009 approved FFFF9876543210E00008"),
    ("arm t1 0", "t1 armed 0"),
    ("begin t1 4012345678909 1234 500", "t1 fault Store Device"),
    ("reverse t1", "t1 fault NothingOpen"),
    ("down 12 t1", "t1 fault NothingOpen"),
    ("begin t1 4012345678909 1234 500", "t1 fault Stopped"),
    ("load t1 FFFF9876543211000000", "t1 fault Stopped"),
    ("restart t1", "t1 next FFFF9876543210E00009 approved FFFF9876543210E00008"),
    ("begin t1 4012345678909 1234 500", "t1 sent 9 FFFF9876543210E00009"),
    ("arm t1 1", "t1 armed 1"),
    ("reverse t1", "t1 fault Store Device"),
    ("begin t1 4012345678909 1234 500", "t1 fault Open"),
    ("load t1 FFFF9876543211000000", "t1 fault Open"),
    ("reverse t1", "t1 fault Stopped"),
    ("down 12 t1", "t1 fault Stopped"),
    ("restart t1", "t1 next FFFF9876543210E0000B open FFFF9876543210E00009"),
    ("reverse t2", "t2 fault NothingOpen"),
    ("restart t2", "t2 empty"),
    ("reverse t3", "no such terminal"),
    ("arm t3 book 1", "no such terminal"),
)
# What books keep, with the front of their bytes.
BOOKS = (
    (Open(0xFFFF9876543210E00001, 500), "8101 FFFF9876543210E00001 000001F4 00"),
    (Approved(0xFFFF9876543210E00008, 0xFFFFFFFF), "8102 FFFF9876543210E00008 FFFFFFFF 00"),
    (Declined(0xFFFF9876543210E00003, "51"), "8103 FFFF9876543210E00003 00000000 33"),
    (Undone(0xFFFF9876543210E00004), "8104 FFFF9876543210E00004 00000000 00"),
)
# Lines that are events over a journal alone, and lines that are none there too.
EVENTS_OF_TILLS = (b"reverse t1", b"reverse t16", b"arm t1 book 0", b"arm t16 book 4294967295",
                   b"reverse t1\r\n")
NO_EVENTS = (
    b"reverse", b"reverse host", b"reverse t0", b"reverse t17", b"reverse t01", b"reverse T1",
    b"reverse t1 ", b"reverse t1 1", b"reverse 1", b"Reverse t1", b"reverse t1 book", b"arm t1 book",
    b"arm book 1", b"arm host book 1", b"arm t1 book 01", b"arm t1 1 book", b"arm t1 Book 1",
    b"arm t1 book 4294967296", b"arm t17 book 1", b"arm t1  book 1", b"restart t1 book", b"up t1")


def random_world(chance: random.Random, number: int) -> tuple[Bank, BooksPlay]:
    """A world made of scenes, and its bank."""
    bank = random_bank(chance, ("memory", "disk")[number % 2], random_journal_room(chance))
    return bank, random_books_play(chance, bank.says)


def random_walk(chance: random.Random) -> tuple[Bank, BooksPlay]:
    bank = random_walk_bank(chance)
    return bank, walked(chance, bank.says, ages=False)


class Law(Case):
    """The law of books over the model alone."""

    weight = 6

    def test_walks(self) -> None:
        tally: Counter[str] = Counter()
        for _ in range(LONE_WALKS * self.times):
            chance = random.Random(self.chance.getrandbits(64))
            tally += walked(chance, random_walk_bank(chance).says, ages=True).tally
        self.tells(f"{LONE_WALKS * self.times} walks; every till was at rest "
                   f"behind {tally['every till is at rest']} events")
        missing = [kind for kind in WALK_KINDS if not tally[kind]]
        self.assertFalse(missing, f"this never came: {missing}")

    def test_wrong_ends(self) -> None:
        """The law finds tills and hosts that break it."""
        for name, spoil in BREAKS_LAW.items():
            tries = (number for number in range(1, TRIES + 1) if not self.holds_in_a_walk(spoil))
            number = next(tries, None)
            self.assertIsNotNone(number, f"{name} is not found in {TRIES} walks")
            self.tells(f"{name} in walk {number}")

    def holds_in_a_walk(self, spoil: Spoil) -> bool:
        chance = random.Random(self.chance.getrandbits(64))
        try:
            walked(chance, random_walk_bank(chance).says, ages=True, spoil=spoil)
        except Disagreement:
            return False
        return True

    def test_by_hand(self) -> None:
        world = Books(configuration.read(BANK))
        auditor = Auditor(world)
        for event, line in BY_HAND:
            self.assertEqual(world.happens(event), line, event)
            auditor.demand()
        self.assertEqual(sum(world.merchants(0).values()), 500)

    def test_frames(self) -> None:
        """The model's host refuses what `client` and `reversals` know as wrong, with their reasons."""
        host = Books(configuration.read(BANK)).host
        for it in (*refused_requests(), *refused_reversals()):
            self.assertEqual(host.answer(it.frame).frame, it.answer, it.frame.hex())
        for it in reversals_of([(8, 1), (9, 2), (10, 1)]):
            serial = serial_of(it)
            made = write_reversal(derive(BDK, serial), serial, int.from_bytes(it.reversed, "big"))
            self.assertEqual(made, it.frame)
            self.assertEqual(host.answer(made).frame, it.answer)

    def test_books(self) -> None:
        """Books byte by byte, and bodies that are none."""
        for last, text in BOOKS:
            body = bytes.fromhex(text).ljust(BODY, b"\x00")
            self.assertEqual((book_of(last), read_book(body)), (body, last))
        good = book_of(BOOKS[0][0])
        for place, value in ((0, 1), (1, 0), (1, 5), (11, 0), (16, 51), (17, 1), (BODY - 1, 1)):
            self.assertIsNone(read_book(good[:place] + bytes([value]) + good[place + 1 :]), place)
        self.assertIsNone(read_book(book_of(Declined(BOOKS[0][0].serial, "15"))))

    def test_words(self) -> None:
        for line in EVENTS_OF_TILLS:
            self.assertIsNone(first_bad_line(line, over_journal=True), line)
            self.assertEqual(first_bad_line(line), 1, line)
        for line in NO_EVENTS:
            self.assertEqual(first_bad_line(line, over_journal=True), 1, line)


class Wrong(Case):
    """Tills and hosts that do one thing wrong write other lines than the program has to."""

    weight = 3

    def test_lines(self) -> None:
        """They are found where the lines of the program are compared."""
        self.demand_found({**BREAKS_LAW, **KEEPS_LAW}, other_line)

    def test_law(self) -> None:
        """Those that break the law are found by it in their lines alone."""
        self.demand_found(BREAKS_LAW, unlawful_line)

    def demand_found(self, spoils: dict[str, Spoil], find: Find) -> None:
        left = dict(spoils)
        for number in range(1, TRIES + 1):
            chance = random.Random(self.chance.getrandbits(64))
            _, play = random_world(chance, number) if number % 4 else random_walk(chance)
            self.assertIsNone(find(play, no_change))
            for name in [name for name, spoil in left.items() if find(play, spoil) is not None]:
                self.tells(f"{name} in world {number}")
                del left[name]
            if not left:
                return
        self.fail(f"{list(left)} are not found in {TRIES} worlds")


def lines_of_wrong(play: BooksPlay, spoil: Spoil) -> Iterator[tuple[str, str]]:
    """The events of a play, with the lines that they have in a world that is wrong."""
    world = Books(play.bank)
    spoil(world)
    for event in play.events:
        yield event, world.happens(event)


def other_line(play: BooksPlay, spoil: Spoil) -> Optional[str]:
    """The first event of a play that has another line in a world that is wrong."""
    event = play.events[0]
    try:
        for (event, line), wanted in zip(lines_of_wrong(play, spoil), play.lines):
            if line != wanted:
                return event
    except Disagreement:
        # A till was told of one purchase as two things.
        return event
    return None


def unlawful_line(play: BooksPlay, spoil: Spoil) -> Optional[str]:
    """The first line in a world that is wrong which breaks the law."""
    law, line = LinesLaw(), ""
    try:
        for _, line in lines_of_wrong(play, spoil):
            law.reads(line)
    except Disagreement:
        return line
    return None


Find = Callable[[BooksPlay, Spoil], Optional[str]]


class Scripts(WorldsCase):
    """Scripts through `dukpt run --journal`, line by line."""

    weight = 8

    @in_parts(2)
    def test_lines(self) -> None:
        count, events, draws = self.share_of(WORLDS), 0, self.own_chance()
        for number in range(count):
            chance = random.Random(draws.getrandbits(64))
            bank, play = random_world(chance, number)
            self.try_script(bank, play, script_of(chance, play.events), number)
            self.tally += play.tally
            events += len(play.events)
        self.tells(f"{count} worlds, {events} events")
        self.assert_all_came(BOOKS_KINDS)

    def try_script(self, bank: Bank, play: BooksPlay, script: bytes, number: int) -> None:
        words = ["run", self.write("bank.toml", bank.text), self.write("all.script", script)]
        words.insert(self.chance.randint(1, 3), "--journal")
        ended = self.program.run(*words)
        wanted = "".join(f"{line}\n" for line in play.lines).encode()
        self.assertEqual((ended.status, ended.faults), (0, b""), f"world {number}")
        if ended.output != wanted:
            self.fail(f"world {number}: {first_other_line(play, ended.output)}")
        law = LinesLaw()
        for line in ended.output.decode().splitlines():
            law.reads(line)

    @in_parts(2)
    def test_walks(self) -> None:
        count, draws = self.share_of(WALKS), self.own_chance()
        for number in range(count):
            chance = random.Random(draws.getrandbits(64))
            bank, play = random_walk(chance)
            self.try_script(bank, play, script_of(chance, play.events), number)
        self.tells(f"{count} walks")

    def test_spoiled(self) -> None:
        """Scripts that are spoiled: the first line that is no event, or what they say."""
        for _ in range(SPOILED * self.times):
            chance = random.Random(self.chance.getrandbits(64))
            bank = random_bank(chance, chance.choice(("memory", "disk")), 20)
            play = BooksPlay(chance, bank.says)
            strays(play)
            script = spoiled_script(chance, script_of(chance, play.events))
            self.write("bank.toml", bank.text)
            self.write("all.script", script)
            bad = first_bad_line(script, over_journal=True)
            output = played(bank.says, script) if bad is None else b""
            fault = f"line {bad}: not an event\n".encode() if bad else b""
            ended = self.program.run("run", "bank.toml", "all.script", "--journal", folder=self.home)
            self.assert_ended(ended, 1 if bad else 0, output, fault, repr(script))
            self.tally["no event" if bad else "a script"] += 1
        self.assert_all_came(("no event", "a script"))


class ByHand(BankCase):
    """A script of which each line was written down, and words that are none."""

    def test_by_hand(self) -> None:
        self.write("all.script", "".join(f"{event}\n" for event, _ in BY_HAND).encode())
        output = "".join(f"{line}\n" for _, line in BY_HAND).encode()
        self.check(("run", "bank.toml", "all.script", "--journal"), output)
        self.check(("run", "bank.toml", "all.script"), fault="line 2: not an event")

    def test_words(self) -> None:
        for line in NO_EVENTS:
            self.write("all.script", b"restart host\n" + line + b"\n")
            self.check(("run", "bank.toml", "all.script", "--journal"), fault="line 2: not an event",
                       what=repr(line))
        for line in EVENTS_OF_TILLS:
            self.write("all.script", line)
            self.check(("run", "bank.toml", "all.script"), fault="line 1: not an event",
                       what=repr(line))
