"""Commands with too little memory: they report so, and the lines of what was done are written."""
from __future__ import annotations

from typing import Optional, Sequence

from ..support.commands.everyday_rows import BASE
from ..support.commands.issuing import MOST_COUNT, Ledger, numbers_from
from ..support.commands.shown import journal_ended, log_ended
from ..support.formats.bank import BANK, LONGEST, BankCase
from ..support.formats.images import log_disk
from ..support.formats.checked_journal import blank, checked, journal_of, plain_of
from ..support.formats.journal_records import RECORD
from ..support.formats.ledger_file import identity_of, ledger_image, shown_ledger
from ..support.models.model_journal import payments_of_all
from ..support.program import Ended, Limits, Word, spoken
from ..support.service.client import payments
from ..support.standards.dukpt import SPENT
from ..support.system.little_memory import AMPLE, OUT_OF_MEMORY, PAGE, least_to_start
from .test_lost_output import WRITERS

# Of the bytes of a word that a system takes.
LONGEST_WORD = 100_000
# How near the two sizes are between which a search ends.
NEAR = 4 * PAGE


class MemoryCase(BankCase):
    """With any size with which the program starts at all, a command is done, or it reports that it
    is out of memory behind the first lines."""

    weight = 6

    # What a run that is done notes on standard error.
    note = b""

    def behind(self, is_done: bool, what: str) -> None:
        """Looks at what a run left."""

    def try_size(self, words: Sequence[Word], output: bytes, memory: int) -> Optional[int]:
        """How many bytes were written before memory was refused; `None` where it was not."""
        ended = self.program.run(*words, folder=self.home, limits=Limits(memory=memory))
        what = f"{spoken(words)} with {memory >> 10} KiB"
        self.behind(ended.status == 0, what)
        if ended == Ended(0, output, self.note):
            return None
        self.assertEqual((ended.status, ended.faults), (1, OUT_OF_MEMORY), what)
        is_front = output.startswith(ended.output) and ended.output[-1:] in (b"", b"\n")
        self.assertTrue(is_front, f"{what}: the output is no first lines: {ended}")
        return len(ended.output)

    def try_sizes(self, words: Sequence[Word], output: bytes, tries: int) -> list[int]:
        """Looks for the least size that is enough, and tries sizes below and about it. What was
        written before memory was refused, each time."""
        least = least_to_start(self.program)
        ample, told = self.enough(words, output, least)
        for _ in range(tries * self.times):
            written = self.try_size(words, output, self.chance.randrange(least, ample + 8 * NEAR))
            told += [] if written is None else [written]
        self.tells(f"{words[0]}: out of memory {len(told)} times, "
                   f"{least >> 10} to {ample >> 10} KiB")
        return told

    def enough(self, words: Sequence[Word], output: bytes, refused: int) -> tuple[int, list[int]]:
        """A size that is enough and near to the least one, and what was written with each that was not."""
        ample, told = AMPLE, []
        self.assertIsNone(self.try_size(words, output, ample), "refused with ample memory")
        while ample - refused > NEAR:
            memory = (refused + ample) // 2
            written = self.try_size(words, output, memory)
            refused, ample = (refused, memory) if written is None else (memory, ample)
            told += [] if written is None else [written]
        return ample, told


class LittleMemory(MemoryCase):
    """Commands over no journal."""

    def test_a_shown_log(self) -> None:
        """All of it is printed, or nothing."""
        data = log_disk([at % 50 * SPENT + at // 50 + 1 for at in range(20_000)], 1)
        self.write("log", data)
        told = self.try_sizes(("show", "log", "log"), log_ended(data).output, 20)
        self.assertEqual(set(told), {0})

    def test_issued_numbers(self) -> None:
        """A run that passes over all of its numbers has their list; it prints nothing but
        how many those are, and the ledger is as before."""
        data = Ledger(20_001, numbers_from(0, 20_000)).image
        self.write("ledger", data)
        words = ("issue", BASE, BASE, "0" * 20, "20000", "--ledger", "ledger", "--skip-issued")
        self.note = b"passed over 20000\n"
        self.assertEqual(set(self.try_sizes(words, b"", 20)), {0})
        self.assertEqual((self.home / "ledger").read_bytes(), data)

    def test_a_run_of_many_lines(self) -> None:
        """Of a run that is refused memory the lines of the events before it are written."""
        count = 20_000
        script = b"load t1 FFFF9876543210E00000\n"
        script += b"begin t1 4012345678909 1234 1\n" * count
        self.write("begins.script", script)
        ended = self.program.run("run", "bank.toml", "begins.script", folder=self.home)
        self.assert_ended(ended, 0, lines_of_begins(count), b"", "with ample memory")
        told = self.try_sizes(("run", "bank.toml", "begins.script"), ended.output, 20)
        self.assertTrue(told, "out of memory was never reported")
        self.assertGreater(max(told), 0, "no line is written where memory is refused late")

    def test_a_run_of_many_reversals(self) -> None:
        """So it is over a journal."""
        count = 20_000
        script = b"load t1 FFFF9876543210E00000\nbegin t1 4012345678909 1234 1\n"
        self.write("tills.script", script + b"reverse t1\n" * count)
        words = ("run", "bank.toml", "tills.script", "--journal")
        output = lines_of_reversals(count)
        self.assert_ended(self.program.run(*words, folder=self.home), 0, output, b"",
                          "with ample memory")
        told = self.try_sizes(words, output, 20)
        self.assertTrue(told, "out of memory was never reported")
        self.assertGreater(max(told), 0, "no line is written where memory is refused late")

    def test_long_files(self) -> None:
        """Nothing is written of a script that there is no memory to read."""
        self.write("long.toml", BANK.ljust(LONGEST, b"#"))
        self.write("long.script", b"up 0\n" + b"#" * (LONGEST - 5))
        told = self.try_sizes(("run", "long.toml", "long.script"), b"no such frame\n", 20)
        self.assertTrue(told, "out of memory was never reported")

    def test_commands(self) -> None:
        """Only the reading of their words takes memory."""
        for words, output in WRITERS:
            written = self.try_sizes(words, output, 5)
            self.assertFalse(any(written), f"{spoken(words)}: written in part")


    def test_long_words(self) -> None:
        """The words are read before anything is said of them."""
        words = ("derive", *("0" * LONGEST_WORD for _ in range(10)))
        ample = self.program.run(*words)
        self.assertEqual((ample.status, ample.output), (2, b""))
        least, told = least_to_start(self.program), 0
        for size in (least, least + 2 * LONGEST_WORD, least + 5 * LONGEST_WORD):
            ended = self.program.run(*words, limits=Limits(memory=size))
            self.assert_ended(ended, 1, b"", OUT_OF_MEMORY, f"with {size >> 10} KiB")
        for _ in range(10 * self.times):
            size = least + self.chance.randrange(30 * LONGEST_WORD)
            ended = self.program.run(*words, limits=Limits(memory=size))
            self.assertIn(ended, (ample, Ended(1, b"", OUT_OF_MEMORY)), f"with {size >> 10} KiB")
            told += ended != ample
        self.tells(f"out of memory {told} times more")

    def test_a_run_whose_lines_are_lost(self) -> None:
        """Where lines were to be written before memory was refused, and could not be, that is
        told."""
        words, count = ("run", "bank.toml", "begins.script"), 20_000
        script = b"load t1 FFFF9876543210E00000\n" + b"begin t1 4012345678909 1234 1\n" * count
        self.write("begins.script", script)
        output, tried = lines_of_begins(count), 0
        least = least_to_start(self.program)
        with open("/dev/full", "wb") as full:
            for size in range(least, least + (16 << 20), 64 * PAGE):
                written = self.try_size(words, output, size)
                if written is None:
                    break
                if written < len(output) // 8 and size > least:
                    continue
                ended = self.program.run(*words, folder=self.home, output=full.fileno(),
                                         limits=Limits(memory=size))
                fault = b"script: write failed\n" if written else OUT_OF_MEMORY
                self.assert_ended(ended, 1, b"", fault, f"behind {written} bytes, {size >> 10} KiB")
                tried += written > 0
        self.assertGreater(tried, 0, "no line was written before memory was refused")
        self.tells(f"{tried} sizes")


class JournalMemory(MemoryCase):
    """A journal is shown, copied or made whole, or not at all: where memory is refused no file is left. A
    service over a journal stands in `test_service_memory`."""

    def setUp(self) -> None:
        super().setUp()
        # Every second number, since those in order take little.
        kept = payments_of_all(payments(6000)[::2])
        self.image = journal_of([[it] for it in kept], 50)
        self.write("journal", self.image)
        # What a run makes, where it is done.
        self.wanted = b""

    def behind(self, is_done: bool, what: str) -> None:
        self.assertEqual((self.home / "journal").read_bytes(), self.image, what)
        made = self.home / "made"
        left = made.read_bytes() if made.exists() else b""
        plain = plain_of(left)
        # Each has an identity of its own.
        left = left if plain is None else checked(plain)
        self.assertEqual(left, self.wanted if is_done else b"", f"{what}: {len(left)} bytes are left")
        self.assertTrue(left or not made.exists(), f"{what}: an empty file is left")
        made.unlink(missing_ok=True)

    def test_a_shown_journal(self) -> None:
        """All of it is printed, or nothing."""
        told = self.try_sizes(("show", "journal", "journal"), journal_ended(self.image).output, 20)
        self.assertEqual(set(told), {0})

    def test_a_copy(self) -> None:
        self.wanted = self.image
        self.assertEqual(set(self.try_sizes(("copy-journal", "journal", "made"), b"", 20)), {0})

    def test_a_new_journal(self) -> None:
        """It takes the memory of a piece of zeros."""
        self.wanted = blank(3000)
        told = self.try_sizes(("new-journal", "made", "3000"), b"", 20)
        self.assertLessEqual(set(told), {0})


class LedgerMemory(MemoryCase):
    """A ledger is shown, and a new one is whole, or nothing is left of it."""

    # The room of the one that is made, if one is.
    room: Optional[int] = None

    def behind(self, is_done: bool, what: str) -> None:
        made = self.home / "made"
        if is_done and self.room is not None:
            image = made.read_bytes()
            is_right = image == ledger_image([], self.room, identity_of(image) or 0)
            self.assertTrue(is_right, f"{what}: another ledger")
            made.unlink()
        self.assertFalse(made.exists(), what)

    def test_a_shown_ledger(self) -> None:
        """All of it is printed, or nothing; of a large one too."""
        for count in (20_000, 70_000):
            data = Ledger(count + 1, numbers_from(0, count)).image
            self.write("ledger", data)
            told = self.try_sizes(("show", "ledger", "ledger"), shown_ledger(data).encode(), 20)
            self.assertEqual(set(told), {0})

    def test_a_new_ledger(self) -> None:
        """It takes the memory of a piece of zeros."""
        self.room = 3000
        self.assertLessEqual(set(self.try_sizes(("new-ledger", "made", "3000"), b"", 20)), {0})

    def test_room(self) -> None:
        """Room for a whole key set takes no memory where a ledger is made or issued over. It is shown
        whole, or not at all."""
        least, numbers = least_to_start(self.program), numbers_from(0, 3)
        over = ("issue", BASE, BASE, "0" * 20, "3", "--ledger", "ledger", "--skip-issued")
        for name, note in (("new-ledger", b""), ("issue", b"passed over 3\n")):
            self.note, enough = note, 0
            for room in (3000, MOST_COUNT):
                self.write("ledger", Ledger(room, numbers).image)
                self.room = room if name == "new-ledger" else None
                words = over if name == "issue" else (name, "made", str(room))
                if not enough:
                    enough, _ = self.enough(words, b"", least)
                self.assertIsNone(self.try_size(words, b"", enough + NEAR), f"{name}: room takes memory")
        self.note, data = b"", Ledger(MOST_COUNT, numbers).image
        self.assertEqual((self.home / "ledger").read_bytes(), data)
        told = self.try_sizes(("show", "ledger", "ledger"), shown_ledger(data).encode(), 5)
        self.assertEqual(set(told), {0})


class GrownJournalMemory(MemoryCase):
    """A journal is made larger, or stays as it is."""

    def setUp(self) -> None:
        super().setUp()
        self.image = journal_of([[it] for it in payments_of_all(payments(9))], 50)
        self.write("journal", self.image)

    def behind(self, is_done: bool, what: str) -> None:
        wanted = self.image + bytes(3 * RECORD if is_done else 0)
        self.assertEqual((self.home / "journal").read_bytes(), wanted, what)
        self.write("journal", self.image)

    def test_a_grown_journal(self) -> None:
        """It takes no memory of its own."""
        told = self.try_sizes(("grow-journal", "journal", "3"), b"", 20)
        self.assertLessEqual(set(told), {0})


def lines_of_begins(count: int) -> bytes:
    """A terminal sends so many requests, with one usable counter after the other."""
    lines = [b"t1 loaded FFFF9876543210E00000\n"]
    lines += [b"t1 sent %d %b\n" % (sent + 1, number) for sent, number in enumerate(numbers(count))]
    return b"".join(lines)


def lines_of_reversals(count: int) -> bytes:
    """A till sends a purchase, and so many reversals of it."""
    first, *others = numbers(count + 1)
    lines = [b"t1 loaded FFFF9876543210E00000\n", b"t1 sent 1 %b\n" % first]
    lines += [b"t1 reversing %d %b of %b\n" % (sent + 2, number, first)
              for sent, number in enumerate(others)]
    return b"".join(lines)


def numbers(count: int) -> list[bytes]:
    """The first usable key serial numbers of a terminal."""
    found, counter = [], 0
    while len(found) < count:
        counter += 1
        if bin(counter).count("1") <= 10:
            found.append(b"FFFF9876543210%06X" % (0xE00000 + counter))
    return found
