"""`find` over as many numbers as it tries: what the last of them made, and the one behind it.

The model of `finding` tries few; here a number is made by its place, and its key derived alone.
"""
from __future__ import annotations

import os
import resource
import subprocess
from typing import Sequence

from ..support.case import ProgramCase
from ..support.commands.commands import shown
from ..support.commands.everyday import NUMBERS, nth_counter
from ..support.commands.everyday_rows import BASE, IKSN, PAN
from ..support.commands.finding import MOST_NUMBERS, keys_of_number, progress_lines
from ..support.formats.frames import write_request
from ..support.program import spoken
from ..support.standards.des import decrypt_block, encrypt_block
from ..support.standards.dukpt import derive, serial_text
from ..support.standards.macs import cmac
from ..support.standards.pin_blocks import pin_block, pin_in

KEY = bytes.fromhex(BASE)
TEXT, CLEAR = "the text of a MAC", "00112233445566AA"
# As `find` writes it, and the options that tell of it, by the kind of what is sought.
KINDS = ("text", "pan", "clear")


def number_at(place: int) -> int:
    """The usable number of the terminal with so many before it."""
    return IKSN + nth_counter(place)


def made_at(place: int, kind: str) -> tuple[list[str], str]:
    """What the last key of a number made, as the words of a search, and what is told of that."""
    name, key = keys_of_number(derive(KEY, number_at(place)))[-1]
    made = {
        "text": (cmac(key, TEXT.encode()), TEXT, f"{name} cmac"),
        "pan": (encrypt_block(key, pin_block("1234", PAN).to_bytes(8, "big")), PAN, name),
        "clear": (encrypt_block(key, bytes.fromhex(CLEAR)), CLEAR, name),
    }
    what, told, found = made[kind]
    return [shown(what), f"--{kind}", told], f"found {serial_text(number_at(place))} {found}\n"


def is_by_chance(line: str, what: str) -> bool:
    """Whether the key that a line tells deciphers this to a PIN block under the PAN."""
    _, number, name = line.split()
    key = dict(keys_of_number(derive(KEY, int(number, 16))))[name]
    return pin_in(int.from_bytes(decrypt_block(key, bytes.fromhex(what)), "big"), PAN) is not None


def progress_of(kind: str, most: int, numbers: int) -> list[str]:
    """What a search by one of the kinds tells of its progress."""
    return progress_lines(len(TEXT), most, numbers) if kind == "text" else []


class FindCase(ProgramCase):
    """A search, whose lines are judged, those of its progress too."""

    def search(self, words: Sequence[str], line: str, told: Sequence[str] = (),
               explained: str = "") -> float:
        """That a search ends with this line, or finds nothing where it is empty, behind these lines of
        progress. The seconds of a processor that it took."""
        before = resource.getrusage(resource.RUSAGE_CHILDREN).ru_utime
        ended = self.program.run("find", BASE, *words)
        took = resource.getrusage(resource.RUSAGE_CHILDREN).ru_utime - before
        faults = "".join(f"{it}\n" for it in told) + ("" if line else f"not found\n{explained}")
        self.assert_ended(ended, int(not line), line.encode(), faults.encode(), spoken(words))
        return took


class Find(FindCase):
    """The time of a processor is measured and not judged."""

    weight = 20

    def test_the_last_number(self) -> None:
        """Without --window, and with as many as there may be, the last number is found, and none
        behind it."""
        for kind in KINDS:
            first = self.first_of(kind)
            words, line = made_at(first + MOST_NUMBERS - 1, kind)
            begun = ["--from", serial_text(number_at(first))]
            told = progress_of(kind, MOST_NUMBERS, MOST_NUMBERS)
            took = self.search([*words, *begun], line, told)
            most = ["--window", str(MOST_NUMBERS)]
            took = max(took, self.search([*words, *begun, *most], line, told))
            fewer = MOST_NUMBERS - 1
            told = progress_of(kind, fewer, fewer)
            self.search([*words, *begun, "--window", str(fewer)], "", told)
            later = ["--from", serial_text(number_at(first + MOST_NUMBERS))]
            self.search([*words, *later, "--window", "1000"], "")
            self.tells(f"--{kind}: {MOST_NUMBERS / took:.0f} numbers a second")

    def first_of(self, kind: str) -> int:
        """The first of as many numbers as there may be, of which the last alone has a key that made what
        is sought. A PIN block deciphers by chance to another one in one search of 28: then others do."""
        while True:
            first = self.chance.randrange(NUMBERS - MOST_NUMBERS - 1)
            words, line = made_at(first + MOST_NUMBERS - 1, kind)
            if kind != "pan":
                return first
            found = self.program.run("find", BASE, *words, "--from", serial_text(number_at(first)))
            if found.output == line.encode() or not is_by_chance(found.output.decode(), words[0]):
                return first

    def test_one_behind_the_window(self) -> None:
        first = self.chance.randrange(NUMBERS - MOST_NUMBERS - 1)
        words, line = made_at(first + MOST_NUMBERS, "clear")
        self.search([*words, "--from", serial_text(number_at(first))], "")
        self.search([*words, "--from", serial_text(number_at(first + 1))], line)

    def test_a_frame(self) -> None:
        """Its terminal's numbers are tried from the first on, and as many."""
        for place, is_found in ((MOST_NUMBERS - 1, True), (MOST_NUMBERS, False)):
            number = number_at(place)
            frame = write_request(derive(KEY, number), number, PAN, "1234", 1)
            line = f"found {serial_text(number)} request-mac retail\n"
            took = self.search([shown(frame)], line if is_found else "")
            self.search([shown(frame), "--from", serial_text(number), "--window", "1"], line)
            self.tells(f"{MOST_NUMBERS / took:.0f} numbers a second")

    def test_a_long_text(self) -> None:
        """A text of any length is taken, in hexadecimal too."""
        name, key = keys_of_number(derive(KEY, number_at(5)))[-1]
        for size in (1001, 4097, 60_000):
            text = bytes(self.chance.choice(b"0123456789ABCDEF") for _ in range(size))
            line = f"found {serial_text(number_at(5))} {name} cmac\n"
            for told, message in (([text.decode()], text), ([text.hex(), "--hex"], text)):
                words = [shown(cmac(key, message)), "--text", *told]
                self.search([*words, "--from", serial_text(number_at(4)), "--window", "2"], line)

    def test_the_last_of_a_terminal(self) -> None:
        """Behind it there is none, whatever the window is."""
        for kind in KINDS:
            words, line = made_at(NUMBERS - 1, kind)
            self.search([*words, "--from", serial_text(number_at(NUMBERS - 200))], line)
            self.search([*words, "--from", f"{IKSN + 0x1FF801:020X}"], "")


class FindProgress(FindCase):
    """The lines of progress of a search for the MAC of a text, on standard error."""

    weight = 20

    def words_of(self, size: int, from_place: int, place: int) -> tuple[list[str], str]:
        """A search from one place on for the MAC of a random text of so many bytes, which the last key
        of the number at another made, and the line that tells of it."""
        name, key = keys_of_number(derive(KEY, number_at(place)))[-1]
        text = bytes(self.chance.randrange(256) for _ in range(size))
        words = [shown(cmac(key, text)), "--text", text.hex(), "--hex",
                 "--from", serial_text(number_at(from_place))]
        return words, f"found {serial_text(number_at(place))} {name} cmac\n"

    def test_before_and_behind_a_line(self) -> None:
        """The number before a line is told without it, and the one behind it with it; in a window that
        ends at either, nothing else is told of one that is not there."""
        first = self.chance.randrange(NUMBERS // 2)
        for size, step, most_lines in ((64, 34_090, 1), (1_000, 2_929, 2), (60_000, 49, 1)):
            for lines in range(1, most_lines + 1):
                for place in (lines * step - 1, lines * step):
                    told = [f"tried {step * it} of {MOST_NUMBERS}" for it in range(1, place // step + 1)]
                    words, line = self.words_of(size, first, first + place)
                    self.search(words, line, told)
                    told = [f"tried {step * it} of {place}" for it in range(1, lines)]
                    self.search([*words, "--window", str(place)], "", told)

    def test_the_last_of_a_terminal(self) -> None:
        """No line stands behind its last number, whatever the window is."""
        size, step = 60_000, 49
        for left in (step - 1, step, step + 1, 2 * step, 2 * step + 1):
            words, _ = self.words_of(size, NUMBERS - left, 0)
            self.search(words, "", progress_lines(size, MOST_NUMBERS, left))

    def test_explained(self) -> None:
        """With --explain the lines are the same, and the explanation is that of the fault's line."""
        size, step = 60_000, 49
        words, line = self.words_of(size, 7, 7 + step)
        told = progress_lines(size, MOST_NUMBERS, step + 1)
        self.search([*words, "--explain"], line, told)
        explained = ("WHAT: made by no key that was tried; wanted: its key, and its number among those "
                     "that are tried; --from and --window choose the numbers\n")
        words, _ = self.words_of(size, 7, 0)
        most = str(step + 1)
        told = progress_lines(size, step + 1, step + 1)
        self.search([*words, "--window", most, "--explain"], "", told, explained)

    def test_told_while_it_goes_on(self) -> None:
        """The first line is there long before the search ends, which then takes half a minute more."""
        words, _ = self.words_of(1_000, 100, 0)
        for more in ([], ["--explain"]):
            with subprocess.Popen(["dukpt", "find", BASE, *words, *more],
                                  executable=str(self.program.path), stdin=subprocess.DEVNULL,
                                  stdout=subprocess.DEVNULL, stderr=subprocess.PIPE) as running:
                told = running.stderr.readline()
                with self.assertRaises(subprocess.TimeoutExpired):
                    running.wait(1)
                running.kill()
            self.assertEqual(told, b"tried 2929 of 100000\n")

    def test_lines_that_cannot_be_written(self) -> None:
        """They are lost, and what is found is told as ever."""
        words, line = self.words_of(60_000, 7, 7 + 100)
        with open("/dev/full", "wb", buffering=0) as full:
            ended = self.program.run("find", BASE, *words, faults=full.fileno())
        self.assert_ended(ended, 0, line.encode(), b"", spoken(words[:1]))
        read, write = os.pipe()
        os.close(read)
        try:
            ended = self.program.run("find", BASE, *words, faults=write)
        finally:
            os.close(write)
        self.assert_ended(ended, 0, line.encode(), b"", spoken(words[:1]))
