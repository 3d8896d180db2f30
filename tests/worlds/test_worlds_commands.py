"""Random arguments of the commands over keys, PINs and key blocks: what they write, to the letter."""
from __future__ import annotations

import random
from typing import Callable, Iterable

from ..support.case import ProgramCase
from ..support.commands.commands import (
    Refused, derive_lines, pin_lines, shown, unwrap_lines, walk_lines, wrap_lines)
from ..support.program import Word, spoken
from ..support.standards.dukpt import SPENT, next_counter, serial_text
from ..support.worlds.spoiled import key_block, spoiled_key_block
from ..support.worlds.worlds import digits

BLOCK_FAULTS = ("Length", "Version", "HeaderField", "OptionalBlock", "Hex", "Mac", "Payload")
COUNTERS = (0, 1, 0x7FE, 0x7FF, 0x1FF800, 0x1FFFFF)


def one_in(chance: random.Random, count: int) -> bool:
    return chance.randrange(count) == 0


def written(chance: random.Random, word: str) -> str:
    """A key in either case, now and then of another length or with a character that is none."""
    if one_in(chance, 8):
        at = chance.randrange(len(word))
        word = chance.choice((word[1:], word + "0", word[:-2], "", word[:at] + "g" + word[at + 1 :],
                              word + "00", " " + word[1:], "+" + word[1:], "0x" + word[2:]))
    return word.upper() if one_in(chance, 2) else word


def key_word(chance: random.Random, *lengths: int) -> str:
    return written(chance, chance.randbytes(chance.choice(lengths)).hex())


def plain(word: str) -> str:
    """The word, of which no reference comes by chance: one begins with @."""
    return f"A{word[1:]}" if word.startswith("@") else word


def serial_word(chance: random.Random, counters: Iterable[int]) -> str:
    serial = chance.randrange(1 << 80) // SPENT * SPENT + chance.choice(tuple(counters))
    word = serial_text(serial)
    if one_in(chance, 8):
        return chance.choice((word[1:], word + "0", "", word[:-1] + "x", word[4:]))
    return word.lower() if one_in(chance, 3) else word


class TestWords(ProgramCase):
    """A command is tried with words at random, and a tally counts what came of it."""

    weight = 3
    COUNT = 60

    def check(self, words: list[Word], made: Callable[[], list[str]]) -> str:
        """That a command writes these lines, or their fault. Gives what came of it."""
        try:
            output, fault = "".join(f"{line}\n" for line in made()), None
        except Refused as why:
            output, fault = "", str(why)
        ended = self.program.run(*words)
        faults = f"{fault}\n" if fault else ""
        self.assert_ended(ended, 1 if fault else 0, output.encode(), faults.encode(), spoken(words))
        self.tally.append(fault or "done")
        return fault or "done"

    def setUp(self) -> None:
        super().setUp()
        self.tally: list[str] = []

    def demand(self, *kinds: str) -> None:
        missing = [kind for kind in ("done", *kinds) if kind not in self.tally]
        self.assertFalse(missing, f"this never came: {missing}")
        self.tells(f"{len(self.tally)} commands")

    def test_derive(self) -> None:
        for _ in range(3 * self.COUNT * self.times):
            usable = (next_counter(self.chance.randrange(0x1FF800)) for _ in range(8))
            words = key_word(self.chance, 16), serial_word(self.chance, (*COUNTERS, *usable))
            self.check(["derive", *words], lambda: derive_lines(*words))
        self.demand("BDK refused", "KSN refused", "counter refused")

    def test_walk(self) -> None:
        for _ in range(2 * self.COUNT * self.times):
            self.try_walk()
        self.demand("BDK refused", "IKSN refused", "count refused")

    def try_walk(self) -> None:
        chance = self.chance
        base, iksn = key_word(chance, 16), serial_word(chance, (0, 0, 0, 0, 0, 0, 0, 1, 0x100000))
        count, skip = str(chance.randrange(40)), chance.choice(("0", str(chance.randrange(2000))))
        wrong = ("1048577", "", "x", "1x", " 1", "1 ", "99999999999999999999", "0x1", "\u0661")
        if one_in(chance, 8):
            count = chance.choice((*wrong, "00" + count))
        if one_in(chance, 8):
            skip = chance.choice((*wrong, "00" + skip))
        bare = one_in(chance, 2)
        words = ["walk", base, iksn, count]
        at = chance.randint(1, 4)
        words[at:at] = chance.choice(([f"--skip={skip}"], ["--skip", skip]))
        if bare:
            words.insert(chance.choice((1, len(words))), "--ksn")
        self.check(words, lambda: walk_lines(base, iksn, count, skip, bare))

    def test_pin(self) -> None:
        for _ in range(4 * self.COUNT * self.times):
            pin, pan = (self.number_word(4, 12), self.number_word(12, 19))
            key = None if one_in(self.chance, 4) else key_word(self.chance, 16)
            self.check(["pin", pin, pan, *([f"--key={key}"] if key is not None else [])],
                       lambda: pin_lines(pin, pan, key))
        self.demand("PinLength", "PinDigit", "PanLength", "PanDigit", "key refused")

    def number_word(self, least: int, most: int) -> str:
        chance = self.chance
        if one_in(chance, 6):
            return digits(chance, *chance.choice(((0, 0), (least - 1,) * 2, (most + 1,) * 2)))
        word = digits(chance, *chance.choice(((least, most), (least, least), (most, most))))
        if one_in(chance, 6):
            at = chance.randrange(1, len(word))
            word = word[:at] + chance.choice("/:aA +") + word[at + 1 :]
        return word

    def test_wrap(self) -> None:
        for _ in range(4 * self.COUNT * self.times):
            self.try_wrap(self.fields_word())
        self.demand("KBPK refused", "fields refused", "key refused", "pad refused", "HeaderField",
                    "PadLength")

    def fields_word(self) -> str:
        chance = self.chance
        printed = "".join(map(chr, chance.choices(range(0x20, 0x7F), k=7)))
        wrong = (printed[1:], printed + "0", "", "\x1f" + printed[1:], printed[:-1] + "\x7f",
                 printed[:-2] + "\u00e9")
        return plain(chance.choice(wrong) if one_in(chance, 5) else printed)

    def try_wrap(self, fields: str) -> None:
        chance = self.chance
        protection, key = key_word(chance, 16, 24), key_word(chance, 16, 24)
        length = chance.choice((6, 14, 22, 222, 214)) if not one_in(chance, 5) else (
            chance.choice((0, 5, 7, 8, 230, 238)))
        pad = chance.randbytes(length).hex()
        if one_in(chance, 12):
            pad = chance.choice((pad + "0", "xy", pad + " 0", pad[1:] + "0g0"))
        words = protection, fields, key, pad
        self.check(["wrap", "--", *words], lambda: wrap_lines(*words))

    def test_unwrap(self) -> None:
        for _ in range(6 * self.COUNT * self.times):
            words = self.protected()
            self.check(["unwrap", "--", *words], lambda: unwrap_lines(*words))
        self.demand("KBPK refused", *BLOCK_FAULTS)

    def test_what_is_wrapped(self) -> None:
        """What `wrap` writes `unwrap` reads, and under another key it does not."""
        for _ in range(self.COUNT // 2 * self.times):
            self.try_both(self.chance.randbytes(16), self.chance.randbytes(24))
        self.demand("Mac")

    def try_both(self, one: bytes, other: bytes) -> None:
        protection = shown(self.chance.choice((one, other)))
        wrapped = self.program.run("wrap", protection, "B1TX00N", shown(other), "A5" * 6)
        text = wrapped.output.decode().rstrip("\n")
        self.check(["unwrap", protection, text], lambda: ["fields B1TX00N", f"key {shown(other)}"])
        wrong = shown(self.chance.randbytes(16))
        self.check(["unwrap", wrong, text], lambda: unwrap_lines(wrong, text))

    def protected(self) -> tuple[str, str]:
        """A protection key, and a key block under it that may be spoiled."""
        protection = self.chance.randbytes(self.chance.choice((16, 24)))
        text = spoiled_key_block(self.chance, key_block(self.chance, protection))
        return written(self.chance, shown(protection)), plain(text.decode())
