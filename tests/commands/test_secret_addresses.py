"""Whether a branch or an address depends on a key: of whole runs of the program, under other keys.

Two runs differ in their keys alone, and in the MACs and enciphered PIN blocks that come of these. Place by
place the texts of their keys have both a digit or both a letter, and so can be read alike. A service is
watched from its first read of requests on: before that it makes key blocks of its configuration's keys and
opens them again, once, by tables. Of commands that print keys, a digit that is written may be looked up in a
table of the sixteen digits. A journal's check sum is looked up by bytes of what is kept, so of a request's
MAC, which comes in a frame, and a ledger's by those of check values.
"""
from __future__ import annotations

import random
import re
from dataclasses import dataclass
from pathlib import Path
from typing import Sequence
from unittest import mock

from ..support.case import Case, ProgramCase
from ..support.commands.issuing import Keys, numbers_from, read_lines
from ..support.formats.bank import BANK
from ..support.formats.journal_file import make_journal, records_for
from ..support.formats.ledger_file import ledger_image
from ..support.library.library import demand, ran
from ..support.program import Program, Word
from ..support.service import client
from ..support.service.client import (
    IKSN, PURCHASES, Exchange, first_counters, keys_of, number_of, payments_of, refusal)
from ..support.service.reversals import reversals_of
from ..support.service.service_case import stream_of, with_room
from ..support.system.addresses import Found, Run, compared

# How many numbers a terminal walks, how many come as items, and how many initial keys are issued; how many
# payments there are, and how many of them are reversed and how many come again.
NUMBERS, ITEMS, ISSUED, PAYMENTS, REVERSALS, REPEATS = 2_000, 300, 150, 40, 8, 8
# How many requests and reversals have a wrong MAC: of more than 128 frames, of which the rest is not worked
# on one by one, and where few are enough. What is reversed then has this other bit in its counter.
WRONG, FEW, ANOTHER = 80, 16, 1 << 12
APPROVED, WRONG_MAC = "00", 4
# The crates of the ciphers.
CIPHERS = {"duk_des", "duk_tdes", "duk_mac"}
# The bytes of a MAC.
MAC = 8
KEY = re.compile(rb'(?<=")[0-9A-F]{32}(?=")')
ZONE = re.compile(rb'^zone = .*$', re.MULTILINE)
BDK = re.compile(rb'^key = "(\w{32})"$', re.MULTILINE)
ISSUE = ("issue", "@bdk", "@loading", f"{IKSN:X}", str(ISSUED), "--ledger", "ledger")
ON_JOURNAL, IN_MEMORY = ("serve", "bank.toml", "--journal", "journal"), ("serve", "bank.toml")

# A program that reads a key of digits, and then does what its other argument names.
PLANTED = """#include <stdio.h>
#include <string.h>

static const volatile unsigned char table[256], other[16];
static const volatile char digits[] = "0123456789ABCDEF";

static int same_early(const unsigned char *key)
{
    for (int at = 0; at < 16; at++)
        if (key[at] != other[at])
            return 0;
    return 1;
}

static int same_at_the_end(const unsigned char *key)
{
    int differs = 0;
    for (int at = 0; at < 16; at++)
        differs |= key[at] ^ other[at];
    return differs == 0;
}

static int looked_up(const unsigned char *key)
{
    return table[key[15]];
}

static int written(const unsigned char *key)
{
    return digits[key[15]] == 0;
}

static int branched(const unsigned char *key)
{
    if (key[15] & 1)
        return table[0];
    return 0;
}

int main(int words, char **word)
{
    unsigned char key[16];
    FILE *file = words == 3 ? fopen(word[2], "rb") : NULL;
    if (file == NULL || fread(key, 1, 16, file) != 16)
        return 1;
    for (int at = 0; at < 16; at++)
        key[at] -= '0';
    if (strcmp(word[1], "early") == 0)
        return same_early(key);
    if (strcmp(word[1], "end") == 0)
        return same_at_the_end(key);
    if (strcmp(word[1], "table") == 0)
        return looked_up(key);
    if (strcmp(word[1], "digit") == 0)
        return written(key);
    return branched(key);
}
"""


def alike(chance: random.Random) -> tuple[str, str]:
    """Two keys, whose texts have at each place both a digit or both a letter."""
    kinds = [chance.choice(("0123456789", "ABCDEF")) for _ in range(32)]
    one, other = ("".join(map(chance.choice, kinds)) for _ in range(2))
    return one, other


class Planted(Case):
    """What is looked for, in a program of C: each way to depend on a key is found."""

    def test_found(self) -> None:
        demand("gcc")
        home = self.folder()
        (home / "planted.c").write_text(PLANTED)
        ran("gcc", "-O0", "-o", home / "planted", home / "planted.c")
        # The first byte of the one is that with which it is compared.
        runs = [self.folder() for _ in range(2)]
        for folder, key in zip(runs, ("0123456789012345", "1123456789012346")):
            (folder / "key").write_text(key)
        found = {way: self.found(Program(home / "planted"), runs, way)
                 for way in ("end", "early", "table", "digit", "branch")}
        self.assertTrue(found["end"].is_nothing, found["end"])
        self.assertEqual(found["early"].parted, "same_early")
        self.assertEqual((found["table"].addresses, found["table"].parted), ({"looked_up": 1}, None))
        self.assertTrue(found["digit"].is_digits_alone, found["digit"])
        self.assertEqual(found["digit"].digits, {"written": 1})
        self.assertEqual(found["branch"].parted, "branched")

    def found(self, program: Program, folders: Sequence[Path], way: str) -> Found:
        one, other = (Run((way, "key"), it) for it in folders)
        found, ended = compared(program, one, other)
        self.assertEqual([it.status for it in ended], [0, 0])
        return found


class Commands(ProgramCase):
    weight = 20

    def printed(self, *words: Word, given: bytes = b"") -> tuple[Found, list[list[str]]]:
        """Where two runs under other keys differ, their lines, and what should stand there by the keys of the
        first counters."""
        runs, lines, counters = [], [], first_counters(NUMBERS)
        for key in alike(self.chance):
            folder = self.folder()
            (folder / "bdk").write_text(f"{key}\n")
            runs.append(Run(words, folder, given))
            with mock.patch.object(client, "BDK", bytes.fromhex(key)):
                made = keys_of(counters)
            lines.append([f"{number_of(it).hex()} {made[it].hex()}".upper() for it in counters])
        found, ended = compared(self.program, *runs)
        self.assertEqual([it.status for it in ended], [0, 0])
        self.tells(str(found))
        return found, [it.output.decode().splitlines() for it in ended] + lines

    def test_walk(self) -> None:
        found, lines = self.printed("walk", "@bdk", f"{IKSN:X}", str(NUMBERS))
        self.assertEqual(lines[:2], lines[2:])
        self.assertTrue(found.is_digits_alone, found)

    def test_batch(self) -> None:
        numbers = [number_of(it).hex().upper() for it in first_counters(ITEMS)]
        found, lines = self.printed("derive", "@bdk", "-", given="\n".join([*numbers, ""]).encode())
        for it, wanted in zip(lines[:2], lines[2:]):
            keys = [line.removeprefix("key ") for line in it if line.startswith("key ")]
            self.assertEqual(keys, [line.split()[1] for line in wanted[:ITEMS]])
        self.assertTrue(found.is_digits_alone, found)

    def test_issue(self) -> None:
        """Initial keys, their check values and key blocks, and once more those that are issued. The
        check values have check sums in the ledger."""
        folders, keys = [], []
        for bdk, loading in zip(alike(self.chance), alike(self.chance)):
            folder = self.folder()
            (folder / "bdk").write_text(f"{bdk}\n")
            (folder / "loading").write_text(f"{loading}\n")
            (folder / "ledger").write_bytes(ledger_image([], ISSUED))
            folders.append(folder)
            keys.append(Keys(bytes.fromhex(bdk), bytes.fromhex(loading)))
        for added in ((), ("--again",)):
            found, ended = compared(self.program, *(Run((*ISSUE, *added), it) for it in folders))
            for it, its in zip(ended, keys):
                self.assertEqual(it.status, 0)
                self.assertEqual([line.number for line in read_lines(it.output, its)],
                                 numbers_from(IKSN, ISSUED))
            self.tells(str(found))
            self.assertTrue(found.is_tables_alone, found)

    def test_tables_are_seen(self) -> None:
        found, lines = self.printed("derive", "@bdk", f"{IKSN + 1:X}")
        for it, wanted in zip(lines[:2], lines[2:]):
            self.assertEqual(it[1].removeprefix("key "), wanted[0].split()[1])
        self.assertFalse(found.is_digits_alone, found)


@dataclass(frozen=True)
class Bank:
    """A configuration, and its base derivation key."""

    text: bytes
    bdk: bytes


def banks(chance: random.Random) -> list[Bank]:
    """Two, of which each key differs."""
    pairs, found = [alike(chance) for _ in KEY.findall(BANK)], []
    for texts in zip(*pairs):
        rest = iter(texts)
        text = KEY.sub(lambda _: next(rest).encode(), BANK)
        found.append(Bank(text, bytes.fromhex(BDK.search(text)[1].decode())))
    return found


def given_to(bank: Bank, seed: float) -> list[Exchange]:
    """Payments with each code; reversals of some of them under later numbers; and others that come
    again."""
    counters = first_counters(PAYMENTS + REVERSALS)
    paid, later = counters[:PAYMENTS], counters[PAYMENTS:]
    bought = [PURCHASES[at % len(PURCHASES)] for at in range(PAYMENTS)]
    chosen = random.Random(seed).sample(range(PAYMENTS), REVERSALS + REPEATS)
    undone, again = chosen[:REVERSALS], chosen[REVERSALS:]
    with mock.patch.object(client, "BDK", bank.bdk):
        payments = payments_of(paid, bought)
        reversals = reversals_of([(own, paid[at]) for own, at in zip(later, undone)])
    replies = [it.undone if bought[at].code == APPROVED else it.answer
               for it, at in zip(reversals, undone)]
    return [*payments, *(Exchange(it.frame, reply) for it, reply in zip(reversals, replies)),
            *(payments[at] for at in again)]


def with_wrong_macs(bank: Bank, place: int, count: int) -> list[Exchange]:
    """Requests, and a reversal behind each, whose MACs are wrong in the byte at this place alone."""
    counters, found = first_counters(count), []
    with mock.patch.object(client, "BDK", bank.bdk):
        pairs = zip(payments_of(counters, PURCHASES[:1] * count),
                    reversals_of([(own, own ^ ANOTHER) for own in counters]))
    for counter, it in ((counter, it) for counter, pair in zip(counters, pairs) for it in pair):
        frame = bytearray(it.frame)
        frame[place - MAC] ^= 1 << counter % 8
        found.append(Exchange(bytes(frame), refusal(number_of(counter), WRONG_MAC)))
    return found


class Services(ProgramCase):
    weight = 30

    def served(self, words: Sequence[Word], *pairs: tuple[Bank, list[Exchange]]) -> Found:
        """Where two services differ, which answer what they are given as they should."""
        runs = []
        for bank, given in pairs:
            folder = self.folder()
            (folder / "bank.toml").write_bytes(with_room(bank.text, len(given)))
            make_journal(folder / "journal", records_for(2 * PAYMENTS))
            runs.append(Run(words, folder, stream_of(given)))
        found, ended = compared(self.program, *runs, from_input=True)
        for it, (_, given) in zip(ended, pairs):
            self.assertEqual((it.status, it.output), (0, b"".join(it.answer for it in given)))
        self.tells(str(found))
        return found

    def test_replies(self) -> None:
        """Under one zone key, by which the table of cards asks for a PIN, no address depends on another, but
        those of the check sums: the MACs of requests are kept."""
        one, other = banks(self.chance)
        other = Bank(ZONE.sub(ZONE.search(one.text)[0], other.text), other.bdk)
        seed = self.chance.random()
        found = self.served(ON_JOURNAL, (one, given_to(one, seed)), (other, given_to(other, seed)))
        self.assertTrue(found.is_check_sums_alone, found)
        # A payment and a reversal have a check sum over the eight bytes of a MAC each.
        self.assertLessEqual(found.check_sums.total(), MAC * (PAYMENTS + REVERSALS), found)

    def test_journal(self) -> None:
        """Whatever comes, no branch depends on a key, and no address but one of a table of a cipher: the
        table of cards has PIN blocks under the zone key."""
        one, other = banks(self.chance)
        seed = self.chance.random()
        found = self.served(ON_JOURNAL, (one, given_to(one, seed)), (other, given_to(other, seed)))
        self.assertIsNone(found.parted, found)
        self.assertFalse(found.digits, found)
        self.assertLessEqual({name.partition("::")[0] for name in found.addresses}, CIPHERS, found)

    def test_groups(self) -> None:
        """Where keys are derived, and MACs and PIN blocks made and compared, for frames in groups, no
        address depends on a key: these frames have no reply, which has a MAC of its own."""
        found = self.served(ON_JOURNAL, *((it, with_wrong_macs(it, MAC - 1, WRONG))
                                          for it in banks(self.chance)))
        self.assertTrue(found.is_nothing, found)

    def test_wrong_macs(self) -> None:
        """No comparison of MACs ends early: under the same key it is the same whether their first byte is
        wrong or their last."""
        bank = banks(self.chance)[0]
        first, last = (with_wrong_macs(bank, place, FEW) for place in (0, MAC - 1))
        # Over a log there are no reversals.
        for words, step in ((ON_JOURNAL, 1), (IN_MEMORY, 2)):
            found = self.served(words, (bank, first[::step]), (bank, last[::step]))
            self.assertTrue(found.is_nothing, f"{words}: {found}")

    def test_tables_are_seen(self) -> None:
        one, other = banks(self.chance)
        found = self.served(IN_MEMORY, *((it, given_to(it, 0)[:1]) for it in (one, other)))
        self.assertFalse(found.is_nothing, found)
