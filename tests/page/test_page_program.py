"""The page and the program `dukpt`: one shows what the other prints, on values at random."""
from __future__ import annotations

import os
import re
from typing import Sequence

from ..support.case import ProgramCase
from ..support.formats.journal_records import (
    BY_HAND, DAMAGES, RECORD, REVERSED_BY_HAND, journal_of, scratched, used_again, without_repeats)
from ..support.library.call_cases import Chance
from ..support.page.page_case import PageCase
from ..support.page.page_file_case import FileCase, Seen
from ..support.page.page_values import upper
from ..support.standards.dukpt import serial_text

CASES = 25
# What `show journal` says of an entry; of a terminal; and the first record of a group on the page.
ENTRY = re.compile(r"(?:payment|reversal) (\d+) group (\d+) ksn (\w{20}) (?:amount (\d+)|of (\w{20}))"
                   r" mac (\w{16}) (?:code|state) (.*)")
TERMINAL = re.compile(r"terminal (\w{20}) (\d+) \w{20} \w{20} approved (\d+)(?: undone (\d+))?")
GROUP = re.compile(r"records (\d+) to \d+")


class TestProgram(ProgramCase, PageCase):
    def printed(self, *words: str) -> list[str]:
        """The last word of each line that a command prints."""
        ended = self.program.run(*words)
        self.assertEqual((ended.status, ended.faults), (0, b""), words)
        return [line.split(" ", 1)[1] for line in ended.output.decode().splitlines()]

    def wrapped(self, *words: str) -> list[str]:
        ended = self.program.run("wrap", *words)
        self.assertEqual((ended.status, ended.faults), (0, b""), words)
        return [ended.output.decode().rstrip("\n")]

    def shown(self, fields: Sequence[str], cases: Sequence[Sequence[str]],
              results: Sequence[str]) -> list[list[str]]:
        """What the page shows of cases without a fault."""
        found = self.tried(fields, cases, results)
        self.assertEqual([faults for _, faults in found], [[""] * len(fields)] * len(cases))
        return [texts for texts, _ in found]

    def test_commands(self) -> None:
        chance, count = Chance(self.chance), CASES * self.times
        keys, numbers = list(map(upper, chance.keys(count))), chance.usables(count)
        cases = list(zip(keys, map(serial_text, numbers)))
        self.assertEqual(
            self.shown(["derive-bdk", "derive-ksn"], cases,
                       ["derive-initial-key", "derive-transaction-key", "derive-pin-key"]),
            [self.printed("derive", *it) for it in cases])
        pins = list(zip(chance.pins(count), chance.pans(count), keys))
        self.assertEqual(
            self.shown(["pin-pin", "pin-pan", "pin-key"], pins, ["pin-block", "pin-enciphered"]),
            [self.printed("pin", pin, pan, "--key", key) for pin, pan, key in pins])
        self.check_key_blocks(chance, count)
        self.tells(f"{count} cases of each command")

    def check_key_blocks(self, chance: Chance, count: int) -> None:
        protections, inner = (list(map(upper, chance.tdes_keys(count))) for _ in range(2))
        # A field that begins with a hyphen would be taken for an option.
        fields = ["B" + it.decode()[1:] for it in chance.fields(count)]
        pads = list(map(upper, chance.bytes(count, 6, 14)))
        names = ["wrap-kbpk", "wrap-usage", "wrap-algorithm", "wrap-mode", "wrap-version",
                 "wrap-exportability", "wrap-key", "wrap-padding"]
        cases = [[protection, it[:2], it[2], it[3], it[4:6], it[6], key, pad]
                 for protection, it, key, pad in zip(protections, fields, inner, pads)]
        blocks = self.shown(names, cases, ["wrap-text"])
        self.assertEqual(
            blocks, [self.wrapped(*it) for it in zip(protections, fields, inner, pads)])
        read = list(zip(protections, [block for block, in blocks]))
        self.assertEqual(
            self.shown(["unwrap-kbpk", "unwrap-text"], read, ["unwrap-key"]),
            [self.printed("unwrap", *it)[1:] for it in read])


class TestJournals(ProgramCase, FileCase):
    def test_show(self) -> None:
        """Journals at random, right and damaged: the page has what `show journal` prints, and refuses
        what it refuses at a byte of the same record."""
        files = [bytes.fromhex(BY_HAND), bytes.fromhex(REVERSED_BY_HAND), b"", bytes(1), bytes(96),
                 *(self.drawn() for _ in range(6 * CASES * self.times))]
        path, right = self.folder() / "journal", 0
        for data, found in zip(files, self.drop(*files, kind="journal")):
            path.write_bytes(data)
            ended = self.program.run("show", "journal", os.fspath(path))
            if ended.status == 0:
                right += 1
                self.assert_same(found, ended.output.decode().splitlines())
                continue
            assert found.place is not None, data.hex()
            self.assertEqual(ended.faults.decode(),
                             f"journal refused at {found.place.first // RECORD}: Damaged\n", data.hex())
        self.tells(f"{right} right, {len(files) - right} refused")

    def drawn(self) -> bytes:
        chance, journals = self.chance, self.journals
        groups = journals.entry_groups(chance.randint(1, 8))
        if chance.random() < 0.7:
            groups = without_repeats([*groups, [journals.payment(0), journals.payment(1 << 21)]])
        data = journal_of(groups, chance.randrange(4), chance)
        if chance.random() < 0.2 and any(len(it) > 1 for it in groups):
            return chance.choice((*DAMAGES, used_again))(journals, groups, data)[0]
        return scratched(journals, data) if chance.random() < 0.3 else data

    def assert_same(self, found: Seen, lines: Sequence[str]) -> None:
        """That the page shows what these lines say."""
        entries = [it.groups() for it in map(ENTRY.fullmatch, lines) if it]
        rows = [[record, group_of(record, group), number, amount, mac, outcome]
                for record, number, amount, outcome, mac, group, _ in found.rows]
        self.assertEqual(rows, [
            [record, first, number, amount or f"reversal of {reversed_}", mac, outcome]
            for record, first, number, amount, reversed_, mac, outcome in entries])
        self.assertEqual([[it[0], it[1], it[4], it[3]] for it in found.sums], [
            [it[1], it[2], it[3], it[4] or "0"] for it in map(TERMINAL.fullmatch, lines) if it])
        counts = dict(it.split() for it in lines if it.count(" ") == 1)
        kinds = f"{counts['payments']} payments"
        kinds += f" and {counts['reversals']} reversals" if "reversals" in counts else ""
        self.assertIn(f": {kinds} in ", found.words)
        self.assertIn(f", room for {counts['room']} more.", found.words)


def group_of(record: str, words: str) -> str:
    """Where the group of an entry begins, by the page's words."""
    return record if words == "alone" else GROUP.fullmatch(words)[1]
