"""`show journal`: rows by hand, each fault, and journals at random with damage, as a reader of
docs/FORMATS.md has them."""
from __future__ import annotations

import os
import re
from collections import Counter

from ..support.case import ProgramCase
from ..support.commands.shown import journal_ended
from ..support.formats.checked_journal import IDENTITY, checked, header_of
from ..support.formats.checked_journal import journal_of as journal_of_two
from ..support.formats.journal_records import (
    BY_HAND, DAMAGES, NONE_STANDS, OPEN, RECORD, UNDONE, Journals, Payment, Reversal, journal_of,
    scratched)
from ..support.program import ROOT, spoken
from ..support.quick import QuickRuns
from ..support.standards.dukpt import iksn_of

# So many journals, on all programs that are tried.
CASES = 10_000
FIRST = 0xFFFF9876543210E00001
OTHER = 0x0123456789ABCDE00001
BY_HAND_LINES = """\
payment 0 group 0 ksn FFFF9876543210E00001 amount 1 mac A05619896B683F13 code 00 approved
payment 1 group 1 ksn FFFF9876543210E00008 amount 1234 mac 0102030405060708 code 51 over the card's limit
payment 2 group 1 ksn 0123456789ABCDE00001 amount 4294967295 mac 1112131415161718 code 00 approved
payments 3
room 1
terminal FFFF9876543210E00000 2 FFFF9876543210E00001 FFFF9876543210E00008 approved 1
terminal 0123456789ABCDE00000 1 0123456789ABCDE00001 0123456789ABCDE00001 approved 4294967295
"""


REVERSED_LINES = """\
reversal 0 group 0 ksn FFFF9876543210E00001 of FFFF9876543210E00008 mac 0000000000000000 state 00 none stands
payment 1 group 1 ksn FFFF9876543210E00002 amount 700 mac 0000000000000000 code 00 approved
payment 2 group 1 ksn FFFF9876543210E00004 amount 20 mac 0000000000000000 code 00 approved
reversal 3 group 3 ksn FFFF9876543210E00005 of FFFF9876543210E00002 mac 0000000000000000 state 01 undone
payment 4 group 4 ksn 0123456789ABCDE00001 amount 5 mac 0000000000000000 code 51 over the card's limit
reversal 5 group 4 ksn FFFF9876543210E00006 of FFFF9876543210E00002 mac 0000000000000000 state 01 undone
reversal 6 group 4 ksn 0123456789ABCDE00002 of 0123456789ABCDE00001 mac 0000000000000000 state 00 none stands
payments 3
reversals 4
room 1
terminal FFFF9876543210E00000 2 FFFF9876543210E00001 FFFF9876543210E00006 approved 20 undone 1
terminal 0123456789ABCDE00000 1 0123456789ABCDE00001 0123456789ABCDE00002 approved 0
"""


def paid(serial: int, amount: int = 1, code: int = 0) -> Payment:
    return Payment(serial, amount, code, bytes(8))


def flipped(image: bytes, at: int) -> bytes:
    return image[:at] + bytes([image[at] ^ 0x40]) + image[at + 1 :]


def undone(serial: int, counter: int, state: int = UNDONE) -> Reversal:
    """Of the number with this counter, of the same terminal."""
    return Reversal(serial, iksn_of(serial) + counter, state, bytes(8))


class JournalCase(ProgramCase):
    weight = 3

    def setUp(self) -> None:
        super().setUp()
        self.home = self.folder()

    def prints(self, text: str, data: bytes) -> None:
        """Of version 1; and of version 2 with two lines in front."""
        front = f"version 2\nidentity {IDENTITY:016X}\n"
        for image, wanted in ((data, text), (checked(data), front + text)):
            (self.home / "journal").write_bytes(image)
            found = self.program.run("show", "journal", "journal", folder=self.home)
            self.assert_ended(found, 0, wanted.encode(), b"", image.hex())

    def refuses(self, line: str, what: str) -> None:
        found = self.program.run("show", "journal", what, folder=self.home)
        self.assert_ended(found, 1, b"", f"{line}\n".encode(), spoken(["show", "journal", what]))

    def damaged(self, place: int, data: bytes) -> None:
        """Of either version: a header alone is a journal, and no byte is none."""
        for image in (data, checked(data) if data else b""):
            (self.home / "journal").write_bytes(image)
            self.refuses(f"journal refused at {place}: Damaged", "journal")


class Rows(JournalCase):
    """What is printed, and each fault."""

    def test_by_hand(self) -> None:
        self.prints(BY_HAND_LINES, bytes.fromhex(BY_HAND))

    def test_none(self) -> None:
        self.prints("payments 0\nroom 2\n", bytes(2 * RECORD))

    def test_a_header_alone(self) -> None:
        (self.home / "journal").write_bytes(header_of(1))
        found = self.program.run("show", "journal", "journal", folder=self.home)
        lines = b"version 2\nidentity 0000000000000001\npayments 0\nroom 0\n"
        self.assert_ended(found, 0, lines, b"", "a header alone")

    def test_changed_bytes(self) -> None:
        """A change of a byte that is kept, of which the check sum is not changed, and a header that is
        none."""
        image = journal_of_two([[paid(FIRST)], [paid(FIRST + 1)]], 1)
        for at in range(RECORD):
            (self.home / "journal").write_bytes(flipped(image, at))
            # Without its gate the first record is a closed one of version 1, with an open one behind it.
            self.refuses(f"journal refused at {0 if at else 1}: Damaged", "journal")
            (self.home / "journal").write_bytes(flipped(image, 2 * RECORD + at))
            found = self.program.run("show", "journal", "journal", folder=self.home)
            if at:
                self.assert_ended(found, 1, b"", b"journal refused at 1: Damaged\n", f"byte {at}")
            else:
                self.assertIn(b"payments 1\n", found.output, "the gate of the last is closed")

    def test_sums(self) -> None:
        """Of the approved amounts alone, beyond 32 bits."""
        numbers = [FIRST, FIRST + 1, FIRST + 3]
        data = journal_of([[paid(numbers[0], (1 << 32) - 1)], [paid(numbers[1], 5, 14)],
                           [paid(numbers[2], (1 << 32) - 1)]], 0)
        (self.home / "journal").write_bytes(data)
        found = self.program.run("show", "journal", "journal", folder=self.home)
        self.assertIn(b" 3 FFFF9876543210E00001 FFFF9876543210E00004 approved 8589934590\n",
                      found.output)

    def test_reversals(self) -> None:
        """Of a payment, twice; of a declined one; of one that never came. What stands is summed."""
        self.prints(REVERSED_LINES, journal_of(
            [[undone(FIRST, 8, NONE_STANDS)], [paid(FIRST + 1, 700), paid(FIRST + 3, 20)],
             [undone(FIRST + 4, 2)],
             [paid(OTHER, 5, 51), undone(FIRST + 5, 2), undone(OTHER + 1, 1, NONE_STANDS)]], 1))

    def test_damaged_reversals(self) -> None:
        """Of its own number, of one that numbers nothing, with a code for a state, of a kind that is
        not its own; and a number that was reversed is used."""
        one, front = undone(FIRST + 1, 1), paid(FIRST).record(OPEN)
        for wrong in (undone(FIRST + 1, 2), undone(FIRST + 1, 0), undone(FIRST, 3)):
            self.damaged(1, front + wrong.record(OPEN))
        record = one.record(OPEN)
        for at, value in ((1, 1), (1, 3), (15, 0x20), (18, 0), (18, 1), (18, 127), (18, 130)):
            self.damaged(1, front + record[:at] + bytes([value]) + record[at + 1 :])
        record = paid(FIRST + 1, 1).record(OPEN)
        self.damaged(1, front + record[:1] + b"\x02" + record[2:])
        self.damaged(2, journal_of([[paid(FIRST + 3), one], [paid(FIRST)]], 1))
        self.damaged(2, journal_of(
            [[undone(FIRST + 1, 4)], [undone(FIRST + 2, 1)], [undone(FIRST + 3, 2)]], 1))

    def test_damage(self) -> None:
        one, two, three = paid(FIRST), paid(FIRST + 1), paid(OTHER)
        group = journal_of([[one], [two, three]], 1)
        self.damaged(0, b"")
        self.damaged(0, bytes(RECORD - 1))
        self.damaged(4, group + bytes(1))
        self.damaged(3, group[: 3 * RECORD] + group[:RECORD])
        self.damaged(3, group[: 3 * RECORD] + b"\x01" + bytes(RECORD - 1))
        self.damaged(4, group + paid(FIRST + 3).record(OPEN))
        self.damaged(2, group[: 2 * RECORD])
        self.damaged(2, group[: 3 * RECORD - 1])
        for at, value in ((0, 1), (1, 2), (3, 1), (13, 0), (18, 1), (27, 1), (31, 1)):
            place = 2 * RECORD + at
            self.damaged(2, group[:place] + bytes([value]) + group[place + 1 :])
        self.damaged(1, group[: RECORD + 2] + b"\x10\x00" + group[RECORD + 4 :])
        self.damaged(1, journal_of([[one], [one]], 2))
        self.damaged(2, journal_of([[one], [two, one]], 2))

    def test_files_that_cannot_be_read(self) -> None:
        (self.home / "folder").mkdir()
        for name in ("missing", "folder", "", ".", "missing/journal"):
            self.refuses("journal: cannot read", name)
        self.refuses("journal refused at 0: Damaged", "/dev/null")
        self.refuses("journal: too long", "/dev/zero")
        self.refuses("journal: cannot read", "/proc/self/mem")


class Documented(JournalCase):
    """The example of docs/FORMATS.md, byte by byte."""

    def test_its_bytes(self) -> None:
        text = (ROOT / "docs" / "FORMATS.md").read_text()
        part = text.partition("### A journal byte by byte\n")[2].partition("### Version 1")[0]
        image = bytes.fromhex("".join(re.findall(r"^\| \d \| ([0-9A-F ]+) \|$", part, re.MULTILINE)))
        groups = [[Payment(FIRST, 1, 0, bytes.fromhex("A05619896B683F13"))],
                  [Payment(FIRST + 7, 1234, 51, bytes.fromhex("0102030405060708")),
                   Reversal(FIRST + 1, FIRST, UNDONE, bytes.fromhex("1112131415161718"))]]
        self.assertEqual(image, journal_of_two(groups, 1))
        (self.home / "journal").write_bytes(image)
        ended = self.program.run("show", "journal", "journal", folder=self.home)
        self.assertEqual(ended, journal_ended(image))
        self.assertTrue(ended.output.startswith(b"version 2\nidentity 0123456789ABCDEF\npayment 0 group 0 "))


class Random(JournalCase):
    """Each line, each place; damaged or not, the file is as before."""

    weight = 25

    def test_journals(self) -> None:
        path, tally = self.home / "journal", Counter[str]()
        journals = Journals(self.own_chance())
        chance = journals.chance
        with QuickRuns(self.program) as runs:
            for _ in range(self.share_of(CASES)):
                groups, data = journals.entry_journal(chance.randrange(9))
                if any(len(group) > 1 for group in groups) and chance.random() < 0.5:
                    data, _ = chance.choice(DAMAGES)(journals, groups, data)
                elif data and chance.random() < 0.2:
                    data = scratched(journals, data)
                elif chance.random() < 0.2:
                    # What stands behind closed records would be a journal by itself.
                    data += journals.journal(chance.randrange(3))[1]
                if chance.random() < 0.5:
                    data = checked(data, chance.getrandbits(64))
                path.write_bytes(data)
                wanted = journal_ended(data)
                found = runs.run([b"show", b"journal", os.fsencode(path)])
                self.assert_ended(found, wanted.status, wanted.output, wanted.faults, data.hex())
                self.assertEqual(path.read_bytes(), data)
                tally["done" if found.status == 0 else "Damaged"] += 1
        self.assertEqual(set(tally), {"Damaged", "done"}, dict(tally))
        self.tells(f"{dict(tally)}")
