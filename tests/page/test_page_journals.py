"""Journals of payments and reversals on the panel "Frames and files": each row and sum of right ones,
and the place of each damage, in the record where `show journal` refuses them. They are written and
read here by docs/FORMATS.md alone."""
from __future__ import annotations

from dataclasses import replace
from typing import Sequence

from ..support.commands.shown import journal_ended
from ..support.formats.checked_journal import HEADER, behind_header, checked, plain_of
from ..support.formats.journal_records import (
    BY_HAND, BY_HAND_ROWS, BY_HAND_SUMS, DAMAGES, OPEN, RECORD, REVERSAL_DAMAGES, REVERSED_BY_HAND,
    REVERSED_BY_HAND_ROWS, REVERSED_BY_HAND_SUMS, UNDONE, Group, Payment, Place, Reversal, Row,
    journal_of, put, read_shown, rows_in, rows_of, scratched, sums_of, totals_of, used_again,
    without_repeats)
from ..support.formats.opened_journal import is_found
from ..support.page.page_file_case import MOST_ROWS, FileCase, Seen
from ..support.standards.dukpt import usable

COUNT = 60
# What is said of each kind of damage.
WORDS = {
    "unknown_kind": "has kind ", "no_reversal": "", "no_payment": "and not 0, 14, 30, 51 or 55",
    "no_code": "and not 0, 14, 30, 51 or 55", "no_state": "and not 129, undone, or 128, none stands",
    "unusable_reversed": "reverses a number that it may not: its counter ",
    "own_reversed": "reverses a number that it may not: it is its own",
    "unusable_counter": "has the number of no transaction", "no_zeros": "lacks its zeros",
    "open_inside": "is open, and stands inside the group of record",
    "open_behind": "before it is closed, and of no group",
    "following_follower": "stands inside a group, and says that",
    "too_many": "and at most 4095 may", "past_the_end": "records of its group follow",
    "used_again": "has a number that record ",
    "broken_size": "a journal has whole records of 32 bytes",
}


class JournalCase(FileCase):
    def assert_right(self, found: Seen, rows: Sequence[Row], room: int) -> None:
        """That a journal is shown whole: its rows, sums and counts."""
        self.assertEqual((found.kind, found.fault, found.place), ("journal", "", None))
        self.assertEqual(found.rows, rows_of(rows)[:MOST_ROWS])
        self.assertEqual(found.sums, sums_of(rows)[:MOST_ROWS])
        self.assert_words(found.words, rows, room)

    def assert_read(self, found: Seen, data: bytes) -> bool:
        """That a journal of either version is shown whole, or is refused at the right place; whether it is
        right."""
        plain = plain_of(data)
        records = data if plain is None else plain
        wanted = read_shown(records)
        if isinstance(wanted, Place) and plain is None:
            self.assert_refused(found, wanted, data)
        elif isinstance(wanted, Place):
            self.assert_damaged(found, behind_header(wanted))
            self.assertEqual(journal_ended(data).status, 1)
        else:
            self.assert_right(found, wanted, len(records) // RECORD - len(wanted))
            self.assertEqual(journal_ended(data).status, 0)
        return not isinstance(wanted, Place)

    def assert_refused(self, found: Seen, place: Place, data: bytes, what: str = "") -> None:
        """That a journal is refused at this place, which is in the record of `show journal`."""
        self.assert_damaged(found, place, what)
        line = f"journal refused at {place.first // RECORD}: Damaged\n"
        self.assertEqual(journal_ended(data).faults.decode(), line, what)

    def assert_words(self, words: str, rows: Sequence[Row], room: int) -> None:
        groups, entries = len({first for first, _, _ in rows}), [it for _, _, it in rows]
        reversals = sum(isinstance(it, Reversal) for it in entries)
        kinds = f"{len(rows) - reversals} payments"
        kinds += f" and {reversals} reversals" if reversals else ""
        self.assertIn(f"Journal of {len(rows) + room} records: {kinds} in {groups} groups, room for"
                      f" {room} more.", words)
        totals = totals_of(entries).values()
        self.assertIn(f"Sum of what stands, approved and not undone:"
                      f" {sum(it.amount for it in totals)},", words)
        self.assert_counted(words, "Undone payments", sum(it.undone for it in totals))
        self.assertNotIn("Repeated", words)
        self.assertEqual(f"The first {MOST_ROWS} records are shown." in words,
                         len(rows) > MOST_ROWS, words)

    def assert_counted(self, words: str, name: str, count: int) -> None:
        """That a count is said where it is not zero."""
        self.assertEqual(name in words, count > 0, words)
        if count:
            self.assertIn(f"{name}: {count}.", words)


class TestJournals(JournalCase):
    def test_by_hand(self) -> None:
        """Byte by byte as docs/FORMATS.md has it; dropped, and read by itself as a journal."""
        found = self.drop(bytes.fromhex(BY_HAND))[0]
        self.assertEqual((found.kind, found.fault, found.taken), ("journal", "", ""))
        self.assertEqual((found.rows, found.sums), (BY_HAND_ROWS, BY_HAND_SUMS))
        self.assertIn("Journal of 4 records: 3 payments in 2 groups, room for 1 more.", found.words)
        self.assertIn("Sum of what stands, approved and not undone: 4294967296,", found.words)
        self.assert_quiet()

    def test_reversals_by_hand(self) -> None:
        """One that begins with a reversal is read by itself as a journal. Reversals of a payment, of
        it a second time, of a declined one and of none."""
        found = self.drop(bytes.fromhex(REVERSED_BY_HAND))[0]
        self.assertEqual((found.kind, found.fault, found.taken), ("journal", "", ""))
        self.assertEqual((found.rows, found.sums), (REVERSED_BY_HAND_ROWS, REVERSED_BY_HAND_SUMS))
        self.assertEqual(found.words, (
            "Journal of 8 records: 3 payments and 4 reversals in 4 groups, room for 1 more."
            " Sum of what stands, approved and not undone: 20, in the smallest unit of the currency."
            " Undone payments: 1."))
        self.assert_quiet()

    def test_used_numbers_by_hand(self) -> None:
        """A number that an entry has, or reverses, is used: it comes in no later entry. The first one
        that used it is named. It may be reversed before and behind, and again."""
        front = bytes.fromhex(REVERSED_BY_HAND)[: 7 * RECORD]
        for number, words in ((0xFFFF9876543210E00008, "record 0 reverses"),
                              (0xFFFF9876543210E00001, "record 0 has"),
                              (0xFFFF9876543210E00002, "record 1 has"),
                              (0x0123456789ABCDE00001, "record 4 has")):
            for again in (Payment(number, 3, 51, bytes(8)), Reversal(number, number ^ 3, UNDONE, bytes(8))):
                data = front + again.record(OPEN) + bytes(RECORD)
                found = self.drop(data)[0]
                self.assert_refused(found, Place(228, 237), data)
                self.assertIn(f"Bytes 228 to 237: record 7 has a number that {words}: no host comes up"
                              " over it.", found.fault)
        for number in (0xFFFF9876543210E0000A, 0x0123456789ABCDE00008, 0x0123456789ABCD800001):
            data = front + Payment(number, 3, 0, bytes(8)).record(OPEN) + bytes(RECORD)
            self.assertTrue(self.assert_read(self.drop(data)[0], data))

    def test_random(self) -> None:
        """At random: each row, each sum, each count."""
        kinds = (self.journals.groups, self.journals.entry_groups, self.journals.entry_groups)
        drawn = [without_repeats(self.chance.choice(kinds)(self.chance.randrange(12)))
                 for _ in range(COUNT * self.times)]
        files = [journal_of(groups, self.chance.randrange(not groups, 6), self.chance)
                 for groups in drawn]
        for groups, data, found in zip(drawn, files, self.drop(*files, kind="journal")):
            self.assertEqual(read_shown(data), rows_in(groups))
            self.assertTrue(self.assert_read(found, data))
        entries = [it for groups in drawn for group in groups for it in group]
        reversals = sum(isinstance(it, Reversal) for it in entries)
        self.tells(f"{len(files)} journals with {reversals} reversals")

    def test_edges(self) -> None:
        """One record; the longest group; a disk that is full; one without a payment; numbers and
        amounts at their ends; and numbers of two terminals with counters alike, or half of all
        counters apart."""
        one, *others = (self.journals.groups(1, 1)[0] for _ in range(5))
        longest, other = self.longest(0), self.longest(2 << 21)
        ends = [Payment(serial, amount, 0, mac) for serial, amount, mac in (
            (1, 0, bytes(8)), ((1 << 80) - (1 << 21) + 0x1FF800, (1 << 32) - 1, b"\xff" * 8))]
        apart = [self.journals.payment(iksn << 21) for iksn in (7, 8, 7, 8)]
        for at, counter in enumerate((1 << 20 | 1, 1, 1, 1 << 20 | 1)):
            it = apart[at]
            apart[at] = Payment(it.serial >> 21 << 21 | counter, it.amount, it.code, it.mac)
        # The last payment, of many, is undone by the last record.
        undone = Payment((1 << 21) + 1, 700, 0, bytes(8))
        undoing = Reversal((1 << 21) + 0x1FF800, (1 << 21) + 1, UNDONE, bytes(8))
        for groups, room in (([apart], 1), ([one], 0), ([one, *others], 0), ([longest], 0),
                             ([one, longest], 1), ([longest, one, other], 7), ([], 1), ([], 3),
                             ([ends], 2), ([[undone], longest, [undoing]], 1),
                             ([[undoing], longest], 1), ([[undoing]], 0)):
            data = journal_of(groups, room, self.chance)
            self.assertEqual(read_shown(data), rows_in(groups))
            self.assert_right(self.drop(data, kind="journal")[0], rows_in(groups), room)
        # The number of the last one, of many, was used by the first.
        for first in (undone, undoing):
            data = journal_of([[first], longest, [undone]], 1, self.chance)
            self.assertFalse(self.assert_read(self.drop(data, kind="journal")[0], data))

    def longest(self, iksn: int) -> Group:
        """The longest group: payments with counters in any order."""
        counters = self.chance.sample([it for it in range(1, 5000) if usable(it)], 4096)
        return [replace(self.journals.payment(0), serial=iksn + it) for it in counters]


class TestDamage(JournalCase):
    def test_each(self) -> None:
        """Each kind of damage, at random places of journals at random."""
        damages = (*DAMAGES, *REVERSAL_DAMAGES, used_again)
        for damage in damages:
            spoiled = []
            for _ in range(12 * self.times):
                pair = [Payment(1, self.chance.getrandbits(32), 0, bytes(8)),
                        Reversal(2, 3, UNDONE, bytes(8))]
                self.chance.shuffle(pair)
                groups = [*self.journals.entry_groups(self.chance.randint(1, 8)), pair]
                self.chance.shuffle(groups)
                groups = without_repeats(groups)
                data = journal_of(groups, self.chance.randrange(4), self.chance)
                spoiled.append(damage(self.journals, groups, data))
            for (data, place), found in zip(
                    spoiled, self.drop(*[data for data, _ in spoiled], kind="journal")):
                self.assertEqual(read_shown(data), place, damage.__name__)
                self.assert_refused(found, place, data, damage.__name__)
                self.assertIn(WORDS[damage.__name__], found.fault)
                if damage.__name__ != "broken_size":
                    self.assertIn(f": record {place.first // RECORD} ", found.fault)
        self.tells(f"{len(damages)} kinds, {12 * self.times} journals each")
        self.assert_quiet()

    def test_version_2(self) -> None:
        """The same behind a header, whose identity is told. Damage stands so many bytes later."""
        for damage in DAMAGES:
            groups: list[Group] = []
            while not any(len(group) > 1 for group in groups):
                groups = without_repeats(self.journals.entry_groups(3))
            plain, identity = journal_of(groups, 2, self.chance), self.chance.getrandbits(64)
            wrong, place = damage(self.journals, groups, plain)
            right, refused = self.drop(checked(plain, identity), checked(wrong, identity), kind="journal")
            self.assert_right(right, rows_in(groups), 2)
            self.assertIn(f"Version 2, with the identity {identity:016X}.", right.words)
            self.assert_damaged(refused, behind_header(place), damage.__name__)
        changed = bytearray(checked(plain))
        changed[HEADER + 15] ^= 1
        found = self.drop(bytes(changed), kind="journal")[0]
        self.assertIn(": record 0 ", found.fault)
        self.assertIn("lacks its check sum", found.fault)

    def test_changed_bytes(self) -> None:
        """A journal of version 2 with one bit of a byte changed, or each bit of it: of its header, of groups
        of one and more, and of the gates behind them. The last gate alone may be lost."""
        iksn = 5 << 21
        paid = [Payment(iksn + it, it, 0, self.chance.randbytes(8)) for it in (1, 2, 3, 4)]
        groups = [paid[:1], [*paid[1:3], Reversal(iksn + 5, iksn + 1, UNDONE, bytes(8))], paid[3:]]
        data = checked(journal_of(groups, 2), self.chance.getrandbits(64))
        places = [*range(HEADER + 5 * RECORD), HEADER + 5 * RECORD, HEADER + 6 * RECORD]
        changes = [(at, bits) for at in places for bits in (1 << self.chance.randrange(8), 0xFF, 1)]
        files = [data[:at] + bytes([data[at] ^ bits]) + data[at + 1 :] for at, bits in changes]
        for (at, _), it, found in zip(changes, files, self.drop(*files, kind="journal")):
            self.assertEqual(self.assert_read(found, it), not is_found(groups, at, data[at], it[at]), at)

    def test_torn_2(self) -> None:
        """Bytes behind the groups of a journal of version 2, as a stop leaves them, are no damage."""
        for _ in range(20 * self.times):
            groups = without_repeats(self.journals.entry_groups(self.chance.randrange(4)))
            plain = bytearray(journal_of(groups, 4))
            end = RECORD * sum(map(len, groups))
            for at in range(end, len(plain)):
                if at % RECORD and self.chance.random() < 0.8:
                    plain[at] = self.chance.randrange(256)
            data = checked(bytes(plain), self.chance.getrandbits(64))
            self.assertTrue(self.assert_read(self.drop(data, kind="journal")[0], data))

    def test_first(self) -> None:
        """Of several places the first one is named: of a record, of records, of a group's head. A
        record that is cut off, and a number that was used before, are places as all others."""
        paid = [Payment(it, 1, 0, bytes(8)) for it in (1, 2, 3)]
        wrong = journal_of([[*paid[:2], Reversal(4, 3, UNDONE, bytes(8))], [paid[2]]], 2) + b"\x00"
        for record, at, value, first, last in (
                (5, 31, b"\x01", 100, 109), (3, 13, b"\x05", 192, 192), (5, 0, b"\x01", 160, 160),
                (3, 27, b"\x01", 123, 123), (3, 18, b"\x01", 114, 114),
                (3, 11, bytes(3), 107, 109), (3, 2, b"\x10\x00", 98, 99), (3, 1, b"\x00", 97, 97),
                (2, 13, b"\x02", 68, 77), (2, 31, b"\x80", 95, 95), (2, 18, b"\x33", 82, 82),
                (2, 14, b"\x01", 78, 81), (2, 11, bytes(3), 75, 77), (2, 3, b"\x01", 66, 67),
                (2, 0, b"\x01", 64, 64), (1, 13, b"\x01", 36, 45), (0, 1, b"\x03", 1, 1)):
            wrong = put(wrong, record, at, value)[0]
            found = self.drop(wrong, kind="journal")[0]
            self.assert_refused(found, Place(first, last), wrong, f"{record} {at}")

    def test_each_size(self) -> None:
        """A journal of several groups that is cut off at each byte: the record that is missing or cut
        off is named, but where the file ends behind a group it is right."""
        groups = [[Payment(1, 1, 0, bytes(8))], [Payment(it, 1, 0, bytes(8)) for it in (2, 3, 4)],
                  [Reversal(5, 4, UNDONE, bytes(8)), Payment(6, 1, 0, bytes(8))]]
        data = journal_of(groups, 2)
        for size, found in enumerate(self.drop(*[data[:it] for it in range(len(data))], kind="journal")):
            is_right = self.assert_read(found, data[:size])
            self.assertEqual(is_right, size in (32, 128, 192, 224), size)

    def test_each_byte(self) -> None:
        """Each value of a kind, of a code, of a state and of bytes of the counter that is reversed,
        and of each gate of a group and behind it."""
        paid = [Payment(it, 2, 0, bytes(8)) for it in (1, 2)]
        data = journal_of([[*paid, Reversal(3, 1, UNDONE, bytes(8))]], 2)
        files = [put(data, record, at, bytes([value]))[0] for value in range(256)
                 for record, at in ((0, 1), (1, 18), (0, 0), (1, 0), (2, 1), (2, 18), (2, 15),
                                    (2, 17), (3, 0), (4, 0))]
        for it, found in zip(files, self.drop(*files, kind="journal")):
            self.assert_read(found, it)

    def test_scratched(self) -> None:
        """Bytes that are changed anywhere: the same entries, or the same place, as the reader of the
        tests finds."""
        drawn = [self.journals.entry_groups(self.chance.randint(1, 8))
                 for _ in range(6 * COUNT * self.times)]
        groups = [it if self.chance.random() < 0.3 else without_repeats(it) for it in drawn]
        files = [scratched(self.journals, journal_of(it, self.chance.randrange(6), self.chance))
                 for it in groups]
        right = sum(self.assert_read(found, data)
                    for data, found in zip(files, self.drop(*files, kind="journal")))
        self.tells(f"{right} right, {len(files) - right} damaged")
        self.assertTrue(0 < right < len(files))

    def test_kinds(self) -> None:
        """A kind that is none; and a new journal or a copy that is not whole, which by itself is read
        as a journal where it is no log."""
        entry = Payment(0x01020304050607080901, 0x0A0B0C0D, 0, bytes(8)).record(OPEN)
        words = ", and not 1, a payment, or 2, a reversal."
        unfinished = ", as a new journal or a copy has until it is whole."
        for data, kind, fault in (
                (b"\x01\x00" + bytes(62), "journal", f"Byte 1: record 0 has kind 0{unfinished}"),
                (b"\x01\x00" + entry[2:], "guess", f"Byte 1: record 0 has kind 0{unfinished}"),
                (b"\x01\x03" + entry[2:], "journal", f"Byte 1: record 0 has kind 3{words}"),
                (entry + b"\x01" + bytes(31), "guess", f"Byte 33: record 1 has kind 0{words}")):
            found = self.drop(data, kind=kind)[0]
            self.assertEqual((found.fault, found.taken), (f"0.bin, as a journal: {fault}", ""))

    def test_no_file(self) -> None:
        """Sizes that no journal has."""
        for size in (0, 1, 16, 31, 33, 63):
            data = bytes(size)
            self.assertFalse(self.assert_read(self.drop(data, kind="journal")[0], data))
