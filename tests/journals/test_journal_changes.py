"""Journals whose bytes were changed on the disk, under whatever keeps them: each change of what an answer
was given for is told as damage, nothing is answered over it, shown of it or copied of it, and what a stop
leaves is never told as damage. What is wanted stands in docs/FORMATS.md, and in a reader of the tests."""
from __future__ import annotations

import os
import random
from typing import Iterable, Sequence, TypeVar

from ..support.commands.shown import journal_ended
from ..support.formats import opened_journal
from ..support.formats.checked_journal import (
    HEADER, blank, journal_of, room_in, with_check_sums)
from ..support.formats.journal_file import entries_in
from ..support.formats.journal_records import OPEN, RECORD, Entry, Group, starts_of
from ..support.formats.opened_journal import Refusal, is_found, opened
from ..support.models.model_journal import added_by, answers_of, judged
from ..support.quick import QuickRuns
from ..support.service.client import Exchange, payments
from ..support.service.journal_case import JournalCase, stream_of
from ..support.service.reversals import undoing

# How many records the groups of a journal have.
SIZES = (1, 3, 1, 2, 1)
# For how many more there is room.
ROOM = 8
T = TypeVar("T")


class ChangeCase(JournalCase):
    """Whatever takes a journal is given one whose bytes were changed."""

    # So many of a test's changes are tried.
    cases = 1 << 20
    # Whether it takes journals of version 1 too.
    takes_old = True

    def setUp(self) -> None:
        super().setUp()
        paid, undo = payments(sum(SIZES) + 2), undoing(sum(SIZES) + 2)
        # What is sent, and kept of the first of it: of payments alone, and with reversals between them.
        self.frames: dict[bool, list[Exchange]] = {
            False: [*paid], True: [it for pair in zip(paid, undo) for it in pair][: len(paid)]}
        self.identity = self.chance.getrandbits(64)
        # For requests that come behind a change.
        self.asked = self.frames[False]

    def groups(self, has_reversals: bool = False, sizes: Sequence[int] = SIZES) -> list[list[Entry]]:
        """Groups of so many entries, of payments, or with reversals."""
        self.asked = self.frames[has_reversals]
        kept = added_by(judged(self.asked, [], 99))
        return [kept[end - size : end] for size, end in zip(sizes, ends_of(sizes))]

    def some(self, given: Sequence[T]) -> list[T]:
        """Some of these, or each."""
        return self.chance.sample(given, min(self.cases, len(given)))

    def is_refused(self, runs: QuickRuns, image: bytes, what: str) -> bool:
        """Whether it is refused, and nothing came of it."""
        raise NotImplementedError

    def demand(self, runs: QuickRuns, changed: bytes, what: str) -> None:
        """That it is damaged, as the reader of the tests says too."""
        self.assertIs(opened(changed), Refusal.DAMAGED, what)
        self.assertTrue(self.is_refused(runs, changed, what), what)

    def change(self, groups: Sequence[Group], changes: Iterable[tuple[int, int]]) -> None:
        """That a journal of these groups with a change of bits of a byte is refused where the documents say
        so, as the reader of the tests says too."""
        image, found = journal_of(groups, ROOM, identity=self.identity), 0
        with QuickRuns(self.program) as runs:
            for at, bits in changes:
                changed, what = flipped(image, at, bits), f"byte {at} with {bits:02X}"
                wanted = is_found(groups, at, image[at], changed[at])
                self.assertEqual(isinstance(opened(changed), Refusal), wanted, what)
                self.assertEqual(self.is_refused(runs, changed, what), wanted, what)
                found += wanted
        self.tells(f"{found} changes found")

    def change_each_byte(self, groups: Sequence[Group]) -> None:
        """One bit of each byte, and each bit of it."""
        places = range(HEADER + RECORD * sum(map(len, groups)))
        self.change(groups, self.some([(at, bits) for at in places
                                       for bits in (1 << self.chance.randrange(8), 0xFF)]))

    def torn(self, image: bytes, kept: int, count: int) -> bytes:
        """A journal that keeps so many entries, behind a stop in an append of some more."""
        group = added_by(judged(self.asked[kept : kept + count], [], 99))
        records = [it.record(0, 0 if at else len(group) - 1) for at, it in enumerate(group)]
        whole = with_check_sums(b"".join(records), self.identity, 1 + kept)
        first, found = HEADER + RECORD * kept, bytearray(image)
        for at, byte in enumerate(whole):
            if at % RECORD and (draw := self.chance.random()) < 0.9:
                found[first + at] = self.chance.randrange(256) if draw < 0.2 else byte
        if self.chance.random() < 0.3:
            # All of it is there, but for its gate.
            found[first : first + len(whole)] = whole
        found[first] = self.chance.choice((0, 0, 2, 0xFF))
        return bytes(found)


def ends_of(sizes: Sequence[int]) -> list[int]:
    return [sum(sizes[: at + 1]) for at in range(len(sizes))]


def flipped(image: bytes, at: int, bits: int) -> bytes:
    changed = bytearray(image)
    changed[at] ^= bits
    return bytes(changed)


def flipped_run(image: bytes, first: int, bits: bytes) -> bytes:
    """A file of which the bytes from a place on were changed by these bits."""
    changed = bytearray(image)
    for at, it in enumerate(bits, first):
        changed[at] ^= it
    return bytes(changed)


def run_of(count: int, chance: random.Random) -> bytes:
    """The bits of a change of so many bytes, the first and the last of which change."""
    return bytes(chance.randrange(at in (0, count - 1), 256) for at in range(count))


def record_of(image: bytes, record: int) -> bytes:
    """That of an entry, by its place behind the header."""
    return image[HEADER + RECORD * record :][:RECORD]


def put(image: bytes, record: int, data: bytes) -> bytes:
    """A journal with another record of an entry."""
    first = HEADER + RECORD * record
    return image[:first] + data + image[first + RECORD :]


def are_alike(image: bytes, one: int, two: int) -> bool:
    """Whether two entries may stand each in the place of the other, but for their check sums."""
    return one != two and record_of(image, one)[:4] == record_of(image, two)[:4]


class Changes:
    """Each class of these tests has its own that is tried."""

    def test_each_byte(self: ChangeCase) -> None:
        """Of the header and of each record."""
        self.change_each_byte(self.groups())

    def test_each_byte_of_reversals(self: ChangeCase) -> None:
        self.change_each_byte(self.groups(True))

    def test_each_bit(self: ChangeCase) -> None:
        """Of the header; and in a group of three, of the first record, and of one that follows."""
        groups = self.groups(True)
        first = HEADER + RECORD * starts_of(groups)[1]
        places = (*range(HEADER), *range(first, first + 2 * RECORD))
        self.change(groups, self.some([(at, 1 << bit) for at in places for bit in range(8)]))

    def test_no_entries(self: ChangeCase) -> None:
        """Each byte of the header of a journal that keeps nothing. Without the gate of its header it is one of
        version 1 that keeps nothing, which no service takes."""
        image = blank(ROOM, self.identity)
        with QuickRuns(self.program) as runs:
            for at in self.some(range(HEADER)):
                changed, what = flipped(image, at, 1 << self.chance.randrange(8)), f"byte {at}"
                self.assertEqual(self.is_refused(runs, changed, what), at > 0 or not self.takes_old, what)

    def test_four_bytes(self: ChangeCase) -> None:
        """Each run of up to four bytes behind a gate, of the header and of each record, changed at both of
        its ends: the check sum and the zero behind it may be in it."""
        image = journal_of(self.groups(True), ROOM, identity=self.identity)
        runs_of_bytes = [(RECORD * record + at, count) for record in range(1 + sum(SIZES))
                         for count in range(1, 5) for at in range(1, RECORD + 1 - count)]
        with QuickRuns(self.program) as runs:
            for first, count in self.some(runs_of_bytes):
                bits = run_of(count, self.chance)
                changed = flipped_run(image, first, bits)
                self.demand(runs, changed, f"{bits.hex()} at {first}")

    def test_runs_of_bits(self: ChangeCase) -> None:
        """Runs of up to 32 bits that begin at any bit behind a gate, the lowest bit of a byte being
        its first."""
        image = journal_of(self.groups(True), ROOM, identity=self.identity)
        with QuickRuns(self.program) as runs:
            for _ in self.some(range(300 * self.times)):
                record, count = self.chance.randrange(1 + sum(SIZES)), self.chance.randint(1, 32)
                run = 1 | 1 << count - 1 | self.chance.getrandbits(count)
                bits = run << self.chance.randint(0, 8 * (RECORD - 1) - count)
                mask = bits.to_bytes(RECORD - 1, "little")
                changed = flipped_run(image, RECORD * record + 1, mask)
                self.demand(runs, changed, f"{bits:X} in record {record} of the file")

    def test_moved(self: ChangeCase) -> None:
        """A record at the place of another one, two that are exchanged, and a record of another journal,
        which has the same entries."""
        groups = self.groups()
        image = journal_of(groups, ROOM, identity=self.identity)
        other = journal_of(groups, ROOM, identity=self.identity ^ 1 << self.chance.randrange(64))
        count = sum(SIZES)
        wrong = []
        for one in range(count):
            wrong.append((put(image, one, record_of(other, one)), f"record {one} of another journal"))
            for two in range(count):
                if are_alike(image, one, two):
                    moved = put(image, one, record_of(image, two))
                    wrong += [(moved, f"record {two} at {one}"),
                              (put(moved, two, record_of(image, one)), f"records {one} and {two}")]
        with QuickRuns(self.program) as runs:
            for changed, what in self.some(wrong):
                self.demand(runs, changed, what)

    def test_lost_gates(self: ChangeCase) -> None:
        """A gate of a group with one behind it has any other value, or the gates of several such groups are
        zeros."""
        groups = self.groups(True)
        image = journal_of(groups, ROOM, identity=self.identity)
        gates = [HEADER + RECORD * it for it in starts_of(groups)[:-1]]
        wrong = [(flipped(image, at, OPEN ^ value), f"gate {at} is {value}")
                 for at in gates[:-1] for value in (0, 0, 2, 0x81, 0xFF)]
        for _ in range(10):
            lost = self.chance.sample(gates[:-1], self.chance.randint(2, len(gates) - 1))
            changed = bytearray(image)
            for at in lost:
                changed[at] = 0
            wrong.append((bytes(changed), f"the gates {lost} are lost"))
        with QuickRuns(self.program) as runs:
            for changed, what in self.some(wrong):
                self.demand(runs, changed, what)

    def test_the_last_gate(self: ChangeCase) -> None:
        """Where it is closed, that group is not kept, as if a stop had come before it. So docs/FORMATS.md
        says, and no more can be found."""
        for size in (1, 4):
            groups = self.groups(sizes=(1, 2, size))
            image = journal_of(groups, ROOM, identity=self.identity)
            gate = HEADER + RECORD * starts_of(groups)[-2]
            with QuickRuns(self.program) as runs:
                for value in self.some((0, 2, 0x81, 0xFF)):
                    changed = flipped(image, gate, OPEN ^ value)
                    self.assertEqual(opened(changed), [it for group in groups[:-1] for it in group])
                    self.assertFalse(self.is_refused(runs, changed, f"the last gate is {value}"))

    def test_torn(self: ChangeCase) -> None:
        """What a stop leaves of an append is no damage, whatever its bytes are: some of the group that was
        being kept, bytes of it and of what stood there, or any; with a gate that is not open."""
        groups = self.groups()
        with QuickRuns(self.program) as runs:
            for _ in self.some(range(60 * self.times)):
                kept, more = groups[: self.chance.randint(0, 4)], self.chance.randint(1, 6)
                image = journal_of(kept, ROOM, identity=self.identity)
                torn = self.torn(image, sum(map(len, kept)), more)
                self.assertEqual(opened(torn), [it for group in kept for it in group], torn.hex())
                self.assertFalse(self.is_refused(runs, torn, f"a torn group: {torn.hex()}"), torn.hex())

    def test_open_behind(self: ChangeCase) -> None:
        """A gate behind the groups that is open is found: none of what stands there is an entry."""
        groups = self.groups()
        image, end = journal_of(groups, ROOM, identity=self.identity), sum(SIZES)
        torn = put(image, end, b"\x00" + self.chance.randbytes(RECORD - 1))
        with QuickRuns(self.program) as runs:
            for given in (image, torn):
                for record in self.some(range(end, end + ROOM)):
                    self.demand(runs, flipped(given, HEADER + RECORD * record, OPEN), f"gate of {record}")


class Served(Changes, ChangeCase):
    """A service, to which all that is kept is sent again, with something new behind it."""

    weight, takes_old = 10, False

    def is_refused(self, runs: QuickRuns, image: bytes, what: str) -> bool:
        wanted = opened(image)
        self.journal.write_bytes(image)
        ended = runs.run(["serve", os.fspath(self.home / "bank.toml"), "--journal",
                          os.fspath(self.journal)], stream_of(self.asked))
        if isinstance(wanted, Refusal):
            self.assert_output(ended, b"", wanted.value, what)
            self.assert_bytes(image, f"{what}: refused and changed")
            return True
        found = judged(self.asked, wanted, room_in(image))
        self.assert_output(ended, answers_of(found), "", what)
        self.assertEqual(self.kept(), [*wanted, *added_by(found)], what)
        return False

    def test_the_version(self) -> None:
        """Without the gate of its header a journal is told as one of version 1, and with any other header
        as damaged."""
        image = journal_of(self.groups(), ROOM, identity=self.identity)
        with QuickRuns(self.program) as runs:
            for value in (0, 2, 0x81, 0xFF):
                changed = flipped(image, 0, OPEN ^ value)
                self.assertIs(opened(changed), Refusal.OLD)
                self.assertTrue(self.is_refused(runs, changed, f"the first byte is {value}"))
            for at in self.some(range(1, HEADER)):
                self.demand(runs, flipped(image, at, 1 << self.chance.randrange(8)), f"byte {at} of the header")


class Shown(Changes, ChangeCase):
    """`show journal`."""

    weight = 10

    def is_refused(self, runs: QuickRuns, image: bytes, what: str) -> bool:
        wanted = journal_ended(image)
        self.journal.write_bytes(image)
        ended = runs.run(["show", "journal", os.fspath(self.journal)])
        self.assert_ended(ended, wanted.status, wanted.output, wanted.faults, what)
        self.assert_bytes(image, f"{what}: shown and changed")
        if ended.status:
            self.assertEqual(ended.output, b"", what)
            self.assertRegex(ended.faults, rb"\Ajournal refused at \d+: Damaged\n\Z", what)
        return ended.status != 0


class Copied(Changes, ChangeCase):
    """`copy-journal`."""

    weight = 10

    def is_refused(self, runs: QuickRuns, image: bytes, what: str) -> bool:
        copy, wanted = self.home / "copy", opened_journal.copied(image)
        self.journal.write_bytes(image)
        ended = runs.run(["copy-journal", os.fspath(self.journal), os.fspath(copy)])
        is_refused = isinstance(wanted, Refusal)
        self.assert_output(ended, b"", Refusal.DAMAGED.value if is_refused else "", what)
        self.assert_bytes(image, f"{what}: copied and changed")
        self.assertEqual(copy.exists(), not is_refused, what)
        if copy.exists():
            self.assertEqual(entries_in(copy.read_bytes()), wanted, what)
            copy.unlink()
        return is_refused
