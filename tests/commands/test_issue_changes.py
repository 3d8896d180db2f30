"""Ledgers whose bytes were changed on the disk, under `issue` and `show ledger`: each change of
what a ledger keeps is told as damage, and nothing is issued over it or shown of it; what a stop
leaves is none. What is wanted stands in docs/FORMATS.md, and in a reader of the tests."""
from __future__ import annotations

import os
from typing import Sequence, TypeVar

from ..journals.test_journal_changes import flipped, flipped_run, put, record_of, run_of
from ..support.commands.issuing import (
    Ledger, issued_by, last_run, numbers_from, numbers_of, read_lines)
from ..support.formats.ledger_file import (
    OPEN, RECORD, DamagedLedger, Kept, ledger_image, record, shown_ledger)
from ..support.formats.opened_ledger import Refusal, opened
from ..support.quick import QuickRuns
from .test_issue import FIRST_NUMBER, KEYS, IssueCase, passed_over

# So many numbers were copied, and so many keys the runs behind them issued; there is room for more.
COPIED, ISSUED, ROOM = 2, (2, 1, 3), 3
COUNT = COPIED + sum(ISSUED)
NUMBERS = numbers_from(FIRST_NUMBER, COUNT)
# A byte of a file, and the bits that are changed there.
Change = tuple[int, int]
T = TypeVar("T")


class ChangeCase(IssueCase):
    """Whatever takes a ledger is given one whose bytes were changed."""

    weight = 8
    # So many of a test's changes are tried.
    cases = 1 << 20

    def setUp(self) -> None:
        super().setUp()
        self.home = self.folder(in_memory=True)
        self.path = self.home / "ledger"
        self.identity = self.chance.getrandbits(64)
        ledger, at = Ledger(COUNT + ROOM, NUMBERS[:COPIED], self.identity), COPIED
        for count in ISSUED:
            ledger.keep(KEYS, NUMBERS[at : at + count])
            at += count
        self.kept, self.image = ledger.kept, ledger.image

    def some(self, given: Sequence[T]) -> list[T]:
        """Some of these, or each."""
        return self.chance.sample(given, min(self.cases, len(given)))

    def is_refused(self, runs: QuickRuns, image: bytes, what: str) -> bool:
        """Whether it is refused, and nothing came of it."""
        raise NotImplementedError

    def demand(self, runs: QuickRuns, changed: bytes, what: str) -> None:
        """That it is no ledger, as the reader of the tests says too."""
        self.assertIsInstance(opened(changed), Refusal, what)
        self.assertTrue(self.is_refused(runs, changed, what), what)

    def change(self, changes: Sequence[Change]) -> None:
        """That a change of bits of a byte is refused, but that of the gate of the last record."""
        found = 0
        with QuickRuns(self.program) as runs:
            for at, bits in self.some(changes):
                changed, what = flipped(self.image, at, bits), f"byte {at} with {bits:02X}"
                wanted = at != RECORD * COUNT
                self.assertEqual(isinstance(opened(changed), Refusal), wanted, what)
                self.assertEqual(self.is_refused(runs, changed, what), wanted, what)
                found += wanted
        self.tells(f"{found} changes found")


class Changes:
    """Each class of these tests has its own that is tried."""

    def test_each_byte(self: ChangeCase) -> None:
        """One bit of each byte of the header and of each record, and all of its bits."""
        self.change([(at, bits) for at in range(RECORD * (1 + COUNT))
                     for bits in (1 << self.chance.randrange(8), 0xFF)])

    def test_each_bit(self: ChangeCase) -> None:
        """Of the header, of a record that was copied and of one that a run left."""
        places = [RECORD * it + at for it in (0, COPIED, COPIED + 1) for at in range(RECORD)]
        self.change([(at, 1 << bit) for at in places for bit in range(8)])

    def test_four_bytes(self: ChangeCase) -> None:
        """Each run of up to four bytes behind a gate, of the header and of each record, changed at
        both of its ends: the check sum and the zero behind it may be in it."""
        runs_of_bytes = [(RECORD * place + at, count) for place in range(1 + COUNT)
                         for count in range(1, 5) for at in range(1, RECORD + 1 - count)]
        with QuickRuns(self.program) as runs:
            for first, count in self.some(runs_of_bytes):
                bits = run_of(count, self.chance)
                changed = flipped_run(self.image, first, bits)
                self.demand(runs, changed, f"{bits.hex()} at {first}")

    def test_runs_of_bits(self: ChangeCase) -> None:
        """Runs of up to 32 bits that begin at any bit behind a gate, the lowest bit of a byte being
        its first."""
        with QuickRuns(self.program) as runs:
            for _ in self.some(range(300 * self.times)):
                place, count = self.chance.randrange(1 + COUNT), self.chance.randint(1, 32)
                run = 1 | 1 << count - 1 | self.chance.getrandbits(count)
                bits = run << self.chance.randint(0, 8 * (RECORD - 1) - count)
                mask = bits.to_bytes(RECORD - 1, "little")
                changed = flipped_run(self.image, RECORD * place + 1, mask)
                self.demand(runs, changed, f"{bits:X} in record {place}")

    def test_moved(self: ChangeCase) -> None:
        """A record at the place of another one, two that are exchanged, and a record of another
        ledger, which keeps the same."""
        identity = self.identity ^ 1 << self.chance.randrange(64)
        other = ledger_image(self.kept, COUNT + ROOM, identity)
        wrong = []
        for one in range(COUNT):
            wrong.append((put(self.image, one, record_of(other, one)), f"{one} of another ledger"))
            for two in range(COUNT):
                if one != two:
                    moved = put(self.image, one, record_of(self.image, two))
                    both = put(moved, two, record_of(self.image, one))
                    wrong += [(moved, f"record {two} at {one}"), (both, f"{one} and {two}")]
        moved = put(self.image, COUNT, record_of(self.image, COUNT - 1))
        wrong += [(moved, "the last record once more"),
                  (other[:RECORD] + self.image[RECORD:], "the header of another ledger")]
        with QuickRuns(self.program) as runs:
            for changed, what in self.some(wrong):
                self.demand(runs, changed, what)

    def test_lost_gates(self: ChangeCase) -> None:
        """A gate before the last has any other value, or several of them are zeros."""
        gates = [RECORD * (1 + place) for place in range(COUNT - 1)]
        wrong = [(flipped(self.image, at, OPEN ^ value), f"gate {at} is {value}")
                 for at in gates for value in (0, 2, 0x81, 0xFF)]
        for _ in range(10):
            lost, changed = self.chance.sample(gates, self.chance.randint(2, COUNT - 1)), self.image
            for at in lost:
                changed = flipped(changed, at, OPEN)
            wrong.append((changed, f"the gates {lost} are lost"))
        with QuickRuns(self.program) as runs:
            for changed, what in self.some(wrong):
                self.demand(runs, changed, what)

    def test_the_last_gate(self: ChangeCase) -> None:
        """Where it is closed, that number is not kept, as if a stop had come before it. So
        docs/FORMATS.md says, and no more can be found."""
        with QuickRuns(self.program) as runs:
            for value in (0, 2, 0x81, 0xFF):
                changed = flipped(self.image, RECORD * COUNT, OPEN ^ value)
                self.assertEqual(opened(changed), self.kept[:-1])
                self.assertFalse(self.is_refused(runs, changed, f"the last gate is {value}"))

    def test_torn(self: ChangeCase) -> None:
        """What a stop leaves of an append is no damage, whatever its bytes are, with a gate that is
        not open."""
        with QuickRuns(self.program) as runs:
            for _ in self.some(range(60 * self.times)):
                count = self.chance.randint(0, COUNT)
                kept = self.kept[:count]
                whole = record(issued_by(KEYS, [FIRST_NUMBER], 9)[0], 1 + count, self.identity)
                front = self.chance.randrange(RECORD + 1)
                rest = self.chance.choice((bytes, self.chance.randbytes))(RECORD - front)
                gate = self.chance.choice((0, 0, 2, 0xFF))
                torn = bytes([gate]) + (whole[:front] + rest)[1:]
                image = put(ledger_image(kept, COUNT + ROOM, self.identity), count, torn)
                self.assertEqual(opened(image), kept, torn.hex())
                self.assertFalse(self.is_refused(runs, image, f"torn: {torn.hex()}"), torn.hex())

    def test_open_behind(self: ChangeCase) -> None:
        """A gate behind the last record that is open is found: what stands there is no issue."""
        torn = put(self.image, COUNT, b"\x00" + self.chance.randbytes(RECORD - 1))
        with QuickRuns(self.program) as runs:
            for given in (self.image, torn):
                for place in range(COUNT, COUNT + ROOM):
                    changed = flipped(given, RECORD * (1 + place), OPEN)
                    self.demand(runs, changed, f"gate of {place}")


class Issued(Changes, ChangeCase):
    """A run that issues all numbers that the ledger does not keep, and one more."""

    def is_refused(self, runs: QuickRuns, image: bytes, what: str) -> bool:
        wanted = opened(image)
        self.path.write_bytes(image)
        words = self.words(FIRST_NUMBER, COUNT + 1, True)
        words[words.index("ledger")] = os.fspath(self.path)
        ended = runs.run(words)
        if isinstance(wanted, Refusal):
            self.assert_ended(ended, 1, b"", f"{wanted.value}\n".encode(), what)
            self.assertEqual(self.path.read_bytes(), image, f"{what}: refused and changed")
            return True
        self.assert_ended(ended, 0, ended.output, passed_over(len(wanted)), what)
        issued = [it.number for it in read_lines(ended.output, KEYS)]
        self.assertEqual(issued, numbers_from(FIRST_NUMBER, COUNT + 1)[len(wanted) :], what)
        kept = [*wanted, *issued_by(KEYS, issued, 1 + last_run(wanted))]
        self.assertEqual(opened(self.path.read_bytes()), kept, what)
        return False

    def test_the_version(self) -> None:
        """Without the gate of its header a ledger is told as one of version 1."""
        with QuickRuns(self.program) as runs:
            for value in (0, 2, 0x81, 0xFF):
                changed = flipped(self.image, 0, OPEN ^ value)
                self.assertIs(opened(changed), Refusal.OLD)
                self.assertTrue(self.is_refused(runs, changed, f"the first byte is {value}"))
            # Not the bit with which the sixteenth byte is the last of the zeros of a log's record.
            for at in range(1, RECORD):
                changed = flipped(self.image, at, 1 << self.chance.randrange(5))
                self.assertIs(opened(changed), Refusal.DAMAGED)
                self.demand(runs, changed, f"byte {at} of the header")

    def test_lines_again(self) -> None:
        """Those of a damaged ledger are not made again, and those of a lost gate are not issued."""
        for changed, fault in ((flipped(self.image, RECORD * COUNT + 9, 1), Refusal.DAMAGED.value),
                               (flipped(self.image, RECORD * COUNT, OPEN),
                                f"{numbers_text(self.kept[-1:])}: not issued")):
            self.path.write_bytes(changed)
            self.refused(self.words(FIRST_NUMBER, COUNT, again=True), fault)


class Shown(Changes, ChangeCase):
    """`show ledger`."""

    def is_refused(self, runs: QuickRuns, image: bytes, what: str) -> bool:
        self.path.write_bytes(image)
        try:
            lines, fault = shown_ledger(image), ""
        except DamagedLedger as damaged:
            lines, fault = "", f"ledger refused at {damaged.args[0]}: Damaged\n"
        ended = runs.run(["show", "ledger", os.fspath(self.path)])
        self.assert_ended(ended, int(bool(fault)), lines.encode(), fault.encode(), what)
        self.assertEqual(self.path.read_bytes(), image, f"{what}: shown and changed")
        return bool(fault)


def numbers_text(kept: list[Kept]) -> str:
    return " ".join(f"{it:020X}" for it in numbers_of(kept))
