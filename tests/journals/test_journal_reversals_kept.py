"""Reversals in journals: those that a service finds, some thousand frames at random over any number of
runs, and what no restart changes."""
from __future__ import annotations

from typing import Sequence

from ..support.case import in_parts
from ..support.formats.checked_journal import HEADER, checked
from ..support.formats.journal_file import appended
from ..support.formats.journal_records import NONE_STANDS, UNDONE, Entry, Payment, Reversal
from ..support.models.model_journal import added_by, books_of, judged, payments_of_all
from ..support.service.client import (
    IKSN, Exchange, first_counters, payments, refused_requests)
from ..support.service.journal_case import ON_JOURNAL, JournalCase, alone, stream_of
from ..support.service.reversals import (
    Reversing, refused_reversals, reversals_of, serial_of, undoing)
from ..support.worlds.streams import LAST


class Found(JournalCase):
    """Journals that a service finds."""

    def test_written_by_hand(self) -> None:
        """In one group and alone, of other terminals too: what stands there is answered."""
        paid, undo = payments(12), undoing(12)
        one, other = 7 << 21, 9 << 21
        strange = [Payment(one + 1, 5, 0, bytes(8)), Reversal(one + 2, one + 1, 1, bytes(8)),
                   Reversal(other + LAST, other + 1, 0, b"\xff" * 8)]
        kept = [*added_by(judged([*paid[:8], *undo[:6]], [], 99)), *strange]
        for groups in ([kept], alone(kept)):
            self.make_journal(60, groups)
            self.check_file([*undo[:3], *paid, *undo, *paid], what="by hand")
            self.check_file([*undo, *paid], what="by hand, again")

    def test_a_state_is_that_of_the_journal(self) -> None:
        """The same reversal is told what its record says, and nothing is decided anew."""
        paid, undo = payments(2), undoing(2)
        for state in (NONE_STANDS, UNDONE):
            for before in ([], payments_of_all(paid[:1])):
                turned = Reversal(serial_of(undo[0]), serial_of(paid[0]), state, undo[0].mac)
                self.make_journal(20, alone([*before, turned]))
                found = self.check_file([undo[0], paid[0], undo[0]], what=f"state {state}")
                self.assertEqual(undo[0].told(found[0].answer), state)

    def test_numbers_that_stand_twice(self) -> None:
        """No host comes up over a journal in which an entry has a number that was used before it."""
        one, two = IKSN + 1, IKSN + 2
        paid, undo = Payment(one, 1, 0, bytes(8)), Reversal(two, one, 1, bytes(8))
        wrong: list[list[Entry]] = [
            [undo, paid], [paid, undo, undo], [paid, undo, paid],
            [undo, Payment(two, 1, 0, bytes(8))], [paid, Reversal(one, two, 0, bytes(8))],
            [undo, Reversal(one, two, 0, bytes(8))]]
        for kept in wrong:
            for groups in ([kept], alone(kept)):
                image = self.make_journal(9, groups)
                self.check(ON_JOURNAL, [stream_of(payments(5))], b"", "journal: failed",
                           what=f"{kept}")
                self.assert_bytes(image, "a number twice")
        image = self.make_journal(9, alone([paid, undo, Reversal(IKSN + 3, one, 1, bytes(8))]))
        self.check_file(payments(5), what="a second reversal is no number twice")

    def test_damage(self) -> None:
        """A record of kind 2 that breaks a rule."""
        good = Reversal(IKSN + 2, IKSN + 1, 1, b"\x11" * 8).record(1) + bytes(64)
        places = {1: (0, 1, 3, 255), 13: (0, 1), 14: (1,), 15: (0x20,), 16: (0x80 | 0x7F,), 17: (0, 2),
                  18: (0, 1, 14, 127, 130, 255), 27: (1,), 31: (255,)}
        for at, values in places.items():
            for value in values:
                image = bytearray(good)
                image[at] = value
                if at == 16:
                    image[15:18] = b"\x1f\xff\xff"
                image = bytearray(checked(bytes(image)))
                self.journal.write_bytes(bytes(image))
                self.check(ON_JOURNAL, [stream_of(payments(2))], b"", "journal: failed",
                           what=f"byte {at} is {value}")
                self.assert_bytes(bytes(image), "damage")
        self.journal.write_bytes(checked(good))
        self.check_file([*payments(2), *undoing(1)], what="no damage")

    def test_behind_a_torn_group(self) -> None:
        """Bodies of reversals behind the groups, whose first gate never opened, are no entries, and
        are written over."""
        paid, undo = payments(10), undoing(10)
        kept = payments_of_all(paid[:4])
        torn = added_by(judged([*undo[:4]], kept, 99))
        image = appended(self.make_journal(40, [kept]), [torn])
        closed = bytearray(image)
        closed[HEADER + 32 * 4] = 0
        self.journal.write_bytes(bytes(closed))
        self.check_file([*paid[:4], undo[5], *paid[:6], *undo[:4]], what="behind a torn group")


class Worlds(JournalCase):
    """Some thousand frames at random, over a journal of any size and in any number of runs: each
    answer and each byte of the journal."""

    weight = 6
    FRAMES, NUMBERS = 4000, 3000

    @in_parts(2)
    def test_worlds(self) -> None:
        tally = {"payments": 0, "undone": 0, "none": 0, "again": 0}
        for _ in range(self.times):
            frames = self.frames(self.FRAMES)
            records = self.chance.choice((300, 1000, self.FRAMES))
            self.make_journal(records)
            left = frames
            while left:
                count = self.chance.choice((1, 40, 700, 2500))
                self.one_run(left[:count])
                left = left[count:]
            self.judge_all(frames, records, tally)
        self.tells(", ".join(f"{count} {what}" for what, count in tally.items()))

    def one_run(self, part: Sequence[Exchange]) -> None:
        way = self.chance.randrange(3)
        if way == 0:
            self.check_file(part, what="from a file")
        elif way == 1:
            self.check_run(part, what="from a pipe")
        else:
            left, packets = list(part), list[list[Exchange]]()
            while left:
                count = self.chance.choice((1, 2, 30, 1000))
                packets.append(left[:count])
                left = left[count:]
            self.check_packets(packets, what="in packets")

    def judge_all(
        self, frames: Sequence[Exchange], records: int, tally: dict[str, int]
    ) -> None:
        """All runs kept what one run of all frames would have kept, and each number has one reply in
        all of them. What was undone stands no more, and a number that was told 00 is not paid."""
        found = judged(frames, [], records)
        self.assertEqual(self.kept(), added_by(found))
        replies: dict[bytes, bytes] = {}
        closed: set[bytes] = set()
        for it, judgement in zip(frames, found):
            answer = judgement.answer
            if answer[2:4] == b"\x01\x03":
                continue
            assert it.number is not None
            self.assertEqual(replies.setdefault(it.number, answer), answer)
            tally["again"] += judgement.entry is None
            if isinstance(it, Reversing):
                closed.add(it.reversed)
                tally["undone" if it.told(answer) == UNDONE else "none"] += 1
            else:
                self.assertNotIn(it.number, closed, "a late payment was accepted")
                tally["payments"] += 1

    def frames(self, count: int) -> list[Exchange]:
        """Payments with most of their numbers in order; reversals of one of the last numbers, of any
        and of one that comes later, under the next number or one that is used; and some of it again,
        with what is always refused."""
        counters, paid = first_counters(self.NUMBERS), payments(self.NUMBERS)
        pairs: list[tuple[int, int]] = []
        # A payment, the place of a pair, or nothing, where something comes again.
        plan: list[object] = []
        last = 0
        for _ in range(count):
            kind = self.chance.random()
            own = last
            if kind < 0.75 and self.chance.random() < 0.8:
                own = last = min(last + 1, self.NUMBERS - 1)
            if kind < 0.4:
                plan.append(paid[own])
            elif kind < 0.75:
                other = self.number_near(own)
                if other != own:
                    plan.append(len(pairs))
                    pairs.append((counters[own], counters[other]))
            else:
                plan.append(None)
        made = reversals_of(pairs)
        return self.with_repeats([made[it] if isinstance(it, int) else it for it in plan])

    def number_near(self, own: int) -> int:
        other = own + self.chance.choice((-1, -1, -1, -1, -2, -3, 1, 2))
        if self.chance.random() < 0.1:
            other = self.chance.randrange(self.NUMBERS)
        return min(max(other, 0), self.NUMBERS - 1)

    def with_repeats(self, plan: Sequence[object]) -> list[Exchange]:
        frames: list[Exchange] = []
        for it in plan:
            if isinstance(it, Exchange):
                frames.append(it)
            elif frames and self.chance.random() < 0.8:
                back = self.chance.choice((5, 50, len(frames)))
                frames.append(self.chance.choice(frames[-back:]))
            else:
                frames.append(self.chance.choice((*refused_requests(), *refused_reversals())))
        return frames


class Lives(JournalCase):
    """What a restart leaves as it was."""

    def test_nothing_stands_again(self) -> None:
        """Payments, some of them undone, some reversed before they come; then everything in any
        order, in one run after the other."""
        paid, undo = payments(300), undoing(300)
        undone = self.chance.sample(range(150), 60)
        early = self.chance.sample(range(150, 300), 60)
        self.make_journal(1000)
        first = self.check_file([*paid[:150], *(undo[at] for at in (*undone, *early))], what="first")
        closed = {serial_of(paid[at]) for at in (*undone, *early)}
        told = {it.answer for it in first if it.answer[2:4] == b"\x01\x05"}
        for run in range(4):
            order = self.chance.sample([*paid, *(undo[at] for at in (*undone, *early))], 420)
            found = self.check_run(order, what=f"run {run}")
            self.assertEqual({it.answer for it in found if it.answer[2:4] == b"\x01\x05"}, told)
            self.assertFalse(closed & set(books_of(self.kept())), "an undone payment stands again")
        self.assertEqual(len(self.kept()), 150 + 60 + 60 + 90)
