"""Reversals to a service over a journal: what it answers and what it keeps, in groups and alone, beside
payments, and where there is little room."""
from __future__ import annotations

from itertools import permutations
from typing import Sequence

from ..support.formats.checked_journal import blank, checked
from ..support.formats.frames import write_reply, write_request
from ..support.formats.journal_file import most_payments
from ..support.formats.journal_records import NONE_STANDS, UNDONE, Reversal
from ..support.models.model_journal import added_by, books_of, judged, payments_of_all
from ..support.service.client import (
    BDK, IKSN, PURCHASES, Exchange, first_counters, payments, payments_of, refusal)
from ..support.service.journal_case import ON_JOURNAL, JournalCase, stream_of
from ..support.service.reversals import (
    OTHER, OWN, counter_in, refused_reversals, reversal_of, reversals_of, undoing)
from ..support.standards.dukpt import derive
from ..support.worlds.streams import LAST

PAYMENT_BY_HAND = bytes.fromhex(
    "002E0101FFFF9876543210E000010D34303132333435363738393039000000011B9C1845EB993A7AA05619896B683F13")
REVERSAL_BY_HAND = bytes.fromhex(
    "001E0104" "FFFF9876543210E00002" "FFFF9876543210E00001" "3B8EA61D9F5F532F")
UNDONE_BY_HAND = bytes.fromhex(
    "001F0105" "FFFF9876543210E00002" "FFFF9876543210E00001" "01" "2DEBE27352A69B94")
NONE_BY_HAND = bytes.fromhex(
    "001F0105" "FFFF9876543210E00002" "FFFF9876543210E00001" "00" "87431E8A0B3DC903")
# Two amounts that are approved, and one of each code that declines.
APPROVED, DECLINED = PURCHASES[:2], PURCHASES[2:]


def used(it: Exchange) -> bytes:
    """The refusal of a frame whose number is used."""
    assert it.number is not None
    return refusal(it.number, 5)


class ReversalCase(JournalCase):
    """A test that gives frames and the answers that are owed, which are written beside them."""

    def answers(self, rows: Sequence[tuple[Exchange, bytes]], what: str) -> None:
        """That in one read each frame has its answer, and that the model says so too."""
        frames = [frame for frame, _ in rows]
        found = self.check_file(frames, what=what)
        for at, (_, answer) in enumerate(rows):
            self.assertEqual(found[at].answer.hex(), answer.hex(), f"{what}: frame {at}")


class Rows(ReversalCase):
    """Each kind of answer, and what it changes."""

    def test_by_hand(self) -> None:
        """A payment is undone, in exact bytes, and its record with it; the reversal that comes again
        has its reply again, and the payment none."""
        self.make_journal(4)
        reply = bytes.fromhex("00160102FFFF9876543210E000013030591B50E0CA98FE70")
        self.check(ON_JOURNAL, [PAYMENT_BY_HAND + REVERSAL_BY_HAND], reply + UNDONE_BY_HAND)
        records = bytes.fromhex(
            "01010001" "FFFF9876543210E00001" "00000001" "00" "A05619896B683F13" "0000000000"
            "00020000" "FFFF9876543210E00002" "00000001" "81" "3B8EA61D9F5F532F" "0000000000")
        self.assert_bytes(checked(records + bytes(64)), "a payment that was undone")
        refused = bytes.fromhex("000D0103FFFF9876543210E0000105")
        self.check(ON_JOURNAL, [REVERSAL_BY_HAND + PAYMENT_BY_HAND], UNDONE_BY_HAND + refused)
        self.assert_bytes(checked(records + bytes(64)), "both once more")

    def test_before_its_payment(self) -> None:
        """The same in exact bytes where the payment comes late."""
        self.make_journal(4)
        refused = bytes.fromhex("000D0103FFFF9876543210E0000105")
        self.check(ON_JOURNAL, [REVERSAL_BY_HAND + PAYMENT_BY_HAND], NONE_BY_HAND + refused)
        record = bytes.fromhex(
            "01020000" "FFFF9876543210E00002" "00000001" "80" "3B8EA61D9F5F532F" "0000000000")
        self.assert_bytes(checked(record + bytes(96)), "a number that none has")
        self.check(ON_JOURNAL, [PAYMENT_BY_HAND + REVERSAL_BY_HAND], refused + NONE_BY_HAND)
        self.assert_bytes(checked(record + bytes(96)), "both once more")

    def test_states(self) -> None:
        """An approved payment is undone; of a declined one, of a number that none has and of that of a
        reversal none stands. Who asks again under a new number is told the same."""
        purchases = [*APPROVED, *DECLINED]
        paid = payments_of(range(1, 1 + len(purchases)), purchases)
        undo, again = ([reversal_of(own + at, at) for at in range(1, 1 + len(purchases))]
                       for own in (32, 64))
        others = [reversal_of(96, 128), reversal_of(129, 33), reversal_of(130, 96)]
        states = [UNDONE] * len(APPROVED) + [NONE_STANDS] * len(DECLINED)
        rows = [*((it, it.answer) for it in paid),
                *((it, it.reply(state)) for it, state in zip(undo, states)),
                *((it, it.reply(state)) for it, state in zip(again, states)),
                *((it, it.answer) for it in others)]
        self.make_journal(200)
        self.answers(rows, "each of them")
        kept = self.kept()
        self.answers([(it, used(it)) for it in paid] + rows[len(paid) :], "once more")
        self.assertEqual((self.kept(), books_of(kept)), (kept, {}))

    def test_refused_whenever_they_come(self) -> None:
        """Reasons 1 to 4: one by one, in one group, among payments, and over a full journal. They
        change nothing."""
        refused, paid = refused_reversals(), payments(3)
        self.assertEqual({it.answer[14] for it in refused}, {1, 2, 3, 4})
        self.make_journal(3)
        self.check_file(refused, what="in one group")
        self.check_packets([[it] for it in refused], what="one by one")
        self.assert_bytes(blank(3), "what is refused")
        mixed = [it for at, one in enumerate(refused) for it in (one, paid[at % 3])]
        self.check_file([*mixed, *refused], what="among payments")
        self.assertEqual(self.kept(), payments_of_all(paid))

    def test_malformed_first(self) -> None:
        """A reversal that is none has reason 1 also where its number is used, by a payment, by a
        reversal or since it was reversed, and where there is no room."""
        for first in (payments_of([OWN], APPROVED[:1]), [reversal_of(OWN, OTHER)],
                      [reversal_of(1, OWN)]):
            self.make_journal(1)
            self.check_file([*first, *refused_reversals()], what="of a used number")
            self.assertEqual(len(self.kept()), 1)

    def test_used_numbers(self) -> None:
        """Reason 5: the number of a payment, approved or declined; of another reversal; and one that
        was reversed, whether a payment had it or not. In this run and the next, and in a full
        journal."""
        approved, declined = payments_of([1, 2], [APPROVED[0], DECLINED[0]])
        first, other = reversals_of([(4, 1), (8, 16)])
        wrong = reversals_of([(1, 32), (2, 32), (4, 2), (4, 16), (8, 1), (16, 1), (16, 8)])
        late = payments_of([4, 8, 16], APPROVED[:1] * 3)
        rows = [(approved, approved.answer), (declined, declined.answer), (first, first.undone),
                (other, other.answer), *((it, used(it)) for it in (*wrong, *late, approved)),
                (declined, declined.answer), (first, first.undone), (other, other.answer)]
        for room in (4, 100):
            self.make_journal(room)
            self.answers(rows, f"{room} records")
            kept = self.kept()
            self.answers([(approved, used(approved)), *rows[1:]], f"{room} records, again")
            self.assertEqual(self.kept(), kept)

    def test_a_declined_payment_that_was_reversed(self) -> None:
        """None stands, and its request has no reply any more."""
        declined, undo = payments_of([1], DECLINED[:1])[0], reversal_of(2, 1)
        self.make_journal(5)
        self.answers([(declined, declined.answer), (declined, declined.answer), (undo, undo.answer),
                      (declined, used(declined)), (undo, undo.answer)], "a declined one")

    def test_another_request_of_a_reversed_number(self) -> None:
        paid, other = (payments_of([1], [it])[0] for it in APPROVED)
        undo = reversal_of(2, 1)
        for one, two, state in ((paid, other, UNDONE), (undo, paid, NONE_STANDS)):
            self.make_journal(5)
            rows = [(one, one.answer)] + [(undo, undo.reply(state))] * 2 + [(two, used(two))]
            self.answers(rows, "another request")

    def test_numbers_at_their_ends(self) -> None:
        """The first number of a terminal and its last one reverse each other."""
        first, last = (payments_of([it], APPROVED[:1])[0] for it in (1, LAST))
        for own, it in ((LAST, first), (1, last)):
            undo = reversal_of(own, counter_in(it))
            self.make_journal(3)
            self.answers([(it, it.answer), (undo, undo.undone), (it, used(it))], "ends")
            self.answers([(undo, undo.undone), (it, used(it))], "ends, again")

    def test_another_terminal(self) -> None:
        """Its payment under the same counter stays."""
        serial = IKSN + (1 << 21) + 1
        key = derive(BDK, serial)
        other = Exchange(write_request(key, serial, "4012345678909", "1234", 77),
                         write_reply(key, serial, "00"), serial.to_bytes(10, "big"))
        paid, undo = payments_of([1], APPROVED[:1])[0], reversal_of(2, 1)
        self.make_journal(5)
        self.answers([(other, other.answer), (paid, paid.answer), (undo, undo.undone),
                      (other, other.answer), (paid, used(paid))], "two terminals")
        self.assertEqual(books_of(self.kept()), {serial: 77})
        self.answers([(other, other.answer), (paid, used(paid)), (undo, undo.undone)], "again")

    def test_over_no_journal(self) -> None:
        """A service without one, and one over a log, take a reversal for no frame of theirs."""
        undo = [*undoing(3), *refused_reversals()[:3]]
        refused = refusal(bytes(10), 1) * len(undo)
        self.check(("serve", "bank.toml"), [stream_of(undo)], refused, what="no journal")
        self.make_log(4)
        self.check(("serve", "bank.toml", "--log", "log"), [stream_of(undo)], refused, what="a log")
        self.assert_image([], "a log")


class Orders(JournalCase):
    """A few frames of one payment in each order: the answers are the same in one read, in a read
    each, and in a run each."""

    def test_orders(self) -> None:
        """A payment, its repeat, and two reversals of it; and a reversal that comes twice."""
        paid, late = payments_of([1, 4], [APPROVED[0]] * 2)
        first, second = reversals_of([(2, 1), (4, 1)])
        for frames in ((paid, paid, first, second), (paid, first, first, late), (paid, second, late)):
            for order in sorted(set(permutations(frames)), key=frames_of_all):
                self.one_way_or_another(list(order))

    def test_random(self) -> None:
        """More frames, of a few numbers that are in each other's way."""
        counters = first_counters(7)
        paid = payments_of(counters, [self.chance.choice(PURCHASES[:3]) for _ in counters])
        undo = reversals_of(list(permutations(counters, 2)))
        for _ in range(15 * self.times):
            frames = [self.chance.choice(self.chance.choice((paid, undo))) for _ in range(12)]
            self.one_way_or_another(frames, self.chance.choice((3, 6, 17, 40)))

    def one_way_or_another(self, frames: Sequence[Exchange], records: int = 8) -> None:
        what = " ".join(it.frame.hex() for it in frames)
        found = judged(frames, [], records)
        self.make_journal(records)
        self.check_file(frames, what=f"in one read: {what}")
        self.make_journal(records)
        self.check_packets([[it] for it in frames], what=f"in a read each: {what}")
        self.make_journal(records)
        for at, it in enumerate(frames):
            again = self.check_file([it], what=f"in a run each, {at}: {what}")
            self.assertEqual(again[0], found[at], what)
        self.assertEqual(self.kept(), added_by(found), what)


def frames_of_all(given: Sequence[Exchange]) -> list[bytes]:
    return [it.frame for it in given]


class Rooms(JournalCase):
    """Journals at their last sixteenth, and full ones."""

    SIZES = (1, 2, 3, 15, 16, 17, 31, 32, 33, 48, 49, 64, 100, 160, 161)

    def test_payments_then_reversals(self) -> None:
        """Payments up to the last sixteenth, reversals to the last record. Then each new number is
        refused, and what is kept is answered again."""
        for records in self.SIZES:
            most, paid = most_payments(records), payments(records + 3)
            undo = undoing(records + 3)
            self.make_journal(records)
            found = self.check_file(paid, what=f"payments, {records} records")
            self.assertEqual(len(added_by(found)), most)
            found = self.check_file([*undo, *paid], what=f"reversals, {records} records")
            self.assertEqual(len(added_by(found)), records - most)
            self.assertEqual(len(self.kept()), records)
            found = self.check_file([*paid, *undo], what=f"a full one, {records} records")
            self.assertEqual(added_by(found), [])

    def test_in_one_group(self) -> None:
        """The same in one group, with reversals between the payments."""
        for records in self.SIZES:
            paid, undo = payments(records + 2), undoing(records + 2)
            frames: list[Exchange] = []
            for at, it in enumerate(paid):
                frames.append(it)
                if self.chance.random() < 0.3:
                    frames.append(undo[self.chance.randrange(at + 1)])
            self.make_journal(records)
            self.check_file([*frames, *undo, *frames], what=f"{records} records")
            self.assertEqual(len(self.kept()), records)

    def test_reversals_alone_fill_it(self) -> None:
        for records in (1, 5, 16, 40):
            undo = undoing(records + 2)
            self.make_journal(records)
            self.check_file([*undo, *undo], what=f"{records} records")
            self.check_file([*payments(3), *undo], what=f"{records} records, again")
            self.assertEqual([it.state for it in self.kept() if isinstance(it, Reversal)],
                             [NONE_STANDS] * records)

    def test_it_grows(self) -> None:
        """Records that are appended are room again, for payments too where that is enough."""
        paid, undo = payments(60), undoing(60)
        self.make_journal(32)
        self.check_file([*paid, *undo], what="32 records")
        for more in (1, 2, 3, 40):
            with open(self.journal, "ab") as it:
                it.write(bytes(32 * more))
            self.check_file([*paid, *undo, *paid], what=f"{more} more")
