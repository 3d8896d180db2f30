"""The latest 1,048,576 entries of a journal are answered again, and each one before is used."""
from __future__ import annotations

import time

from ..support.formats.checked_journal import journal_of
from ..support.formats.journal_file import LAST_PART
from ..support.formats.journal_records import RECORD, Payment
from ..support.formats.large_stores import payments_in_rounds
from ..support.models.model_journal import LATEST, added_by, judged
from ..support.service.client import Exchange, first_counters, payments
from ..support.service.journal_case import JournalCase, alone
from ..support.service.reversals import undoing

# So many entries that a client knows stand first. The others behind them, of so many terminals in so
# many rounds, leave a few of them among the latest.
FIRST, AMONG = 40, 16
TERMINALS, ROUNDS = 1028, 1020
# One of the others, of which no client asks.
OTHER = Payment(0, 1, 0, bytes(8))


class Latest(JournalCase):
    weight = 12

    def setUp(self) -> None:
        super().setUp()
        self.assertEqual(FIRST + TERMINALS * ROUNDS, LATEST + FIRST - AMONG)

    def make(self, requests: list[Exchange]) -> None:
        """Makes the journal that keeps the first of these, and has room for the others."""
        self.requests = requests
        first = added_by(judged(requests[:FIRST], [], LAST_PART * FIRST))
        self.assertEqual(len(first), FIRST)
        others = payments_in_rounds(range(1, TERMINALS + 1)).rounds(first_counters(ROUNDS), FIRST)
        self.all = [*first, *[OTHER] * (TERMINALS * ROUNDS)]
        room = 60 + len(self.all) // (LAST_PART - 1)
        self.journal.write_bytes(journal_of(alone(first), 0) + others + bytes(room * RECORD))

    def replies(self, places: list[int], what: str) -> list[bool]:
        """Whether the requests at these places have a reply, and no refusal. They are judged in one
        run, and what it keeps is behind all of before."""
        began = time.monotonic()
        found = self.check_file([self.requests[it] for it in places], what=what, kept=self.all)
        self.tells(f"{what}, over {len(self.all)} payments: {time.monotonic() - began:.2f} s")
        self.all += added_by(found)
        return [it.answer[2:4] in (b"\x01\x02", b"\x01\x05") for it in found]

    def test_the_border(self) -> None:
        """Each further payment makes one of them older, in the same group too."""
        self.make(list(payments(2 * FIRST)))
        self.judge_the_border()

    def test_the_border_of_reversals(self) -> None:
        """So does each further reversal, of what is kept and of what is not, and each of them is
        answered again as long."""
        undo = list(undoing(2 * FIRST))
        self.make([*undo[FIRST:], *undo[:FIRST]])
        self.judge_the_border()

    def test_the_border_of_both(self) -> None:
        """Payments that are declined, and reversals that no payment meets, in turn."""
        declined = [it for it in payments(6 * FIRST) if it.answer[14:16] != b"00"][:FIRST]
        undo = undoing(8 * FIRST)[6 * FIRST : 7 * FIRST]
        self.make([it for pair in zip(declined, undo) for it in pair])
        self.judge_the_border()

    def judge_the_border(self) -> None:
        oldest = FIRST - AMONG
        self.assertEqual(self.replies(list(range(FIRST)), "all again"),
                         [False] * oldest + [True] * AMONG)
        # A new payment between repeats of the oldest one that is still among the latest.
        places = [it for at in range(AMONG - 1)
                  for it in (oldest + at, FIRST + at, oldest + at, oldest + at + 1)]
        self.assertEqual(self.replies(places, "one by one"), [True, True, False, True] * (AMONG - 1))
        self.assertEqual(self.replies([FIRST - 1, *range(FIRST - 1), 2 * FIRST - 1, FIRST - 1, FIRST],
                                      "in another run"),
                         [True] + [False] * (FIRST - 1) + [True, False, True])
