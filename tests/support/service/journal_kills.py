"""The base of the tests that kill a service over a journal, and what they demand behind each kill."""
from __future__ import annotations

from typing import Sequence

from ..formats.checked_journal import HEADER, identity_of, room_in, with_check_sums
from ..formats.journal_file import appended, entries_in, groups_in
from ..formats.journal_records import RECORD, Entry, Payment
from ..models.model_journal import MOST_FRAMES, added_by, answers_of, judged, wrong_group
from .client import Exchange, split
from .journal_case import JournalCase

REFUSAL = b"\x01\x03"


def records_of(image: bytes) -> list[bytes]:
    return [image[at : at + RECORD] for at in range(0, len(image), RECORD)]


def told_of(it: Entry) -> bytes:
    """The contents of the reply that is owed for an entry, before its MAC."""
    own = it.serial.to_bytes(10, "big")
    if isinstance(it, Payment):
        return b"\x01\x02" + own + b"%02d" % it.code
    return b"\x01\x05" + own + it.reversed.to_bytes(10, "big") + bytes([it.state])


class KilledRuns(JournalCase):
    def setUp(self) -> None:
        super().setUp()
        self.kills = self.midst = self.unread = self.again = self.torn = 0
        # The reply of each number of a history, whenever it was read.
        self.replies: dict[bytes, bytes] = {}

    def judge_kill(self, before: bytes, order: Sequence[Exchange], output: bytes) -> None:
        """What a killed run wrote are the first answers; what it left are the entries of before,
        and those of the first groups, all whose answers were read among them; and of one further
        group perhaps the bodies, or the first of them."""
        after = self.journal.read_bytes()
        room = room_in(before)
        found = judged(order, entries_in(before), room)
        self.assertTrue(answers_of(found).startswith(output), "an answer is not that to its request")
        groups = groups_in(after)[len(groups_in(before)) :]
        added = [it for group in groups for it in group]
        self.assertEqual(added, added_by(found)[: len(added)], "the entries of the frames")
        self.assertIsNone(wrong_group(order, found, groups))
        is_torn = self.judge_rest(appended(before, groups), after, added_by(found)[len(added) :])
        self.torn += is_torn
        answered = split(output)[0]
        count = len(added_by(found[: len(answered)]))
        self.assertLessEqual(count, len(added), "an accepted reply, and no payment in the journal")
        self.read_replies(output, entries_in(after))
        self.kills += 1
        self.midst += len(answered) < len(order) and (len(added) > 0 or is_torn)
        self.unread += len(added) - count

    def judge_rest(self, wanted: bytes, after: bytes, more: Sequence[Entry]) -> bool:
        """Behind the groups that are open there are at most the first bodies of one group more. It
        answers whether there are any."""
        if wanted == after:
            return False
        place = len(entries_in(after))
        first = HEADER + RECORD * place
        rest, before = records_of(after[first:]), records_of(wanted[first:])
        count = 1 + max(at for at, it in enumerate(rest) if it != before[at])
        followers = int.from_bytes(rest[0][2:4], "big")
        self.assertIn(followers + 1, range(count, MOST_FRAMES + 1), "bodies, and their number")
        self.assertLessEqual(count, len(more), "more bodies than there are entries")
        identity = identity_of(after)
        assert identity is not None
        for at, it in enumerate(more[:count]):
            plain = it.record(0, 0 if at else followers)
            self.assertEqual(rest[at], with_check_sums(plain, identity, 1 + place + at),
                             f"body {at} of a group that is not open")
        return True

    def read_replies(self, output: bytes, kept: Sequence[Entry]) -> None:
        """Each number that was replied to is in the journal, as that reply tells, and has one reply in
        all runs."""
        told = {it.serial.to_bytes(10, "big"): told_of(it) for it in kept}
        for answer in split(output)[0]:
            if answer[2:4] == REFUSAL:
                continue
            number = answer[4:14]
            self.assertEqual(told.get(number), answer[2:-8], f"{number.hex()} in the journal")
            self.again += number in self.replies
            self.assertEqual(self.replies.setdefault(number, answer), answer,
                             f"{number.hex()} has two replies")
