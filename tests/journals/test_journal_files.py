"""The file of a journal: what is one and what is refused, and one service at a time."""
from __future__ import annotations

import os
import signal

from ..support.formats import left_files
from ..support.formats.checked_journal import (
    HEADER, behind_header, checked, journal_of, plain_of, read_entries)
from ..support.formats.journal_file import payments_in, records_for
from ..support.formats.journal_records import (
    BY_HAND, DAMAGES, OPEN, RECORD, Journals, Payment, Place, put, read_journal, scratched)
from ..support.formats.journal_records import journal_of as old_journal_of
from ..support.models.model_journal import payments_of_all
from ..support.quick import QuickRuns
from ..support.service.client import payments
from ..support.service.journal_case import (
    CANNOT_OPEN, JOURNAL_FAILED, OLD_VERSION, ON_JOURNAL, JournalCase, alone, frames_of, stream_of)
from ..support.service.service_case import answers_to

class Names(JournalCase):
    def test_blanks_in_a_name(self) -> None:
        """A name is taken as it is given."""
        self.make_journal(3)
        image = self.journal.read_bytes()
        self.write("used", image)
        for name in ("used ", " used", "used\t", "used\n", " "):
            self.write(name, image)
            words = ["serve", "bank.toml", "--journal", name]
            self.check(words, frames_of(payments(3)), answers_to(payments(3)), what=repr(name))
            kept = payments_in((self.home / name).read_bytes())
            self.assertEqual(kept, payments_of_all(payments(3)), f"the journal {name!r}")
            self.assertEqual((self.home / "used").read_bytes(), image, f"beside {name!r}")


class Damaged(JournalCase):
    """What is no journal is refused before a request is read, and is left as it is."""

    weight = 3

    def setUp(self) -> None:
        super().setUp()
        self.journals = Journals(self.chance)

    def refuse(self, image: bytes, what: str) -> None:
        self.journal.write_bytes(image)
        self.check(ON_JOURNAL, frames_of(payments(1)), b"", JOURNAL_FAILED, what=what)
        self.assert_bytes(image, f"{what}: refused and changed")

    def test_sizes(self) -> None:
        good = journal_of(alone(payments_of_all(payments(4))), 2)
        for size in (0, 1, 16, 31, 33, 63, 65, len(good) - 1, len(good) + 1, len(good) + 16):
            self.refuse(good[:size].ljust(size, b"\x00"), f"{size} bytes")

    def test_each_damage(self) -> None:
        for damage in DAMAGES:
            for _ in range(6 * self.times):
                groups = [*self.distinct(5), [self.journals.payment(0), self.journals.payment(1 << 21)]]
                plain, place = damage(self.journals, groups, old_journal_of(groups, 3, self.chance))
                image = checked(plain)
                self.assertEqual(read_entries(image), behind_header(place))
                self.refuse(image, damage.__name__)

    def distinct(self, count: int) -> list[list[Payment]]:
        """Groups of numbers that do not come again."""
        known: set[int] = {1, 1 << 21}
        groups = []
        for group in self.journals.groups(count):
            fresh = {it.serial: it for it in group if it.serial not in known}
            known.update(fresh)
            groups.append([*fresh.values()])
        return [it for it in groups if it]

    def test_a_number_twice(self) -> None:
        """In one group, in two, and far from each other; with the same request or another."""
        kept = payments_of_all(payments(40))
        first = kept[0]
        other = Payment(first.serial, 9, 51, bytes(8))
        for again in (first, other):
            for groups in ([[first, again]], [[first], [again]], [kept, [again]],
                           [*alone(kept), [again]], [[*kept, again]]):
                self.refuse(journal_of(groups, 3), "a number twice")

    def test_each_byte(self) -> None:
        """Each value of a kind and of a code, and of each gate of a group and behind it: as the
        reader of the tests finds."""
        kept = payments_of_all(payments(2))
        data = old_journal_of([kept], 2)
        right = 0
        with QuickRuns(self.program) as runs:
            for value in range(256):
                for record, at in ((0, 1), (1, 18), (0, 0), (1, 0), (2, 0), (3, 0), (0, 2), (1, 3)):
                    right += self.open(runs, checked(put(data, record, at, bytes([value]))[0]))
        self.tells(f"{right} right")

    def test_each_byte_without_its_check_sum(self) -> None:
        """Each bit of a header and of the records of the last group: a change of one is always found,
        but for those of gates that are closed then. Without its gate that group is not kept."""
        data = journal_of([payments_of_all(payments(3))], 2)
        with QuickRuns(self.program) as runs:
            for at in range(HEADER + 3 * RECORD):
                for bit in range(8):
                    image = bytearray(data)
                    image[at] ^= 1 << bit
                    is_right = self.open(runs, bytes(image))
                    is_gate = at >= HEADER and at % RECORD == 0
                    is_closed = is_gate and image[at] != OPEN
                    self.assertEqual(is_right, is_closed, f"bit {bit} of byte {at}")

    def test_another_file_or_place(self) -> None:
        """A record of another journal, and one of another place, are no records."""
        kept = payments_of_all(payments(3))
        data, other = (journal_of(alone(kept), 2, identity=it) for it in (7, 8))
        for at in range(3):
            here = slice(HEADER + RECORD * at, HEADER + RECORD * (at + 1))
            image = data[: here.start] + other[here] + data[here.stop :]
            self.refuse(image, f"record {at} of another journal")
        later = HEADER + RECORD
        self.refuse(data[:HEADER] + data[later:], "each record stands before its place")

    def test_scratched(self) -> None:
        """Bytes that are changed anywhere."""
        right = count = 0
        with QuickRuns(self.program) as runs:
            for _ in range(1500 * self.times):
                groups = self.distinct(self.chance.randint(1, 8))
                if groups:
                    image = old_journal_of(groups, self.chance.randrange(6), self.chance)
                    changed = checked(scratched(self.journals, image))
                    right, count = right + self.open(runs, changed), count + 1
        self.tells(f"{right} right, {count - right} damaged")
        self.assertTrue(0 < right < count)

    def open(self, runs: QuickRuns, image: bytes) -> bool:
        """Whether a journal is opened; it is left as it is."""
        plain = plain_of(image)
        rows = Place(0, 0) if plain is None else read_journal(plain)
        is_right = (not isinstance(rows, Place)
                    and len({it.serial for _, _, it in rows}) == len(rows)
                    and left_files.JOURNAL.is_left(image))
        self.journal.write_bytes(image)
        ended = runs.run(["serve", os.fspath(self.home / "bank.toml"), "--journal",
                          os.fspath(self.journal)])
        # Without its header it may be such as a journal of version 1 leaves.
        is_old = plain is None and left_files.OLD_JOURNAL.is_left(image)
        fault = OLD_VERSION if is_old else JOURNAL_FAILED
        self.assert_output(ended, b"", "" if is_right else fault, image.hex())
        self.assert_bytes(image, "opened and changed")
        return is_right


class Right(JournalCase):
    """What is a journal is opened, and goes on where it ended."""

    def test_by_hand(self) -> None:
        self.journal.write_bytes(checked(bytes.fromhex(BY_HAND.replace(" ", "").replace("\n", ""))))
        self.check_file(payments(9), what="by hand")
        self.check_file(payments(9), what="by hand, again")

    def test_foreign_numbers(self) -> None:
        """They are kept payments as any, and take room."""
        journals = Journals(self.chance)
        serials = {it.serial: it for it in (journals.payment(0) for _ in range(50))}
        groups = [[*serials.values()]]
        self.make_journal(records_for(len(serials) + 3), groups)
        found = self.check_file(payments(5), what="behind foreign numbers")
        self.assertEqual(sum(it.entry is not None for it in found), 3)

    def test_groups_of_the_most_records(self) -> None:
        """A group may have 4,096 records, though the service makes none of so many."""
        kept = payments_of_all(payments(9000))
        groups = [kept[:4096], kept[4096:8192], kept[8192:]]
        self.make_journal(records_for(9010), groups)
        self.check_file(payments(9020), what="great groups")

    def test_closed_records(self) -> None:
        """What a stop leaves of a group: its first record with any gate but 01, which is closed, and the
        others with 00; any bytes may stand behind these. An append leaves the gates of followers as they
        are, and writes over the rest."""
        requests = payments(12)
        for gate in (0, 2, 0x81, 0xFF):
            closed = b"".join(bytes([it]) + self.chance.randbytes(RECORD - 1) for it in (gate, *bytes(8)))
            kept = payments_of_all(requests[:3])
            self.journal.write_bytes(journal_of([kept[:1], kept[1:]], 0) + closed)
            self.check_file(requests, what=f"the gate {gate}")
            self.check_file(requests, what=f"the gate {gate}, again")

    def test_a_torn_group(self) -> None:
        """The bodies of a group that was not opened are no payments, and are written over."""
        requests = payments(20)
        torn = old_journal_of([payments_of_all(requests[5:15])], 0)
        for whole in (0, 1, 9, 10):
            image = old_journal_of(alone(payments_of_all(requests[:5])), 0) + b"\x00" + torn[1:]
            image = checked(image[: RECORD * (5 + whole)].ljust(RECORD * 16, b"\x00"))
            self.journal.write_bytes(image)
            self.check_file(requests, what=f"{whole} bodies of a group")
            self.assertEqual(len(self.kept()), 16)

    def test_zeros_behind_it(self) -> None:
        """A full journal to which zeros were appended goes on."""
        requests = payments(9)
        self.make_journal(2)
        self.check_file(requests, what="two")
        with open(self.journal, "ab") as it:
            it.write(bytes(5 * RECORD))
        self.check_file(requests, what="five more")
        self.assertEqual(len(self.kept()), 7)

    def test_drawn(self) -> None:
        """Journals of any groups, with any bytes in closed records."""
        made = payments_of_all(payments(60))
        for _ in range(30 * self.times):
            numbers, groups = self.chance.sample(made, self.chance.randrange(50)), []
            while numbers:
                count = self.chance.randint(1, 12)
                groups.append(numbers[:count])
                numbers = numbers[count:]
            image = journal_of(groups, self.chance.randrange(1, 30), self.chance)
            self.journal.write_bytes(image)
            self.check_file(self.any_order(60), what="a drawn journal")
            self.check_run(self.any_order(60), what="a drawn journal, again")


class OneService(JournalCase):
    """A journal is that of one service at a time, by each of its names."""

    def test_beside_the_first(self) -> None:
        self.make_journal(50)
        os.link(self.journal, self.home / "second name")
        os.symlink("journal", self.home / "link")
        requests = payments(40)
        service = self.start(*ON_JOURNAL)
        for at, it in enumerate(requests[:20]):
            service.ask([it.frame])
            if at % 4 == 0:
                self.refuse_others(requests[0].frame)
        service.kill()
        ended = service.end()
        self.assert_ended(ended, -signal.SIGKILL, answers_to(requests[:20]), b"", "killed")
        self.assertEqual(self.kept(), payments_of_all(requests[:20]))
        for name in ("second name", "link", "journal"):
            self.check_run(requests, words=(*ON_JOURNAL[:3], name), what=f"{name} behind the kill")

    def refuse_others(self, given: bytes) -> None:
        for name in ("journal", "second name", "link"):
            words = (*ON_JOURNAL[:3], name)
            self.check(words, [given], b"", CANNOT_OPEN, what=f"a second service on {name!r}")
        # Nor has a service over a log a right to it.
        words = ("serve", "bank.toml", "--log", "journal")
        self.check(words, [given], b"", "log: cannot open", what="a service over a log")

    def test_a_log_is_no_journal(self) -> None:
        """A log that keeps numbers is refused as a journal, and a journal with payments as a log."""
        self.make_log(4, [it.number or b"" for it in payments(2)])
        image = self.log.read_bytes()
        words = (*ON_JOURNAL[:3], "log")
        self.check(words, [stream_of(payments(1))], b"", JOURNAL_FAILED, what="a log")
        self.assertEqual(self.log.read_bytes(), image)
        self.make_journal(4, [payments_of_all(payments(2))])
        image = self.journal.read_bytes()
        words = ("serve", "bank.toml", "--log", "journal")
        self.check(words, [stream_of(payments(1))], b"", "log: failed", what="a journal")
        self.assert_bytes(image, "served as a log")
