"""`copy-journal`: what it copies, what it refuses and leaves, and a service over a copy. Its calls stand in
`test_journal_copy_calls`."""
from __future__ import annotations

import fcntl
import os
from pathlib import Path

from ..support.formats.checked_journal import (
    HEADER, checked, identity_of, plain_of, read_entries)
from ..support.formats.journal_file import (
    DamagedJournal, demand_new_numbers, entries_in, payments_in)
from ..support.formats.journal_records import (
    BY_HAND, DAMAGES, NONE_STANDS, OPEN, RECORD, UNDONE, Entry, Journals, Payment, Place, Reversal,
    Row, journal_of, scratched)
from ..support.formats.journal_records import read_entries as read_old_entries
from ..support.formats.left_files import JOURNAL, OLD_JOURNAL
from ..support.models.model_journal import payments_of_all
from ..support.program import NO_LIMITS, Ended, Limits
from ..support.quick import QuickRuns
from ..support.service.client import payments
from ..support.service.journal_case import (
    CANNOT_OPEN, JOURNAL_FAILED, ON_JOURNAL, JournalCase, alone)
from ..support.system.small_files import PAGE, SmallFiles

CANNOT_MAKE = "journal: cannot make"
ON_COPY = (*ON_JOURNAL[:3], "copy")


def plain_or_old(image: bytes) -> bytes:
    """A journal of either version as one of version 1."""
    plain = plain_of(image)
    return image if plain is None else plain


def copied(image: bytes, copy: bytes) -> bytes:
    """What a copy of a journal of either version is, if it has the identity of this one: the records that
    the journal keeps, of which no follower has a gate, and zeros."""
    identity, plain = identity_of(copy), plain_or_old(image)
    assert identity is not None and identity != identity_of(image)
    rows = read_old_entries(plain)
    assert not isinstance(rows, Place)
    kept = b"".join(it.record(OPEN if at == first else 0, last - first if at == first else 0)
                    for at, (first, last, it) in enumerate(rows))
    return checked(kept.ljust(len(plain), b"\x00"), identity)


def is_kept(image: bytes) -> bool:
    """Whether the bytes are those of a journal of either version, in a file that one left."""
    try:
        demand_new_numbers([it for _, _, it in rows_of_either(image)])
        return (OLD_JOURNAL if identity_of(image) is None else JOURNAL).is_left(image)
    except DamagedJournal:
        return False


def rows_of_either(image: bytes) -> list[Row]:
    rows = read_old_entries(image) if identity_of(image) is None else read_entries(image)
    if isinstance(rows, Place):
        raise DamagedJournal(f"the journal breaks a rule at bytes {rows.first} to {rows.last}")
    return rows


def entries_of_either(image: bytes) -> list[Entry]:
    return [it for _, _, it in rows_of_either(image)]


class CopyCase(JournalCase):
    @property
    def copy(self) -> Path:
        return self.home / "copy"

    def copy_to(self, new: str = "copy", old: str = "journal", limits: Limits = NO_LIMITS) -> Ended:
        return self.program.run("copy-journal", old, new, folder=self.home, limits=limits)

    def check_copy(self, plain: bytes, what: str) -> None:
        """That the journal with these bytes is copied, and left as it is: of version 1, and then of
        version 2."""
        for image in (plain, checked(plain)):
            self.copy.unlink(missing_ok=True)
            self.journal.write_bytes(image)
            self.assert_output(self.copy_to(), b"", "", what)
            self.assert_bytes(image, f"{what}: copied and changed")
            self.assert_copied(image, what)
            self.assertEqual(entries_in(self.copy.read_bytes()), entries_of_either(image), what)

    def assert_copied(self, image: bytes, what: str) -> None:
        made = self.copy.read_bytes()
        self.assertEqual(made, copied(image, made), what)

    def refuse(self, fault: str, what: str, new: str = "copy", old: str = "journal",
               limits: Limits = NO_LIMITS) -> None:
        """That nothing is copied, and that each file stays as it is."""
        before = self.files()
        self.assert_output(self.copy_to(new, old, limits), b"", fault, what)
        self.assertEqual(self.files(), before, f"{what}: refused and changed")

    def files(self) -> dict[str, bytes]:
        return {os.fspath(it.relative_to(self.home)): it.read_bytes()
                for it in sorted(self.home.rglob("*")) if it.is_file()}


class Copied(CopyCase):
    """What is a journal of either version is copied, record by record."""

    weight = 3

    def test_by_hand(self) -> None:
        image = bytes.fromhex(BY_HAND.replace(" ", "").replace("\n", ""))
        self.check_copy(image, "by hand")
        made = plain_of(self.copy.read_bytes()) or b""
        self.assertEqual(made[: 2 * RECORD], image[: 2 * RECORD])
        # The gate of a follower is closed by a zero.
        self.assertEqual(made[2 * RECORD :], b"\x00" + image[2 * RECORD + 1 : 3 * RECORD] + bytes(RECORD))

    def test_none_and_full(self) -> None:
        """Journals that keep nothing, that are full, and of a piece of 64 KiB and about."""
        kept = payments_of_all(payments(4100))
        for count, room in ((0, 1), (0, 5000), (1, 1), (2047, 2048), (2048, 2048), (2048, 2049),
                            (2049, 5000), (4096, 4096), (4100, 4100)):
            self.check_copy(journal_of(alone(kept[:count]), room - count), f"{count} of {room}")

    def test_drawn(self) -> None:
        """Journals of any groups, with any bytes behind them, which are not copied."""
        made = payments_of_all(payments(200))
        for _ in range(40 * self.times):
            numbers, groups = self.chance.sample(made, self.chance.randrange(120)), []
            while numbers:
                count = self.chance.randint(1, 40)
                groups.append(numbers[:count])
                numbers = numbers[count:]
            self.check_copy(journal_of(groups, self.chance.randrange(1, 90), self.chance), "drawn")

    def test_reversals(self) -> None:
        """A journal that begins with one, and journals of any of them."""
        one, other = payments_of_all(payments(2))
        for state in (UNDONE, NONE_STANDS):
            first = Reversal(one.serial, other.serial, state, one.mac)
            self.check_copy(journal_of([[first]], 2), f"a reversal first, {state}")
        journals, copies = Journals(self.chance), 0
        while copies < 40 * self.times:
            groups, image = journals.entry_journal(self.chance.randrange(9))
            if groups and is_kept(image):
                self.check_copy(image, "drawn reversals")
                copies += 1

    def test_a_torn_group(self) -> None:
        """What a stop left of an append is not copied."""
        requests = payments(9)
        torn = journal_of([payments_of_all(requests[5:])], 3)
        self.check_copy(journal_of([payments_of_all(requests[:5])], 0) + b"\x00" + torn[1:], "torn")
        self.assertEqual(self.copy.read_bytes()[HEADER + 5 * RECORD :], bytes(7 * RECORD))

    def test_its_owner_alone_may_read_it(self) -> None:
        """It has amounts and MACs, also where a mask would let all read it."""
        self.make_journal(4, [payments_of_all(payments(2))])
        before = os.umask(0o022)
        try:
            self.assert_output(self.copy_to(), b"", "", "under a mask of 022")
        finally:
            os.umask(before)
        self.assertEqual(self.copy.stat().st_mode & 0o777, 0o600)

    def test_by_links(self) -> None:
        """The journal may be named by a link, and is the file behind it."""
        self.make_journal(4, [payments_of_all(payments(2))])
        (self.home / "link").symlink_to("journal")
        self.assert_output(self.copy_to(old="link"), b"", "", "a link")
        self.assert_copied(self.journal.read_bytes(), "a link")

    def test_a_service_goes_on_over_it(self) -> None:
        """It answers again what the journal keeps, and accepts what it does not."""
        requests = payments(60)
        self.make_room(50)
        self.check_run(requests[:20], what="before")
        self.assert_output(self.copy_to(), b"", "", "between two runs")
        before = self.journal.read_bytes()
        self.copy.rename(self.journal)
        self.check_run(self.any_order(60), what="over the copy")
        self.assertEqual(payments_in(before), self.kept()[:20])
        self.assertEqual(len(self.kept()), 50)


class Refused(CopyCase):
    """What is not copied leaves all files as they are."""

    weight = 3

    def setUp(self) -> None:
        super().setUp()
        self.journals = Journals(self.chance)

    def test_what_cannot_be_opened(self) -> None:
        self.make_journal(3)
        os.mkdir(self.home / "folder")
        os.mkfifo(self.home / "pipe")
        for old in ("missing", "missing/journal", "folder", ".", "", "bank.toml/journal", "pipe",
                    "/dev/zero"):
            self.refuse(CANNOT_OPEN, f"the journal {old!r}", old=old)
            self.refuse(CANNOT_OPEN, f"the journal {old!r}, before the copy", "journal", old)

    def test_in_use(self) -> None:
        """A journal of a service, or that any other has locked, is not copied, and can be once that
        ended. Nor is it opened while it is copied."""
        self.make_journal(9)
        service = self.start(*ON_JOURNAL)
        service.ask([it.frame for it in payments(2)])
        os.link(self.journal, self.home / "second name")
        self.refuse(CANNOT_OPEN, "in use")
        self.refuse(CANNOT_OPEN, "in use by another name", old="second name")
        service.end()
        for kind in (fcntl.LOCK_SH, fcntl.LOCK_EX):
            with open(self.journal, "rb") as other:
                fcntl.flock(other, kind)
                self.refuse(CANNOT_OPEN, f"lock {kind}")
        self.check_copy(plain_or_old(self.journal.read_bytes()), "no longer in use")

    def test_sizes(self) -> None:
        good = journal_of(alone(payments_of_all(payments(4))), 2)
        for size in (0, 1, 16, 31, 33, 63, 65, len(good) - 1, len(good) + 1):
            self.journal.write_bytes(good[:size].ljust(size, b"\x00"))
            self.refuse(JOURNAL_FAILED, f"{size} bytes")

    def test_each_damage(self) -> None:
        for damage in DAMAGES:
            for _ in range(4 * self.times):
                groups = [[self.journals.payment(0)], [self.journals.payment(1 << 21)],
                          [self.journals.payment(2 << 21), self.journals.payment(3 << 21)]]
                image, place = damage(self.journals, groups, journal_of(groups, 3, self.chance))
                self.assertEqual(read_old_entries(image), place)
                for it in (image, checked(image)):
                    self.journal.write_bytes(it)
                    self.refuse(JOURNAL_FAILED, damage.__name__)

    def test_a_number_twice(self) -> None:
        kept = payments_of_all(payments(3000))
        for again in (kept[0], Payment(kept[0].serial, 9, 51, bytes(8))):
            for groups in ([[kept[0], again]], [[kept[0]], [again]], [kept, [again]],
                           [[*kept, again]]):
                self.journal.write_bytes(journal_of(groups, 3))
                self.refuse(JOURNAL_FAILED, "a number twice")

    def test_a_number_that_was_reversed(self) -> None:
        """It is used, before or behind its reversal's own."""
        one, two, three = payments_of_all(payments(3))
        first = Reversal(one.serial, two.serial, NONE_STANDS, one.mac)
        again = Reversal(three.serial, one.serial, UNDONE, three.mac)
        wrong: tuple[list[Entry], ...] = ([first, two], [first, three, two], [first, one],
                                          [one, again, again], [first, again, two])
        for entries in wrong:
            self.journal.write_bytes(journal_of([entries], 3))
            self.refuse(JOURNAL_FAILED, "a reversed number")

    def test_scratched(self) -> None:
        """Bytes that are changed anywhere: as the reader of the tests finds."""
        kept = payments_of_all(payments(30))
        right = count = 0
        with QuickRuns(self.program) as runs:
            for count in range(1, 1 + 600 * self.times):
                groups = alone(self.chance.sample(kept, self.chance.randint(1, 12)))
                image = journal_of(groups, self.chance.randrange(6), self.chance)
                image = scratched(self.journals, image)
                right += self.try_one(runs, self.chance.choice((image, checked(image))))
        self.tells(f"{right} right, {count - right} damaged")
        self.assertTrue(0 < right < count)

    def try_one(self, runs: QuickRuns, image: bytes) -> bool:
        is_right = is_kept(image)
        self.journal.write_bytes(image)
        ended = runs.run(["copy-journal", os.fspath(self.journal), os.fspath(self.copy)])
        self.assert_output(ended, b"", "" if is_right else JOURNAL_FAILED, image.hex())
        self.assert_bytes(image, "copied and changed")
        self.assertEqual(self.copy.exists(), is_right)
        if is_right:
            self.assert_copied(image, "scratched")
            self.copy.unlink()
        return is_right

    def test_what_cannot_be_made(self) -> None:
        """What is there stays, be it a file, a folder or a link; and so does the journal itself."""
        self.make_journal(5, [payments_of_all(payments(3))])
        self.write("there", b"there")
        os.mkdir(self.home / "folder")
        (self.home / "broken").symlink_to("nothing")
        for new in ("there", "folder", "broken", "journal", "bank.toml", ".", "", "no/copy",
                    "there/copy"):
            self.refuse(CANNOT_MAKE, f"the copy {new!r}", new)
        self.assertFalse((self.home / "nothing").exists())

    def test_the_order_of_faults(self) -> None:
        """A damaged journal is told before a copy that cannot be made."""
        self.journal.write_bytes(bytes(33))
        self.refuse(JOURNAL_FAILED, "damaged, and the copy is there", "bank.toml")

    def test_limits(self) -> None:
        """A copy that may not get its size, which it gets before it is written, is removed again."""
        self.make_journal(4096, [payments_of_all(payments(2100))])
        needed = HEADER + RECORD * 4096
        for size in (0, RECORD, 1 << 16, needed - 1):
            self.refuse(CANNOT_MAKE, f"a limit of {size} bytes", limits=Limits(file_size=size))
        self.assert_output(self.copy_to(limits=Limits(file_size=needed)), b"", "", "room")
        self.assert_copied(self.journal.read_bytes(), "room")

    def test_a_full_file_system(self) -> None:
        """The copy gets its size, which takes no room, and some of its bytes: a part of a piece of what
        is kept, a piece, and some of the zeros. Then it is removed, and all room is free again. With
        the page that it lacks it is made."""
        needed = RECORD * 4096 // PAGE
        image = self.make_journal(4095, [payments_of_all(payments(2100))])
        for pages in (1, 15, 16, 17, needed - 1, needed):
            small, what = SmallFiles(self.folder(), pages), f"{pages} of {needed} pages"
            self.addCleanup(small.close)
            made = small.folder / "copy"
            if pages < needed:
                self.refuse(CANNOT_MAKE, what, os.fspath(made))
                self.assertEqual([*small.folder.iterdir()], [], what)
                self.assertEqual(small.free(), pages, what)
            else:
                self.assert_output(self.copy_to(os.fspath(made)), b"", "", what)
                self.assertEqual(made.read_bytes(), copied(image, made.read_bytes()), what)
                self.assertEqual(small.free(), 0, what)
            self.assert_bytes(image, what)
