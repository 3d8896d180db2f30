"""`grow-journal`: a journal is made larger by zeros behind its end, and keeps what it keeps; what is refused,
and what a stop or a failure leaves; and a service over it."""
from __future__ import annotations

import fcntl
import os
import signal
import threading
from collections import Counter
from pathlib import Path

from ..support.commands.explained import CONSTANT
from ..support.formats import journal_records
from ..support.formats.checked_journal import HEADER, checked, journal_of, room_in
from ..support.formats.journal_file import entries_in, records_for
from ..support.formats.journal_records import RECORD, Journals
from ..support.formats.left_files import JOURNAL
from ..support.models.model_journal import payments_of_all
from ..support.program import NO_LIMITS, Ended, Limits
from ..support.service.client import payments
from ..support.service.journal_case import (
    CANNOT_OPEN, JOURNAL_FAILED, OLD_VERSION, ON_JOURNAL, JournalCase, alone)
from ..support.system.small_files import PAGE, SmallFiles
from ..support.system.traced_files import READS, SYNCS, WRITES, Call, traced
from .test_copy_journals import is_kept

RECORDS_REFUSED = "records refused"
CANNOT_GROW = "journal: cannot grow"
# More records than a piece of 64 KiB has, so that there are several writes.
MANY = 5000


def grown(image: bytes, records: int) -> bytes:
    """What a journal with these bytes is made, by FORMATS: zeros complete its last record, and so many records of
    zeros stand behind."""
    return image.ljust(-len(image) // RECORD * -RECORD, b"\x00") + bytes(RECORD * records)


def may_grow(image: bytes) -> bool:
    """Whether these are the bytes of a journal, with less than a record of zeros behind them."""
    whole = len(image) // RECORD * RECORD
    return JOURNAL.is_left(image[:whole]) and not any(image[whole:])


class GrowCase(JournalCase):
    def grow(self, records: str = "3", name: str = "journal", limits: Limits = NO_LIMITS) -> Ended:
        return self.program.run("grow-journal", name, records, folder=self.home, limits=limits)

    def check_grown(self, image: bytes, records: int, what: str) -> None:
        self.journal.write_bytes(image)
        self.assert_output(self.grow(str(records)), b"", "", what)
        self.assert_bytes(grown(image, records), what)

    def refuse(self, fault: str, what: str, records: str = "3", name: str = "journal") -> None:
        """That each file stays as it is."""
        before = self.files()
        self.assert_output(self.grow(records, name), b"", fault, what)
        self.assertEqual(self.files(), before, f"{what}: refused and changed")

    def files(self) -> dict[str, bytes]:
        return {os.fspath(it.relative_to(self.home)): it.read_bytes()
                for it in sorted(self.home.rglob("*")) if it.is_file()}

    def full(self, kept: int) -> bytes:
        """A journal of so many payments, with no other record."""
        return journal_of(alone(payments_of_all(payments(kept))), 0)


class Grown(GrowCase):
    """What is there stays, byte by byte, and zeros stand behind it."""

    weight = 3

    def test_none_and_full(self) -> None:
        kept = payments_of_all(payments(4100))
        for count, room, more in ((0, 1, 1), (0, 5000, 1), (1, 1, 2047), (2047, 2048, 2048), (2048, 2048, 2049),
                                  (4100, 4100, MANY)):
            image = journal_of(alone(kept[:count]), room - count)
            what = f"{count} of {room}, {more} more"
            self.check_grown(image, more, what)
            self.assertEqual(entries_in(self.journal.read_bytes()), kept[:count], what)

    def test_drawn(self) -> None:
        """Journals of any groups, reversals among them, with any bytes that a stop left behind them."""
        journals, count = Journals(self.chance), 0
        while count < 40 * self.times:
            groups, plain = journals.entry_journal(self.chance.randrange(9))
            image = checked(plain)
            if groups and is_kept(image):
                self.check_grown(image, self.chance.randrange(1, 99), "drawn")
                self.assertEqual(self.kept(), entries_in(image), "drawn")
                count += 1

    def test_a_torn_group(self) -> None:
        """What a stop left of an append stays too, and is no entry."""
        requests = payments(9)
        torn = journal_records.journal_of([payments_of_all(requests[5:])], 0)
        plain = journal_records.journal_of([payments_of_all(requests[:5])], 0)
        self.check_grown(checked(plain + b"\x00" + torn[1:]), 4, "torn")
        self.assert_payments(payments_of_all(requests[:5]), "torn")

    def test_each_byte_is_written(self) -> None:
        """None of the new records is a hole."""
        self.make_journal(MANY)
        self.assert_output(self.grow(str(MANY)), b"", "", "many")
        self.assertEqual(room_in(self.journal.read_bytes()), 2 * MANY)
        self.assertGreaterEqual(512 * self.journal.stat().st_blocks, 2 * RECORD * MANY)

    def test_half_grown(self) -> None:
        """Where a stop left a part of a record, of zeros, no service is over it, and to grow it completes that
        record first."""
        kept = payments_of_all(payments(3))
        for image in (journal_of(alone(kept), 0), journal_of(alone(kept), 2)):
            for rest in range(1, RECORD):
                what = f"{len(image)} bytes and {rest}"
                self.journal.write_bytes(image + bytes(rest))
                self.check(ON_JOURNAL, [], b"", JOURNAL_FAILED, what=what)
                self.check_grown(image + bytes(rest), 2, what)
                self.assert_payments(kept, what)

    def test_by_links_and_as_its_mode_is(self) -> None:
        """The journal may be named by a link, and is the file behind it; its mode stays."""
        image = self.make_journal(4, [payments_of_all(payments(2))])
        self.journal.chmod(0o640)
        (self.home / "link").symlink_to("journal")
        self.assert_output(self.grow("2", "link"), b"", "", "a link")
        self.assert_bytes(grown(image, 2), "a link")
        self.assertEqual(self.journal.stat().st_mode & 0o777, 0o640)

    def test_a_service_goes_on_over_it(self) -> None:
        """A full journal has room for as many payments more as a journal of that size, answers again what it
        keeps, and can be made larger again."""
        requests = payments(90)
        self.make_room(20)
        self.check_run(requests[:30], what="full")
        self.assertEqual(len(self.kept()), 20)
        for payments_then in (50, 80):
            more = records_for(payments_then) - room_in(self.journal.read_bytes())
            self.assert_output(self.grow(str(more)), b"", "", f"{more} more")
            self.check_run(self.any_order(90), what=f"room for {payments_then}")
            self.assertEqual(len(self.kept()), payments_then)


class Refused(GrowCase):
    """What is refused stays as it is."""

    weight = 2

    def test_how_many(self) -> None:
        self.make_journal(3)
        for records in ("0", "", "+1", "1.0", "1000000001", "99999999999999999999", "x", " 1"):
            self.refuse(RECORDS_REFUSED, f"{records!r}", records)
            self.refuse(RECORDS_REFUSED, f"{records!r} of a file that is not there", records, "missing")

    def test_what_cannot_be_opened(self) -> None:
        os.mkdir(self.home / "folder")
        os.mkfifo(self.home / "pipe")
        for name in ("missing", "missing/journal", "folder", ".", "", "bank.toml/journal", "pipe", "/dev/zero",
                     "/dev/full"):
            self.refuse(CANNOT_OPEN, f"{name!r}", name=name)

    def test_in_use(self) -> None:
        """A journal of a service, or that any other has locked, is not made larger, and can be once that
        ended."""
        self.make_journal(9)
        service = self.start(*ON_JOURNAL)
        service.ask([it.frame for it in payments(2)])
        os.link(self.journal, self.home / "second name")
        self.refuse(CANNOT_OPEN, "in use")
        self.refuse(CANNOT_OPEN, "in use by another name", name="second name")
        service.end()
        os.unlink(self.home / "second name")
        for kind in (fcntl.LOCK_SH, fcntl.LOCK_EX):
            with open(self.journal, "rb") as other:
                fcntl.flock(other, kind)
                self.refuse(CANNOT_OPEN, f"lock {kind}")
        self.check_grown(self.journal.read_bytes(), 3, "no longer in use")

    def test_files_of_others(self) -> None:
        """A key, a configuration or any other file is not touched, and none that is less than a record."""
        source = Path(__file__).read_bytes()
        for image in (b"", b"\x00", bytes(31), b"0123456789ABCDEFFEDCBA9876543210", source,
                      source[: len(source) // RECORD * RECORD], self.chance.randbytes(40 * RECORD + 7)):
            self.journal.write_bytes(image)
            self.refuse(JOURNAL_FAILED, image[:64].hex())

    def test_version_1(self) -> None:
        """Its own line, also with explanation; of its parts, and with less than a record behind, it is no
        journal."""
        plain = journal_records.journal_of(alone(payments_of_all(payments(3))), 2)
        for image in (plain, bytes(3 * RECORD)):
            self.journal.write_bytes(image)
            self.refuse(OLD_VERSION, "a journal of version 1")
        self.journal.write_bytes(plain)
        ended = self.program.run("grow-journal", "journal", "1", "--explain", folder=self.home)
        told = (f"{OLD_VERSION}\njournal journal: version 1; wanted: one of version 2; make it by dukpt "
                "copy-journal OLD NEW\n")
        self.assert_ended(ended, 1, b"", told.encode(), "explained")
        self.journal.write_bytes(plain + bytes(RECORD - 1))
        self.refuse(JOURNAL_FAILED, "a part of a record behind")

    def test_a_damaged_header(self) -> None:
        """Each byte of it, while a service would refuse it too."""
        image = journal_of(alone(payments_of_all(payments(3))), 2)
        for at in range(1, HEADER):
            damaged = bytearray(image)
            damaged[at] ^= 1 << self.chance.randrange(8)
            self.journal.write_bytes(damaged)
            self.refuse(JOURNAL_FAILED, f"byte {at}")

    def test_a_journal_that_is_cut(self) -> None:
        """Anywhere in a record that has been written, or with other bytes than zeros behind its records."""
        image = self.full(3)
        for size in range(HEADER + 2 * RECORD, HEADER + 3 * RECORD + 1):
            self.judge(image[:size], f"cut to {size}")
        for rest in range(1, RECORD):
            bytes_ = bytearray(rest)
            bytes_[self.chance.randrange(rest)] = self.chance.randrange(1, 256)
            self.judge(image + bytes_, f"{bytes_.hex()} behind")

    def test_scratched(self) -> None:
        """Closed records, and parts of one, behind some groups, at random: as the reader of the tests finds."""
        kept, found = payments_of_all(payments(9)), Counter[bool]()
        for _ in range(60 * self.times):
            image = bytearray(journal_of(alone(self.chance.sample(kept, self.chance.randrange(3))),
                                         self.chance.randrange(1, 4)))
            image += bytes(self.chance.randrange(RECORD))
            for _ in range(self.chance.randrange(3)):
                image[self.chance.randrange(HEADER, len(image))] = self.chance.randrange(256)
            found[self.judge(bytes(image), image.hex())] += 1
        self.assertEqual(set(found), {False, True})

    def judge(self, image: bytes, what: str) -> bool:
        self.journal.write_bytes(image)
        if not may_grow(image):
            self.refuse(JOURNAL_FAILED, what)
            return False
        self.check_grown(image, 2, what)
        return True


class LeftInPart(GrowCase):
    """Whatever a limit, a failure or a kill leaves has what was there, and zeros, which the next run goes on
    with."""

    weight = 3

    def setUp(self) -> None:
        super().setUp()
        self.image = self.make_journal(7, alone(payments_of_all(payments(5))))

    def judge(self, records: int, what: str) -> str:
        """What is left, and that to make it larger once more, and a service over that, go on."""
        left = self.journal.read_bytes()
        added = len(left) - len(self.image)
        self.assertTrue(0 <= added <= RECORD * records, f"{what}: {added} bytes more")
        self.assert_bytes(self.image + bytes(added), what)
        is_whole = len(left) % RECORD == 0
        self.check(ON_JOURNAL, [], b"", "" if is_whole else JOURNAL_FAILED, what=what)
        self.assert_output(self.grow("4"), b"", "", what)
        self.assert_bytes(grown(left, 4), what)
        self.assertEqual(self.kept(), payments_of_all(payments(5)), what)
        self.check_run(payments(8), what=what)
        self.assertEqual(len(self.kept()), 8, what)
        self.journal.write_bytes(self.image)
        return "none" if added == 0 else "all" if added == RECORD * records else "whole" if is_whole else "cut"

    def test_limits(self) -> None:
        """Of the size that a file may have: a part is written, which may be no whole record."""
        size, found = len(self.image), Counter[str]()
        for most in (0, 1, size, size + 1, size + 31, size + 32, size + 33, size + 70_001,
                     size + RECORD * MANY - 1):
            self.assert_output(self.grow(str(MANY), limits=Limits(file_size=most)), b"", CANNOT_GROW, f"{most}")
            found[self.judge(MANY, f"at most {most}")] += 1
        self.assertEqual(set(found), {"none", "whole", "cut"})
        limits = Limits(file_size=size + RECORD * MANY)
        self.assert_output(self.grow(str(MANY), limits=limits), b"", "", "as many as it may")
        self.assertEqual(self.judge(MANY, "all"), "all")

    def test_explained(self) -> None:
        ended = self.program.run("grow-journal", "journal", "1", "--explain", folder=self.home,
                                 limits=Limits(file_size=len(self.image)))
        self.assert_ended(ended, 1, b"", f"{CANNOT_GROW}\n{CONSTANT[CANNOT_GROW]}\n".encode(), "no room")

    def test_a_full_file_system(self) -> None:
        """It gets as many zeros as there is room for. With the pages that it lacks it gets all."""
        needed = 40
        for pages in (1, 15, 16, 17, needed - 1, needed):
            small, what = SmallFiles(self.folder(), pages), f"{pages} of {needed} pages"
            self.addCleanup(small.close)
            journal = small.folder / "journal"
            journal.write_bytes(self.image)
            records = (needed * PAGE - len(self.image)) // RECORD
            ended = self.grow(str(records), os.fspath(journal))
            left = journal.read_bytes()
            self.assert_output(ended, b"", "" if pages == needed else CANNOT_GROW, what)
            self.assertEqual(left, self.image + bytes(len(left) - len(self.image)), what)
            if pages == needed:
                self.assertEqual(left, grown(self.image, records), what)

    def calls(self, *changes: str) -> tuple[Ended, list[Call]]:
        words = (self.program.path, "grow-journal", "journal", str(MANY))
        return traced(words, self.home, self.folder() / "trace", "journal", changes)

    def test_calls(self) -> None:
        """It is locked, and written behind its end alone, and synced last; nothing is cut or removed."""
        ended, calls = self.calls()
        self.assert_output(ended, b"", "", "traced")
        names = [it.name for it in calls if it.name not in READS]
        writes = [it for it in calls if it.name in WRITES]
        self.assertEqual(names[:2], ["openat", "flock"])
        self.assertEqual({*names[2:-1]}, {"pwrite64"})
        self.assertEqual(names[-1], "fdatasync")
        at = len(self.image)
        for it in writes:
            self.assertEqual(it.span.start, at, str(it))
            at = it.span.stop
        self.assertEqual(at, len(self.image) + RECORD * MANY)
        self.journal.write_bytes(self.image)

    def meanwhile(self, call: str, image: bytes) -> Ended:
        """How it ends where its call waits, and another process makes the file this one then."""
        other = threading.Timer(0.5, self.journal.write_bytes, (image,))
        other.start()
        ended, calls = self.calls(f"inject={call}:delay_enter=1500000")
        other.join()
        self.assertIn(call, [it.name for it in calls])
        return ended

    def test_another_one_before_it_is_locked(self) -> None:
        """What another process appended until then stays: how large the file is, is asked behind the lock."""
        more = journal_of(alone(payments_of_all(payments(9))), 3)
        self.assertGreater(len(more), len(self.image))
        self.assert_output(self.meanwhile("flock", more), b"", "", "another one")
        self.assert_bytes(grown(more, MANY), "another one")
        self.journal.write_bytes(self.image)

    def test_another_size_behind_it(self) -> None:
        """Where the file has not all of the zeros once they are synced, that is told."""
        self.assert_output(self.meanwhile("fdatasync", self.image), b"", CANNOT_GROW, "another size")
        self.assert_bytes(self.image, "another size")

    def test_each_call_that_fails(self) -> None:
        """Where it fails, and each later one of its name, that is told; what is left is gone on with."""
        calls = self.calls()[1]
        self.journal.write_bytes(self.image)
        for call in calls:
            ended, changed = self.calls(f"inject={call.name}:error=EIO:when={call.count}+")
            self.assertTrue(any(it.is_changed for it in changed), str(call))
            fault = (CANNOT_GROW if call.name in (*WRITES, *SYNCS) else
                     JOURNAL_FAILED if call.name in READS else CANNOT_OPEN)
            self.assert_output(ended, b"", fault, str(call))
            left = self.judge(MANY, f"{call} fails")
            self.assertTrue(fault == CANNOT_GROW or left == "none", str(call))
        self.tells(", ".join(map(str, calls)))

    def test_killed_in_each_call(self) -> None:
        """What is left is the journal with some of the new records, and a service is over it, and grows it
        again."""
        calls, found = self.calls()[1], Counter[str]()
        self.journal.write_bytes(self.image)
        for call in calls:
            ended, _ = self.calls(f"inject={call.name}:signal=KILL:when={call.count}")
            self.assertEqual(ended.status, -signal.SIGKILL, f"killed in {call}")
            found[self.judge(MANY, f"killed in {call}")] += 1
        self.assertEqual(set(found), {"none", "whole", "all"})

    def test_any_part_of_it(self) -> None:
        """A loss of power may leave any part of the zeros."""
        found = Counter[str]()
        for turn in range(20 * self.times):
            added = RECORD * self.chance.randrange(1, 9) + turn % 2 * self.chance.randrange(1, RECORD)
            self.journal.write_bytes(self.image + bytes(added))
            found[self.judge(9, f"{added} zeros")] += 1
        self.assertEqual(set(found), {"whole", "cut"})
