"""The calls of `copy-journal`, as the system sees them: their order, each one that fails, and each one in
which it is killed.

What a kill leaves under the name of a copy is never taken for a journal, unless it is the whole copy: a
service over a part of one would accept numbers again that are used.
"""
from __future__ import annotations

import itertools
import os
import signal
import time
from collections import Counter
from concurrent.futures import ThreadPoolExecutor
from pathlib import Path
from typing import Iterator, Optional, Sequence

from ..support.formats.checked_journal import HEADER, checked, identity_of, journal_of, plain_of
from ..support.formats.journal_file import DamagedJournal, payments_in
from ..support.formats.journal_records import BOTH_KINDS, RECORD, Group, wrong_bytes
from ..support.models.model_journal import payments_of_all
from ..support.program import SECONDS, Ended, Word
from ..support.service.client import payments
from ..support.service.journal_case import CANNOT_OPEN, JOURNAL_FAILED, alone
from ..support.system.small_files import PAGE, SmallFiles
from ..support.system.traced_files import (
    OPENS, READS, REMOVES, SYNCS, WRITES, Call, assert_kept, covered, places, traced)
from ..support.system.unsynced import unsynced_of
from .test_copy_journals import CANNOT_MAKE, CopyCase, copied, entries_of_either, is_kept

OLD, NEW, FOLDER = "journal", "sub/copy", "sub"
# So many records are a piece of a copy, of 64 KiB.
PIECE = (1 << 16) // RECORD


class CallCase(CopyCase):
    def setUp(self) -> None:
        super().setUp()
        # What copies: the program, or a stand-in.
        self.copier: Sequence[Word] = [self.program.path]
        self.made = self.home / FOLDER
        os.mkdir(self.made)

    def of_both(self, room: int, groups: Sequence[Group]) -> Iterator[bytes]:
        """A journal of version 2, and then the same one of version 1."""
        image = self.make_journal(room, groups)
        yield image
        plain = plain_of(image)
        assert plain is not None
        self.journal.write_bytes(plain)
        yield plain

    def traced(self, *changes: str, new: Word = NEW) -> tuple[Ended, list[Call]]:
        """How a copy ends in which strace makes these changes, and its calls."""
        return traced([*self.copier, "copy-journal", OLD, new], self.home, self.folder() / "trace", OLD,
                      changes)


class Calls(CallCase):
    """Their order, and each one that fails."""

    def test_calls(self) -> None:
        """Of a small journal, and of one of several pieces with zeros behind what it keeps."""
        for kept, room in ((3, 7), (0, 3), (PIECE + 52, 2 * PIECE + 100)):
            for image in self.of_both(room, alone(payments_of_all(payments(kept)))):
                ended, calls = self.traced()
                what = f"{kept} of {room}, {len(image)} bytes"
                self.assert_output(ended, b"", "", what)
                made = (self.made / "copy").read_bytes()
                self.assertEqual(made, copied(image, made), what)
                self.assert_order(calls, len(image), len(made), range(1), what)
                self.assert_bytes(image, what)
                (self.made / "copy").unlink()

    def assert_order(self, calls: Sequence[Call], old: int, new: int, but: range, what: str) -> None:
        """The journal is opened, locked and read to its end before the copy is made, and never written;
        the copy is made and kept in order, and written, but that these bytes are right already. It is
        read to its end once it is written and synced, and before its folder is synced."""
        opened, locked, made = (places(calls, names, file) for names, file in (
            (OPENS, OLD), (("flock",), OLD), (OPENS, NEW)))
        self.assertEqual((len(opened), len(locked), len(made)), (1, 1, 1), what)
        read = places(calls[: made[0]], READS, OLD)
        self.assertTrue(read, f"{what}: the copy is made before the journal is read")
        self.assertLess(opened[0], locked[0], what)
        self.assertLess(locked[0], read[0], what)
        self.assertIn("O_RDONLY", calls[opened[0]].words, f"{what}: the journal is opened to be written")
        self.assertIn("LOCK_EX|LOCK_NB", calls[locked[0]].words, what)
        self.assertEqual(covered([calls[at] for at in read]), [range(old)],
                         f"{what}: read before the copy is made")
        self.assertEqual(places(calls, WRITES, OLD), [], f"{what}: the journal is written")
        assert_kept(calls, NEW, FOLDER, new, but)
        self.assert_checked(calls, new, what)

    def assert_checked(self, calls: Sequence[Call], size: int, what: str) -> None:
        """All of the copy is read between the sync behind its last write and that of its folder."""
        written, synced, read = (places(calls, names, NEW) for names in (WRITES, SYNCS, READS))
        first = min(at for at in synced if at > written[-1])
        again = [calls[at] for at in read if first < at < places(calls, SYNCS, FOLDER)[0]]
        self.assertEqual(covered(again), [range(size)], f"{what}: read before the folder is synced")

    def test_syncs_for_a_loss_of_power(self) -> None:
        """It leaves any of the writes since the last sync. So a file that has no journal's size, or begins
        as none does, is synced before it gets its size, and again before it is written; and all of a copy
        but a last write of one byte is synced before that one."""
        for kept, room in ((3, 7), (PIECE + 52, 2 * PIECE + 100)):
            for image in self.of_both(room, alone(payments_of_all(payments(kept)))):
                self.assert_synced(self.traced()[1], f"{kept} of {room}, {len(image)} bytes")
                (self.made / "copy").unlink()

    def assert_synced(self, calls: Sequence[Call], what: str) -> None:
        written, synced = places(calls, WRITES, NEW), places(calls, SYNCS, NEW)
        sized = [at for at in written if calls[at].name == "ftruncate"]
        self.assertEqual(len(calls[written[-1]].span), 1, f"{what}: the last write")
        for last in (*sized, written[-1]):
            before = max((at for at in written if at < last), default=-1)
            self.assertTrue(any(before < at < last for at in synced),
                            f"{what}: no sync before {calls[last]} ({calls[last].count})")
        for at, after in ((at, min(it for it in written if it > at)) for at in sized):
            self.assertTrue(any(at < it < after for it in synced), f"{what}: no sync of its size")

    def test_each_call_that_fails(self) -> None:
        """Where it fails, and each later one of its name, there is no copy, and a line says which
        file is at fault."""
        for image in self.of_both(7, [payments_of_all(payments(3))]):
            calls = self.traced()[1]
            (self.made / "copy").unlink()
            for call in calls:
                ended, changed = self.traced(f"inject={call.name}:error=EIO:when={call.count}+")
                first = next((it for it in changed if it.is_changed), None)
                self.assertEqual(first and (first.name, first.count, first.file),
                                 (call.name, call.count, call.file), str(call))
                self.assert_output(ended, b"", self.fault_of(call), str(call))
                self.assert_bytes(image, str(call))
                self.assertEqual([*self.made.iterdir()], [], str(call))
            self.tells(", ".join(map(str, calls)))

    def fault_of(self, call: Call) -> str:
        if call.file != OLD:
            return CANNOT_MAKE
        return CANNOT_OPEN if call.name in (*OPENS, "flock") else JOURNAL_FAILED


class Changing(CallCase):
    """A journal that is read otherwise the second time, as a file after a failed sync may be: a record of
    it has no contents then, which is told of the journal, or what is written is no copy. It keeps more
    than a read-ahead takes, of one piece and of two."""

    weight = 4
    # So many seconds the lock of the copy takes, behind the check of the journal.
    DELAY = 1.0
    FEW, MANY = 200, PIECE + 200
    # So many are copied at once.
    AT_ONCE = 8

    def test_another_record(self) -> None:
        """The first that it keeps, one in the middle, or the last."""
        for kept in (self.FEW, self.MANY):
            image = self.make_journal(kept + 100, alone(payments_of_all(payments(kept))))
            for place in (0, kept // 2, kept - 1):
                for what, record, fault in (("zeros", bytes(RECORD), JOURNAL_FAILED),
                                            ("closed", b"\x00", CANNOT_MAKE),
                                            ("of another kind", b"\x01\x07", JOURNAL_FAILED)):
                    at = HEADER + RECORD * place
                    changed = image[:at] + record + image[at + len(record) :]
                    self.assert_refused(image, changed, f"record {place} of {kept} is {what}", fault)

    def test_a_number_twice(self) -> None:
        """Each record is that of a journal, and no host comes up over them all."""
        image = self.make_journal(self.FEW, alone(payments_of_all(payments(self.FEW))))
        plain = plain_of(image) or b""
        twice = checked(plain[:RECORD] + plain[:RECORD] + plain[2 * RECORD :])
        self.assert_refused(image, twice, "twice")

    def test_each_byte(self) -> None:
        """Of a record in the middle, of which one bit or each is another. Where that leaves a journal, it
        keeps as many as before, of which one has another number, amount or MAC."""
        image = self.make_journal(self.FEW + 9, alone(payments_of_all(payments(self.FEW))))
        record = slice(RECORD * (self.FEW // 2), RECORD * (self.FEW // 2 + 1))
        wrong = []
        for at in range(RECORD):
            for bits in (1 << self.chance.randrange(8), 0xFF):
                changed = bytearray(plain_of(image) or b"")
                changed[record.start + at] ^= bits
                has_contents = not wrong_bytes(bytes(changed[record]), False, BOTH_KINDS)
                wrong.append((f"byte {at} with {bits:02X}", checked(bytes(changed)),
                              CANNOT_MAKE if has_contents else JOURNAL_FAILED))
        with ThreadPoolExecutor(self.AT_ONCE) as pool:
            ends = [*pool.map(lambda it: self.copied_elsewhere(image, it[1]), wrong)]
        kept = sum(is_kept(changed) for _, changed, _ in wrong)
        self.tells(f"{len(wrong)} changes, of which {kept} leave a journal")
        self.assertGreater(kept, RECORD // 2)
        for (what, _, fault), (ended, made) in zip(wrong, ends):
            self.assert_output(ended, b"", fault, what)
            self.assertEqual(made, [], what)

    def copied_elsewhere(self, image: bytes, changed: bytes) -> tuple[Ended, list[Path]]:
        """The same as `copied_from` in a folder of its own, and what is left beside the journal."""
        home = self.folder()
        os.mkdir(home / FOLDER)
        return self.copied_from(image, changed, home), [*(home / FOLDER).iterdir()]

    def test_one_more(self) -> None:
        """As many are copied as the check found."""
        kept = payments_of_all(payments(self.FEW + 1))
        image = self.make_journal(len(kept), alone(kept[: self.FEW]))
        ended = self.copied_from(image, journal_of(alone(kept), 0))
        self.assert_output(ended, b"", "", "one more")
        made = (self.made / "copy").read_bytes()
        self.assertEqual(made, copied(image, made))

    def assert_refused(self, image: bytes, changed: bytes, what: str, fault: str = CANNOT_MAKE) -> None:
        self.assert_output(self.copied_from(image, changed), b"", fault, what)
        self.assertEqual([*self.made.iterdir()], [], what)

    def copied_from(self, image: bytes, changed: bytes, home: Optional[Path] = None) -> Ended:
        """How a copy ends of a journal that has the first bytes while it is checked, and the others while
        it is copied, which the lock of the copy's file holds up."""
        home = home or self.home
        made, trace = home / NEW, self.folder() / "trace"
        (home / OLD).write_bytes(image)
        delay = f"inject=flock:delay_exit={int(self.DELAY * 1e6)}:when=2"
        with ThreadPoolExecutor() as pool:
            ended = pool.submit(traced, [*self.copier, "copy-journal", OLD, NEW], home, trace, OLD,
                                [delay])
            deadline = time.monotonic() + SECONDS
            while not made.exists():
                self.assertLess(time.monotonic(), deadline, "no file is made")
                time.sleep(0.001)
            (home / OLD).write_bytes(changed)
            self.assertEqual(made.stat().st_size, 0, "changed too late")
            return ended.result()[0]


class LeftCase(CallCase):
    """What is left under the name of a copy, and whether it is taken for a journal."""

    def setUp(self) -> None:
        super().setUp()
        # What was taken for a journal, and is no whole copy.
        self.taken: list[str] = []

    def judge(self, made: Path, image: bytes, what: str) -> str:
        """What was left under the name of a copy: it is absent, the whole copy, refused by all that takes
        journals, or noted as taken by one of them. The journal is as before."""
        self.assert_bytes(image, what)
        left = made.read_bytes() if made.exists() else None
        if left is None:
            return "absent"
        taken = []
        is_whole = identity_of(left) is not None and left == copied(image, left)
        if not is_whole:
            taken = [words[0] for words in self.takers(made) if not self.is_refused(words)]
            self.assertEqual(made.read_bytes(), left, f"{what}: refused and changed")
            if taken:
                self.taken.append(f"{about(left, image, what)}, taken for a journal by {taken}")
        made.unlink()
        return "taken" if taken else "whole" if is_whole else "refused"

    def takers(self, made: Path) -> list[Sequence[Word]]:
        return [("serve", "bank.toml", "--journal", made), ("copy-journal", made, "another"),
                ("show", "journal", made)]

    def is_refused(self, words: Sequence[Word]) -> bool:
        """Whether a file is refused as a damaged journal, and nothing is made of it."""
        ended = self.program.run(*words, folder=self.home)
        is_copied = (self.home / "another").exists()
        (self.home / "another").unlink(missing_ok=True)
        if ended.status == 0:
            return False
        self.assertFalse(is_copied)
        self.assertEqual((ended.status, ended.output), (1, b""), words[0])
        self.assertRegex(ended.faults, rb"\A(journal: failed|journal refused at \d+: Damaged)\n\Z")
        return True


class Kills(LeftCase):
    """A copy that is killed in a call, before the system does it; and in the removal of one that found no
    room, which ends within a piece."""

    weight = 6

    def test_less_than_a_piece(self) -> None:
        """Payments each alone, of which any first ones are a journal, and one group, which is closed
        where its first gate is."""
        kept = payments_of_all(payments(5))
        for groups in (alone(kept), [kept]):
            for image in self.of_both(7, groups):
                self.kill_in_each_call(image)

    def test_many_pieces(self) -> None:
        """Of four pieces, and zeros behind them; the last of them has a few records."""
        kept = payments_of_all(payments(3 * PIECE + 9))
        self.kill_in_each_call(self.make_journal(3 * PIECE + 300, alone(kept)))

    def kill_in_each_call(self, image: bytes) -> None:
        calls, found = self.traced()[1], Counter[str]()
        whole = (self.made / "copy").read_bytes()
        self.assertEqual(whole, copied(image, whole))
        (self.made / "copy").unlink()
        for call in calls:
            ended, made = self.traced(f"inject={call.name}:signal=KILL:when={call.count}")
            self.assertEqual(ended.status, -signal.SIGKILL, f"killed in {call}")
            self.assertEqual((made[-1].name, made[-1].count, made[-1].file),
                             (call.name, call.count, call.file), f"killed in {call}")
            found[self.judge(self.made / "copy", image, f"killed in {call} ({call.count})")] += 1
        self.assertEqual(self.taken, [])
        self.assertEqual(set(found), {"absent", "refused", "whole"}, "what kills leave")
        self.tells(", ".join(f"{count} {it}" for it, count in found.items()))

    def test_in_its_removal(self) -> None:
        """The file system is full behind these pages. The call that would remove the copy kills."""
        found = Counter[str]()
        for kept, room in ((5 * PAGE // RECORD, 6 * PAGE // RECORD), (PIECE + 900, 2 * PIECE)):
            image = self.make_journal(room, alone(payments_of_all(payments(kept))))
            needed = len(image) // PAGE
            for pages in sorted({1, needed // 2, needed // 2 + 1, needed - 1}):
                small, what = SmallFiles(self.folder(), pages), f"{pages} of {needed} pages"
                self.addCleanup(small.close)
                ended, _ = self.traced(*(f"inject={it}:signal=KILL" for it in REMOVES),
                                       new=small.folder / "copy")
                self.assertEqual(ended.status, -signal.SIGKILL, f"{what}: it removes nothing")
                self.assertEqual(small.free(), 0, f"{what}: the file system is not full")
                found[self.judge(small.folder / "copy", image, what)] += 1
        self.assertEqual(self.taken, [])
        self.assertNotIn("absent", found)
        self.assertGreater(found["refused"], 0)


class Losses(LeftCase):
    """A copy whose power is lost. A disk may leave any bytes then where it was written since its last
    sync: also of one write, which may be torn."""

    weight = 6

    def setUp(self) -> None:
        super().setUp()
        # How many were given to what takes journals, which is one of them in turn.
        self.given = 0

    def test_any_bytes_since_a_sync(self) -> None:
        """What is left is no journal, or one with all payments: for each value of the byte that is
        written last, and for many bytes of what was written before."""
        kept, found = payments_of_all(payments(5)), Counter[str]()
        for room, groups in ((1, alone(kept[:1])), (7, [kept]), (7, alone(kept)), (2, [])):
            for image in self.of_both(room, groups):
                calls = self.traced()[1]
                whole = (self.made / "copy").read_bytes()
                (self.made / "copy").unlink()
                for state in unsynced_of(calls, NEW, whole):
                    for left in state.left(self.chance):
                        found[self.judge_lost(left, image, f"{len(groups)} groups: {state}")] += 1
        self.assertEqual(set(found), {"refused", "whole"})
        self.tells(", ".join(f"{count} {it}" for it, count in found.items()))

    def judge_lost(self, left: bytes, image: bytes, what: str) -> str:
        """That it keeps what the journal does, or is refused by what takes journals, each in its turn."""
        try:
            kept = payments_in(left)
        except DamagedJournal:
            self.copy.write_bytes(left)
            takers = self.takers(self.copy)
            words = takers[self.given % len(takers)]
            self.given += 1
            self.assertTrue(self.is_refused(words), f"{what}: taken by {words[0]}: {left.hex()}")
            return "refused"
        self.assertEqual(kept, entries_of_either(image), f"{what}: another journal: {left.hex()}")
        return "whole"


def about(left: bytes, wanted: bytes, what: str) -> str:
    """What a kill left, told by its length and the pages that are not those of the copy."""
    pages = [at // PAGE for at in range(0, len(wanted), PAGE)
             if left[at : at + PAGE] != wanted[at : at + PAGE]]
    stretches = [[it[1] for it in group] for _, group in
                 itertools.groupby(enumerate(pages), key=lambda it: it[1] - it[0])]
    told = ", ".join(f"{it[0]} to {it[-1]}" for it in stretches)
    return f"{what}: it left {len(left)} bytes of {len(wanted)}, of other bytes in pages {told}"
