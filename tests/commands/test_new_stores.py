"""`new-log`, `new-journal` and `new-ledger`: what they make, what they refuse, and that a refusal
leaves nothing and changes nothing."""
from __future__ import annotations

import os
import signal
from collections import Counter
from pathlib import Path
from typing import ClassVar

from ..support.commands.everyday_rows import BASE, FIRST
from ..support.formats import journal_records, ledger_file, log_file
from ..support.formats.checked_journal import HEADER, blank, identity_of
from ..support.formats.journal_file import DamagedJournal, payments_in
from ..support.formats.log_file import log_image
from ..support.formats.opened_ledger import Refusal, opened
from ..support.program import NO_LIMITS, Ended, Limits
from ..support.service.client import payments
from ..support.service.journal_case import JournalCase
from ..support.service.service_case import ON_LOG, numbers_of
from ..support.system.small_files import PAGE, SmallFiles
from ..support.system.traced_files import Call, assert_kept, traced
from ..support.system.unsynced import unsynced_of

RECORDS_REFUSED = "records refused"
LOADING = "3F419E1CB7079442AA37474C2EFBF8B8"


class StoreCase(JournalCase):
    """A test of the command that makes a store."""

    # The word for the store, the bytes of a record, and a number of records that several writes take.
    store: ClassVar[str]
    record: ClassVar[int]
    many: ClassVar[int]
    # The bytes that are zero once the file has its size.
    not_written: ClassVar[range]

    @property
    def file(self) -> Path:
        return self.home / self.store

    @property
    def cannot_make(self) -> str:
        return f"{self.store}: cannot make"

    @property
    def failed(self) -> str:
        return f"{self.store}: failed"

    def make(self, name: str, records: str, limits: Limits = NO_LIMITS) -> Ended:
        return self.program.run(f"new-{self.store}", name, records, folder=self.home, limits=limits)

    def refuse(self, fault: str, name: str, records: str = "3", limits: Limits = NO_LIMITS) -> None:
        """That nothing is made, and what is there stays as it is."""
        before = self.image()
        self.assert_output(self.make(name, records, limits), b"", fault, f"{name!r} {records!r}")
        self.assertEqual(self.image(), before, f"{name!r} {records!r}")

    def image(self) -> dict[str, bytes]:
        return {os.fspath(it.relative_to(self.home)): it.read_bytes() if it.is_file() else b""
                for it in sorted(self.home.rglob("*"))}

    @property
    def made(self) -> Path:
        return self.home / "sub" / self.store

    def traced(self, records: int, *changes: str) -> tuple[Ended, list[Call]]:
        """How a store is made anew where strace makes these changes, and the calls on it and its
        folder."""
        self.made.parent.mkdir(exist_ok=True)
        self.made.unlink(missing_ok=True)
        words = (self.program.path, f"new-{self.store}", f"sub/{self.store}", str(records))
        return traced(words, self.home, self.folder() / "trace", f"sub/{self.store}", changes)

    def judge(self, what: str) -> str:
        """What is left of a store of many records, and what a service makes of it."""
        if not self.made.exists():
            return "absent"
        left = self.made.read_bytes()
        is_whole = self.is_blank(left, self.many)
        self.use(is_whole, what)
        if self.store == "log" and not is_whole:
            self.assertEqual(left, b"", what)
        return "whole" if is_whole else "refused"

    def use(self, is_whole: bool, what: str) -> None:
        """That a service comes up over the file, or refuses it."""
        words = ("serve", "bank.toml", f"--{self.store}", self.made)
        self.check(words, [], b"", "" if is_whole else self.failed, what=what)


class NewStores:
    """What each command does."""

    def test_zeros(self: StoreCase) -> None:
        """Each byte is written: none of the file is a hole."""
        page = 65_536 // self.record
        for records in ("1", str(page - 1), str(page), str(page + 1), "007", str(34 * page)):
            self.assert_output(self.make(self.store, records), b"", "", records)
            made = self.file.read_bytes()
            self.assertTrue(self.is_blank(made, int(records)), records)
            self.assertGreaterEqual(512 * self.file.stat().st_blocks, len(made))
            self.file.unlink()

    def test_its_owner_alone_may_read_it(self: StoreCase) -> None:
        """Also where a mask would let all read it."""
        before = os.umask(0o022)
        try:
            self.assert_output(self.make(self.store, "2"), b"", "", "under a mask of 022")
        finally:
            os.umask(before)
        self.assertEqual(self.file.stat().st_mode & 0o777, 0o600)

    def test_how_many(self: StoreCase) -> None:
        for records in ("0", "", "+1", "1.0", "1000000001", "99999999999999999999", "x", " 1"):
            self.refuse(RECORDS_REFUSED, self.store, records)

    def test_what_is_there_stays(self: StoreCase) -> None:
        self.file.write_bytes(b"something")
        (self.home / "folder").mkdir()
        (self.home / "broken").symlink_to("nowhere")
        os.mkfifo(self.home / "pipe")
        for name in (self.store, "folder", "broken", ".", "", f"missing/{self.store}", f"{self.store}/more"):
            self.refuse(self.cannot_make, name)
        self.assert_output(self.make("pipe", "3"), b"", self.cannot_make, "a pipe")

    def test_limits(self: StoreCase) -> None:
        """A file that may not get its size, which it gets before it is written, is removed again."""
        for size in (0, 1, self.record - 1, self.size_of(3) - 1):
            self.refuse(self.cannot_make, self.store, "3", Limits(file_size=size))

    def test_calls(self: StoreCase) -> None:
        """It is made, locked, written and synced, and then its folder. The first byte of a journal
        and of a ledger is right once it has its size."""
        for records in (1, self.many):
            ended, calls = self.traced(records)
            self.assert_output(ended, b"", "", "traced")
            assert_kept(calls, f"sub/{self.store}", "sub", self.size_of(records), but=self.not_written)
            self.assertTrue(self.is_blank(self.made.read_bytes(), records))

    def test_each_call_that_fails(self: StoreCase) -> None:
        """Where it fails, and each later one of its name, no file is left."""
        calls = self.traced(self.many)[1]
        for call in calls:
            ended, changed = self.traced(self.many, f"inject={call.name}:error=EIO:when={call.count}+")
            self.assertTrue(any(it.is_changed for it in changed), str(call))
            self.assert_output(ended, b"", self.cannot_make, str(call))
            self.assertEqual([*self.made.parent.iterdir()], [], str(call))
        self.tells(", ".join(map(str, calls)))

    def test_killed_in_each_call(self: StoreCase) -> None:
        """What is left is absent, or whole and keeps nothing, or refused; a log is empty then."""
        found = Counter[str]()
        for call in self.traced(self.many)[1]:
            ended, _ = self.traced(self.many, f"inject={call.name}:signal=KILL:when={call.count}")
            self.assertEqual(ended.status, -signal.SIGKILL, f"killed in {call}")
            found[self.judge(f"killed in {call}")] += 1
        self.assertEqual(set(found), {"absent", "refused", "whole"})


class NewLogs(NewStores, StoreCase):
    store, record, many, not_written = "log", log_file.RECORD, 9000, range(0)

    def size_of(self, records: int) -> int:
        return self.record * records

    def is_blank(self, image: bytes, records: int) -> bool:
        return image == bytes(self.size_of(records))

    def test_a_service_over_it(self) -> None:
        self.assert_output(self.make("log", "2"), b"", "", "two numbers")
        self.room = 2
        requests = payments(3)
        self.check_requests(ON_LOG, requests, what="the third finds no room")
        self.assertEqual(self.log.read_bytes(), log_image(numbers_of(requests[:2]), 2))


class HeadedStores(NewStores):
    """What the commands do that write a header."""

    def size_of(self: StoreCase, records: int) -> int:
        return HEADER + self.record * records

    def is_blank(self: StoreCase, image: bytes, records: int) -> bool:
        identity = self.identity_in(image)
        return identity is not None and image == self.blank(records, identity)

    def test_identities(self: StoreCase) -> None:
        """Each has another one, of the system's random device."""
        found = set()
        for name in ("one", "two", "three"):
            self.assert_output(self.make(name, "1"), b"", "", name)
            found.add(self.identity_in((self.home / name).read_bytes()))
        self.assertEqual(len(found), 3, found)

    def test_a_full_file_system(self: StoreCase) -> None:
        """The file gets its size, which takes no room, and some of its zeros. Then it is removed, and
        all room is free again. With the page that it lacks it is made."""
        needed = 40
        for pages in (1, 15, 16, 17, needed - 1, needed):
            small, what = SmallFiles(self.folder(), pages), f"{pages} of {needed} pages"
            self.addCleanup(small.close)
            made = small.folder / self.store
            ended = self.make(os.fspath(made), str(needed * PAGE // self.record - 1))
            if pages < needed:
                self.assert_output(ended, b"", self.cannot_make, what)
                self.assertEqual([*small.folder.iterdir()], [], what)
                self.assertEqual(small.free(), pages, what)
            else:
                self.assert_output(ended, b"", "", what)
                self.assertTrue(self.is_blank(made.read_bytes(), needed * PAGE // self.record - 1), what)
                self.assertEqual(small.free(), 0, what)

    def test_any_bytes_since_a_sync(self: StoreCase) -> None:
        """A loss of power may leave any where the file was written since its last sync, and it is no
        such store then, or keeps nothing: for each value of the byte that is written last, too."""
        found = Counter[str]()
        for records in (1, 3):
            calls = self.traced(records)[1]
            states = [*unsynced_of(calls, f"sub/{self.store}", self.made.read_bytes())]
            self.assertEqual(states[-1].spans, (range(1, 2),), "the last write")
            for state in states:
                for left in state.left(self.chance):
                    found[self.judge_lost(left, f"{records} records: {state}")] += 1
        self.assertEqual(set(found), {"refused", "whole"})


class NewJournals(HeadedStores, StoreCase):
    store, record, many, not_written = "journal", journal_records.RECORD, 5000, range(1)
    identity_in, blank = staticmethod(identity_of), staticmethod(blank)

    def test_a_service_over_it(self) -> None:
        self.assert_output(self.make("journal", "2"), b"", "", "two payments")
        requests = payments(3)
        self.check_file(requests, what="the third finds no room")
        self.assertEqual(len(self.kept()), 2)

    def judge_lost(self, left: bytes, what: str) -> str:
        try:
            kept = payments_in(left)
        except DamagedJournal:
            self.made.write_bytes(left)
            words = ("serve", "bank.toml", "--journal", self.made)
            self.check(words, [], b"", self.failed, what=f"{what}: {left.hex()}")
            return "refused"
        self.assertEqual(kept, [], f"{what}: {left.hex()}")
        return "whole"


def blank_ledger(records: int, identity: int) -> bytes:
    return ledger_file.ledger_image([], records, identity)


class NewLedgers(HeadedStores, StoreCase):
    store, record, many, not_written = "ledger", ledger_file.RECORD, 5000, range(1)
    identity_in, blank = staticmethod(ledger_file.identity_of), staticmethod(blank_ledger)

    def issue(self, path: Path, count: int) -> Ended:
        return self.program.run("issue", BASE, LOADING, FIRST, str(count), "--ledger", path,
                                folder=self.home)

    def use(self, is_whole: bool, what: str) -> None:
        """That a run of `issue` takes the file, or says that it is no ledger, of either version."""
        before, ended = self.made.read_bytes(), self.issue(self.made, 1)
        if is_whole:
            self.assertEqual((ended.status, ended.faults), (0, b""), what)
            self.assertEqual(len(ledger_file.kept_in(self.made.read_bytes())), 1, what)
        else:
            self.assert_output(ended, b"", Refusal.DAMAGED.value, what)
            self.assertEqual(self.made.read_bytes(), before, what)

    def test_a_run_of_issue_over_it(self) -> None:
        self.assert_output(self.make("ledger", "2"), b"", "", "two keys")
        ended = self.issue(self.file, 2)
        self.assertEqual((ended.status, ended.faults, ended.output.count(b"\n")), (0, b"", 2))
        self.assertEqual(len(ledger_file.kept_in(self.file.read_bytes())), 2)
        ended = self.program.run("issue", BASE, LOADING, FIRST, "3", "--ledger", self.file,
                                 "--skip-issued", folder=self.home)
        self.assert_output(ended, b"", "ledger: full", "a third")

    def judge_lost(self, left: bytes, what: str) -> str:
        self.made.write_bytes(left)
        is_whole = self.identity_in(left) is not None and opened(left) == []
        self.use(is_whole, f"{what}: {left.hex()}")
        return "whole" if is_whole else "refused"
