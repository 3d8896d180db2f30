"""`copy-ledger`: what it copies, what it refuses and leaves, a run of `issue` over a copy, its
calls, and what a kill or a loss of power leaves of it: no ledger of either version, or all."""
from __future__ import annotations

import fcntl
import os
import signal
import subprocess
import time
from collections import Counter
from concurrent.futures import ThreadPoolExecutor
from pathlib import Path
from typing import Optional, Sequence

from ..support.case import ProgramCase
from ..support.commands.everyday_rows import BASE, FIRST
from ..support.commands.issuing import (
    Keys, Ledger, bytes_of, issued_by, numbers_from, numbers_of, read_lines)
from ..support.formats.checked_journal import journal_of
from ..support.formats.ledger_file import (
    RECORD, Kept, header_of, identity_of, ledger_image, shown_ledger)
from ..support.formats.log_file import RECORD as NUMBER
from ..support.formats.log_file import log_image, record
from ..support.formats.opened_ledger import Refusal, old_kept_in, opened
from ..support.models.model_journal import payments_of_all
from ..support.program import COMMANDS, NO_LIMITS, SECONDS, Ended, Limits, Word
from ..support.quick import QuickRuns
from ..support.service.client import payments
from ..support.service.service import Service
from ..support.standards.dukpt import SPENT, serial_text
from ..support.system.little_memory import least_to_start
from ..support.system.small_files import PAGE, SmallFiles
from ..support.system.traced_files import (
    OPENS, READS, REMOVES, SYNCS, WRITES, Call, assert_kept, covered, places, traced)
from ..support.system.unsynced import unsynced_of
from .test_little_memory import NEAR, MemoryCase
from .test_progress import PROGRESS, faults_of, told

CANNOT_OPEN, CANNOT_MAKE = "ledger: cannot open", "ledger: cannot make"
NEW_VERSION, FAILED = "ledger: version 2 already", "ledger: failed"
UNREAD = "identity: cannot read"
LOADING = "DD7515F2BFC17F85CE48F3CA25CB21F6"
KEYS = Keys(bytes.fromhex(BASE), bytes.fromhex(LOADING))
FIRST_NUMBER = int(FIRST, 16)
OLD, COPY, FOLDER = "ledger", "copy", "sub"
NEW = f"{FOLDER}/{COPY}"
# So many bytes a ledger is read and written at once.
PIECE = 1 << 16
SCRATCHES = 400
# Of many calls a kill falls in so many first ones, in as many of the last, and in as many others.
ENDS = 25


def old_ledger(numbers: Sequence[int], room: int) -> bytes:
    """A ledger of version 1 that keeps these, of so many that it has room for."""
    return log_image(bytes_of(numbers), room)


def numbers_up_to(count: int) -> list[int]:
    return numbers_from(FIRST_NUMBER, count)


def copied(image: bytes, copy: bytes) -> bytes:
    """What a copy of a ledger of version 1 is, if it has the identity of this one."""
    identity, kept = identity_of(copy), old_kept_in(image)
    assert identity is not None and not isinstance(kept, Refusal)
    return ledger_image(kept, len(image) // NUMBER, identity)


class CopyCase(ProgramCase):
    """A ledger of version 1, and its copy."""

    weight = 2

    def setUp(self) -> None:
        super().setUp()
        self.home = self.folder()
        self.old, self.copy = self.home / OLD, self.home / COPY

    def copy_to(self, new: str = COPY, old: str = OLD, limits: Limits = NO_LIMITS) -> Ended:
        return self.program.run("copy-ledger", old, new, folder=self.home, limits=limits)

    def assert_done(self, ended: Ended, what: str, fault: str = "") -> None:
        faults = f"{fault}\n".encode() if fault else b""
        self.assert_ended(ended, int(bool(fault)), b"", faults, what)

    def check_copy(self, image: bytes, what: str) -> None:
        """That the ledger with these bytes is copied, and left as it is."""
        self.copy.unlink(missing_ok=True)
        self.old.write_bytes(image)
        self.assert_done(self.copy_to(), what)
        self.assertEqual(self.old.read_bytes(), image, f"{what}: copied and changed")
        self.assert_copied(image, what)

    def assert_copied(self, image: bytes, what: str) -> None:
        made = self.copy.read_bytes()
        self.assertEqual(made, copied(image, made), what)
        self.assertEqual(opened(made), old_kept_in(image), what)

    def refuse(self, fault: str, what: str, new: str = COPY, old: str = OLD,
               limits: Limits = NO_LIMITS) -> None:
        """That nothing is copied, and that each file stays as it is."""
        before = self.files()
        self.assert_done(self.copy_to(new, old, limits), what, fault)
        self.assertEqual(self.files(), before, f"{what}: refused and changed")

    def files(self) -> dict[str, bytes]:
        return {os.fspath(it.relative_to(self.home)): it.read_bytes()
                for it in sorted(self.home.rglob("*")) if it.is_file()}


class Copied(CopyCase):
    """What a ledger of version 1 keeps is copied, number by number."""

    def test_by_hand(self) -> None:
        image = bytes.fromhex("01 FFFF9876543210C00000 0000000000"
                              "01 FFFF9876543210E00000 0000000000"
                              "00 00000000000000000000 0000000000")
        self.check_copy(image, "by hand")
        made = self.copy.read_bytes()
        self.assertEqual(len(made), 4 * 32)
        self.assertEqual(made[:16].hex().upper(), "01D544554B0D0A1A0202000000000020")
        self.assertEqual(made[32 : 32 + 27].hex().upper(),
                         "01020000FFFF9876543210C00000" + "00" * 13)
        self.assertEqual(made[64 : 64 + 27].hex().upper(),
                         "01020000FFFF9876543210E00000" + "00" * 13)
        self.assertEqual(made[96:], bytes(32))

    def test_none_and_full(self) -> None:
        """Ledgers that keep nothing, that are full, and of a piece of 64 KiB of either file and
        about."""
        for count, room in ((0, 1), (0, 5000), (1, 1), (3, 3), (2047, 2047), (2047, 2048),
                            (2048, 2050), (2049, 5000), (4095, 4096), (4096, 4096), (4097, 4097),
                            (35_000, 40_000)):
            self.check_copy(old_ledger(numbers_up_to(count), room), f"{count} of {room}")

    def test_drawn(self) -> None:
        """Numbers in any order, of any key sets, one of them twice; and what a stop left behind
        them, which is not copied."""
        for _ in range(40 * self.times):
            numbers = [self.chance.randrange(1 << 59) * SPENT
                       for _ in range(self.chance.randrange(1, 90))]
            numbers += numbers[:1]
            front = old_ledger(numbers, len(numbers))
            gate = bytes([self.chance.choice((0, 0, 2, 0xFF))])
            torn = self.chance.choice((bytes(NUMBER), gate + self.chance.randbytes(NUMBER - 1)))
            self.check_copy(front + torn + bytes(NUMBER * self.chance.randrange(9)), "drawn")

    def test_identities(self) -> None:
        """Each copy has another one, of the system's random device."""
        self.old.write_bytes(old_ledger(numbers_up_to(2), 3))
        found = set()
        for name in ("one", "two", "three"):
            self.assert_done(self.copy_to(name), name)
            found.add(identity_of((self.home / name).read_bytes()))
        self.assertEqual(len(found), 3, found)

    def test_its_owner_alone_may_read_it(self) -> None:
        """Also where a mask would let all read it."""
        self.old.write_bytes(old_ledger(numbers_up_to(2), 4))
        before = os.umask(0o022)
        try:
            self.assert_done(self.copy_to(), "under a mask of 022")
        finally:
            os.umask(before)
        self.assertEqual(self.copy.stat().st_mode & 0o777, 0o600)

    def test_by_links(self) -> None:
        """The ledger may be named by a link, and is the file behind it; it need not be writable."""
        image = old_ledger(numbers_up_to(2), 4)
        self.old.write_bytes(image)
        self.old.chmod(0o400)
        (self.home / "link").symlink_to(OLD)
        self.assert_done(self.copy_to(old="link"), "a link")
        self.assert_copied(image, "a link")

    def test_progress(self) -> None:
        """The records of the new file, with its header."""
        for count, room in ((0, 1), (3, 99), (150, 250), (2100, 5000)):
            self.old.write_bytes(old_ledger(numbers_up_to(count), room))
            ended = self.program.run("copy-ledger", PROGRESS, OLD, COPY, folder=self.home)
            lines = faults_of(told(1 + room, 1 + room))
            self.assert_ended(ended, 0, b"", lines, f"{count} of {room}")
            self.copy.unlink()

    def test_shown(self) -> None:
        """The numbers have no check values, and no run."""
        numbers = numbers_up_to(3)
        self.check_copy(old_ledger(numbers, 5), "three")
        ended = self.program.run("show", "ledger", COPY, folder=self.home)
        lines = "".join(f"issued {serial_text(it)}\n" for it in numbers)
        identity = self.copy.read_bytes()[16:24].hex().upper()
        wanted = f"version 2\nidentity {identity}\n{lines}numbers 3\nroom 2\n"
        self.assert_ended(ended, 0, wanted.encode(), b"", "show ledger")
        self.assertEqual(wanted, shown_ledger(self.copy.read_bytes()))

    def test_issue_goes_on_over_it(self) -> None:
        """What was issued before is not issued again, and its lines can be made; the first run over
        the copy is run 1."""
        numbers = numbers_up_to(5)
        self.check_copy(old_ledger(numbers[1:3], 5), "before")
        for words, fault in ((["5"], f"{serial_text(numbers[1])}: issued"),
                             (["5", "--again"], f"{FIRST}: not issued")):
            self.assert_done(self.issue(*words), str(words), fault)
        ended = self.issue("5", "--skip-issued")
        self.assert_ended(ended, 0, ended.output, b"passed over 2\n", "over the copy")
        issued = [it.number for it in read_lines(ended.output, KEYS)]
        self.assertEqual(issued, [numbers[0], *numbers[3:]])
        kept = [Kept(it) for it in bytes_of(numbers[1:3])]
        self.assertEqual(opened(self.copy.read_bytes()), [*kept, *issued_by(KEYS, issued, 1)])
        ended = self.issue("5", "--again")
        self.assertEqual([it.number for it in read_lines(ended.output, KEYS)], numbers)

    def issue(self, *words: str) -> Ended:
        words = ("issue", BASE, LOADING, FIRST, *words, "--ledger", COPY)
        return self.program.run(*words, folder=self.home)


class Refused(CopyCase):
    """What is not copied leaves all files as they are."""

    def test_what_cannot_be_opened(self) -> None:
        self.old.write_bytes(old_ledger([], 3))
        os.mkdir(self.home / "folder")
        os.mkfifo(self.home / "pipe")
        for old in ("missing", "missing/ledger", "folder", ".", "", f"{OLD}/ledger", "pipe",
                    "/dev/zero"):
            self.refuse(CANNOT_OPEN, f"the ledger {old!r}", old=old)
            self.refuse(CANNOT_OPEN, f"the ledger {old!r}, before the copy", OLD, old)

    def test_in_use(self) -> None:
        """One that any other has locked is not copied, and can be once that ended."""
        image = old_ledger(numbers_up_to(2), 4)
        self.old.write_bytes(image)
        os.link(self.old, self.home / "second name")
        for kind in (fcntl.LOCK_SH, fcntl.LOCK_EX):
            with open(self.old, "rb") as other:
                fcntl.flock(other, kind)
                self.refuse(CANNOT_OPEN, f"lock {kind}")
                self.refuse(CANNOT_OPEN, f"lock {kind} by another name", old="second name")
        self.check_copy(image, "no longer in use")
        self.old.write_bytes(old_ledger([], 4))
        service = Service(self.program, self.home, "serve", COMMANDS / "bank.toml", "--log", OLD)
        self.addCleanup(service.release)
        service.ask([b"\x00\x00"])
        self.refuse(CANNOT_OPEN, "in use by a service", "another")
        service.end()

    def test_sizes(self) -> None:
        good = old_ledger(numbers_up_to(4), 6)
        for size in (0, 1, 15, 17, 31, 33, len(good) - 1, len(good) + 1):
            self.old.write_bytes(good[:size].ljust(size, b"\x00"))
            self.refuse(FAILED, f"{size} bytes")

    def test_version_2(self) -> None:
        """It needs no copy, whatever it keeps."""
        for ledger in (Ledger(1), Ledger(4, numbers_up_to(2))):
            ledger.keep(KEYS, numbers_from(FIRST_NUMBER + 9 * SPENT, 1))
            self.old.write_bytes(ledger.image)
            self.refuse(NEW_VERSION, "a ledger of version 2")
        self.check_copy(old_ledger(numbers_up_to(1), 2), "of version 1")
        self.refuse(NEW_VERSION, "a copy", "another", COPY)

    def test_counters(self) -> None:
        """A number with a counter is none of a ledger: the first, one in the middle, the last."""
        for count in (1, 3, 200, 5000):
            for place in {0, count // 2, count - 1}:
                numbers = numbers_up_to(count)
                numbers[place] += self.chance.choice((1, 1 << 20, self.chance.randrange(1, SPENT)))
                self.old.write_bytes(old_ledger(numbers, count + 2))
                self.refuse(FAILED, f"number {place} of {count} has a counter")

    def test_other_files(self) -> None:
        """A log of a service, journals, a key, a ledger without a header, open behind closed."""
        changed = Ledger(3, numbers_up_to(2)).image
        logs = {it.name: it.read_bytes() for it in (COMMANDS / "logs").glob("*.log")}
        for what, image in {
            **logs, "a journal": journal_of([[it] for it in payments_of_all(payments(2))], 2),
            "a key": BASE.encode(), "two keys": BASE.encode() * 2,
            "a header": header_of()[:-1] + b"x",
            "no header": bytes(RECORD) + changed[RECORD:], "no mark": b"\x01\xd4" + changed[2:],
            "no gate": b"\x00" + changed[1:],
            "no zeros": record(bytes_of([FIRST_NUMBER])[0], rest=b"\x00\x00\x00\x00\x01"),
        }.items():
            self.old.write_bytes(image)
            self.copy.unlink(missing_ok=True)
            if isinstance(old_kept_in(image), Refusal):
                self.refuse(FAILED, what)
            else:
                self.check_copy(image, what)

    def test_scratched(self) -> None:
        """Bytes that are changed anywhere: as the reader of the tests finds."""
        right = count = 0
        with QuickRuns(self.program) as runs:
            for count in range(1, 1 + SCRATCHES * self.times):
                kept, more = self.chance.randrange(6), self.chance.randrange(1, 5)
                image = bytearray(old_ledger(numbers_up_to(kept), kept + more))
                for _ in range(self.chance.randrange(3)):
                    at = self.chance.randrange(len(image))
                    image[at] = self.chance.choice((0, 1, 2, 255, self.chance.randrange(256)))
                right += self.try_one(runs, bytes(image))
        self.tells(f"{right} right, {count - right} damaged")
        self.assertTrue(0 < right < count)

    def try_one(self, runs: QuickRuns, image: bytes) -> bool:
        is_right = not isinstance(old_kept_in(image), Refusal)
        self.old.write_bytes(image)
        ended = runs.run(["copy-ledger", os.fspath(self.old), os.fspath(self.copy)])
        self.assert_done(ended, image.hex(), "" if is_right else FAILED)
        self.assertEqual(self.old.read_bytes(), image, "copied and changed")
        self.assertEqual(self.copy.exists(), is_right, image.hex())
        if is_right:
            self.assert_copied(image, image.hex())
            self.copy.unlink()
        return is_right

    def test_what_cannot_be_made(self) -> None:
        """What is there stays, be it a file, a folder or a link; and so does the ledger itself."""
        self.old.write_bytes(old_ledger(numbers_up_to(3), 5))
        (self.home / "there").write_bytes(b"there")
        os.mkdir(self.home / "folder")
        (self.home / "broken").symlink_to("nothing")
        for new in ("there", "folder", "broken", OLD, ".", "", "no/copy", "there/copy"):
            self.refuse(CANNOT_MAKE, f"the copy {new!r}", new)
        self.assertFalse((self.home / "nothing").exists())

    def test_the_order_of_faults(self) -> None:
        """What is wrong with the ledger is told before a copy that cannot be made."""
        (self.home / "there").write_bytes(b"there")
        for image, fault in ((bytes(33), FAILED), (Ledger(2).image, NEW_VERSION)):
            self.old.write_bytes(image)
            self.refuse(fault, f"{fault}, and the copy is there", "there")
        self.refuse(CANNOT_OPEN, "no ledger, and the copy is there", "there", "missing")

    def test_a_counter_goes_last(self) -> None:
        """A number with a counter is found once the copy is made, wherever it stands."""
        (self.home / "there").write_bytes(b"there")
        for place in (0, 2):
            numbers = numbers_up_to(3)
            numbers[place] += 1
            self.old.write_bytes(old_ledger(numbers, 3))
            self.refuse(CANNOT_MAKE, "a counter, and the copy is there", "there")
            self.refuse(FAILED, "a counter", COPY)

    def test_no_random_bytes(self) -> None:
        """That is told first, where there is no random device, or an empty one."""
        self.old.write_bytes(old_ledger(numbers_up_to(1), 2))
        (self.home / "there").write_bytes(b"there")
        before = self.files()
        for way in ("mount -t tmpfs none /dev", "mount --bind /dev/null /dev/urandom"):
            for old, new in ((OLD, COPY), ("missing", COPY), (OLD, "there")):
                done = subprocess.run(
                    ["unshare", "--user", "--map-root-user", "--mount", "sh", "-c",
                     f'{way} && exec "$@"', "sh", str(self.program.path), "copy-ledger", old, new],
                    cwd=self.home, capture_output=True, check=False, timeout=SECONDS)
                self.assertEqual((done.returncode, done.stdout, done.stderr),
                                 (1, b"", f"{UNREAD}\n".encode()), way)
                self.assertEqual(self.files(), before)

    def test_limits(self) -> None:
        """A copy that may not get its size is removed again."""
        self.old.write_bytes(old_ledger(numbers_up_to(2100), 4096))
        needed = RECORD * (1 + 4096)
        for size in (0, RECORD, PIECE, needed - 1):
            self.refuse(CANNOT_MAKE, f"a limit of {size} bytes", limits=Limits(file_size=size))
        self.assert_done(self.copy_to(limits=Limits(file_size=needed)), "room")
        self.assert_copied(self.old.read_bytes(), "room")

    def test_a_full_file_system(self) -> None:
        """The copy is removed, and all room is free again. With the page that it lacks it is
        made."""
        needed = RECORD * 4096 // PAGE
        image = old_ledger(numbers_up_to(2100), 4095)
        self.old.write_bytes(image)
        for pages in (1, 15, 16, 17, needed - 1, needed):
            small, what = SmallFiles(self.folder(), pages), f"{pages} of {needed} pages"
            self.addCleanup(small.close)
            made = small.folder / COPY
            if pages < needed:
                self.refuse(CANNOT_MAKE, what, os.fspath(made))
                self.assertEqual([*small.folder.iterdir()], [], what)
                self.assertEqual(small.free(), pages, what)
            else:
                self.assert_done(self.copy_to(os.fspath(made)), what)
                self.assertEqual(made.read_bytes(), copied(image, made.read_bytes()), what)


class Memory(MemoryCase):
    """A copy is whole, or nothing is left of it."""

    def setUp(self) -> None:
        super().setUp()
        self.image = old_ledger(numbers_up_to(2100), 3000)
        self.write(OLD, self.image)

    def behind(self, is_done: bool, what: str) -> None:
        made = self.home / COPY
        self.assertEqual(made.exists(), is_done, what)
        if is_done:
            self.assertEqual(made.read_bytes(), copied(self.image, made.read_bytes()), what)
            made.unlink()

    def test_a_copy(self) -> None:
        self.assertEqual(set(self.try_sizes(("copy-ledger", OLD, COPY), b"", 20)), {0})

    def test_a_large_copy(self) -> None:
        """It takes no more memory than a small one."""
        words = ("copy-ledger", OLD, COPY)
        enough, _ = self.enough(words, b"", least_to_start(self.program))
        self.image = old_ledger(numbers_up_to(35_000), 40_000)
        self.write(OLD, self.image)
        self.assertIsNone(self.try_size(words, b"", enough + NEAR), "a large copy takes more memory")


class CallCase(CopyCase):
    """Copies in a folder of their own, whose calls are traced."""

    weight = 6

    def setUp(self) -> None:
        super().setUp()
        self.made = self.home / FOLDER / COPY
        os.mkdir(self.made.parent)

    def traced(self, *changes: str, new: Word = NEW) -> tuple[Ended, list[Call]]:
        """How a copy ends in which strace makes these changes, and its calls."""
        return traced([self.program.path, "copy-ledger", OLD, new], self.home,
                      self.folder() / "trace", OLD, changes)

    def made_of(self, image: bytes) -> tuple[list[Call], bytes]:
        """The calls of a copy of these bytes, and the whole copy, which is removed again."""
        self.old.write_bytes(image)
        ended, calls = self.traced()
        self.assert_done(ended, "under strace")
        whole = self.made.read_bytes()
        self.assertEqual(whole, copied(image, whole))
        self.made.unlink()
        return calls, whole


class Calls(CallCase):
    """Their order, and each one that fails."""

    def test_order(self) -> None:
        """The ledger is opened to be read, locked and read to its end before the copy is made, and
        never written; the copy is made and kept in order, and its first byte is right at first."""
        for count, room in ((3, 7), (0, 3), (2100, 5000)):
            image, what = old_ledger(numbers_up_to(count), room), f"{count} of {room}"
            calls, whole = self.made_of(image)
            opens, locks, made = (places(calls, names, file) for names, file in (
                (OPENS, OLD), (("flock",), OLD), (OPENS, NEW)))
            self.assertEqual((len(opens), len(locks), len(made)), (1, 1, 1), what)
            read = places(calls[: made[0]], READS, OLD)
            self.assertTrue(read and opens[0] < locks[0] < read[0], what)
            self.assertIn("O_RDONLY", calls[opens[0]].words, what)
            self.assertIn("LOCK_EX|LOCK_NB", calls[locks[0]].words, what)
            self.assertEqual(covered([calls[at] for at in read]), [range(len(image))], what)
            self.assertEqual(places(calls, WRITES, OLD), [], f"{what}: the ledger is written")
            assert_kept(calls, NEW, FOLDER, len(whole), range(1))

    def test_syncs(self) -> None:
        """All of a copy but a last write of one byte is synced before that one."""
        for count, room in ((3, 7), (2100, 5000)):
            calls, _ = self.made_of(old_ledger(numbers_up_to(count), room))
            written, synced = places(calls, WRITES, NEW), places(calls, SYNCS, NEW)
            self.assertEqual(len(calls[written[-1]].span), 1, "the last write")
            self.assertTrue(any(written[-2] < it < written[-1] for it in synced), "no sync before")

    def test_each_call_that_fails(self) -> None:
        """Where it fails, and each later one of its name, there is no copy, and a line says which
        file is at fault."""
        image = old_ledger(numbers_up_to(3), 7)
        calls, _ = self.made_of(image)
        for call in calls:
            ended, changed = self.traced(f"inject={call.name}:error=EIO:when={call.count}+")
            first = next((it for it in changed if it.is_changed), None)
            self.assertEqual(first and (first.name, first.count, first.file),
                             (call.name, call.count, call.file), str(call))
            self.assert_done(ended, str(call), self.fault_of(call))
            self.assertEqual(self.old.read_bytes(), image, str(call))
            self.assertEqual([*self.made.parent.iterdir()], [], str(call))
        self.tells(", ".join(map(str, calls)))

    def fault_of(self, call: Call) -> str:
        if call.file != OLD:
            return CANNOT_MAKE
        return CANNOT_OPEN if call.name in (*OPENS, "flock") else FAILED

    def test_locks(self) -> None:
        """While it is copied, no run of `issue` opens the ledger, nor the copy."""
        image = old_ledger(numbers_up_to(3), 7)
        self.old.write_bytes(image)
        with ThreadPoolExecutor() as pool:
            ended = pool.submit(self.traced, "inject=pwrite64:delay_enter=2000000:when=2")
            deadline = time.monotonic() + SECONDS
            while not self.made.exists() or self.made.stat().st_size == 0:
                self.assertLess(time.monotonic(), deadline, "no file is made")
                time.sleep(0.001)
            for path in (OLD, NEW):
                words = ("issue", BASE, LOADING, FIRST, "1", "--ledger", self.home / path)
                self.assert_done(self.program.run(*words), path, CANNOT_OPEN)
            self.assert_done(ended.result()[0], "under strace")
        self.assertEqual(self.made.read_bytes(), copied(image, self.made.read_bytes()))


class LeftCase(CallCase):
    """What is left under the name of a copy: the whole copy, or no ledger of either version."""

    def takers(self, made: Path) -> list[tuple[Sequence[Word], str]]:
        """The commands that take ledgers, and how each refuses what is none."""
        return [(("issue", BASE, LOADING, FIRST, "1", "--ledger", made), "ledger: damaged"),
                (("issue", BASE, LOADING, FIRST, "1", "--again", "--ledger", made),
                 "ledger: damaged"),
                (("copy-ledger", made, "another"), FAILED), (("show", "ledger", made), "")]

    def refuses(self, words: Sequence[Word], fault: str, what: str) -> None:
        ended = self.program.run(*words, folder=self.home)
        self.assertFalse((self.home / "another").exists(), what)
        self.assertEqual((ended.status, ended.output), (1, b""), f"{what}: {words[0]}: {ended}")
        wanted = fault or r"ledger refused at \d+: Damaged"
        self.assertRegex(ended.faults.decode(), rf"\A{wanted}\n\Z", f"{what}: {words[0]}")

    def judge(self, made: Path, image: bytes, what: str) -> str:
        self.assertEqual(self.old.read_bytes(), image, what)
        if not made.exists():
            return "absent"
        left = made.read_bytes()
        is_whole = identity_of(left) is not None and left == copied(image, left)
        if not is_whole:
            for words, fault in self.takers(made):
                self.refuses(words, fault, f"{what}: {left[:64].hex()}")
            self.assertEqual(made.read_bytes(), left, f"{what}: refused and changed")
        made.unlink()
        return "whole" if is_whole else "refused"


class Kills(LeftCase):
    """A copy that is killed in a call, before the system does it."""

    def test_each_call(self) -> None:
        for count, room in ((5, 7), (0, 3), (1, 1), (2100, 5000)):
            image = old_ledger(numbers_up_to(count), room)
            calls, _ = self.made_of(image)
            found = Counter[str]()
            for call in self.some(calls):
                ended, made = self.traced(f"inject={call.name}:signal=KILL:when={call.count}")
                self.assertEqual(ended.status, -signal.SIGKILL, f"killed in {call}")
                self.assertEqual((made[-1].name, made[-1].count, made[-1].file),
                                 (call.name, call.count, call.file), f"killed in {call}")
                found[self.judge(self.made, image, f"killed in {call} ({call.count})")] += 1
            self.assertEqual(set(found), {"absent", "refused", "whole"}, "what kills leave")
            self.tells(", ".join(f"{times} {it}" for it, times in found.items()))

    def some(self, calls: Sequence[Call]) -> list[Call]:
        """Each call; of a copy of many numbers, each of them a write, some in the middle."""
        if len(calls) <= 3 * ENDS:
            return [*calls]
        return [*calls[:ENDS], *self.chance.sample(calls[ENDS:-ENDS], ENDS), *calls[-ENDS:]]

    def test_at_any_moment(self) -> None:
        """By the clock, and stopped for a while before it."""
        image, found = old_ledger(numbers_up_to(4000), 6000), Counter[str]()
        self.old.write_bytes(image)
        gap: Optional[float] = None
        for _ in range(40 * self.times):
            began = time.monotonic()
            process = subprocess.Popen(["dukpt", "copy-ledger", OLD, NEW], cwd=self.home,
                                       executable=str(self.program.path), stdin=subprocess.DEVNULL)
            if gap is None:
                self.assertEqual(process.wait(SECONDS), 0)
                gap = time.monotonic() - began
            else:
                time.sleep(self.chance.uniform(0, 1.2 * gap))
                if self.chance.random() < 0.3:
                    process.send_signal(signal.SIGSTOP)
                    if self.made.exists() and process.poll() is None:
                        words = ("issue", BASE, LOADING, FIRST, "1", "--ledger", NEW)
                        ended = self.program.run(*words, folder=self.home)
                        self.assertIn(ended.faults.decode()[:-1],
                                      (CANNOT_OPEN, "ledger: damaged", f"{FIRST}: issued"))
                process.kill()
                process.wait(SECONDS)
            found[self.judge(self.made, image, "killed by the clock")] += 1
        self.tells(", ".join(f"{times} {it}" for it, times in found.items()))

    def test_in_its_removal(self) -> None:
        """The file system is full behind these pages. The call that would remove the copy kills."""
        image = old_ledger(numbers_up_to(2100), 5000)
        self.old.write_bytes(image)
        needed = -(-RECORD * 5001 // PAGE)
        for pages in sorted({1, needed // 2, needed // 2 + 1, needed - 1}):
            small, what = SmallFiles(self.folder(), pages), f"{pages} of {needed} pages"
            self.addCleanup(small.close)
            ended, _ = self.traced(*(f"inject={it}:signal=KILL" for it in REMOVES),
                                   new=small.folder / COPY)
            self.assertEqual(ended.status, -signal.SIGKILL, f"{what}: it removes nothing")
            self.assertEqual(self.judge(small.folder / COPY, image, what), "refused", what)


class Losses(LeftCase):
    """A copy whose power is lost. A disk may leave any bytes then where it was written since its
    last sync: also of one write, which may be torn."""

    def test_any_bytes_since_a_sync(self) -> None:
        """What is left is no ledger of either version, or one with all numbers: for each value of
        the byte that is written last, and for many bytes of what was written before."""
        found = Counter[str]()
        for count, room in ((1, 1), (5, 7), (0, 2)):
            image = old_ledger(numbers_up_to(count), room)
            calls, whole = self.made_of(image)
            for state in unsynced_of(calls, NEW, whole):
                for left in state.left(self.chance):
                    what = f"{count} of {room}: {state}"
                    found[self.judge_lost(left, numbers_up_to(count), what)] += 1
        self.assertEqual(set(found), {"refused", "whole"})
        self.tells(", ".join(f"{times} {it}" for it, times in found.items()))

    def judge_lost(self, left: bytes, numbers: Sequence[int], what: str) -> str:
        """That it keeps what the ledger does, or is refused by one of what takes ledgers."""
        kept = opened(left) if identity_of(left) is not None else Refusal.DAMAGED
        if isinstance(kept, Refusal):
            self.made.write_bytes(left)
            words, fault = self.chance.choice(self.takers(self.made))
            self.refuses(words, fault, f"{what}: {left.hex()}")
            self.made.unlink()
            return "refused"
        self.assertEqual(numbers_of(kept), list(numbers), f"{what}: another ledger: {left.hex()}")
        return "whole"
