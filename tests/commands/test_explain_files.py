"""`--explain` over files and streams: what the system says of a file that is refused, and what ends a
service or a batch. What files hold stands in test_explain_contents."""
from __future__ import annotations

import fcntl
import os
import re
import stat
from collections import Counter
from pathlib import Path
from typing import Sequence

from ..support.commands.everyday_rows import BASE, FIRST, RIGHT, SERIAL
from ..support.commands.explain_case import EXPLAIN, ISSUE, SCRIPT, WITHOUT_RIGHTS, ExplainCase
from ..support.commands.explained import (
    A_FOLDER, A_JOURNAL, A_LEDGER, A_LOG, A_NEW_FILE, AN_OLD_LEDGER, IN_USE, MISSING, MOST_PATH,
    NO_FOLDER, NO_PERMISSION, OTHER, READABLE, READ_BEFORE, THERE, told_path)
from ..support.formats.bank import BANK, LONGEST
from ..support.formats.checked_journal import HEADER, blank, journal_of
from ..support.formats.journal_records import RECORD as JOURNAL_RECORD
from ..support.formats.ledger_file import ledger_image
from ..support.formats.log_file import RECORD, log_image, record
from ..support.models.model_journal import payments_of_all
from ..support.program import Ended, Limits, spoken
from ..support.service.client import payments
from ..support.service.service import Service
from ..support.system.little_memory import AMPLE, OUT_OF_MEMORY, least_to_start
from ..support.system.small_files import PAGE, SmallFiles
from .test_everyday_references import names_of, references_of

# Commands over a file whose name stands behind them, with the fault where it is not opened or read, and
# what the explanation calls it.
READERS = (
    (["serve"], "config: cannot read", "CONFIG"), (["run"], "config: cannot read", "CONFIG"),
    (["run", "bank.toml"], "script: cannot read", "SCRIPT"),
    (["show", "log"], "log: cannot read", "WHAT"),
    (["show", "journal"], "journal: cannot read", "WHAT"),
    (["show", "ledger"], "ledger: cannot read", "WHAT"),
)
# Behind the name of the file stand these words.
LOCKERS = ((["serve", "bank.toml", "--log"], [], "log: cannot open", "log", A_LOG),
           (["serve", "bank.toml", "--journal"], [], "journal: cannot open", "journal", A_JOURNAL),
           (["grow-journal"], ["3"], "journal: cannot open", "journal", A_JOURNAL),
           (ISSUE, [], "ledger: cannot open", "ledger", A_LEDGER))


def at_fault(called: str, path: str) -> str:
    """What is at fault, with its path, which is not told where it is empty or long."""
    return f"{called} {told_path(path)}" if path and told_path(path) else called


def reader_words(words: list[str], name: str) -> list[str]:
    """`run` has a script behind its configuration."""
    return [*words, name, SCRIPT] if words == ["run"] else [*words, name]


class Refused(ExplainCase):
    """Files that are not opened or read."""

    def refused(self, name: str, reason: str, front: Sequence[str] = ()) -> None:
        """A file to be read."""
        for words, fault, called in READERS:
            line = f"{at_fault(called, name)}: {reason}; wanted: {READABLE}"
            self.explained(reader_words(words, name), fault, line, front=front)
        about = at_fault("BDK", f"@{name}" if name else "")
        line = f"{about}: {reason}; wanted: {READABLE}"
        self.explained(["derive", f"@{name}", SERIAL], "BDK: cannot read", line, front=front)

    def refused_lock(self, name: str, reason: str, front: Sequence[str] = ()) -> None:
        """A file to be opened and locked."""
        for words, behind, fault, called, wanted in LOCKERS:
            line = f"{at_fault(called, name)}: {reason}; wanted: {wanted}"
            self.explained([*words, name, *behind], fault, line, front=front)

    def test_reasons(self) -> None:
        (self.home / "loop").symlink_to("loop")
        (self.home / "gone").symlink_to("nowhere")
        for name, reason in (("missing", MISSING), ("", MISSING), ("gone", MISSING), ("logs", A_FOLDER),
                             (".", A_FOLDER), ("/", A_FOLDER), ("missing/it", MISSING), ("loop", OTHER),
                             ("bank.toml/it", OTHER), ("x" * 300, OTHER), ("x" * 3000, OTHER)):
            self.refused(name, reason)
            self.refused_lock(name, reason)

    def test_paths(self) -> None:
        """Each stands as it is, but for control characters and what is too long."""
        for name in ("a b", "\u00e9", "\u20ac", "\U0001f511", "a\nb: c", "\x01\x1b[2J\x7f", "\x80\x9b",
                     "\\x0A", "\u00a0", "./" * (MOST_PATH // 2 - 1) + "it", "./" * (MOST_PATH // 2) + "it"):
            self.refused(name, MISSING)
            self.refused_lock(name, MISSING)

    def test_keys(self) -> None:
        """A path that may be a key, a PIN or a PAN is told nowhere; one that cannot be one is."""
        for key in (BASE, BASE.lower(), BASE[:16], BASE + BASE[:16]):
            self.assertEqual(at_fault("BDK", f"@{key}"), "BDK")
            self.refused(key, MISSING)
            self.refused_lock(key, MISSING)
            self.explained(["kcv", BASE, f"@{key}"], "KEY: cannot read", f"KEY 2: {MISSING}; wanted: {READABLE}")
            self.write(key, b"it")
            line = f"BDK: {len(key)} bytes; wanted: 32 hexadecimal digits"
            if len(key) != 32:
                self.explained(["derive", key, SERIAL], "BDK refused", line)
            (self.home / key).unlink()
        for digits in ("1234", "4012345678909", "0123456789012345678"):
            self.assertEqual(at_fault("BDK", f"@{digits}"), "BDK")
            self.refused(digits, MISSING)
        for name in (BASE[:-1], BASE + "0", BASE[:-1] + "g", f"./{BASE}", BASE[8:16],
                     "123", "0" * 20, BASE + BASE):
            self.assertEqual(at_fault("BDK", f"@{name}"), f"BDK @{name}")
            self.refused(name, MISSING)

    def test_a_read_that_fails(self) -> None:
        """It can be opened."""
        self.refused("/proc/self/mem", OTHER)

    def test_rights(self) -> None:
        front = WITHOUT_RIGHTS if os.geteuid() == 0 else ()
        (self.home / "it").write_bytes(BANK)
        (self.home / "it").chmod(0)
        self.refused("it", NO_PERMISSION, front)
        self.refused_lock("it", NO_PERMISSION, front)
        (self.home / "log").write_bytes(bytes(3 * RECORD))
        (self.home / "log").chmod(0o444)
        self.refused_lock("log", NO_PERMISSION, front)
        closed = self.home / "closed"
        closed.mkdir()
        (closed / "it").write_bytes(BANK)
        closed.chmod(0)
        self.refused("closed/it", NO_PERMISSION, front)
        self.refused_lock("closed/it", NO_PERMISSION, front)
        closed.chmod(0o700)

    def test_in_use(self) -> None:
        """By any process that has a lock on it; the file stays as it is, and is free behind that."""
        image = bytes(3 * RECORD)
        self.write("log", image)
        with open(self.home / "log", "rb") as other:
            fcntl.flock(other, fcntl.LOCK_EX)
            self.refused_lock("log", IN_USE)
            fcntl.flock(other, fcntl.LOCK_UN)
            fcntl.flock(other, fcntl.LOCK_SH)
            self.refused_lock("log", IN_USE)
        self.assertEqual((self.home / "log").read_bytes(), image)
        self.assertEqual(self.run_with(["serve", "bank.toml", "--log", "log", EXPLAIN]), Ended(0, b"", b""))

    def test_a_ledger_that_is_copied(self) -> None:
        """It is one of version 1, and is only read."""
        self.write("it", log_image([], 3))
        with open(self.home / "it", "rb") as other:
            fcntl.flock(other, fcntl.LOCK_EX)
            for name, reason in (("missing", MISSING), ("logs", A_FOLDER), ("it", IN_USE)):
                line = f"ledger {name}: {reason}; wanted: {AN_OLD_LEDGER}"
                self.explained(["copy-ledger", name, "new"], "ledger: cannot open", line)
        self.assertFalse((self.home / "new").exists())

    def test_in_use_by_a_service(self) -> None:
        """It goes on, and its log is as it has to be."""
        self.write("log", bytes(3 * RECORD))
        two = payments(2)
        service = Service(self.program, self.home, "serve", "bank.toml", "--log", "log", EXPLAIN)
        self.addCleanup(service.release)
        service.ask([two[0].frame])
        self.refused_lock("log", IN_USE)
        service.ask([two[1].frame])
        answers = b"".join(it.answer for it in two)
        self.assertEqual(service.end(), Ended(0, answers, b""))
        self.assertEqual((self.home / "log").read_bytes(), log_image([it.number for it in two], 3))

    def test_in_use_by_a_service_over_a_journal(self) -> None:
        two = payments(2)
        self.write("journal", blank(2))
        service = Service(self.program, self.home, "serve", "bank.toml", "--journal", "journal", EXPLAIN)
        self.addCleanup(service.release)
        service.ask([two[0].frame])
        self.refused_lock("journal", IN_USE)
        service.ask([two[1].frame])
        self.assertEqual(service.end(), Ended(0, b"".join(it.answer for it in two), b""))
        kept = journal_of([[it] for it in payments_of_all(two)], 0)
        self.assertEqual((self.home / "journal").read_bytes(), kept)

    def test_references(self) -> None:
        """Of several references the one is explained that could not be read."""
        self.write("it", BASE.encode())
        for words, about, reason in (
            (["kcv", "@missing"], "KEY @missing", MISSING),
            (["kcv", "@it", "@missing"], "KEY 2 @missing", MISSING),
            (["kcv", "@it", "@logs", "@missing"], "KEY 2 @logs", A_FOLDER),
            (["kcv", BASE, "@it", "@missing", "@logs"], "KEY 3 @missing", MISSING),
            (["kcv", "@-", "@-"], "KEY 2 @-", READ_BEFORE),
            (["kcv", "@-", "@missing"], "KEY 2 @missing", MISSING),
            (["kcv", "@-", "@it", "@/dev/stdin"], "KEY 3 @/dev/stdin", READ_BEFORE),
            (["pin", "@it", "4012345678909", "--key", "@missing"], "KEY @missing", MISSING),
            (["wrap", "@it", "x", "@logs", "x"], "KEY @logs", A_FOLDER),
            (["translate", "@it", "@it", "@-", "x", "@-"], "ZONE @-", READ_BEFORE),
            ([*ISSUE[:2], "@missing", *ISSUE[3:], "x"], "LOADING @missing", MISSING),
            (["show", "image", "@missing"], "WHAT @missing", MISSING),
        ):
            fault = f"{about.split()[0]}: cannot read"
            self.explained(words, fault, f"{about}: {reason}; wanted: {READABLE}", given=BASE.encode())

    def test_an_input_that_cannot_be_read(self) -> None:
        folder = os.open(self.home, os.O_RDONLY)
        self.addCleanup(os.close, folder)
        line = f"BDK @-: {OTHER}; wanted: {READABLE}"
        self.explained(["derive", "@-", SERIAL], "BDK: cannot read", line, given=folder)

    def test_references_that_are_refused(self) -> None:
        """Of several the one is explained that was not read, and none behind it that cannot be read either."""
        self.write("it", BASE.encode())
        self.write("end", b"0" * 4096 + b"\r\n")
        self.write("long", b"0" * 4097)
        self.write("bytes", b"\xff")
        self.write("large", b"0" * (LONGEST + 1))
        for name, fault, rest in (("long", "too long", "a longer line; wanted: at most 4096 bytes"),
                                  ("large", "too long", "a longer line; wanted: at most 4096 bytes"),
                                  ("bytes", "not UTF-8", "other bytes; wanted: a line of UTF-8")):
            for words, called in (
                (["kcv", f"@{name}"], "KEY"),
                (["kcv", BASE, f"@{name}", "@missing", f"@{name}"], "KEY 2"),
                (["kcv", "@it", "@end", f"@{name}", "@missing"], "KEY 3"),
                (["pin", "1234", f"@{name}"], "PAN"),
                (["show", "frame", f"@{name}"], "WHAT"),
            ):
                self.explained(words, f"{called.split()[0]}: {fault}", f"{called} @{name}: {rest}")
            given = (self.home / name).read_bytes()
            for last in ("@missing", f"@{name}"):
                words = ["kcv", "@it", "@-", last]
                self.explained(words, f"KEY: {fault}", f"KEY 2 @-: {rest}", given=given)
        self.explained(["derive", "@/dev/zero", SERIAL], "BDK: too long",
                       "BDK @/dev/zero: a longer line; wanted: at most 4096 bytes")

    def test_long_files(self) -> None:
        self.write("long", b"#" * (LONGEST + 1))
        for words, fault, line in (
            (["run", "long", SCRIPT], "config: too long",
             "CONFIG long: a longer file; wanted: at most 1048576 bytes"),
            (["run", "bank.toml", "long"], "script: too long",
             "SCRIPT long: a longer file; wanted: at most 1048576 bytes"),
            (["show", "log", "/dev/zero"], "log: too long",
             "WHAT /dev/zero: a longer file; wanted: at most 1073741824 bytes"),
            (["show", "journal", "/dev/zero"], "journal: too long",
             "WHAT /dev/zero: a longer file; wanted: at most 1073741824 bytes"),
            (["show", "ledger", "/dev/zero"], "ledger: too long",
             "WHAT /dev/zero: a longer file; wanted: at most 1073741824 bytes"),
        ):
            self.explained(words, fault, line)

    def test_no_random_bytes(self) -> None:
        """No random device, or an empty one, which can be opened."""
        self.write("ledger", ledger_image([], 2))
        for way, reason in (("mount -t tmpfs none /dev", MISSING),
                            ("mount --bind /dev/null /dev/urandom", OTHER)):
            front = ["unshare", "--user", "--map-root-user", "--mount", "sh", "-c",
                     f'{way} && exec "$@"', "sh"]
            line = f"/dev/urandom: {reason}; wanted: a device that can be read"
            self.explained([*ISSUE, "ledger"], "padding: cannot read", line, front=front)
            for words in (["new-journal", "new", "3"], ["copy-journal", "missing", "new"],
                          ["new-ledger", "new", "3"]):
                self.explained(words, "identity: cannot read", line, front=front)


class Names(ExplainCase):
    """Arguments that may be references, and are the names of files: the `@` before them was forgotten."""

    def told_of(self, words: Sequence[str], front: Sequence[str] = ()) -> str:
        """The line that explains the fault of these words."""
        ended = self.run_with([EXPLAIN, *words], front=front)
        self.assertEqual((ended.status, ended.output, ended.faults.count(b"\n")), (1, b"", 2), spoken(words))
        return ended.faults.decode().splitlines()[1]

    def test_each_argument(self) -> None:
        """Where there is such a file it is told of each that may be a reference and is refused, and of no
        other."""
        count = 0
        for command, right in RIGHT.items():
            secrets = references_of(command)
            for at, name in names_of(command):
                words = [EXPLAIN, *right[:at], "it", *right[at + 1 :]]
                self.write("it", b"it")
                there = self.run_with(words)
                (self.home / "it").unlink()
                missing = self.run_with(words)
                if (at, name) in secrets or (name == "TEXT" and missing.status == 1):
                    told = rf"\A(.*\n{name}(?: \d)?: 2 bytes), a file of that name is there: @it(; wanted: .*\n)\Z"
                    self.assertRegex(there.faults.decode(), told, spoken(words))
                    before, behind = re.findall(told, there.faults.decode())[0]
                    self.assertRegex(missing.faults.decode(), rf"\A{before}(, wrong at \d)?{behind}\Z")
                    count += 1
                else:
                    self.assertEqual(there, missing, spoken(words))
        self.tells(f"{count} arguments")

    def test_names(self) -> None:
        """Of what can be read, or may be waited for; control characters stand as in other paths."""
        (self.home / "folder").mkdir()
        os.mkfifo(self.home / "pipe")
        for name in ("a b", "\u00e9", "a\nb: c", "\x01\x1b[2J\x7f", "\x9b", "folder/it", "./it"):
            self.write(name, b"")
        for name in ("a b", "\u00e9", "a\nb: c", "\x01\x1b[2J\x7f", "\x9b", "folder/it", "./it", "pipe",
                     "/dev/null", str(self.home / "it"), "./" * (MOST_PATH // 2 - 1) + "it"):
            line = f"BDK: {len(name.encode())} bytes, a file of that name is there: @{told_path(name)}; wanted: "
            self.assertTrue(self.told_of(["derive", name, SERIAL]).startswith(line), name)

    def test_what_is_none(self) -> None:
        """What is no file, or cannot be read, stands behind `@` for standard input, or is too long."""
        self.write("-", b"")
        self.write("it", b"")
        (self.home / "closed").write_bytes(b"")
        (self.home / "closed").chmod(0)
        (self.home / "gone").symlink_to("nowhere")
        front = WITHOUT_RIGHTS if os.geteuid() == 0 else ()
        for name in ("-x", "logs", "/", "missing", "gone", "closed", "", "./" * (MOST_PATH // 2) + "it"):
            self.assertNotIn("file of that name", self.told_of(["derive", "--", name, SERIAL], front), name)
        self.assertNotIn("file of that name", self.told_of(["derive", "-", SERIAL]))

    def test_what_a_reference_holds(self) -> None:
        """It is never told, also where it is itself the name of a file."""
        self.write("other", b"")
        rest = "wanted: 32 hexadecimal digits"
        self.assertEqual(self.told_of(["derive", "other", SERIAL]),
                         f"BDK: 5 bytes, a file of that name is there: @other; {rest}")
        count = 0
        for command, right in RIGHT.items():
            for at, name in references_of(command):
                self.write("it", b"other\n")
                words = [*right[:at], "@it", *right[at + 1 :]]
                for chosen, given in ((words, b""), ([*right[:at], "@-", *right[at + 1 :]], b"other\n")):
                    ended = self.run_with([EXPLAIN, *chosen], given)
                    self.assertEqual((ended.status, ended.output), (1, b""), spoken(chosen))
                    told = ended.faults.decode().splitlines()[-1]
                    self.assertRegex(told, rf"\A{name}(?: \d)?: 5 bytes(, wrong at \d)?; wanted: ", spoken(chosen))
                    self.assertNotIn("other", told.partition("; wanted: ")[0], spoken(chosen))
                    count += 1
        self.tells(f"{count} references")

    def test_several_references(self) -> None:
        """Of several arguments of one name, and beside words that are no references."""
        self.write("it", b"other\n")
        self.write("other", b"")
        rest = "wanted: 32 or 48 hexadecimal digits"
        there = ", a file of that name is there: @other"
        for words, line in ((["other", "@it"], f"KEY 1: 5 bytes{there}; {rest}"),
                            (["@it", "other"], f"KEY 1: 5 bytes, wrong at 0; {rest}"),
                            ([BASE, "@it", "other"], f"KEY 2: 5 bytes, wrong at 0; {rest}"),
                            ([BASE, "other", "@it"], f"KEY 2: 5 bytes{there}; {rest}"),
                            (["@it"], f"KEY: 5 bytes, wrong at 0; {rest}")):
            self.assertEqual(self.told_of(["kcv", *words]), line, spoken(words))

    def test_paths_and_numbers_that_references_hold(self) -> None:
        """Nor is the path of a log, or a COUNT."""
        for kind in ("log", "journal", "ledger"):
            self.write("it", b"missing\n")
            self.assertEqual(self.told_of(["show", kind, "@it"]), f"WHAT: {MISSING}; wanted: {READABLE}")
            self.assertEqual(self.told_of(["show", kind, "missing"]),
                             f"WHAT missing: {MISSING}; wanted: {READABLE}")
        words = ["issue", BASE, BASE, FIRST, "it", "--ledger", "ledger"]
        self.write("it", b"700000\n")
        last = "wanted: 1 to 421753, as many as are left in IKSN's key set"
        for word, found in (("700000", "700000"), ("@it", "6 bytes")):
            words[4] = word
            self.assertEqual(self.told_of(words), f"COUNT: {found}; {last}")


class Makers(ExplainCase):
    """Files that are not made. To learn why, the program makes one once more: what it made is gone then,
    and what was there is as it was."""

    def setUp(self) -> None:
        super().setUp()
        self.write("journal", blank(3))
        self.write("there", b"there")
        (self.home / "folder").mkdir()
        (self.home / "link").symlink_to("there")
        (self.home / "broken").symlink_to("nowhere")
        (self.home / "loop").symlink_to("loop")
        os.mkfifo(self.home / "pipe")

    def state(self) -> dict[str, tuple[object, ...]]:
        """What is in the folder: of a file and a link also when it was changed last, in any way."""
        return {os.fspath(it.relative_to(self.home)): about(it) for it in self.home.rglob("*")}

    def not_made(self, name: str, reason: str, front: Sequence[str] = (), **how: object) -> None:
        for store, words in (("journal", ["new-journal", name, "3"]),
                             ("journal", ["copy-journal", "journal", name]),
                             ("ledger", ["new-ledger", name, "3"])):
            before = self.state()
            line = f"{at_fault(store, name)}: {reason}; wanted: {A_NEW_FILE}"
            self.explained(words, f"{store}: cannot make", line, front=front, **how)
            changed = sorted({it[0] for it in before.items() ^ self.state().items()})
            self.assertEqual(changed, [], f"{spoken(words)}: made, changed or removed")

    def test_reasons(self) -> None:
        for name, reason in (("there", THERE), ("folder", THERE), ("link", THERE), ("broken", THERE),
                             ("loop", THERE), ("pipe", THERE), ("journal", THERE), ("bank.toml", THERE),
                             ("", NO_FOLDER), ("missing/it", NO_FOLDER), ("there/it", NO_FOLDER),
                             ("broken/it", NO_FOLDER), ("x" * 300, OTHER), ("loop/it", OTHER)):
            self.not_made(name, reason)

    def test_rights(self) -> None:
        front = WITHOUT_RIGHTS if os.geteuid() == 0 else ()
        (self.home / "folder" / "it").write_bytes(b"it")
        for mode in (0o500, 0o600, 0):
            (self.home / "folder").chmod(mode)
            self.not_made("folder/new", NO_PERMISSION, front)
            if mode != 0o500:
                self.not_made("folder/it", NO_PERMISSION, front)
        (self.home / "folder").chmod(0o700)

    def test_no_room(self) -> None:
        """It can be made, and does not get its size, or its bytes: no reason is known, and none is left."""
        for size in (0, 1, HEADER + 3 * JOURNAL_RECORD - 1):
            self.not_made("new", OTHER, limits=Limits(file_size=size))
            self.not_made("folder/new", OTHER, limits=Limits(file_size=size))
        small = SmallFiles(self.folder(), 1)
        self.addCleanup(small.close)
        self.write("journal", blank(2 * PAGE // JOURNAL_RECORD))
        new = os.fspath(small.folder / "new")
        for store, words in (("journal", ["new-journal", new, str(2 * PAGE // JOURNAL_RECORD)]),
                             ("journal", ["copy-journal", "journal", new]),
                             ("ledger", ["new-ledger", new, str(2 * PAGE // JOURNAL_RECORD)])):
            line = f"{store} {new}: {OTHER}; wanted: {A_NEW_FILE}"
            self.explained(words, f"{store}: cannot make", line)
            self.assertEqual(([*small.folder.iterdir()], small.free()), ([], 1), spoken(words))

    def test_calls(self) -> None:
        """Only a file that was made is removed, and never one that was there."""
        trace = self.home / "trace"
        for name, change, wanted in (("there", "none", 2 * ["refused"]), ("new", "none", ["made"]),
                                     ("newer", "ftruncate:error=EFBIG", 2 * ["made", "removed"])):
            self.run_with(["new-journal", name, "3", EXPLAIN], front=[
                "strace", "-o", os.fspath(trace), "-e", f"trace={','.join((*MAKES, *REMOVES))},ftruncate",
                *(["-e", f"inject={change}"] if change != "none" else [])])
            found = [step_of(*it) for it in CALL.findall(trace.read_text()) if f'"{name}"' in it[1]]
            self.assertEqual(found, wanted, name)
        self.assertEqual((self.home / "there").read_bytes(), b"there")


MAKES, REMOVES = ("open", "openat", "creat"), ("unlink", "unlinkat", "rename", "renameat2", "truncate")
CALL = re.compile(r"^(\w+)\((.*)\) += (-?\d+)", re.MULTILINE)


def step_of(call: str, words: str, gave: str) -> str:
    """What a call does with a file to be made."""
    if call in MAKES and "O_CREAT|O_EXCL" in words:
        return "made" if int(gave) >= 0 else "refused"
    return "removed" if call in ("unlink", "unlinkat") else call


def about(path: Path) -> tuple[object, ...]:
    found = path.lstat()
    if stat.S_ISDIR(found.st_mode):
        return found.st_mode, found.st_ino
    data = path.read_bytes() if stat.S_ISREG(found.st_mode) else b""
    return (found.st_mode, found.st_ino, found.st_nlink, found.st_mtime_ns, found.st_ctime_ns, data)


class Ends(ExplainCase):
    """What ends a service; its answers are the same."""

    def test_ends(self) -> None:
        two, cut = payments(2), payments(3)[2].frame[:9]
        stream, answers = b"".join(it.frame for it in two), b"".join(it.answer for it in two)
        self.write("log", bytes(RECORD * 10))
        for words in (["serve", "bank.toml"], ["serve", "bank.toml", "--log", "log"]):
            for given, fault, line in (
                (cut, "serve: input ends in a frame", "input: a part of a frame; wanted: whole frames"),
                (b"\x00\x3f", "serve: frame too long",
                 "input: a length above 62; wanted: frames of requests"),
            ):
                self.write("log", bytes(RECORD * 10))
                ended = self.run_with([*words, EXPLAIN], stream + given)
                self.assert_ended(ended, 1, answers, f"{fault}\n{line}\n".encode(), spoken(words))
                if "--log" in words:
                    numbers = [it.number for it in two]
                    self.assertEqual((self.home / "log").read_bytes(), log_image(numbers, 10))
            ended = self.run_with([*words[:2], EXPLAIN], stream)
            self.assertEqual(ended, Ended(0, answers, b""))

    def test_a_read_that_fails(self) -> None:
        folder = os.open(self.home, os.O_RDONLY)
        self.addCleanup(os.close, folder)
        for words, fault, wanted in ((["serve", "bank.toml"], "serve: read failed", "frames"),
                                     (["kcv", "-"], "batch: read failed", "one item a line")):
            self.explained(words, fault, f"input: a read failed; wanted: {wanted}", given=folder)

    def test_streams_that_are_closed(self) -> None:
        """Neither log nor ledger are taken for them."""
        image, damaged = bytes(RECORD * 3), bytes(RECORD) + record(bytes(10))
        frame = payments(1)[0].frame
        for way in ("2>&-", ">&- 2>&-", "<&- >&- 2>&-"):
            for words, before in ((["serve", "bank.toml", "--log", "it"], damaged),
                                  ([*ISSUE, "it"], damaged), ([*ISSUE, "it"], bytes(17)),
                                  (["serve", "bank.toml", "--journal", "it"], damaged + b"\x00"),
                                  (["copy-journal", "it", "new"], damaged + b"\x00"),
                                  (["new-journal", "it", "3"], damaged), (["show", "journal", "it"], b"\x00"),
                                  (["new-ledger", "it", "3"], damaged),
                                  (["show", "ledger", "it"], b"\x00"),
                                  (["show", "log", "it"], damaged), (["run", "it", SCRIPT], b"x = 1\n"),
                                  (["run", "bank.toml", "it"], b"up\n"),
                                  (["derive", "@it", SERIAL], b"x\n")):
                self.write("it", before)
                self.assertEqual(self.in_bash([EXPLAIN, *words], way).status, 1, f"{spoken(words)} {way}")
                self.assertEqual((self.home / "it").read_bytes(), before, f"{spoken(words)} {way}")
        self.write("it", image)
        ended = self.in_bash(["serve", "bank.toml", "--log", "it", EXPLAIN], "2>&-", frame + b"\x00")
        self.assertEqual(ended, Ended(1, payments(1)[0].answer, b""))
        self.assertEqual((self.home / "it").read_bytes(), log_image([payments(1)[0].number], 3))


class Memory(ExplainCase):
    """With little memory a run with `--explain` ends as it has to, or says that it is out of memory; of
    arguments for which there is no memory no more is known."""

    weight = 4

    def test_little_memory(self) -> None:
        told = OUT_OF_MEMORY + b"memory: refused; wanted: more memory\n"
        least, tally = least_to_start(self.program), Counter[bytes]()
        self.write("long.toml", BANK.ljust(LONGEST, b"#"))
        self.write("bad.toml", BANK.replace(b"log = 100", b"log = 0").ljust(LONGEST, b"#"))
        for words in (["kcv", "x"], ["run", "bad.toml", SCRIPT], ["run", "long.toml", SCRIPT],
                      ["kcv", "@missing"], ["show", "log", "logs/of_31_bytes.log"],
                      ["show", "journal", "long.toml"], ["new-journal", "bank.toml", "3000"],
                      ["show", "ledger", "ledgers/changed_number.ledger"],
                      [*ISSUE, "logs/of_33_bytes.log"],
                      ["copy-journal", "logs/of_33_bytes.log", "new"],
                      ["serve", "bank.toml", "--journal", "logs/of_33_bytes.log"],
                      ["derive", *["0" * 50_000] * 4]):
            ample = self.run_with([EXPLAIN, *words], limits=Limits(memory=AMPLE))
            for _ in range(40 * self.times):
                size = least + self.chance.randrange(6 << 20)
                ended = self.run_with([EXPLAIN, *words], limits=Limits(memory=size))
                if ended != ample:
                    what = f"{spoken(words)[:60]} with {size >> 10} KiB: {ended}"
                    self.assertEqual((ended.status, ended.output), (1, b""), what)
                    self.assertIn(ended.faults, {told, OUT_OF_MEMORY, self.without_its_line(ample)}, what)
                    tally[ended.faults] += 1
        self.assertGreater(tally[told], 0, dict(tally))
        self.tells(f"out of memory {sum(tally.values())} times")

    def without_its_line(self, ended: Ended) -> bytes:
        """What is told where the configuration could not be read once more."""
        return re.sub(rb"(?m)^(CONFIG \S+): line \d+;", rb"\1: the line was not found;", ended.faults)
