"""The calls of each command on its files, each of them in its order: how a file is opened, the bytes that
each read asks for and each write has, and the syncs; over small files and over larger ones.

A command that reads a piece twice, or an entry at a time, takes other calls.
"""
from __future__ import annotations

import re
from typing import Sequence

from ..support.commands.everyday_rows import BASE, FIRST
from ..support.commands.issuing import Ledger, bytes_of, numbers_from
from ..support.formats.bank import BANK, SCRIPT
from ..support.formats.journal_records import RECORD
from ..support.formats.log_file import RECORD as NUMBER
from ..support.formats.log_file import log_image
from ..support.models.model_journal import payments_of_all
from ..support.program import spoken
from ..support.service.client import payments
from ..support.service.journal_case import JournalCase, alone, stream_of
from ..support.service.service_case import numbers_of
from ..support.standards.dukpt import SPENT, serial_text
from ..support.system.traced_files import OPENS, Call, traced
from .test_issue import LINE_LENGTH, passed_over

# What of the ways to open a file says whether it is read, written, made, cut or begun anew.
WAYS = re.compile(r"O_(?:RDONLY|WRONLY|RDWR|CREAT|EXCL|TRUNC|APPEND)")
# So many bytes a journal is read and written at once, so many a ledger is read, and so many a small
# read takes.
PIECE, LEDGER_PIECE, AHEAD = 1 << 16, 4096, 4096
# A file that is read to its end is first asked for so many bytes, and for twice as many each time.
FIRST_READ = 1 << 13
# The line of a reference is read in such pieces.
LINE_READ = 512
MADE = "O_RDWR|O_CREAT|O_EXCL"
# A file that a command makes.
COPY = "copy"
OUT = ("--out", COPY)
# An image of a terminal that has done nothing and keeps no key: version, IKSN, next counter, registers, past.
NEW_IMAGE = "02" + FIRST + "000001" + "0" * (32 * 21 + 162)


def steps_of(calls: Sequence[Call]) -> list[str]:
    """The calls on files, without what they read or wrote."""
    return [step_of(it) for it in calls if it.file]


def step_of(call: Call) -> str:
    """What a call asks for. Behind the descriptor the system gives the arguments, the bytes first."""
    words = call.words.split(", ")
    about = {"flock": words[-1], "ftruncate": words[-1], "read": words[-1], "write": words[-1],
             "pread64": " at ".join(words[-2:]), "pwrite64": " at ".join(words[-2:])}
    what = "|".join(WAYS.findall(call.words)) if call.name in OPENS else about.get(call.name, "")
    return f"{call.name} {call.file} {what}".strip()


class Device:
    """A file as a disk: what is asked of the system for it. A small read takes what is ahead too, up to a
    page, which is held until a write or a sync."""

    ahead = AHEAD

    def __init__(self, steps: list[str], name: str, size: int, way: str = "O_RDWR") -> None:
        self.steps, self.name, self.size, self.held = steps, name, size, range(0)
        self.steps += [f"openat {name} {way}", f"flock {name} LOCK_EX|LOCK_NB"]

    def read(self, at: int, end: int) -> None:
        for place in range(at, end, PIECE):
            count = min(PIECE, end - place)
            if place in self.held and place + count - 1 in self.held:
                continue
            taken = max(count, min(self.ahead, self.size - place))
            self.steps.append(f"pread64 {self.name} {taken} at {place}")
            if count < self.ahead:
                self.held = range(place, place + taken)

    def write(self, at: int, end: int) -> None:
        self.held = range(0)
        self.steps += [f"pwrite64 {self.name} {min(PIECE, end - place)} at {place}"
                       for place in range(at, end, PIECE)]

    def sync(self) -> None:
        self.held = range(0)
        self.steps.append(f"fdatasync {self.name}")

    def look_at(self, kept: int, record: int) -> None:
        """Pieces are read from the end on, until one has a byte that is not zero. From there on the last
        open record is looked for, and the last with a gate."""
        self.read_back(self.size, kept * record)
        if kept:
            self.read_back(kept * record, kept * record)
            self.read_back(kept * record, kept * record)

    def read_back(self, end: int, wanted: int) -> None:
        """Pieces from the end on, up to the one that has the wanted byte before this place."""
        while end:
            start = max(0, end - PIECE)
            self.read(start, end)
            if start < wanted:
                return
            end = start

    def start_log(self, kept: int) -> None:
        """All records are read, each for itself, and then those with numbers once more."""
        self.look_at(kept, NUMBER)
        self.sync()
        for records in (self.size // NUMBER, kept):
            for place in range(records):
                self.read(NUMBER * place, NUMBER * place + NUMBER)

    def use(self, place: int, record: int = NUMBER) -> None:
        """The body of a record is written and synced, and then its gate."""
        at = record * place
        for first, end in ((at + 1, at + record), (at, at + 1)):
            self.write(first, end)
            self.sync()

    def look_at_headed(self, kept: int, has_groups: bool) -> None:
        """The header is read; then as of a log, but that of the last open record of a journal, if
        that is not the header, it is read how many follow it in its group."""
        front = RECORD * (1 + kept)
        self.read(0, RECORD)
        self.read_back(self.size, front)
        self.read_back(front, front)
        if kept and has_groups:
            self.read(RECORD * kept + 2, RECORD * kept + 4)
        self.read_back(front, front)

    def look_at_journal(self, kept: int) -> None:
        self.look_at_headed(kept, True)

    def look_at_ledger(self, kept: int) -> None:
        self.look_at_headed(kept, False)

    def start_journal(self) -> None:
        self.start_headed(PIECE)

    def start_ledger(self) -> None:
        self.start_headed(LEDGER_PIECE)

    def start_headed(self, piece: int) -> None:
        """The header is read, and then all records once, in pieces."""
        self.sync()
        self.read(0, RECORD)
        for at in range(RECORD, self.size, piece):
            self.read(at, min(at + piece, self.size))

    def begin(self) -> None:
        """A file that is made begins as no journal and no ledger does before it gets its size. Of its
        header the first bytes are right by then, but for the second one, and the sixteenth, which is read."""
        self.write(0, 17)
        self.sync()
        self.lengthen()
        self.read(15, 16)
        self.write(2, 15)
        self.write(16, RECORD)

    def lengthen(self) -> None:
        self.steps.append(f"ftruncate {self.name} {self.size}")
        self.sync()

    def finish(self) -> None:
        """What was written is read at its front, and the second byte is written last."""
        self.sync()
        self.read(0, 2)
        self.write(1, 2)
        self.sync()


class OneByOne(Device):
    """One that takes nothing ahead."""

    ahead = 0


def read_line(name: str, size: int, is_ended: bool = True) -> list[str]:
    """The line of a reference, of this size with its end, is read in pieces until its end comes, or else
    nothing."""
    steps = [f"openat {name} O_RDONLY", *[f"read {name} {LINE_READ}"] * -(-size // LINE_READ)]
    return [*steps, *[f"read {name} {LINE_READ}"] * (not is_ended)]


def read_whole(name: str, size: int) -> list[str]:
    """A file is measured, and read to its end, into room for a byte more than it has."""
    steps, most, left = [f"openat {name} O_RDONLY"], FIRST_READ, size
    while True:
        steps.append(f"read {name} {min(most, left + 1)}")
        if not left:
            return steps
        most, left = 2 * most, max(0, left - most)


def folder_synced() -> list[str]:
    return ["openat . O_RDONLY", "fsync ."]


class DeviceCalls(JournalCase):
    weight = 2

    def check(self, words: Sequence[str], first: str, wanted: Sequence[str], given: bytes = b"",
              what: str = "", faults: bytes = b"") -> None:
        """That a command ends well, with these calls from the one that opens this file."""
        self.write("input", given)
        with open(self.home / "input", "rb") as stream:
            ended, calls = traced([self.program.path, *words], self.home, self.folder() / "trace", first,
                                  given=stream.fileno())
        self.assertEqual((ended.status, ended.faults), (0, faults), f"{spoken(words)} {what}")
        self.assertEqual(steps_of(calls), list(wanted), f"{spoken(words)} {what}")

    def make(self, name: str, data: bytes) -> None:
        self.write(name, data)
        (self.home / "copy").unlink(missing_ok=True)

    def test_serve_log(self) -> None:
        for kept, room in ((0, 3), (2, 300), (600, 5000)):
            requests = payments(kept + 2)
            self.make("log", log_image(numbers_of(requests[:kept]), room))
            steps = read_whole("bank.toml", len(BANK))
            log = Device(steps, "log", NUMBER * room)
            log.start_log(kept)
            for place in (kept, kept + 1):
                log.use(place)
            self.check(["serve", "bank.toml", "--log", "log"], "bank.toml", steps, stream_of(requests[kept:]),
                       f"{kept} of {room}")

    def test_serve_journal(self) -> None:
        for kept, room in ((0, 3), (2, 300), (2100, 5000)):
            requests = payments(kept + 2)
            self.make_journal(room, alone(payments_of_all(requests[:kept])))
            steps = read_whole("bank.toml", len(BANK))
            journal = Device(steps, "journal", RECORD * (1 + room))
            journal.look_at_journal(kept)
            journal.start_journal()
            for place in (1 + kept, 1 + kept + 1):
                journal.write(RECORD * place + 1, RECORD * place + RECORD)
            journal.sync()
            journal.write(RECORD * (1 + kept), RECORD * (1 + kept) + 1)
            journal.sync()
            self.check(["serve", "bank.toml", "--journal", "journal"], "bank.toml", steps,
                       stream_of(requests[kept:]), f"{kept} of {room}")

    def test_issue(self) -> None:
        for kept, room in ((0, 3), (0, 300), (0, 5000), (2, 300), (600, 5000)):
            self.check_issue(kept, room, kept)

    def test_issue_again(self) -> None:
        """Behind the start the ledger is neither read nor written."""
        for kept, room in ((3, 3), (600, 5000)):
            self.check_issue(kept, room, 0, ["--again"])

    def test_issue_out(self) -> None:
        """The file is made, and its folder synced, before the ledger is read; and each line is a write and a
        sync, before the next number is spent. So it is where numbers are passed over or lines made again."""
        for kept, room in ((0, 3), (2, 300), (600, 5000)):
            self.check_issue(kept, room, kept, ["--skip-issued"], OUT)
        for kept, room in ((3, 3), (600, 5000)):
            self.check_issue(kept, room, 0, ["--again"], OUT)

    def test_issue_passes_over(self) -> None:
        for kept, room in ((2, 300), (600, 5000)):
            for out in ((), OUT):
                self.check_issue(kept, room, kept - 2, ["--skip-issued"], out, passed=2)

    def test_a_ledger_read_otherwise(self) -> None:
        """A read of too few bytes is found, and so is a sync that a line lacks."""
        for device, syncs in ((OneByOne, True), (Device, False)):
            with self.assertRaisesRegex(AssertionError, "Lists differ"):
                self.check_issue(2, 300, 2, ["--skip-issued"], OUT, device=device, syncs=syncs)

    def check_issue(self, kept: int, room: int, first: int, options: Sequence[str] = (),
                    out: Sequence[str] = (), passed: int = 0, device: type[Device] = Device,
                    syncs: bool = True) -> None:
        """Three numbers and those that are passed over, of the order's places from `first` on, over a
        ledger that keeps the first of them."""
        numbers = numbers_from(int(FIRST, 16), kept)
        self.make("ledger", Ledger(room, numbers).image)
        steps: list[str] = []
        ledger = device(steps, "ledger", RECORD * (1 + room))
        ledger.look_at_ledger(kept)
        steps += [f"openat {COPY} {MADE}", *folder_synced()] if out else []
        ledger.start_ledger()
        for place in range(kept, kept + 3):
            if "--again" not in options:
                ledger.use(1 + place, RECORD)
            if out:
                steps += [f"write {COPY} {LINE_LENGTH}", *[f"fdatasync {COPY}"] * syncs]
        begin = serial_text(int(FIRST, 16) + first * SPENT)
        words = ["issue", BASE, BASE, begin, str(passed + 3), "--ledger", "ledger", *options, *out]
        self.check(words, "ledger", steps, what=f"{kept} of {room}", faults=passed_over(passed))

    def test_new_log(self) -> None:
        for records in (1, 7, 4096, 5000):
            steps: list[str] = []
            made = Device(steps, COPY, NUMBER * records, MADE)
            made.lengthen()
            made.write(0, NUMBER * records)
            made.sync()
            self.make("journal", b"")
            self.check(["new-log", COPY, str(records)], COPY, [*steps, *folder_synced()])

    def test_references(self) -> None:
        """What stands behind the first line is not asked for, but for what comes with it."""
        key, image = f"{BASE}\n", f"{NEW_IMAGE}\n"
        for words, data, size, is_ended in (
                (["kcv", "@secret"], key, len(key), True), (["kcv", "@secret"], BASE, len(BASE), False),
                (["kcv", "@secret"], key * 400, len(key), True),
                (["show", "image", "@secret"], image, len(image), True),
                (["show", "image", "@secret"], NEW_IMAGE, len(NEW_IMAGE), False)):
            self.make("secret", data.encode())
            self.check(words, "secret", read_line("secret", size, is_ended), what=f"{len(data)} bytes")

    def test_new_headed_files(self) -> None:
        """Of a journal, and of a ledger."""
        for command, records in (("new-journal", 1), ("new-journal", 7), ("new-journal", 5000),
                                 ("new-ledger", 1), ("new-ledger", 5000)):
            steps: list[str] = []
            made = Device(steps, COPY, RECORD * (1 + records), MADE)
            made.begin()
            made.write(RECORD, RECORD * (1 + records))
            made.finish()
            self.make("journal", b"")
            self.check([command, COPY, str(records)], COPY, [*steps, *folder_synced()])

    def test_copy_journal(self) -> None:
        for kept, room in ((0, 3), (1, 1), (3, 7), (200, 400), (2100, 5000)):
            self.make("journal", b"")
            self.make_journal(room, alone(payments_of_all(payments(kept))))
            self.check(["copy-journal", "journal", "copy"], "journal", copied(kept, room),
                       what=f"{kept} of {room}")

    def test_copy_ledger(self) -> None:
        for kept, room in ((0, 3), (1, 1), (3, 8), (200, 400), (2100, 5000)):
            numbers = numbers_from(int(FIRST, 16), kept)
            self.make("ledger", log_image(bytes_of(numbers), room))
            self.check(["copy-ledger", "ledger", COPY], "ledger", copied_ledger(kept, room),
                       what=f"{kept} of {room}")

    def test_shown(self) -> None:
        for kept, room in ((0, 5), (3, 32), (2100, 5000)):
            self.make("log", log_image(numbers_of(payments(kept)), room))
            self.check(["show", "log", "log"], "log", read_whole("log", NUMBER * room))
            self.make_journal(room, alone(payments_of_all(payments(kept))))
            self.check(["show", "journal", "journal"], "journal",
                       read_whole("journal", RECORD * (1 + room)))
            self.make("ledger", Ledger(room, numbers_from(int(FIRST, 16), kept)).image)
            self.check(["show", "ledger", "ledger"], "ledger",
                       read_whole("ledger", RECORD * (1 + room)))

    def test_run(self) -> None:
        """Its stores are in memory."""
        self.write("all.script", SCRIPT)
        more_lines = SCRIPT.splitlines(keepends=True)[-1] * 2000
        self.write("long.script", SCRIPT + more_lines)
        for name, size in (("all.script", len(SCRIPT)), ("long.script", len(SCRIPT + more_lines))):
            for more in ([], ["--journal"]):
                self.check(["run", "bank.toml", name, *more], "bank.toml",
                           [*read_whole("bank.toml", len(BANK)), *read_whole(name, size)])


def copied_ledger(kept: int, room: int) -> list[str]:
    """The ledger is looked at and read before the copy is made. Its numbers are read once more, and each
    is a write."""
    steps: list[str] = []
    size, end = RECORD * (1 + room), RECORD * (1 + kept)
    old = Device(steps, "ledger", NUMBER * room, "O_RDONLY")
    old.read(0, NUMBER)
    old.look_at(kept, NUMBER)
    old.sync()
    old.read(0, NUMBER * room)
    new = Device(steps, COPY, size, MADE)
    new.begin()
    for place in range(kept):
        old.read(NUMBER * place, NUMBER * (1 + place))
        new.write(RECORD * (1 + place), RECORD * (2 + place))
    new.write(end, size)
    new.finish()
    return [*steps, *folder_synced()]


def copied(kept: int, room: int) -> list[str]:
    """The journal is looked at and checked before the copy is made, and the copy before its folder is
    synced. What the journal keeps is read and written in pieces behind the header, of which the first
    two bytes are written last, and zeros behind it."""
    steps: list[str] = []
    size, end = RECORD * (1 + room), RECORD * (1 + kept)
    old = Device(steps, "journal", size, "O_RDONLY")
    old.look_at_journal(kept)
    old.start_journal()
    new = Device(steps, "copy", size, MADE)
    new.begin()
    for at in range(RECORD, end, PIECE):
        old.read(at, min(at + PIECE, end))
        new.write(at, min(at + PIECE, end))
    new.write(end, size)
    new.finish()
    new.start_journal()
    return [*steps, *folder_synced()]


