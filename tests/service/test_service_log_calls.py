"""The calls of the service on its log and its streams, in their order, as the system sees them."""
from __future__ import annotations

import fcntl
import os
import re
import shutil
from pathlib import Path
from typing import Sequence

from ..commands.test_files import REFUSED_FILES
from ..support.formats.left_files import LOG, looked
from ..support.formats.log_file import RECORD, log_image
from ..support.program import Ended, Program
from ..support.service.client import Exchange, payments
from ..support.service.service_case import ServiceCase, answers_to, numbers_of, stream_of

# One line of strace: the process, the call, its arguments and what it gave.
LINE = re.compile(r"^\d+ +(\w+)\((.*)\) += (-?\d+)", re.MULTILINE)
# What of the ways to open a file says whether it is read, written, made, cut or begun anew.
CHANGES = re.compile(r"O_(?:RDONLY|WRONLY|RDWR|CREAT|EXCL|TRUNC|APPEND)")
# Each of them tells the length of a file.
LENGTHS = ("fstat", "newfstatat", "statx")
STEPS = ("openat", "flock", *LENGTHS, "pread64", "pwrite64", "fdatasync", "read", "write")
LENGTH = "the length of log"
SYNCED = ["fdatasync(log)", LENGTH]
# A read takes what has come, up to so much.
READ = "read(0, 4096 bytes)"
REPLIED = "write(1)"
# A read of a record takes so many bytes, as far as the file has them.
AHEAD = 4096


def opening(store: str) -> tuple[str, str]:
    """How it is opened, and then locked."""
    return f"openat({store}, O_RDWR)", f"flock({store}, LOCK_EX|LOCK_NB)"


def steps_of(trace: str, store: str = "log") -> list[str]:
    """The calls on the store, the input and the output, without what they read or wrote."""
    steps, file = [], ""
    for call, words, gave in LINE.findall(trace):
        if call == "openat" and f'"{store}"' in words:
            file = gave
            steps.append(f"openat({store}, {'|'.join(CHANGES.findall(words))})")
        elif call in LENGTHS and (f'"{store}"' in words or file and words.startswith(f"{file}, ")):
            steps.append(f"the length of {store}")
        elif call in ("pread64", "pwrite64") and file and words.startswith(f"{file}, "):
            count, at = words.split(", ")[-2:]
            steps.append(f"{call}({store}, {count} bytes at {at})")
        elif call in ("flock", "fdatasync") and file and words.split(", ")[0] == file:
            steps.append(f"{call}({words.replace(file, store, 1)})")
        elif call == "read" and words.startswith("0, "):
            steps.append(f"read(0, {words.split(', ')[-1]} bytes)")
        elif call == "write" and words.startswith("1, "):
            steps.append(REPLIED)
    return steps


def reads(size: int, end: int) -> list[str]:
    """What is read of a log of so many bytes where its records up to this place are, in turn."""
    return [f"pread64(log, {min(AHEAD, size - at)} bytes at {at})" for at in range(0, end, AHEAD)]


def looks(image: bytes) -> list[str]:
    """What is read of a log before anything else, to see that it is one."""
    return [f"pread64(log, {count} bytes at {at})" for count, at in looked(LOG, image)]


def start(room: int, numbers: Sequence[bytes] = ()) -> list[str]:
    """The length is taken of a file that is locked, which is looked at. Behind a sync its records are
    read, and those of numbers once more."""
    size = RECORD * room
    return [*opening("log"), LENGTH, *looks(log_image(numbers, room)), *SYNCED, *reads(size, size)]


def write(count: int, at: int) -> list[str]:
    """The length is looked at before a write, and behind the sync of it."""
    return [LENGTH, f"pwrite64(log, {count} bytes at {at})", *SYNCED]


def acceptance(place: int) -> list[str]:
    """The body is written and synced, and then the gate; then the reply goes out."""
    gate = RECORD * place
    return [*write(RECORD - 1, gate + 1), *write(1, gate), REPLIED]


class TracedCase(ServiceCase):
    """A test of the calls of a service over a store."""

    store, record = "log", RECORD

    def traced(
        self, requests: Sequence[Exchange], configuration: str = "bank.toml"
    ) -> tuple[Ended, list[str]]:
        """How a service whose input is a file ends, and its calls."""
        strace = shutil.which("strace")
        self.assertIsNotNone(strace, "strace is not installed: apt-get install strace")
        trace = self.home / "trace"
        self.write("input", stream_of(requests))
        words = ["-f", "-e", f"trace={','.join(STEPS)}", "-o", trace, self.program.path,
                 "serve", configuration, f"--{self.store}", self.store]
        with open(self.home / "input", "rb") as given:
            ended = Program(Path(strace or "")).run(*words, given=given.fileno(), folder=self.home)
        return ended, steps_of(trace.read_text(), self.store)


class Calls(TracedCase):
    def test_two_acceptances(self) -> None:
        first, second = payments(2)
        room = 3
        self.make_log(room)
        # A request that comes again costs nothing but its reply.
        requests = [first, first, second]
        ended, steps = self.traced(requests)
        self.assert_ended(ended, 0, answers_to(requests), b"", "under strace")
        self.assertEqual(self.log.read_bytes(), log_image(numbers_of([first, second]), room))
        wanted = [*start(room), READ, *acceptance(0), REPLIED, *acceptance(1), READ]
        self.assertEqual(steps, wanted)

    def test_a_long_log(self) -> None:
        """All records are read, and then those with numbers once more. After a write nothing that
        was read is kept, and nothing is read anew."""
        kept, (request,), room = payments(301)[:300], payments(301)[300:], 600
        self.log.write_bytes(log_image(numbers_of(kept), room))
        ended, steps = self.traced([request])
        self.assert_ended(ended, 0, answers_to([request]), b"", "under strace")
        again = reads(RECORD * room, RECORD * len(kept))
        wanted = [*start(room, numbers_of(kept)), *again, READ, *acceptance(len(kept)), READ]
        self.assertEqual(steps, wanted)


class Opens(TracedCase):
    # What is looked at of a file that is locked, before it is refused for its size.
    looks: Sequence[str] = (LENGTH,)

    def test_a_refused_configuration(self) -> None:
        """The file is not opened, whether there is one or not."""
        self.write(self.store, bytes(3 * self.record))
        for text, fault in REFUSED_FILES:
            self.write("refused.toml", text)
            self.check_steps(f"config: {fault}", [], "refused.toml")
        self.check_steps("config: cannot read", [], "missing.toml")
        os.remove(self.home / self.store)
        self.check_steps("config: cannot read", [], "missing.toml")

    def test_a_refused_file(self) -> None:
        """It is tried once, and nothing is read: one that is missing, a folder, and one that is
        locked."""
        file, fault = self.home / self.store, f"{self.store}: cannot open"
        opened, locked = opening(self.store)
        self.check_steps(fault, [opened])
        os.mkdir(file)
        self.check_steps(fault, [opened])
        os.rmdir(file)
        self.write(self.store, bytes(3 * self.record))
        with open(file, "rb") as other:
            fcntl.flock(other, fcntl.LOCK_EX)
            self.check_steps(fault, [opened, locked])

    def test_a_damaged_size(self) -> None:
        """A file of such a size is neither synced nor read."""
        for size in (0, self.record - 1, self.record + 1):
            self.write(self.store, bytes(size))
            self.check_steps(f"{self.store}: failed", [*opening(self.store), *self.looks])

    def check_steps(
        self, fault: str, wanted: Sequence[str], configuration: str = "bank.toml"
    ) -> None:
        """That a service ends with this fault behind these calls, and no other."""
        ended, steps = self.traced(payments(1), configuration)
        self.assert_output(ended, b"", fault, fault)
        self.assertEqual(steps, list(wanted), fault)
