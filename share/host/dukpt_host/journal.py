"""The journal's file: its state beside it, a checked copy put in its place, and its room."""
from __future__ import annotations

import asyncio
import fcntl
import os
from dataclasses import dataclass
from enum import Enum
from pathlib import Path

# docs/FORMATS.md, "Disk of a journal". In front of the records stands a header, which is as long.
RECORD = 32
LONGEST_GROUP = 4096
# Where less than this part is left, that is for reversals.
LAST_PART = 16
BOOT = Path("/proc/sys/kernel/random/boot_id")
# How long a copy waits for another process that still has the journal open, and looks for its end.
PATIENCE, LOOKS = 10.0, 0.1
CANNOT_OPEN = "journal: cannot open"


class Refused(Exception):
    """Why nothing is served over a journal."""


class Held(Enum):
    """What the state says of the last service over a journal."""

    # It ended by itself, or before the machine was started.
    NOTHING = "nothing"
    # It was not seen to end, in this boot: a sync may have failed unseen.
    RUNNING = "running"
    FAILED = "failed"


class State:
    """The file JOURNAL.state: the id of this boot while a service runs,
    `failed` behind it after `journal: failed`, and nothing after any other end of its own. It is
    locked: no second service is started over the journal."""

    def __init__(self, journal: Path) -> None:
        self.path = Path(f"{journal}.state")
        self.boot = BOOT.read_text()
        self.texts = {Held.NOTHING: "", Held.RUNNING: self.boot,
                      Held.FAILED: f"{self.boot}failed\n"}
        self.handle = os.open(self.path, os.O_RDWR | os.O_CREAT | os.O_CLOEXEC, 0o600)
        try:
            fcntl.flock(self.handle, fcntl.LOCK_EX | fcntl.LOCK_NB)
        except BlockingIOError:
            os.close(self.handle)
            raise Refused(f"{journal} is in use") from None

    def held(self) -> Held:
        text = os.pread(self.handle, 4096, 0).decode(errors="replace")
        if "failed" in text:
            return Held.FAILED
        return Held.RUNNING if self.boot.strip() in text else Held.NOTHING

    def keep(self, held: Held) -> None:
        """Writes it, and makes sure of it. What is longer is cut off behind the write, so that a
        write that fails leaves what stood there."""
        text = self.texts[held].encode()
        os.pwrite(self.handle, text, 0)
        os.ftruncate(self.handle, len(text))
        os.fsync(self.handle)
        sync_folder(self.path)


def sync_folder(path: Path) -> None:
    handle = os.open(path.parent, os.O_RDONLY | os.O_DIRECTORY)
    try:
        os.fsync(handle)
    finally:
        os.close(handle)


async def put_copy(program: str, journal: Path) -> None:
    """Puts a checked copy in the place of a journal. What a failed sync kept from the disk is still
    read, and goes to the disk with the copy: docs/OPERATION.md, "When the journal or the log
    has failed"."""
    copy = Path(f"{journal}.recovered")
    copy.unlink(missing_ok=True)
    left = PATIENCE
    while fault := await copied(program, journal, copy):
        if fault != CANNOT_OPEN or left <= 0:
            raise Refused(f"no copy of {journal} could be made: {fault}")
        left -= LOOKS
        await asyncio.sleep(LOOKS)
    os.replace(copy, journal)
    sync_folder(journal)


async def copied(program: str, journal: Path, copy: Path) -> str:
    """Copies a journal, and answers the fault, if there was one."""
    process = await asyncio.create_subprocess_exec(
        program, "copy-journal", str(journal), str(copy), stdin=asyncio.subprocess.DEVNULL,
        stdout=asyncio.subprocess.DEVNULL, stderr=asyncio.subprocess.PIPE, start_new_session=True,
        restore_signals=False)
    faults = (await process.communicate())[1].decode(errors="replace").strip()
    if process.returncode == 0:
        return ""
    return faults or f"status {process.returncode}"


# Its room


@dataclass(frozen=True)
class Room:
    """How many records a journal has behind its header, and how many of them are left."""

    records: int = 0
    left: int = 0

    @property
    def payments(self) -> int:
        """How many payments can still be kept, if no reversal comes."""
        return max(0, self.left + 1 - -(-self.records // LAST_PART))


def room_of(journal: Path) -> Room:
    """The room of a journal, read beside the service. None is known where it cannot be read."""
    try:
        with open(journal, "rb") as it:
            records = max(0, os.fstat(it.fileno()).st_size // RECORD - 1)
            return Room(records, records - kept_in(it.fileno(), records))
    except OSError:
        return Room()


def kept_in(file: int, records: int) -> int:
    """How many entries a journal keeps. Its last open record begins the last group, and says how
    many follow. Behind the groups at most one group was begun, and then there are zeros."""
    front = used_front(file, records)
    first = max(0, front - 2 * LONGEST_GROUP)
    last = os.pread(file, RECORD * (front - first), RECORD * (1 + first))
    for at in range(len(last) - RECORD, -1, -RECORD):
        if last[at] == 1:
            return first + at // RECORD + 1 + int.from_bytes(last[at + 2 : at + 4], "big")
    return 0


def used_front(file: int, records: int) -> int:
    """How many records stand before the zeros, or within one group of that."""
    low, high = 0, records
    while low < high:
        middle = (low + high) // 2
        if any(os.pread(file, RECORD, RECORD * (1 + middle))):
            low = middle + 1
        else:
            high = middle
    return low
