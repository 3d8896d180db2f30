"""A stand-in for `copy-journal`: it copies in a right way or in a wrong one, and looks at no record.

It shows that the tests of its calls and of kills find each of the wrong ways, and nothing in the right
one.
"""
from __future__ import annotations

import fcntl
import os
import sys
from enum import Enum
from typing import Iterator, Optional

from ..formats.checked_journal import HEADER, checked, identity_of, plain_of

RECORD, PIECE = 32, 1 << 16


class CopyWay(Enum):
    """How it copies. In a right way what is there is no journal until a last byte is written: it lacks one
    at its end, or its first record is none that a journal has."""

    LAST_BYTE_LAST = "all but the last byte, sync, the last byte, sync, folder"
    KIND_LAST = ("the first byte of an open record, sync, its size, sync, all but the first two bytes, sync, "
                 "what of them is another, sync, folder")
    RECORD_LAST = "the first record is written last"
    HEAD_LAST = "the first two bytes are written last, together"
    GATE_AGAIN = "the first byte is written again, though it is right"
    KIND_WITH_THE_REST = "the second byte is written with the rest"
    FIRST_TO_LAST = "its size, pieces from the first to the last"
    FRONT_LAST = "its size, pieces from the last to the first"
    MARKED_FRONT_LAST = "the first byte of an open record, its size, pieces from the last to the first"
    MARK_NOT_SYNCED = "that byte is not synced before the size"
    SIZE_NOT_SYNCED = "the size is not synced before the rest is written"
    LAST_WITH_THE_REST = "nothing is synced before the last small write"
    MADE_FIRST = "the copy is made before the journal is read"
    READS_A_PART = "what the journal keeps is read, and no more"
    LOCKED_LATE = "the copy is locked behind its first write"
    NOT_LOCKED = "the copy is not locked"
    OLD_NOT_LOCKED = "the journal is not locked"
    NO_ZEROS = "zeros behind what is kept are not written"
    SYNCED_EARLY = "the copy is synced before its last write"
    NOT_SYNCED = "the copy is not synced"
    FOLDER_FIRST = "the folder is synced before the copy"
    FOLDER_NOT_SYNCED = "the folder is not synced"
    OLD_WRITTEN = "a byte of the journal is written again"
    OLD_TO_WRITE = "the journal is opened to be written, and is not"
    OVERWRITES = "a file that is there is begun anew"
    NOT_CHECKED = "the copy is not read again"
    CHECKED_UNSYNCED = "the copy is read before its last sync"
    CHECKED_LATE = "the copy is read behind the sync of its folder"
    CHECKED_IN_PART = "what the copy keeps is read, and no more"
    NOT_REMOVED = "a copy that failed is not removed"


# Where what is written begins that stands behind the first bytes.
FIRST_OF_THE_REST = {
    CopyWay.KIND_LAST: 2, CopyWay.GATE_AGAIN: 2, CopyWay.MARK_NOT_SYNCED: 2, CopyWay.SIZE_NOT_SYNCED: 2,
    CopyWay.HEAD_LAST: 2,
    CopyWay.KIND_WITH_THE_REST: 1, CopyWay.RECORD_LAST: RECORD, CopyWay.FRONT_LAST: 0,
    CopyWay.MARKED_FRONT_LAST: 0}


def write(file: int, image: bytes, first: int, last: int) -> None:
    """Writes these bytes of an image to their place."""
    while first < last:
        first += os.pwrite(file, image[first : min(last, first + PIECE)], first)


def kept_bytes(image: bytes) -> int:
    """How many bytes of a journal are those of payments."""
    at = 0
    while at < len(image) and image[at] == 1:
        at += RECORD * (1 + int.from_bytes(image[at + 2 : at + 4], "big"))
    return at


class Copy:
    def __init__(self, old: str, new: str, way: CopyWay) -> None:
        self.way, self.new = way, new
        is_written = way in (CopyWay.OLD_WRITTEN, CopyWay.OLD_TO_WRITE)
        self.old = os.open(old, os.O_RDWR if is_written else os.O_RDONLY)
        if way is not CopyWay.OLD_NOT_LOCKED:
            fcntl.flock(self.old, fcntl.LOCK_EX | fcntl.LOCK_NB)
        self.file: Optional[int] = self.make() if way is CopyWay.MADE_FIRST else None
        image = b"".join(self.read())
        identity, plain, size = identity_of(image), plain_of(image), os.fstat(self.old).st_size
        if identity is None or plain is None:
            # It is of version 1.
            identity, plain, size = 0, image, size + HEADER
        kept = kept_bytes(plain)
        self.kept = HEADER + kept
        self.image = checked(plain[:kept].ljust(size - HEADER, b"\x00"), identity ^ 1)
        if way is CopyWay.OLD_WRITTEN:
            os.pwrite(self.old, image[:1], 0)
        if self.file is None:
            self.file = self.make()

    def read(self) -> Iterator[bytes]:
        at, piece = 0, b"-"
        while piece:
            piece = os.pread(self.old, PIECE, at)
            at += len(piece)
            yield piece
            if self.way is CopyWay.READS_A_PART and piece and piece[-RECORD] == 0:
                return

    def make(self) -> int:
        is_new = os.O_TRUNC if self.way is CopyWay.OVERWRITES else os.O_EXCL
        file = os.open(self.new, os.O_RDWR | os.O_CREAT | is_new, 0o666)
        if self.way not in (CopyWay.LOCKED_LATE, CopyWay.NOT_LOCKED):
            fcntl.flock(file, fcntl.LOCK_EX | fcntl.LOCK_NB)
        return file

    def fill(self) -> None:
        """Writes the copy, all or up to its last small write."""
        size, way = len(self.image), self.way
        if way in (CopyWay.FIRST_TO_LAST, CopyWay.NO_ZEROS):
            os.ftruncate(self.file, size)
            write(self.file, self.image, 0, self.kept if way is CopyWay.NO_ZEROS else size)
        elif way in FIRST_OF_THE_REST:
            if way is not CopyWay.FRONT_LAST:
                os.pwrite(self.file, b"\x01", 0)
            if way is not CopyWay.MARK_NOT_SYNCED:
                self.sync()
            os.ftruncate(self.file, size)
            if way is not CopyWay.SIZE_NOT_SYNCED:
                self.sync()
            for at in reversed(range(FIRST_OF_THE_REST[way], size, PIECE)):
                write(self.file, self.image, at, min(at + PIECE, size))
        else:
            os.pwrite(self.file, bytes(RECORD - 1), size - RECORD)
            if way is CopyWay.LOCKED_LATE:
                fcntl.flock(self.file, fcntl.LOCK_EX | fcntl.LOCK_NB)
            write(self.file, self.image, 0, size - 1)

    def end(self) -> None:
        """The last small write."""
        way, size = self.way, len(self.image)
        if way is CopyWay.GATE_AGAIN:
            write(self.file, self.image, 0, 1)
            self.sync()
        if way in (CopyWay.RECORD_LAST, CopyWay.HEAD_LAST):
            write(self.file, self.image, 0, FIRST_OF_THE_REST[way])
        elif way in (CopyWay.KIND_LAST, CopyWay.GATE_AGAIN, CopyWay.MARK_NOT_SYNCED,
                     CopyWay.SIZE_NOT_SYNCED):
            write(self.file, self.image, 1, 2)
        elif way not in (CopyWay.FIRST_TO_LAST, CopyWay.NO_ZEROS, *FIRST_OF_THE_REST):
            write(self.file, self.image, size - 1, size)

    def check(self) -> None:
        """Reads the copy."""
        last = self.kept if self.way is CopyWay.CHECKED_IN_PART else len(self.image)
        for at in range(0, last, PIECE):
            os.pread(self.file, min(PIECE, last - at), at)

    def sync(self) -> None:
        if self.way is not CopyWay.NOT_SYNCED:
            os.fdatasync(self.file)

    def sync_folder(self) -> None:
        if self.way is not CopyWay.FOLDER_NOT_SYNCED:
            folder = os.open(os.path.dirname(self.new) or ".", os.O_RDONLY)
            os.fsync(folder)

    def run(self) -> None:
        self.fill()
        if self.way is not CopyWay.LAST_WITH_THE_REST:
            self.sync()
        self.end()
        if self.way is CopyWay.FOLDER_FIRST:
            self.sync_folder()
        if self.way is CopyWay.CHECKED_UNSYNCED:
            self.check()
        if self.way is not CopyWay.SYNCED_EARLY:
            self.sync()
        if self.way not in (CopyWay.CHECKED_UNSYNCED, CopyWay.NOT_CHECKED, CopyWay.CHECKED_LATE):
            self.check()
        if self.way is not CopyWay.FOLDER_FIRST:
            self.sync_folder()
        if self.way is CopyWay.CHECKED_LATE:
            self.check()


def main(way: str) -> int:
    _, _, old, new = sys.argv
    copy = None
    try:
        copy = Copy(old, new, CopyWay(way))
        copy.run()
    except OSError:
        if copy is not None and copy.way is not CopyWay.NOT_REMOVED:
            os.unlink(new)
        os.write(2, b"journal: cannot make\n")
        return 1
    return 0
