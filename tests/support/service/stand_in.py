"""A stand-in for the service: it keeps numbers in a log in the right way or in a wrong one.

Its answers stand in a table. It shows that the judge of lives finds each of
the wrong ways, and nothing in the right one.
"""
from __future__ import annotations

import fcntl
import marshal
import os
import sys
from collections import deque
from enum import Enum

from ..formats.left_files import LOG, look

RECORD = 16
# A read of a record takes so many bytes, as far as the file has them.
AHEAD = 4096
KEPT = 64


class Way(Enum):
    """How it keeps a number."""

    RIGHT = "body, sync, gate, sync"
    NO_SYNC = "nothing is synced"
    BODY_UNSYNCED = "a gate is opened before its body is synced"
    GATE_UNSYNCED = "a reply goes out before its gate is synced"
    ONE_WRITE = "gate and body are one write"
    GATE_FIRST = "a gate is opened before its body is written"
    REWRITES = "the record before is written again with the body"
    GOES_ON = "a sync that failed is tried again"
    IN_MEMORY = "numbers are in memory alone"
    GROWS = "a file that was cut short is written to all the same"
    READS_ZEROS = "a read that failed gives zeros"
    LENGTH_FIRST = "the length is taken before the lock"
    LOOKS_BEFORE = "the length is looked at before a write alone"
    SMALL_READS = "a read of the input asks for less than it should"


class Log:
    """A log in a file."""

    def __init__(self, path: str, way: Way) -> None:
        self.way = way
        self.file = os.open(path, os.O_RDWR)
        steps = (self.lock, self.take_length)
        for step in reversed(steps) if way is Way.LENGTH_FIRST else steps:
            step()
        self.room = self.size // RECORD
        if self.room and self.size % RECORD == 0:
            look(LOG, self.size, self.read)
        self.sync()
        held = b""
        while len(held) < RECORD * self.room:
            held += self.read_ahead(len(held))
        # What a wrong way left is to be found by others.
        if way is Way.RIGHT and not LOG.is_left(held):
            raise OSError("no log")
        records = [held[RECORD * at:RECORD * (at + 1)] for at in range(self.room)]
        self.numbers = [it[1:11] for it in records if it[0] == 1]

    def lock(self) -> None:
        fcntl.flock(self.file, fcntl.LOCK_EX | fcntl.LOCK_NB)

    def take_length(self) -> None:
        self.size = os.fstat(self.file).st_size

    def read_ahead(self, at: int) -> bytes:
        """The record at this place, and what can be read behind it."""
        try:
            return self.read(at, min(AHEAD, RECORD * self.room - at))
        except OSError:
            pass
        try:
            return self.read(at, RECORD)
        except OSError:
            if self.way is not Way.READS_ZEROS:
                raise
            return bytes(RECORD)

    def read(self, at: int, count: int) -> bytes:
        data = b""
        while len(data) < count:
            data += os.pread(self.file, count - len(data), at + len(data))
        return data

    def sync(self) -> None:
        if self.way is Way.NO_SYNC:
            return
        try:
            os.fdatasync(self.file)
        except OSError:
            if self.way is not Way.GOES_ON:
                raise
            os.fdatasync(self.file)
        if self.way is not Way.LOOKS_BEFORE:
            self.check_length()

    def check_length(self) -> None:
        if self.way is not Way.GROWS and os.fstat(self.file).st_size != self.size:
            raise OSError("the file has another length now")

    def append(self, number: bytes) -> None:
        at, body = RECORD * len(self.numbers), number + bytes(5)
        if self.way is Way.ONE_WRITE:
            self.put(at, b"\x01" + body)
        elif self.way is Way.GATE_FIRST:
            self.put(at, b"\x01")
            self.put(at + 1, body)
        elif self.way is Way.REWRITES and at:
            before = b"\x01" + self.numbers[-1] + bytes(5)
            self.put(at - RECORD, before + b"\x00" + body)
            self.put(at, b"\x01")
        elif self.way is not Way.IN_MEMORY:
            self.put(at + 1, body, self.way is not Way.BODY_UNSYNCED)
            self.put(at, b"\x01", self.way is not Way.GATE_UNSYNCED)
        self.numbers.append(number)

    def put(self, at: int, data: bytes, is_synced: bool = True) -> None:
        self.check_length()
        while data:
            count = os.pwrite(self.file, data, at)
            at, data = at + count, data[count:]
        if is_synced:
            self.sync()


# The answer to each frame, with its number, which is empty where it is always refused.
Table = dict[bytes, tuple[bytes, bytes]]


def write_table(path: str, table: Table) -> None:
    with open(path, "wb") as it:
        marshal.dump(table, it)


def read_table(path: str) -> Table:
    with open(path, "rb") as it:
        return marshal.load(it)


def serve(log: Log, table: Table) -> None:
    recent: deque[bytes] = deque(maxlen=KEPT)
    stream = b""
    while piece := os.read(0, 512 if log.way is Way.SMALL_READS else 4096):
        stream += piece
        while len(stream) >= 2 and len(stream) >= (end := 2 + int.from_bytes(stream[:2], "big")):
            frame, stream = stream[:end], stream[end:]
            answer, number = table[frame]
            if number and frame not in recent:
                answer = accept(log, number, answer, recent, frame)
            os.write(1, answer)


def accept(log: Log, number: bytes, answer: bytes, recent: deque[bytes], frame: bytes) -> bytes:
    reason = 5 if number in log.numbers else 6 if len(log.numbers) == log.room else 0
    if reason:
        return b"\x00\x0d\x01\x03" + number + bytes([reason])
    log.append(number)
    recent.append(frame)
    return answer


def main(way: str, table: str) -> int:
    answers = read_table(table)
    try:
        serve(Log(sys.argv[4], Way(way)), answers)
    except OSError:
        os.write(2, b"log: failed\n")
        return 1
    return 0
