"""A stand-in for the service over a journal: it keeps payments in the right way or in a wrong one. It stands
in for `show journal` and `copy-journal` too, which read a journal in that way.

Its answers stand in a table, as those of `stand_in`. It shows that the tests of journals find each
of the wrong ways, and nothing in the right one.
"""
from __future__ import annotations

import fcntl
import os
import select
import sys
from enum import Enum
from pathlib import Path
from typing import Iterator, Optional

from ..commands.shown import journal_ended
from ..formats.checked_journal import CHECK, HEADER, checked, identity_of, journal_of, with_check_sums
from ..formats.left_files import JOURNAL, OLD_JOURNAL, Looks, look
from ..formats.opened_journal import Refusal, copied
from .stand_in import Table, read_table

RECORD = 32
# A start reads so many bytes at once, and a service so many of its input.
AHEAD = READ = 1 << 16
MOST_FRAMES = 1024
# One that does not wait writes so many bytes at once, where its output is ready for some. One that
# gives up does so after so many seconds.
A_FEW, PATIENCE = 500, 0.1


class Way(Enum):
    """How it keeps the payments of a group."""

    RIGHT = "bodies, sync, gate, sync, answers"
    NO_SYNC = "nothing is synced"
    BODIES_UNSYNCED = "a gate is opened before the bodies are synced"
    GATE_UNSYNCED = "answers go out before the gate is synced"
    ANSWERS_FIRST = "answers go out before the group is kept"
    GATE_FIRST = "the gate is opened before the bodies are written"
    ONE_WRITE = "a group is one write, with its gate"
    OPEN_FOLLOWERS = "the gates of followers are opened too"
    WHOLE_RECORDS = "the gates of followers are written as zeros"
    EACH_ALONE = "each payment is a group"
    SMALL_GROUPS = "groups have less frames than they should"
    SMALL_READS = "a read of the input asks for less than it should"
    IN_MEMORY = "payments are in memory alone"
    NO_REPEATS = "payments of earlier runs are not answered again"
    ANY_MAC = "a request with another MAC is answered again"
    GOES_ON = "a sync that failed is tried again"
    LEAVES_OUT = "what finds no room is left out"
    LOSES_THE_LAST = "a start forgets the last payment of a group"
    LOOKS_AT_NOTHING = "a start takes damaged records as they are"
    NO_CHECK_SUMS = "a start looks at no check sum"
    ANY_PLACE = "a check sum is taken at any place"
    ANY_JOURNAL = "a check sum of any journal is taken"
    ANY_HEADER = "a header is not looked at"
    ANY_GATE = "a start looks no further than the first gate that is closed"
    TORN_IS_DAMAGE = "any bytes behind the groups are damage"
    NEVER_WAITS = "it reads on where its output is full"
    GIVES_UP = "it ends where its input is silent for a moment"
    NO_LOCK = "the journal is not locked"


class OldVersion(Exception):
    """That a journal of version 1 left the file."""


def identity_by(way: Way, image: bytes) -> Optional[int]:
    identity = identity_of(image)
    return int.from_bytes(image[16:24], "big") if identity is None and way is Way.ANY_HEADER else identity


def plain_by(way: Way, image: bytes) -> Optional[bytes]:
    """The records of a journal, with zeros for their check sums where these are taken as right."""
    identity = identity_by(way, image)
    if identity is None:
        return None
    records, plain = records_of(image[HEADER:]), records_of(with_check_sums(image[HEADER:], identity))
    for at, record in enumerate(records):
        if way is Way.NO_CHECK_SUMS or any(
                not any(with_check_sums(record, other, place)[CHECK])
                for other, place in places_by(way, identity, at, len(records))):
            plain[at] = record[: CHECK.start] + bytes(4) + record[CHECK.stop :]
    end = end_of(plain)
    if way is Way.ANY_GATE:
        plain[end:] = [bytes(RECORD)] * len(plain[end:])
    is_torn = any(any(it) for it in plain[end:])
    return None if is_torn and way is Way.TORN_IS_DAMAGE else b"".join(plain)


def places_by(way: Way, identity: int, at: int, count: int) -> Iterator[tuple[int, int]]:
    """Other identities and places by which a check sum of this record is taken too."""
    if way is Way.ANY_PLACE:
        yield from ((identity, 1 + place) for place in range(count))
    if way is Way.ANY_JOURNAL:
        yield from ((identity ^ 1 << bit, 1 + at) for bit in range(64))


def records_of(data: bytes) -> list[bytes]:
    return [data[at : at + RECORD] for at in range(0, len(data), RECORD)]


def end_of(records: list[bytes]) -> int:
    """How many records stand in groups, which begin with the first."""
    end = 0
    while end < len(records) and records[end][0] == 1:
        end += 1 + int.from_bytes(records[end][2:4], "big")
    return min(end, len(records))


class Journal:
    """A journal in a file."""

    def __init__(self, path: str, way: Way) -> None:
        self.way = way
        try:
            self.file = os.open(path, os.O_RDWR)
            if way is not Way.NO_LOCK:
                fcntl.flock(self.file, fcntl.LOCK_EX | fcntl.LOCK_NB)
        except OSError:
            os.write(2, b"journal: cannot open\n")
            sys.exit(1)
        self.size = os.fstat(self.file).st_size
        self.room = self.size // RECORD - 1
        if self.size and self.size % RECORD == 0:
            look(JOURNAL, self.size, self.read)
        self.sync()
        self.payments: dict[bytes, tuple[bytes, int]] = {}
        self.count = 0
        self.read_groups()

    def read(self, at: int, count: int) -> bytes:
        data = b""
        while len(data) < count:
            piece = os.pread(self.file, count - len(data), at + len(data))
            data += piece
            if not piece:
                raise OSError("the file has another length now")
        return data

    def read_groups(self) -> None:
        looks = Looks(JOURNAL, self.size, self.read)
        held = looks.read(0, min(HEADER, self.size))
        while len(held) < self.size:
            held += looks.read(len(held), min(AHEAD, self.size - len(held)))
        self.identity, plain = identity_by(self.way, held) or 0, plain_by(self.way, held)
        if plain is None and OLD_JOURNAL.is_left(held):
            raise OldVersion
        if self.way is Way.LOOKS_AT_NOTHING and plain is None:
            plain = b""
        if plain is None or self.way is not Way.LOOKS_AT_NOTHING and self.size % RECORD:
            raise OSError("no journal")
        records = records_of(plain)
        # What a wrong way left is to be found by others.
        if self.way is Way.RIGHT and not JOURNAL.is_left(held):
            raise OSError("no journal")
        while self.count < len(records) and records[self.count][0] == 1:
            last = self.count + int.from_bytes(records[self.count][2:4], "big")
            for at, one in enumerate(records[self.count : last + 1]):
                self.check(one, at > 0, last < len(records))
                if self.way is not Way.LOSES_THE_LAST or at == 0 or self.count + at < last:
                    self.payments[one[4:14]] = (one[19:27], one[18])
            self.count = last + 1
        if self.way is not Way.LOOKS_AT_NOTHING and any(it[0] == 1 for it in records[self.count :]):
            raise OSError("an open record behind a closed one")

    def check(self, one: bytes, follows: bool, is_inside: bool) -> None:
        counter = int.from_bytes(one[11:14], "big") % (1 << 21)
        holds = (one[1] == 1, is_inside, not follows or (one[0] != 1 and one[2:4] == bytes(2)),
                 one[18] in (0, 14, 30, 51, 55), not any(one[27:]), one[2] < 16,
                 1 <= bin(counter).count("1") <= 10, one[4:14] not in self.payments)
        if self.way is not Way.LOOKS_AT_NOTHING and not all(holds):
            raise OSError("damaged")

    def sync(self) -> None:
        if self.way is Way.NO_SYNC:
            return
        try:
            os.fdatasync(self.file)
        except OSError:
            if self.way is not Way.GOES_ON:
                raise
            os.fdatasync(self.file)
        if os.fstat(self.file).st_size != self.size:
            raise OSError("the file has another length now")

    def append(self, group: list[bytes]) -> None:
        """Appends a group of records, without their gates and numbers of followers."""
        if self.way is Way.EACH_ALONE and len(group) > 1:
            for one in group:
                self.append([one])
            return
        first = HEADER + RECORD * self.count
        bodies = [self.checked(one[:1] + (0 if at else len(group) - 1).to_bytes(2, "big") + one[3:], at)
                  for at, one in enumerate(group)]
        self.count += len(group)
        if self.way is Way.IN_MEMORY:
            return
        if self.way is Way.ONE_WRITE:
            self.put(first, b"\x01" + b"\x00".join(bodies))
            self.sync()
            return
        if self.way is Way.GATE_FIRST:
            self.put(first, b"\x01")
        for at, body in enumerate(bodies):
            if self.way is Way.WHOLE_RECORDS:
                self.put(first + RECORD * at, b"\x00" + body)
            else:
                self.put(first + RECORD * at + 1, body)
        if self.way is not Way.BODIES_UNSYNCED:
            self.sync()
        self.put(first, b"\x01")
        if self.way is Way.OPEN_FOLLOWERS:
            for at in range(1, len(bodies)):
                self.put(first + RECORD * at, b"\x01")
        if self.way is not Way.GATE_UNSYNCED:
            self.sync()

    def checked(self, body: bytes, behind: int) -> bytes:
        """A body with its check sum, so many records behind those that are kept."""
        return with_check_sums(b"\x01" + body, self.identity, 1 + self.count + behind)[1:]

    def put(self, at: int, data: bytes) -> None:
        if os.fstat(self.file).st_size != self.size:
            raise OSError("the file has another length now")
        while data:
            try:
                count = os.pwrite(self.file, data, at)
            except OSError:
                if self.way is not Way.LEAVES_OUT:
                    raise
                return
            at, data = at + count, data[count:]


class Host:
    """It answers the frames of a read in groups."""

    def __init__(self, journal: Journal, table: Table) -> None:
        self.journal, self.table, self.way = journal, table, journal.way
        self.earlier = set(journal.payments)
        self.unwritten = b""

    def answer_all(self, frames: list[bytes]) -> None:
        most = 512 if self.way is Way.SMALL_GROUPS else MOST_FRAMES
        for first in range(0, len(frames), most):
            self.answer_group(frames[first : first + most])

    def answer_group(self, frames: list[bytes]) -> None:
        answers, group = [], []
        for frame in frames:
            answer, one = self.judge(frame, len(group))
            answers.append(answer)
            if one is not None:
                group.append(one)
        if self.way is Way.ANSWERS_FIRST:
            self.write(b"".join(answers))
        if group:
            self.journal.append(group)
        if self.way is not Way.ANSWERS_FIRST:
            self.write(b"".join(answers))

    def write(self, data: bytes) -> None:
        data = self.unwritten + data
        most = A_FEW if self.way is Way.NEVER_WAITS else len(data)
        try:
            while data and (self.way is not Way.NEVER_WAITS or is_ready([], [1])):
                data = data[os.write(1, data[:most]) :]
        except OSError:
            os.write(2, b"serve: write failed\n")
            sys.exit(1)
        self.unwritten = data

    def judge(self, frame: bytes, more: int) -> tuple[bytes, Optional[bytes]]:
        answer, number = self.table[frame]
        if not number:
            return answer, None
        kept = self.journal.payments.get(number)
        if kept is not None:
            is_same = kept[0] == frame[-8:] or self.way is Way.ANY_MAC
            if self.way is Way.NO_REPEATS and number in self.earlier:
                is_same = False
            return (answer if is_same else b"\x00\x0d\x01\x03" + number + b"\x05"), None
        # The last sixteenth of the records is for reversals, of which a stand-in knows none.
        if 16 * (self.journal.room - self.journal.count - more) < max(self.journal.room, 1):
            return b"\x00\x0d\x01\x03" + number + b"\x06", None
        code = int(answer[14:16])
        self.journal.payments[number] = (frame[-8:], code)
        return answer, (b"\x01\x00\x00" + number + frame[-20:-16] + bytes([code]) + frame[-8:]
                        + bytes(5))


def is_ready(readers: list[int], writers: list[int], seconds: float = 0) -> bool:
    """Whether one of these files can be read or written within so many seconds."""
    return any(select.select(readers, writers, [], seconds))


def serve(host: Host) -> Optional[bytes]:
    """What ended the service, if that was a fault."""
    stream = b""
    while host.way is not Way.GIVES_UP or is_ready([0], [], PATIENCE):
        piece = os.read(0, 4096 if host.way is Way.SMALL_READS else READ)
        if not piece:
            break
        stream += piece
        frames = []
        while len(stream) >= 2 and stream[:2] <= b"\x00\x3e":
            end = 2 + int.from_bytes(stream[:2], "big")
            if end > len(stream):
                break
            frames.append(stream[:end])
            stream = stream[end:]
        host.answer_all(frames)
        if stream[:2] > b"\x00\x3e" and len(stream) >= 2:
            return b"serve: frame too long\n"
    return b"serve: input ends in a frame\n" if stream else None


def show(image: bytes) -> int:
    ended = journal_ended(image)
    os.write(1, ended.output)
    os.write(2, ended.faults)
    return ended.status


def copy(image: bytes, new: str) -> int:
    entries = copied(image)
    if isinstance(entries, Refusal):
        os.write(2, b"journal: failed\n")
        return 1
    Path(new).write_bytes(journal_of([[it] for it in entries], 0))
    return 0


def main(way: str, table: str) -> int:
    if sys.argv[1] != "serve":
        image = Path(sys.argv[3 if sys.argv[1] == "show" else 2]).read_bytes()
        identity, plain = identity_by(Way(way), image), plain_by(Way(way), image)
        read = image if identity is None else checked(plain, identity) if plain is not None else b""
        return show(read) if sys.argv[1] == "show" else copy(read, sys.argv[3])
    answers = read_table(table)
    try:
        fault = serve(Host(Journal(sys.argv[4], Way(way)), answers))
    except OldVersion:
        fault = b"journal: version 1, use copy-journal\n"
    except OSError:
        fault = b"journal: failed\n"
    if fault:
        os.write(2, fault)
    return 1 if fault else 0
