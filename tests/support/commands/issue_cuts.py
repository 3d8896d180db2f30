"""What a loss of power may leave of a ledger and of a new file of lines, by the calls of the run of `issue`
that wrote them.

Of the ledger, which has its size, any bytes where it was written since its last sync. Of the file of lines no
name before its folder was synced; and of what was written behind its last sync nothing, all, or a part, in
front or at the end, with zeros in the place of the rest.
"""
from __future__ import annotations

import copy
import random
import re
from dataclasses import dataclass
from enum import Enum
from typing import Iterator, Optional, Sequence

from ..system.cut_disk import CutDisk
from ..system.traced_files import OPENS, SYNCS, WRITES, Call

# The files by their names, and their folder.
LEDGER, LINES, FOLDER = "ledger", "blocks", "."
# A line that is whole, as docs/COMMANDS.md looks for them.
WHOLE = re.compile(rb"issued .* .{80} .{6}")


@dataclass(frozen=True)
class Left:
    """The bytes of both files. That of the lines may have no name."""

    ledger: bytes
    lines: Optional[bytes]

    @property
    def whole_lines(self) -> bytes:
        return whole_lines_in(self.lines)


def whole_lines_in(lines: Optional[bytes]) -> bytes:
    """The lines that docs/COMMANDS.md finds in a file, each with an end."""
    return b"".join(it + b"\n" for it in (lines or b"").split(b"\n") if WHOLE.fullmatch(it))


class Reaches(Enum):
    """How much of what was not synced reaches a file."""

    NOTHING = "nothing"
    ALL = "all"
    DRAWN = "what is drawn"


# What reaches the ledger and the lines, of each state that is not drawn.
EXTREMES = tuple((one, other) for one in (Reaches.NOTHING, Reaches.ALL)
                 for other in (Reaches.NOTHING, Reaches.ALL))


class NewFile:
    """A file that is made, and grows."""

    def __init__(self, whole: bytes) -> None:
        self.whole = whole
        self.is_made = self.is_named = False
        self.seen = self.sure = b""

    def take(self, call: Call) -> None:
        """Behind the bytes of a write stands how many they are."""
        if call.name in OPENS:
            self.is_made = True
        elif call.name == "write":
            self.seen = self.whole[: len(self.seen) + int(call.words.rpartition(", ")[2])]
        elif call.name in SYNCS:
            self.sure = self.seen
        elif call.name in WRITES:
            raise AssertionError(f"what does {call} do?")

    def left(self, how: Reaches, chance: random.Random) -> Optional[bytes]:
        is_there = {Reaches.NOTHING: self.is_named, Reaches.ALL: self.is_made,
                    Reaches.DRAWN: self.is_named or self.is_made and chance.random() < 0.5}[how]
        if not is_there:
            return None
        new = self.seen[len(self.sure) :]
        return self.sure + {Reaches.NOTHING: b"", Reaches.ALL: new, Reaches.DRAWN: a_part(new, chance)}[how]


def a_part(new: bytes, chance: random.Random) -> bytes:
    place = chance.randrange(len(new) + 1)
    front, rest = new[:place], bytes(len(new) - place)
    return chance.choice((front, front + rest, bytes(place) + new[place:]))


class Medium:
    """Both files as the calls of a run make them, from the ledger before it to what it left."""

    def __init__(self, before: bytes, after: Left) -> None:
        self.ledger, self.after = CutDisk(before), after
        self.lines = NewFile(after.lines or b"")

    def take(self, call: Call) -> None:
        """No byte of the ledger is written twice, so each write has the bytes that stand there at last."""
        if call.file == LINES:
            self.lines.take(call)
        elif call.file == FOLDER and call.name in SYNCS:
            self.lines.is_named = self.lines.is_made
        elif call.file == LEDGER and call.name in SYNCS:
            self.ledger.sync()
        elif call.file == LEDGER and call.name == "pwrite64":
            self.ledger.write(call.span.start, self.after.ledger[call.span.start : call.span.stop])
        elif call.file == LEDGER and call.name in WRITES:
            raise AssertionError(f"what does {call} do?")

    def left(self, ledger: Reaches, lines: Reaches, chance: random.Random) -> Left:
        disk = copy.deepcopy(self.ledger)
        if ledger is Reaches.NOTHING:
            disk.drop()
        elif ledger is Reaches.DRAWN:
            disk.cut(chance)
        return Left(bytes(disk.seen), self.lines.left(lines, chance))


def cuts_of(before: bytes, calls: Sequence[Call], after: Left, drawn: int,
            chance: random.Random) -> Iterator[Left]:
    """What a loss of power may leave before, in and behind each call: of each stretch between two calls each
    state once, those in which nothing or all reaches a file and of so many that are drawn."""
    medium = Medium(before, after)
    for at in range(len(calls) + 1):
        ways = [*EXTREMES, *[(Reaches.DRAWN, Reaches.DRAWN)] * drawn]
        yield from dict.fromkeys(medium.left(*way, chance) for way in ways)
        if at < len(calls):
            medium.take(calls[at])
