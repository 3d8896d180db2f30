"""What a loss of power may leave of a new file, by the calls that made it: any bytes where it was written
since its last sync, and elsewhere what that left."""
from __future__ import annotations

import random
from dataclasses import dataclass
from typing import Iterator, Sequence

from .traced_files import SYNCS, Call

# What the file of a new journal or ledger begins with, which is no front of either: the bytes of their
# header that tell it from a record of a log are right, and they are no whole records. A stand-in begins
# with the first of them alone.
BEGUN = b"\x01" + bytes(14) + b"\x20\x00"
MARKS = {range(1): BEGUN[:1], range(len(BEGUN)): BEGUN}
# Up to which places what was written may be left, with zeros behind: a gate, a kind, a part of a payment,
# a record, two; and how many more are drawn.
FRONTS = (1, 2, 20, 32, 64)
DRAWN = 20


@dataclass(frozen=True)
class Unsynced:
    """A file as its last sync left it, as it is read, and where it was written between."""

    synced: bytes
    now: bytes
    spans: tuple[range, ...]

    def __str__(self) -> str:
        spans = ", ".join(f"{it.start} to {it.stop}" for it in self.spans)
        return f"{len(self.now)} bytes, unsynced from {spans}"

    def left(self, chance: random.Random) -> Iterator[bytes]:
        """Each value of a byte that was written alone into others, or else some of what may be left; with
        the size that was synced, and with the new one."""
        count = len(self.now)
        is_byte = count > 1 and [len(it) for it in self.spans] == [1]
        fillings = (bytes([it]) * count for it in range(256)) if is_byte else self.drawn(chance)
        found = {self.filled(size, filling)
                 for filling in fillings for size in (len(self.synced), count)}
        yield from sorted(found)

    def drawn(self, chance: random.Random) -> Iterator[bytes]:
        """Other bytes, and those that were written up to a place, which is more often in front."""
        count = len(self.now)
        others = [bytes(count), b"\x01" * count, b"\xff" * count]
        yield from (*others, self.now, self.synced.ljust(count, b"\x00"))
        yield from (self.now[:front].ljust(count, b"\x00") for front in FRONTS)
        for _ in range(DRAWN):
            front = chance.randrange(min(count, chance.choice((4, 40, count))) + 1)
            behind = chance.choice((*others, chance.randbytes(count)))
            yield self.now[:front] + behind[front:]

    def filled(self, size: int, filling: bytes) -> bytes:
        """A file of this size, with these bytes where it was written."""
        image = bytearray(self.synced[:size].ljust(size, b"\x00"))
        for it in self.spans:
            image[it.start : min(it.stop, size)] = filling[it.start : min(it.stop, size)]
        return bytes(image[:size])


def unsynced_of(calls: Sequence[Call], file: str, whole: bytes) -> Iterator[Unsynced]:
    """What a new file is at each of its syncs, before it is done. It may begin with a mark; all else that
    is written are the bytes of the whole file."""
    now, synced, spans = b"", b"", []
    for call in (it for it in calls if it.file == file):
        if call.name == "ftruncate":
            size = int(call.words.split(", ")[1])
            now = now[:size].ljust(size, b"\x00")
        elif call.name == "pwrite64":
            at = call.span
            given = MARKS[at] if not now and at in MARKS else whole[at.start : at.stop]
            now = now[: at.start].ljust(at.start, b"\x00") + given + now[at.stop :]
            spans.append(at)
        elif call.name in SYNCS and (spans or now != synced):
            yield Unsynced(synced, now, tuple(spans))
            synced, spans = now, []
