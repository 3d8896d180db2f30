"""Ledgers as files: a header, and a record with a check sum for each key that was issued.

docs/FORMATS.md has the layout, under "Disk of a ledger".
"""
from __future__ import annotations

import zlib
from dataclasses import dataclass
from typing import Optional, Sequence

RECORD = 32
MARK = bytes.fromhex("01D544554B0D0A1A")
KIND, VERSION = 2, 2
# That of the ledgers that tests make, where they draw none.
IDENTITY = 0x0123456789ABCDEF
ISSUED, COPIED = 1, 2
OPEN = 1
# The largest number of a run.
MOST_RUN = (1 << 32) - 1


class DamagedLedger(AssertionError):
    """That a file is no ledger."""


@dataclass(frozen=True)
class Made:
    """How a key was made: its check value, that of its base derivation key, and the run."""

    key: bytes
    key_set: bytes
    run: int


@dataclass(frozen=True)
class Kept:
    """A number that a ledger keeps, and how its key was made, if that is known."""

    number: bytes
    made: Optional[Made] = None

    @property
    def line(self) -> str:
        """The line of `show ledger`."""
        words = ["issued", self.number.hex().upper()]
        if self.made:
            words += [self.made.key.hex().upper(), self.made.key_set.hex().upper(), str(self.made.run)]
        return " ".join(words) + "\n"


def header_of(identity: int = IDENTITY) -> bytes:
    said = (MARK + bytes([KIND, VERSION]) + bytes(5) + bytes([RECORD])
            + identity.to_bytes(8, "big") + bytes(4))
    return said + zlib.crc32(said).to_bytes(4, "little")


def identity_of(image: bytes) -> Optional[int]:
    """The identity of a ledger, if its first record is a header."""
    identity = int.from_bytes(image[16:24], "big")
    return identity if image[:RECORD] == header_of(identity) else None


def said_of(kept: Kept) -> bytes:
    """What stands behind the gate and in front of the check sum."""
    made = kept.made
    how = made.key + made.key_set + made.run.to_bytes(4, "big") if made else bytes(10)
    return bytes([ISSUED if made else COPIED, 0, 0]) + kept.number + how + bytes(3)


def record(kept: Kept, place: int, identity: int = IDENTITY) -> bytes:
    """The record at a place of the file, the header being that at 0."""
    said = said_of(kept)
    check = zlib.crc32(identity.to_bytes(8, "big") + place.to_bytes(8, "big") + said)
    return bytes([OPEN]) + said + check.to_bytes(4, "little") + bytes(1)


def ledger_image(kept: Sequence[Kept], room: int, identity: int = IDENTITY) -> bytes:
    """A ledger with room for so many that keeps these, and zeros behind them."""
    records = (record(one, 1 + at, identity) for at, one in enumerate(kept))
    return (header_of(identity) + b"".join(records)).ljust(RECORD * (1 + room), b"\x00")


def records_of(image: bytes) -> list[bytes]:
    return [image[at : at + RECORD] for at in range(0, len(image), RECORD)]


def kept_in(image: bytes) -> list[Kept]:
    """What a ledger keeps; what is damaged is an error with the place of the first wrong record."""
    identity = identity_of(image)
    if identity is None:
        raise DamagedLedger(0)
    found: list[Kept] = []
    for place, one in enumerate(records_of(image)[1:], start=1):
        if len(one) < RECORD:
            raise DamagedLedger(place)
        if one[0] != OPEN:
            continue
        kept = read(one)
        if len(found) + 1 != place or kept is None or one != record(kept, place, identity):
            raise DamagedLedger(place)
        found.append(kept)
    return found


def read(one: bytes) -> Optional[Kept]:
    """What stands where a record has an issue; the counter is that of an initial key."""
    number = one[4:14]
    if number[7] & 0x1F or number[8] or number[9]:
        return None
    if one[1] == COPIED:
        return Kept(number)
    return Kept(number, Made(one[14:17], one[17:20], int.from_bytes(one[20:24], "big")))


def shown_ledger(image: bytes) -> str:
    """What `show ledger` prints of a ledger."""
    kept = kept_in(image)
    identity = image[16:24].hex().upper()
    return (f"version 2\nidentity {identity}\n" + "".join(one.line for one in kept)
            + f"numbers {len(kept)}\nroom {len(image) // RECORD - 1 - len(kept)}\n")
