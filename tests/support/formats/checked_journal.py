"""Journals of version 2 as files: a header, and records whose contents have check sums.

docs/FORMATS.md has the layout, under "Disk of a journal". Behind its header a file of version 2 is one
of version 1 but for the check sums, which are the exclusive or of two files here: a file of version 1
becomes one of version 2, and is read as one of version 1 again. So bytes that break a rule in the one
break it in the other, and a wrong check sum is one of the zeros of version 1 that is none.
"""
from __future__ import annotations

import random
import zlib
from typing import Optional, Sequence, Union

from . import journal_records as records
from .journal_records import RECORD, Group, Place, Row

# The bytes in front of the records.
HEADER = RECORD
MARK = bytes.fromhex("01D544554B0D0A1A")
KIND, VERSION = 1, 2
# That of the journals that tests make, where they draw none.
IDENTITY = 0x0123456789ABCDEF
# In a record, what it says, and the check sum of that.
SAID, CHECK = slice(1, 27), slice(27, 31)


def check_bytes(check: int) -> bytes:
    """A check sum as it stands in a file: its lowest byte first."""
    return check.to_bytes(4, "little")


def header_of(identity: int = IDENTITY) -> bytes:
    said = (MARK + bytes([KIND, VERSION]) + bytes(5) + bytes([RECORD])
            + identity.to_bytes(8, "big") + bytes(4))
    return said + check_bytes(zlib.crc32(said))


def identity_of(image: bytes) -> Optional[int]:
    """The identity of a journal, if its first record is a header."""
    identity = int.from_bytes(image[16:24], "big")
    return identity if image[:HEADER] == header_of(identity) else None


def with_check_sums(behind: bytes, identity: int, first: int = 1) -> bytes:
    """Records, from a place of the file on, with the exclusive or of their check sums and what stands
    there. Zeros are no record."""
    found = []
    for at in range(0, len(behind), RECORD):
        record = behind[at : at + RECORD]
        if len(record) == RECORD and any(record):
            place = first + at // RECORD
            said = identity.to_bytes(8, "big") + place.to_bytes(8, "big") + record[SAID]
            check = zlib.crc32(said) ^ int.from_bytes(record[CHECK], "little")
            record = record[: CHECK.start] + check_bytes(check) + record[CHECK.stop :]
        found.append(record)
    return b"".join(found)


def checked(plain: bytes, identity: int = IDENTITY) -> bytes:
    """The file of version 2 that a file of version 1 becomes."""
    return header_of(identity) + with_check_sums(plain, identity)


def plain_of(image: bytes) -> Optional[bytes]:
    """The file of version 1 that one of version 2 becomes, if its first record is a header."""
    identity = identity_of(image)
    return None if identity is None else with_check_sums(image[HEADER:], identity)


def room_in(image: bytes) -> int:
    """For how many entries a journal has records."""
    return len(image) // RECORD - 1


def journal_of(groups: Sequence[Group], room: int, chance: Optional[random.Random] = None,
               identity: int = IDENTITY) -> bytes:
    """A journal of these groups, with so many records more, as `journal_records.journal_of` has it."""
    return checked(records.journal_of(groups, room, chance), identity)


def blank(room: int, identity: int = IDENTITY) -> bytes:
    """A new journal with room for so many entries."""
    return journal_of([], room, identity=identity)


def read_entries(image: bytes) -> Union[list[Row], Place]:
    """The payments and reversals of a journal, by the places of their records behind the header, or the
    first place where it breaks a rule."""
    plain = plain_of(image)
    if plain is None:
        return Place(0, HEADER - 1)
    # A file that is its header alone keeps nothing.
    rows = records.read_entries(plain) if plain else []
    return behind_header(rows) if isinstance(rows, Place) else rows


def behind_header(place: Place) -> Place:
    return Place(HEADER + place.first, HEADER + place.last)
