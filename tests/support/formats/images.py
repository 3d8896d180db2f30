"""What stands in a terminal's cell, on the disk of a cell and on that of a log, byte by byte."""
from __future__ import annotations

from dataclasses import dataclass
from typing import Optional, Sequence

from ..standards.dukpt import MOST_PAST, NO_KEY, SPENT, Registers, counter_of, held, usable

IMAGE_1, IMAGE_2, BODY = 350, 431, 503
SLOT, CELL_DISK, RECORD = 512, 1024, 16
LAST_SEQUENCE = (1 << 64) - 1
OPEN = 1

# A cell's image and a log's record


def image_of(registers: Registers, version: int = 2) -> bytes:
    """An image; of version 1 it has no place for what the terminal had before."""
    front = bytes([version]) + registers.iksn.to_bytes(10, "big")
    front += registers.counter.to_bytes(3, "big") + b"".join(registers.keys)
    if version == 1:
        return front
    past = b"".join(it.to_bytes(10, "big") for it in registers.past)
    return front + bytes([len(registers.past)]) + past.ljust(10 * MOST_PAST, b"\x00")


def body_of(registers: Registers, version: int = 2) -> bytes:
    return image_of(registers, version).ljust(BODY, b"\x00")


def read_past(data: bytes, iksn: int) -> Optional[tuple[int, ...]]:
    """The past initial key serial numbers behind the registers of an image of version 2."""
    count, places = data[0], data[1:]
    if count > MOST_PAST or any(places[10 * count :]):
        return None
    past = tuple(int.from_bytes(places[at : at + 10], "big") for at in range(0, 10 * count, 10))
    all_differ = len({iksn, *past}) == count + 1
    return past if all_differ and not any(map(counter_of, past)) else None


def read_image(data: bytes) -> Optional[Registers]:
    """The registers of an image of either version, if the bytes are one."""
    if (data[:1], len(data)) not in ((b"\x01", IMAGE_1), (b"\x02", IMAGE_2)):
        return None
    iksn, counter = int.from_bytes(data[1:11], "big"), int.from_bytes(data[11:14], "big")
    if counter_of(iksn) or not (usable(counter) or counter == SPENT):
        return None
    keys = tuple(data[at : at + 16] for at in range(14, IMAGE_1, 16))
    if any(key != NO_KEY and held(counter, place) is None for place, key in enumerate(keys)):
        return None
    past = () if len(data) == IMAGE_1 else read_past(data[IMAGE_1:], iksn)
    return None if past is None else Registers(iksn, counter, keys, past)


def read_body(body: bytes) -> Optional[Registers]:
    """The registers of an image with zeros behind it."""
    length = IMAGE_1 if body[:1] == b"\x01" else IMAGE_2
    return None if any(body[length:]) or len(body) != BODY else read_image(body[:length])


# The disk of a cell


@dataclass(frozen=True)
class Slot:
    gate: int
    sequence: int
    body: bytes

    @property
    def is_open(self) -> bool:
        return self.gate == OPEN

    def bytes(self) -> bytes:
        return bytes([self.gate]) + self.sequence.to_bytes(8, "big") + self.body


EMPTY_SLOT = Slot(0, 0, bytes(BODY))


def read_slot(data: bytes) -> Slot:
    return Slot(data[0], int.from_bytes(data[1:9], "big"), data[9:])


def cell_disk(first: Slot, second: Slot) -> bytes:
    return first.bytes() + second.bytes()


# The disk of a log


def record_of(serial: int) -> bytes:
    return bytes([OPEN]) + serial.to_bytes(10, "big") + bytes(5)


def log_disk(serials: Sequence[int], room: int) -> bytes:
    """The bytes of a log with these numbers and room for so many more."""
    return b"".join(map(record_of, serials)) + bytes(RECORD * room)


def read_record(record: bytes) -> int:
    return int.from_bytes(record[1:11], "big")
