"""The log of used numbers as a file: its records, making one, and reading one strictly.

docs/FORMATS.md has the layout, under "Disk of a log".
"""
from __future__ import annotations

import os
from pathlib import Path
from typing import Sequence

# The bytes of a record: its gate, a key serial number, and zeros.
RECORD = 16
NUMBER = slice(1, 11)
ZEROS = slice(11, RECORD)
OPEN = 1


class DamagedLog(AssertionError):
    """That a file is no log, or not the one that it was made as."""


def record(number: bytes, gate: int = OPEN, rest: bytes = bytes(5)) -> bytes:
    return bytes([gate]) + number + rest


def log_image(numbers: Sequence[bytes], room: int) -> bytes:
    """A log with room for so many numbers that keeps these, and zeros behind them."""
    return b"".join(map(record, numbers)).ljust(RECORD * room, b"\x00")


def make_log(path: Path, room: int, numbers: Sequence[bytes] = ()) -> None:
    """Makes a log, with all its bytes written and synced."""
    with open(path, "wb") as it:
        it.write(log_image(numbers, room))
        it.flush()
        os.fsync(it.fileno())


def records_of(image: bytes) -> list[bytes]:
    return [image[at : at + RECORD] for at in range(0, len(image), RECORD)]


def numbers_in(image: bytes, room: int) -> list[bytes]:
    """The numbers that a log with room for so many keeps; what is damaged is an error."""
    if len(image) != RECORD * room:
        raise DamagedLog(f"the log has {len(image)} bytes, and not {RECORD * room}")
    numbers = open_numbers(image)
    if len(set(numbers)) < len(numbers):
        raise DamagedLog("the log has a number twice")
    return numbers


def open_numbers(image: bytes) -> list[bytes]:
    """The numbers of whole records, of which one may stand there twice; damage is an error."""
    gates = [one[0] == OPEN for one in records_of(image)]
    kept = records_of(image)[: sum(gates)]
    if not all(gates[: len(kept)]):
        raise DamagedLog("the log has an open record behind a closed one")
    for at, one in enumerate(kept):
        if any(one[ZEROS]):
            raise DamagedLog(f"record {at} of the log ends with {one[ZEROS].hex()}")
    return [one[NUMBER] for one in kept]


def read_log(path: Path, room: int) -> list[bytes]:
    """The same of a file."""
    return numbers_in(path.read_bytes(), room)
