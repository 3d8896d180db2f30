"""The local master key: the exclusive or of components, each in a file that one holder brings."""
from __future__ import annotations

import ctypes
import os
import re
import string
from contextlib import contextmanager
from itertools import combinations
from pathlib import Path
from typing import Any, Iterator, Sequence

import dukpt

from .configuration import Refused

# One line: the digits of a component, and its check value as `dukpt kcv` prints it.
LINE = re.compile(rb"([0-9A-Fa-f]{32}|[0-9A-Fa-f]{48}) [0-9A-Fa-f]{6}\n")
LONGEST = 56
VALUES = {ord(digit): int(digit, 16) for digit in string.hexdigits}
LEAST = 2
DES_KEY = 8


@contextmanager
def local_master_key(files: Sequence[str]) -> Iterator[bytearray]:
    """The key that component files make, or without any those that systemd has as credentials. Its
    bytes are wiped in the end, and so are those of the files. A fault names a file by its place."""
    places = list(map(Path, files)) or credentials()
    if len(places) < LEAST:
        raise Refused("fewer than two components: --component FILE for each, or the credentials"
                         " lmk.1 and lmk.2 of systemd")
    lmk, values = bytearray(), set[bytes]()
    try:
        for at, place in enumerate(places, 1):
            value = add_component(lmk, place, f"component {at}")
            if value in values:
                raise Refused(f"component {at}: its check value stands before: is it the same one?")
            values.add(value)
        if is_weak(lmk):
            raise Refused("the local master key is weak: two of its DES keys are equal")
        yield lmk
    finally:
        wipe(lmk)


def credentials() -> list[Path]:
    folder = os.environ.get("CREDENTIALS_DIRECTORY")
    return sorted(Path(folder).glob("lmk.[1-9]")) if folder else []


def add_component(lmk: bytearray, place: Path, name: str) -> bytes:
    """Adds the component of a file, and answers its check value."""
    line = bytearray(LONGEST + 1)
    component = bytearray()
    try:
        size = read_into(line, place, name)
        found = LINE.fullmatch(line, 0, size)
        if found is None:
            raise Refused(f"{name}: no component file: digits, a space, their check value")
        component += bytes(found.end(1) // 2)
        for at in range(len(component)):
            component[at] = VALUES[line[2 * at]] << 4 | VALUES[line[2 * at + 1]]
        told = bytes.fromhex(line[found.end(1) + 1 : size - 1].decode())
        if dukpt.check_value(in_place(component)) != told:
            raise Refused(f"{name}: another check value than its digits have")
        if lmk and len(component) != len(lmk):
            raise Refused(f"{name}: another length than component 1")
        lmk += bytes(0 if lmk else len(component))
        for at, byte in enumerate(component):
            lmk[at] ^= byte
        return told
    finally:
        wipe(line)
        wipe(component)


def read_into(line: bytearray, place: Path, name: str) -> int:
    """Reads a file, and answers how many bytes it has, or that they are too many."""
    size = 0
    try:
        with place.open("rb", buffering=0) as file, memoryview(line) as view:
            while count := file.readinto(view[size:]):
                size += count
    except OSError:
        raise Refused(f"{name}: cannot read") from None
    return size


def is_weak(key: bytearray) -> bool:
    """Whether two of its DES keys are equal but for parity, so that it is worth less."""
    return any(all((key[one + at] ^ key[other + at]) & 0xFE == 0 for at in range(DES_KEY))
               for one, other in combinations(range(0, len(key), DES_KEY), 2))


def in_place(held: bytearray) -> Any:
    """The same bytes as the library takes them without a copy, which nobody could wipe."""
    return (ctypes.c_char * len(held)).from_buffer(held)


def wipe(held: bytearray) -> None:
    held[:] = bytes(len(held))
