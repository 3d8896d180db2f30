"""Writes the transaction keys of key serial numbers at random, as `derive` of main.c does.

usage: derive.py dukpt|cryptography COUNT
"""
from __future__ import annotations

import sys
from pathlib import Path
from typing import Callable, Iterator

BDK = bytes.fromhex("0123456789ABCDEFFEDCBA9876543210")
LAST_COUNTER = 0x1FFFFF
MOST_ONES = 10
WORD = (1 << 64) - 1


def numbers(state: int) -> Iterator[int]:
    """The numbers of Marsaglia's generator xorshift64."""
    while True:
        state ^= state << 13 & WORD
        state ^= state >> 7
        state ^= state << 17 & WORD
        yield state


def serial_of(number: int) -> bytes:
    """A key serial number with a usable counter. Of more than ten ones the others are at most ten."""
    counter = number & LAST_COUNTER
    if not 1 <= bin(counter).count("1") <= MOST_ONES:
        counter = LAST_COUNTER - counter
    return b"\xff\xff" + (number & ~LAST_COUNTER | counter).to_bytes(8, "big")


def derivation(name: str) -> Callable[[bytes, bytes], bytes]:
    """The function of this package. Nothing else of either is loaded."""
    if name == "cryptography":
        from over_cryptography import derive
        return derive
    sys.path.insert(0, str(Path(__file__).resolve().parents[2] / "library" / "python"))
    import dukpt
    return dukpt.derive


def main(name: str, count: int) -> None:
    derive, state = derivation(name), numbers(88172645463325252)
    write = sys.stdout.buffer.write
    for _ in range(count):
        write(derive(BDK, serial_of(next(state))))


if __name__ == "__main__":
    main(sys.argv[1], int(sys.argv[2]))
