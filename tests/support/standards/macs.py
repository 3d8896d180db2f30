"""Message authentication codes of 8 bytes: CMAC over triple DES (NIST SP 800-38B), and the retail
MAC (ANSI X9.19, which is ISO 9797-1 algorithm 3 with padding method 1)."""
from __future__ import annotations

from functools import lru_cache

from .des import blocks, decrypted, encrypted, triple_encrypted


def doubled(block: int) -> int:
    """A block times two: a bit shifted out at the left comes back as 1B hexadecimal."""
    return block << 1 & (1 << 64) - 1 ^ (0x1B if block >> 63 else 0)


def cmac(key: bytes, message: bytes) -> bytes:
    """The CMAC of any message, under a key of 16 or 24 bytes."""
    mask = doubled(triple_encrypted(key, 0))
    if not message or len(message) % 8:
        message = (message + b"\x80").ljust(len(message) // 8 * 8 + 8, b"\x00")
        mask = doubled(mask)
    *given, last = blocks(message)
    state = 0
    for block in given:
        state = triple_encrypted(key, state ^ block)
    return triple_encrypted(key, state ^ last ^ mask).to_bytes(8, "big")


# A host makes the MAC of each request anew.
@lru_cache(1 << 12)
def retail_mac(key: bytes, message: bytes) -> bytes:
    """The retail MAC of a message that is not empty, under a key of 16 bytes."""
    left, right = key[:8], key[8:]
    state = 0
    for block in blocks(message + bytes(-len(message) % 8)):
        state = encrypted(left, state ^ block)
    return encrypted(left, decrypted(right, state)).to_bytes(8, "big")
