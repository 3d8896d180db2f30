"""Why a key of TDES is weak, by NIST SP 800-67 Rev. 2 section 3.3.2 and docs/COMMANDS.md."""
from __future__ import annotations

from random import Random
from typing import Optional

# The four weak keys of DES, then its semi-weak ones in pairs, of which each undoes the other.
WEAK = tuple(map(bytes.fromhex, (
    "0101010101010101", "FEFEFEFEFEFEFEFE", "E0E0E0E0F1F1F1F1", "1F1F1F1F0E0E0E0E")))
SEMI_WEAK = tuple((bytes.fromhex(one), bytes.fromhex(other)) for one, other in (
    ("011F011F010E010E", "1F011F010E010E01"), ("01E001E001F101F1", "E001E001F101F101"),
    ("01FE01FE01FE01FE", "FE01FE01FE01FE01"), ("1FE01FE00EF10EF1", "E01FE01FF10EF10E"),
    ("1FFE1FFE0EFE0EFE", "FE1FFE1FFE0EFE0E"), ("E0FEE0FEF1FEF1FE", "FEE0FEE0FEF1FEF1")))
ALL_WEAK = (*WEAK, *(key for pair in SEMI_WEAK for key in pair))


def without_parity(key: bytes) -> bytes:
    return bytes(byte & 0xFE for byte in key)


WEAK_BITS = {without_parity(key) for key in ALL_WEAK}


def weakness(key: bytes) -> Optional[str]:
    """Why a key of 16 or 24 bytes is weak, in a word."""
    bits = without_parity(key)
    parts = [bits[at : at + 8] for at in range(0, len(bits), 8)]
    if not any(bits):
        return "zeros"
    if any(one == other for one, other in zip(parts, parts[1:])):
        return "halves"
    return "DES" if WEAK_BITS.intersection(parts) else None


def weak_key(chance: Random, size: int) -> bytes:
    """A key that is weak in one way or another, with parity bits at random."""
    parts = [chance.randbytes(8) for _ in range(0, size, 8)]
    kind = chance.randrange(4)
    if kind == 0:
        parts = [bytes(8)] * len(parts)
    elif kind == 1:
        at = chance.randrange(len(parts))
        parts[at] = parts[chance.randrange(len(parts))]
    else:
        parts[chance.randrange(len(parts))] = chance.choice((*ALL_WEAK, bytes(8)))
    return bytes(byte ^ chance.randrange(2) for part in parts for byte in part)
