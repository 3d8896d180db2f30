"""Texts that the page has to show, by the ciphers of the bench."""
from __future__ import annotations

from typing import Sequence

from ..standards import many
from ..standards.dukpt import pin_key, request_key, response_key

# The samples of ANSI X9.24-1: base derivation key, initial key serial number, initial key.
BASE = "0123456789ABCDEFFEDCBA9876543210"
IKSN = 0xFFFF9876543210E00000
INITIAL = "6AC292FAA1315B4D858AB3A3D7D5933A"

KINDS = ("initial", "transaction", "pin", "request", "response")
# The results of the panel "Derive", and those that a counter of zero has.
DERIVED = [f"derive-{kind}-{what}" for kind in KINDS for what in ("key", "kcv", "cmac")]


def upper(data: bytes) -> str:
    return data.hex().upper()


def check_values(keys: Sequence[bytes]) -> list[list[str]]:
    """Each key with its check value, and that by CMAC."""
    zeros = [bytes(8)] * len(keys)
    pairs = zip(keys, many.encrypted(keys, zeros), many.cmacs(keys, zeros))
    return [[upper(key), upper(first[:3]), upper(mac[:5])] for key, first, mac in pairs]


def derived(initials: Sequence[bytes], serials: Sequence[int]) -> list[list[str]]:
    """What `DERIVED` has for each number, by the initial key."""
    found = []
    for initial, key in zip(initials, many.transaction_keys(initials, serials)):
        found += [initial, key, pin_key(key), request_key(key), response_key(key)]
    values = check_values(found)
    return [sum(values[at : at + len(KINDS)], []) for at in range(0, len(values), len(KINDS))]
