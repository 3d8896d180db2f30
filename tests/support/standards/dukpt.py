"""Derived unique key per transaction (ANSI X9.24-1:2009 annex A), with keys of 16 bytes.

A key serial number is an integer of 80 bits: 59 of the initial key serial number, which is written
with a counter of zero, and 21 of the counter.
"""
from __future__ import annotations

import itertools
from dataclasses import dataclass, replace
from functools import lru_cache
from typing import Optional

from .des import encrypt_block, encrypted, triple_encrypted

COUNTER_BITS = 21
# The next counter of a terminal that has no number left.
SPENT = 1 << COUNTER_BITS
LOW = (1 << 64) - 1

KEY_MASK = bytes.fromhex("C0C0C0C000000000" * 2)
PIN_VARIANT = bytes.fromhex("00000000000000FF" * 2)
REQUEST_VARIANT = bytes.fromhex("000000000000FF00" * 2)
RESPONSE_VARIANT = bytes.fromhex("00000000FF000000" * 2)
# ANSI X9.24-1:2009 annex A.4.1: of the key that enciphers a request's data, and a response's.
REQUEST_DATA_VARIANT = bytes.fromhex("0000000000FF0000" * 2)
RESPONSE_DATA_VARIANT = bytes.fromhex("000000FF00000000" * 2)

NO_KEY = bytes(16)
# How many initial key serial numbers a terminal keeps beside its present one.
MOST_PAST = 8


def serial_text(serial: int) -> str:
    return f"{serial:020X}"


def counter_of(serial: int) -> int:
    return serial % SPENT


def iksn_of(serial: int) -> int:
    return serial - counter_of(serial)


def prefix_of(serial: int) -> bytes:
    """The five bytes that name the key set of a number."""
    return (serial >> 40).to_bytes(5, "big")


def usable(counter: int) -> bool:
    return 0 < counter < SPENT and bin(counter).count("1") <= 10


@lru_cache(1 << 12)
def next_counter(counter: int) -> int:
    """The least usable counter above one, or that of a spent terminal."""
    above = itertools.takewhile(lambda it: it < SPENT, itertools.count(counter + 1))
    return next(filter(usable, above), SPENT)


def masked(key: bytes, mask: bytes) -> bytes:
    return (int.from_bytes(key, "big") ^ int.from_bytes(mask, "big")).to_bytes(16, "big")


def pin_key(key: bytes) -> bytes:
    return masked(key, PIN_VARIANT)


def request_key(key: bytes) -> bytes:
    return masked(key, REQUEST_VARIANT)


def response_key(key: bytes) -> bytes:
    return masked(key, RESPONSE_VARIANT)


def under_itself(variant: bytes) -> bytes:
    """Each half of a key, enciphered under the whole of it."""
    return encrypt_block(variant, variant[:8]) + encrypt_block(variant, variant[8:])


def request_data_key(key: bytes) -> bytes:
    """The key that enciphers the data of a request."""
    return under_itself(masked(key, REQUEST_DATA_VARIANT))


def response_data_key(key: bytes) -> bytes:
    """The key that enciphers the data of a response."""
    return under_itself(masked(key, RESPONSE_DATA_VARIANT))


@lru_cache(1 << 12)
def initial_key(base: bytes, iksn: int) -> bytes:
    """The initial key of an initial key serial number, from a base derivation key."""
    first = iksn >> 16
    halves = [triple_encrypted(key, first) for key in (base, masked(base, KEY_MASK))]
    return b"".join(half.to_bytes(8, "big") for half in halves)


def half_step(key: bytes, register: int) -> bytes:
    right = int.from_bytes(key[8:], "big")
    return (encrypted(key[:8], register ^ right) ^ right).to_bytes(8, "big")


@lru_cache(1 << 16)
def step(key: bytes, serial: int) -> bytes:
    """The key of a number from that of its parent."""
    register = serial & LOW
    return half_step(masked(key, KEY_MASK), register) + half_step(key, register)


def key_of(initial: bytes, serial: int) -> bytes:
    """The key of a number, from the initial key of its terminal: a step for each one bit of the
    counter, from the most significant down. That of counter zero is the initial key."""
    key, reached = initial, iksn_of(serial)
    for place in reversed(range(COUNTER_BITS)):
        if serial >> place & 1:
            reached |= 1 << place
            key = step(key, reached)
    return key


def derive(base: bytes, serial: int) -> bytes:
    """The transaction key of a number, from a base derivation key."""
    return key_of(initial_key(base, iksn_of(serial)), serial)


def held(counter: int, place: int) -> Optional[int]:
    """Of which counter the register of a place has the key, where this counter is the next one."""
    span = 2 << place
    number = (counter - 1) // span * span + (1 << place)
    return number if usable(number) and number >= counter else None


@dataclass(frozen=True)
class Registers:
    """What a terminal keeps: the initial key serial number, the counter of the next number, the key
    of each register, and the initial key serial numbers that it had before."""

    iksn: int
    counter: int
    keys: tuple[bytes, ...]
    past: tuple[int, ...] = ()

    @property
    def next(self) -> Optional[int]:
        """The next number, if there is one."""
        return None if self.counter == SPENT else self.iksn + self.counter

    def take(self) -> tuple[bytes, int, "Registers"]:
        """The key of the next number, that number, and what is kept then: its register is empty,
        and those below have the keys of its children, if it may have any."""
        serial, counter = self.iksn + self.counter, self.counter
        own = (counter & -counter).bit_length() - 1
        keys = list(self.keys)
        key, keys[own] = keys[own], NO_KEY
        if bin(counter).count("1") < 10:
            for place in range(own):
                keys[place] = step(key, serial + (1 << place))
        return key, serial, replace(self, counter=next_counter(counter), keys=tuple(keys))


@lru_cache(1 << 12)
def registers_at(initial: bytes, iksn: int, counter: int, past: tuple[int, ...] = ()) -> Registers:
    """The registers of a terminal whose next number has this counter."""
    numbers = [held(counter, place) for place in range(COUNTER_BITS)]
    keys = tuple(NO_KEY if it is None else key_of(initial, iksn + it) for it in numbers)
    return Registers(iksn, counter, keys, past)
