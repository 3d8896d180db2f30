"""Transaction keys over the package `cryptography`, as libraries for payments in Python derive them:
a cipher for each block, and the steps of ANSI X9.24-1:2009 annex A over bytes."""
from __future__ import annotations

from cryptography.hazmat.primitives.ciphers import Cipher, modes

try:
    from cryptography.hazmat.decrepit.ciphers.algorithms import TripleDES
except ImportError:  # before its version 43
    from cryptography.hazmat.primitives.ciphers.algorithms import TripleDES

COUNTER_BITS = 21
MASK = bytes.fromhex("C0C0C0C000000000" * 2)


def xor(one: bytes, other: bytes) -> bytes:
    return bytes(a ^ b for a, b in zip(one, other))


def enciphered(key: bytes, block: bytes) -> bytes:
    """A block under a key of 24 bytes, whose three parts are DES keys."""
    encryptor = Cipher(TripleDES(key), modes.ECB()).encryptor()
    return encryptor.update(block) + encryptor.finalize()


def des(key: bytes, block: bytes) -> bytes:
    return enciphered(key * 3, block)


def tdes(key: bytes, block: bytes) -> bytes:
    return enciphered(key + key[:8], block)


def initial_key(bdk: bytes, iksn: bytes) -> bytes:
    return tdes(bdk, iksn[:8]) + tdes(xor(bdk, MASK), iksn[:8])


def half_step(key: bytes, register: bytes) -> bytes:
    return xor(des(key[:8], xor(register, key[8:])), key[8:])


def step(key: bytes, register: bytes) -> bytes:
    """A child's key, of its parent's key and the low 64 bits of its key serial number."""
    return half_step(xor(key, MASK), register) + half_step(key, register)


def derive(bdk: bytes, ksn: bytes) -> bytes:
    """The transaction key: a step for each one bit of the counter, from the highest down."""
    number = int.from_bytes(ksn, "big")
    reached = number >> COUNTER_BITS << COUNTER_BITS
    key = initial_key(bdk, reached.to_bytes(10, "big"))
    for place in reversed(range(COUNTER_BITS)):
        bit = 1 << place
        if number & bit:
            reached |= bit
            key = step(key, reached.to_bytes(10, "big")[2:])
    return key
