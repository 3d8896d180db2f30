"""TDES, on a block (NIST SP 800-67) and in cipher block chaining (NIST SP 800-38A)."""
from __future__ import annotations

from ._library import Data, call, room_with


def tdes_encrypt(key: Data, block: Data) -> bytes:
    """A block (8 bytes) enciphered under a key of 16 or 24 bytes.

    Raises `Length`.

    >>> key = bytes.fromhex("0123456789ABCDEF23456789ABCDEF01456789ABCDEF0123")
    >>> tdes_encrypt(key, b"The qufc").hex().upper()
    'A826FD8CE53B855F'
    """
    replaced = room_with("block", block)
    call("dukpt_tdes_encrypt", key=key, block=replaced)
    return replaced.raw


def tdes_decrypt(key: Data, block: Data) -> bytes:
    """A block (8 bytes) deciphered under a key of 16 or 24 bytes.

    Raises `Length`.

    >>> key = bytes.fromhex("0123456789ABCDEF23456789ABCDEF01456789ABCDEF0123")
    >>> tdes_decrypt(key, bytes.fromhex("A826FD8CE53B855F"))
    b'The qufc'
    """
    replaced = room_with("block", block)
    call("dukpt_tdes_decrypt", key=key, block=replaced)
    return replaced.raw


def cbc_encrypt(key: Data, iv: Data, data: Data) -> bytes:
    """Whole blocks of 8 bytes, perhaps none, enciphered by CBC under a key of 16 or 24 bytes and
    from an initial vector of 8.

    Raises `Length`.

    >>> key = bytes.fromhex("0123456789ABCDEF23456789ABCDEF01456789ABCDEF0123")
    >>> cbc_encrypt(key, bytes(8), b"The qufck brown fox jump").hex().upper()
    'A826FD8CE53B855F854B649A0A3903C970D563820AFE8B35'
    """
    replaced = room_with("data", data)
    call("dukpt_cbc_encrypt", key=key, iv=iv, bytes=replaced)
    return replaced.raw


def cbc_decrypt(key: Data, iv: Data, data: Data) -> bytes:
    """Whole blocks of 8 bytes, perhaps none, deciphered by CBC under a key of 16 or 24 bytes and
    from an initial vector of 8.

    Raises `Length`.

    >>> key = bytes.fromhex("0123456789ABCDEF23456789ABCDEF01456789ABCDEF0123")
    >>> enciphered = cbc_encrypt(key, bytes(8), b"The qufck brown fox jump")
    >>> cbc_decrypt(key, bytes(8), enciphered)
    b'The qufck brown fox jump'
    """
    replaced = room_with("data", data)
    call("dukpt_cbc_decrypt", key=key, iv=iv, bytes=replaced)
    return replaced.raw
