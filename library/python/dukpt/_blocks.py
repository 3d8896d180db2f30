"""Key blocks (ANSI X9.143, version B)."""
from __future__ import annotations

from ctypes import c_uint32
from typing import NamedTuple

from ._library import Data, call, filled, room
from ._values import Secret, shown


class KeyBlock(NamedTuple):
    """What a key block holds: usage, algorithm, mode, version and exportability as 7 characters,
    and a key of 16 or 24 bytes. Its `repr` has no key."""

    header: bytes
    key: Secret

    def __repr__(self) -> str:
        return shown(self, text="header")


def wrap(kbpk: Data, header: Data, key: Data, padding: Data) -> bytes:
    """The key block, at most 512 characters, of a key of 16 or 24 bytes under the key block
    protection key of 16 or 24. The header is usage, algorithm, mode, version and exportability, 7
    characters. The padding stands behind the key, and is to be random, as `secrets.token_bytes(6)`
    gives it: 6 bytes fill the blocks.

    Raises `Length`, then `BlockHeaderField`, then `BlockPadLength`.

    >>> kbpk = bytes.fromhex("DD7515F2BFC17F85CE48F3CA25CB21F6")
    >>> key = bytes.fromhex("3F419E1CB7079442AA37474C2EFBF8B8")
    >>> text = wrap(kbpk, b"P0TE00E", key, b"random")
    >>> text[:16], len(text), unwrap(kbpk, text).key == key
    (b'B0080P0TE00E0000', 80, True)
    """
    text, count = room(512), c_uint32()
    call("dukpt_wrap", kbpk=kbpk, header=header, key=key, padding=padding, text=text,
         text_length=count)
    return filled(text, count)


def wrap_with(kbpk: Data, header: Data, optional: Data, key: Data, padding: Data) -> bytes:
    """The key block as of `wrap`, with optional blocks: they stand one after the other, each an id
    of two characters, its whole length as two hexadecimal digits, and content that can be printed.
    In all they have a multiple of 8 characters.

    Raises `Length`, then `BlockHeaderField`, `BlockOptionalBlock`, `BlockPadLength`.

    >>> kbpk = bytes.fromhex("DD7515F2BFC17F85CE48F3CA25CB21F6")
    >>> key = bytes.fromhex("3F419E1CB7079442AA37474C2EFBF8B8")
    >>> text = wrap_with(kbpk, b"B1TX00N", b"KS18FFFF9876543210E00000", key, b"random")
    >>> text[:40]
    b'B0104B1TX00N0100KS18FFFF9876543210E00000'
    """
    text, count = room(512), c_uint32()
    call("dukpt_wrap_with", kbpk=kbpk, header=header, optional=optional, key=key, padding=padding,
         text=text, text_length=count)
    return filled(text, count)


def unwrap(kbpk: Data, text: Data) -> KeyBlock:
    """The header and the key of a key block under the key block protection key of 16 or 24 bytes.
    It takes any usage: `unwrap_for` takes one.

    Raises `Length`, then the first of `BlockLength`, `BlockVersion`, `BlockHeaderField`,
    `BlockOptionalBlock`, `BlockHex`, `BlockMac` and `BlockPayload`.

    >>> kbpk = bytes.fromhex("DD7515F2BFC17F85CE48F3CA25CB21F6")
    >>> text = (b"B0080P0TE00E000094B420079CC80BA3461F86FE26EFC4A3"
    ...         b"B8E4FA4C5F5341176EED7B727B8A248E")
    >>> block = unwrap(kbpk, text)
    >>> block
    KeyBlock(header=P0TE00E, key=..)
    >>> block.key.hex().upper()
    '3F419E1CB7079442AA37474C2EFBF8B8'
    """
    header, key, count = room(7), room(24), c_uint32()
    call("dukpt_unwrap", kbpk=kbpk, text=text, header=header, key=key, key_length=count)
    return KeyBlock(header.raw, Secret(filled(key, count)))


def unwrap_for(kbpk: Data, usage: Data, wanted: int, text: Data) -> Secret:
    """The key of a key block as of `unwrap`, if its usage is this one (2 characters), its algorithm
    T (TDES), and the key has the wanted length, 16 or 24 bytes. The mode of use is not compared:
    `unwrap` gives it in the header.

    Raises `Length`, also for another `wanted`, then what `unwrap` raises, then `OtherUsage`, also
    for another algorithm, then `OtherKeyLength`.

    >>> kbpk = bytes.fromhex("DD7515F2BFC17F85CE48F3CA25CB21F6")
    >>> text = (b"B0080P0TE00E000094B420079CC80BA3461F86FE26EFC4A3"
    ...         b"B8E4FA4C5F5341176EED7B727B8A248E")
    >>> unwrap_for(kbpk, b"P0", 16, text).hex().upper()
    '3F419E1CB7079442AA37474C2EFBF8B8'
    >>> unwrap_for(kbpk, b"B1", 16, text)
    Traceback (most recent call last):
    dukpt.faults.OtherUsage: OtherUsage (34): the key in the key block has another usage, or is no TDES key
    """
    key = room(24)
    call("dukpt_unwrap_for", kbpk=kbpk, usage=usage, wanted=wanted, text=text, key=key)
    return Secret(key.raw[:wanted])


def unwrap_optional(kbpk: Data, text: Data, id: Data) -> bytes:
    """The content, at most 251 characters, of the first optional block with this id (2 characters)
    of a key block whose MAC is right under the key block protection key of 16 or 24 bytes.

    Raises `Length`, then what `unwrap` raises, then `NoOptionalBlock`.

    >>> kbpk = bytes.fromhex("DD7515F2BFC17F85CE48F3CA25CB21F6")
    >>> key = bytes.fromhex("3F419E1CB7079442AA37474C2EFBF8B8")
    >>> text = wrap_with(kbpk, b"B1TX00N", b"KS18FFFF9876543210E00000", key, b"random")
    >>> unwrap_optional(kbpk, text, b"KS")
    b'FFFF9876543210E00000'
    """
    content, count = room(251), c_uint32()
    call("dukpt_unwrap_optional", kbpk=kbpk, text=text, id=id, content=content,
         content_length=count)
    return filled(content, count)
