"""Texts of key blocks of version B, right and wrong: sealed over the proved ciphers."""
from __future__ import annotations

from dataclasses import dataclass, replace
from functools import lru_cache

from .proved import Proved

ENCRYPTION, AUTHENTICATION = 0, 1


@dataclass(frozen=True)
class Parts:
    """What a key block is made of. What is None is as it is right."""

    kbpk: bytes
    key: bytes
    padding: bytes = bytes(6)
    header: str = "P0TE00E"
    version: str = "B"
    optional: str = ""
    count: str = "00"
    reserved: str = "00"
    bits: int | None = None
    length: str | None = None

    @property
    def payload(self) -> bytes:
        """What is enciphered: the length of the key in bits, the key and the padding."""
        bits = 8 * len(self.key) if self.bits is None else self.bits
        return bits.to_bytes(2, "big") + self.key + self.padding

    @property
    def front(self) -> str:
        """The header with its optional blocks."""
        size = 16 + len(self.optional) + 2 * len(self.payload) + 16
        length = f"{size:04}" if self.length is None else self.length
        return (self.version + length + self.header + self.count + self.reserved
                + self.optional)

    def but(self, **changes: object) -> Parts:
        """The same with some parts changed."""
        return replace(self, **changes)


class Sealer:
    """Writes key blocks over the proved ciphers (ANSI X9.143, the binding by key derivation)."""

    def __init__(self, proved: Proved) -> None:
        self.library = proved.library
        self.derived = lru_cache(None)(self.derive)

    def derive(self, kbpk: bytes, usage: int, algorithm: int | None = None) -> bytes:
        """The key of a usage: as many CMACs as it has blocks. The algorithm is that of the length
        of the protection key, or this one."""
        if algorithm is None:
            algorithm = 0 if len(kbpk) == 16 else 1
        about = bytes([0, usage, 0, 0, algorithm, 0, 8 * len(kbpk)])
        return b"".join(self.library.cmac(kbpk, bytes([1 + at]) + about)
                        for at in range(len(kbpk) // 8))

    def text(self, parts: Parts) -> str:
        """The text that version B has for these parts."""
        return self.sealed(parts, self.derived(parts.kbpk, ENCRYPTION),
                           self.derived(parts.kbpk, AUTHENTICATION))

    def sealed(self, parts: Parts, encryption: bytes, authentication: bytes) -> str:
        """The text under these two keys."""
        mac = self.library.cmac(authentication, parts.front.encode("ascii") + parts.payload)
        hidden = self.library.cbc_encrypt(encryption, mac, parts.payload)
        return parts.front + (hidden + mac).hex().upper()


def optional_block(name: str, content: str) -> str:
    """An optional block, with the length that it has."""
    return f"{name}{len(content) + 4:02X}{content}"


def padding_block(before: int, multiple: int = 8) -> str:
    """An optional block PB that fills others of so many characters to a multiple of this."""
    return optional_block("PB", "F" * (-(before + 4) % multiple))
