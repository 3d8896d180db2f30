"""Key blocks of version B (ANSI X9.143): written, and read to the first fault that they have."""
from __future__ import annotations

from functools import lru_cache

from .des import cbc_decrypt, cbc_encrypt
from .macs import cmac

LENGTHS = range(80, 513)
PRINTED = range(0x20, 0x7F)
HEXADECIMAL = frozenset(b"0123456789ABCDEFabcdef")
ENCRYPTION, AUTHENTICATION = 0, 1


class BlockFault(Exception):
    """Why a text is no key block, or a key cannot be written as one."""


@lru_cache(1 << 8)
def derived(protection: bytes, usage: int) -> bytes:
    """The key of a usage, from a protection key of 16 or 24 bytes and as long as it."""
    length = len(protection)
    about = bytes([0, usage, 0, 0, 0 if length == 16 else 1, 0, 8 * length])
    return b"".join(cmac(protection, bytes([1 + at]) + about) for at in range(length // 8))


def sealed(protection: bytes, front: bytes, payload: bytes) -> bytes:
    """The text of a header with its optional blocks, and of a payload of whole blocks."""
    mac = cmac(derived(protection, AUTHENTICATION), front + payload)
    ciphertext = cbc_encrypt(derived(protection, ENCRYPTION), mac, payload)
    return front + (ciphertext + mac).hex().upper().encode()


def header(fields: bytes, length: int, count: int = 0, reserved: bytes = b"00") -> bytes:
    """The sixteen characters before the optional blocks, of a text of this length."""
    return b"B%04d%b%02d%b" % (length, fields, count, reserved)


def wrap(
    protection: bytes, fields: bytes, key: bytes, pad: bytes, optional: bytes = b""
) -> bytes:
    """The key block of a key, with these optional blocks."""
    if not all(byte in PRINTED for byte in fields):
        raise BlockFault("HeaderField")
    count = count_in(optional)
    payload = (8 * len(key)).to_bytes(2, "big") + key + pad
    length = 16 + len(optional) + 2 * len(payload) + 16
    if len(payload) % 8 or length > LENGTHS[-1]:
        raise BlockFault("PadLength")
    return sealed(protection, header(fields, length, count) + optional, payload)


def count_in(optional: bytes) -> int:
    """How many optional blocks these are, one after the other, as they are written."""
    at = count = 0
    while at < len(optional):
        at, count = behind_optional_block(optional, at), count + 1
    if at % 8 or count > 99 or not all(byte in PRINTED for byte in optional):
        raise BlockFault("OptionalBlock")
    return count


def behind_optional_block(text: bytes, at: int) -> int:
    """Where the optional block ends that begins here."""
    digits = text[at + 2 : at + 4]
    if len(digits) < 2 or not HEXADECIMAL.issuperset(digits):
        raise BlockFault("OptionalBlock")
    length = int(digits, 16)
    if length < 4 or at + length > len(text):
        raise BlockFault("OptionalBlock")
    return at + length


def behind_optional_blocks(text: bytes) -> int:
    """Where the ciphertext of a text with a right header begins."""
    at = 16
    for _ in range(int(text[12:14])):
        at = behind_optional_block(text, at)
    if len(text) - at < 64 or (len(text) - at) % 16:
        raise BlockFault("OptionalBlock")
    return at


def optional_blocks(text: bytes) -> list[tuple[bytes, bytes]]:
    """The id and the content of each optional block of a key block."""
    at, found = 16, []
    for _ in range(int(text[12:14])):
        end = behind_optional_block(text, at)
        found.append((text[at : at + 2], text[at + 4 : end]))
        at = end
    return found


def unwrap(protection: bytes, text: bytes) -> tuple[bytes, bytes]:
    """The seven characters of the header's fields and the key, or the first fault."""
    if len(text) not in LENGTHS or len(text) % 8 or text[1:5] != b"%04d" % len(text):
        raise BlockFault("Length")
    if text[:1] != b"B":
        raise BlockFault("Version")
    if not (all(byte in PRINTED for byte in text[5:12]) and text[12:14].isdigit()):
        raise BlockFault("HeaderField")
    at = behind_optional_blocks(text)
    if not HEXADECIMAL.issuperset(text[at:]):
        raise BlockFault("Hex")
    hidden = bytes.fromhex(text[at:].decode())
    ciphertext, mac = hidden[:-8], hidden[-8:]
    payload = cbc_decrypt(derived(protection, ENCRYPTION), mac, ciphertext)
    if cmac(derived(protection, AUTHENTICATION), text[:at] + payload) != mac:
        raise BlockFault("Mac")
    bits = int.from_bytes(payload[:2], "big")
    if bits not in (128, 192) or len(payload) < 2 + bits // 8:
        raise BlockFault("Payload")
    return text[5:12], payload[2 : 2 + bits // 8]
