"""Configurations, scripts and key blocks that are spoiled at random. Most are none any more, and
some still are."""
from __future__ import annotations

import random

from ..standards.key_blocks import header, sealed
from .worlds import Draft, digits, hexadecimal, quoted, random_draft, random_room, text_of

WRONG_VALUES = ("true", "1.0", "inf", '"x"', '""', "[]", "{}", "[1]", "[[]]", "1979-05-27", "-1")
WRONG_NUMBERS = ("0", "17", "100001", "100000", "4294967295", "4294967296", "9223372036854775807")
UNKNOWN_KEYS = ("port", "Lmk", "LMK", "zz", "a-b", "_", "0", '"a b"', '""', '"\\u00e9"', "bdks")
NO_TOML = (b"[[[\n", b"lmk\n", b"= 1\n", b'x = "\n', b"x = 'a\nb'\n", b"\xff\n", b"# \xc3\n",
           b"x = 01\n", b"x = 1\nx = 2\n", b"[bdk.x]\n[bdk.x]\n", b"x = tru\n", b"\x00\n")


def wrong_value(chance: random.Random) -> str:
    text = chance.choice((digits(chance, 3, 21), hexadecimal(chance, 4, 5, 15, 16, 17, 24), "disc",
                          "g" * 32, "0" * 31, "memory", "-1234", "12 34"))
    return chance.choice((*WRONG_VALUES, *WRONG_NUMBERS, quoted(chance, text)))


def spoil_front(chance: random.Random, draft: Draft) -> None:
    """A key that is missing, unknown or wrong."""
    way = chance.random()
    if way < 0.2:
        draft.front[chance.choice(UNKNOWN_KEYS)] = wrong_value(chance)
    elif way < 0.4:
        draft.front.pop(chance.choice(list(draft.front)))
    else:
        draft.front[chance.choice((*draft.front, "stores"))] = wrong_value(chance)


def spoil_entries(chance: random.Random, draft: Draft) -> None:
    """Entries that are too few, too many, no tables, or wrong in some field."""
    key = chance.choice(("bdk", "card", "card"))
    entries = draft.entries[key]
    way = chance.random()
    if way < 0.3:
        draft.front[key] = wrong_value(chance)
        entries.clear()
    elif way < 0.35:
        entries *= 9
    elif way < 0.4:
        entries.clear()
    elif entries:
        entry = dict(chance.choice(entries))
        field = chance.choice(list(entry))
        if way < 0.6:
            entry[field] = wrong_value(chance)
        elif way < 0.7:
            entry.pop(field)
        elif way < 0.8:
            entry["more"] = "1"
        entries.insert(chance.choice((0, 0, len(entries))), entry)


def spoiled_configuration(chance: random.Random) -> bytes:
    draft = random_draft(chance, chance.choice(("memory", "disk")), random_room(chance))
    for _ in range(chance.choice((1, 1, 1, 1, 2, 3))):
        chance.choice((spoil_front, spoil_entries, spoil_entries))(chance, draft)
    text = text_of(chance, draft)
    return chance.choice(NO_TOML) + text if chance.random() < 0.15 else text


# Scripts

NO_EVENTS = (
    b"up 01", b"up", b"up 1 ", b" up 1", b"up  1", b"up\t1", b"Up 1", b"up +1", b"up 4294967296",
    b"down 1", b"down t1 1", b"down 1 host", b"restart t0", b"restart t17", b"restart t01",
    b"restart", b"restart T1", b"load t1 FFFF9876543210E00001", b"load t1 FFFF9876543210E0000",
    b"load host FFFF9876543210E00000", b"begin t1 40123 1234 1", b"begin t1 401234567890 123 1",
    b"begin t1 401234567890 1234 -1", b"begin t1 401234567890 1234", b" # a comment", b"arm t1",
    b"arm host 4294967296", b"arm t1 0x1", b"up 1\r", b"\r", b"\xff", b"up \xd9\xa1",
)
BYTES = b"\n\r\t #019afz\x00\xff"


def spoiled_script(chance: random.Random, script: bytes) -> bytes:
    """A script with another line, or with bytes that are changed, put in or left out."""
    at = chance.randrange(len(script) + 1)
    if chance.random() < 0.4:
        lines = script.split(b"\n")
        lines.insert(chance.randint(0, len(lines)), chance.choice(NO_EVENTS))
        return b"\n".join(lines)
    put_in = bytes([chance.choice(BYTES)])
    return chance.choice((script[:at], script[:at] + put_in + script[at + 1 :],
                          script[:at] + put_in + script[at:], script[:at] + script[at + 1 :]))


# Key blocks

RIGHT_FIELDS = (b"B0TX00N", b"B1TX00N", b"P0TB00N", b"P0TE00E", b"~~~~~~~", b"       ")
CHARACTERS = "".join(map(chr, range(1, 127))) + "0123456789ABCDEF" * 8 + "\u00e9"


def optional_block(chance: random.Random, is_right: bool) -> bytes:
    """An optional block. One that is wrong has a length that is none, or another one."""
    content = bytes(chance.choices(range(0x20, 0x7F), k=chance.choice((0, 4, 12, 20))))
    length = b"%02X" % (4 + len(content))
    if not is_right:
        length = chance.choice((b"00", b"03", b"FF", b"G0", b"+4", b"  ", b"%02x" % len(content)))
    return b"XY" + (length if chance.random() < 0.5 else length.lower()) + content


def key_block(chance: random.Random, protection: bytes) -> bytes:
    """A key block at random, with optional blocks or without, whose payload may be none."""
    is_right = chance.random() < 0.7
    count = chance.choice((0, 0, 1, 3))
    optional = b"".join(optional_block(chance, is_right) for _ in range(count))
    if not is_right:
        count = chance.choice((0, 1, 2, 99))
    elif len(optional) % 8:
        optional, count = optional + b"PB04", count + 1
    key = chance.randbytes(chance.choice((16, 24)))
    bits = 8 * len(key) if chance.random() < 0.6 else chance.choice((0, 64, 127, 128, 192, 256))
    pad = chance.randbytes(-(2 + len(key)) % 8 + 8 * chance.choice((0, 0, 1, 4)))
    payload = bits.to_bytes(2, "big") + key + pad
    fields = chance.choice(RIGHT_FIELDS) if chance.random() < 0.7 else chance.choice((
        b"B0TX00\x7f", b"\x1f0TX00N", bytes(chance.choices(range(0x20, 0x7F), k=7))))
    length = 16 + len(optional) + 2 * len(payload) + 16
    reserved = chance.choice((b"00", b"00", b"zz"))
    return sealed(protection, header(fields, length, count, reserved) + optional, payload)


def spoiled_key_block(chance: random.Random, text: bytes) -> bytes:
    """A key block as it is, in lower case behind the header, cut, or with a character changed."""
    way = chance.random()
    at = chance.choice((0, chance.randrange(16), chance.randrange(len(text))))
    if way < 0.3:
        return text
    if way < 0.4:
        return text[:16] + text[16:].lower()
    if way < 0.5:
        cut = text[: chance.choice((at, len(text) - 8, len(text) - 16))]
        return cut[:1] + b"%04d" % len(cut) + cut[5:] if chance.random() < 0.7 else cut
    return text[:at] + chance.choice(CHARACTERS).encode() + text[at + 1 :]
