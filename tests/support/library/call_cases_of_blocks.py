"""The cases of `call_cases` for key blocks."""
from __future__ import annotations

from typing import Iterator, Sequence

from ..standards import key_blocks, many
from ..standards.key_blocks import header
from .call_cases import BLOCK_ROOM, Argument, Chance, Drawn, drawn
from .library_calls import STATUS
from .library_values import CONTENT as CONTENT_ROOM

# How many optional blocks a key block has: none mostly.
COUNTS = (0, 0, 0, 1, 2, 3)


def pads(chance: Chance, count: int) -> list[bytes]:
    """Padding that fills whole blocks, behind two bytes and a key of 16 or 24."""
    return chance.bytes(count, 6, 6, 6, 14, 30)


@drawn("wrap", "bbbboc")
def wrap(chance: Chance, count: int) -> Iterator[Drawn]:
    protections, keys = chance.tdes_keys(count), chance.tdes_keys(count)
    fields, fills = chance.fields(count), pads(chance, count)
    made = many.wraps(protections, fields, keys, fills)
    olds = zip(chance.bytes(count, BLOCK_ROOM), chance.numbers(count))
    for protection, field, key, pad, old, text in zip(protections, fields, keys, fills, olds, made):
        way = chance.chance.random()
        if way < 0.03:
            # Two faults: the fields are looked at before the padding.
            given: list[Argument] = [protection, b"\x7f" + field[1:], key, pad[1:], *old]
            yield given, STATUS["BlockHeaderField"], []
        elif way < 0.06:
            yield [protection, field, key, pad[1:], *old], STATUS["BlockPadLength"], []
        else:
            yield [protection, field, key, pad, *old], 0, [text, len(text)]


def optional_blocks(chance: Chance, counts: Sequence[int] = COUNTS) -> tuple[int, bytes]:
    """As many optional blocks as one of these counts, which leave the whole a multiple of 8."""
    count, text = chance.chance.choice(counts), b""
    for at in range(count):
        length = chance.chance.randrange(4, 24)
        if at == count - 1:
            length += -(len(text) + length) % 8
        text += b"%b%02X" % (chance.fields(1)[0][:2], length)
        text += bytes(chance.chance.choices(range(0x20, 0x7F), k=length - 4))
    return count, text


# Part of one, lengths that are too small, none, or longer than the rest; no whole multiple of 8;
# and more than two digits count.
NO_OPTIONAL_BLOCKS = (b"KS", b"KS030", b"KS03    ", b"KS0Gtext", b"KSFFtext", b"KS09conte",
                      b"KS07abc", b"KS04" * 100)


@drawn("wrap_with", "bbbbboc")
def wrap_with(chance: Chance, count: int) -> Iterator[Drawn]:
    """Some have optional blocks that are none, and fields or padding that are wrong too."""
    protections, keys = chance.tdes_keys(count), chance.tdes_keys(count)
    fields, fills = chance.fields(count), pads(chance, count)
    blocks = [optional_blocks(chance) for _ in range(count)]
    payloads = many.payloads_of(keys, fills)
    fronts = [header(field, 32 + len(optional) + 2 * len(payload), number) + optional
              for field, payload, (number, optional) in zip(fields, payloads, blocks)]
    made = many.sealed(protections, fronts, payloads)
    olds = zip(chance.bytes(count, BLOCK_ROOM), chance.numbers(count))
    for at, old in enumerate(olds):
        given: list[Argument] = [protections[at], fields[at], blocks[at][1], keys[at], fills[at]]
        way = chance.chance.random()
        fault = ""
        if way < 0.03:
            given[1], given[2], fault = b"\x7f" + fields[at][1:], b"KS", "BlockHeaderField"
        elif way < 0.06:
            given[2] = blocks[at][1] + chance.chance.choice(NO_OPTIONAL_BLOCKS)
            given[4], fault = fills[at][1:], "BlockOptionalBlock"
        elif way < 0.09:
            given[4], fault = fills[at][1:], "BlockPadLength"
        yield [*given, *old], STATUS[fault or "Ok"], [made[at], len(made[at])]


def whole_blocks(
    chance: Chance, fields: Sequence[bytes], keys: Sequence[bytes], counts: Sequence[int]
) -> tuple[list[bytes], list[bytes], list[bytes]]:
    """Protection keys, key blocks under them, and the optional blocks in each."""
    protections, fronts, blocks = chance.tdes_keys(len(keys)), [], []
    payloads = many.payloads_of(keys, pads(chance, len(keys)))
    for field, payload in zip(fields, payloads):
        number, optional = optional_blocks(chance, counts)
        length = 32 + len(optional) + 2 * len(payload)
        fronts.append(header(field, length, number, chance.fields(1)[0][:2]) + optional)
        blocks.append(optional)
    return protections, many.sealed(protections, fronts, payloads), blocks


@drawn("unwrap", "bbooc")
def unwrap(chance: Chance, count: int) -> Iterator[Drawn]:
    fields, keys = chance.fields(count), chance.tdes_keys(count)
    protections, texts, _ = whole_blocks(chance, fields, keys, COUNTS)
    olds = zip(chance.bytes(count, 7), chance.bytes(count, 24), chance.numbers(count))
    for protection, text, old, field, key in zip(protections, texts, olds, fields, keys):
        yield [protection, text, *old], 0, [field, key, len(key)]


@drawn("unwrap_for", "bbnbo")
def unwrap_for(chance: Chance, count: int) -> Iterator[Drawn]:
    """Some want another usage, another length, or both; or a length that no key has. Some keys are
    of another algorithm."""
    keys = chance.tdes_keys(count)
    fields = [them if chance.chance.random() < 0.1 else them[:2] + b"T" + them[3:]
              for them in chance.fields(count)]
    protections, texts, _ = whole_blocks(chance, fields, keys, COUNTS)
    for at, old in enumerate(chance.bytes(count, 24)):
        usage, wanted, fault = fields[at][:2], len(keys[at]), "Ok"
        if chance.chance.random() < 0.1:
            wanted, fault = 40 - wanted, "OtherKeyLength"
        if chance.chance.random() < 0.1:
            usage, fault = bytes([usage[0] ^ 1, usage[1]]), "OtherUsage"
        if fields[at][2:3] != b"T":
            fault = "OtherUsage"
        if chance.chance.random() < 0.03:
            wanted, fault = chance.chance.choice((0, 15, 17, 23, 25, 128, 1 << 31)), "Length"
        yield [protections[at], usage, wanted, texts[at], old], STATUS[fault], [keys[at]]


@drawn("unwrap_optional", "bbboc")
def unwrap_optional(chance: Chance, count: int) -> Iterator[Drawn]:
    """One in two is asked for an optional block that is there; of some others none is."""
    fields, keys = chance.fields(count), chance.tdes_keys(count)
    protections, texts, _ = whole_blocks(chance, fields, keys, (0, 1, 2, 3))
    olds = zip(chance.bytes(count, CONTENT_ROOM), chance.numbers(count))
    for protection, text, old in zip(protections, texts, olds):
        there = dict(reversed(key_blocks.optional_blocks(text)))
        wanted = chance.chance.choice([*there, chance.chance.randbytes(2)])
        content = there.get(wanted)
        status = STATUS["NoOptionalBlock"] if content is None else 0
        yield [protection, text, wanted, *old], status, [content or b"", len(content or b"")]
