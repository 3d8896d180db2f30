"""The calls of libdukpt over key blocks, by the formats of this bench."""
from __future__ import annotations

from typing import Callable, Sequence, TypeVar

from ..standards import key_blocks
from ..standards.key_blocks import BlockFault
from .library_values import CONTENT, TDES_KEYS, TEXT, Fault, Value, demand, roomy, sized

T = TypeVar("T")


def of_block(function: Callable[..., T], *arguments: bytes) -> T:
    """What is made of a key block, or its fault as a call has it."""
    try:
        return function(*arguments)
    except BlockFault as why:
        raise Fault(f"Block{why}") from why


def write_wrapped(
    kbpk: bytes, header: bytes, key: bytes, padding: bytes, text: bytes, length: int
) -> Sequence[Value]:
    return write_wrapped_with(kbpk, header, b"", key, padding, text, length)


def write_wrapped_with(
    kbpk: bytes, header: bytes, optional: bytes, key: bytes, padding: bytes, text: bytes, _: int
) -> Sequence[Value]:
    demand(len(kbpk) in TDES_KEYS and len(key) in TDES_KEYS)
    sized((header, 7))
    roomy((text, TEXT))
    made = of_block(key_blocks.wrap, kbpk, header, key, padding, optional)
    return [made, len(made)]


def write_unwrapped(
    kbpk: bytes, text: bytes, header: bytes, key: bytes, _: int
) -> Sequence[Value]:
    demand(len(kbpk) in TDES_KEYS)
    roomy((header, 7), (key, TDES_KEYS[-1]))
    fields, found = of_block(key_blocks.unwrap, kbpk, text)
    return [fields, found, len(found)]


def write_unwrapped_for(
    kbpk: bytes, usage: bytes, wanted: int, text: bytes, key: bytes
) -> Sequence[Value]:
    demand(len(kbpk) in TDES_KEYS and wanted in TDES_KEYS)
    sized((usage, 2))
    roomy((key, TDES_KEYS[-1]))
    fields, found = of_block(key_blocks.unwrap, kbpk, text)
    demand(fields[:2] == usage and fields[2:3] == b"T", "OtherUsage")
    demand(len(found) == wanted, "OtherKeyLength")
    return [found]


def write_optional_content(
    kbpk: bytes, text: bytes, wanted: bytes, content: bytes, _: int
) -> Sequence[Value]:
    demand(len(kbpk) in TDES_KEYS)
    sized((wanted, 2))
    roomy((content, CONTENT))
    of_block(key_blocks.unwrap, kbpk, text)
    for name, found in key_blocks.optional_blocks(text):
        if name == wanted:
            return [found, len(found)]
    raise Fault("NoOptionalBlock")
