"""The files, in their order, each with numbers of its own."""
from __future__ import annotations

from . import (
    ciphers, frames, images, key_blocks, key_blocks_read, keys, macs, numbers, pins, registers,
    reversals)
from .form import SCHEMA, VectorFile
from .operations import schema_text
from .proved import Proved

FILES = (
    VectorFile("initial_key.json", "TDES-DUKPT-INITIAL-KEY", 1, (
        "Initial keys (IPEK) of terminals, from a base derivation key.",),
        lambda _, draw: keys.initial_groups(draw)),
    VectorFile("derive.json", "TDES-DUKPT-DERIVE", 1001, (
        "Transaction keys of key serial numbers, from a base derivation key or an initial key.",
        "The variants are the key with both halves xored: pin_key with 00000000000000FF,",
        "request_mac_key with 000000000000FF00, response_mac_key with 00000000FF000000."),
        lambda _, draw: keys.derive_groups(draw)),
    VectorFile("next_number.json", "TDES-DUKPT-NUMBERS", 3001, (
        "Which counters number a transaction, and which number comes next.",),
        lambda _, draw: numbers.groups(draw)),
    VectorFile("registers.json", "TDES-DUKPT-REGISTERS", 4001, (
        "The 21 future key registers of a terminal whose next number is ksn.",
        "Place 0 is the register of the counter's lowest bit, the standard's register 21; place 20"
        " is the standard's register 1. An empty register is null."),
        lambda _, draw: registers.register_groups(draw)),
    VectorFile("walk.json", "TDES-DUKPT-WALK", 5001, (
        "A stretch of a terminal's life: it skips the first so many usable numbers, and takes count"
        " of them.", "sha256 is that of the keys, 16 bytes each, one behind the other."),
        lambda _, draw: registers.walk_groups(draw)),
    VectorFile("check_value.json", "TDES-CHECK-VALUE", 6001, (
        "Check values (KCV) of keys of 16 and 24 bytes.",),
        lambda _, draw: ciphers.check_groups(draw)),
    VectorFile("tdes.json", "TDES", 7001, (
        "Triple DES on a block, and in cipher block chaining without padding.",),
        lambda _, draw: ciphers.groups(draw)),
    VectorFile("pin_block.json", "PIN-BLOCK-FORMAT-0", 9001, (
        "PIN blocks of format 0, made and read, in clear and under a PIN key.",), pins.groups),
    VectorFile("retail_mac.json", "RETAIL-MAC", 11001, (
        "The retail MAC: single DES in a chain under the left half of the key, and triple DES of"
        " the last block.", "The message is filled with zero bytes to whole blocks."),
        lambda _, draw: macs.retail_groups(draw)),
    VectorFile("cmac.json", "TDES-CMAC", 12001, ("CMAC over triple DES, all eight bytes of it.",),
               macs.cmac_groups),
    VectorFile("key_block.json", "KEY-BLOCK-VERSION-B", 13001, (
        "Key blocks of version B, which bind a triple DES key to its header.",
        "wrap is given the padding, so that its answer is determined."),
        lambda proved, draw: key_blocks.groups(draw) + key_blocks_read.groups(proved, draw)),
    VectorFile("frames.json", "FRAMES", 15001, (
        "The frames between the terminals and the host of this project: docs/FORMATS.md of its"
        " repository.", "Another implementation of DUKPT has no use for them but as an example of a"
        " protocol."),
        lambda proved, draw: frames.groups(proved, draw) + reversals.groups(proved, draw)),
    VectorFile("images.json", "TERMINAL-IMAGES", 17001, (
        "The images that this project's terminals store: docs/FORMATS.md of its repository.",
        "Another implementation of DUKPT has no use for them but as an example of what a terminal"
        " has to keep."), images.groups),
)


def made(proved: Proved) -> dict[str, str]:
    """The text of each file, and of the schema."""
    texts = {it.name: it.text(proved) for it in FILES}
    texts[SCHEMA] = schema_text()
    return texts
