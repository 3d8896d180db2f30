"""What the commands over keys, PINs and key blocks write, by docs/COMMANDS.md: their output, or the
first fault of their arguments."""
from __future__ import annotations

import re
from typing import Optional

from ..standards.des import encrypt_block
from ..standards.dukpt import (
    counter_of, derive, initial_key, iksn_of, next_counter, pin_key, serial_text, usable)
from ..standards.key_blocks import BlockFault, unwrap, wrap
from ..standards.pin_blocks import fault_of, pin_block

DOUBLE, DOUBLE_OR_TRIPLE, SERIAL = (32,), (32, 48), (20,)
MOST_COUNT = 1_048_576


class Refused(Exception):
    """The fault of a command's words."""


def hexadecimal(word: str, lengths: tuple[int, ...], name: str) -> bytes:
    if len(word) not in lengths or not re.fullmatch("[0-9A-Fa-f]*", word):
        raise Refused(f"{name} refused")
    return bytes.fromhex(word)


def shown(data: bytes) -> str:
    return data.hex().upper()


def derive_lines(base: str, number: str) -> list[str]:
    key = hexadecimal(base, DOUBLE, "BDK")
    serial = int.from_bytes(hexadecimal(number, SERIAL, "KSN"), "big")
    if not usable(counter_of(serial)):
        raise Refused("counter refused")
    made = derive(key, serial)
    return [f"initial {shown(initial_key(key, iksn_of(serial)))}", f"key {shown(made)}",
            f"pin {shown(pin_key(made))}"]


def count_in(word: str) -> int:
    if not re.fullmatch("[0-9]+", word) or int(word) > MOST_COUNT:
        raise Refused("count refused")
    return int(word)


def walk_lines(base: str, iksn: str, count: str, skip: str = "0", bare: bool = False) -> list[str]:
    """The lines of `walk` for so few numbers that none runs out."""
    key = hexadecimal(base, DOUBLE, "BDK")
    serial = int.from_bytes(hexadecimal(iksn, SERIAL, "IKSN"), "big")
    if counter_of(serial):
        raise Refused("IKSN refused")
    printed, passed = count_in(count), count_in(skip)
    lines, counter = [], 0
    for at in range(passed + printed):
        counter = next_counter(counter)
        if at >= passed:
            number = serial + counter
            lines.append(serial_text(number) + ("" if bare else f" {shown(derive(key, number))}"))
    return lines


def pin_lines(pin: str, pan: str, key: Optional[str] = None) -> list[str]:
    fault = fault_of(pin.encode(), pan.encode())
    if fault:
        raise Refused(fault)
    under = None if key is None else hexadecimal(key, DOUBLE, "key")
    block = pin_block(pin, pan).to_bytes(8, "big")
    lines = [f"block {shown(block)}"]
    return lines if under is None else [*lines, f"enciphered {shown(encrypt_block(under, block))}"]


def wrap_lines(protection: str, fields: str, key: str, pad: str) -> list[str]:
    under = hexadecimal(protection, DOUBLE_OR_TRIPLE, "KBPK")
    if len(fields.encode()) != 7:
        raise Refused("fields refused")
    made = hexadecimal(key, DOUBLE_OR_TRIPLE, "key")
    padding = hexadecimal(pad, (len(pad) // 2 * 2,), "pad")
    try:
        return [wrap(under, fields.encode(), made, padding).decode()]
    except BlockFault as why:
        raise Refused(str(why)) from why


def unwrap_lines(protection: str, text: str) -> list[str]:
    under = hexadecimal(protection, DOUBLE_OR_TRIPLE, "KBPK")
    try:
        fields, key = unwrap(under, text.encode())
    except BlockFault as why:
        raise Refused(str(why)) from why
    return [f"fields {fields.decode()}", f"key {shown(key)}"]
