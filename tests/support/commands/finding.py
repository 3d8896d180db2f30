"""What `find` writes, by docs/COMMANDS.md: the number and the key of it that made a frame, a MAC, a PIN
block or a ciphertext. All keys of all numbers are tried one after another, each derived anew."""
from __future__ import annotations

import re
from typing import Callable, Iterator, Optional, Union

from ..formats.frames import (
    Reply, Request, Reversal, ReversalReply, read_answer, read_request, read_reversal,
    read_reversal_reply)
from ..standards.des import decrypt_block, encrypt_block
from ..standards.dukpt import (
    SPENT, counter_of, initial_key, iksn_of, key_of, next_counter, pin_key, request_data_key,
    request_key, response_data_key, response_key, serial_text, usable)
from ..standards.macs import cmac, retail_mac
from ..standards.pin_blocks import PAN_LENGTHS, is_number, pin_in
from .commands import DOUBLE, SERIAL, Refused, hexadecimal

MOST_NUMBERS = 100_000
BLOCK = (16,)

WithMac = Union[Request, Reply, Reversal, ReversalReply]
# The words behind the name of a key that made it, or nothing where it did not.
Made = Callable[[bytes], Optional[str]]


def keys_of_number(key: bytes) -> list[tuple[str, bytes]]:
    """The keys of a transaction key, by their names and in their order."""
    return [("key", key), ("pin", pin_key(key)), ("request-mac", request_key(key)),
            ("response-mac", response_key(key)), ("request-data", request_data_key(key)),
            ("response-data", response_data_key(key))]


def frame_with_mac(frame: bytes) -> Optional[WithMac]:
    """A frame of any kind, but a refusal: that has no MAC."""
    found = (read_request(frame) or read_answer(frame) or read_reversal(frame)
             or read_reversal_reply(frame))
    return found if isinstance(found, (Request, Reply, Reversal, ReversalReply)) else None


# What is sought, by the options that tell of it


def of_frame(word: str) -> tuple[Made, int]:
    """And the first number of the frame's terminal."""
    frame = bytes.fromhex(word) if re.fullmatch("([0-9A-Fa-f]{2})*", word) else b""
    found = frame_with_mac(frame)
    if found is None:
        raise Refused("WHAT refused")
    return (lambda key: " retail" if retail_mac(key, found.text) == found.mac else None,
            iksn_of(found.serial) + 1)


def of_text(mac: bytes, text: str, is_hex: bool) -> Made:
    data = hexadecimal(text, (len(text) // 2 * 2,), "TEXT") if is_hex else text.encode(errors="surrogateescape")
    if not data:
        raise Refused("TEXT refused")

    def made(key: bytes) -> Optional[str]:
        if retail_mac(key, data) == mac:
            return " retail"
        return " cmac" if cmac(key, data) == mac else None

    return made


def of_pin_block(block: bytes, pan: str) -> Made:
    if not is_number(pan, PAN_LENGTHS):
        raise Refused("PAN refused")
    return lambda key: (
        "" if pin_in(int.from_bytes(decrypt_block(key, block), "big"), pan) is not None else None)


def of_ciphertext(block: bytes, word: str) -> Made:
    clear = hexadecimal(word, BLOCK, "BLOCK")
    return lambda key: "" if encrypt_block(key, clear) == block else None


# The whole


def numbers_from(serial: int) -> Iterator[int]:
    """The usable numbers of a terminal from this one on."""
    counter = counter_of(serial)
    if not usable(counter):
        counter = next_counter(counter)
    while counter < SPENT:
        yield iksn_of(serial) + counter
        counter = next_counter(counter)


def progress_lines(size: int, most: int, numbers: int) -> list[str]:
    """What a search for the MAC of a text of so many bytes tells of its progress, where so many numbers
    were tried, the last of them too: a line after each step that another number comes behind."""
    step = max(1, 3_000_000 // (24 + size))
    return [f"tried {count} of {most}" for count in range(step, numbers, step)]


def window_in(word: Optional[str]) -> int:
    if word is None:
        return MOST_NUMBERS
    if not re.fullmatch("[0-9]+", word) or not 1 <= int(word) <= MOST_NUMBERS:
        raise Refused("window refused")
    return int(word)


def find_lines(base: str, what: str, from_: Optional[str] = None, window: Optional[str] = None,
               text: Optional[str] = None, hex_: bool = False, pan: Optional[str] = None,
               clear: Optional[str] = None, initial: bool = False) -> list[str]:
    key, first = hexadecimal(base, DOUBLE, "initial" if initial else "BDK"), 0
    if text is None and pan is None and clear is None:
        made, first = of_frame(what)
    else:
        block = hexadecimal(what, BLOCK, "WHAT")
        made = (of_text(block, text, hex_) if text is not None
                else of_pin_block(block, pan) if pan is not None
                else of_ciphertext(block, clear or ""))
    if from_ is not None:
        first = int.from_bytes(hexadecimal(from_, SERIAL, "KSN"), "big")
    most = window_in(window)
    own = key if initial else initial_key(key, iksn_of(first))
    for _, number in zip(range(most), numbers_from(first)):
        for name, under in keys_of_number(key_of(own, number)):
            rest = made(under)
            if rest is not None:
                return [f"found {serial_text(number)} {name}{rest}"]
    raise Refused("not found")
