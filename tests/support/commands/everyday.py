"""What the commands of every day write, by docs/COMMANDS.md: their lines, or the first fault.

It has `initial`, `registers`, `kcv`, `lmk`, `mac`, `data`, `unpin`, `translate`, `request` and `reply`, and `derive`
and `walk` with all of their options, over the ciphers of the bench. `everyday_words` has what stands
before them: how arguments are read, and secrets by reference.
"""
from __future__ import annotations

import re
from functools import reduce
from math import comb
from typing import Optional, Sequence, Union

from ..formats.frames import (
    NO_NUMBER, Refusal, Reply, Request, Reversal, ReversalReply, read_answer, read_request,
    read_reversal, read_reversal_reply, write_request, write_reversal)
from ..standards.des import cbc_decrypt, cbc_encrypt, decrypt_block, encrypt_block
from ..standards.dukpt import (
    COUNTER_BITS, counter_of, held, initial_key, iksn_of, key_of, pin_key, request_data_key,
    request_key, response_data_key, response_key, serial_text, usable)
from ..standards.macs import cmac, retail_mac
from ..standards.pin_blocks import PAN_LENGTHS, PIN_LENGTHS, pin_block, pin_in
from ..standards.weak_keys import weakness
from .commands import DOUBLE, DOUBLE_OR_TRIPLE, SERIAL, Refused, count_in, hexadecimal, shown, wrap_lines

MOST_ONES = 10
MOST_AMOUNT = 4_294_967_295
BLOCK = (16,)
# From 1 to 255 blocks.
DATA_LENGTHS = range(8, 255 * 8 + 1, 8)
NUMBERS = 1_048_575
# How many components a local master key has.
COMPONENTS = range(2, 10)

# What commands share


def base_name(initial: bool) -> str:
    """How a fault names the first key: with `--initial` it is the terminal's own."""
    return "initial" if initial else "BDK"


def base_key(word: str, initial: bool) -> bytes:
    return hexadecimal(word, DOUBLE, base_name(initial))


def terminal_key(key: bytes, serial: int, initial: bool) -> bytes:
    """The initial key of a number's terminal."""
    return key if initial else initial_key(key, iksn_of(serial))


def number_in(word: str) -> int:
    """A key serial number with a usable counter."""
    serial = int.from_bytes(hexadecimal(word, SERIAL, "KSN"), "big")
    if not usable(counter_of(serial)):
        raise Refused("counter refused")
    return serial


def number_under(base: str, word: str, initial: bool) -> tuple[bytes, int]:
    """The initial key and the number of these arguments."""
    key = base_key(base, initial)
    serial = number_in(word)
    return terminal_key(key, serial, initial), serial


def iksn_in(word: str) -> int:
    serial = int.from_bytes(hexadecimal(word, SERIAL, "IKSN"), "big")
    if counter_of(serial):
        raise Refused("IKSN refused")
    return serial


def demand_digits(word: str, name: str, lengths: range) -> None:
    if len(word.encode()) not in lengths:
        raise Refused(f"{name}Length")
    if not re.fullmatch("[0-9]*", word):
        raise Refused(f"{name}Digit")


def demand_pan(word: str) -> None:
    demand_digits(word, "Pan", PAN_LENGTHS)


def check_value(key: bytes) -> str:
    return shown(encrypt_block(key, bytes(8))[:3])


def mac_check_value(key: bytes) -> str:
    return shown(cmac(key, bytes(8))[:5])


# Keys of numbers


def steps_to(serial: int) -> list[int]:
    """The numbers on the way to a number: each one bit of its counter, from the most significant."""
    found = [iksn_of(serial)]
    for place in reversed(range(COUNTER_BITS)):
        if serial >> place & 1:
            found.append(found[-1] + (1 << place))
    return found[1:]


def derive_lines(base: str, number: str, initial: bool = False, trace: bool = False,
                 all_: bool = False) -> list[str]:
    first, serial = number_under(base, number, initial)
    lines = [f"step {serial_text(it)} {shown(key_of(first, it))}" for it in steps_to(serial) if trace]
    key = key_of(first, serial)
    lines += [f"initial {shown(first)}", f"key {shown(key)}", f"pin {shown(pin_key(key))}"]
    if all_:
        lines += [f"mac-request {shown(request_key(key))}", f"mac-response {shown(response_key(key))}",
                  f"data-request {shown(request_data_key(key))}",
                  f"data-response {shown(response_data_key(key))}"]
    return lines


def nth_counter(place: int) -> int:
    """The usable counter with so many before it; they are counted by their bits, as numbers with so
    many ones at most below each bit."""
    # Zero is none of them.
    left, ones, counter = place + 1, MOST_ONES, 0
    for bit in reversed(range(COUNTER_BITS)):
        below = sum(comb(bit, count) for count in range(ones + 1))
        if left >= below:
            left, ones, counter = left - below, ones - 1, counter | 1 << bit
    return counter


def walk_lines(base: str, iksn: str, count: str, skip: Optional[str] = None, ksn: bool = False,
               initial: bool = False) -> list[str]:
    key = base_key(base, initial)
    serial = iksn_in(iksn)
    printed, passed = count_in(count), count_in("0" if skip is None else skip)
    first = terminal_key(key, serial, initial)
    numbers = [serial + nth_counter(at) for at in range(passed, min(passed + printed, NUMBERS))]
    lines = [serial_text(it) + ("" if ksn else f" {shown(key_of(first, it))}") for it in numbers]
    return [*lines, "spent"] if passed + printed > NUMBERS else lines


def initial_lines(base: str, iksn: str) -> list[str]:
    key = base_key(base, False)
    made = initial_key(key, iksn_in(iksn))
    return [f"initial {shown(made)}", f"kcv {check_value(made)}"]


def registers_lines(base: str, number: str, initial: bool = False) -> list[str]:
    first, serial = number_under(base, number, initial)
    lines = []
    for place in range(COUNTER_BITS):
        counter = held(counter_of(serial), place)
        if counter is None:
            rest = "empty"
        else:
            of_register = iksn_of(serial) + counter
            rest = f"{serial_text(of_register)} {shown(key_of(first, of_register))}"
        lines.append(f"register {place} {COUNTER_BITS - place} {rest}")
    return lines


# Check values and MACs


def kcv_lines(words: Sequence[str], components: bool = False, show: bool = False) -> list[str]:
    keys = [hexadecimal(word, DOUBLE_OR_TRIPLE, "key") for word in words]
    if not components:
        return [line for key in keys for line in key_lines(key)]
    if len(set(map(len, keys))) > 1:
        raise Refused("key refused")
    key = reduce(lambda one, other: bytes(a ^ b for a, b in zip(one, other)), keys)
    lines = [line for part in keys for line in values_of(part, "component-")]
    return [*lines, *([f"key {shown(key)}"] if show else []), *key_lines(key)]


def lmk_lines(words: Sequence[str], new: bool = False, key: Optional[str] = None, fields: str = "",
              pad: str = "") -> list[str]:
    """Check values of the components of a local master key, and of their exclusive or; with a key its
    key block under that. Or the line of a new component."""
    if new:
        return [new_component(words)]
    lmk, lines = lmk_of(words)
    return lines if key is None else [*lines, f"block {wrap_lines(shown(lmk), fields, key, pad)[0]}"]


def new_component(words: Sequence[str]) -> str:
    """The one word as a key of odd parity, a space, and its check value."""
    if len(words) != 1 or not re.fullmatch("[0-9A-Fa-f]{32}|[0-9A-Fa-f]{48}", words[0]):
        raise Refused("random refused")
    random = bytes.fromhex(words[0])
    if weakness(random):
        raise Refused("random refused")
    key = bytes(it if bin(it).count("1") % 2 else it ^ 1 for it in random)
    return f"{shown(key)} {check_value(key)}"


def lmk_of(words: Sequence[str]) -> tuple[bytes, list[str]]:
    """The local master key of some components, and the lines of check values."""
    if len(words) not in COMPONENTS:
        raise Refused("components refused")
    parts: list[bytes] = []
    for place, word in enumerate(words, 1):
        part = component_in(word)
        if part is None or len(part) != len([*parts, part][0]):
            raise Refused(f"component {place} refused")
        parts.append(part)
    key = reduce(lambda one, other: bytes(a ^ b for a, b in zip(one, other)), parts)
    if weakness(key):
        raise Refused("LMK weak")
    return key, [*(f"component {place} {check_value(it)}" for place, it in enumerate(parts, 1)),
            f"lmk {check_value(key)}"]


def component_in(word: str) -> Optional[bytes]:
    """The component of a line: its digits, a space, and its check value."""
    found = re.fullmatch("([0-9A-Fa-f]{32}|[0-9A-Fa-f]{48}) ([0-9A-F]{6})", word)
    if found is None or check_value(bytes.fromhex(found[1])) != found[2]:
        return None
    return bytes.fromhex(found[1])


def key_lines(key: bytes) -> list[str]:
    why = weakness(key)
    return [*values_of(key, ""), *([] if why is None else [f"weak {why}"])]


def values_of(key: bytes, front: str) -> list[str]:
    return [f"{front}kcv {check_value(key)}", f"{front}cmac {mac_check_value(key)}"]


def mac_lines(word: str, text: str, is_cmac: bool = False, hex_: bool = False) -> list[str]:
    key = hexadecimal(word, DOUBLE_OR_TRIPLE if is_cmac else DOUBLE, "key")
    data = text.encode(errors="surrogateescape")
    if hex_:
        data = hexadecimal(text, (len(text) // 2 * 2,), "text")
    if not (data or is_cmac):
        raise Refused("text refused")
    return [f"mac {shown(cmac(key, data) if is_cmac else retail_mac(key, data))}"]


# Data


def data_lines(word: str, text: str, iv: Optional[str] = None, decipher: bool = False,
               hex_: bool = False) -> list[str]:
    before = bytes(8) if iv is None else hexadecimal(iv, BLOCK, "block")
    key = hexadecimal(word, DOUBLE_OR_TRIPLE, "key")
    data = text.encode(errors="surrogateescape")
    if hex_ or decipher:
        data = hexadecimal(text, (len(text) // 2 * 2,), "text")
    if len(data) not in DATA_LENGTHS:
        raise Refused("text refused")
    return [f"data {shown((cbc_decrypt if decipher else cbc_encrypt)(key, before, data))}"]


# PIN blocks


def opened(key: Optional[bytes], block: bytes, pan: str) -> str:
    """The PIN of a block, which is deciphered where there is a key."""
    clear = block if key is None else decrypt_block(key, block)
    pin = pin_in(int.from_bytes(clear, "big"), pan)
    if pin is None:
        raise Refused("NotAPinBlock")
    return pin


def unpin_lines(word: str, pan: str, key: Optional[str] = None, show: bool = False) -> list[str]:
    block = hexadecimal(word, BLOCK, "block")
    demand_pan(pan)
    pin = opened(None if key is None else hexadecimal(key, DOUBLE, "key"), block, pan)
    return [f"pin {pin}" if show else "block valid"]


def translate_lines(word: str, pan: str, base: str, number: str, zone: str,
                    initial: bool = False) -> list[str]:
    block = hexadecimal(word, BLOCK, "block")
    demand_pan(pan)
    first, serial = number_under(base, number, initial)
    under = hexadecimal(zone, DOUBLE_OR_TRIPLE, "zone")
    pin = opened(pin_key(key_of(first, serial)), block, pan)
    return [f"translated {shown(encrypt_block(under, pin_block(pin, pan).to_bytes(8, 'big')))}"]


# Frames


def request_lines(base: str, number: str, pan: str = "", pin: str = "", amount: str = "",
                  reverse: Optional[str] = None, initial: bool = False) -> list[str]:
    first, serial = number_under(base, number, initial)
    if reverse is not None:
        frame = write_reversal(key_of(first, serial), serial, other_in(reverse, serial))
        return [f"reversal {shown(frame)}"]
    demand_pan(pan)
    demand_digits(pin, "Pin", PIN_LENGTHS)
    if not re.fullmatch("[0-9]+", amount) or int(amount) > MOST_AMOUNT:
        raise Refused("amount refused")
    return [f"request {shown(write_request(key_of(first, serial), serial, pan, pin, int(amount)))}"]


def other_in(word: str, serial: int) -> int:
    """The number that a reversal under another number reverses."""
    other = int.from_bytes(hexadecimal(word, SERIAL, "number"), "big")
    if iksn_of(other) != iksn_of(serial):
        raise Refused("OtherIksn")
    if other == serial:
        raise Refused("SameNumber")
    if not usable(counter_of(other)):
        raise Refused("NotUsable")
    return other


def frame_in(word: str) -> bytes:
    """The bytes of a frame in hexadecimal; what is none is no frame either."""
    return bytes.fromhex(word) if re.fullmatch("([0-9A-Fa-f]{2})*", word) else b""


def reply_lines(base: str, request: str, answer: str, initial: bool = False) -> list[str]:
    key, frame = base_key(base, initial), frame_in(request)
    asked = read_request(frame) or read_reversal(frame)
    if asked is None or not usable(counter_of(asked.serial)):
        raise Refused("request refused")
    told = frame_in(answer)
    found = read_answer(told) or read_reversal_reply(told)
    if found is None:
        raise Refused("answer refused")
    if isinstance(found, Refusal) and found.serial in (asked.serial, NO_NUMBER):
        return [f"refused {serial_text(found.serial)} {found.reason}"]
    if isinstance(found, Refusal) or not is_of(found, asked):
        raise Refused("NotMine")
    under = response_key(key_of(terminal_key(key, asked.serial, initial), asked.serial))
    if retail_mac(under, found.text) != found.mac:
        raise Refused("BadMac")
    if isinstance(found, ReversalReply):
        return [f"{('none stands', 'undone')[found.state]} {serial_text(found.other)}"]
    return [f"accepted {serial_text(found.serial)} {found.code}"]


def is_of(found: Union[Reply, ReversalReply], asked: Union[Request, Reversal]) -> bool:
    """Whether a reply is to what was sent: of its kind, and its number or numbers."""
    if isinstance(found, ReversalReply) and isinstance(asked, Reversal):
        return (found.serial, found.other) == (asked.serial, asked.other)
    return (isinstance(found, Reply) and isinstance(asked, Request)
            and found.serial == asked.serial)
