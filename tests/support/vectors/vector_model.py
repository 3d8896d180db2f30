"""The answer to each case of vectors/, by the ciphers and formats of this bench.

Inputs and outputs are as the files have them: bytes in hexadecimal, PINs, PANs, codes and key
blocks as text, and numbers.
"""
from __future__ import annotations

import hashlib
from functools import lru_cache
from typing import Any, Callable, Mapping, Optional, Sequence, Union

from ..formats import frames
from ..library import library_calls
from ..library.binding_cases import outputs as written
from ..library.library_values import (
    FAULTS, IMAGE, KEY, KSN, Fault, Value, demand, number, octets, sized)
from ..standards import many
from ..standards.dukpt import (
    NO_KEY, SPENT, counter_of, derive as key_under, initial_key as initial_under,
    iksn_of, registers_at, response_key, usable as is_usable)
from ..standards.macs import retail_mac

Outputs = dict[str, Any]
# What a case has beside bytes.
TEXTS = ("pin", "pan", "header", "code")
NUMBERS = ("skip", "count", "amount", "reason")
MOST = 512


def answer(operation: str, inputs: Mapping[str, Any]) -> Union[Outputs, str]:
    """The outputs of a case, or the name of its fault."""
    try:
        given = {name: read(operation, name, value) for name, value in inputs.items()}
        return {name: shown(value) for name, value in OPERATIONS[operation](**given).items()}
    except Fault as why:
        return str(why)


def read(operation: str, name: str, value: Any) -> Value:
    """An input as bytes, or as a number."""
    if name in NUMBERS:
        return int(value)
    is_text = name in TEXTS or (operation, name) == ("unwrap", "block")
    return value.encode() if is_text else bytes.fromhex(value)


def shown(value: Any) -> Any:
    """A value as the files have it."""
    if isinstance(value, bytes):
        return value.hex().upper()
    return [shown(it) for it in value] if isinstance(value, list) else value


def called(name: str, *arguments: Value) -> list[Value]:
    """What a call of the library writes by this bench. Buffers and counts are given as they are
    before it."""
    found = library_calls.answer(f"dukpt_{name}", arguments)
    if found.status:
        raise Fault(FAULTS[found.status])
    return written(name, found.arguments)


# Keys and numbers


def with_variants(key: bytes) -> Outputs:
    """A transaction key with what is made of it."""
    names = ("pin_key", "request_key", "response_key")
    pin_key, request, response = (called(name, key, bytes(KEY))[0] for name in names)
    return {"key": key, "pin_key": pin_key, "request_mac_key": request,
            "response_mac_key": response}


def transaction_keys(call: str, secret: bytes, ksn: bytes) -> Outputs:
    """The keys of a number that a terminal uses: the call by itself takes any other too."""
    called("check_usable", ksn)
    return with_variants(called(call, secret, ksn, bytes(KEY))[0])


def usable(ksn: bytes) -> Outputs:
    sized((ksn, KSN))
    return {"usable": is_usable(counter_of(number(ksn)))}


def registers(initial_key: bytes, ksn: bytes) -> Outputs:
    sized((initial_key, KEY), (ksn, KSN))
    counter = counter_of(number(ksn))
    demand(is_usable(counter), "NotUsable")
    keys = registers_at(initial_key, iksn_of(number(ksn)), counter).keys
    return {"registers": [None if key == NO_KEY else key for key in keys]}


@lru_cache(1)
def life() -> list[int]:
    """All usable counters in their order."""
    return [counter for counter in range(SPENT) if is_usable(counter)]


def walk(bdk: bytes, iksn: bytes, skip: int, count: int) -> Outputs:
    first = number(iksn)
    demand(counter_of(first) == 0, "NotInitial")
    numbers = [first + counter for counter in life()[skip : skip + count]]
    demand(len(numbers) == count, "Spent")
    made = many.keys_of([initial_under(bdk, first)], [(0, it) for it in numbers])
    keys = [made[0, it] for it in numbers]
    return {"sha256": hashlib.sha256(b"".join(keys)).digest(), "last_ksn": octets(numbers[-1]),
            "last_key": keys[-1]}


# PINs under a key


def encrypt_pin(key: bytes, pin: bytes, pan: bytes) -> Outputs:
    block = called("pin_block", pin, pan, bytes(8))[0]
    return {"block": called("tdes_encrypt", key, block)[0]}


def decrypt_pin(key: bytes, block: bytes, pan: bytes) -> Outputs:
    return pin_of_block(called("tdes_decrypt", key, block)[0], pan)


def pin_of_block(block: bytes, pan: bytes) -> Outputs:
    return {"pin": called("pin_of_block", block, pan, bytes(12), 0)[0].decode()}


# Key blocks


def wrap(kbpk: bytes, header: bytes, key: bytes, padding: bytes) -> Outputs:
    text = called("wrap", kbpk, header, key, padding, bytes(MOST), 0)[0]
    return {"block": text.decode()}


def unwrap(kbpk: bytes, block: bytes) -> Outputs:
    header, key = called("unwrap", kbpk, block, bytes(7), bytes(24), 0)
    return {"header": header.decode(), "key": key}


# Frames


def payment_request(key: bytes, ksn: bytes, pan: bytes, pin: bytes, amount: int) -> Outputs:
    made = called("payment_request", key, ksn, pan, pin, amount, bytes(64), 0)
    return {"frame": made[0]}


def read_request(frame: bytes) -> Outputs:
    ksn, pan, amount, block, mac = called(
        "read_request", frame, bytes(10), bytes(19), 0, 0, bytes(8), bytes(8))
    return {"ksn": ksn, "pan": pan.decode(), "amount": amount, "block": block, "mac": mac}


def request_pin(key: bytes, frame: bytes) -> Outputs:
    return {"pin": called("request_pin", key, frame, bytes(12), 0)[0].decode()}


def read_reply(frame: bytes) -> Outputs:
    ksn, code = called("read_reply", frame, bytes(10), bytes(2))
    return {"ksn": ksn, "code": code.decode()}


def read_refusal(frame: bytes) -> Outputs:
    ksn, reason = called("read_refusal", frame, bytes(10), 0)
    return {"ksn": ksn, "reason": reason}


def take(image: bytes) -> Outputs:
    left, key, ksn = called("registers_next", image, bytes(IMAGE), bytes(KEY), bytes(KSN))
    return {"image": left, "key": key, "ksn": ksn}


# Reversals


def reversal(bdk: bytes, ksn: bytes, reversed: bytes) -> Outputs:
    own, other = number(ksn), number(reversed)
    demand(iksn_of(own) == iksn_of(other), "OtherIksn")
    demand(own != other, "SameNumber")
    demand(is_usable(counter_of(other)), "NotUsable")
    return {"frame": frames.write_reversal(key_under(bdk, own), own, other)}


def read_reversal(frame: bytes) -> Outputs:
    found = frames.read_reversal(frame)
    if found is None:
        raise Fault("NotAReversal")
    return {"ksn": octets(found.serial), "reversed": octets(found.other), "mac": found.mac}


def reversal_reply_in(frame: bytes) -> frames.ReversalReply:
    """The fields of a reversal's reply."""
    found = frames.read_reversal_reply(frame)
    if found is None:
        raise Fault("NotAReversalReply")
    return found


def read_reversal_reply(frame: bytes) -> Outputs:
    found = reversal_reply_in(frame)
    return {"ksn": octets(found.serial), "reversed": octets(found.other), "state": found.state,
            "mac": found.mac}


def check_reversal_reply(bdk: bytes, ksn: bytes, reversed: bytes, frame: bytes) -> Outputs:
    # The reply to a payment is an answer too, but none to a reversal.
    demand(not isinstance(frames.read_answer(frame), frames.Reply), "NotMine")
    found = reversal_reply_in(frame)
    demand((octets(found.serial), octets(found.other)) == (ksn, reversed), "NotMine")
    key = response_key(key_under(bdk, number(ksn)))
    demand(retail_mac(key, found.text) == found.mac, "BadMac")
    return {"state": found.state}


def one(
    call: str, output: Optional[str], *buffers: Value, order: Sequence[str]
) -> Callable[..., Outputs]:
    """An operation that is a call of the library, by the order of its inputs, with one output."""
    def made(**given: Value) -> Outputs:
        found = called(call, *(given[name] for name in order), *buffers)
        return {} if output is None else {output: found[0]}

    return made


OPERATIONS: dict[str, Callable[..., Outputs]] = {
    "initial_key": one("initial_key", "key", bytes(16), order=("bdk", "iksn")),
    "derive": lambda bdk, ksn: transaction_keys("derive", bdk, ksn),
    "derive_from_initial": lambda initial_key, ksn: transaction_keys(
        "derive_from_initial", initial_key, ksn),
    "usable": usable,
    "next_number": one("next_number", "ksn", bytes(10), order=("ksn",)),
    "registers": registers,
    "walk": walk,
    "check_value": one("check_value", "kcv", bytes(3), order=("key",)),
    "cmac_check_value": one("cmac_check_value", "kcv", bytes(5), order=("key",)),
    "tdes_encrypt": one("tdes_encrypt", "block", order=("key", "block")),
    "tdes_decrypt": one("tdes_decrypt", "block", order=("key", "block")),
    "cbc_encrypt": one("cbc_encrypt", "data", order=("key", "iv", "data")),
    "cbc_decrypt": one("cbc_decrypt", "data", order=("key", "iv", "data")),
    "retail_mac": one("retail_mac", "mac", bytes(8), order=("key", "message")),
    "cmac": one("cmac", "mac", bytes(8), order=("key", "message")),
    "pin_block": one("pin_block", "block", bytes(8), order=("pin", "pan")),
    "pin_of_block": pin_of_block,
    "encrypt_pin": encrypt_pin,
    "decrypt_pin": decrypt_pin,
    "wrap": wrap,
    "unwrap": unwrap,
    "payment_request": payment_request,
    "read_request": read_request,
    "check_request": one("check_request", None, order=("key", "frame")),
    "request_pin": request_pin,
    "reply": one("request_reply", "frame", bytes(64), 0, order=("key", "ksn", "code")),
    "read_reply": read_reply,
    "check_reply": one("check_reply", None, order=("key", "ksn", "frame")),
    "refusal": one("request_refusal", "frame", bytes(64), 0, order=("ksn", "reason")),
    "read_refusal": read_refusal,
    "frame_length": one("frame_length", "count", 0, order=("bytes",)),
    "load": one("registers_load", "image", bytes(IMAGE), order=("initial_key", "iksn")),
    "image_at": one("registers_at", "image", bytes(IMAGE), order=("initial_key", "ksn")),
    "number": one("registers_number", "ksn", bytes(KSN), order=("image",)),
    "take": take,
    "reload": one("registers_reload", "image", bytes(IMAGE), order=("image", "initial_key", "iksn")),
    "reversal": reversal,
    "read_reversal": read_reversal,
    "read_reversal_reply": read_reversal_reply,
    "check_reversal_reply": check_reversal_reply,
}
