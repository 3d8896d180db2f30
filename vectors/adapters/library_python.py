"""An adapter for the Python package `dukpt` of library/python. In the folder of the vectors:

    PYTHONPATH=../library/python python3 -m dukpt_check python3 adapters/library_python.py
"""
from __future__ import annotations

import hashlib
import itertools
import json
import sys
from typing import Any, Callable

import dukpt

# Where an image of a terminal has its 21 registers, 16 bytes each; one of zeros is empty.
REGISTERS = range(14, 350, 16)


def variants(key: bytes) -> dict[str, Any]:
    """A transaction key, and the keys that are made of it."""
    return {"key": key, "pin_key": dukpt.pin_key(key), "request_mac_key": dukpt.request_key(key),
            "response_mac_key": dukpt.response_key(key)}


def transaction_keys(
    derive: Callable[[bytes, bytes], bytes], secret: bytes, ksn: bytes
) -> dict[str, Any]:
    """The keys of a number. The library derives that of any counter: a host asks first whether it
    numbers a transaction."""
    dukpt.check_usable(ksn)
    return variants(derive(secret, ksn))


def usable(ksn: bytes) -> dict[str, Any]:
    """Whether a key serial number numbers a transaction."""
    try:
        dukpt.check_usable(ksn)
    except dukpt.faults.NotUsable:
        return {"usable": False}
    return {"usable": True}


def registers(initial_key: bytes, ksn: bytes) -> dict[str, Any]:
    """The registers of a terminal, out of its image."""
    image = dukpt.registers_at(initial_key, ksn)
    keys = [image[at : at + 16] for at in REGISTERS]
    return {"registers": [key if any(key) else None for key in keys]}


def number_behind(iksn: bytes, skip: int) -> bytes:
    """A terminal's number behind its first `skip` numbers: none has more than ten one bits."""
    usable = (it for it in range(1, 1 << 21) if bin(it).count("1") <= 10)
    counter = next(itertools.islice(usable, skip, None), None)
    if counter is None:
        raise ValueError("no number is left")
    return (int.from_bytes(iksn, "big") + counter).to_bytes(10, "big")


def walk(bdk: bytes, iksn: bytes, skip: int, count: int) -> dict[str, Any]:
    """The keys of a terminal's numbers in their order: those behind the first `skip`."""
    image = dukpt.registers_at(dukpt.initial_key(bdk, iksn), number_behind(iksn, skip))
    ksn, key, digest = b"", b"", hashlib.sha256()
    for _ in range(count):
        image, key, ksn = dukpt.registers_next(image)
        digest.update(key)
    return {"sha256": digest.digest(), "last_ksn": ksn, "last_key": key}


def decrypt_pin(key: bytes, block: bytes, pan: bytes) -> dict[str, Any]:
    """The PIN of a block that is enciphered under a PIN key."""
    return {"pin": dukpt.pin_of_block(dukpt.tdes_decrypt(key, block), pan).decode()}


def unwrap(kbpk: bytes, block: bytes) -> dict[str, Any]:
    """The header and the key of a key block."""
    found = dukpt.unwrap(kbpk, block)
    return {"header": found.header.decode(), "key": found.key}


def read_request(frame: bytes) -> dict[str, Any]:
    """The fields of a request."""
    found = dukpt.read_request(frame)
    return {**found._asdict(), "pan": found.pan.decode()}


def read_reply(frame: bytes) -> dict[str, Any]:
    """The fields of a reply."""
    found = dukpt.read_reply(frame)
    return {"ksn": found.ksn, "code": found.code.decode()}


def key_under(bdk: bytes, ksn: bytes) -> bytes:
    """The transaction key of a reversal's own number, which has to number a transaction."""
    dukpt.check_usable(ksn)
    return dukpt.derive(bdk, ksn)


def check_reversal_reply(bdk: bytes, ksn: bytes, reversed: bytes, frame: bytes) -> dict[str, Any]:
    """The state in the reply to a reversal."""
    dukpt.check_reversal_reply(key_under(bdk, ksn), ksn, reversed, frame)
    return {"state": dukpt.read_reversal_reply(frame).state}


def take(image: bytes) -> dict[str, Any]:
    """A terminal's next number with its key, and the image behind it."""
    found = dukpt.registers_next(image)
    return {"image": found.image, "key": found.key, "ksn": found.ksn}


def checked(nothing: None) -> dict[str, Any]:
    """The outputs of what only accepts or refuses."""
    return {}


OPERATIONS: dict[str, Callable[..., dict[str, Any]]] = {
    "initial_key": lambda bdk, iksn: {"key": dukpt.initial_key(bdk, iksn)},
    "derive": lambda bdk, ksn: transaction_keys(dukpt.derive, bdk, ksn),
    "derive_from_initial": lambda initial_key, ksn: transaction_keys(
        dukpt.derive_from_initial, initial_key, ksn),
    "usable": usable,
    "next_number": lambda ksn: {"ksn": dukpt.next_number(ksn)},
    "registers": registers,
    "walk": walk,
    "check_value": lambda key: {"kcv": dukpt.check_value(key)},
    "cmac_check_value": lambda key: {"kcv": dukpt.cmac_check_value(key)},
    "tdes_encrypt": lambda key, block: {"block": dukpt.tdes_encrypt(key, block)},
    "tdes_decrypt": lambda key, block: {"block": dukpt.tdes_decrypt(key, block)},
    "cbc_encrypt": lambda key, iv, data: {"data": dukpt.cbc_encrypt(key, iv, data)},
    "cbc_decrypt": lambda key, iv, data: {"data": dukpt.cbc_decrypt(key, iv, data)},
    "retail_mac": lambda key, message: {"mac": dukpt.retail_mac(key, message)},
    "cmac": lambda key, message: {"mac": dukpt.cmac(key, message)},
    "pin_block": lambda pin, pan: {"block": dukpt.pin_block(pin, pan)},
    "pin_of_block": lambda block, pan: {"pin": dukpt.pin_of_block(block, pan).decode()},
    "encrypt_pin": lambda key, pin, pan: {
        "block": dukpt.tdes_encrypt(key, dukpt.pin_block(pin, pan))},
    "decrypt_pin": decrypt_pin,
    "wrap": lambda kbpk, header, key, padding: {
        "block": dukpt.wrap(kbpk, header, key, padding).decode()},
    "unwrap": unwrap,
    "payment_request": lambda key, ksn, pan, pin, amount: {
        "frame": dukpt.payment_request(key, ksn, pan, pin, amount)},
    "read_request": read_request,
    "check_request": lambda key, frame: checked(dukpt.check_request(key, frame)),
    "request_pin": lambda key, frame: {"pin": dukpt.request_pin(key, frame).decode()},
    "reply": lambda key, ksn, code: {"frame": dukpt.request_reply(key, ksn, code)},
    "read_reply": read_reply,
    "check_reply": lambda key, ksn, frame: checked(dukpt.check_reply(key, ksn, frame)),
    "refusal": lambda ksn, reason: {"frame": dukpt.request_refusal(ksn, reason)},
    "read_refusal": lambda frame: dukpt.read_refusal(frame)._asdict(),
    "reversal": lambda bdk, ksn, reversed: {
        "frame": dukpt.reversal_request(key_under(bdk, ksn), ksn, reversed)},
    "read_reversal": lambda frame: dukpt.read_reversal(frame)._asdict(),
    "read_reversal_reply": lambda frame: {
        **dukpt.read_reversal_reply(frame)._asdict(), "mac": frame[-8:]},
    "check_reversal_reply": check_reversal_reply,
    "frame_length": lambda data: {"count": dukpt.frame_length(data)},
    "load": lambda initial_key, iksn: {"image": dukpt.registers_load(initial_key, iksn)},
    "image_at": lambda initial_key, ksn: {"image": dukpt.registers_at(initial_key, ksn)},
    "number": lambda image: {"ksn": dukpt.registers_number(image)},
    "take": take,
    "reload": lambda image, initial_key, iksn: {
        "image": dukpt.registers_reload(image, initial_key, iksn)},
}
# The inputs that are text: all other texts are hexadecimal.
TEXTS = {"pin", "pan", "header", "code"}


def value_of(operation: str, name: str, value: Any) -> Any:
    """An input as the library takes it."""
    if not isinstance(value, str):
        return value
    is_text = name in TEXTS or (operation, name) == ("unwrap", "block")
    return value.encode() if is_text else bytes.fromhex(value)


def shown(value: Any) -> Any:
    """An output as an answer has it."""
    if isinstance(value, list):
        return [shown(it) for it in value]
    return value.hex().upper() if isinstance(value, bytes) else value


def answer(operation: str, inputs: dict[str, Any]) -> dict[str, Any]:
    """The answer to a case, but for its number."""
    if operation not in OPERATIONS:
        return {"unsupported": True}
    values = {"data" if name == "bytes" else name: value_of(operation, name, value)
              for name, value in inputs.items()}
    try:
        found = OPERATIONS[operation](**values)
    except (dukpt.DukptError, ValueError) as why:
        return {"error": str(why)}
    return {name: shown(value) for name, value in found.items()}


def main() -> None:
    """Answers each line."""
    for line in sys.stdin:
        case = json.loads(line)
        number, operation = case.pop("tcId"), case.pop("operation")
        print(json.dumps({"tcId": number, **answer(operation, case)}), flush=True)


if __name__ == "__main__":
    main()
