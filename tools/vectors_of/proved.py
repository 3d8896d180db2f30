"""The proved code, asked for the answer to a case."""
from __future__ import annotations

import hashlib
import importlib
import os
import subprocess
import sys
from dataclasses import dataclass, field
from pathlib import Path
from types import ModuleType
from typing import Any, Callable, Mapping, Optional

BINDING = Path(__file__).resolve().parents[2] / "library" / "python"
SECONDS = 1800
# Where an image has its registers, 16 bytes each; 16 zero bytes are an empty one.
REGISTERS = range(14, 350, 16)

Outputs = Mapping[str, Any]


class Missing(Exception):
    """That the program or the library is not there."""


class Refused(Exception):
    """The fault with which something is refused that the library has no call for."""


@dataclass(frozen=True)
class Answer:
    """What an operation gives, or why it is refused."""

    outputs: Outputs = field(default_factory=dict)
    fault: Optional[str] = None


@dataclass(frozen=True)
class Ended:
    """How a run of the program ended."""

    lines: list[str]
    fault: str


class Proved:
    """The proved program and library."""

    def __init__(self, program: Path, library: Path) -> None:
        for path in (program, library):
            if not path.exists():
                raise Missing(f"there is no {path}")
        self.program = program
        self.library = binding(library)

    def answer(self, operation: str, inputs: Mapping[str, Any]) -> Answer:
        """The answer to a case."""
        try:
            return Answer(OPERATIONS[operation](self, **inputs))
        except self.library.DukptError as fault:
            return Answer(fault=fault.name)
        except Refused as why:
            return Answer(fault=str(why))

    def run(self, *words: str) -> Ended:
        """What the program prints, and the line of its fault."""
        done = subprocess.run([str(self.program), *words], stdin=subprocess.DEVNULL,
                              capture_output=True, text=True, timeout=SECONDS, check=False)
        if done.returncode not in (0, 1):
            raise Missing(f"{self.program}: status {done.returncode}: {done.stderr.strip()}")
        return Ended(done.stdout.splitlines(), done.stderr.strip())


def binding(library: Path) -> ModuleType:
    """The Python binding over this library. A process has one."""
    os.environ["DUKPT_LIBRARY"] = str(library)
    sys.path.insert(0, str(BINDING))
    try:
        return importlib.import_module("dukpt")
    except ImportError as why:
        raise Missing(str(why)) from why
    finally:
        sys.path.remove(str(BINDING))
        del os.environ["DUKPT_LIBRARY"]


# Each function below is the operation of its name: what the binding, or the program, answers, under
# the names of the files.


# Keys and numbers


def initial_key(it: Proved, bdk: bytes, iksn: bytes) -> Outputs:
    return {"key": it.library.initial_key(bdk, iksn)}


def with_variants(it: Proved, key: bytes) -> Outputs:
    """A transaction key and what is made of it."""
    return {"key": key, "pin_key": it.library.pin_key(key),
            "request_mac_key": it.library.request_key(key),
            "response_mac_key": it.library.response_key(key)}


def derive(it: Proved, bdk: bytes, ksn: bytes) -> Outputs:
    # The library's own call takes any counter.
    it.library.check_usable(ksn)
    return with_variants(it, it.library.derive(bdk, ksn))


def derive_from_initial(it: Proved, initial_key: bytes, ksn: bytes) -> Outputs:
    it.library.check_usable(ksn)
    return with_variants(it, it.library.derive_from_initial(initial_key, ksn))


def usable(it: Proved, ksn: bytes) -> Outputs:
    try:
        it.library.check_usable(ksn)
    except it.library.faults.NotUsable:
        return {"usable": False}
    return {"usable": True}


def next_number(it: Proved, ksn: bytes) -> Outputs:
    return {"ksn": it.library.next_number(ksn)}


def registers(it: Proved, initial_key: bytes, ksn: bytes) -> Outputs:
    image = it.library.registers_at(initial_key, ksn)
    keys = [image[at : at + 16] for at in REGISTERS]
    return {"registers": [key if any(key) else None for key in keys]}


def walk(it: Proved, bdk: bytes, iksn: bytes, skip: int, count: int) -> Outputs:
    found = it.run("walk", bdk.hex(), iksn.hex(), str(count), "--skip", str(skip))
    if found.fault or len(found.lines) != count or found.lines[-1] == "spent":
        raise Refused(found.fault or "Spent")
    ksn, key = found.lines[-1].split(" ")
    keys = bytes.fromhex("".join(line.partition(" ")[2] for line in found.lines))
    return {"sha256": hashlib.sha256(keys).digest(), "last_ksn": bytes.fromhex(ksn),
            "last_key": bytes.fromhex(key)}


# Ciphers, MACs and check values


def check_value(it: Proved, key: bytes) -> Outputs:
    return {"kcv": it.library.check_value(key)}


def cmac_check_value(it: Proved, key: bytes) -> Outputs:
    return {"kcv": it.library.cmac_check_value(key)}


def tdes_encrypt(it: Proved, key: bytes, block: bytes) -> Outputs:
    return {"block": it.library.tdes_encrypt(key, block)}


def tdes_decrypt(it: Proved, key: bytes, block: bytes) -> Outputs:
    return {"block": it.library.tdes_decrypt(key, block)}


def cbc_encrypt(it: Proved, key: bytes, iv: bytes, data: bytes) -> Outputs:
    return {"data": it.library.cbc_encrypt(key, iv, data)}


def cbc_decrypt(it: Proved, key: bytes, iv: bytes, data: bytes) -> Outputs:
    return {"data": it.library.cbc_decrypt(key, iv, data)}


def retail_mac(it: Proved, key: bytes, message: bytes) -> Outputs:
    return {"mac": it.library.retail_mac(key, message)}


def cmac(it: Proved, key: bytes, message: bytes) -> Outputs:
    return {"mac": it.library.cmac(key, message)}


# PIN blocks and key blocks


def pin_block(it: Proved, pin: str, pan: str) -> Outputs:
    return {"block": it.library.pin_block(pin.encode(), pan.encode())}


def pin_of_block(it: Proved, block: bytes, pan: str) -> Outputs:
    return {"pin": it.library.pin_of_block(block, pan.encode()).decode()}


def encrypt_pin(it: Proved, key: bytes, pin: str, pan: str) -> Outputs:
    clear = it.library.pin_block(pin.encode(), pan.encode())
    return {"block": it.library.tdes_encrypt(key, clear)}


def decrypt_pin(it: Proved, key: bytes, block: bytes, pan: str) -> Outputs:
    return pin_of_block(it, it.library.tdes_decrypt(key, block), pan)


def wrap(it: Proved, kbpk: bytes, header: str, key: bytes, padding: bytes) -> Outputs:
    return {"block": it.library.wrap(kbpk, header.encode(), key, padding).decode()}


def unwrap(it: Proved, kbpk: bytes, block: str) -> Outputs:
    header, key = it.library.unwrap(kbpk, block.encode())
    return {"header": header.decode(), "key": key}


# Frames


def payment_request(
    it: Proved, key: bytes, ksn: bytes, pan: str, pin: str, amount: int
) -> Outputs:
    return {"frame": it.library.payment_request(key, ksn, pan.encode(), pin.encode(), amount)}


def read_request(it: Proved, frame: bytes) -> Outputs:
    ksn, pan, amount, block, mac = it.library.read_request(frame)
    return {"ksn": ksn, "pan": pan.decode(), "amount": amount, "block": block, "mac": mac}


def check_request(it: Proved, key: bytes, frame: bytes) -> Outputs:
    it.library.check_request(key, frame)
    return {}


def request_pin(it: Proved, key: bytes, frame: bytes) -> Outputs:
    return {"pin": it.library.request_pin(key, frame).decode()}


def reply(it: Proved, key: bytes, ksn: bytes, code: str) -> Outputs:
    return {"frame": it.library.request_reply(key, ksn, code.encode())}


def read_reply(it: Proved, frame: bytes) -> Outputs:
    ksn, code = it.library.read_reply(frame)
    return {"ksn": ksn, "code": code.decode()}


def check_reply(it: Proved, key: bytes, ksn: bytes, frame: bytes) -> Outputs:
    it.library.check_reply(key, ksn, frame)
    return {}


def refusal(it: Proved, ksn: bytes, reason: int) -> Outputs:
    return {"frame": it.library.request_refusal(ksn, reason)}


def read_refusal(it: Proved, frame: bytes) -> Outputs:
    ksn, reason = it.library.read_refusal(frame)
    return {"ksn": ksn, "reason": reason}


def frame_length(it: Proved, bytes: bytes) -> Outputs:
    return {"count": it.library.frame_length(bytes)}


# Images of terminals


def load(it: Proved, initial_key: bytes, iksn: bytes) -> Outputs:
    return {"image": it.library.registers_load(initial_key, iksn)}


def image_at(it: Proved, initial_key: bytes, ksn: bytes) -> Outputs:
    return {"image": it.library.registers_at(initial_key, ksn)}


def number(it: Proved, image: bytes) -> Outputs:
    return {"ksn": it.library.registers_number(image)}


def take(it: Proved, image: bytes) -> Outputs:
    taken = it.library.registers_next(image)
    return {"image": taken.image, "key": taken.key, "ksn": taken.ksn}


def reload(it: Proved, image: bytes, initial_key: bytes, iksn: bytes) -> Outputs:
    return {"image": it.library.registers_reload(image, initial_key, iksn)}


# Reversals, of which the program alone knows


def reversal(it: Proved, bdk: bytes, ksn: bytes, reversed: bytes) -> Outputs:
    """The frame that the program prints."""
    found = it.run("request", bdk.hex(), ksn.hex(), "--reverse", reversed.hex())
    if found.fault:
        raise Refused(found.fault)
    return {"frame": bytes.fromhex(found.lines[0].removeprefix("reversal "))}


def shown_fields(it: Proved, frame: bytes, kind: str, fault: str) -> dict[str, str]:
    """The fields of a frame of this kind, as the program shows them."""
    found = it.run("show", "frame", frame.hex())
    if found.fault or found.lines[0] != f"frame {kind}":
        raise Refused(fault)
    return dict(line.split(" ")[:2] for line in found.lines)


def read_reversal(it: Proved, frame: bytes) -> Outputs:
    fields = shown_fields(it, frame, "reversal", "NotAReversal")
    return {name: bytes.fromhex(fields[name]) for name in ("ksn", "reversed", "mac")}


def read_reversal_reply(it: Proved, frame: bytes) -> Outputs:
    fields = shown_fields(it, frame, "reversal-reply", "NotAReversalReply")
    return {"ksn": bytes.fromhex(fields["ksn"]), "reversed": bytes.fromhex(fields["reversed"]),
            "state": int(fields["state"]), "mac": bytes.fromhex(fields["mac"])}


def check_reversal_reply(
    it: Proved, bdk: bytes, ksn: bytes, reversed: bytes, frame: bytes
) -> Outputs:
    """What the program says of an answer to the reversal of these numbers."""
    sent = reversal(it, bdk, ksn, reversed)["frame"]
    found = it.run("reply", bdk.hex(), sent.hex(), frame.hex())
    states = {f"none stands {reversed.hex().upper()}": 0, f"undone {reversed.hex().upper()}": 1}
    state = states.get(found.lines[0]) if found.lines else None
    if state is None:
        raise Refused(found.fault if found.fault in ("NotMine", "BadMac") else "NotAReversalReply")
    return {"state": state}


OPERATIONS: dict[str, Callable[..., Outputs]] = {
    it.__name__: it for it in (
        initial_key, derive, derive_from_initial, usable, next_number, registers, walk,
        check_value, cmac_check_value, tdes_encrypt, tdes_decrypt, cbc_encrypt, cbc_decrypt,
        retail_mac, cmac, pin_block, pin_of_block, encrypt_pin, decrypt_pin, wrap, unwrap,
        payment_request, read_request, check_request, request_pin, reply, read_reply, check_reply,
        refusal, read_refusal, frame_length, load, image_at, number, take, reload, reversal,
        read_reversal, read_reversal_reply, check_reversal_reply)}
