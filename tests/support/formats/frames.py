"""Frames between terminals and host: written and read by docs/FORMATS.md."""
from __future__ import annotations

from dataclasses import dataclass
from typing import Optional, Union

from ..standards.des import triple_encrypted
from ..standards.dukpt import counter_of, iksn_of, pin_key, request_key, response_key, usable
from ..standards.macs import retail_mac
from ..standards.pin_blocks import PAN_LENGTHS, pin_block

CODES = ("00", "14", "30", "51", "55")
REASONS = range(1, 7)
# What a reversal found: none stands, or a payment stood and is undone.
STATES = (0, 1)
LONGEST_BODY = 62
# Where the bytes are no request, a refusal has this for its number.
NO_NUMBER = 0


@dataclass(frozen=True)
class Request:
    serial: int
    pan: str
    amount: int
    block: int
    mac: bytes
    # What the MAC is made of.
    text: bytes


@dataclass(frozen=True)
class Reply:
    serial: int
    code: str
    mac: bytes
    text: bytes


@dataclass(frozen=True)
class Refusal:
    serial: int
    reason: int


@dataclass(frozen=True)
class Reversal:
    serial: int
    # The number that it reverses.
    other: int
    mac: bytes
    text: bytes


@dataclass(frozen=True)
class ReversalReply:
    serial: int
    other: int
    state: int
    mac: bytes
    text: bytes


def framed(body: bytes) -> bytes:
    return len(body).to_bytes(2, "big") + body


def bytes_of(serial: int) -> bytes:
    return serial.to_bytes(10, "big")


def request_of_block(key: bytes, serial: int, pan: str, amount: int, block: int) -> bytes:
    """A request under a transaction key, whose PIN block is this before it is enciphered."""
    hidden = triple_encrypted(pin_key(key), block).to_bytes(8, "big")
    text = (b"\x01\x01" + bytes_of(serial) + bytes([len(pan)]) + pan.encode()
            + amount.to_bytes(4, "big") + hidden)
    return framed(text + retail_mac(request_key(key), text))


def write_request(key: bytes, serial: int, pan: str, pin: str, amount: int) -> bytes:
    return request_of_block(key, serial, pan, amount, pin_block(pin, pan))


def write_reply(key: bytes, serial: int, code: str) -> bytes:
    text = b"\x01\x02" + bytes_of(serial) + code.encode()
    return framed(text + retail_mac(response_key(key), text))


def write_refusal(serial: int, reason: int) -> bytes:
    return framed(b"\x01\x03" + bytes_of(serial) + bytes([reason]))


def write_reversal(key: bytes, serial: int, reversed_: int) -> bytes:
    text = b"\x01\x04" + bytes_of(serial) + bytes_of(reversed_)
    return framed(text + retail_mac(request_key(key), text))


def write_reversal_reply(key: bytes, serial: int, reversed_: int, state: int) -> bytes:
    text = b"\x01\x05" + bytes_of(serial) + bytes_of(reversed_) + bytes([state])
    return framed(text + retail_mac(response_key(key), text))


def reverses(serial: int, other: int) -> bool:
    """Whether a reversal under the first number may reverse the second."""
    return iksn_of(serial) == iksn_of(other) and serial != other and usable(counter_of(other))


def serial_in(frame: bytes) -> int:
    """The number of a frame of any kind."""
    return int.from_bytes(frame[4:14], "big")


def body_of_kind(frame: bytes, kind: int) -> Optional[bytes]:
    """What stands behind version and kind, where these are so and the length is right."""
    body = frame[2:]
    is_so = len(frame) >= 4 and framed(body) == frame and body[:2] == bytes([1, kind])
    return body[2:] if is_so else None


def read_request(frame: bytes) -> Optional[Request]:
    """The fields of a request, if the bytes are one. The MAC is not tested."""
    rest = body_of_kind(frame, 1)
    if rest is None or len(rest) < 11:
        return None
    count = rest[10]
    pan = rest[11 : 11 + count]
    if count not in PAN_LENGTHS or len(rest) != 31 + count or not pan.isdigit():
        return None
    numbers = rest[11 + count :]
    return Request(int.from_bytes(rest[:10], "big"), pan.decode(),
                   int.from_bytes(numbers[:4], "big"), int.from_bytes(numbers[4:12], "big"),
                   rest[-8:], frame[2:-8])


def read_answer(frame: bytes) -> Optional[Union[Reply, Refusal]]:
    """The fields of a reply or a refusal, if the bytes are one."""
    rest = body_of_kind(frame, 3)
    if rest is not None:
        is_one = len(rest) == 11 and rest[10] in REASONS
        return Refusal(int.from_bytes(rest[:10], "big"), rest[10]) if is_one else None
    rest = body_of_kind(frame, 2)
    if rest is None or len(rest) != 20 or rest[10:12].decode("latin-1") not in CODES:
        return None
    return Reply(int.from_bytes(rest[:10], "big"), rest[10:12].decode(), rest[12:], frame[2:-8])


def read_reversal(frame: bytes) -> Optional[Reversal]:
    """The fields of a reversal, if the bytes are one."""
    rest = body_of_kind(frame, 4)
    if rest is None or len(rest) != 28:
        return None
    serial, other = numbers_in(rest)
    return Reversal(serial, other, rest[-8:], frame[2:-8]) if reverses(serial, other) else None


def read_reversal_reply(frame: bytes) -> Optional[ReversalReply]:
    """The fields of a reversal's reply, if the bytes are one."""
    rest = body_of_kind(frame, 5)
    if rest is None or len(rest) != 29 or rest[20] not in STATES:
        return None
    serial, other = numbers_in(rest)
    if not reverses(serial, other):
        return None
    return ReversalReply(serial, other, rest[20], rest[-8:], frame[2:-8])


def numbers_in(rest: bytes) -> tuple[int, int]:
    return int.from_bytes(rest[:10], "big"), int.from_bytes(rest[10:20], "big")
