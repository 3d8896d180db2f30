"""The calls of libdukpt over requests, replies and refusals, by the formats of this bench."""
from __future__ import annotations

from typing import Sequence

from ..formats import frames
from ..standards.des import decrypt_block
from ..standards.dukpt import counter_of, derive, pin_key, request_key, response_key, usable
from ..standards.macs import retail_mac
from ..standards.pin_blocks import PAN_LENGTHS, PIN_LENGTHS
from .library_values import (
    BLOCK, KEY, KSN, ROOM, STATUS, Fault, Value, demand, found_pin, number, octets, pan_of, parts,
    pin_of, roomy, sized)


def write_request(
    key: bytes, ksn: bytes, pan: bytes, pin: bytes, amount: int, frame: bytes, _: int
) -> Sequence[Value]:
    sized((key, KEY), (ksn, KSN))
    roomy((frame, ROOM))
    digits = pan_of(pan)
    made = frames.write_request(key, number(ksn), digits, pin_of(pin), amount)
    return [made, len(made)]


def request_in(frame: bytes) -> frames.Request:
    request = frames.read_request(frame)
    if request is None:
        raise Fault("NotARequest")
    return request


def write_request_parts(
    frame: bytes, ksn: bytes, pan: bytes, _: int, __: int, block: bytes, mac: bytes
) -> Sequence[Value]:
    roomy((ksn, KSN), (pan, PAN_LENGTHS[-1]), (block, BLOCK), (mac, BLOCK))
    request = request_in(frame)
    return [octets(request.serial), request.pan.encode(), len(request.pan), request.amount,
            request.block.to_bytes(BLOCK, "big"), request.mac]


def check_request(key: bytes, frame: bytes) -> Sequence[Value]:
    sized((key, KEY))
    request = request_in(frame)
    demand(retail_mac(request_key(key), request.text) == request.mac, "BadMac")
    return []


def check_own(bdk: bytes, frame: bytes) -> None:
    """That a frame is a request, with its MAC under the transaction key of its own number."""
    request = request_in(frame)
    demand(usable(counter_of(request.serial)), "NotUsable")
    check_request(derive(bdk, request.serial), frame)


def verdict(bdk: bytes, place: bytes) -> int:
    """What is told of the frame at the begin of 64 bytes."""
    try:
        check_own(bdk, place[: 2 + number(place[:2])])
    except Fault as why:
        return STATUS[str(why)]
    return 0


def write_verdicts(bdk: bytes, places: bytes, results: bytes) -> Sequence[Value]:
    sized((bdk, KEY))
    demand(len(places) % ROOM == 0)
    roomy((results, len(places) // ROOM))
    return [bytes(verdict(bdk, place) for place in parts(places, ROOM))]


def write_request_pin(key: bytes, frame: bytes, pin: bytes, _: int) -> Sequence[Value]:
    sized((key, KEY))
    roomy((pin, PIN_LENGTHS[-1]))
    request = request_in(frame)
    block = decrypt_block(pin_key(key), request.block.to_bytes(BLOCK, "big"))
    return found_pin(number(block), request.pan)


def write_reply(key: bytes, ksn: bytes, code: bytes, frame: bytes, _: int) -> Sequence[Value]:
    sized((key, KEY), (ksn, KSN), (code, 2))
    roomy((frame, ROOM))
    demand(code in [it.encode() for it in frames.CODES], "NotACode")
    made = frames.write_reply(key, number(ksn), code.decode())
    return [made, len(made)]


def write_refusal(ksn: bytes, reason: int, frame: bytes, _: int) -> Sequence[Value]:
    sized((ksn, KSN))
    roomy((frame, ROOM))
    demand(reason in frames.REASONS, "NotAReason")
    made = frames.write_refusal(number(ksn), reason)
    return [made, len(made)]


def reply_in(frame: bytes) -> frames.Reply:
    found = frames.read_answer(frame)
    if not isinstance(found, frames.Reply):
        raise Fault("NotAReply")
    return found


def write_reply_parts(frame: bytes, ksn: bytes, code: bytes) -> Sequence[Value]:
    roomy((ksn, KSN), (code, 2))
    found = reply_in(frame)
    return [octets(found.serial), found.code.encode()]


def write_refusal_parts(frame: bytes, ksn: bytes, _: int) -> Sequence[Value]:
    roomy((ksn, KSN))
    found = frames.read_answer(frame)
    if not isinstance(found, frames.Refusal):
        raise Fault("NotARefusal")
    return [octets(found.serial), found.reason]


def check_reply(key: bytes, ksn: bytes, frame: bytes) -> Sequence[Value]:
    sized((key, KEY), (ksn, KSN))
    found = reply_in(frame)
    demand(found.serial == number(ksn), "NotMine")
    demand(retail_mac(response_key(key), found.text) == found.mac, "BadMac")
    return []


def write_frame_length(data: bytes, _: int) -> Sequence[Value]:
    demand(len(data) >= 2, "PartOfFrame")
    demand(number(data[:2]) <= frames.LONGEST_BODY, "TooLong")
    return [2 + number(data[:2])]
