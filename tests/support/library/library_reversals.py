"""The calls of libdukpt over reversals and their replies, by the formats of this bench."""
from __future__ import annotations

from typing import Sequence

from ..formats import frames
from ..standards.dukpt import request_key, response_key
from ..standards.macs import retail_mac
from .library_values import (
    BLOCK, KEY, KSN, ROOM, Fault, Value, demand, number, octets, roomy, sized)


def write_reversal(
    key: bytes, ksn: bytes, reversed_: bytes, frame: bytes, _: int
) -> Sequence[Value]:
    sized((key, KEY), (ksn, KSN), (reversed_, KSN))
    roomy((frame, ROOM))
    demand(frames.reverses(number(ksn), number(reversed_)), "NotReversed")
    made = frames.write_reversal(key, number(ksn), number(reversed_))
    return [made, len(made)]


def reversal_in(frame: bytes) -> frames.Reversal:
    found = frames.read_reversal(frame)
    if found is None:
        raise Fault("NotAReversal")
    return found


def write_reversal_parts(
    frame: bytes, ksn: bytes, reversed_: bytes, mac: bytes
) -> Sequence[Value]:
    roomy((ksn, KSN), (reversed_, KSN), (mac, BLOCK))
    found = reversal_in(frame)
    return [octets(found.serial), octets(found.other), found.mac]


def check_reversal(key: bytes, frame: bytes) -> Sequence[Value]:
    sized((key, KEY))
    found = reversal_in(frame)
    demand(retail_mac(request_key(key), found.text) == found.mac, "BadMac")
    return []


def write_reversal_reply(
    key: bytes, ksn: bytes, reversed_: bytes, state: int, frame: bytes, _: int
) -> Sequence[Value]:
    sized((key, KEY), (ksn, KSN), (reversed_, KSN))
    roomy((frame, ROOM))
    demand(frames.reverses(number(ksn), number(reversed_)), "NotReversed")
    demand(state in frames.STATES, "NotAState")
    made = frames.write_reversal_reply(key, number(ksn), number(reversed_), state)
    return [made, len(made)]


def reversal_reply_in(frame: bytes) -> frames.ReversalReply:
    found = frames.read_reversal_reply(frame)
    if found is None:
        raise Fault("NotAReversalReply")
    return found


def write_reversal_reply_parts(
    frame: bytes, ksn: bytes, reversed_: bytes, _: int
) -> Sequence[Value]:
    roomy((ksn, KSN), (reversed_, KSN))
    found = reversal_reply_in(frame)
    return [octets(found.serial), octets(found.other), found.state]


def check_reversal_reply(
    key: bytes, ksn: bytes, reversed_: bytes, frame: bytes
) -> Sequence[Value]:
    sized((key, KEY), (ksn, KSN), (reversed_, KSN))
    found = reversal_reply_in(frame)
    demand((found.serial, found.other) == (number(ksn), number(reversed_)), "NotMine")
    demand(retail_mac(response_key(key), found.text) == found.mac, "BadMac")
    return []
