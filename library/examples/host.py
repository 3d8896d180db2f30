"""A host's answer to a frame: host.py FRAME [STANDS..]

FRAME is a request or a reversal, in hexadecimal. STANDS are the key serial numbers of approved
payments, in the place of a host's journal: a reversal of one of them undoes it. A real host derives
keys in its security module. It also refuses the numbers that were used before.
"""
from __future__ import annotations

import sys
from typing import Optional

import dukpt
from dukpt.faults import NotAPinBlock, NotARequest, NotAReversal, NotUsable

BDK = bytes.fromhex("0123456789ABCDEFFEDCBA9876543210")
MALFORMED, BAD_COUNTER, BAD_MAC = 1, 3, 4
NO_KSN = bytes(10)


class Refused(Exception):
    """That a frame is refused, with its number and the reason."""


def shown(value: bytes) -> str:
    return value.hex().upper()


def key_of(ksn: bytes) -> bytes:
    """The key of a number that numbers a transaction."""
    try:
        dukpt.check_usable(ksn)
    except NotUsable:
        raise Refused(ksn, BAD_COUNTER) from None
    return dukpt.derive(BDK, ksn)


def decide(key: bytes, frame: bytes) -> bytes:
    """Shows the PIN of a request, where its block holds one. Gives the code of the reply."""
    try:
        print("pin", dukpt.request_pin(key, frame).decode())
    except NotAPinBlock:
        return b"30"
    return b"00"


def judge_request(request: dukpt.Request, frame: bytes) -> bytes:
    """The reply to a request."""
    key = key_of(request.ksn)
    try:
        dukpt.check_request(key, frame)
    except dukpt.DukptError:
        raise Refused(request.ksn, BAD_MAC) from None
    print("number", shown(request.ksn))
    print("pan", request.pan.decode())
    print("amount", request.amount)
    return dukpt.request_reply(key, request.ksn, decide(key, frame))


def judge_reversal(reversal: dukpt.Reversal, frame: bytes, standing: list[bytes]) -> bytes:
    """The reply to a reversal."""
    key = key_of(reversal.ksn)
    try:
        dukpt.check_reversal(key, frame)
    except dukpt.DukptError:
        raise Refused(reversal.ksn, BAD_MAC) from None
    print("number", shown(reversal.ksn))
    print("reversed", shown(reversal.reversed))
    state = dukpt.UNDONE if reversal.reversed in standing else dukpt.NONE_STANDS
    return dukpt.reversal_reply(key, reversal.ksn, reversal.reversed, state)


def judge(frame: bytes, standing: list[bytes]) -> bytes:
    """The reply to a frame of either kind."""
    try:
        return judge_request(dukpt.read_request(frame), frame)
    except NotARequest:
        pass
    try:
        return judge_reversal(dukpt.read_reversal(frame), frame, standing)
    except NotAReversal:
        raise Refused(NO_KSN, MALFORMED) from None


def read_hexadecimal(text: str) -> Optional[bytes]:
    """The bytes of a text, if it is hexadecimal."""
    try:
        return bytes.fromhex(text)
    except ValueError:
        return None


def main() -> None:
    values = [read_hexadecimal(word) for word in sys.argv[1:]]
    standing = [it for it in values[1:] if it is not None and len(it) == len(NO_KSN)]
    if not values or len(standing) != len(values) - 1:
        sys.exit("usage: host.py FRAME [STANDS..]")
    try:
        print("reply", shown(judge(values[0] or b"", standing)))
    except Refused as why:
        print("refusal", shown(dukpt.request_refusal(*why.args)))


if __name__ == "__main__":
    main()
