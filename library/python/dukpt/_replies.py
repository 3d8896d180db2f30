"""The frames of accepted replies and refusals (docs/FORMATS.md)."""
from __future__ import annotations

from ctypes import c_uint32
from typing import NamedTuple

from ._library import Data, call, filled, room
from ._values import shown


class Reply(NamedTuple):
    """The fields of an accepted reply: key serial number (10 bytes) and code (2 ASCII digits)."""

    ksn: bytes
    code: bytes

    def __repr__(self) -> str:
        return shown(self, text="code")


class Refusal(NamedTuple):
    """The fields of a refusal: key serial number (10 bytes) and reason (1 to 6)."""

    ksn: bytes
    reason: int

    def __repr__(self) -> str:
        return shown(self)


def request_reply(key: Data, ksn: Data, code: Data) -> bytes:
    """The accepted reply, 24 bytes, of a payment under the transaction key (16) of its key serial
    number (10). The code is `b"00"`, `b"14"`, `b"30"`, `b"51"` or `b"55"`.

    Raises `Length`, then `NotACode`.

    >>> key = bytes.fromhex("042666B49184CFA368DE9628D0397BC9")
    >>> request_reply(key, bytes.fromhex("FFFF9876543210E00001"), b"00").hex().upper()
    '00160102FFFF9876543210E000013030591B50E0CA98FE70'
    """
    frame, count = room(64), c_uint32()
    call("dukpt_request_reply", key=key, ksn=ksn, code=code, frame=frame, frame_length=count)
    return filled(frame, count)


def request_refusal(ksn: Data, reason: int) -> bytes:
    """The refusal, 15 bytes, of a request with this key serial number (10 bytes; zeros where the
    bytes were no request), for a reason from 1 to 6.

    Raises `Length`, then `NotAReason`.

    >>> request_refusal(bytes.fromhex("FFFF9876543210E00001"), 5).hex().upper()
    '000D0103FFFF9876543210E0000105'
    """
    frame, count = room(64), c_uint32()
    call("dukpt_request_refusal", ksn=ksn, reason=reason, frame=frame, frame_length=count)
    return filled(frame, count)


def read_reply(frame: Data) -> Reply:
    """The fields of an accepted reply's frame. The MAC is not compared: `check_reply` does that.

    Raises `NotAReply`.

    >>> frame = bytes.fromhex("00160102FFFF9876543210E000013030591B50E0CA98FE70")
    >>> read_reply(frame)
    Reply(ksn=FFFF9876543210E00001, code=00)
    """
    ksn, code = room(10), room(2)
    call("dukpt_read_reply", frame=frame, ksn=ksn, code=code)
    return Reply(ksn.raw, code.raw)


def read_refusal(frame: Data) -> Refusal:
    """The fields of a refusal's frame. It has no MAC.

    Raises `NotARefusal`.

    >>> read_refusal(bytes.fromhex("000D0103FFFF9876543210E0000105"))
    Refusal(ksn=FFFF9876543210E00001, reason=5)
    """
    ksn, reason = room(10), c_uint32()
    call("dukpt_read_refusal", frame=frame, ksn=ksn, reason=reason)
    return Refusal(ksn.raw, reason.value)


def check_reply(key: Data, ksn: Data, frame: Data) -> None:
    """Tests that a frame is the accepted reply of the payment with this transaction key (16 bytes)
    and this key serial number (10). Accepted is not approved: `read_reply` has the code.

    Raises `Length`, then `NotAReply`, then `NotMine`, then `BadMac`.

    >>> key = bytes.fromhex("042666B49184CFA368DE9628D0397BC9")
    >>> frame = bytes.fromhex("00160102FFFF9876543210E000013030591B50E0CA98FE70")
    >>> check_reply(key, bytes.fromhex("FFFF9876543210E00001"), frame)
    """
    call("dukpt_check_reply", key=key, ksn=ksn, frame=frame)
