"""Request frames (docs/FORMATS.md)."""
from __future__ import annotations

from ctypes import c_uint32
from typing import Iterable, NamedTuple, Optional

from ._library import Data, as_bytes, call, fault_of, filled, room
from ._values import Secret, shown
from .faults import DukptError


class Request(NamedTuple):
    """The fields of a request: key serial number (10 bytes), PAN (12 to 19 ASCII digits), amount in
    the smallest unit of the currency, enciphered PIN block (8 bytes) and MAC (8 bytes). Its `repr`
    has no PAN."""

    ksn: bytes
    pan: bytes
    amount: int
    block: bytes
    mac: bytes

    def __repr__(self) -> str:
        return shown(self, "pan")


def payment_request(key: Data, ksn: Data, pan: Data, pin: Data, amount: int) -> bytes:
    """The request of a payment, 47 to 54 bytes, under the transaction key (16) of its key serial
    number (10). The PAN has 12 to 19 ASCII digits, the PIN 4 to 12; the amount is in the smallest
    unit of the currency, from 0 to 4294967295.

    Raises `Length`, then `PanLength` or `PanDigit`, then `PinLength` or `PinDigit`.

    >>> key = bytes.fromhex("042666B49184CFA368DE9628D0397BC9")
    >>> ksn = bytes.fromhex("FFFF9876543210E00001")
    >>> payment_request(key, ksn, b"4012345678909", b"1234", 1).hex().upper()[-32:]
    '1B9C1845EB993A7AA05619896B683F13'
    """
    frame, count = room(64), c_uint32()
    call("dukpt_payment_request", key=key, ksn=ksn, pan=pan, pin=pin, amount=amount, frame=frame,
         frame_length=count)
    return filled(frame, count)


def read_request(frame: Data) -> Request:
    """The fields of a request's frame. The MAC is not compared: `check_request` does that.

    Raises `NotARequest`.

    >>> frame = bytes.fromhex("002E0101FFFF9876543210E000010D34303132333435363738393039"
    ...                       "000000011B9C1845EB993A7AA05619896B683F13")
    >>> read_request(frame)  # doctest: +NORMALIZE_WHITESPACE
    Request(ksn=FFFF9876543210E00001, pan=.., amount=1, block=1B9C1845EB993A7A,
            mac=A05619896B683F13)
    """
    ksn, pan, block, mac = room(10), room(19), room(8), room(8)
    count, amount = c_uint32(), c_uint32()
    call("dukpt_read_request", frame=frame, ksn=ksn, pan=pan, pan_length=count, amount=amount,
         block=block, mac=mac)
    return Request(ksn.raw, filled(pan, count), amount.value, block.raw, mac.raw)


def check_request(key: Data, frame: Data) -> None:
    """Tests that a request's frame has the MAC of its bytes under the transaction key (16 bytes).

    Raises `Length`, then `NotARequest`, then `BadMac`.

    >>> frame = bytes.fromhex("002E0101FFFF9876543210E000010D34303132333435363738393039"
    ...                       "000000011B9C1845EB993A7AA05619896B683F13")
    >>> check_request(bytes.fromhex("042666B49184CFA368DE9628D0397BC9"), frame)
    """
    call("dukpt_check_request", key=key, frame=frame)


def check_requests(bdk: Data, frames: Iterable[Data]) -> list[Optional[DukptError]]:
    """Tests that frames are requests, each with the MAC of its bytes under the transaction key of its
    own key serial number, which is derived of the base derivation key (16 bytes). For each frame it
    gives None, or the first of its faults: `NotARequest`, `NotUsable`, `BadMac`. Many are tested in
    less time than by `derive` and `check_request`.

    Raises `Length`.

    >>> frame = bytes.fromhex("002E0101FFFF9876543210E000010D34303132333435363738393039"
    ...                       "000000011B9C1845EB993A7AA05619896B683F13")
    >>> bdk = bytes.fromhex("0123456789ABCDEFFEDCBA9876543210")
    >>> check_requests(bdk, [frame, frame[:-1] + b"\\0", b""])
    [None, BadMac(), NotARequest()]
    """
    places = b"".join(place_of(as_bytes(f"frames[{at}]", it)) for at, it in enumerate(frames))
    results = room(len(places) // 64)
    call("dukpt_check_requests", bdk=bdk, frames=places, results=results)
    return [fault_of(status) if status else None for status in results.raw]


def place_of(frame: bytes) -> bytes:
    """A frame as it stands in 64 bytes. One that has not the length which it says is no request's,
    as zeros are not."""
    is_whole = 2 <= len(frame) <= 64 and len(frame) == 2 + int.from_bytes(frame[:2], "big")
    return frame.ljust(64, b"\0") if is_whole else bytes(64)


def request_pin(key: Data, frame: Data) -> Secret:
    """The PIN, 4 to 12 ASCII digits, of a request's frame under the transaction key (16 bytes). The
    MAC is not compared: `check_request` does that.

    Raises `Length`, then `NotARequest`, then `NotAPinBlock`.

    >>> frame = bytes.fromhex("002E0101FFFF9876543210E000010D34303132333435363738393039"
    ...                       "000000011B9C1845EB993A7AA05619896B683F13")
    >>> request_pin(bytes.fromhex("042666B49184CFA368DE9628D0397BC9"), frame).decode()
    '1234'
    """
    pin, count = room(12), c_uint32()
    call("dukpt_request_pin", key=key, frame=frame, pin=pin, pin_length=count)
    return Secret(filled(pin, count))
