"""The frames of reversals and of their replies (docs/FORMATS.md)."""
from __future__ import annotations

from ctypes import c_uint32
from typing import Final, NamedTuple

from ._library import Data, call, filled, room
from ._values import shown

# What the host found: no approved payment stands, or one stood and is undone.
NONE_STANDS: Final = 0
UNDONE: Final = 1


class Reversal(NamedTuple):
    """The fields of a reversal: its own key serial number, the one that it reverses (10 bytes each)
    and the MAC (8)."""

    ksn: bytes
    reversed: bytes
    mac: bytes

    def __repr__(self) -> str:
        return shown(self)


class ReversalReply(NamedTuple):
    """The fields of a reversal's reply: the reversal's key serial number, the one that it reverses
    (10 bytes each) and the state, `UNDONE` or `NONE_STANDS`."""

    ksn: bytes
    reversed: bytes
    state: int

    def __repr__(self) -> str:
        return shown(self)


def reversal_request(key: Data, ksn: Data, reversed: Data) -> bytes:
    """The reversal, 32 bytes, of the payment with one key serial number (10 bytes), under the
    transaction key (16) of another one (10) of the same terminal.

    Raises `Length`, then `NotReversed`.

    >>> key = bytes.fromhex("C46551CEF9FD24B0AA9AD834130D3BC7")
    >>> ksn = bytes.fromhex("FFFF9876543210E00002")
    >>> frame = reversal_request(key, ksn, bytes.fromhex("FFFF9876543210E00001"))
    >>> frame.hex().upper()[:48], frame.hex().upper()[48:]
    ('001E0104FFFF9876543210E00002FFFF9876543210E00001', '3B8EA61D9F5F532F')
    """
    frame, count = room(64), c_uint32()
    call("dukpt_reversal_request", key=key, ksn=ksn, reversed=reversed, frame=frame,
         frame_length=count)
    return filled(frame, count)


def read_reversal(frame: Data) -> Reversal:
    """The fields of a reversal's frame. The MAC is not compared: `check_reversal` does that.

    Raises `NotAReversal`.

    >>> frame = bytes.fromhex("001E0104FFFF9876543210E00002FFFF9876543210E000013B8EA61D9F5F532F")
    >>> read_reversal(frame)  # doctest: +NORMALIZE_WHITESPACE
    Reversal(ksn=FFFF9876543210E00002, reversed=FFFF9876543210E00001, mac=3B8EA61D9F5F532F)
    """
    ksn, other, mac = room(10), room(10), room(8)
    call("dukpt_read_reversal", frame=frame, ksn=ksn, reversed=other, mac=mac)
    return Reversal(ksn.raw, other.raw, mac.raw)


def check_reversal(key: Data, frame: Data) -> None:
    """Tests that a reversal's frame has the MAC of its bytes under the transaction key (16 bytes)
    of its own number.

    Raises `Length`, then `NotAReversal`, then `BadMac`.

    >>> frame = bytes.fromhex("001E0104FFFF9876543210E00002FFFF9876543210E000013B8EA61D9F5F532F")
    >>> check_reversal(bytes.fromhex("C46551CEF9FD24B0AA9AD834130D3BC7"), frame)
    """
    call("dukpt_check_reversal", key=key, frame=frame)


def reversal_reply(key: Data, ksn: Data, reversed: Data, state: int) -> bytes:
    """The reply, 33 bytes, to a reversal under the transaction key (16) of its key serial number
    (10), which reverses another one (10). The state is `UNDONE`, 1, where an approved payment of
    that number is kept, and else `NONE_STANDS`, 0.

    Raises `Length`, then `NotReversed`, then `NotAState`.

    >>> key = bytes.fromhex("C46551CEF9FD24B0AA9AD834130D3BC7")
    >>> ksn = bytes.fromhex("FFFF9876543210E00002")
    >>> frame = reversal_reply(key, ksn, bytes.fromhex("FFFF9876543210E00001"), UNDONE)
    >>> frame.hex().upper()[:50], frame.hex().upper()[50:]
    ('001F0105FFFF9876543210E00002FFFF9876543210E0000101', '2DEBE27352A69B94')
    """
    frame, count = room(64), c_uint32()
    call("dukpt_reversal_reply", key=key, ksn=ksn, reversed=reversed, state=state, frame=frame,
         frame_length=count)
    return filled(frame, count)


def read_reversal_reply(frame: Data) -> ReversalReply:
    """The fields of the frame of a reversal's reply. The MAC is not compared:
    `check_reversal_reply` does that.

    Raises `NotAReversalReply`.

    >>> frame = bytes.fromhex("001F0105FFFF9876543210E00002FFFF9876543210E00001012DEBE27352A69B94")
    >>> read_reversal_reply(frame)
    ReversalReply(ksn=FFFF9876543210E00002, reversed=FFFF9876543210E00001, state=1)
    """
    ksn, other, state = room(10), room(10), c_uint32()
    call("dukpt_read_reversal_reply", frame=frame, ksn=ksn, reversed=other, state=state)
    return ReversalReply(ksn.raw, other.raw, state.value)


def check_reversal_reply(key: Data, ksn: Data, reversed: Data, frame: Data) -> None:
    """Tests that a frame is the reply to the reversal with this transaction key (16 bytes) and this
    key serial number (10), which reverses another one (10). `read_reversal_reply` has the state.

    Raises `Length`, then `NotAReversalReply`, then `NotMine`, then `BadMac`.

    >>> key = bytes.fromhex("C46551CEF9FD24B0AA9AD834130D3BC7")
    >>> ksn = bytes.fromhex("FFFF9876543210E00002")
    >>> frame = bytes.fromhex("001F0105FFFF9876543210E00002FFFF9876543210E00001012DEBE27352A69B94")
    >>> check_reversal_reply(key, ksn, bytes.fromhex("FFFF9876543210E00001"), frame)
    """
    call("dukpt_check_reversal_reply", key=key, ksn=ksn, reversed=reversed, frame=frame)
