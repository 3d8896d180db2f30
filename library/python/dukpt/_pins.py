"""PIN blocks (ISO 9564-1 format 0)."""
from __future__ import annotations

from ctypes import c_uint32

from ._library import Data, call, filled, room
from ._values import Secret


def pin_block(pin: Data, pan: Data) -> Secret:
    """The PIN block (8 bytes) of a PIN of 4 to 12 ASCII digits and a PAN of 12 to 19.

    Raises `PinLength` or `PinDigit`, then `PanLength` or `PanDigit`.

    >>> pin_block(b"1234", b"4012345678909").hex().upper()
    '041274EDCBA9876F'
    """
    block = room(8)
    call("dukpt_pin_block", pin=pin, pan=pan, block=block)
    return Secret(block.raw)


def pin_of_block(block: Data, pan: Data) -> Secret:
    """The PIN, 4 to 12 ASCII digits, of a PIN block (8 bytes) under a PAN of 12 to 19.

    Raises `Length`, then `PanLength` or `PanDigit`, then `NotAPinBlock`.

    >>> pin_of_block(bytes.fromhex("041274EDCBA9876F"), b"4012345678909").decode()
    '1234'
    """
    pin, count = room(12), c_uint32()
    call("dukpt_pin_of_block", block=block, pan=pan, pin=pin, pin_length=count)
    return Secret(filled(pin, count))
