"""The registers of a terminal, each call from image to image (ANSI X9.24-1:2009 annex A).

An image has 431 bytes. One of 350 bytes, of version 1, is read too, and not written. `Terminal` is
made of these calls, and stores the next image before a key is used.
"""
from __future__ import annotations

from typing import NamedTuple

from ._library import Data, call, room
from ._values import Secret, shown

IMAGE_LENGTH = 431


class Taken(NamedTuple):
    """What a transaction takes of an image: the image afterwards (431 bytes), the transaction key
    (16) and the key serial number (10). The image is to be stored before the key is used. Its
    `repr` has neither image nor key."""

    image: Secret
    key: Secret
    ksn: bytes

    def __repr__(self) -> str:
        return shown(self)


def registers_load(initial: Data, iksn: Data) -> Secret:
    """The image (431 bytes) of a terminal that has used no number yet, from its initial key (16)
    and its initial key serial number (10).

    Raises `Length`, then `NotInitial`.

    >>> initial = bytes.fromhex("6AC292FAA1315B4D858AB3A3D7D5933A")
    >>> image = registers_load(initial, bytes.fromhex("FFFF9876543210E00000"))
    >>> image[:30].hex().upper()
    '02FFFF9876543210E00000000001042666B49184CFA368DE9628D0397BC9'
    """
    image = room(IMAGE_LENGTH)
    call("dukpt_registers_load", initial=initial, iksn=iksn, image=image)
    return Secret(image.raw)


def registers_at(initial: Data, ksn: Data) -> Secret:
    """The image (431 bytes) of a terminal whose next key serial number is this one (10), from its
    initial key (16): what `registers_load`, and then `registers_next` for each number before it,
    leave.

    Raises `Length`, then `NotUsable`.

    >>> initial = bytes.fromhex("6AC292FAA1315B4D858AB3A3D7D5933A")
    >>> image = registers_at(initial, bytes.fromhex("FFFF9876543210E00003"))
    >>> image[:30].hex().upper()
    '02FFFF9876543210E000000000030DF3D9422ACA56E547676D07AD6BADFA'
    """
    image = room(IMAGE_LENGTH)
    call("dukpt_registers_at", initial=initial, ksn=ksn, image=image)
    return Secret(image.raw)


def registers_number(image: Data) -> bytes:
    """The key serial number (10 bytes) that a terminal with this image uses next.

    Raises `NotAnImage`, then `Spent`.

    >>> initial = bytes.fromhex("6AC292FAA1315B4D858AB3A3D7D5933A")
    >>> image = registers_load(initial, bytes.fromhex("FFFF9876543210E00000"))
    >>> registers_number(image).hex().upper()
    'FFFF9876543210E00001'
    """
    ksn = room(10)
    call("dukpt_registers_number", image=image, ksn=ksn)
    return ksn.raw


def registers_next(image: Data) -> Taken:
    """Uses the next number of a terminal with this image. The image that it gives is to be stored
    before the key is used, so that no stop brings the key back; `Terminal.take` sees to that.

    Raises `NotAnImage`, then `Spent`.

    >>> initial = bytes.fromhex("6AC292FAA1315B4D858AB3A3D7D5933A")
    >>> image = registers_load(initial, bytes.fromhex("FFFF9876543210E00000"))
    >>> taken = registers_next(image)
    >>> taken
    Taken(image=.., key=.., ksn=FFFF9876543210E00001)
    >>> taken.key.hex().upper(), taken.ksn.hex().upper()
    ('042666B49184CFA368DE9628D0397BC9', 'FFFF9876543210E00001')
    """
    next_image, key, ksn = room(IMAGE_LENGTH), room(16), room(10)
    call("dukpt_registers_next", image=image, next_image=next_image, key=key, ksn=ksn)
    return Taken(Secret(next_image.raw), Secret(key.raw), ksn.raw)


def registers_reload(image: Data, initial: Data, iksn: Data) -> Secret:
    """The image (431 bytes) of the terminal with this image after it is given another initial key
    (16) under another initial key serial number (10).

    Raises `Length`, then `NotInitial`, `NotAnImage`, `IksnSpent`, `LoadsSpent`.

    >>> initial = bytes.fromhex("6AC292FAA1315B4D858AB3A3D7D5933A")
    >>> image = registers_load(initial, bytes.fromhex("FFFF9876543210E00000"))
    >>> image = registers_reload(image, bytes(16), bytes.fromhex("FFFF9876543210C00000"))
    >>> registers_number(image).hex().upper()
    'FFFF9876543210C00001'
    """
    next_image = room(IMAGE_LENGTH)
    call("dukpt_registers_reload", image=image, initial=initial, iksn=iksn, next_image=next_image)
    return Secret(next_image.raw)
