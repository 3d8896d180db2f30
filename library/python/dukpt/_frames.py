"""What all frames have in common (docs/FORMATS.md)."""
from __future__ import annotations

from ctypes import c_uint32

from ._library import Data, call


def frame_length(data: Data) -> int:
    """How many bytes, 2 to 64, the frame has with which these begin, its two length bytes counted.

    Raises `PartOfFrame`, then `TooLong`.

    >>> frame_length(bytes.fromhex("00160102FFFF"))
    24
    """
    count = c_uint32()
    call("dukpt_frame_length", bytes=data, count=count)
    return count.value
