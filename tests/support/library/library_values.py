"""What the calls of libdukpt by this bench are made of."""
from __future__ import annotations

from typing import Union

from ..standards.pin_blocks import PAN_LENGTHS, PIN_LENGTHS, pin_in

Value = Union[bytes, int]

FAULTS = (
    "Ok", "Length", "NotInitial", "NotUsable", "Spent", "NotAnImage", "IksnSpent", "LoadsSpent",
    "PinLength", "PinDigit", "PanLength", "PanDigit", "NotAPinBlock", "BlockLength", "BlockVersion",
    "BlockHeaderField", "BlockOptionalBlock", "BlockHex", "BlockMac", "BlockPayload",
    "BlockPadLength", "NotARequest", "NotAReply", "NotARefusal", "NotACode", "NotAReason",
    "NotMine", "BadMac", "PartOfFrame", "TooLong", "NotReversed", "NotAReversal", "NotAState",
    "NotAReversalReply", "OtherUsage", "OtherKeyLength", "NoOptionalBlock", "NotAModule",
    "WrongUse", "PrefixTaken", "SlotsFull", "ZoneTaken", "NoZone", "NotACard", "NotSettled",
    "NoKeySet")
STATUS = {name: number for number, name in enumerate(FAULTS)}

KEY, TDES_KEYS, KSN, BLOCK, IMAGE, ROOM, TEXT = 16, (16, 24), 10, 8, 431, 64, 512
# The most characters of an optional block behind its id and its length.
CONTENT = 251


class Fault(Exception):
    """Why a call is refused, by the fault's name."""


def demand(is_so: bool, fault: str = "Length") -> None:
    """That something is so: else the call is refused."""
    if not is_so:
        raise Fault(fault)


def sized(*pairs: tuple[bytes, int]) -> None:
    """That what a call reads has these sizes."""
    demand(all(len(it) == size for it, size in pairs))


def roomy(*pairs: tuple[bytes, int]) -> None:
    """That what a call writes has at least these sizes."""
    demand(all(len(it) >= size for it, size in pairs))


def parts(data: bytes, size: int) -> list[bytes]:
    """Bytes in parts of one size; the last one may be shorter."""
    return [data[at : at + size] for at in range(0, len(data), size)]


def number(data: bytes) -> int:
    return int.from_bytes(data, "big")


def octets(serial: int) -> bytes:
    return serial.to_bytes(KSN, "big")


def digits_in(text: bytes, lengths: range, name: str) -> str:
    demand(len(text) in lengths, f"{name}Length")
    demand(all(byte in b"0123456789" for byte in text), f"{name}Digit")
    return text.decode()


def pin_of(text: bytes) -> str:
    return digits_in(text, PIN_LENGTHS, "Pin")


def pan_of(text: bytes) -> str:
    return digits_in(text, PAN_LENGTHS, "Pan")


def found_pin(block: int, pan: str) -> list[Value]:
    pin = pin_in(block, pan)
    if pin is None:
        raise Fault("NotAPinBlock")
    return [pin.encode(), len(pin)]
