"""Why a call is refused: an exception for each fault, with its number and its name.

The numbers and the names are those of the library, and do not change any more. A call that is
refused gives nothing, and has changed nothing.
"""
from __future__ import annotations

from typing import Final, Mapping


class DukptError(Exception):
    """A call is refused."""

    number: int
    name: str

    def __init_subclass__(cls, number: int) -> None:
        cls.number, cls.name = number, cls.__name__

    def __str__(self) -> str:
        # Python drops docstrings under `-OO`.
        return ": ".join(filter(None, (f"{self.name} ({self.number})", self.__doc__, *self.args)))


# The faults: made of library/calls.toml by `tools/library --make`.


class Length(DukptError, number=1):
    """a value has another length than the call takes"""


class NotInitial(DukptError, number=2):
    """the counter of an initial key serial number is not zero"""


class NotUsable(DukptError, number=3):
    """the counter numbers no transaction: it is zero or has more than ten one bits"""


class Spent(DukptError, number=4):
    """no number is left"""


class NotAnImage(DukptError, number=5):
    """the bytes are no image of a terminal"""


class IksnSpent(DukptError, number=6):
    """the initial key serial number is the terminal's own, or one that it had before"""


class LoadsSpent(DukptError, number=7):
    """the terminal had eight initial key serial numbers before its own"""


class PinLength(DukptError, number=8):
    """the PIN has fewer than 4 or more than 12 bytes"""


class PinDigit(DukptError, number=9):
    """a byte of the PIN is no ASCII digit"""


class PanLength(DukptError, number=10):
    """the PAN has fewer than 12 or more than 19 bytes"""


class PanDigit(DukptError, number=11):
    """a byte of the PAN is no ASCII digit"""


class NotAPinBlock(DukptError, number=12):
    """the block is no PIN block of this PAN"""


class BlockLength(DukptError, number=13):
    """the key block has not 80 to 512 characters, a multiple of 8, or says another length"""


class BlockVersion(DukptError, number=14):
    """the first character of a key block is not B"""


class BlockHeaderField(DukptError, number=15):
    """a header field cannot be printed, or the number of optional blocks is not two digits"""


class BlockOptionalBlock(DukptError, number=16):
    """optional blocks do not fit, are over 99 or unprintable, or no key and MAC follow"""


class BlockHex(DukptError, number=17):
    """a character after the optional blocks is no hexadecimal digit"""


class BlockMac(DukptError, number=18):
    """the MAC is not that of the key block"""


class BlockPayload(DukptError, number=19):
    """the key's length is neither 128 nor 192 bits, or the payload is too short for it"""


class BlockPadLength(DukptError, number=20):
    """the payload would be no whole blocks, or the text longer than 512 characters"""


class NotARequest(DukptError, number=21):
    """the bytes are no request's frame"""


class NotAReply(DukptError, number=22):
    """the bytes are no accepted reply's frame"""


class NotARefusal(DukptError, number=23):
    """the bytes are no refusal's frame"""


class NotACode(DukptError, number=24):
    """the two bytes are no code of a reply: 00, 14, 30, 51 or 55"""


class NotAReason(DukptError, number=25):
    """the reason of a refusal is none of 1 to 6"""


class NotMine(DukptError, number=26):
    """the reply is to another key serial number"""


class BadMac(DukptError, number=27):
    """the MAC is not that of the frame"""


class PartOfFrame(DukptError, number=28):
    """fewer than the two bytes of a frame's length are there"""


class TooLong(DukptError, number=29):
    """a length above 62 stands where a frame would begin"""


class NotReversed(DukptError, number=30):
    """the key serial number cannot reverse the other one"""


class NotAReversal(DukptError, number=31):
    """the bytes are no reversal's frame"""


class NotAState(DukptError, number=32):
    """the state of a reversal is neither 1 nor 0"""


class NotAReversalReply(DukptError, number=33):
    """the bytes are no frame of a reversal's reply"""


class OtherUsage(DukptError, number=34):
    """the key in the key block has another usage, or is no TDES key"""


class OtherKeyLength(DukptError, number=35):
    """the key in the key block has another length"""


class NoOptionalBlock(DukptError, number=36):
    """the key block has no optional block with this id"""


class NotAModule(DukptError, number=37):
    """the bytes are no image of a security module"""


class WrongUse(DukptError, number=38):
    """the key block's usage, algorithm, mode or key length is that of another key"""


class PrefixTaken(DukptError, number=39):
    """the module has a base derivation key for this prefix"""


class SlotsFull(DukptError, number=40):
    """the module has eight base derivation keys"""


class ZoneTaken(DukptError, number=41):
    """the module has a zone key"""


class NoZone(DukptError, number=42):
    """the module has no zone key"""


class NotACard(DukptError, number=43):
    """a place among the cards has no PAN or no PIN"""


class NotSettled(DukptError, number=44):
    """the bytes are no payment and no reversal with what became of it"""


class NoKeySet(DukptError, number=45):
    """the module has no base derivation key for the prefix of the key serial number"""


# Each fault by its number.
FAULTS: Final[Mapping[int, type[DukptError]]] = {
    fault.number: fault for fault in DukptError.__subclasses__()}
