"""What `issue` has to do, by docs/COMMANDS.md: which numbers it issues, the ledger behind it, and its
lines, whose blocks are opened here."""
from __future__ import annotations

import functools
import re
from dataclasses import dataclass
from typing import Iterable, Optional, Sequence

from ..formats.ledger_file import IDENTITY, MOST_RUN, Kept, Made, ledger_image
from ..standards.des import cbc_decrypt, encrypt_block
from ..standards.dukpt import SPENT, initial_key, serial_text
from ..standards.key_blocks import ENCRYPTION, derived, unwrap
from .commands import DOUBLE, DOUBLE_OR_TRIPLE, Refused, count_in, hexadecimal, shown
from .everyday import iksn_in

FIELDS = b"B1TX00N"
LINE = re.compile(rb"issued ([0-9A-F]{20}) (B0080B1TX00N0000[0-9A-F]{64}) ([0-9A-F]{6})\n")
# The number of a line that was begun.
BEGUN = re.compile(rb"issued ([0-9A-F]{20})(?: [0-9A-Z]{0,80}(?: [0-9A-F]{0,6})?)?\n?")
NUMBERS = 1 << 80
# The numbers of one key set: their first 40 bits are the same.
KEY_SET = 1 << 40
MOST_COUNT = KEY_SET // SPENT
CHECK_VALUE = (6,)


@dataclass(frozen=True)
class Keys:
    """The base derivation key, and the key under which the blocks are."""

    base: bytes
    loading: bytes


@dataclass(frozen=True)
class Issued:
    """What a line has: its number, the initial key in its block with the padding of it, and the check
    value."""

    number: int
    key: bytes
    padding: bytes
    check_value: str


class WrongLine(AssertionError):
    """That an output has what is no right line."""


def asked(base: str, loading: str, iksn: str, count: str,
          check_value: Optional[str] = None) -> tuple[Keys, int, int]:
    """What these arguments ask for: the keys, the first number, and how many."""
    keys = Keys(hexadecimal(base, DOUBLE, "BDK"), hexadecimal(loading, DOUBLE_OR_TRIPLE, "loading"))
    first, numbers = iksn_in(iksn), count_in(count)
    if not 1 <= numbers <= numbers_left(first):
        raise Refused("count refused")
    if check_value is not None:
        wanted = hexadecimal(check_value, CHECK_VALUE, "KCV")
        if check_value_of(keys.base) != wanted:
            raise Refused("KCV differs")
    return keys, first, numbers


def check_value_of(key: bytes) -> bytes:
    return encrypt_block(key, bytes(8))[:3]


@functools.lru_cache(maxsize=1 << 14)
def made_of(base: bytes, number: int) -> tuple[bytes, bytes]:
    """The initial key of a number, and its check value."""
    key = initial_key(base, number)
    return key, check_value_of(key)


def numbers_left(first: int) -> int:
    """How many numbers there are from this one on in its key set."""
    return (KEY_SET - first % KEY_SET) // SPENT


def numbers_from(first: int, count: int) -> list[int]:
    return [first + at * SPENT for at in range(count)]


def bytes_of(numbers: Iterable[int]) -> list[bytes]:
    return [it.to_bytes(10, "big") for it in numbers]


def numbers_of(kept: Iterable[Kept]) -> list[int]:
    return [int.from_bytes(it.number, "big") for it in kept]


def issued_by(keys: Keys, numbers: Iterable[int], run: int) -> list[Kept]:
    """What a ledger keeps of these numbers, where a run with these keys issued them."""
    of_set = check_value_of(keys.base)
    return [Kept(it.to_bytes(10, "big"), Made(made_of(keys.base, it)[1], of_set, run))
            for it in numbers]


def last_run(kept: Iterable[Kept]) -> int:
    """The largest number of a run, or zero."""
    return max((it.made.run for it in kept if it.made), default=0)


class Ledger:
    """A ledger as it has to be: what it keeps, of so much that it has room for. Its first numbers
    were copied from a ledger in the form of a log."""

    def __init__(self, room: int, numbers: Sequence[int] = (), identity: int = IDENTITY) -> None:
        self.room, self.identity = room, identity
        self.kept = [Kept(it) for it in bytes_of(numbers)]

    @property
    def numbers(self) -> list[int]:
        return numbers_of(self.kept)

    @property
    def image(self) -> bytes:
        return ledger_image(self.kept, self.room, self.identity)

    def keep(self, keys: Keys, numbers: Iterable[int]) -> None:
        """Keeps what a run issues, under the number behind that of the last."""
        self.kept += issued_by(keys, numbers, 1 + last_run(self.kept))

    def issue(self, keys: Keys, first: int, count: int, skips: bool) -> tuple[list[int], str]:
        """The numbers that a run issues, or the fault for which it issues none."""
        asked, there = numbers_from(first, count), set(self.numbers)
        found = [it for it in asked if it in there]
        if found and not skips:
            return [], f"{serial_text(found[0])}: issued"
        left = [it for it in asked if it not in there]
        if len(left) > self.room - len(self.kept) or last_run(self.kept) == MOST_RUN:
            return [], "ledger: full"
        self.keep(keys, left)
        return left, ""

    def again(self, first: int, count: int) -> tuple[list[int], str]:
        """The numbers whose lines a run makes again, or the fault for which it makes none."""
        asked, there = numbers_from(first, count), set(self.numbers)
        missing = [it for it in asked if it not in there]
        return ([], f"{serial_text(missing[0])}: not issued") if missing else (asked, "")


def read_line(line: bytes, keys: Keys) -> Issued:
    """What a line has, of which all is tested that the keys determine."""
    found = LINE.fullmatch(line)
    if not found:
        raise WrongLine(f"this is no line of a block: {line!r}")
    number, text = int(found[1], 16), found[2]
    fields, key = unwrap(keys.loading, text)
    wanted, checked = made_of(keys.base, number)
    value = shown(checked)
    if (fields, key, found[3].decode()) != (FIELDS, wanted, value):
        raise WrongLine(f"{line!r}: its key is {key.hex()} and not {wanted.hex()}, or {value} is not "
                        "its check value")
    return Issued(number, key, padding_of(keys.loading, text), value)


def read_lines(output: bytes, keys: Keys) -> list[Issued]:
    return [read_line(line, keys) for line in output.splitlines(keepends=True)]


def padding_of(loading: bytes, text: bytes) -> bytes:
    """Of a block that is right: what stands behind length and key."""
    hidden = bytes.fromhex(text[16:].decode())
    return cbc_decrypt(derived(loading, ENCRYPTION), hidden[-8:], hidden[:-8])[18:]


def whole_lines(output: bytes) -> tuple[bytes, bytes]:
    """The lines that have ended, and what is begun behind them."""
    at = output.rfind(b"\n") + 1
    return output[:at], output[at:]
