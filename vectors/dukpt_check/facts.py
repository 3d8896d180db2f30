"""What holds of a case, by its inputs and outputs: lengths, one bits of the counter, parts of a key
that are equal."""
from __future__ import annotations

from dataclasses import dataclass
from typing import Iterator, Mapping, Sequence

from .cases import BLOCK_BYTES, Case, Value, is_text

COUNTER_BITS, MOST_ONES = 21, 10
# Inputs that are TDES keys, of two parts of 8 bytes or of three.
KEYS = ("key", "bdk", "initial_key", "kbpk")
PLACES = ("first", "second", "third")
KEY_PARTS = "has another second part than its first"


@dataclass(frozen=True)
class Amount:
    """A number that a case has: of bytes, of characters, or of one bits."""

    what: str
    unit: str

    def in_words(self, least: int, most: int) -> str:
        """That it is between two numbers."""
        if least == most:
            return f"{self.what} has {counted(least, self.unit)}"
        if most < 0:
            return f"{self.what} has {least} or more {self.unit}"
        return f"{self.what} has {most} or fewer {self.unit}"


def counted(number: int, unit: str) -> str:
    """A number with its unit, which has an s at its end."""
    return f"{number} {unit if number != 1 else unit[:-1]}"


def counter_of(case: Case) -> int:
    """The last 21 bits of the case's key serial number; -1 where it has none of ten bytes."""
    ksn = case.inputs.get("ksn")
    if not isinstance(ksn, str) or len(ksn) != 20:
        return -1
    return int(ksn, 16) % (1 << COUNTER_BITS)


def amounts(case: Case) -> dict[Amount, int]:
    """The numbers that a case has."""
    found = {}
    if counter_of(case) >= 0:
        found[Amount("counter", "one bits")] = bin(counter_of(case)).count("1")
    for kind, members in (("input", case.inputs), ("output", case.outputs)):
        for name, value in members.items():
            if isinstance(value, str):
                is_plain = is_text(case.operation, name)
                unit, size = ("characters", 1) if is_plain else ("bytes", 2)
                found[Amount(f"{kind} {name}", unit)] = len(value) // size
    return found


def traits(case: Case) -> dict[str, bool]:
    """What is so or not of a case: each in words, with whether it is so."""
    found = {}
    for name, value in case.inputs.items():
        if isinstance(value, str) and not is_text(case.operation, name):
            is_whole = len(value) % (2 * BLOCK_BYTES) == 0
            found[f"input {name} has whole blocks of {BLOCK_BYTES} bytes"] = is_whole
            found[f"input {name} has no whole blocks of {BLOCK_BYTES} bytes"] = not is_whole
    found.update(key_traits(case.inputs))
    if case.operation == "next_number" and counter_of(case) >= 0:
        is_skipped = bin(counter_of(case) + 1).count("1") > MOST_ONES
        found["counter has one behind it with more than ten one bits"] = is_skipped
    return found


def key_traits(inputs: Mapping[str, Value]) -> Iterator[tuple[str, bool]]:
    """Which parts of its keys differ, parity bits apart. The third part of two is the first."""
    for name in KEYS:
        value = inputs.get(name)
        if not isinstance(value, str) or len(value) not in (32, 48):
            continue
        parts = without_parity(bytes.fromhex(value))
        parts += parts[: 3 - len(parts)]
        for one, other in ((0, 1), (1, 2), (0, 2)):
            yield (f"{name} has another {PLACES[other]} part than its {PLACES[one]}",
                   parts[one] != parts[other])


def without_parity(key: bytes) -> list[bytes]:
    """The parts of a key, without their parity bits."""
    plain = bytes(it & 0xFE for it in key)
    return [plain[at : at + BLOCK_BYTES] for at in range(0, len(plain), BLOCK_BYTES)]


def is_simplest(case: Case) -> str:
    """What a case has that is of the simplest of its operation, in words; nothing for others."""
    counter = counter_of(case)
    if counter > 0 and case.operation.startswith("derive"):
        return "one one bit in the counter" if counter & (counter - 1) == 0 else ""
    message = case.inputs.get("message", case.inputs.get("data"))
    if isinstance(message, str) and 0 < len(message) <= 2 * BLOCK_BYTES:
        return "one block"
    return ""


def shared_flags(cases: Sequence[Case]) -> list[str]:
    """The flags that all these cases have."""
    return [it for it in cases[0].flags if all(it in case.flags for case in cases)]
