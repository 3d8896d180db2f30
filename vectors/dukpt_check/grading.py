"""Grades by area: how an implementation stands in derivation, MACs, PIN blocks and the like."""
from __future__ import annotations

from collections import Counter
from dataclasses import dataclass
from typing import Mapping, Sequence

from .judging import UNANSWERED, Kind, Verdict

# Each area with its operations: areas and operations stand behind those that they rest on.
AREAS: Mapping[str, Sequence[str]] = {
    "ciphers": ("tdes_encrypt", "tdes_decrypt", "cbc_encrypt", "cbc_decrypt"),
    "MACs": ("retail_mac", "cmac"),
    "check values": ("check_value", "cmac_check_value"),
    "numbers": ("usable", "next_number"),
    "derivation": ("initial_key", "derive_from_initial", "derive"),
    "registers": ("registers", "walk"),
    "PIN blocks": ("pin_block", "pin_of_block", "encrypt_pin", "decrypt_pin"),
    "key blocks": ("wrap", "unwrap"),
}
# What each operation is made of.
RESTS_ON: Mapping[str, Sequence[str]] = {
    "cbc_encrypt": ("tdes_encrypt",), "cbc_decrypt": ("tdes_decrypt",),
    "retail_mac": ("tdes_encrypt",), "cmac": ("tdes_encrypt",),
    "check_value": ("tdes_encrypt",), "cmac_check_value": ("cmac",),
    "next_number": ("usable",), "initial_key": ("tdes_encrypt",),
    "derive_from_initial": ("usable", "tdes_encrypt"),
    "derive": ("initial_key", "derive_from_initial"), "registers": ("derive_from_initial",),
    "walk": ("derive", "registers", "next_number"),
    "encrypt_pin": ("pin_block", "tdes_encrypt"), "decrypt_pin": ("pin_of_block", "tdes_decrypt"),
    "wrap": ("cbc_encrypt", "cmac"), "unwrap": ("cbc_decrypt", "cmac"),
}
# The area of all other operations: they are of frames, which are this project's own.
FRAMES = "frames"
NAMES = (*AREAS, FRAMES)
# The flag of cases that no standard decides.
OWN_RULE = "OwnRule"

WORDS = {
    "A": "every case is right",
    "B": "every valid case is right, but some invalid ones are not refused as they should be",
    "C": "some valid cases are wrong or not answered",
    "D": "most valid cases are wrong or not answered",
    "-": "unsupported: nothing was judged",
}


def area_of(operation: str) -> str:
    """The area of an operation."""
    return next((name for name, operations in AREAS.items() if operation in operations), FRAMES)


def order_of(operation: str) -> tuple[int, int]:
    """The place of an operation among all: behind those that it rests on."""
    area = area_of(operation)
    own = AREAS.get(area, (operation,))
    return NAMES.index(area), own.index(operation)


def bases_of(operation: str) -> set[str]:
    """The operations that one rests on, near or far."""
    found: set[str] = set()
    for it in RESTS_ON.get(operation, ()):
        found |= {it} | bases_of(it)
    return found


@dataclass(frozen=True)
class Grade:
    """How an area stands, with the counts of its cases."""

    area: str
    letter: str
    right: int
    deviations: int
    unsupported: int
    # The operations of which no case is supported.
    lacking: tuple[str, ...]
    # How many valid cases have a wrong answer, and how many none.
    wrong: int
    unanswered: int
    # Whether there are deviations, and all are from rules that no standard has.
    is_own_rules: bool

    @property
    def words(self) -> str:
        """The grade in words."""
        told = WORDS[self.letter]
        if not self.unanswered:
            told = told.replace(" or not answered", "")
        elif not self.wrong:
            told = told.replace("wrong or ", "")
        if self.letter != "-" and self.unsupported:
            what = ", ".join(self.lacking) or f"{self.unsupported:,} cases"
            told += f"; {what} unsupported, and not judged"
        if self.is_own_rules:
            told += f"; all deviations are from rules that no standard has (flag {OWN_RULE})"
        return told


def grades(verdicts: Sequence[Verdict]) -> list[Grade]:
    """The grade of each area that has cases."""
    found = []
    for name in NAMES:
        here = [it for it in verdicts if area_of(it.case.operation) == name]
        if here:
            found.append(grade(name, here))
    return found


def grade(area: str, verdicts: Sequence[Verdict]) -> Grade:
    """The grade of an area by the verdicts of its cases."""
    unsupported = [it for it in verdicts if it.kind is Kind.UNSUPPORTED]
    judged = [it for it in verdicts if it.kind is not Kind.UNSUPPORTED]
    supported = {it.case.operation for it in judged}
    lacking = dict.fromkeys(it.case.operation for it in unsupported
                            if it.case.operation not in supported)
    wrong = [it for it in judged if it.is_deviation]
    of_valid = Counter(it.kind in UNANSWERED for it in wrong if it.case.is_valid)
    is_own = bool(wrong) and all(OWN_RULE in it.case.flags for it in wrong)
    return Grade(area, letter(judged), len(judged) - len(wrong), len(wrong), len(unsupported),
                 tuple(lacking), of_valid[False], of_valid[True], is_own)


def letter(judged: Sequence[Verdict]) -> str:
    """The letter for cases that are supported."""
    if not judged:
        return "-"
    count = Counter((it.case.is_valid, it.is_deviation) for it in judged)
    wrong, right = count[True, True], count[True, False]
    if wrong:
        return "D" if wrong > right else "C"
    return "B" if count[False, True] else "A"
