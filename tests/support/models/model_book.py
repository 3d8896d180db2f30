"""The book of many hosts: what comes of payments and reversals that are settled in turn.

It is written from docs/FORMATS.md ("Over a journal") and docs/OPERATION.md. There is no end of its room.
"""
from __future__ import annotations

from dataclasses import dataclass, field
from typing import Iterable, NamedTuple, Optional

APPROVED = 0
NONE_STANDS, UNDONE = 0, 1


class Asked(NamedTuple):
    """A payment, or with a number that it reverses a reversal."""

    number: bytes
    mac: bytes
    amount: int = 0
    code: int = APPROVED
    reversed: Optional[bytes] = None

    @property
    def is_payment(self) -> bool:
        return self.reversed is None


class Kept(NamedTuple):
    """What was asked first under a number, and what was said to it: a code or a state."""

    asked: Asked
    said: int


@dataclass
class Book:
    """What is kept, by its numbers, and by which reversal a number was reversed first."""

    kept: dict[bytes, Kept] = field(default_factory=dict)
    reversals: dict[bytes, bytes] = field(default_factory=dict)

    def settle(self, group: Iterable[Asked]) -> list[Optional[int]]:
        """What is said to each: nothing where its number is used by another one."""
        return [self.settle_one(it) for it in group]

    def settle_one(self, it: Asked) -> Optional[int]:
        if it.number in self.kept:
            return self.said_again(it)
        if it.number in self.reversals:
            return None
        self.kept[it.number] = Kept(it, self.first_said(it))
        if it.reversed is not None:
            self.reversals.setdefault(it.reversed, it.number)
        return self.kept[it.number].said

    def first_said(self, it: Asked) -> int:
        if it.reversed is None:
            return it.code
        found = self.kept.get(it.reversed)
        was_approved = found and found.asked.is_payment and found.said == APPROVED
        return UNDONE if was_approved else NONE_STANDS

    def said_again(self, it: Asked) -> Optional[int]:
        found = self.kept[it.number]
        is_same = (found.asked.mac, found.asked.reversed) == (it.mac, it.reversed)
        if not is_same or it.is_payment and it.number in self.reversals:
            return None
        return found.said

    def rows(self) -> set[tuple]:
        """What a table has of it: kind, number, MAC, amount, code, reversed number, state, and the
        reversal that reversed it."""
        found = set()
        for number in {*self.kept, *self.reversals}:
            by, kept = self.reversals.get(number), self.kept.get(number)
            if kept is None:
                found.add((0, number, None, None, None, None, None, by))
            elif kept.asked.is_payment:
                asked = kept.asked
                found.add((1, number, asked.mac, asked.amount, kept.said, None, None, by))
            else:
                asked = kept.asked
                found.add((2, number, asked.mac, None, None, asked.reversed, kept.said, by))
        return found

    def standing(self) -> dict[bytes, int]:
        """The amounts of the payments that stand, by their numbers."""
        return {number: it.asked.amount for number, it in self.kept.items()
                if it.asked.is_payment and it.said == APPROVED and number not in self.reversals}
