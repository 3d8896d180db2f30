"""The two books of a purchase: what an example terminal told, and what the service's journal keeps.

Where the terminal is at rest, both have the same approved payments.
"""
from __future__ import annotations

import re
from typing import Iterable

PAYMENT = re.compile(r"payment \d+ group \d+ ksn ([0-9A-F]{20}) amount (\d+) mac \w+ code (\d\d) ")
REVERSAL = re.compile(r"reversal \d+ group \d+ ksn ([0-9A-F]{20}) of ([0-9A-F]{20}) mac ")


class Wrong(AssertionError):
    """That a book cannot be right."""


class Merchant:
    """What a terminal told in all its starts."""

    def __init__(self) -> None:
        # The amounts of the purchases that are approved, by their numbers.
        self.approved: dict[str, int] = {}
        self.not_paid: set[str] = set()
        self.used: list[str] = []
        self.undone = 0

    def hear(self, lines: Iterable[str]) -> None:
        for line in lines:
            self.hear_line(line.removeprefix("last ").split(" "), line.startswith("last "))

    def hear_line(self, words: list[str], is_again: bool) -> None:
        what = words[0]
        if what == "approved":
            self.approve(words[1], int(words[2]))
        elif what in ("declined", "undone", "none"):
            self.close(words[2] if what == "none" else words[1])
            self.undone += what == "undone" and not is_again
        elif what in ("number", "reversing"):
            if words[1] in self.used:
                raise Wrong(f"{words[1]} is used twice")
            self.used.append(words[1])

    def approve(self, number: str, amount: int) -> None:
        if number in self.not_paid or self.approved.setdefault(number, amount) != amount:
            raise Wrong(f"{number} is approved, and was not paid or had another amount")

    def close(self, number: str) -> None:
        if number in self.approved:
            raise Wrong(f"{number} is not paid, and was approved")
        self.not_paid.add(number)


def standing(shown: str) -> dict[str, int]:
    """The amounts of the payments that are approved and not undone, by what `show journal`
    prints."""
    paid = {number: int(amount) for number, amount, code in PAYMENT.findall(shown) if code == "00"}
    for _, undone in REVERSAL.findall(shown):
        paid.pop(undone, None)
    return paid


class Frames:
    """The frames that a terminal sent in all its starts."""

    def __init__(self) -> None:
        self.sent: dict[bytes, bytes] = {}

    def add(self, frame: bytes) -> None:
        if frame[4:14] in self.sent:
            raise Wrong(f"{frame[4:14].hex().upper()} is sent twice")
        self.sent[frame[4:14]] = frame


def frames_in(stream: bytes) -> list[bytes]:
    """The whole frames that a stream begins with."""
    found = []
    while len(stream) >= 2 and len(stream) >= (end := 2 + int.from_bytes(stream[:2], "big")):
        found.append(stream[:end])
        stream = stream[end:]
    return found
