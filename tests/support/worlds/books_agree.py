"""The law of books, judged behind each event of a world: whenever a till is at rest, the payments that
stand at the host under its numbers are exactly those that it was told as approved, with their amounts.

At any time at most one payment more stands there, the one that is open, and what a till was told as
approved stands. No number is sent twice, and none has two payments at the host.
"""
from __future__ import annotations

from ..formats.frames import serial_in
from ..formats.journal_records import Entry, Reversal
from ..models.model_books import Books, Disagreement, Payments
from ..standards.dukpt import iksn_of, serial_text


def numbers_of(payments: Payments) -> str:
    return ", ".join(f"{serial_text(serial)} {amount}" for serial, amount in payments.items()) or "none"


class Auditor:
    """What judges a world by both books. It keeps no more of one than what it saw before."""

    def __init__(self, world: Books) -> None:
        self.world = world
        self.sent: set[int] = set()
        self.seen = 0
        self.forget()

    def forget(self) -> None:
        """Knows nothing of the journal: its entries, the numbers that they use, and what stands at the
        host, by tills."""
        self.known: list[Entry] = []
        self.used: set[int] = set()
        self.standing: list[Payments] = [{} for _ in self.world.terminals]

    def demand(self) -> None:
        """That the law holds now."""
        self.demand_new_requests()
        self.read_journal()
        for at in range(len(self.world.terminals)):
            self.demand_agreement(at, self.standing[at])

    def demand_new_requests(self) -> None:
        """A frame has another number than all that were sent before."""
        for frame in self.world.requests[self.seen :]:
            serial = serial_in(frame)
            if serial in self.sent:
                raise Disagreement(f"{serial_text(serial)} is sent twice")
            self.sent.add(serial)
        self.seen = len(self.world.requests)

    def read_journal(self) -> None:
        """Reads the entries that are new, or all where those before are not there any more."""
        entries = self.world.entries()
        if entries == self.known:
            return
        if entries[: len(self.known)] != self.known:
            self.forget()
        for entry in entries[len(self.known) :]:
            self.add(entry)
        self.known = list(entries)

    def add(self, entry: Entry) -> None:
        """Adds an entry, whose number was not used before: nor does a payment come behind its
        reversal."""
        if entry.serial in self.used:
            raise Disagreement(f"the journal has {serial_text(entry.serial)}, which is used")
        self.used.add(entry.serial)
        standing = self.standing[self.world.owners[iksn_of(entry.serial)] - 1]
        if isinstance(entry, Reversal):
            self.used.add(entry.reversed)
            standing.pop(entry.reversed, None)
        elif entry.code == 0:
            standing[entry.serial] = entry.amount

    def demand_agreement(self, at: int, standing: Payments) -> None:
        till, told = self.world.terminals[at], self.world.merchants(at)
        if standing == told:
            return
        more = dict(standing.items() - told.items())
        wrong = dict(told.items() - standing.items())
        if till.is_up:
            allowed = {till.open.serial: till.open.amount} if till.open else {}
            is_right = more.items() <= allowed.items()
        else:
            is_right = len(more) <= 1
        if wrong or not is_right:
            raise Disagreement(f"t{at + 1}, with {till.last}: at the host alone stand "
                               f"{numbers_of(more)}; it alone was told {numbers_of(wrong)}")
