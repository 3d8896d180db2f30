"""What the page's stage has to show of a script, read out of the independent models of terminals and
tills: no line of an outcome is used but where a line is what is shown."""
from __future__ import annotations

import copy
from dataclasses import dataclass
from typing import Any, Union

from ..formats.books import Approved, Declined, Open, Undone
from ..formats.configuration import Configuration
from ..formats.frames import read_request, serial_in
from ..formats.journal_records import Payment
from ..models.model import World
from ..models.model_books import Books
from ..standards.dukpt import NO_KEY, serial_text
from ..worlds.books_agree import Auditor

AnyWorld = Union[World, Books]


@dataclass
class Shown:
    """Of a moment: both totals, the sides of each purchase that was sent, the numbers of laws, and the
    number whose reply each terminal waits for."""

    till: int
    host: int
    purchases: dict[str, tuple[int, str, str]]
    used: int
    accepted: int
    held: int
    pending: dict[str, str]


class Reader:
    """A world, and what was accepted in it. A payment that a till gave up is not open any more."""

    def __init__(self, configuration: Configuration, over_journal: bool) -> None:
        self.over_journal = over_journal
        self.world: AnyWorld = (Books if over_journal else World)(configuration)
        self.lines: list[str] = []
        # The amount, sender and number of each payment, and those that a terminal completed.
        self.sent: dict[int, tuple[int, str]] = {}
        self.done: dict[int, str] = {}
        self.codes: dict[int, str] = {}
        self.accepted: set[int] = set()

    def happens(self, event: str) -> None:
        line = self.world.happens(event)
        self.lines.append(line)
        words = line.split(" ")
        if words[1] == "sent":
            request = read_request(self.world.requests[-1])
            assert request is not None
            self.sent[request.serial] = (request.amount, words[0])
        elif words[0] == "answer" and words[2] in ("accepted", "undone"):
            self.accepted.add(int(words[3], 16))
            if words[2] == "accepted":
                self.codes[int(words[3], 16)] = words[4]
        elif words[1] == "done":
            self.done[int(words[2], 16)] = words[3]

    def shown(self) -> Shown:
        sides = self.sides_of_tills() if self.over_journal else self.sides_of_terminals()
        purchases = {serial_text(serial): (self.sent[serial][0], *sides[serial]) for serial in self.sent}
        till, host = self.totals_of_tills() if self.over_journal else self.totals_of_terminals()
        return Shown(till, host, purchases, len(self.world.requests), len(self.accepted), self.held(),
                     self.pending())

    def held(self) -> int:
        """How many keys the terminals that the stage shows hold in their registers after a restart."""
        count = 0
        for terminal in self.world.terminals:
            found = copy.deepcopy(terminal)
            found.restart()
            count += sum(key != NO_KEY for key in found.registers.keys) if found.registers else 0
        return count

    def pending(self) -> dict[str, str]:
        """Of a number whose request never went out nothing is shown."""
        sent = {serial_in(it) for it in self.world.requests}
        waiting = {f"t{at}": it.pending for at, it in enumerate(self.world.terminals, 1)}
        return {at: serial_text(it.serial) if it and it.serial in sent else ""
                for at, it in waiting.items()}

    def next_numbers(self) -> list[str]:
        """What each terminal tells at a restart in this moment."""
        found = copy.deepcopy(self.world.terminals)
        for it in found:
            it.restart()
        return [it.next() for it in found]

    # Over a log

    def totals_of_terminals(self) -> tuple[int, int]:
        told = sum(self.sent[serial][0] for serial, code in self.done.items() if code == "00")
        return told, sum(self.sent[serial][0] for serial, code in self.codes.items() if code == "00")

    def sides_of_terminals(self) -> dict[int, tuple[str, str]]:
        assert isinstance(self.world, World)
        pending = {it.pending.serial for it in self.world.terminals if it.pending}
        kept = set(copy.deepcopy(self.world.host.log).restart())
        sides = {}
        for serial in self.sent:
            code = self.done.get(serial)
            till = side(code) if code else "waiting" if serial in pending else "given up"
            host = side(self.codes[serial]) if serial in self.codes else "nothing"
            if host == "nothing" and serial in kept:
                host = "undecided"
            sides[serial] = (till, host)
        return sides

    # Over a journal

    def totals_of_tills(self) -> tuple[int, int]:
        assert isinstance(self.world, Books)
        auditor = Auditor(self.world)
        auditor.read_journal()
        told = sum(sum(self.world.merchants(at).values()) for at in range(len(self.world.terminals)))
        return told, sum(sum(it.values()) for it in auditor.standing)

    def sides_of_tills(self) -> dict[int, tuple[str, str]]:
        return {serial: (self.till_side(serial, at), self.host_side(serial))
                for serial, (_, at) in self.sent.items()}

    def till_side(self, serial: int, at: str) -> str:
        assert isinstance(self.world, Books)
        till = self.world.terminals[int(at[1:]) - 1]
        told = self.world.told[int(at[1:]) - 1].get(serial)
        last: Any = told or (till.last if till.last and till.last.serial == serial else None)
        if last is None:
            return "unknown"
        return {Open: "open", Approved: "approved", Declined: "declined", Undone: "undone"}[type(last)]

    def host_side(self, serial: int) -> str:
        assert isinstance(self.world, Books)
        entries = self.world.entries()
        paid = next((it for it in entries if isinstance(it, Payment) and it.serial == serial), None)
        is_reversed = any(not isinstance(it, Payment) and it.reversed == serial for it in entries)
        if paid is None:
            return "barred" if is_reversed else "nothing"
        if paid.code:
            return "declined"
        return "undone" if is_reversed else "approved"


def side(code: str) -> str:
    return "approved" if code == "00" else "declined"
