"""Tills, one host over a journal and the network between them: what comes of each event of a script of
`dukpt run --journal`, and both books: what stands at the host, and what the tills were told."""
from __future__ import annotations

import copy
from typing import Optional

from ..formats.books import Approved, Declined, Last, Open, Undone
from ..formats.configuration import Configuration
from ..formats.frames import Refusal, serial_in
from ..formats.journal_records import Entry
from ..formats.reversal_frames import ReversalReply, reversed_in
from ..standards.dukpt import serial_text
from .model_journal_store import new_journal
from .model_line import LineHost
from .model_network import Network, lines_of, taken
from .model_stores import new_cell
from .model_till import Till

# The payments of a book: their numbers, with their amounts.
Payments = dict[int, int]


class Books(Network[LineHost, Till]):
    """Tills over cells and books, and a host over a journal."""

    def __init__(self, configuration: Configuration) -> None:
        on_disk, count = configuration.stores == "disk", configuration.terminals
        # What each till was told of its purchases.
        self.told: list[dict[int, Last]] = [{} for _ in range(count)]
        super().__init__(configuration, LineHost(configuration, new_journal(configuration.log)),
                         [Till(new_cell(on_disk), new_cell(on_disk)) for _ in range(count)])

    def at_terminal(self, command: str, at: str, terminal: Till, *words: str) -> str:
        if command == "reverse":
            return self.reverse(at, terminal)
        if command == "arm" and words[0] == "book":
            terminal.book.arm(int(words[1]))
            return f"{at} book armed {words[1]}"
        return super().at_terminal(command, at, terminal, *words)

    def restart(self, at: str, terminal: Till) -> str:
        line = super().restart(at, terminal)
        self.tell(at, terminal.last)
        return line + kept_text(terminal.last)

    def reverse(self, at: str, terminal: Till) -> str:
        reversal = terminal.reverse()
        self.requests.append(reversal)
        numbers = f"{serial_text(serial_in(reversal))} of {serial_text(reversed_in(reversal))}"
        return f"{at} reversing {len(self.requests)} {numbers}"

    def take(self, at: str, terminal: Till, frame: bytes) -> str:
        answer = terminal.answer(frame)
        if not isinstance(answer, Refusal):
            self.tell(at, terminal.last)
        if isinstance(answer, ReversalReply):
            return f"undone {serial_text(answer.reversed)}"
        return taken(answer)

    # Both books

    def tell(self, at: str, last: Optional[Last]) -> None:
        """A till is told what came of its last purchase; no purchase is told as two things."""
        if last is None or isinstance(last, Open):
            return
        told = self.told[int(at[1:]) - 1].setdefault(last.serial, last)
        if told != last:
            raise Disagreement(f"{at} was told {told}, and now {last}")

    def merchants(self, number: int) -> Payments:
        """The book of a till: what it was told as approved."""
        return {it.serial: it.amount for it in self.told[number].values() if isinstance(it, Approved)}

    def entries(self) -> list[Entry]:
        """What the host's journal keeps: of one that is stopped, what its restart would find."""
        if self.host.running:
            return self.host.judge.entries
        return copy.deepcopy(self.host.journal).restart()


class Disagreement(AssertionError):
    """That two books are not as they have to be."""


def kept_text(last: Optional[Last]) -> str:
    """What a line of a restart has of the state of the last purchase."""
    if last is None:
        return ""
    word = {Open: "open", Approved: "approved", Declined: "declined", Undone: "undone"}[type(last)]
    code = f" {last.code}" if isinstance(last, Declined) else ""
    return f" {word} {serial_text(last.serial)}{code}"


def played(configuration: Configuration, script: bytes) -> bytes:
    """The lines of a script over a journal whose lines are all events."""
    return lines_of(Books(configuration), script)
