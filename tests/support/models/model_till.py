"""A till: a terminal over its cell, and over a second cell, its book, which keeps the state of its last
purchase. It is written from docs/FORMATS.md and docs/OPERATION.md.

A till is stopped until its restart, and where its book fails. Where its terminal's cell fails, the
terminal is, and the till goes on to know whether a purchase is open: it refuses with `Open` or
`NothingOpen` first, and then its terminal does with `Stopped`.
"""
from __future__ import annotations

from typing import Optional, Union

from ..formats.books import Approved, Declined, Last, Open, Undone, book_of, read_book
from ..formats.frames import Refusal, Reply
from ..formats.reversal_frames import ReversalReply, read_any_answer
from .model_stores import Cell, StoreFault
from .model_terminal import Terminal, TerminalFault

# The last two numbers of a life are for reversals: this is the counter of the first of them.
FOR_REVERSALS = 0x1FF400


class Till(Terminal):
    """It is made stopped, and brought up by its restart."""

    def __init__(self, cell: Cell, book: Cell) -> None:
        super().__init__(cell)
        self.book = book
        # Whether it knows what its book keeps: else it is stopped.
        self.is_up = False
        self.last: Optional[Last] = None

    def stop_till(self) -> None:
        self.is_up, self.last = False, None

    def restart(self) -> None:
        self.stop_till()
        super().restart()
        try:
            body = self.book.restart()
        except StoreFault as why:
            raise TerminalFault(f"Store {why}") from why
        last = None if body is None else read_book(body)
        if body is not None and last is None:
            raise TerminalFault("Store Damaged")
        self.is_up, self.last = True, last

    @property
    def open(self) -> Optional[Open]:
        """The purchase whose outcome it does not know, if there is one."""
        return self.last if isinstance(self.last, Open) else None

    @property
    def needs_restart(self) -> bool:
        return not (self.is_up and self.running)

    @property
    def is_at_rest(self) -> bool:
        return self.is_up and self.open is None

    @property
    def is_reversing(self) -> bool:
        """Whether its terminal waits for the answer to a reversal."""
        return (self.open is not None and self.pending is not None
                and self.pending.serial != self.open.serial)

    def demand_up(self) -> None:
        if not self.is_up:
            raise TerminalFault("Stopped")

    def demand_open(self) -> Open:
        self.demand_up()
        if self.open is None:
            raise TerminalFault("NothingOpen")
        return self.open

    def demand_closed(self) -> None:
        self.demand_up()
        if self.open is not None:
            raise TerminalFault("Open")

    def write(self, last: Last) -> None:
        """Puts the state of the last purchase into the book, and has it only then."""
        try:
            self.book.put(book_of(last))
        except StoreFault as why:
            self.stop_till()
            raise TerminalFault(f"Store {why}") from why
        self.last = last

    def demand_new(self, iksn: int) -> tuple[int, ...]:
        self.demand_closed()
        return super().demand_new(iksn)

    # Purchases

    def begin(self, pan: str, pin: str, amount: int) -> bytes:
        """Takes the next number; the request goes out when the book has it as open."""
        self.demand_closed()
        if self.registers is not None and self.registers.counter >= FOR_REVERSALS:
            raise TerminalFault("Spent")
        request = super().begin(pan, pin, amount)
        assert self.pending is not None
        self.write(Open(self.pending.serial, amount))
        return request

    def answer(self, frame: bytes) -> Union[Reply, Refusal, ReversalReply]:
        """Takes an answer of any kind, and tells what came of it only when the book has it."""
        if isinstance(read_any_answer(frame), ReversalReply):
            return self.undo(frame)
        return self.decide(frame)

    def undo(self, frame: bytes) -> ReversalReply:
        answer = self.reversal_reply(frame, self.demand_open().serial)
        self.write(Undone(answer.reversed))
        return answer

    def decide(self, frame: bytes) -> Union[Reply, Refusal]:
        it = self.demand_open()
        if self.is_reversing and not isinstance(read_any_answer(frame), Refusal):
            raise TerminalFault("NotPending")
        answer = self.reply(frame)
        if isinstance(answer, Reply):
            is_approved = answer.code == "00"
            self.write(Approved(it.serial, it.amount) if is_approved
                       else Declined(it.serial, answer.code))
        return answer

    def reverse(self) -> bytes:
        """Takes the next number for the reversal of the open purchase, which stays open."""
        return self.begin_reversal(self.demand_open().serial)
