"""Tills and hosts that do one thing wrong: each of them has to be found."""
from __future__ import annotations

from functools import partial
from typing import Callable, Iterable, Optional, Union

from ..formats.books import Approved, Declined, Last, Open, Undone, book_of
from ..formats.frames import Refusal, Reply
from ..formats.journal_file import LAST_PART
from ..formats.journal_records import Reversal
from ..formats.reversal_frames import ReversalReply, read_any_answer, read_reversal_reply
from ..models.model_books import Books
from ..models.model_host import HostFault
from ..models.model_journal import Judge, Judged
from ..models.model_line import LineHost
from ..models.model_stores import StoreFault
from ..models.model_terminal import Pending, TerminalFault
from ..models.model_till import Till
from ..standards.dukpt import Registers


class BeginsAnew(Till):
    """It begins another purchase while one is open."""

    def demand_closed(self) -> None:
        self.demand_up()


class ForgetsWhatIsOpen(Till):
    """Its book does not have what is open, so that its restart finds nothing of it."""

    def write(self, last: Last) -> None:
        if isinstance(last, Open):
            self.last = last
        else:
            super().write(last)


class DropsWhatIsOpen(Till):
    """Its restart takes what is open for closed."""

    def restart(self) -> None:
        super().restart()
        if self.open is not None:
            self.last = Undone(self.open.serial)


class TellsUnkept(Till):
    """It tells what came of a purchase, and its book has it as open."""

    def write(self, last: Last) -> None:
        if isinstance(last, (Approved, Declined)):
            self.last = last
        else:
            super().write(last)


class TellsBeforeKept(Till):
    """It tells what came of a purchase, also where its book fails then."""

    def write(self, last: Last) -> None:
        try:
            super().write(last)
        except TerminalFault:
            if isinstance(last, Open):
                raise
            self.last = last


class PassesOverFailures(Till):
    """It goes on when its book fails."""

    def write(self, last: Last) -> None:
        try:
            self.book.put(book_of(last))
        except StoreFault:
            pass
        self.last = last


class ClosesAtRefusals(Till):
    """It takes a refusal for a word that nothing stands."""

    def decide(self, frame: bytes) -> Union[Reply, Refusal]:
        it = self.demand_open()
        answer = super().decide(frame)
        if isinstance(answer, Refusal):
            self.write(Undone(it.serial))
        return answer


class UndoesUnheard(Till):
    """It takes its purchase for undone when the reversal goes out."""

    def reverse(self) -> bytes:
        it, reversal = self.demand_open(), super().reverse()
        self.write(Undone(it.serial))
        return reversal


class TakesLateReplies(Till):
    """It takes the reply to its payment although the reversal went out."""

    payment: Optional[Pending] = None

    def reverse(self) -> bytes:
        payment = self.payment if self.is_reversing else self.pending
        reversal = super().reverse()
        self.payment = payment
        return reversal

    def decide(self, frame: bytes) -> Union[Reply, Refusal]:
        if self.is_reversing and self.payment and isinstance(read_any_answer(frame), Reply):
            self.pending, self.payment = self.payment, None
        return super().decide(frame)


class ReversesAnother(Till):
    """It reverses the number before the one that is open, where it can be used."""

    def reverse(self) -> bytes:
        it = self.demand_open()
        return self.begin_reversal(it.serial - 1 if it.serial % 8 > 1 else it.serial)

    def reversal_reply(self, frame: bytes, reversed_serial: int) -> ReversalReply:
        other = reversed_serial - 1 if reversed_serial % 8 > 1 else reversed_serial
        answer = super().reversal_reply(frame, other)
        return ReversalReply(answer.serial, reversed_serial, answer.state, answer.mac, answer.text)


class StopsWhole(Till):
    """Where its terminal's cell fails, it is stopped itself."""

    def keep(self, registers: Registers) -> None:
        try:
            super().keep(registers)
        except TerminalFault:
            self.stop_till()
            raise


class TakesAnyUndoing(Till):
    """It takes the reply to any reversal for that to its own."""

    def undo(self, frame: bytes) -> ReversalReply:
        answer = read_reversal_reply(frame)
        assert answer is not None
        self.write(Undone(self.demand_open().serial))
        return answer


class GoesOnUnkept(LineHost):
    """It answers when its journal fails."""

    def append(self, found: Judged) -> None:
        try:
            super().append(found)
        except HostFault:
            self.running = self.journal.running = True


class TakesLateRequests(Judge):
    """A payment that was reversed before it came is accepted."""

    def is_used(self, serial: int) -> bool:
        return serial in self.places


class TakesReversalsAgain(Judge):
    """The number of a reversal is not used by it."""

    def is_used(self, serial: int) -> bool:
        return super().is_used(serial) and not isinstance(self.entry(serial), Reversal)


class RepliesToUndone(Judge):
    """The request of a payment that was undone is given its reply again."""

    def was_reversed(self, serial: int) -> bool:
        return False


class TellsNoneStands(Judge):
    """A payment that was undone is told as one that never stood."""

    def was_approved(self, serial: int) -> bool:
        return super().was_approved(serial) and serial not in self.reversed


class KeepsSixteenthPart(Judge):
    """A payment is refused where just a sixteenth is left."""

    @property
    def takes_payments(self) -> bool:
        return LAST_PART * self.left > self.room


class KeepsFewer(Judge):
    """What is kept for reversals is rounded down."""

    @property
    def takes_payments(self) -> bool:
        return self.left >= max(1, self.room // LAST_PART)


class KeepsNothing(Judge):
    """Payments are accepted until no room is left."""

    @property
    def takes_payments(self) -> bool:
        return self.left > 0


# Those that break the law of books, and those that only write other lines.
WRONG_TILLS: tuple[type[Till], ...] = (
    BeginsAnew, ForgetsWhatIsOpen, DropsWhatIsOpen, TellsUnkept, TellsBeforeKept, PassesOverFailures,
    ClosesAtRefusals, UndoesUnheard, TakesLateReplies, ReversesAnother, TakesAnyUndoing)
WRONG_HOSTS: tuple[type[LineHost], ...] = (GoesOnUnkept,)
WRONG_JUDGES: tuple[type[Judge], ...] = (TakesLateRequests, TakesReversalsAgain)
OTHER_TILLS: tuple[type[Till], ...] = (StopsWhole,)
OTHER_JUDGES: tuple[type[Judge], ...] = (
    RepliesToUndone, TellsNoneStands, KeepsSixteenthPart, KeepsFewer, KeepsNothing)

Spoil = Callable[[Books], None]


def with_tills(world: Books, made: type[Till]) -> None:
    """Puts other tills over the same stores, brought up."""
    world.terminals = [made(it.cell, it.book) for it in world.terminals]
    for it in world.terminals:
        it.restart()


def with_host(world: Books, made: type[LineHost]) -> None:
    """Puts another host over the same journal, brought up."""
    world.host = made(world.configuration, world.host.journal)
    world.host.restart()


def with_judge(world: Books, made: type[Judge]) -> None:
    """Has the host judge by another judge."""
    world.host.new_judge = made
    world.host.restart()


def spoils(
    tills: Iterable[type[Till]], hosts: Iterable[type[LineHost]], judges: Iterable[type[Judge]]
) -> dict[str, Spoil]:
    """What makes a world wrong, by names."""
    makers = ((with_tills, tills), (with_host, hosts), (with_judge, judges))
    return {made.__name__: partial(put, made=made) for put, all_made in makers for made in all_made}


BREAKS_LAW = spoils(WRONG_TILLS, WRONG_HOSTS, WRONG_JUDGES)
KEEPS_LAW = spoils(OTHER_TILLS, (), OTHER_JUDGES)
