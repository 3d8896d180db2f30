"""A terminal over any cell, by docs/FORMATS.md and docs/OPERATION.md."""
from __future__ import annotations

from dataclasses import dataclass, replace
from typing import Callable, Optional, Union

from ..formats.frames import Refusal, Reply, read_answer, write_request, write_reversal
from ..formats.images import body_of, read_body
from ..formats.reversal_frames import ReversalReply, read_reversal_reply
from ..standards.dukpt import MOST_PAST, Registers, registers_at, response_key
from ..standards.key_blocks import BlockFault, unwrap
from ..standards.macs import retail_mac
from .model_stores import Cell, StoreFault

INITIAL_KEY = b"B1T"
DERIVING = b"XN"


class TerminalFault(Exception):
    """A terminal's refusal, by its name."""


@dataclass(frozen=True)
class Pending:
    """The transaction that waits for its reply."""

    serial: int
    response_key: bytes


class Terminal:
    """It is made stopped, and brought up by its restart."""

    def __init__(self, cell: Cell) -> None:
        self.cell = cell
        self.running = False
        self.registers: Optional[Registers] = None
        self.pending: Optional[Pending] = None

    def stop(self) -> None:
        self.running, self.registers, self.pending = False, None, None

    def demand_running(self) -> None:
        if not self.running:
            raise TerminalFault("Stopped")

    def restart(self) -> None:
        self.stop()
        try:
            body = self.cell.restart()
        except StoreFault as why:
            raise TerminalFault(f"Store {why}") from why
        if body is not None:
            self.registers = read_body(body)
            if self.registers is None:
                raise TerminalFault("Store Damaged")
        self.running = True

    def next(self) -> str:
        """The number that comes next: as a line of a restart has it."""
        if not self.running:
            return "stopped"
        if self.registers is None:
            return "empty"
        serial = self.registers.next
        return "spent" if serial is None else f"next {serial:020X}"

    def demand_new(self, iksn: int) -> tuple[int, ...]:
        """That it may be loaded under a number. Gives those that are past then."""
        self.demand_running()
        had = () if self.registers is None else (*self.registers.past, self.registers.iksn)
        if iksn in had:
            raise TerminalFault("IksnSpent")
        if len(had) > MOST_PAST:
            raise TerminalFault("LoadsSpent")
        return had

    def load(self, loading: bytes, block: bytes, iksn: int) -> None:
        """Loads it with the initial key in a key block."""
        self.demand_new(iksn)
        try:
            fields, key = unwrap(loading, block)
        except BlockFault as why:
            raise TerminalFault(f"Block {why}") from why
        if fields[:3] != INITIAL_KEY or fields[3] not in DERIVING or len(key) != 16:
            raise TerminalFault("WrongUse")
        self.load_key(key, iksn)

    def load_key(self, key: bytes, iksn: int) -> None:
        """Loads it with an initial key, as a right key block brings it."""
        past = self.demand_new(iksn)
        self.keep(replace(registers_at(key, iksn, 1), past=past))
        self.pending = None

    def keep(self, registers: Registers) -> None:
        """Puts registers into the cell, and has them only then."""
        try:
            self.cell.put(body_of(registers))
        except StoreFault as why:
            self.stop()
            raise TerminalFault(f"Store {why}") from why
        self.registers = registers

    def begin(self, pan: str, pin: str, amount: int) -> bytes:
        """Takes the next number, and gives the request that goes out."""
        return self.send(lambda key, serial: write_request(key, serial, pan, pin, amount))

    def send(self, write: Callable[[bytes, int], bytes]) -> bytes:
        """The frame of the next number, which is written under its key and waits for its answer."""
        self.demand_running()
        if self.registers is None:
            raise TerminalFault("NotLoaded")
        if self.registers.next is None:
            raise TerminalFault("Spent")
        key, serial, left = self.registers.take()
        frame = write(key, serial)
        self.keep(left)
        self.pending = Pending(serial, response_key(key))
        return frame

    def reply(self, frame: bytes) -> Union[Reply, Refusal]:
        """Takes an answer: a reply that is right ends the pending transaction."""
        self.demand_running()
        answer = read_answer(frame)
        if answer is None:
            raise TerminalFault("Malformed")
        self.demand_mine(answer.serial)
        if isinstance(answer, Reply):
            self.complete(answer)
        return answer

    def demand_mine(self, serial: int) -> None:
        """That the pending transaction has this number."""
        if self.pending is None:
            raise TerminalFault("NotPending")
        if serial != self.pending.serial:
            raise TerminalFault("NotMine")

    def complete(self, answer: Union[Reply, ReversalReply]) -> None:
        """Ends the pending transaction by a reply with a right MAC."""
        assert self.pending is not None
        if retail_mac(self.pending.response_key, answer.text) != answer.mac:
            raise TerminalFault("BadMac")
        self.pending = None

    # Reversals

    def begin_reversal(self, reversed_serial: int) -> bytes:
        """Takes the next number, and gives the reversal of an earlier one that goes out."""
        return self.send(lambda key, serial: write_reversal(key, serial, reversed_serial))

    def reversal_reply(self, frame: bytes, reversed_serial: int) -> ReversalReply:
        """Takes the reply to the pending reversal of this number."""
        self.demand_running()
        answer = read_reversal_reply(frame)
        if answer is None:
            raise TerminalFault("Malformed")
        self.demand_mine(answer.serial)
        if answer.reversed != reversed_serial:
            raise TerminalFault("NotMine")
        self.complete(answer)
        return answer

    def arm(self, passes: int) -> None:
        self.cell.arm(passes)
