"""Keys, numbers and bodies for the trials of terminals by themselves, all at random."""
from __future__ import annotations

from random import Random
from typing import Optional

from ..formats.images import EMPTY_SLOT, OPEN, Slot, body_of, cell_disk
from ..standards.dukpt import (
    COUNTER_BITS, MOST_PAST, SPENT, Registers, iksn_of, initial_key, next_counter, registers_at)
from ..standards.key_blocks import wrap
from ..worlds.worlds import Purchase, digits
from .driver import Drive, DrivenTerminal, Habit

# The header's fields of an initial key's block.
FIELDS = b"B1TX00N"


def random_purchase(chance: Random) -> Purchase:
    amount = chance.choice((0, 1, chance.randrange(1 << 32), (1 << 32) - 1))
    return Purchase(digits(chance, 12, 19), digits(chance, 4, 12), amount)


def random_counter(chance: Random) -> int:
    """A usable counter, or that of a spent terminal. The last one is among them."""
    drawn = next_counter(chance.randrange(1 << chance.randint(0, COUNTER_BITS)))
    return chance.choice((drawn, drawn, drawn, 0x1FF800, SPENT))


class Keys:
    """The keys of a trial: a base derivation key and a loading key."""

    def __init__(self, chance: Random) -> None:
        self.chance = chance
        self.base, self.loading = chance.randbytes(16), chance.randbytes(16)
        self.prefix = chance.randbytes(5)

    def iksn(self) -> int:
        low = self.chance.choice((12 * SPENT, 1 << 40))
        return iksn_of(int.from_bytes(self.prefix, "big") << 40 | self.chance.randrange(low))

    def initial(self, serial: int) -> bytes:
        return initial_key(self.base, iksn_of(serial))

    def block(self, iksn: int) -> bytes:
        return wrap(self.loading, FIELDS, self.initial(iksn), bytes(6))

    def past(self, count: int, iksn: int) -> tuple[int, ...]:
        past: list[int] = []
        while len(past) < count:
            drawn = self.iksn()
            if drawn not in (iksn, *past):
                past.append(drawn)
        return tuple(past)

    def registers(self, counter: Optional[int] = None) -> tuple[Registers, int]:
        """Registers of any counter and history, and a version whose image has room for that."""
        iksn, version = self.iksn(), self.chance.choice((1, 2, 2))
        past = self.past(0 if version == 1 else self.chance.choice((0, 3, MOST_PAST)), iksn)
        at = random_counter(self.chance) if counter is None else counter
        return registers_at(self.initial(iksn), iksn, at, past), version

    def disk(self, body: bytes, sequence: int = 1) -> bytes:
        """The disk of a cell that keeps a body, in either slot."""
        slots = [Slot(OPEN, sequence, body), EMPTY_SLOT]
        return cell_disk(*(slots if self.chance.random() < 0.5 else slots[::-1]))


def terminal_at(drive: Drive, keys: Keys, counter: Optional[int] = None) -> DrivenTerminal:
    """A terminal over a body of a counter, or of any, that is brought up."""
    body = body_of(*keys.registers(counter))
    terminal = DrivenTerminal(drive, Habit(), keys.disk(body))
    terminal.restart()
    return terminal
