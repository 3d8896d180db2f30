"""Terminals over bodies of any counter, history and version, and over damaged bodies and disks."""
from __future__ import annotations

import itertools

from ..support.case import DriverCase
from ..support.crates.driver import Drive, DrivenTerminal, Habit
from ..support.crates.driver_keys import Keys, random_purchase, terminal_at
from ..support.formats.images import (
    BODY, CELL_DISK, EMPTY_SLOT, IMAGE_1, IMAGE_2, LAST_SEQUENCE, OPEN, RECORD, SLOT, Slot, body_of,
    cell_disk)
from ..support.standards.dukpt import MOST_PAST, registers_at

CALM = Habit()


class TestBodies(DriverCase):
    weight = 6

    def test_any_counter(self) -> None:
        """A terminal at any counter sends the request of that number, and goes on to the next; a
        body of version 1 is replaced by one of version 2."""
        drive = Drive()
        for _ in range(60 * self.times):
            terminal = terminal_at(drive, Keys(self.chance))
            for _ in range(self.chance.randint(1, 3)):
                terminal.begin(random_purchase(self.chance))
                terminal.next()
            terminal.stop(0)
            terminal.restart()
        drive.demand(self)
        drive.demand_all(self, "sent", "next", "spent", "fault Spent")
        self.tells(f"{drive.tally['sent']} requests")

    def test_loads(self) -> None:
        """A terminal takes neither its own number nor a past one; where eight are past it takes no
        other, and else it begins anew and knows those that it had."""
        drive = Drive()
        for _ in range(40 * self.times):
            keys = Keys(self.chance)
            terminal = terminal_at(drive, keys)
            registers = terminal.model.registers
            for iksn in (registers.iksn, *registers.past[:2]):
                terminal.load(keys.loading, keys.block(iksn), iksn)
            for iksn in keys.past(self.chance.randint(1, 2), registers.iksn):
                terminal.load(keys.loading, keys.block(iksn), iksn)
                terminal.begin(random_purchase(self.chance))
            terminal.load(keys.loading, keys.block(registers.iksn), registers.iksn)
            terminal.stop(0)
        drive.demand(self)
        drive.demand_all(self, "loaded", "fault IksnSpent", "fault LoadsSpent", "sent")

    def test_nine_loads(self) -> None:
        """A new terminal is loaded nine times, with begins between, and not a tenth time."""
        drive, keys = Drive(), Keys(self.chance)
        terminal = DrivenTerminal(drive, CALM)
        terminal.restart()
        lines = []
        for iksn in keys.past(MOST_PAST + 2, 0):
            lines.append(terminal.load(keys.loading, keys.block(iksn), iksn))
            if self.chance.random() < 0.5:
                terminal.begin(random_purchase(self.chance))
        terminal.stop(0)
        drive.demand(self)
        self.assertEqual(lines, ["loaded"] * 9 + ["fault LoadsSpent"])


class TestDamage(DriverCase):
    weight = 6

    def test_damaged_bodies(self) -> None:
        """A bit of a body is turned: of version, number, counter, history and what stands behind
        them where that is unlawful; of a key anywhere it is read."""
        drive = Drive()
        for _ in range(300 * self.times):
            keys = Keys(self.chance)
            registers, version = keys.registers()
            body = bytearray(body_of(registers, version))
            part = self.chance.choice((range(1), range(1, 14), range(14, IMAGE_1),
                                       range(IMAGE_1, IMAGE_2), range(IMAGE_2, BODY)))
            body[self.chance.choice(part)] ^= 1 << self.chance.randrange(8)
            terminal = DrivenTerminal(drive, CALM, keys.disk(bytes(body)))
            terminal.restart()
            terminal.begin(random_purchase(self.chance))
        drive.demand(self)
        drive.demand_all(self, "fault Store Damaged", "fault Stopped", "next", "sent")
        self.tells(f"{drive.tally['fault Store Damaged']} damaged")

    def test_histories(self) -> None:
        """Past numbers that repeat, that have a counter, or that are more than eight."""
        drive, keys = Drive(), Keys(self.chance)
        iksn = keys.iksn()
        two = keys.past(2, iksn)
        for past in ((), two, (iksn,), (two[0], two[0]), (two[0] + 1,), keys.past(9, iksn)):
            body = body_of(registers_at(keys.initial(iksn), iksn, 5, past[:MOST_PAST]))
            count = bytes([len(past)])
            body = body[: IMAGE_1] + count + body[IMAGE_1 + 1 :]
            DrivenTerminal(drive, CALM, keys.disk(body)).restart()
        drive.demand(self)
        self.assertEqual(drive.tally, {"ready": 6, "next": 2, "fault Store Damaged": 4})

    def test_slots(self) -> None:
        """Two slots with any gates and sequences: which of them counts, and what is left of the
        other; two open ones of one sequence are damaged, and a worn cell takes no body."""
        drive, keys = Drive(), Keys(self.chance)
        gates, pairs = (OPEN, 0, 2, 255), ((0, 0), (1, 1), (0, 1), (2, 1), (255, 256),
                                            (LAST_SEQUENCE - 1, LAST_SEQUENCE))
        for first, second, sequences in itertools.product(gates, gates, pairs):
            slots = [Slot(gate, sequence, body_of(*keys.registers(5)))
                     for gate, sequence in zip((first, second), sequences)]
            terminal = DrivenTerminal(drive, CALM, cell_disk(*slots))
            terminal.restart()
            terminal.stop(0)
            terminal.restart()
            terminal.begin(random_purchase(self.chance))
            terminal.stop(0)
        drive.demand(self)
        drive.demand_all(self, "fault Store Damaged", "fault Store Worn", "fault NotLoaded", "sent",
                         "empty")

    def test_worn(self) -> None:
        """A cell of the last sequence but one takes one body more. A worn one stops its terminal,
        which has the body still."""
        drive, keys = Drive(), Keys(self.chance)
        iksn, other = keys.past(2, 0)
        body = body_of(registers_at(keys.initial(iksn), iksn, 9))
        held = cell_disk(Slot(OPEN, LAST_SEQUENCE - 1, body), EMPTY_SLOT)
        terminal = DrivenTerminal(drive, CALM, held)
        terminal.restart()
        lines = [terminal.begin(random_purchase(self.chance)) for _ in range(3)]
        terminal.restart()
        lines.append(terminal.load(keys.loading, keys.block(other), other))
        terminal.stop(0)
        drive.demand(self)
        self.assertEqual(lines[1:], ["fault Store Worn", "fault Stopped", "fault Store Worn"])

    def test_sizes(self) -> None:
        """A disk of another size is no cell's."""
        drive = Drive()
        for size in (RECORD, SLOT, CELL_DISK - 1, CELL_DISK, CELL_DISK + 1, 2 * CELL_DISK):
            DrivenTerminal(drive, CALM, bytes(size)).restart()
        drive.demand(self)
        self.assertEqual(drive.tally, {"ready": 6, "fault Store Damaged": 5, "empty": 1})
