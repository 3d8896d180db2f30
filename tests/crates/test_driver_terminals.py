"""Terminals by themselves over disks in memory that fail and keep anything: every request and every
byte of the disk, and that a stop leaves no key of a number that was used."""
from __future__ import annotations

import itertools
from typing import Iterator, Optional

from ..support.case import DriverCase
from ..support.crates.driver import Drive, DrivenTerminal, Habit, random_filling, random_habit
from ..support.crates.driver_keys import Keys, random_purchase
from ..support.formats.images import body_of
from ..support.models.model_stores import Filling
from ..support.standards.dukpt import counter_of, iksn_of, key_of, next_counter
from ..support.worlds.worlds import Purchase

KEY_LENGTH = 16
# The device steps of a begin, of a restart over one open slot, of one over any, and of what is read
# behind a stop.
BEGIN_STEPS, RESTART_STEPS, MOST_RESTART_STEPS, READ_STEPS = 8, 5, 7, 1
CARD = Purchase("4012345678909", "1234", 1)
FAULTS = tuple(f"fault {name}" for name in (
    "Spent", "Stopped", "Store Device", "IksnSpent", "LoadsSpent"))


def path(initial: bytes, serial: int) -> Iterator[bytes]:
    """The keys from that of a number up to the initial key of its terminal."""
    counter = counter_of(serial)
    while counter:
        yield key_of(initial, iksn_of(serial) + counter)
        counter &= counter - 1
    yield initial


class Life:
    """What a terminal by itself does at random."""

    def __init__(self, case: DriverCase, drive: Drive, keys: Keys) -> None:
        self.case, self.chance, self.keys = case, case.chance, keys
        # The numbers whose requests went out, and those under which it was loaded.
        self.used: list[int] = []
        self.given: set[int] = set()
        held = self.had_before() if self.chance.random() < 0.5 else None
        self.terminal = DrivenTerminal(drive, random_habit(self.chance, 60), held)

    @property
    def serial(self) -> Optional[int]:
        registers = self.terminal.model.registers
        return registers.next if registers else None

    def had_before(self) -> bytes:
        """The disk of a terminal that was loaded and used before."""
        registers, version = self.keys.registers()
        self.given.update((registers.iksn, *registers.past))
        return self.keys.disk(body_of(registers, version))

    def goes_on(self) -> None:
        """One step, of those that lead on for the most part."""
        if self.chance.random() < 0.15:
            self.terminal.arm(self.chance.choice((self.chance.randrange(9), 0, 20)))
        if not self.terminal.model.running and self.chance.random() < 0.8:
            self.terminal.restart()
        elif self.chance.random() < 0.1:
            self.terminal.restart()
        elif self.terminal.model.registers is None or self.chance.random() < 0.2:
            self.loads()
        else:
            self.begins()

    def loads(self) -> None:
        registers = self.terminal.model.registers
        had = [*registers.past, registers.iksn] if registers else []
        iksn = self.chance.choice(had) if had and self.chance.random() < 0.2 else self.keys.iksn()
        self.terminal.load(self.keys.loading, self.keys.block(iksn), iksn)
        self.given.add(iksn)

    def begins(self) -> None:
        serial = self.serial
        if self.terminal.begin(random_purchase(self.chance)).startswith("sent "):
            self.used.append(serial)

    def stops(self) -> None:
        """A stop: of what it leaves no sixteen bytes are the key of a number that was used, in
        whichever life, or of an ancestor of it, or an initial key. The next number's is there."""
        serial = self.serial
        left = self.terminal.stop(random_filling(self.chance))
        if left is None:
            return
        there = {left[at : at + KEY_LENGTH] for at in range(len(left) - KEY_LENGTH + 1)}
        for used in (*self.used, *self.given):
            kept = there.intersection(path(self.keys.initial(used), used))
            self.case.assertEqual(kept, set(), "a stop leaves a key that was used")
        if serial is not None:
            own = key_of(self.keys.initial(serial), serial)
            self.case.assertIn(own, there, "a stop does not leave the key of the next number")


class TestLives(DriverCase):
    weight = 8

    def test_lives(self) -> None:
        drive, stops = Drive(), 0
        for _ in range(360 * self.times):
            life = Life(self, drive, Keys(self.chance))
            for _ in range(self.chance.randint(1, 2)):
                for _ in range(self.chance.randrange(22)):
                    life.goes_on()
                life.terminal.next()
                life.stops()
                stops += 1
        drive.demand(self)
        drive.demand_all(self, "loaded", "sent", "next", "spent", "empty", "stopped", "disk",
                         *FAULTS)
        self.tells(f"{len(drive.steps)} steps, {stops} stops, {drive.tally['sent']} requests, "
                   f"{drive.tally['fault Store Device']} failures")

    def test_each_step_that_fails(self) -> None:
        """A begin is stopped at each of its device steps, over each filling, and the restart behind
        it at each of its own; behind that another filling shows what was synced by then."""
        drive, keys, fillings = Drive(), Keys(self.chance), (*Filling, 0, 1, 0x5A)
        for first, at, again in itertools.product(
                fillings, range(BEGIN_STEPS + 1), range(MOST_RESTART_STEPS + 1)):
            registers, version = keys.registers(next_counter(self.chance.randrange(1 << 20)))
            passes = RESTART_STEPS + min(at + 1, BEGIN_STEPS) + READ_STEPS + again
            terminal = DrivenTerminal(drive, Habit(first, passes),
                                      keys.disk(body_of(registers, version)))
            terminal.restart()
            terminal.arm(at)
            terminal.begin(CARD)
            terminal.stop(first)
            for _ in range(2):
                terminal.restart()
                terminal.stop(self.chance.choice(fillings))
            terminal.restart()
            terminal.begin(CARD)
            terminal.stop(0)
        drive.demand(self)
        drive.demand_all(self, "sent", "fault Store Device", "next", "disk")
        self.tells(f"{len(drive.steps)} steps")
