"""Random walks of a world of tills: one event after the other, each drawn where the world stands. They
are short, and of one bank, so that thousands can be judged."""
from __future__ import annotations

import random
from typing import Callable

from ..formats import configuration
from ..formats.bank import BANK
from ..formats.configuration import Configuration
from ..formats.frames import serial_in
from ..formats.images import body_of
from ..models.model_books import Books
from ..standards.dukpt import iksn_of, initial_key, registers_at, serial_text
from .books_play import BooksPlay
from .worlds import Bank

# With these a purchase is mostly approved.
AMOUNTS = (0, 1, 500, 500, 10_000, 10_001)
TILLS = 3
IKSNS = tuple(0xFFFF9876543210E00000 + (at << 21) for at in range(4 * TILLS))
# A counter whose number is the third before the last: a till takes it for its last purchase.
LAST_PURCHASE = 0x1FF200
# What a walk does, with how often it does so.
WEIGHTS = {"begin": 18, "up": 26, "down": 24, "reverse": 12, "restart": 7, "restart host": 3, "arm": 3,
           "arm book": 3, "arm host": 2, "load": 4}
# How many events a walk has behind its loads.
EVENTS = 60


class Walk(BooksPlay):
    """A world, and what it was led through."""

    def happens(self, event: str) -> str:
        line = super().happens(event)
        self.tally["every till is at rest"] += all(it.is_at_rest for it in self.world.terminals)
        return line

    def start(self, ages: bool) -> None:
        """Loads tills; some are then near the end of their life, which no script comes to."""
        for at in range(TILLS):
            self.happens(f"load t{at + 1} {serial_text(IKSNS[at])}")
            if ages and self.chance.random() < 0.25:
                age(self.world, at)

    def goes_on(self, count: int) -> None:
        words, weights = zip(*WEIGHTS.items())
        for word in self.chance.choices(words, weights, k=count):
            self.happens(self.event(word))

    def event(self, word: str) -> str:
        draw, card = self.chance, self.bank.cards[0]
        if not self.world.host.running and draw.random() < 0.4:
            return "restart host"
        at = f"t{draw.randint(1, TILLS)}"
        if self.till(at).needs_restart and draw.random() < 0.4:
            return f"restart {at}"
        passes = draw.randrange(9)
        does: dict[str, Callable[[], str]] = {
            "begin": lambda: f"begin {at} {card.pan} {card.pin} {draw.choice(AMOUNTS)}",
            "up": lambda: f"up {self.frame(self.sent)}",
            "down": self.delivery,
            "arm": lambda: f"arm {at} {passes}", "arm book": lambda: f"arm {at} book {passes}",
            "arm host": lambda: f"arm host {passes}", "restart host": lambda: "restart host",
            "load": lambda: f"load {at} {serial_text(draw.choice(IKSNS))}"}
        return does[word]() if word in does else f"{word} {at}"

    def frame(self, count: int) -> int:
        """The number of a frame: mostly of one of the last."""
        if self.chance.random() < 0.2:
            return self.chance.randint(1, max(1, count))
        return max(1, count - self.chance.choice((0, 0, 0, 0, 1, 1, 2)))

    def delivery(self) -> str:
        """An answer, mostly to the till whose number it has."""
        number = self.frame(self.answered)
        at = self.chance.randint(1, TILLS)
        if self.chance.random() < 0.9 and number <= self.answered:
            at = self.world.owners.get(iksn_of(serial_in(self.world.answers[number - 1])), at)
        return f"down {number} t{at}"


def age(world: Books, at: int) -> None:
    """Brings a till to the end of a life: it has numbers for one purchase and two reversals."""
    till, initial = world.terminals[at], initial_key(world.configuration.bdks[0].key, IKSNS[at])
    till.cell.put(body_of(registers_at(initial, IKSNS[at], LAST_PURCHASE)))
    till.restart()


def no_change(world: Books) -> None:
    """What most walks do to their world before they begin."""


def walked(
    chance: random.Random, bank: Configuration, ages: bool, spoil: Callable[[Books], None] = no_change
) -> Walk:
    """A walk, behind each event of which the law is judged."""
    walk = Walk(chance, bank)
    spoil(walk.world)
    walk.start(ages)
    walk.goes_on(EVENTS)
    return walk


def random_walk_bank(chance: random.Random) -> Bank:
    """The bank of commands, with more tills, any stores and any room."""
    stores, records = chance.choice(("memory", "memory", "disk")), chance.choice((2, 5, 12, 20, 32, 64))
    text = BANK.replace(b"terminals = 2", f"terminals = {TILLS}\nstores = '{stores}'".encode())
    text = text.replace(b"log = 100", f"log = {records}".encode())
    return Bank(text, configuration.read(text))
