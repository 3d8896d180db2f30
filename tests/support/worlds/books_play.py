"""A world of tills that is led through events: what each event and its outcome is counted as, and what
tills do. Behind each event the law of books is judged."""
from __future__ import annotations

import random
from typing import Optional

from ..formats.configuration import Configuration
from ..formats.frames import serial_in
from ..formats.reversal_frames import reversed_in
from ..models.model_books import Books
from ..models.model_till import Till
from ..standards.dukpt import iksn_of
from .books_agree import Auditor
from .outcomes import kind_of, kind_of_event
from .scenes import Play
from .worlds import Purchase

# The kinds of frames, by their second byte.
KINDS = {1: "payment", 2: "reply", 3: "refusal", 4: "reversal", 5: "reversal's reply"}


def kind_of_frame(frame: bytes) -> str:
    return KINDS[frame[3]]


class BooksPlay(Play):
    """A world of tills, and what happened to it so far."""

    world: Books

    def __init__(self, chance: random.Random, bank: Configuration) -> None:
        super().__init__(chance, bank)
        self.auditor = Auditor(self.world)

    def new_world(self) -> Books:
        return Books(self.bank)

    def happens(self, event: str) -> str:
        fronts = self.fronts_of(event)
        line = super().happens(event)
        self.tally.update(f"{front}: {kind_of(line)}" for front in fronts)
        self.auditor.demand()
        return line

    def fronts_of(self, event: str) -> list[str]:
        """What an event is counted as, beside its outcome: what is delivered, and whether the like
        of it came before."""
        command, *words = event.split(" ")
        frames = {"up": self.world.requests, "down": self.world.answers}.get(command, [])
        number = int(words[0]) if frames else 0
        frame = frames[number - 1] if 1 <= number <= len(frames) else None
        if command == "up":
            return self.fronts_of_request(frame) if frame else []
        if frame:
            return self.fronts_of_answer(words[1], frame)
        return self.fronts_of_till(words[-1] if command == "down" else words[0], kind_of_event(event))

    def fronts_of_request(self, frame: bytes) -> list[str]:
        kind, serial, judge = kind_of_frame(frame), serial_in(frame), self.world.host.judge
        fronts = [kind]
        if iksn_of(serial) in self.earlier:
            fronts.append(f"{kind} of an earlier life")
        if kind == "reversal":
            fronts.append(self.front_of_reversal(serial, reversed_in(frame)))
        elif serial in judge.reversed:
            fronts.append("undone" if serial in judge.places else "behind its reversal")
        return fronts

    def front_of_reversal(self, serial: int, other: int) -> str:
        """Which of the reversals of a payment it is for the host."""
        judge = self.world.host.judge
        if serial in judge.places:
            return "again"
        if other in judge.reversed:
            return "under a further number"
        return "behind its payment" if other in judge.places else "before its payment"

    def fronts_of_till(self, at: str, kind: str) -> list[str]:
        """What happens to a till, and whether it is stopped, or its terminal is."""
        if not self.is_there(at) or not self.till(at).needs_restart:
            return [kind]
        is_up = self.till(at).is_up
        return [kind, f"{kind} where the terminal is stopped" if is_up else f"{kind} at a stopped till"]

    def fronts_of_answer(self, at: str, frame: bytes) -> list[str]:
        kind, serial = kind_of_frame(frame), serial_in(frame)
        fronts = self.fronts_of_till(at, f"down of a {kind}")
        if kind == "refusal":
            fronts += [kind_of_frame(it) for it in self.world.requests if serial_in(it) == serial]
        if kind == "reply" and self.is_there(at) and self.till(at).is_reversing:
            fronts.append("down of a reply where the reversal is waited for")
        if iksn_of(serial) in self.earlier:
            fronts.append(f"down of a {kind} of an earlier life")
        return fronts

    @property
    def earlier(self) -> set[int]:
        """The initial key serial numbers that terminals had before their present ones."""
        return {iksn for it in self.world.terminals if it.registers for iksn in it.registers.past}

    # What tills do

    def is_there(self, at: str) -> bool:
        return at != "host" and int(at[1:]) <= len(self.world.terminals)

    def till(self, at: str) -> Till:
        return self.world.terminals[int(at[1:]) - 1]

    def bring_up(self, at: str) -> None:
        if self.till(at).needs_restart:
            self.happens(f"restart {at}")
        super().bring_up(at)

    def reverse(self, at: str) -> int:
        """Reverses what is open, and gives the number of the last request."""
        self.happens(f"reverse {at}")
        return self.sent

    def settle(self, at: str) -> bool:
        """Closes what is open, where there is room for it, and tells whether nothing is."""
        self.bring_up(at)
        while self.till(at).open:
            self.bring_host_up()
            if not self.world.host.judge.left:
                return False
            self.down(self.up(self.reverse(at)), at)
            self.bring_up(at)
        return True

    def send(self, at: str, purchase: Optional[Purchase] = None) -> int:
        """A request of a till that is brought up for it, and mostly has nothing open."""
        if self.chance.random() < 0.95:
            self.settle(at)
        return super().send(at, purchase)

    def load(self, at: str, iksn: Optional[int] = None) -> str:
        if self.chance.random() < 0.8 and self.till(at).open:
            self.settle(at)
        return super().load(at, iksn)
