"""Lives of a service on a log whose power is lost, and what is judged of them.

In each life everything is sent again, in any order. The client knows from life to life which
numbers were answered, and how; by that, and by the layout of docs/FORMATS.md, what is left is
judged.
"""
from __future__ import annotations

import random
import signal
import time
from dataclasses import dataclass
from enum import Enum
from pathlib import Path
from typing import Optional, Sequence

from ..formats.left_files import LOG
from ..formats.log_file import DamagedLog, log_image, numbers_in
from ..program import Ended, Program
from ..system.cut_disk import Lies, Place, Plan, Stop
from ..system.cut_file import CutFile
from .client import Exchange, answered, payments, refusal, refused_requests, split
from .service import Service
from .service_case import frames_of, numbers_of, stream_of

# The payments of a history are a stretch of so many, of these; the log has room for some more.
PAYMENTS, ALL = 12, 2000
ROOM = PAYMENTS + 2
# A life shall accept so many, about, before the power is lost.
SHARE = 4
# The writes and syncs of an acceptance, and of a start with the first two behind it.
CALLS, EARLY = 4, 3
PLACES = tuple(Place)
SECONDS = 30


class Finding(Enum):
    """What is found wrong."""

    ACCEPTED_TWICE = "a number was accepted in two lives, or in two ways"
    LOST = "a number that was answered as used is not in the log"
    DAMAGED = "what is left is no log"
    OTHER_NUMBERS = "the log keeps other numbers than those of its requests"
    ANSWER = "an answer is not that to its request"
    END = "it did not come up, or ended by itself"


class Wrong(AssertionError):
    """That a life was wrong."""

    def __init__(self, finding: Finding, more: str) -> None:
        super().__init__(f"{finding.value}: {more}")
        self.finding = finding


@dataclass(frozen=True)
class Life:
    """What was sent, how it ended, and what the log was before it and behind it."""

    order: Sequence[Exchange]
    ended: Ended
    found: bytes
    left: bytes


class History:
    """What a client knows of a log, from life to life."""

    def __init__(self) -> None:
        self.lives = 0
        # In which life each number was accepted, and with which reply.
        self.accepted: dict[bytes, tuple[int, bytes]] = {}
        # The numbers of which an answer said that they are used: a reply, or reason 5.
        self.used: set[bytes] = set()

    def judge(self, life: Life) -> int:
        """How many numbers were accepted in it, and their replies read."""
        self.lives += 1
        found = self.numbers(life.found)
        answers, listed = answered(life.order, found, ROOM)
        count = self.read_answers(life.ended.output)
        self.judge_end(life.ended, b"".join(answers))
        kept = self.numbers(life.left)
        lost = self.used - set(kept)
        if lost:
            raise Wrong(Finding.LOST, " ".join(sorted(it.hex() for it in lost)))
        if kept != listed[: len(kept)] or len(kept) > len(found) + count + 1:
            raise Wrong(Finding.OTHER_NUMBERS, f"{len(kept)} numbers, and {count} accepted")
        return count

    def numbers(self, image: bytes) -> list[bytes]:
        if not LOG.is_left(image):
            raise Wrong(Finding.DAMAGED, "no stop leaves so many closed records that are not zero")
        try:
            return numbers_in(image, ROOM)
        except DamagedLog as why:
            raise Wrong(Finding.DAMAGED, str(why)) from why

    def read_answers(self, output: bytes) -> int:
        """Notes the answers that came. It answers how many numbers were accepted."""
        here = set()
        for answer in split(output)[0]:
            number = answer[4:14]
            if answer[2:4] == b"\x01\x02":
                now = (self.lives, answer)
                if self.accepted.setdefault(number, now) != now:
                    raise Wrong(Finding.ACCEPTED_TWICE, number.hex())
                here.add(number)
                self.used.add(number)
            elif answer == refusal(number, 5):
                self.used.add(number)
        return len(here)

    def judge_end(self, ended: Ended, answers: bytes) -> None:
        """It answered everything, or the first requests and was killed."""
        if ended.faults or ended.status not in (0, -signal.SIGKILL):
            raise Wrong(Finding.END, str(ended))
        wanted = answers if ended.status == 0 else answers[: len(ended.output)]
        if ended.output != wanted:
            raise Wrong(Finding.ANSWER, f"in {len(split(ended.output)[0])} answers")


class Lives:
    """Histories of lives. A wrong one is an error, with all that its log went through before."""

    def __init__(
        self,
        program: Program,
        home: Path,
        file: CutFile,
        chance: random.Random,
        lies: Lies = Lies.NONE,
    ) -> None:
        self.program, self.home, self.file, self.lies = program, home, file, lies
        # Each history has a chance of its own, so that none hangs on how fast another one was.
        self.chances, self.chance = chance, chance
        self.cuts = self.kills = self.midst = self.accepted = self.histories = 0
        # How long a life takes that is not killed.
        self.whole = 0.0
        # The history that is being played, its payments, and its log.
        self.history = History()
        self.items: list[Exchange] = []
        self.image = b""
        # Whether the life before was killed, and the power stayed on.
        self.is_unsure = False

    def play(self, cuts: int) -> None:
        """Plays whole histories, until the power was lost so many times while a service ran."""
        while self.cuts < cuts:
            self.begin_history()
            at_any_time = self.chance.random() < 0.1
            for _ in range(self.chance.randint(1, 9)):
                self.live(self.plan(not at_any_time),
                          self.chance.uniform(0, self.whole) if at_any_time else None)
            self.end_history()

    def begin_history(self) -> None:
        self.chance = random.Random(self.chances.getrandbits(64))
        first = self.chance.randrange(ALL - PAYMENTS + 1)
        self.items = list(payments(ALL)[first : first + PAYMENTS])
        self.history, self.histories = History(), self.histories + 1
        self.image, self.is_unsure = log_image([], ROOM), False
        self.file.make(self.image)

    def end_history(self) -> None:
        """A life that is not killed: in the end each number is used. Then the power is lost."""
        began = time.monotonic()
        self.live(self.plan(False), None)
        self.whole = time.monotonic() - began
        if set(self.history.numbers(self.image)) != set(numbers_of(self.items)):
            raise Wrong(Finding.LOST, "in the end the log has not each number")

    def plan(self, stops: bool) -> Plan:
        """Where it stops, the power is lost in one of the calls of this life, at times in one of
        the first."""
        free = PAYMENTS - len(self.history.numbers(self.image))
        is_early = self.chance.random() < (0.6 if self.is_unsure else 0.2)
        reach = EARLY if is_early else 1 + CALLS * min(free, 2 * SHARE)
        stop = Stop(self.chance.randrange(reach), self.chance.choice(PLACES))
        return Plan(self.chance.getrandbits(32), stop if stops else None, self.lies,
                    in_pieces=self.chance.random() < 0.2)

    def order(self) -> list[Exchange]:
        """Everything in any order, with some of it once more, and some that is always refused; at
        times those come first that are in the log."""
        again = self.chance.choices(self.items, k=3) + self.chance.choices(refused_requests(), k=2)
        order = self.chance.sample(self.items + again, PAYMENTS + 5)
        if self.chance.random() < 0.4:
            listed = set(self.history.numbers(self.image))
            order.sort(key=lambda it: it.number not in listed)
        return order

    def live(self, plan: Plan, seconds: Optional[float]) -> None:
        order, found = self.order(), self.image
        self.file.begin(plan)
        ended = self.run(order, seconds)
        is_killed = ended.status == -signal.SIGKILL
        # A kill alone leaves the writes that were not synced as they are.
        self.is_unsure = is_killed and self.chance.random() < 0.3
        if self.is_unsure:
            self.image, self.kills = self.file.image(), self.kills + 1
        else:
            self.image = self.file.cut(self.chance.getrandbits(32))
            self.cuts += is_killed
        try:
            count = self.history.judge(Life(order, ended, found, self.image))
        except Wrong as why:
            why.add_note(f"in life {self.history.lives} of history {self.histories}, by {plan}")
            raise
        self.accepted += count
        self.midst += is_killed and count > 0

    def run(self, order: Sequence[Exchange], seconds: Optional[float]) -> Ended:
        """How a life ends. It is killed behind so many seconds, if they are given; else the file
        system kills it, or nothing does."""
        service = Service(self.program, self.home, "serve", "bank.toml", "--log", self.file.path,
                          seconds=SECONDS)
        try:
            until = service.deadline if seconds is None else time.monotonic() + seconds
            if self.chance.random() < 0.2:
                service.ask(frames_of(order), until)
            else:
                service.talk([stream_of(order)], until)
            if seconds is not None:
                time.sleep(max(0, until - time.monotonic()))
                service.kill()
            return service.end()
        finally:
            service.release()

    def __str__(self) -> str:
        return (f"the power lost {self.cuts} times, and {self.kills} kills without, in "
                f"{self.histories} histories; {self.midst} in the midst of acceptances, "
                f"{self.accepted} numbers accepted")
