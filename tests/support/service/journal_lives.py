"""Lives of a service on a journal whose power is lost, and what is judged of them.

As `lives`, of which it has the losses of power: in each life everything is sent again, in any order.
The client knows from life to life each reply that it read, and that is what it has to get again.
"""
from __future__ import annotations

import random
import signal
from pathlib import Path
from typing import Sequence

from ..formats.checked_journal import blank
from ..formats.journal_file import DamagedJournal, payments_in
from ..formats.journal_records import Payment
from ..formats.left_files import JOURNAL
from ..models.model_journal import added_by, answers_of, judged, payments_of_all
from ..program import Ended, Program
from ..system.cut_disk import Lies, Plan, Stop
from ..system.cut_file import CutFile
from .client import Exchange, payments, refused_requests, split
from .lives import PLACES, Finding, Life, Wrong
from .service import How, Pipes, Service
from .service_case import stream_of

# The payments of a history are a stretch of so many, of these; the journal has room for some more.
PAYMENTS, ALL = 24, 2000
ROOM = PAYMENTS + 2
# A packet of a life has at most so many requests.
MOST = 6
# A group of so many payments has so many calls more.
BESIDE = 3
SECONDS = 30


class History:
    """What a client knows of a journal, from life to life."""

    def __init__(self) -> None:
        self.lives = 0
        self.replies: dict[bytes, bytes] = {}

    def judge(self, life: Life) -> int:
        """How many payments the journal has more behind a life."""
        self.lives += 1
        found = self.payments(life.found)
        all_judged = judged(life.order, found, ROOM)
        self.read_replies(life.ended.output)
        self.judge_end(life.ended, answers_of(all_judged))
        kept = self.payments(life.left)
        self.demand_kept(kept)
        added = added_by(all_judged)
        # Behind a kill a group may be found that no sync made sure, and be lost with the power.
        if kept != [*found, *added][: len(kept)]:
            raise Wrong(Finding.OTHER_NUMBERS, f"{len(kept)} payments, and {len(found)} before")
        return len(kept) - len(found)

    def payments(self, image: bytes) -> list[Payment]:
        if not JOURNAL.is_left(image):
            raise Wrong(Finding.DAMAGED, "no stop leaves closed records so")
        try:
            return payments_in(image)
        except DamagedJournal as why:
            raise Wrong(Finding.DAMAGED, str(why)) from why

    def read_replies(self, output: bytes) -> None:
        for answer in split(output)[0]:
            if answer[2:4] == b"\x01\x02":
                if self.replies.setdefault(answer[4:14], answer) != answer:
                    raise Wrong(Finding.ACCEPTED_TWICE, answer[4:14].hex())

    def demand_kept(self, kept: Sequence[Payment]) -> None:
        """Each reply that was ever read is that to a payment of the journal."""
        codes = {it.serial.to_bytes(10, "big"): it.code for it in kept}
        for number, reply in self.replies.items():
            if codes.get(number) != int(reply[14:16]):
                raise Wrong(Finding.LOST, number.hex())

    def judge_end(self, ended: Ended, answers: bytes) -> None:
        if ended.faults or ended.status not in (0, -signal.SIGKILL):
            raise Wrong(Finding.END, str(ended))
        wanted = answers if ended.status == 0 else answers[: len(ended.output)]
        if ended.output != wanted:
            raise Wrong(Finding.ANSWER, f"in {len(split(ended.output)[0])} answers")


class JournalLives:
    """Histories of lives. A wrong one is an error, with all that its journal went through."""

    def __init__(
        self,
        program: Program,
        home: Path,
        file: CutFile,
        chance: random.Random,
        lies: Lies = Lies.NONE,
    ) -> None:
        self.program, self.home, self.file, self.lies = program, home, file, lies
        self.chances, self.chance = chance, chance
        self.cuts = self.kills = self.midst = self.accepted = self.histories = 0
        self.history = History()
        self.items: list[Exchange] = []
        self.image = b""
        # Whether the life before was killed, and the power stayed on.
        self.is_unsure = False

    def play(self, cuts: int) -> None:
        """Plays whole histories, until the power was lost so many times while a service ran."""
        while self.cuts < cuts:
            self.begin_history()
            for _ in range(self.chance.randint(1, 8)):
                self.live(True)
            self.end_history()

    def begin_history(self) -> None:
        self.chance = random.Random(self.chances.getrandbits(64))
        first = self.chance.randrange(ALL - PAYMENTS + 1)
        self.items = list(payments(ALL)[first : first + PAYMENTS])
        self.history, self.histories = History(), self.histories + 1
        self.image, self.is_unsure = blank(ROOM), False
        self.file.make(self.image)

    def end_history(self) -> None:
        """A life that is not killed: in the end each payment is kept, and has its reply."""
        self.live(False)
        kept = {it.serial for it in self.history.payments(self.image)}
        if kept != {it.serial for it in payments_of_all(self.items)}:
            raise Wrong(Finding.LOST, "in the end the journal has not each payment")
        if len(self.history.replies) != PAYMENTS:
            raise Wrong(Finding.ANSWER, "in the end not each payment has its reply")

    def plan(self, stops: bool) -> Plan:
        """Where it stops, the power is lost in one of the calls of this life."""
        free = PAYMENTS - len(self.history.payments(self.image))
        is_early = self.chance.random() < (0.5 if self.is_unsure else 0.2)
        reach = 3 if is_early else 2 + min(free, MOST) + BESIDE
        stop = Stop(self.chance.randrange(reach), self.chance.choice(PLACES))
        return Plan(self.chance.getrandbits(32), stop if stops else None, self.lies,
                    in_pieces=self.chance.random() < 0.2)

    def order(self) -> list[Exchange]:
        """Everything in any order, with some of it once more, and some that is always refused; at
        times those come first that are in the journal."""
        again = self.chance.choices(self.items, k=5) + self.chance.choices(refused_requests(), k=2)
        order = self.chance.sample(self.items + again, PAYMENTS + 7)
        if self.chance.random() < 0.3:
            listed = {it.serial for it in self.history.payments(self.image)}
            order.sort(key=lambda it: int.from_bytes(it.number or b"", "big") not in listed)
        return order

    def live(self, stops: bool) -> None:
        plan, order, found = self.plan(stops), self.order(), self.image
        self.file.begin(plan)
        ended = self.run(order)
        is_killed = ended.status == -signal.SIGKILL
        # A kill alone leaves the writes that were not synced as they are.
        self.is_unsure = is_killed and self.chance.random() < 0.3
        if self.is_unsure:
            self.image, self.kills = self.file.image(), self.kills + 1
        else:
            self.image = self.file.cut(self.chance.getrandbits(32))
            self.cuts += is_killed
        try:
            count = self.history.judge(Life(order, ended, found, self.image))
        except Wrong as why:
            why.add_note(f"in life {self.history.lives} of history {self.histories}, by {plan}")
            raise
        self.accepted += count
        self.midst += is_killed and count > 0

    def run(self, order: Sequence[Exchange]) -> Ended:
        """How a life ends, which is given packets of requests."""
        packets, left = [], list(order)
        while left:
            count = self.chance.randint(1, MOST)
            packets.append(stream_of(left[:count]))
            left = left[count:]
        service = Service(self.program, self.home, "serve", "bank.toml", "--journal",
                          self.file.path, how=How(Pipes.PACKETS), seconds=SECONDS)
        try:
            service.talk(packets)
            return service.end()
        finally:
            service.release()

    def __str__(self) -> str:
        return (f"the power lost {self.cuts} times, and {self.kills} kills without, in "
                f"{self.histories} histories; {self.midst} in the midst of acceptances, "
                f"{self.accepted} payments")


