"""Hosts by themselves over logs on disks in memory that fail and keep anything: every answer, and
that no number is accepted in two runs."""
from __future__ import annotations

from typing import Iterator

from ..support.case import DriverCase
from ..support.crates.driver import (
    NEVER, Cut, Drive, DrivenHost, Habit, random_bank_of_driver, random_filling, random_habit)
from ..support.formats.frames import Reply, bytes_of, read_answer
from ..support.formats.images import RECORD
from ..support.models.model_host import split
from ..support.worlds.streams import Frames, random_log
from ..support.worlds.worlds import Bank

CODES = ("00", "14", "30", "51", "55")
ANSWERS = tuple(f"{kind} {code}" for kind in ("accepted", "repeated") for code in CODES) + tuple(
    f"refused {reason}" for reason in range(1, 7))
RUNS = 6


class Replies:
    """The replies of the runs over one log: those of one run to a number are equal, and in two runs
    none is replied to."""

    def __init__(self, case: DriverCase) -> None:
        self.case = case
        self.given: dict[int, tuple[int, bytes]] = {}

    def note(self, run: int, written: bytes) -> None:
        for frame in split(written)[0]:
            answer = read_answer(frame)
            if isinstance(answer, Reply):
                first = self.given.setdefault(answer.serial, (run, frame))
                self.case.assertEqual(first, (run, frame), "a number is accepted a second time")


class TestHosts(DriverCase):
    weight = 10

    def streams(self, count: int) -> Iterator[tuple[Drive, Bank, bytes]]:
        """So many streams, each with its bank, and in the end the demand of all that they gave."""
        drive = Drive()
        for _ in range(count * self.times):
            bank = random_bank_of_driver(self.chance)
            drive.use(bank)
            yield drive, bank, Frames(self.chance, bank.says).stream()
        drive.demand(self)
        self.tells(f"{len(drive.steps)} steps, {sum(drive.tally[it] for it in ANSWERS)} answers")

    def test_streams(self) -> None:
        """Streams whole and in pieces, or frame by frame, over every filling, with restarts."""
        for drive, bank, stream in self.streams(100):
            host = DrivenHost(drive, bank, Habit(random_filling(self.chance)),
                              bytes(RECORD * bank.says.log))
            if self.chance.random() < 0.8:
                host.restart()
            if self.chance.random() < 0.3:
                for frame in split(stream)[0]:
                    host.handle(frame)
            else:
                host.serve(stream, Cut(self.chance.choice((self.chance.randint(1, 60), 1, 10_000))))
            used = sorted(host.model.used)
            host.restart()
            for serial in (*used[:20], 1):
                host.is_used(serial)
        drive.demand_all(self, *ANSWERS, "answer", "yes", "no", "fault Stopped", "fault Truncated",
                         "fault TooLong")

    def test_stops(self) -> None:
        """One stream again and again over a log of which a step fails now and then, with restarts
        between, of which a step fails too."""
        for drive, bank, stream in self.streams(30):
            host = DrivenHost(drive, bank, random_habit(self.chance, 40),
                              bytes(RECORD * bank.says.log))
            replies = Replies(self)
            for run in range(RUNS):
                host.restart()
                for serial in replies.given:
                    if host.model.running:
                        self.assertEqual(host.is_used(serial), "yes")
                if self.chance.random() < 0.5:
                    host.arm(self.chance.randrange(12))
                replies.note(run, host.serve(stream, Cut(self.chance.choice((64, 10_000)))))
        drive.demand_all(self, "fault Store Device", "fault Stopped", "used", "yes", "accepted 00")

    def test_reads_and_writes_that_fail(self) -> None:
        """A read or a write that fails ends a service, and what was written before stands."""
        for drive, bank, stream in self.streams(60):
            host = DrivenHost(drive, bank, Habit(), bytes(RECORD * bank.says.log))
            host.restart()
            passes, most = self.chance.randrange(20), self.chance.randint(1, 60)
            reads, writes = self.chance.choice(((passes, NEVER), (NEVER, passes), (passes, passes)))
            host.serve(stream, Cut(most, reads, writes))
            host.restart()
        drive.demand_all(self, "fault Read", "fault Write")

    def test_logs(self) -> None:
        """Logs that keep something, or are damaged."""
        for drive, bank, stream in self.streams(60):
            host = DrivenHost(drive, bank, Habit(random_filling(self.chance)),
                              random_log(self.chance, bank.says))
            host.restart()
            host.serve(stream, Cut(10_000))
            host.restart()
        drive.demand_all(self, "fault Store Damaged", "used", "refused 5", "refused 6")

    def test_a_number_twice(self) -> None:
        """A log that keeps a number twice, or one that numbers no transaction, is damaged."""
        drive, bank = Drive(), random_bank_of_driver(self.chance)
        drive.use(bank)
        serial = Frames(self.chance, bank.says).next_number()
        for serials in ((serial, serial), (serial, serial + 1, serial), (serial - 1,), (serial,)):
            log = b"".join(b"\x01" + bytes_of(it) + bytes(5) for it in serials) + bytes(RECORD)
            DrivenHost(drive, bank, Habit(), log).restart()
        drive.demand(self)
        self.assertEqual((drive.tally["fault Store Damaged"], drive.tally["used"]), (3, 1))
