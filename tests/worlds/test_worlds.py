"""Random worlds: the lines of scripts, and the answers and the log of a service, to the letter.

A model of terminals, stores, network and host says what has to come; all that can come does.
"""
from __future__ import annotations

import random
from collections import Counter
from pathlib import Path
from typing import Iterable, Optional

from ..support.case import ProgramCase, in_parts
from ..support.models.model_host import Host, Served, serve
from ..support.models.model_stores import DiskLog, MemoryDisk, MemoryLog
from ..support.program import Word
from ..support.worlds.outcomes import ALL_KINDS
from ..support.worlds.scenes import Play, random_play, script_of
from ..support.worlds.streams import Frames, random_log
from ..support.worlds.worlds import Bank, random_bank, random_room

WORLDS = 125
SERVICES = 60
# How many events are shown before one with another outcome.
LAST = 25
ANSWERS = (
    *(f"refused {reason}" for reason in range(1, 7)),
    *(f"{kind} {code}" for kind in ("accepted", "repeated")
      for code in ("00", "14", "30", "51", "55")),
)
ENDS = ("done", "log: failed", "serve: input ends in a frame", "serve: frame too long")


class WorldsCase(ProgramCase):
    """A test of many worlds, each in turn over stores in memory and on disks."""

    def setUp(self) -> None:
        super().setUp()
        self.home = self.folder()
        self.tally: Counter[str] = Counter()

    def write(self, name: str, data: bytes) -> Path:
        path = self.home / name
        path.write_bytes(data)
        return path

    def assert_all_came(self, kinds: Iterable[str]) -> None:
        missing = [kind for kind in kinds if not self.tally[kind]]
        self.assertFalse(missing, f"this never came: {missing}")


class Scripts(WorldsCase):
    """Scripts through `dukpt run`, line by line."""

    weight = 8

    @in_parts(8)
    def test_lines(self) -> None:
        events = 0
        for number in range(WORLDS * self.times):
            chance = random.Random(self.chance.getrandbits(64))
            stores = ("memory", "disk")[number % 2]
            bank = random_bank(chance, stores, random_room(chance))
            play = random_play(chance, bank.says)
            self.try_script(bank, play, script_of(chance, play.events), number)
            self.tally += play.tally
            events += len(play.events)
        self.tells(f"{WORLDS * self.times} worlds, {events} events")
        self.assert_all_came(ALL_KINDS)

    def try_script(self, bank: Bank, play: Play, script: bytes, number: int) -> None:
        paths = self.write("bank.toml", bank.text), self.write("all.script", script)
        ended = self.program.run("run", *paths)
        wanted = "".join(f"{line}\n" for line in play.lines).encode()
        self.assertEqual((ended.status, ended.faults), (0, b""), f"world {number}")
        if ended.output != wanted:
            self.fail(f"world {number}: {first_other_line(play, ended.output)}")


def first_other_line(play: Play, output: bytes) -> str:
    """The first event with another outcome, and those before it."""
    lines = output.decode(errors="replace").splitlines()
    for at, (event, wanted) in enumerate(zip(play.events, play.lines)):
        line = lines[at] if at < len(lines) else "nothing"
        if line != wanted:
            last = list(zip(play.events, play.lines))[max(0, at - LAST) : at]
            before = "".join(f"\n  {event} -> {line}" for event, line in last)
            return f"event {at + 1}, {event!r}, gives {line!r} and not {wanted!r}, behind{before}"
    return f"there are {len(lines)} lines and not {len(play.lines)}, or they end otherwise"


class Services(WorldsCase):
    """Streams through `dukpt serve`, with and without a log that outlives the runs."""

    weight = 6

    @in_parts(4)
    def test_streams(self) -> None:
        frames = 0
        for number in range(SERVICES * self.times):
            chance = random.Random(self.chance.getrandbits(64))
            bank = random_bank(chance, chance.choice(("memory", "disk")), random_room(chance))
            drawn = Frames(chance, bank.says)
            log = random_log(chance, bank.says) if chance.random() < 0.6 else None
            for _ in range(chance.randint(1, 3)):
                frames += self.try_stream(bank, drawn.stream(), log, number)
                log = log and (self.home / "used.log").read_bytes()
        self.tells(f"{SERVICES * self.times} services, {frames} answers")
        self.assert_all_came((*ANSWERS, *ENDS))

    def try_stream(self, bank: Bank, stream: bytes, log: Optional[bytes], number: int) -> int:
        """Serves a stream over such a log, or without one. Gives the number of its answers."""
        words: list[Word] = ["serve", self.write("bank.toml", bank.text)]
        if log is None:
            served = serve(Host(bank.says, MemoryLog(bank.says.log)), stream)
        else:
            disk = MemoryDisk(log)
            served = serve(Host(bank.says, DiskLog(disk)), stream)
            words += ["--log", self.write("used.log", log)]
        self.check_served(served, words, stream, f"service {number}")
        if log is not None:
            kept = (self.home / "used.log").read_bytes()
            self.assertEqual(kept, bytes(disk.reads), f"service {number}: the log")
        return len(served.answers)

    def check_served(self, served: Served, words: list[Word], stream: bytes, what: str) -> None:
        faults = f"{served.fault}\n".encode() if served.fault else b""
        ended = self.program.run(*words, given=stream)
        self.assert_ended(ended, 1 if served.fault else 0, served.output, faults, what)
        self.tally.update(f"{it.kind.value} {it.says}" for it in served.answers)
        self.tally[served.fault or "done"] += 1
