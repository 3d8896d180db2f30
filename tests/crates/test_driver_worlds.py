"""Worlds over disks in memory with any filling, of which a step fails once, in a restart too: every
outcome, every frame, and the laws that hold of them whatever fails."""
from __future__ import annotations

import itertools
from collections import Counter
from typing import Callable, Iterable

from ..support.case import DriverCase, in_parts
from ..support.crates.driver import NEVER, Drive, digits, random_bank_of_driver, random_habit
from ..support.formats.images import CELL_DISK, RECORD
from ..support.models.model_host import KEPT, Host
from ..support.models.model_stores import DiskLog, SlotCell
from ..support.models.model_terminal import Terminal
from ..support.standards.dukpt import serial_text
from ..support.worlds.scenes import (
    SCENES, Play, closing, forgotten, host_stops, not_loaded, script_of, terminal_stops)
from ..support.worlds.worlds import Bank

Scene = Callable[[Play], None]
STOPS = (terminal_stops, host_stops)
# So many worlds in each part of the test.
WORLDS = 25
TERMINALS = 3
# A step of a disk fails within so many.
STEPS = 150
KINDS = (
    "T loaded KSN", "T sent N KSN", "T next KSN", "T empty", "T armed N", "host armed N",
    "host used N", "T IKSN elsewhere", "T no key set", "no such terminal", "no such frame",
    "answer K accepted KSN 00", "answer K repeated KSN 00", "answer K refused KSN 5",
    "answer K refused KSN 6", "T done KSN 00", "T refused KSN 5", "T fault NotLoaded",
    "T fault Stopped", "T fault Store Device", "T fault NotPending", "T fault NotMine",
    "T fault IksnSpent", "T fault LoadsSpent", "host fault Stopped", "host fault Store Device",
)


def demand_laws(case: DriverCase, lines: list[str]) -> None:
    """No two requests have one number, none is accepted twice, and none is done twice or with
    another code than it was accepted with."""
    first: dict[tuple[str, str], str] = {}
    for line in lines:
        words = line.split(" ")
        for kind, place in (("sent", 3), ("accepted", 3), ("done", 2)):
            if kind in words:
                case.assertNotIn((kind, words[place]), first, line)
                first[kind, words[place]] = words[-1]
                if kind == "done":
                    case.assertEqual(first.get(("accepted", words[place])), words[-1], line)


class DrivenWorld:
    """A world over disks with their habits, which is played by scenes and then by the program."""

    def __init__(self, case: DriverCase, drive: Drive, bank: Bank) -> None:
        self.case, self.chance, self.drive = case, case.chance, drive
        habits = [random_habit(self.chance, STEPS) for _ in range(1 + TERMINALS)]
        self.play = Play(self.chance, bank.says)
        world = self.play.world
        log = habits[0].disk(bytes(RECORD * bank.says.log))
        world.host = Host(bank.says, DiskLog(log))
        world.terminals = [Terminal(SlotCell(it.disk(bytes(CELL_DISK)))) for it in habits[1:]]
        drive.use(bank)
        drive.take(f"world new {' '.join(map(str, habits))}", "ready")

    def lives(self, scenes: Iterable[Scene]) -> None:
        """Plays scenes, behind a restart of all ends."""
        play = self.play
        for end in ("host", *(f"t{number}" for number in range(1, TERMINALS + 1))):
            play.happens(f"restart {end}")
        if play.bank.log > KEPT + 1 and self.chance.random() < 0.3:
            forgotten(play)
        for scene in (not_loaded, *scenes, self.chance.choice(STOPS), closing):
            scene(play)

    def demands(self) -> None:
        """That the program gives the same lines, in calls of any number of events, and frames."""
        rest = list(zip(self.play.events, self.play.lines))
        most = self.chance.choice((1, 10, len(rest)))
        while rest:
            count = self.chance.randint(1, most)
            events, lines = zip(*rest[:count])
            self.drive.take(f"world {';'.join(events)}", "".join(f"{line};" for line in lines))
            del rest[:count]
        world = self.play.world
        for name, frames in (("requests", world.requests), ("answers", world.answers)):
            self.drive.take(f"world {name}", "".join(f"{digits(frame)} " for frame in frames))
        for place, terminal in enumerate(world.terminals):
            self.drive.take(f"world next {place}", terminal.next())
        used = world.host.used if world.host.running else set()
        for serial in (1, *sorted(used)):
            is_used = "yes" if serial in used else "no"
            self.drive.take(f"world is-used {serial_text(serial)}", is_used)
        demand_laws(self.case, self.play.lines)


class TestWorlds(DriverCase):
    weight = 12

    @in_parts(2)
    def test_worlds(self) -> None:
        drive, tally, events, scenes = Drive(), Counter(), 0, itertools.cycle(SCENES)
        for _ in range(WORLDS * self.times):
            world = DrivenWorld(self, drive, random_bank_of_driver(self.chance))
            world.lives(next(scenes) for _ in range(3))
            world.demands()
            tally += world.play.tally
            events += len(world.play.events)
        drive.demand(self)
        self.tells(f"{WORLDS * self.times} worlds, {events} events, "
                   f"{tally['T fault Store Device'] + tally['host fault Store Device']} failures")
        missing = [kind for kind in KINDS if not tally[kind]]
        self.assertEqual(missing, [], "never came")


class TestScripts(DriverCase):
    weight = 6

    def test_scripts_in_pieces(self) -> None:
        """A script through readers and writers of few bytes at a time, of which a call may fail."""
        drive = Drive()
        for number in range(30 * self.times):
            bank = random_bank_of_driver(self.chance)
            play = Play(self.chance, bank.says)
            for scene in (not_loaded, *self.chance.sample(SCENES, 2)):
                scene(play)
            script = script_of(self.chance, play.events)
            lines = "".join(f"{line}\n" for line in play.lines).encode()
            most, passes = self.chance.randint(1, 100), self.chance.randrange(20)
            drive.use(bank)
            drive.take(f"script {most} {NEVER} {NEVER} {digits(script)}", f"played {digits(lines)}")
            fails = passes <= -(-len(script) // most)
            drive.take(f"script {most} {passes} {NEVER} {digits(script)}",
                       "script: cannot read; " if fails else f"played {digits(lines)}")
        drive.demand(self)
        drive.demand_all(self, "played", "script:")

    def test_writes_that_fail(self) -> None:
        """A write that fails leaves a part of the lines."""
        drive = Drive()
        for _ in range(20 * self.times):
            bank = random_bank_of_driver(self.chance)
            play = Play(self.chance, bank.says)
            not_loaded(play)
            lines = "".join(f"{line}\n" for line in play.lines).encode()
            most, passes = self.chance.randint(1, 10), self.chance.randrange(10)
            drive.use(bank)
            script = script_of(self.chance, play.events)
            fails = most * passes < len(lines)
            drive.take(f"script {most} {NEVER} {passes} {digits(script)}",
                       f"script: write failed; {digits(lines[: most * passes])}"
                       if fails else f"played {digits(lines)}")
        drive.demand(self)
        drive.demand_all(self, "script:")
