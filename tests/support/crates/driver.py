"""Steps for the program `duk_driver`, each with the line that the model says comes of it.

A step is a line: what it is taken on, and what is done. The program takes terminals, hosts and
worlds over disks in memory that fail and keep what they are told to, and writes a line for what
came of each step.
"""
from __future__ import annotations

from collections import Counter
from dataclasses import dataclass
from random import Random
from typing import Callable, Optional, Union

from ..case import DriverCase
from ..formats.frames import Refusal
from ..formats.images import CELL_DISK, RECORD
from ..models.model_host import Host, HostFault, split
from ..models.model_stores import DiskLog, Filling, MemoryDisk, SlotCell, StoreFault
from ..models.model_terminal import Terminal, TerminalFault
from ..program import short
from ..standards.dukpt import serial_text
from ..worlds.worlds import Bank, Purchase, random_bank

# More device steps, and more calls, than any test makes.
NEVER = 999_999_999


@dataclass(frozen=True)
class Habit:
    """What a disk does: what its restart leaves of what was not synced, and how many of its device
    steps pass before one fails."""

    filling: Union[Filling, int] = Filling.OLD
    passes: int = NEVER

    def __str__(self) -> str:
        return f"{filling_text(self.filling)} {self.passes}"

    def disk(self, data: bytes) -> MemoryDisk:
        """A disk of this habit that holds these bytes."""
        disk = MemoryDisk(data, self.filling)
        disk.steps.fail_once(self.passes)
        return disk


def filling_text(filling: Union[Filling, int]) -> str:
    return filling.value if isinstance(filling, Filling) else f"{filling:02X}"


def random_filling(chance: Random) -> Union[Filling, int]:
    return chance.choice((*Filling, 0x00, 0x01, chance.randrange(256)))


def random_habit(chance: Random, most: int) -> Habit:
    """A habit of which a step fails, within so many, in half of all cases."""
    passes = chance.randrange(most) if chance.random() < 0.5 else NEVER
    return Habit(random_filling(chance), passes)


def random_bank_of_driver(chance: Random) -> Bank:
    """A bank whose local master key has 16 bytes, as the program's hosts have it. Its log is small
    for the most part."""
    while True:
        log = chance.choice((chance.randint(1, 8), chance.randint(1, 12), chance.randint(10, 90)))
        bank = random_bank(chance, "disk", log)
        if len(bank.says.lmk) == 16:
            return bank


def digits(data: bytes) -> str:
    return data.hex().upper()


class Drive:
    """Steps, and the lines that come of them by the model."""

    def __init__(self) -> None:
        self.steps: list[str] = []
        self.lines: list[str] = []
        # How often each thing came: the first words of its line, or all of them in a fault.
        self.tally: Counter[str] = Counter()

    def take(self, step: str, line: str) -> str:
        """A step and its line, which is given back."""
        self.steps.append(step)
        self.lines.append(line)
        words = line.split(" ")
        self.tally[line if words[0] in ("fault", "refused", "done") else words[0]] += 1
        return line

    def use(self, bank: Bank) -> None:
        """The configuration of the hosts and worlds that are made from now on."""
        self.take(f"config {bank.text.hex()}", "ready")

    def demand(self, case: DriverCase) -> None:
        """That these lines come of these steps."""
        for step, came, line in zip(self.steps, taken(case, self.steps), self.lines):
            if came != line:
                case.fail(f"{short(step)} comes to {apart(came, line)}")

    def demand_all(self, case: DriverCase, *things: str) -> None:
        """That each of these things came."""
        missing = [thing for thing in things if not self.tally[thing]]
        case.assertEqual(missing, [], f"never came, of {dict(self.tally)}")


def taken(case: DriverCase, steps: list[str]) -> list[str]:
    """The lines that the program writes on these steps, one for each."""
    ended = case.driver.run(given="".join(f"{step}\n" for step in steps).encode())
    lines = ended.output.decode().splitlines()
    if (ended.status, ended.faults, len(lines)) != (0, b"", len(steps)):
        case.fail(f"{len(steps)} steps end with {len(lines)} lines and status {ended.status}, "
                  f"{short(ended.faults)}, behind {short(lines[-1:])}")
    return lines


def apart(came: str, line: str) -> str:
    """Two lines from where they differ."""
    shorter = min(len(came), len(line))
    at = next((at for at in range(shorter) if came[at] != line[at]), shorter)
    front = max(0, at - 40)
    return f"{came[front : at + 80]!r}, and not {line[front : at + 80]!r} [from {front}]"


@dataclass(frozen=True)
class Cut:
    """A reader and a writer of so many bytes at a time at most, of which the call behind so many
    fails."""

    most: int
    reads: int = NEVER
    writes: int = NEVER


def told(does: Callable[[], str]) -> str:
    """What something comes to, or the fault that it ends in."""
    try:
        return does()
    except (TerminalFault, HostFault, StoreFault) as why:
        return f"fault {why}"


class DrivenTerminal:
    """A terminal by itself over a disk, by the model and by the program."""

    def __init__(self, drive: Drive, habit: Habit, held: Optional[bytes] = None) -> None:
        self.drive = drive
        self.disk = habit.disk(bytes(CELL_DISK) if held is None else held)
        self.model = Terminal(SlotCell(self.disk))
        how = f"new {habit}" if held is None else f"over {habit} {digits(held)}"
        drive.take(f"terminal {how}", "ready")

    def does(self, step: str, act: Callable[[], str]) -> str:
        return self.drive.take(f"terminal {step}", told(act))

    def restart(self) -> str:
        def act() -> str:
            self.model.restart()
            return self.model.next()

        return self.does("restart", act)

    def next(self) -> str:
        return self.does("next", self.model.next)

    def arm(self, passes: int) -> None:
        self.model.arm(passes)
        self.drive.take(f"terminal arm {passes}", "armed")

    def load(self, loading: bytes, block: bytes, iksn: int) -> str:
        def act() -> str:
            self.model.load(loading, block, iksn)
            return "loaded"

        return self.does(f"load {digits(loading)} {digits(block)} {serial_text(iksn)}", act)

    def begin(self, it: Purchase) -> str:
        def act() -> str:
            return f"sent {digits(self.model.begin(it.pan, it.pin, it.amount))}"

        return self.does(f"begin {it.pan} {it.pin} {it.amount}", act)

    def reply(self, frame: bytes) -> str:
        def act() -> str:
            answer = self.model.reply(frame)
            is_refusal = isinstance(answer, Refusal)
            return f"refused {answer.reason}" if is_refusal else f"done {answer.code}"

        return self.does(f"reply {digits(frame)}", act)

    def stop(self, filling: Union[Filling, int]) -> Optional[bytes]:
        """Stops it and reads what its disk then leaves with this filling, unless that read fails.
        A new terminal stands over the disk then."""
        self.disk.filling = filling
        self.disk.restart()
        self.model = Terminal(SlotCell(self.disk))
        step = f"stop {filling_text(filling)}"
        line = self.does(step, lambda: f"disk {digits(self.disk.read(0, len(self.disk.reads)))}")
        return bytes(self.disk.reads) if line.startswith("disk ") else None


class DrivenHost:
    """A host by itself over a log on a disk, by the model and by the program."""

    def __init__(self, drive: Drive, bank: Bank, habit: Habit, held: bytes) -> None:
        self.drive = drive
        self.model = Host(bank.says, DiskLog(habit.disk(held)))
        is_new = held and not any(held) and len(held) % RECORD == 0
        how = f"new {habit} {len(held) // RECORD}" if is_new else f"over {habit} {digits(held)}"
        drive.take(f"host {how}", "ready")

    def restart(self) -> str:
        return self.drive.take("host restart", told(lambda: f"used {self.model.restart()}"))

    def arm(self, passes: int) -> None:
        self.model.arm(passes)
        self.drive.take(f"host arm {passes}", "armed")

    def answer(self, frame: bytes) -> bytes:
        """What the model answers, which is counted."""
        answer = self.model.answer(frame)
        self.drive.tally[f"{answer.kind.value} {answer.says}"] += 1
        return answer.frame

    def handle(self, frame: bytes) -> str:
        answer = told(lambda: f"answer {digits(self.answer(frame))}")
        return self.drive.take(f"host handle {digits(frame)}", answer)

    def serve(self, stream: bytes, cut: Cut) -> bytes:
        """Serves a stream, and gives what was written."""
        written, end = self.serving(stream, cut)
        step = f"host serve {cut.most} {cut.reads} {cut.writes} {digits(stream)}"
        self.drive.take(step, f"{end} {digits(written)}")
        self.drive.tally[end] += 1
        return written

    def serving(self, stream: bytes, cut: Cut) -> tuple[bytes, str]:
        """What is written of the answers to a stream, and how that ends."""
        given = stream[: cut.most * cut.reads]
        frames, end = split(given)
        written, writes = b"", cut.writes
        for frame in frames:
            try:
                answer = self.answer(frame)
            except HostFault as why:
                return written, f"fault {why}"
            written += answer[: writes * cut.most]
            writes -= -(-len(answer) // cut.most)
            if writes < 0:
                return written, "fault Write"
        if end == "serve: frame too long":
            return written, "fault TooLong"
        if cut.reads <= -(-len(stream) // cut.most):
            return written, "fault Read"
        return written, "fault Truncated" if end else f"served {len(frames)}"

    def is_used(self, serial: int) -> str:
        is_so = self.model.running and serial in self.model.used
        return self.drive.take(f"host is-used {serial_text(serial)}", "yes" if is_so else "no")
