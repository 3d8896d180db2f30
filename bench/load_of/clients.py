"""What clients see: `client.c` has them, and this reads what it writes."""
from __future__ import annotations

import os
import subprocess
from array import array
from dataclasses import dataclass
from typing import Sequence

from timing import BENCH, OUT, call

PROGRAM = os.path.join(OUT, "client")
# Seconds without an answer behind which clients give up; a host or a primary may be away for less.
PATIENCE = 15


def build() -> None:
    os.makedirs(OUT, exist_ok=True)
    call(["cc", "-O2", "-D_GNU_SOURCE", "-o", PROGRAM, "client.c", "-lm"],
         os.path.join(BENCH, "load_of"))


@dataclass(frozen=True)
class Seen:
    """Of each request when it was to be sent, was sent and was answered, in seconds of the clock of this
    machine; and how many connections ended."""

    meant: Sequence[float]
    sent: Sequence[float]
    answered: Sequence[float]
    ended: int

    @property
    def has_all(self) -> bool:
        return all(self.answered)

    @property
    def count(self) -> int:
        return sum(map(bool, self.answered))

    @property
    def rate(self) -> float:
        """Answers in a second, from the first request to the last answer."""
        return self.count / (max(self.answered) - self.meant[0]) if self.count else 0

    def latencies(self) -> list[float]:
        """From when each request was to be sent to its answer, the shortest first."""
        return sorted(end - begin for begin, end in zip(self.meant, self.answered) if end)

    def delays(self) -> list[float]:
        """How late the clients were themselves."""
        return sorted(sent - meant for meant, sent in zip(self.meant, self.sent) if sent)

    def first_behind(self, moment: float) -> float:
        """From a moment to the first answer to a later request."""
        return min(end for begin, end in zip(self.meant, self.answered) if begin > moment and end) - moment


class Clients:
    """Clients that run."""

    def __init__(self, folder: str, ports: Sequence[int], frames: bytes, connections: int,
                 rate: float = 0, ahead: int = 0, seed: int = 1) -> None:
        """In an open loop at a rate, or in a closed one with so many requests ahead on each connection."""
        self.out = os.path.join(folder, "seen")
        self.process = subprocess.Popen(
            [PROGRAM, ",".join(map(str, ports)), str(connections), str(rate), str(ahead), str(seed),
             str(PATIENCE), self.out], stdin=subprocess.PIPE, stdout=subprocess.PIPE)
        self.process.stdin.write(frames)
        self.process.stdin.close()

    def end(self) -> Seen:
        said = self.process.stdout.read()
        if self.process.wait():
            raise SystemExit("bench/load: the clients failed")
        found = array("d")
        with open(self.out, "rb") as it:
            found.frombytes(it.read())
        return Seen(found[0::3], found[1::3], found[2::3], int(said.split()[0]))


def part_of(sorted_values: Sequence[float], part: float) -> float:
    """The value below which this part of them is."""
    return sorted_values[min(len(sorted_values) - 1, int(part * len(sorted_values)))]
