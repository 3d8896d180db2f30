"""Each growth of memory refused in turn, to the calls of the library that may want memory.

What a call leaves where memory is refused is proved. That it reports it where a growth was refused,
and at each one, is shown here, with what it leaves once more. A program makes one call, with the
arguments `refuse CALL GROWTH`, in runs of which each has one allocation refused: from the first
that the call and what it needs take to the last, and some beyond it, where nothing is refused any
more. `duk_driver` looks at what came of its call. `duk_driver_program` writes what came of its own,
which is compared here with what the model says. It needs the kit's `rt`, which builds these
programs anew, with checks and without proofs.
"""
from __future__ import annotations

import re
import subprocess
from ast import literal_eval
from dataclasses import dataclass

from ..support.case import Case
from ..support.commands.commands import derive_lines
from ..support.formats.configuration import read
from ..support.models.model import played
from ..support.models.model_books import played as played_by_tills
from ..support.program import ROOT

CRATES = ROOT / "crates"
SECONDS = 1800


@dataclass(frozen=True)
class Growths:
    """The growths that are refused to a call, counted from the first that it and what it needs
    take. The first is one that what the call needs takes, but for calls that need nothing, and the
    last is beyond the call. So many of its own are refused at least; none of a call that takes no
    memory. Of a call that does events, some are refused behind the first of these."""

    first: int
    last: int
    least: int
    has_events: bool = False


@dataclass(frozen=True)
class Driver:
    """A program that makes calls, and the number of the allocation that is refused: so many it
    takes for its own, and then before its call and in it."""

    crate: str
    refused_at: int
    calls: dict[str, Growths]


LIBRARY = Driver("duk_driver", 4000 + 7, {
    "MemLog::new": Growths(1, 3, 1),
    "MemDisk::new": Growths(1, 6, 4),
    "Host::restart": Growths(34, 48, 2),
    "Host::restart-again": Growths(34, 54, 1),
    "Host::handle": Growths(28, 48, 1),
    "Host::handle-again": Growths(28, 48, 0),
    "serve": Growths(30, 54, 1),
    "run": Growths(86, 106, 4, has_events=True),
    "read_config": Growths(1, 36, 20),
    "parse_script": Growths(1, 5, 3),
    "run_script": Growths(1, 56, 40, has_events=True),
})
PROGRAM = Driver("duk_driver_program", 4000 + 8, {
    "run_status": Growths(1, 58, 40, has_events=True),
    "play_script": Growths(1, 90, 40, has_events=True),
    "command": Growths(1, 280, 20),
})

# What the calls of `duk_driver_program` are given, and what they write where they are whole.
RUN = (CRATES / PROGRAM.crate / "stdin").read_bytes()
CONFIGURATION, _, SCRIPT = RUN.partition(b"\n\n")
# A payment whose reply is lost and which is undone; one that is declined; a book that fails; stops.
TILLS = b"""load t1 FFFF9876543210E00000
begin t1 4012345678909 1234 1
up 1
reverse t1
up 2
down 2 t1
begin t1 4012345678909 1234 10001
up 3
down 3 t1
arm t1 book 0
begin t1 4012345678909 1234 1
restart t1
restart host
begin t1 4012345678909 1234 1
up 4
up 1
down 4 t1
restart t1
"""
DERIVED = ("0123456789ABCDEFFEDCBA9876543210", "FFFF9876543210E00001")
GIVEN = {
    "run_status": RUN,
    "play_script": CONFIGURATION + b"\n\n" + TILLS,
    "command": "\n".join(("dukpt", "derive", *DERIVED)).encode(),
}
WRITTEN = {
    "run_status": played(read(CONFIGURATION), SCRIPT),
    "play_script": played_by_tills(read(CONFIGURATION), TILLS),
    "command": "".join(f"{line}\n" for line in derive_lines(*DERIVED)).encode(),
}

ANSWER = re.compile(r"^(\S+) (\d+): (.*)$", re.M)
ANSWERS = ("before", "refused", "midway", "whole")
CAME = re.compile(r'status (\d+), (\d+) handed on, output "(.*)", fault "(.*)"')


class RefusedGrowth(Case):
    """First a call is not reached, then it is refused each growth, and then none any more."""

    weight = 100

    def test_each_growth_of_the_library(self) -> None:
        refused = self.refused_of(LIBRARY)
        # The first restart of a host makes the room for its exchanges, and a second one has it.
        self.assertLess(refused["Host::restart-again"], refused["Host::restart"])

    def test_each_growth_of_the_program(self) -> None:
        self.refused_of(PROGRAM)

    def refused_of(self, driver: Driver) -> dict[str, int]:
        """How many growths were refused to each call."""
        answers = self.try_all(driver)
        refused = {call: self.refused(call, growths, answers[call])
                   for call, growths in driver.calls.items()}
        self.tells(f"{sum(refused.values())} growths of {len(refused)} calls")
        return refused

    def try_all(self, driver: Driver) -> dict[str, dict[int, str]]:
        """What came of each run: for each call, the answers by the growth that was refused."""
        folder = self.folder()
        for call, growths in driver.calls.items():
            for growth in range(growths.first, growths.last + 1):
                name = f"{call.replace(':', '_')}-{growth:04}"
                (folder / name).write_bytes(GIVEN.get(call, b""))
                (folder / f"{name}.args").write_text(f"refuse\n{call}\n{growth}\n")
        refused_at = str(driver.refused_at)
        tried = subprocess.run(
            ["rt", "try", "--steps", "1", "--fail-alloc", refused_at, "--cases", str(folder)],
            cwd=CRATES / driver.crate, stdin=subprocess.DEVNULL, capture_output=True, text=True,
            errors="replace", timeout=SECONDS, check=False)
        self.assertEqual(tried.returncode, 0, f"{tried.stdout[-2000:]}\n{tried.stderr[-2000:]}")
        answers: dict[str, dict[int, str]] = {call: {} for call in driver.calls}
        for call, growth, answer in ANSWER.findall(tried.stdout):
            self.assertIn(call, answers, "an answer of no such call")
            self.assertNotIn(int(growth), answers[call], f"{call}: growth {growth} came twice")
            answers[call][int(growth)] = judged(call, answer)
        return answers

    def refused(self, call: str, growths: Growths, answers: dict[int, str]) -> int:
        """How many growths were refused to a call, whose answers come in their order."""
        self.assertEqual(sorted(answers), list(range(growths.first, growths.last + 1)), call)
        for growth, answer in answers.items():
            self.assertIn(answer, ANSWERS, f"{call}: growth {growth} was refused")
        order = "".join(answers[growth][0] for growth in sorted(answers))
        refused = ("r*m+" if growths.has_events else "r+") if growths.least else ""
        self.assertRegex(order, f"^b*{refused}w+$", f"{call}: b is before the call, r refused, "
                         "m refused behind some events, and w whole")
        count = len(order.strip("bw"))
        self.assertGreaterEqual(count, growths.least, f"{call}: {order}")
        return count


def judged(call: str, answer: str) -> str:
    """What came of a call of `duk_driver_program`, in the words of `duk_driver`: refused memory, it
    has handed on the lines of the events before."""
    came = CAME.fullmatch(answer)
    if not came:
        return answer
    status, handed_on, *texts = came.groups()
    output, fault = (literal_eval(f'b"{text}"') for text in texts)
    if int(handed_on) != len(output):
        return f"something is held back: {answer}"
    if (status, output, fault) == ("0", WRITTEN[call], b""):
        return "whole"
    if (status, fault) != ("1", b"out of memory\n") or not are_first_lines(output, WRITTEN[call]):
        return answer
    return "midway" if output else "refused"


def are_first_lines(some: bytes, lines: bytes) -> bool:
    """Whether these are some of the lines, from the first on, and not all."""
    are_whole = not some or some.endswith(b"\n")
    return are_whole and lines.startswith(some) and len(some) < len(lines)
