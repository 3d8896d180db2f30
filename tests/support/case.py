"""The base of each test of the bench."""
from __future__ import annotations

import random
import shutil
import tempfile
import unittest
from pathlib import Path
from typing import Any, Callable, ClassVar, Iterable, TypeVar

from .program import Ended, Program, built, demand_built, short

MEMORY = Path("/dev/shm")
Test = TypeVar("Test", bound=Callable[..., None])


def in_parts(count: int) -> Callable[[Test], Test]:
    """Marks a test that runs so many times, each with draws of its own and beside the others. The
    runner counts the parts, and numbers their names: `test_lines_1`, `test_lines_2`."""
    def marked(test: Test) -> Test:
        setattr(test, "parts", range(1, count + 1))
        return test

    return marked


def parts_of(test: Callable[..., None]) -> Iterable[int]:
    """The numbers of a test's parts, or 0 where it is whole."""
    return getattr(test, "parts", (0,))


def name_of(test: str, part: int) -> str:
    """MODULE.CASE.TEST, whichever folders the module stands in, with the number of a part."""
    return ".".join(test.split(".")[-3:]) + (f"_{part}" if part else "")


class Case(unittest.TestCase):
    """A test. What is random in it comes of `chance`, which the seed of the run determines; what it
    `tells` stands in its line of the report."""

    seed: ClassVar[int] = 0
    # How many times as much a test tries as in the gate: of worlds, kills and the like.
    times: ClassVar[int] = 1
    # Which part of the test this is, or 0 where it is whole.
    part = 0
    maxDiff = 2000

    @property
    def name(self) -> str:
        return name_of(self.id(), self.part)

    def setUp(self) -> None:
        self.chance = random.Random(f"{self.seed} {self.name}")
        self.told: list[str] = []

    def tells(self, text: str) -> None:
        self.told.append(text)

    def folder(self, in_memory: bool = False) -> Path:
        """A new folder, which goes with the test. In memory, where that can be, syncs take no time."""
        where = MEMORY if in_memory and MEMORY.is_dir() else None
        made = tempfile.mkdtemp(prefix="dukpt-test-", dir=where)
        self.addCleanup(shutil.rmtree, made, ignore_errors=True)
        return Path(made)


class ProgramCase(Case):
    """A test of a built program: it runs once for each program that is tried."""

    program: Program
    # How many programs are tried, this one among them.
    programs: ClassVar[int] = 1

    def share_of(self, count: int) -> int:
        """How many of so many random cases are this program's, where each is tried on one alone."""
        return -(-count * self.times // self.programs)

    def own_chance(self) -> random.Random:
        """What is drawn for this program alone: of another one it is something else."""
        return random.Random(f"{self.seed} {self.name} {self.program.name}")

    def assert_ended(
        self,
        ended: Ended,
        status: int,
        output: bytes,
        faults: bytes,
        what: str = "",
    ) -> None:
        """That a run ended with exactly this."""
        wanted = Ended(status, output, faults)
        if ended != wanted:
            self.fail(f"{what}: {first_difference(ended, wanted)}")


class DriverCase(Case):
    """A test of what only the library shows, through the program `duk_driver`."""

    driver: Program

    def setUp(self) -> None:
        super().setUp()
        self.driver = built("duk_driver")[0]
        demand_built(self.driver)


def first_difference(ended: Ended, wanted: Ended) -> str:
    for what in ("status", "faults", "output"):
        is_, should = getattr(ended, what), getattr(wanted, what)
        if is_ != should:
            return f"{what} is {about(is_, should)}, and not {about(should, is_)} ({ended.status}, "\
                f"{short(ended.faults)})"
    return "no difference"


def about(one: Any, other: Any) -> str:
    """The part of a value near the place where it differs from another one."""
    if not isinstance(one, bytes) or len(one) <= 160:
        return repr(one)
    at = next((at for at, (a, b) in enumerate(zip(one, other)) if a != b), min(len(one), len(other)))
    return f"[{len(one)} bytes, from {max(0, at - 60)}] {one[max(0, at - 60) : at + 100]!r}"
