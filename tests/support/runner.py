"""Runs the tests of the bench.

Each test of the built program runs on each PROGRAM. With none it takes those that the gate leaves:
crates/dukpt/out/dukpt, and dukpt.by-rattle where it stands beside it. `-k` takes the tests whose
name has NAME in it, as `worlds` or `test_commands`; it may be given several times. What is random
comes of the seed, which is printed: the same seed draws the same again. Without `--seed`, or with
`--seed random`, a new one is drawn. `.ci/run` takes the first eight digits of the commit, so that a
commit has the same verdict twice. The library of `out/library` is built for the tests of it where its
sources changed, if all tests run; of chosen ones only with `--build`, since that may prove for an hour,
and else those fail that use it. `--times 100` tries a hundred times as many worlds and kills.
Tests run beside one another, as many as there are processors. All run, and then it fails if one did.
It ends with `N passed, M failed`.
"""
from __future__ import annotations

import argparse
import importlib
import io
import multiprocessing
import os
import random
import sys
import time
import unittest
from concurrent.futures import ProcessPoolExecutor, as_completed
from dataclasses import dataclass, replace
from pathlib import Path
from typing import Iterator, Optional

from .case import Case, ProgramCase, name_of, parts_of
from .library.library import MAY_BUILD, LibraryMissing
from .program import ROOT, NotBuilt, Program, programs

TESTS = ROOT / "tests"


class TwiceNamed(Exception):
    """That two modules of tests have one name."""


@dataclass(frozen=True)
class Job:
    """A test or one of its parts, and the program that it is run on, if it is one of a program."""

    # With its folders, as it is imported.
    module: str
    case: str
    test: str
    # From 1, where the test has several.
    part: int
    program: Optional[Program]
    # How long it may take, for the order in which they begin.
    weight: int
    # How many programs are tried.
    programs: int = 1

    @property
    def name(self) -> str:
        return name_of(f"{self.module}.{self.case}.{self.test}", self.part)

    def __str__(self) -> str:
        return f"{self.name} on {self.program.name}" if self.program else self.name


@dataclass(frozen=True)
class Outcome:
    """How a test ended."""

    fault: str
    told: str
    seconds: float


def modules(tests: Path = TESTS) -> list[str]:
    """The modules `test_*`, in whichever folder each stands, by their own names."""
    found = sorted(tests.rglob("test_*.py"), key=lambda it: it.stem)
    for one, other in zip(found, found[1:]):
        if one.stem == other.stem:
            raise TwiceNamed(f"{one.relative_to(tests)} and {other.relative_to(tests)} have one name")
    return [".".join(it.relative_to(tests.parent).with_suffix("").parts) for it in found]


def cases() -> Iterator[type[Case]]:
    """The classes of tests of all modules."""
    for name in modules():
        module = importlib.import_module(name)
        for it in vars(module).values():
            if isinstance(it, type) and issubclass(it, Case) and it.__module__ == module.__name__:
                yield it


def jobs_of(case: type[Case]) -> Iterator[Job]:
    """The tests of a class, in all their parts."""
    for test in unittest.TestLoader().getTestCaseNames(case):
        for part in parts_of(getattr(case, test)):
            yield Job(case.__module__, case.__name__, test, part, None, getattr(case, "weight", 1))


def jobs(names: list[str], given: list[str]) -> list[Job]:
    """The tests that are to run, the longest first."""
    found: list[Job] = []
    tried: Optional[list[Program]] = None
    for case in cases():
        for job in jobs_of(case):
            if names and not any(name in job.name for name in names):
                continue
            if not issubclass(case, ProgramCase):
                found.append(job)
                continue
            tried = programs(given) if tried is None else tried
            found += [replace(job, program=it, programs=len(tried)) for it in tried]
    return sorted(found, key=lambda it: -it.weight)


def run(job: Job, seed: int, times: int) -> Outcome:
    """Runs a test, in a process of the pool."""
    began = time.monotonic()
    case = getattr(importlib.import_module(job.module), job.case)
    Case.seed, Case.times = seed, times
    test = case(job.test)
    test.part = job.part
    if job.program:
        test.program, test.programs = job.program, job.programs
    result = unittest.TestResult()
    said, sys.stderr = sys.stderr, io.StringIO()
    try:
        test.run(result)
    finally:
        sys.stderr = said
    faults = [said_of(text) for _, text in result.errors + result.failures]
    faults += [f"skipped: {why}: a part that cannot run is a failure" for _, why in result.skipped]
    return Outcome("\n".join(faults), "; ".join(getattr(test, "told", [])), time.monotonic() - began)


def said_of(fault: str) -> str:
    """What is said of a fault: where something is missing, that alone."""
    _, found, missing = fault.rpartition(f"{LibraryMissing.__module__}.{LibraryMissing.__name__}: ")
    return missing.strip() if found else fault


def seed_of(word: str) -> int:
    if word == "random":
        return random.SystemRandom().randrange(1 << 32)
    if not word.isdecimal():
        raise argparse.ArgumentTypeError(f"{word!r} is no number, and not `random`")
    return int(word)


def read_words() -> argparse.Namespace:
    reader = argparse.ArgumentParser(
        prog="tools/test", description=__doc__, formatter_class=argparse.RawDescriptionHelpFormatter)
    reader.add_argument("-k", dest="names", action="append", default=[])
    reader.add_argument("--seed", type=seed_of, default="random", metavar="NUMBER|random")
    reader.add_argument("--times", type=int, default=1)
    reader.add_argument("--build", action="store_true")
    reader.add_argument("--jobs", type=int, default=len(os.sched_getaffinity(0)))
    reader.add_argument("program", nargs="*")
    return reader.parse_args()


def main() -> int:
    words = read_words()
    try:
        todo = jobs(words.names, words.program)
    except (NotBuilt, TwiceNamed) as why:
        print(f"test: {why}", file=sys.stderr)
        return 1
    if words.build or not words.names:
        # Of the processes of the pool too.
        os.environ[MAY_BUILD] = "yes"
    print(f"test: --seed {words.seed}", flush=True)
    failed = 0
    with ProcessPoolExecutor(words.jobs, mp_context=multiprocessing.get_context("spawn")) as pool:
        running = {pool.submit(run, job, words.seed, words.times): job for job in todo}
        for done in as_completed(running):
            failed += not report(running[done], done)
    print(f"test: --seed {words.seed}")
    print(f"{len(todo) - failed} passed, {failed} failed", flush=True)
    return 1 if failed or not todo else 0


def report(job: Job, done) -> bool:
    """Prints how a test ended, and tells whether it passed."""
    try:
        outcome = done.result()
    except Exception as why:  # the process of the test died
        outcome = Outcome(f"the test itself ended: {why!r}", "", 0)
    word = "FAILED" if outcome.fault else "ok"
    told = f": {outcome.told}" if outcome.told else ""
    print(f"{word} {job} ({outcome.seconds:.1f} s){told}", flush=True)
    if outcome.fault:
        print(outcome.fault, flush=True)
    return not outcome.fault
