"""How fast a service over a journal answers, beside one over a log in memory and one over a log in a
file: on the disk of TMPDIR.

Each time is the median of rounds in which all of them run in turn. Two times are taken of a run, both of
which leave out that other programs take the processors: that of a processor, and what it took by the
clock less what it waited for a processor, which has the disk in it. A rate in memory is compared by the
first, since how long a sync takes is the disk's; and one over a log by the second, as its syncs are what
a journal saves.
"""
from __future__ import annotations

import os
import select
import statistics
import subprocess
import time
from dataclasses import dataclass, field
from pathlib import Path
from typing import Sequence

from ..support.formats.journal_file import records_for
from ..support.program import SECONDS, Ended
from ..support.service.client import Exchange, payments
from ..support.service.journal_case import JournalCase, frames_of, stream_of, sync_file
from ..support.service.service_case import answers_to

IN_MEMORY = ("serve", "wide.toml")
ON_LOG = (*IN_MEMORY, "--log", "log")
ON_JOURNAL = (*IN_MEMORY, "--journal", "journal")
# So many requests; fewer over a log, where each takes two syncs; and one by one fewer still.
MANY, OF_A_LOG, ONE_BY_ONE = 100_000, 2000, 400
# Where other programs take the disk, or what the processors share, a test is tried again, so many times
# in all.
ROUNDS, FIRST = 9, 3
# At least so much of the rate in memory is demanded, and so many times the rate over a log. A quiet
# machine has 0.8 and 25 (docs/PERFORMANCE.md).
OF_MEMORY, OF_LOG = 0.7, 10
# One by one a journal has the same two syncs as a log: a quiet machine has 1 (docs/PERFORMANCE.md). They
# are not left out of what other programs make slow, so that no more than this is demanded.
ALONE_OF_LOG = 0.5
# Over a log that is slower than memory by so much its syncs are what takes the time. On a tmpfs they
# take none.
BY_SYNCS = 10


@dataclass(frozen=True)
class Took:
    """What a run took for a request, in seconds: of a processor; and by the clock, less its waits for
    one."""

    processor: float
    clock: float


@dataclass
class Times:
    """What the rounds took over each store."""

    memory: list[Took] = field(default_factory=list)
    log: list[Took] = field(default_factory=list)
    journal: list[Took] = field(default_factory=list)

    def of_memory(self) -> float:
        return processor(self.memory) / processor(self.journal)

    def of_log(self) -> float:
        return clock(self.log) / clock(self.journal)

    def has_syncs(self) -> bool:
        return clock(self.log) > BY_SYNCS * clock(self.memory)

    def is_enough(self) -> bool:
        return self.of_memory() >= OF_MEMORY and (not self.has_syncs() or self.of_log() >= OF_LOG)


def processor(runs: Sequence[Took]) -> float:
    return statistics.median(it.processor for it in runs)


def clock(runs: Sequence[Took]) -> float:
    return statistics.median(it.clock for it in runs)


def waits_of(process: int) -> float:
    """How many seconds a process, which may have ended, has waited for a processor."""
    return int(Path(f"/proc/{process}/schedstat").read_text().split()[1]) / 1e9


def wait_for_end(process: int) -> None:
    """Waits until it has ended. It is still there then."""
    handle = os.pidfd_open(process)
    try:
        ending = select.poll()
        ending.register(handle, select.POLLIN)
        if not ending.poll(1000 * SECONDS):
            raise AssertionError(f"a run did not end in {SECONDS} seconds")
    finally:
        os.close(handle)


class Speed(JournalCase):
    weight = 15

    def make_stores(self) -> None:
        """A new log and a new journal, which is made as docs/DEPLOYMENT.md has it."""
        self.make_log(OF_A_LOG)
        sync_file(self.log)
        self.journal.unlink(missing_ok=True)
        made = self.program.run("new-journal", "journal", str(records_for(MANY)), folder=self.home)
        self.assert_ended(made, 0, b"", b"", "new-journal")

    def run_once(self, words: Sequence[str], requests: Sequence[Exchange]) -> Took:
        """Requests from a file into a file, with the start of the program."""
        self.make_stores()
        self.write("input", stream_of(requests))
        with open(self.home / "input", "rb") as given, open(self.home / "output", "wb") as taken, \
                open(self.home / "faults", "wb") as faults:
            began = time.monotonic()
            process = subprocess.Popen(
                ["dukpt", *words], executable=str(self.program.path), cwd=self.home, stdin=given,
                stdout=taken, stderr=faults)
            self.addCleanup(process.kill)
            wait_for_end(process.pid)
            passed = time.monotonic() - began - waits_of(process.pid)
        _, status, used = os.wait4(process.pid, 0)
        process.returncode = os.waitstatus_to_exitcode(status)
        ended = Ended(process.returncode, (self.home / "output").read_bytes(),
                      (self.home / "faults").read_bytes())
        self.assert_output(ended, answers_to(requests), "", " ".join(words))
        return Took((used.ru_utime + used.ru_stime) / len(requests), passed / len(requests))

    def test_pipelined(self) -> None:
        """The more rounds, the less one of them counts: there are more where few are not enough."""
        requests, times = payments(MANY), Times()
        while len(times.log) < FIRST or len(times.log) < ROUNDS and not times.is_enough():
            times.memory.append(self.run_once(IN_MEMORY, requests))
            times.journal.append(self.run_once(ON_JOURNAL, requests))
            times.log.append(self.run_once(ON_LOG, requests[:OF_A_LOG]))
        told = [f"{name} {1 / clock(runs):.0f} ({1e6 * processor(runs):.1f} µs of a processor)"
                for name, runs in (("in memory", times.memory), ("over a log", times.log),
                                   ("over a journal", times.journal))]
        self.tells(f"a second: {', '.join(told)}: {times.of_memory():.2f} of memory, "
                   f"{times.of_log():.1f} times the log, in {len(times.log)} rounds")
        self.assertGreaterEqual(times.of_memory(), OF_MEMORY)
        if times.has_syncs():
            self.assertGreaterEqual(times.of_log(), OF_LOG)

    def test_one_by_one(self) -> None:
        """Each request waits for its answer: two syncs, as over a log. The best rounds count."""
        requests, rounds = payments(ONE_BY_ONE), 0
        log = journal = 0.0
        while rounds < FIRST or rounds < ROUNDS and journal < ALONE_OF_LOG * log:
            log = max(log, self.rate_alone(ON_LOG, requests))
            journal = max(journal, self.rate_alone(ON_JOURNAL, requests))
            rounds += 1
        self.tells(f"one by one, a second: over a log {log:.0f}, over a journal {journal:.0f}")
        self.assertGreater(journal, ALONE_OF_LOG * log)

    def rate_alone(self, words: Sequence[str], requests: Sequence[Exchange]) -> float:
        """Requests a second behind the first, of which each comes when the one before is answered."""
        self.make_stores()
        service = self.start(*words)
        service.ask(frames_of(requests[:1]))
        began = time.monotonic()
        service.ask(frames_of(requests[1:]))
        took = time.monotonic() - began
        self.assert_output(service.end(), answers_to(requests), "", " ".join(words))
        service.release()
        return (len(requests) - 1) / took
