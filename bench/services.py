"""Times services on the file system of TMPDIR: `dukpt serve` over a log in memory, a log in a file and
a journal, the service of bench/openssl over a journal, and that of an earlier program where one is given.

Each round makes a new log or journal for each service, and takes them in turn. What counts is the time
of the whole process by the clock, and its processor time. All have to give the same answers, and all
journals the same entries.

Then the journal is paired with each other service over a file. Each request goes to both, and waits for
its reply: what counts is the median time from the one to the other. The two are taken to and fro
(A B B A ..), so that each comes as often right behind its own last sync as behind the other's; of three
in one turn, the one in the middle never would.
"""
from __future__ import annotations

import os
import subprocess
import sys
import time
from dataclasses import dataclass, field
from pathlib import Path
from statistics import median
from typing import Callable, Iterator, NamedTuple, Optional, Sequence

from timing import ROOT

sys.path.insert(0, ROOT)

from tests.support.formats.checked_journal import plain_of  # noqa: E402
from tests.support.formats.journal_file import records_for  # noqa: E402

# The bytes of each request, of the reply to it, and of a record of a log.
REQUEST, REPLY, LOG_RECORD = 48, 24, 16
# A frame that is refused, and the bytes of its refusal.
EMPTY_FRAME, REFUSAL = b"\x00\x00", 15
# How many requests are given one by one, to each of a pair.
ONE_BY_ONE = 2_000
# The service with which the others are compared.
JOURNAL = "journal"


@dataclass(frozen=True)
class Service:
    """A service: its words, its file, and what makes that for so many requests."""

    name: str
    words: tuple[str, ...]
    store: str = ""
    make: Callable[[int], None] = lambda count: None
    is_journal: bool = False


class Served(NamedTuple):
    """What a service took for each request, in seconds."""

    clock: float
    processor: float


@dataclass(frozen=True)
class Pair:
    """A service beside the journal: the median seconds that a request took of each, round by round."""

    it: Service
    journal: Service
    own: list[float] = field(default_factory=list)
    journals: list[float] = field(default_factory=list)

    def compare(self, requests: bytes) -> None:
        """A round."""
        own, journals = map(median, serve_one_by_one((self.it, self.journal), requests))
        self.own.append(own)
        self.journals.append(journals)

    def cells(self) -> str:
        """Both medians, and the median of the ratios of the rounds."""
        ratio = median(one / other for one, other in zip(self.own, self.journals))
        return f"{1e6 * median(self.own):.0f} µs | {1e6 * median(self.journals):.0f} µs | {ratio:.2f}"


def services(
    dukpt: str, peer: str, before: Optional[str], config: str, folder: str
) -> list[Service]:
    """The services, with their files in a folder. One of an earlier program is among them where that is
    given."""
    log, journal, other, old = (
        os.path.join(folder, name) for name in ("log", "journal", "other", "before"))

    def make_log(count: int) -> None:
        with open(log, "wb") as it:
            it.write(bytes(LOG_RECORD * count))
            it.flush()
            os.fsync(it.fileno())

    def maker(path: str, program: str = dukpt) -> Callable[[int], None]:
        def make_journal(count: int) -> None:
            Path(path).unlink(missing_ok=True)
            # The last part of a journal's room takes no payment.
            subprocess.run([program, "new-journal", path, str(records_for(count))], check=True)

        return make_journal

    serve = (dukpt, "serve", config)
    return [
        Service("log in memory", serve),
        Service("log in a file", (*serve, "--log", log), log, make_log),
        Service(JOURNAL, (*serve, "--journal", journal), journal, maker(journal), True),
        Service("C over a journal", (peer, "serve", other), other, maker(other), True),
        *([Service("journal, before", (before, "serve", config, "--journal", old), old, maker(old, before),
                   True)]
          if before else []),
    ]


def serve_file(it: Service, requests: str, answers: str) -> Served:
    """Has a service answer the requests of a file into a file."""
    count = os.path.getsize(requests) // REQUEST
    it.make(count)
    with open(requests, "rb") as given, open(answers, "wb") as taken:
        began = time.monotonic()
        process = subprocess.Popen(it.words, stdin=given, stdout=taken)
        processor = end(it, process)
    return Served((time.monotonic() - began) / count, processor / count)


def serve_one_by_one(pair: tuple[Service, Service], requests: bytes) -> list[list[float]]:
    """Gives each request to both services, to and fro: the seconds that each took for each of them."""
    processes = []
    for it in pair:
        it.make(len(requests) // REQUEST)
        processes.append(subprocess.Popen(it.words, stdin=subprocess.PIPE, stdout=subprocess.PIPE,
                                          bufsize=0))
        # A refusal shows that it has begun.
        ask(processes[-1], EMPTY_FRAME, REFUSAL)
    seconds = [[], []]
    for place, request in to_and_fro(requests):
        seconds[place].append(ask(processes[place], request, REPLY))
    for it, process in zip(pair, processes):
        process.stdin.close()
        end(it, process)
        process.stdout.close()
    return seconds


def to_and_fro(requests: bytes) -> Iterator[tuple[int, bytes]]:
    """To which of a pair each request goes, in turn: 0 1 1 0 0 1 1 0 .."""
    for at in range(0, len(requests), REQUEST):
        for place in (1, 0) if at // REQUEST % 2 else (0, 1):
            yield place, requests[at : at + REQUEST]


def ask(process: subprocess.Popen, frame: bytes, size: int) -> float:
    """Gives a frame, waits for its answer, and gives how long that took."""
    began = time.monotonic()
    process.stdin.write(frame)
    answer = process.stdout.read(size + 1)
    took = time.monotonic() - began
    if len(answer) != size:
        sys.exit("one by one: no whole answer")
    return took


def end(it: Service, process: subprocess.Popen) -> float:
    """Waits for the end of a process, and gives its processor time."""
    _, status, usage = os.wait4(process.pid, 0)
    process.returncode = os.waitstatus_to_exitcode(status)
    if process.returncode != 0:
        sys.exit(f"{it.name}: status {process.returncode}")
    return usage.ru_utime + usage.ru_stime


def show_services(
    folder: str, found: Sequence[Service], requests: str, rounds: int, one_by_one: int
) -> None:
    answers = os.path.join(folder, "answers")
    whole, pairs = [[] for _ in found], pairs_of(found)
    some = Path(requests).read_bytes()[: one_by_one * REQUEST]
    for at in range(rounds):
        same_answers, same_journals = set(), set()
        for place, it in list(enumerate(found))[:: -1 if at % 2 else 1]:
            whole[place].append(serve_file(it, requests, answers))
            same_answers.add(Path(answers).read_bytes())
            if it.is_journal:
                same_journals.add(entries_of(it.store))
        if len(same_answers) != 1 or len(same_journals) != 1:
            sys.exit("services: the answers or the journals differ")
        for pair in pairs:
            pair.compare(some)
    show(found, whole, pairs)


def entries_of(journal: str) -> bytes:
    """What a journal says, without what differs between files: their identities and check sums."""
    image = Path(journal).read_bytes()
    plain = plain_of(image)
    return image if plain is None else plain


def pairs_of(found: Sequence[Service]) -> list[Pair]:
    """The journal beside each other service over a file: one in memory syncs nothing."""
    journal = journal_of(found)
    return [Pair(it, found[journal]) for it in found if it.store and it is not found[journal]]


def journal_of(found: Sequence[Service]) -> int:
    """The place of the journal."""
    return [it.name for it in found].index(JOURNAL)


def show(found: Sequence[Service], whole: Sequence[list[Served]], pairs: Sequence[Pair]) -> None:
    """A line for each service. The journal is compared with each by the median of the ratios of the
    rounds."""
    journal, cells = whole[journal_of(found)], {pair.it.name: pair.cells() for pair in pairs}
    print("| service over | requests/s | journal's, of that | processor time"
          " | one by one | journal's, beside | ratio |")
    print("|---|---|---|---|---|---|---|")
    for it, served in zip(found, whole):
        ratio = median(one.clock / other.clock for one, other in zip(served, journal))
        print(f"| {it.name} | {1 / median(one.clock for one in served):,.0f} | {ratio:.2f}"
              f" | {1e6 * median(one.processor for one in served):.1f} µs"
              f" | {cells.get(it.name, '- | - | -')} |")
    print()
