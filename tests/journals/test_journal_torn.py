"""Torn journals: a stop at any call of a service on its journal, which leaves any bytes of what was
written since the last sync. Each opens with the old payments, or with these and the whole group.

The calls are those that strace sees of a run; what a stop leaves is made of them.
"""
from __future__ import annotations

import os
import random
import re
import shutil
from dataclasses import dataclass
from pathlib import Path
from typing import Sequence

from ..support.formats.checked_journal import journal_of, room_in
from ..support.formats.journal_file import appended, payments_in, records_for
from ..support.formats.journal_records import Payment
from ..support.models.model_journal import answers_of, groups_by_reads, judged, payments_of_all
from ..support.program import Program
from ..support.quick import QuickRuns
from ..support.service.client import PAN, PIN, Exchange, Purchase, payments, payments_of
from ..support.service.journal_case import ON_JOURNAL, JournalCase, stream_of
from ..support.service.service_case import answers_to
from ..support.system.cut_disk import CutDisk

# A line of strace of a write or a sync: the call, the file, and of a write its bytes and place.
CALL = re.compile(
    r'^\d+ +(pwrite64|fdatasync|fsync)\((\d+)(?:, "((?:\\x[0-9a-f]{2})*)", \d+, (\d+))?\) += \d+$',
    re.MULTILINE)


@dataclass(frozen=True)
class Call:
    """A write of these bytes at a place, or a sync, which has none."""

    at: int = 0
    data: bytes = b""


def calls_in(trace: str) -> list[Call]:
    return [Call() if data == "" and not at else Call(int(at), bytes.fromhex(data.replace("\\x", "")))
            for name, _, data, at in CALL.findall(trace)]


class Torn(JournalCase):
    """Each of these tests has groups of its own."""

    weight = 6
    # How many torn journals each opens.
    cases = 700

    def traced(self, requests: Sequence[Exchange]) -> list[Call]:
        """The writes and syncs of a run on the journal."""
        strace = shutil.which("strace")
        self.assertIsNotNone(strace, "strace is not installed: apt-get install strace")
        self.write("input", stream_of(requests))
        words = ["-f", "-xx", "-s", "64", "-e", "trace=pwrite64,pwritev,write,fdatasync,fsync",
                 "-P", self.journal, "-o", self.home / "trace", self.program.path, *ON_JOURNAL]
        with open(self.home / "input", "rb") as given:
            ended = Program(Path(strace or "")).run(*words, given=given.fileno(), folder=self.home)
        self.assert_ended(ended, 0, answers_to(requests), b"", "under strace")
        return calls_in((self.home / "trace").read_text())

    def test_one_payment(self) -> None:
        self.tear(2, 1, 5)

    def test_a_few(self) -> None:
        self.tear(3, 6, 4)

    def test_a_few_over_other_bytes(self) -> None:
        """The records behind the journal have any bytes and closed gates before."""
        self.tear(3, 6, 4, drawn=True)

    def test_many(self) -> None:
        self.tear(40, 300, 0)

    def test_two_groups(self) -> None:
        """More frames than a group has: the first group is whole before the second is begun."""
        self.tear(1, 1200, 3)

    def tear(self, old: int, more: int, room: int, drawn: bool = False) -> None:
        """Tears a journal of so many old payments, to which so many are added."""
        requests = payments(old + more)
        kept = payments_of_all(requests[:old])
        rest = room + records_for(old + more) - old
        chance = self.chance if drawn else None
        image = journal_of([kept], rest, chance)
        self.journal.write_bytes(image)
        calls = self.traced(requests[old:])
        self.check_calls(calls, image)
        found = judged(requests[old:], kept, room_in(image))
        groups = groups_by_reads(requests[old:], found, [len(stream_of(requests[old:]))])
        stages = [payments_in(appended(image, groups[:at])) for at in range(len(groups) + 1)]
        counts: dict[int, int] = {}
        others = alternates(requests)
        with QuickRuns(self.program) as runs:
            for _ in range(self.cases * self.times // (1 if more < 100 else 5)):
                torn, done = torn_at_random(image, calls, self.chance)
                opened = self.open(runs, torn, done, stages, others)
                counts[opened] = counts.get(opened, 0) + 1
        told = ", ".join(f"{counts[it]} with {it} groups" for it in sorted(counts))
        self.tells(f"{old} and {more} payments: {told}")
        self.assertEqual(set(counts), set(range(len(groups) + 1)), "a group is found, and is not")

    def check_calls(self, calls: Sequence[Call], image: bytes) -> None:
        """They make of the journal what the run left, so none is missing here."""
        disk = CutDisk(image)
        for it in calls:
            play(disk, it)
        self.assert_bytes(bytes(disk.seen), "the calls of the run")
        self.assertEqual(disk.writes, [], "the last call is a sync")

    def open(
        self, runs: QuickRuns, torn: bytes, done: int, stages: Sequence[list[Payment]],
        others: Sequence[Exchange],
    ) -> int:
        """How many whole groups a torn journal is opened with. It has to have those whose last sync
        was done, and may have the one that was being kept. Another request of each number tells
        which are kept: it is refused with reason 5, or accepted."""
        self.journal.write_bytes(torn)
        ended = runs.run(["serve", os.fspath(self.home / "bank.toml"), "--journal",
                          os.fspath(self.journal)], stream_of(others))
        room = room_in(torn)
        for count in range(done, min(done + 2, len(stages))):
            found = judged(others, stages[count], room)
            if ended.output == answers_of(found):
                self.assert_output(ended, ended.output, "", "a torn journal")
                self.judge_end(torn, stages[count], others)
                return count
        self.fail(f"a torn journal of {done} groups: {ended}")

    def judge_end(self, torn: bytes, kept: Sequence[Payment], others: Sequence[Exchange]) -> None:
        """What the run left of the torn journal, to the byte."""
        found = judged(others, kept, room_in(torn))
        groups = groups_by_reads(others, found, reads_of(others))
        self.assert_bytes(appended(torn, groups), "behind a torn journal")


def reads_of(requests: Sequence[Exchange]) -> list[int]:
    size = len(stream_of(requests))
    return [*range(1 << 16, size, 1 << 16), size]


def alternates(requests: Sequence[Exchange]) -> list[Exchange]:
    """Another request of each number."""
    counters = [int.from_bytes(it.number or b"", "big") % (1 << 21) for it in requests]
    return payments_of(counters, [Purchase(PAN, PIN, 7000, "00")] * len(counters))


def play(disk: CutDisk, call: Call) -> None:
    if call.data:
        disk.write(call.at, call.data)
    else:
        disk.sync()


def torn_at_random(
    image: bytes, calls: Sequence[Call], chance: random.Random
) -> tuple[bytes, int]:
    """What a stop at any call leaves, and how many groups were wholly kept before it: behind the
    sync of a start each group has two syncs."""
    disk, syncs = CutDisk(image), 0
    places = [at for at, it in enumerate(calls) if not it.data]
    stop = chance.choice((chance.randrange(len(calls) + 1), chance.choice(places),
                          chance.choice(places) - 1))
    for it in calls[:stop]:
        play(disk, it)
        syncs += not it.data
    disk.cut(chance)
    return bytes(disk.seen), max(0, syncs - 1) // 2
