"""A service with too little memory: it reports so, and what it wrote before stands."""
from __future__ import annotations

from typing import Optional, Sequence

from ..support.formats.journal_file import records_for
from ..support.models.model_journal import added_by, answers_of, judged, payments_of_all
from ..support.program import Ended, Limits
from ..support.service.client import Exchange, answered, payments, split
from ..support.service.journal_case import JournalCase, alone
from ..support.service.service import How
from ..support.service.service_case import numbers_of, stream_of
from ..support.system.little_memory import AMPLE, PAGE, least_to_start

# How near the two sizes are between which a search ends.
NEAR = 4 * PAGE
OUT_OF_MEMORY = "out of memory"
# The numbers for which a log has room.
ROOM = 10_000


class LittleMemory(JournalCase):
    """With any size of memory with which the program starts at all, a service answers everything,
    or its first requests, and then reports that it is out of memory. What was answered is kept, and
    nothing else."""

    weight = 6
    # How many sizes are drawn below and about the least one that is enough.
    sizes: int

    def try_sizes(self) -> int:
        """Looks for the least size that is enough, and tries sizes below and about it. It answers
        the most requests that were answered before memory was refused."""
        refused, ample = least_to_start(self.program), AMPLE
        least, counts = refused, []
        while ample - refused > NEAR:
            memory = (refused + ample) // 2
            count = self.try_size(memory)
            if count is None:
                ample = memory
            else:
                refused = memory
                counts.append(count)
        for at in range(self.sizes * self.times):
            low = least if at % 2 else ample - 64 * PAGE
            count = self.try_size(self.chance.randrange(max(least, low), ample + NEAR))
            counts += [] if count is None else [count]
        self.assertTrue(counts, "out of memory was never reported")
        self.tells(f"out of memory {len(counts)} times, behind {min(counts)} to {max(counts)} "
                   f"answers, with {least >> 10} to {ample >> 10} KiB")
        return max(counts)

    def try_size(self, memory: int) -> Optional[int]:
        """How many requests were answered before memory was refused; `None` where it was not."""
        ended = self.run_with(How(limits=Limits(memory=memory)))
        is_enough, count = ended.status == 0, len(split(ended.output)[0])
        self.judge(ended, None if is_enough else count, f"with {memory} bytes")
        return None if is_enough else count

    def run_with(self, how: How) -> Ended:
        raise NotImplementedError

    def judge(self, ended: Ended, count: Optional[int], what: str) -> None:
        """That it answered so many, or all, and that these are kept."""
        raise NotImplementedError


class OverLog(LittleMemory):
    sizes = 20

    def try_log(self, words: Sequence[str], requests: Sequence[Exchange], used: Sequence[bytes]) -> int:
        self.words, self.requests, self.used = words, requests, used
        self.has_log = "--log" in words
        self.answers, _ = answered(requests, used, ROOM)
        return self.try_sizes()

    def run_with(self, how: How) -> Ended:
        if self.has_log:
            self.make_log(ROOM, self.used)
        return self.run_service(self.words, [stream_of(self.requests)], how)

    def judge(self, ended: Ended, count: Optional[int], what: str) -> None:
        fault = "" if count is None else OUT_OF_MEMORY
        self.assert_output(ended, b"".join(self.answers[:count]), fault, what)
        if self.has_log:
            self.assert_image(answered(self.requests[:count], self.used, ROOM)[1], what)

    def test_in_memory(self) -> None:
        """Here what the used numbers take is much more than what is left over before them: of every
        second one, since those in order take none."""
        most = self.try_log(["serve", "wide.toml"], payments(16000)[::2], [])
        self.assertGreater(most, 0, "no answer was written before memory was refused")

    def test_on_a_file(self) -> None:
        """Here many numbers are used before, every second one, and some of them come again."""
        requests = payments(12400)[::2]
        used = numbers_of(requests[:6100])
        self.try_log(["serve", "wide.toml", "--log", "log"], requests[6090:], used)


class OverJournal(LittleMemory):
    sizes = 12

    def try_journal(self, requests: Sequence[Exchange], kept: Sequence[Exchange]) -> int:
        self.requests, self.before = requests, payments_of_all(kept)
        self.room = records_for(len(kept) + len(requests))
        self.found = judged(requests, self.before, self.room)
        return self.try_sizes()

    def run_with(self, how: How) -> Ended:
        self.make_journal(self.room, alone(self.before))
        words = ("serve", "wide.toml", "--journal", "journal")
        return self.serve_file(stream_of(self.requests), words, how)

    def judge(self, ended: Ended, count: Optional[int], what: str) -> None:
        done = self.found[:count]
        self.assert_output(ended, answers_of(done), "" if count is None else OUT_OF_MEMORY, what)
        self.assert_payments([*self.before, *added_by(done)], what)

    def test_new_numbers(self) -> None:
        """Every second one, since those in order take little."""
        most = self.try_journal(payments(16_000)[::2], [])
        self.assertGreater(most, 0, "no answer was written before memory was refused")

    def test_many_that_are_kept(self) -> None:
        """Some of them come again, before the new ones."""
        requests = payments(16_000)[::2]
        most = self.try_journal(requests[2500:], requests[:3000])
        self.assertGreater(most, 500, "memory was refused at no new number")
