"""Many requests: how fast a service answers them, and the most memory that it has."""
from __future__ import annotations

import time
from typing import Sequence

from ..support.service.client import Exchange, payments, refusal
from ..support.service.service_case import AMPLE, ServiceCase, answers_to, numbers_of, stream_of

EMPTY_FRAME = b"\x00\x00"


class Speed(ServiceCase):
    """The speed and the memory are measured and not judged; the answers and the log are judged."""

    weight = 15

    def measure(self, what: str, words: Sequence[str], requests: Sequence[Exchange]) -> None:
        stream, answers = stream_of(requests), answers_to(requests)
        service = self.start(*words)
        # An answer to an empty frame shows that it has begun.
        service.ask([EMPTY_FRAME])
        began = time.monotonic()
        service.ask_all(stream, len(answers))
        took = time.monotonic() - began
        peak = service.peak()
        ended = service.end()
        self.assert_output(ended, refusal(bytes(10), 1) + answers, "", what)
        self.tells(f"{len(requests)} with {what}: {len(requests) / took:.0f} a second, "
                   f"{peak} KiB at most")

    def test_in_memory(self) -> None:
        """As many different numbers as a log in memory has room for at most, and one more, which is
        refused."""
        self.measure("a log in memory", ["serve", "wide.toml"], payments(AMPLE + 1))

    def test_on_a_file(self) -> None:
        requests = payments(2000)
        self.make_log(len(requests))
        self.measure("a log on a file", ["serve", "wide.toml", "--log", "log"], requests)
        self.assert_image(numbers_of(requests), "many requests")
