"""The numbers and keys of a terminal's life, as `walk` and `derive` print them.

The keys are those of `client`, which derives each of them from the initial key.
"""
from __future__ import annotations

from typing import Sequence

from ..support.case import ProgramCase
from ..support.service.client import first_counters, key_lines, keys_of, number_of
from .test_files import BASE

IKSN = "FFFF9876543210E00000"


def lines_of(counters: Sequence[int]) -> bytes:
    keys = keys_of(counters)
    return "".join(f"{number_of(it).hex()} {keys[it].hex()}\n" for it in counters).upper().encode()


class Walk(ProgramCase):
    """A terminal takes the keys that a host derives."""

    weight = 3

    def check(self, words: Sequence[str], output: bytes) -> None:
        ended = self.program.run("walk", BASE, IKSN, *words)
        self.assert_ended(ended, 0, output, b"", " ".join(words))

    def test_first_numbers(self) -> None:
        """Some counters of the first five thousand are passed."""
        counters = first_counters(5000)
        self.assertGreater(counters[-1], 5000)
        self.check(["5000"], lines_of(counters))
        self.check(["5000", "--ksn"], b"".join(b"%b\n" % number_of(it).hex().upper().encode()
                                               for it in counters))

    def test_behind_some(self) -> None:
        counters = first_counters(6000)
        for _ in range(10 * self.times):
            skipped, count = self.chance.randrange(5000), self.chance.randrange(1000)
            self.check([str(count), "--skip", str(skipped)],
                       lines_of(counters[skipped : skipped + count]))

    def test_at_random(self) -> None:
        """`derive` at counters of any kind."""
        counters = [self.counter() for _ in range(60 * self.times)]
        lines = key_lines(counters)
        for place, counter in enumerate(counters):
            number = number_of(counter).hex().upper()
            wanted = "".join(f"{line}\n" for line in lines[3 * place : 3 * place + 3])
            ended = self.program.run("derive", BASE, number)
            self.assert_ended(ended, 0, wanted.encode(), b"", f"derive {number}")

    def counter(self) -> int:
        ones = self.chance.randrange(1, 11)
        return sum(1 << place for place in self.chance.sample(range(21), ones))
