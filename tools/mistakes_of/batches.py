"""Which mistakes are built beside each other in one program."""
from __future__ import annotations

from itertools import groupby
from typing import Iterator, Optional, Sequence

from .bodies import Mistake, crate_of
from .copies import Sources

# The most copies of crates in a program. A build takes a time of its own, and then some for each.
MOST_CRATES = 96


def batches(
    sources: Sources, mistakes: Sequence[Mistake]
) -> Iterator[Sequence[Optional[Mistake]]]:
    """The mistakes in groups of a crate each. A copy without a mistake is in the first."""
    first: list[Optional[Mistake]] = [None]
    for crate, found in groupby(mistakes, crate_of):
        group = list(found)
        count = -(-len(group) * len(sources.upward(crate)) // MOST_CRATES)
        for at in range(count):
            yield first + group[at * len(group) // count : (at + 1) * len(group) // count]
            first = []
    if first:
        yield first
