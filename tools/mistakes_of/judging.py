"""Which vector finds a mistake: the vectors, in an order of their own, over a copy that has it."""
from __future__ import annotations

import sys
from dataclasses import dataclass
from itertools import zip_longest
from pathlib import Path
from typing import Iterator, Optional, Sequence

from library_of.kit import ROOT

from .building import Mutant
from .shim import COPY, PROGRAM

sys.path.insert(0, str(ROOT / "vectors"))
from dukpt_check.cases import Case, read_vectors  # noqa: E402
from dukpt_check.judging import Verdict  # noqa: E402
from dukpt_check.running import Run  # noqa: E402

from .reached import reaching  # noqa: E402

ADAPTER = ROOT / "vectors" / "adapters" / "library_python.py"
BINDING = ROOT / "library" / "python"
# How long an answer may take, in seconds: unproved code is some 800 times slower than proved code.
SECONDS = 20.0
# The longest walk that is tried, in steps, for the same reason.
LONGEST_WALK = 300
# How many cases are run before it is looked whether one of them found the mistake; then twice as
# many, and so on.
FIRST_CASES = 100


@dataclass(frozen=True)
class Vectors:
    """The cases in the order in which they are tried, and the library in whose place they run."""

    cases: Sequence[Case]
    shim: Path

    @classmethod
    def read(cls, folder: Path, shim: Path) -> Vectors:
        """The cases of a folder that are not too long."""
        return cls([it for it in spread(read_vectors(folder)) if steps(it) <= LONGEST_WALK], shim)

    def first_deviation(self, mutant: Mutant, label: str) -> Optional[Verdict]:
        """How the first case ends that a copy does not answer as it should, if there is one. The
        label is that of its mistake."""
        for part in parts(reaching(self.cases, label)):
            run = Run(self.words(mutant), SECONDS, 0)
            found = next((it for it in run.verdicts(part) if it.is_deviation), None)
            if found is not None:
                return found
        return None

    def words(self, mutant: Mutant) -> list[str]:
        """The adapter of a copy."""
        told = {"DUKPT_LIBRARY": self.shim, "PYTHONPATH": BINDING, PROGRAM: mutant.program,
                COPY: mutant.number}
        return ["env", *(f"{name}={value}" for name, value in told.items()), sys.executable,
                str(ADAPTER)]


def parts(cases: Sequence[Case]) -> Iterator[Sequence[Case]]:
    """The cases in parts, each twice as large as the one before."""
    at, count = 0, FIRST_CASES
    while at < len(cases):
        yield cases[at : at + count]
        at, count = at + count, 2 * count


def spread(cases: Sequence[Case]) -> list[Case]:
    """The first case of each group, then the second of each, and so on: so what the first cases try
    differs most."""
    groups: dict[str, list[Case]] = {}
    for case in cases:
        groups.setdefault(case.group.name, []).append(case)
    return [it for row in zip_longest(*groups.values()) for it in row if it is not None]


def steps(case: Case) -> int:
    """How many numbers of a terminal a case uses."""
    if case.operation != "walk":
        return 0
    return int(case.inputs["skip"] + case.inputs["count"])
