"""The command tools/mistakes."""
from __future__ import annotations

import argparse
import os
import sys
import tempfile
import threading
from collections import Counter
from concurrent.futures import ThreadPoolExecutor
from dataclasses import dataclass
from pathlib import Path
from typing import Mapping, Optional, Sequence

from library_of.build import Refused
from library_of.calls import Unreadable as UnreadableCalls
from library_of.kit import ROOT, NotBuilt
from library_of.table import read_table

from .batches import batches
from .bodies import Mistake, Unreadable, crates_of_library, read_mistakes
from .building import Built, Unbuilt, build_all
from .copies import Sources
from .judging import Vectors, Verdict
from .shim import build_shim
from .unseen import LIST, Misplaced, read_unseen

KEPT = ROOT / "out" / "mistakes"
ABOUT = """Plants each mistake of the library's wrong bodies in a copy of it without a proof, runs
the test vectors over the copy, and tells which vector finds the mistake first. Its status is 0
where each mistake is found, or is in the list of those that cannot be seen from outside, and none
of that list is found. What is built is kept in out/mistakes/."""
PRINTING = threading.Lock()


@dataclass(frozen=True)
class Outcome:
    """What became of a mistake, and the number of the vector that found it."""

    label: str
    words: str
    is_right: bool
    vector: Optional[int] = None


def read_words() -> argparse.Namespace:
    parser = argparse.ArgumentParser(prog="tools/mistakes", description=ABOUT)
    parser.add_argument("-k", dest="names", metavar="NAME", action="append", default=[],
                        help="those with NAME in their label; may be given several times")
    parser.add_argument("--vectors", type=Path, metavar="FOLDER", default=ROOT / "vectors",
                        help="the folder of the vectors: vectors/ where it is not given")
    parser.add_argument("--unseen", type=Path, metavar="FILE", default=LIST,
                        help="the list of those that cannot be seen from outside")
    parser.add_argument("--kept", type=Path, metavar="FOLDER", default=KEPT,
                        help="where programs are kept: out/mistakes/ where it is not given")
    parser.add_argument("--list", action="store_true",
                        help="builds nothing: prints each mistake, and whether the list has it")
    parser.add_argument("--at-once", metavar="N", type=int, help="programs to build side by side",
                        default=max(1, len(os.sched_getaffinity(0)) // 2))
    return parser.parse_args()


def main() -> int:
    words = read_words()
    try:
        return judge_all(words)
    except (Unreadable, UnreadableCalls, Misplaced, NotBuilt, Refused, OSError) as why:
        print(f"mistakes: {why}", file=sys.stderr)
        return 2


def judge_all(words: argparse.Namespace) -> int:
    """Judges the mistakes that are asked for, and sums them up."""
    every = read_mistakes(crates_of_library())
    unseen = read_unseen(words.unseen)
    strangers = sorted(set(unseen) - {it.label for it in every})
    for label in strangers:
        print(f"{label}: LISTED, and there is no such mistake")
    chosen = [it for it in every
              if not words.names or any(name in it.label for name in words.names)]
    if words.list:
        print("\n".join(f"{it.label}: {unseen.get(it.label, 'to be found')}" for it in chosen))
        return 1 if strangers else 0
    sources = Sources.read()
    with tempfile.TemporaryDirectory(prefix="mistakes-") as room:
        calls = read_table(ROOT).exports
        vectors = Vectors.read(words.vectors, build_shim(calls, Path(room)))
        with ThreadPoolExecutor(max(1, words.at_once)) as pool:
            jobs = [pool.submit(judge_batch, sources, it, words.kept, vectors, unseen)
                    for it in batches(sources, chosen)]
            outcomes = [outcome for job in jobs for outcome in job.result()]
    return sum_up(outcomes, len(strangers))


def judge_batch(
    sources: Sources, batch: Sequence[Optional[Mistake]], kept: Path, vectors: Vectors,
    unseen: Mapping[str, str],
) -> list[Outcome]:
    """Builds mistakes beside each other, and says what becomes of each."""
    found = []
    for mistake, built in build_all(sources, batch, kept):
        outcome = judged(mistake, built, vectors, unseen)
        with PRINTING:
            print(f"{outcome.label}: {outcome.words}", flush=True)
        found.append(outcome)
    return found


def judged(
    mistake: Optional[Mistake], built: Built, vectors: Vectors, unseen: Mapping[str, str]
) -> Outcome:
    """What becomes of a mistake. A copy without one has to be right."""
    label = mistake.label if mistake else "no mistake"
    is_listed = label in unseen
    if isinstance(built, Unbuilt):
        words = f"does not build: {built.why}"
        return Outcome(label, words if is_listed else f"NOT FOUND: {words}", is_listed)
    found = vectors.first_deviation(built, label)
    if mistake is None:
        return Outcome(label, f"DEVIATES: {spoken(found)}" if found else "right", found is None)
    if found is None:
        words = "not seen from outside" if is_listed else "NOT FOUND by any vector"
        return Outcome(label, words, is_listed)
    words = f"FOUND, and listed as unseen: {spoken(found)}" if is_listed else spoken(found)
    return Outcome(label, words, not is_listed, found.case.number)


def spoken(verdict: Verdict) -> str:
    """A vector that found a mistake, and how."""
    case = verdict.case
    about = f"{case.operation}, {case.comment}" if case.comment else case.operation
    return f"vector {case.number} ({about}): {verdict.kind.value}"


def sum_up(outcomes: Sequence[Outcome], strangers: int) -> int:
    """Prints the counts, and gives the status."""
    mistakes = [it for it in outcomes if it.label != "no mistake"]
    vectors = Counter(it.vector for it in mistakes if it.vector is not None)
    wrong = sum(not it.is_right for it in outcomes) + strangers
    print(f"{len(mistakes)} mistakes: {sum(vectors.values())} found by {len(vectors)} vectors, "
          f"{sum(it.vector is None and it.is_right for it in mistakes)} listed as unseen, "
          f"{wrong} not as they should be")
    return 0 if mistakes and not wrong else 1
