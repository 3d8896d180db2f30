"""What a change costs, as lines."""
from __future__ import annotations

import re
from collections import Counter
from dataclasses import dataclass
from typing import Iterator, Mapping

from .changes import CRATES, Changes

HANDLES = "HANDLES"
# The folders of a crate on which the gate's verdict on it rests, beside its line of crates.txt.
PROVED = ("src", "specs", "proofs", "c")
MUST_FAIL, WRONG_BODIES = "must-fail", "wrong-bodies"
OF_CRATE = re.compile(r"^crates/([^/]+)/([^/]+)/")
# What changed a crate, by its name.
Causes = dict[str, set[str]]


@dataclass(frozen=True)
class Touched:
    """The crates that are proved again by what changed them, those above, and what costs no proof."""

    causes: Causes
    above: set[str]
    must_fail: list[str]
    judged: list[str]
    others: Mapping[str, int]


def touched(changes: Changes) -> Touched:
    names = changes.after.lines
    causes: Causes = {it: {CRATES} for it in changes.after.changed_since(changes.before)}
    parts = [(found[1], found[2]) for it in changes.files if (found := OF_CRATE.match(it))]
    for name, part in parts:
        if part in PROVED and name in names:
            causes.setdefault(name, set()).add(part)
    if HANDLES in changes.files:
        for name in names:
            causes.setdefault(name, set()).add(HANDLES)
    above = changes.after.above(causes)
    tried = {name for name, part in parts if part == MUST_FAIL and name in names}
    bodies = {name for name, part in parts if part == WRONG_BODIES and name in names}
    others = Counter(place(it) for it in changes.files if is_no_proof(it, names))
    return Touched(causes, above, [it for it in names if it in tried - {*causes} - above],
                   [it for it in names if it in bodies | {*causes}], others)


def is_no_proof(path: str, names: Mapping[str, object]) -> bool:
    """Whether no proof rests on a file, and no wrong body."""
    if path in (CRATES, HANDLES):
        return False
    found = OF_CRATE.match(path)
    return found is None or found[1] not in names or found[2] not in (*PROVED, MUST_FAIL, WRONG_BODIES)


def place(path: str) -> str:
    """Where a file stands: its folder at the top, of a crate or of tests one below; or its own name."""
    folders = path.split("/")[:-1]
    depth = 2 if folders[:1] in (["crates"], ["tests"]) else 1
    return "/".join(folders[:depth]) + "/" if folders else path


def lines(changes: Changes, minutes: Mapping[str, float]) -> Iterator[str]:
    """What is told of a change: nothing but one line where there is none."""
    if not changes.files:
        yield "nothing changed"
        return
    found = touched(changes)
    yield from of_proofs(found, [it for it in changes.after.lines if it in {*found.causes, *found.above}],
                         minutes)
    for name in sorted({*changes.before.lines} - {*changes.after.lines}):
        yield f"{name} is no crate any more"
    for name in found.must_fail:
        yield f"the gate tries must-fail/ of {name} again, and proves nothing for it: rt must-fail {name}"
    if found.judged:
        yield f"to judge the wrong bodies: tools/wrong-bodies {' '.join(found.judged)}"
    for path, count in sorted(found.others.items()):
        yield f"no proof: {path}" + (f" ({count} files)" if count > 1 else "")


def of_proofs(found: Touched, again: list[str], minutes: Mapping[str, float]) -> Iterator[str]:
    """The crates that are proved again, lowest first, each with its minutes, and their sum."""
    if not again:
        yield "no crate is proved again"
        return
    yield f"{'proved again':22}{'minutes':>8}"
    for name in again:
        known = f"{minutes[name]:.1f}" if name in minutes else "unknown"
        why = ", ".join(sorted(found.causes[name])) if name in found.causes else "above"
        yield f"{name:22}{known:>8}  {why}"
    unknown = [it for it in again if it not in minutes]
    left_out = f", without {', '.join(unknown)}" if unknown else ""
    crates = "1 crate" if len(again) == 1 else f"{len(again)} crates"
    yield f"{crates}: {sum(minutes.get(it, 0) for it in again):.1f} processor minutes{left_out}"
