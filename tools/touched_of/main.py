"""The command tools/touched."""
from __future__ import annotations

import argparse
import sys
from pathlib import Path

from .changes import NotKnown, changes
from .report import lines

HERE = Path(__file__).resolve().parent
MINUTES = HERE / "minutes.txt"


def main() -> int:
    parser = argparse.ArgumentParser(
        prog="tools/touched",
        description="Names the crates that a change touches, those above them, which the gate proves"
        " again with them, and the processor minutes of each. What costs no proof comes after them."
        " The minutes are those of tools/touched_of/minutes.txt; a crate that has none is told as"
        " unknown.")
    parser.add_argument(
        "range", nargs="?", help="A..B, or a revision, from which it looks to the files that are"
        " there. With none it looks from HEAD to these, with those that git does not know yet")
    parser.add_argument("--root", type=Path, default=HERE.parent.parent, metavar="FOLDER",
                        help="the repository, where it is another one")
    parser.add_argument("--minutes", type=Path, default=MINUTES, metavar="FILE",
                        help="the minutes, where they are others")
    words = parser.parse_args()
    try:
        minutes = read_minutes(words.minutes)
        for line in lines(changes(words.root, words.range), minutes):
            print(line)
        return 0
    except (NotKnown, ValueError, OSError) as error:
        print(f"tools/touched: {error}", file=sys.stderr)
        return 1


def read_minutes(path: Path) -> dict[str, float]:
    """The minutes of each crate: a line has its name and a number."""
    found: dict[str, float] = {}
    for line in path.read_text(encoding="utf-8").splitlines():
        words = line.partition("#")[0].split()
        if not words:
            continue
        if len(words) != 2 or words[0] in found:
            raise ValueError(f"{path}: this line is no name with its minutes: {line}")
        found[words[0]] = float(words[1])
    return found
