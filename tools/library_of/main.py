"""The command tools/library."""
from __future__ import annotations

import argparse
import sys
from pathlib import Path

from .build import Refused, build
from .calls import Unreadable
from .check import differences
from .kit import NotBuilt
from .making import make
from .table import read_table

ROOT = Path(__file__).resolve().parent.parent.parent


def main() -> int:
    parser = argparse.ArgumentParser(
        prog="tools/library",
        description="Builds libdukpt.a, libdukpt.so.0, libdukpt.so, dukpt.h and dukpt.pc of"
        " crates/dukpt_c, which the Rattle kit proves first.")
    parser.add_argument("--archive", type=Path, metavar="FILE",
                        help="takes this archive, and proves nothing")
    parser.add_argument("--out", type=Path, metavar="FOLDER", default=ROOT / "out" / "library",
                        help="where they go: out/library/ where it is not given")
    parser.add_argument("--make", action="store_true",
                        help="builds nothing: writes all files that are made of library/calls.toml,"
                        " and prints the names of those that changed")
    parser.add_argument("--check", action="store_true",
                        help="builds nothing: compares made files, proved calls and built library"
                        " with library/calls.toml, and prints each difference in a line")
    words = parser.parse_args()
    if words.check:
        found = differences(ROOT, words.out)
        print("\n".join(found) or "no differences")
        return 1 if found else 0
    try:
        if words.make:
            print("\n".join(make(ROOT, read_table(ROOT))) or "no changes")
        else:
            build(ROOT, words.archive, words.out)
    except (Refused, NotBuilt, Unreadable, OSError) as why:
        print(f"library: {why}", file=sys.stderr)
        return 1
    return 0
