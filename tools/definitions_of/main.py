"""The command tools/definitions."""
from __future__ import annotations

import argparse
from pathlib import Path

from .faults import GENERATED, PROVED, faults
from .reach import Reach
from .report import Report

ROOT = Path(__file__).resolve().parent.parent.parent


def main() -> int:
    parser = argparse.ArgumentParser(
        prog="tools/definitions",
        description="Follows each public contract to the definitions that it cites, and writes"
        f" {'/'.join(GENERATED)}.")
    parser.add_argument("--check", action="store_true", help="writes nothing, and reports faults")
    parser.add_argument("--calls", action="store_true", help="prints each public call's clauses")
    words = parser.parse_args()
    if words.check:
        found = faults(ROOT)
        print("\n".join(found) or "no faults")
        return 1 if found else 0
    reach = Reach(ROOT)
    if words.calls:
        for call in reach.calls:
            print(f"{call.crate} {call.name}: {', '.join(call.names())}")
        return 0
    text = Report(reach, ROOT.joinpath(*PROVED)).text()
    ROOT.joinpath(*GENERATED).write_text(text, encoding="utf-8")
    print(f"{'/'.join(GENERATED)}: {len(text.encode()):,} bytes")
    return 0
