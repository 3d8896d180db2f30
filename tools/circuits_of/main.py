"""The command tools/circuits."""
from __future__ import annotations

import argparse
import sys
from pathlib import Path
from typing import Iterator

from .boxes import NUMBERS, read_boxes
from .circuit import Circuit, Unreadable
from .making import LIST, check_circuits, listed, made, read_list
from .search import NotSearched, Search

ROOT = Path(__file__).resolve().parent.parent.parent


def read_text(path: Path) -> str:
    return path.read_text(encoding="utf-8") if path.exists() else ""


def make(root: Path) -> list[str]:
    """Writes what is made of the list, and gives the names of the files that changed."""
    circuits = read_list(root)
    check_circuits(root, circuits)
    changed = [(root / name, text) for name, text in made(circuits).items()
               if read_text(root / name) != text]
    for path, text in changed:
        path.parent.mkdir(parents=True, exist_ok=True)
        path.write_text(text, encoding="utf-8")
    return [str(path.relative_to(root)) for path, _ in changed]


def differences(root: Path) -> Iterator[str]:
    """Where a file is not what is made of the list, a line each."""
    circuits = read_list(root)
    check_circuits(root, circuits)
    for name, text in {LIST: listed(circuits), **made(circuits)}.items():
        found, wanted = read_text(root / name).split("\n"), text.split("\n")
        if found != wanted:
            lines = [*zip(found, wanted), ("", None)]
            at = next(at for at, (one, other) in enumerate(lines, 1) if one != other)
            yield f"{name} is not what tools/circuits makes: line {at}"


def search(root: Path, seconds: float, seed: int) -> None:
    """Looks for smaller circuits, and lists each as soon as it is found."""
    boxes = read_boxes(root)
    circuits: dict[int, Circuit] = read_list(root) if (root / LIST).exists() else {}
    with Search() as searching:
        for number in NUMBERS:
            old = circuits.get(number)
            new = searching.better(boxes[number], old, seconds, seed)
            if old is None or len(new.gates) < len(old.gates):
                circuits[number] = new
                (root / LIST).write_text(listed(circuits), encoding="utf-8")
            print(f"S{number}: {len(circuits[number].gates)} gates")
    print(f"all: {sum(len(it.gates) for it in circuits.values())} gates")


def main() -> int:
    parser = argparse.ArgumentParser(
        prog="tools/circuits",
        description=f"The selection functions of DES as circuits, which {LIST} lists a gate a line.")
    what = parser.add_mutually_exclusive_group(required=True)
    what.add_argument("--make", action="store_true",
                      help="writes the functions and their proofs, and prints what changed")
    what.add_argument("--check", action="store_true",
                      help="says where a file is not what --make writes, or a circuit is not its box")
    what.add_argument("--search", action="store_true",
                      help="looks for circuits with fewer gates, and writes them into the list")
    parser.add_argument("--seconds", type=float, default=45, metavar="N",
                        help="how long to search for each box: 45 where it is not given")
    parser.add_argument("--seed", type=int, default=1, metavar="N", help="another search for each")
    words = parser.parse_args()
    try:
        if words.search:
            search(ROOT, words.seconds, words.seed)
            return 0
        if words.make:
            print("\n".join(make(ROOT)) or "no changes")
            return 0
        found = list(differences(ROOT))
    except (Unreadable, NotSearched, OSError) as why:
        print(f"circuits: {why}", file=sys.stderr)
        return 1
    print("\n".join(found) or "no differences")
    return 1 if found else 0
