"""The search for circuits with fewer gates: search.cc, compiled when it is asked for."""
from __future__ import annotations

import subprocess
import tempfile
from pathlib import Path
from typing import Optional, Sequence

from .boxes import tables_of
from .circuit import INPUT_TABLES, OUTPUTS, Circuit, Gate

SOURCE = Path(__file__).resolve().parent / "search.cc"


class NotSearched(Exception):
    """The search could not be compiled or run."""


def run(words: Sequence[object], given: str, folder: Path) -> str:
    try:
        done = subprocess.run([str(it) for it in words], input=given, capture_output=True, text=True,
                              cwd=folder, check=False)
    except OSError as why:
        raise NotSearched(f"{words[0]}: {why.strerror}") from why
    if done.returncode:
        raise NotSearched(f"{words[0]}: status {done.returncode}: {done.stderr.strip()}")
    return done.stdout


def asked(circuit: Optional[Circuit]) -> str:
    """The circuit to begin with."""
    if circuit is None:
        return "0\n"
    gates = "".join(f"{it.kind} {it.left} {it.right}\n" for it in circuit.gates)
    return f"{len(circuit.gates)}\n{gates}{' '.join(map(str, circuit.outputs))}\n"


def answered(text: str) -> Circuit:
    numbers = [int(it) for it in text.split()]
    count, rest = numbers[0], numbers[1:]
    gates = [Gate(*rest[at : at + 3]) for at in range(0, 3 * count, 3)]
    return Circuit(gates, rest[3 * count : 3 * count + OUTPUTS])


class Search:
    """The compiled search, in a folder that goes with it."""

    def __init__(self) -> None:
        self.place = tempfile.TemporaryDirectory(prefix="circuits-")
        self.folder = Path(self.place.name)
        run(("c++", "-O2", "-o", "search", SOURCE), "", self.folder)

    def __enter__(self) -> "Search":
        return self

    def __exit__(self, *_: object) -> None:
        self.place.cleanup()

    def better(self, box: Sequence[int], circuit: Optional[Circuit], seconds: float,
               seed: int) -> Circuit:
        """A circuit of a box with no more gates than the one that it begins with."""
        tables = " ".join(f"{it:x}" for it in (*INPUT_TABLES, *tables_of(box)))
        given = f"{seconds} {seed}\n{tables}\n{asked(circuit)}"
        return answered(run((self.folder / "search",), given, self.folder))
