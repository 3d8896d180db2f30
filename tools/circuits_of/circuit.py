"""Circuits of gates over six inputs, and the file that lists them.

Each gate stands in a line of its own, by its name: `x7 = a and_not x3`, `x8 = not x7`. The circuit
of a box begins with a line `box 1`, and ends with one that names its four outputs.
"""
from __future__ import annotations

import re
from dataclasses import dataclass
from typing import Iterator, Optional, Sequence

INPUTS = "abcdef"
KINDS = ("and", "or", "xor", "and_not", "not")
NOT = len(KINDS) - 1
OUTPUTS = 4
# The input's bit in the place of a box: the first and the last input tell the row.
SHIFTS = (5, 3, 2, 1, 0, 4)
ALL = (1 << 64) - 1
# What each input is for each place in a box.
INPUT_TABLES = tuple(sum(1 << place for place in range(64) if place >> shift & 1)
                     for shift in SHIFTS)
GATE = re.compile(r"x(\d+) = (?:(\w+) (and|or|xor|and_not)|not) (\w+)")


class Unreadable(Exception):
    """The list of the circuits is none."""


@dataclass(frozen=True)
class Gate:
    """A gate over two places, or over one twice. The inputs have the places 0 to 5, and the gates
    those from 6 on."""

    kind: int
    left: int
    right: int


@dataclass(frozen=True)
class Circuit:
    gates: Sequence[Gate]
    outputs: Sequence[int]

    def tables(self) -> list[int]:
        """What each output is for each place in a box."""
        tables = list(INPUT_TABLES)
        for gate in self.gates:
            left, right = tables[gate.left], tables[gate.right]
            tables.append((left & right, left | right, left ^ right, left & ~right,
                           ALL & ~left)[gate.kind])
        return [tables[it] for it in self.outputs]


def name_of(place: int) -> str:
    return INPUTS[place] if place < len(INPUTS) else f"x{place - len(INPUTS) + 1}"


def place_of(name: str, below: int) -> int:
    """The place with a name, among so many."""
    if re.fullmatch(f"[{INPUTS}]", name):
        return INPUTS.index(name)
    number = name[1:]
    place = len(INPUTS) + int(number) - 1 if name[:1] == "x" and number.isdigit() else -1
    if not len(INPUTS) <= place < below:
        raise Unreadable(f"{name} is no input, and no gate before it")
    return place


def written(circuit: Circuit) -> Iterator[str]:
    """A circuit in lines."""
    for at, gate in enumerate(circuit.gates, len(INPUTS)):
        left = "" if gate.kind == NOT else f"{name_of(gate.left)} "
        yield f"{name_of(at)} = {left}{KINDS[gate.kind]} {name_of(gate.right)}"
    yield f"outputs {' '.join(map(name_of, circuit.outputs))}"


def read_gate(line: str, place: int) -> Gate:
    found = GATE.fullmatch(line)
    if found is None or int(found[1]) != place - len(INPUTS) + 1:
        raise Unreadable(f"{line} is no gate {name_of(place)}")
    right = place_of(found[4], place)
    if found[3] is None:
        return Gate(NOT, right, right)
    return Gate(KINDS.index(found[3]), place_of(found[2], place), right)


def read_circuits(text: str) -> dict[int, Circuit]:
    """The circuits of a list, by the numbers of their boxes."""
    circuits: dict[int, Circuit] = {}
    number: Optional[int] = None
    gates: list[Gate] = []
    for line in text.splitlines():
        first, *rest = line.split() or ["#"]
        if first == "box" and number is None and rest and rest[0].isdigit():
            number, gates = int(rest[0]), []
        elif first == "outputs" and number is not None and len(rest) == OUTPUTS:
            count = len(INPUTS) + len(gates)
            circuits[number] = Circuit(gates, [place_of(it, count) for it in rest])
            number = None
        elif first != "#":
            if number is None:
                raise Unreadable(f"{line} stands in no circuit")
            gates.append(read_gate(line, len(INPUTS) + len(gates)))
    if number is not None:
        raise Unreadable(f"the circuit of box {number} has no outputs")
    return circuits
