"""What is made of the list of circuits: the functions and their proofs."""
from __future__ import annotations

from pathlib import Path
from typing import Mapping, Sequence

from .boxes import NUMBERS, read_boxes, tables_of
from .circuit import (INPUTS, KINDS, NOT, Circuit, Gate, Unreadable, name_of, read_circuits,
                      written)

LIST = "tools/circuits.txt"
CRATE = "crates/duk_lanes"
HEAD = """\
# The selection functions S1 to S8 of DES as circuits, a gate a line. `a` to `f` are the six bits that
# a box is given, in their order, and `outputs` names its four bits. tools/circuits --make makes the
# functions in crates/duk_lanes/src/boxes and their proofs of it, and --search writes it.
"""
# The boxes of which a wrong body is made.
WRONG = (1, 4, 6)
CONSTRUCTORS = ("And", "Or", "Xor", "AndNot", "Not")


def check_circuits(root: Path, circuits: Mapping[int, Circuit]) -> None:
    """Refuses circuits that are not those of the eight boxes."""
    boxes = read_boxes(root)
    for number in NUMBERS:
        if number not in circuits:
            raise Unreadable(f"{LIST} has no box {number}")
        if circuits[number].tables() != tables_of(boxes[number]):
            raise Unreadable(f"{LIST}: the circuit of box {number} is not S{number}")


def read_list(root: Path) -> dict[int, Circuit]:
    return read_circuits((root / LIST).read_text(encoding="utf-8"))


def listed(circuits: Mapping[int, Circuit]) -> str:
    """The list of circuits."""
    parts = (f"\nbox {number}\n" + "".join(f"{it}\n" for it in written(circuits[number]))
             for number in sorted(circuits))
    return HEAD + "".join(parts)


def called(gate: Gate, name: str) -> str:
    """A gate in the code."""
    if gate.kind == NOT:
        return f"    let {name} = {name_of(gate.left)}.not();\n"
    return f"    let {name} = {name_of(gate.left)}.{KINDS[gate.kind]}({name_of(gate.right)});\n"


def function(number: int, circuit: Circuit) -> str:
    gates = "".join(called(gate, name_of(place))
                    for place, gate in enumerate(circuit.gates, len(INPUTS)))
    arguments = ", ".join(f"{it}: L" for it in INPUTS)
    bits = " ∷ ".join(f"L.lane {it} i" for it in INPUTS)
    return f"""\
//! S{number} as a circuit. Made by tools/circuits of tools/circuits.txt.

ghost use Rattle.std.specs.Prelude.{{◌≡◌, ◌<◌, ℕ, [], ◌∷◌}};
ghost use Rattle.duk_des.specs.Des.{{substitute}};
ghost use Rattle.duk_des.specs.Tables.{{box{number}}};
ghost use Rattle.duk_lanes.specs.Lanes.{{lane_of}};

use crate::lanes::Lanes;

/// The selection function S{number} in each lane: {len(circuit.gates)} gates.
pub(crate) fn select{number}<L: Lanes>({arguments}) -> [L; 4]
    ensures {{ (i : ℕ) → i < L.count → lane_of L.lane i result
        ≡ substitute box{number} ({bits} ∷ []) }}
{{
{gates}    [{', '.join(map(name_of, circuit.outputs))}]
}}
"""


def back(place: int, count: int) -> int:
    """How many of so many values are newer than that of a place."""
    return count - 1 - place


def gate_term(gate: Gate, count: int) -> str:
    places = (gate.left,) if gate.kind == NOT else (gate.left, gate.right)
    return " ".join((CONSTRUCTORS[gate.kind], *(str(back(it, count)) for it in places)))


def chain(joint: str, items: Sequence[str], last: str, most: int) -> str:
    """Items that an operator joins, so many in a line."""
    rows = [f" {joint} ".join(items[at : at + most]) for at in range(0, len(items), most)]
    return f"\n    {joint} ".join((*rows, last))


def lemma(number: int, circuit: Circuit) -> str:
    """The circuit as a list, and that it gives what the box does, for each input."""
    count = len(INPUTS) + len(circuit.gates)
    gates = [gate_term(gate, at) for at, gate in enumerate(circuit.gates, len(INPUTS))]
    outputs = " ∷ ".join(str(back(it, count)) for it in circuit.outputs)
    used = " ".join(CONSTRUCTORS[kind] for kind in sorted({it.kind for it in circuit.gates}))
    clauses = "".join(
        f"is_box{number} {' '.join('true' if place >> 5 - at & 1 else 'false' for at in range(6))}"
        " = refl\n" for place in range(64))
    return f"""\
-- S{number} as a circuit. Made by tools/circuits of tools/circuits.txt.
use Rattle.std.proofs.Common.{{◌≡◌, ℕ, Bool, true, false, List, [], ◌∷◌, refl}}
use mathlib.Core.Bool.{{xor}}
use Rattle.duk_des.specs.Des.{{substitute}}
use Rattle.duk_des.specs.Tables.{{box{number}}}
use Rattle.duk_lanes.proofs.Gates.{{Gate, {', '.join(used.split())}, run, picked}}

abbrev pub gates{number} : List Gate
gates{number} =
    {chain("∷", gates, "[]", 8)}

abbrev pub outputs{number} : List ℕ
outputs{number} = {outputs} ∷ []

pub is_box{number} : (a b c d e f : Bool)
    → picked outputs{number} (run gates{number} (f ∷ e ∷ d ∷ c ∷ b ∷ a ∷ []))
    ≡ substitute box{number} (a ∷ b ∷ c ∷ d ∷ e ∷ f ∷ [])
unfolding xor
{clauses}"""


def step(gate: Gate, place: int) -> str:
    return f"c.{KINDS[gate.kind]}-{name_of(place)}"


def answer(number: int, circuit: Circuit) -> str:
    """The proof of the function's contract: its calls are the steps of the list."""
    steps = [step(gate, place) for place, gate in enumerate(circuit.gates, len(INPUTS))]
    values = [f"lane {it}.result i" for it in steps]
    facts = [f"{it}.ensures i h" for it in steps]
    inputs = " ∷ ".join(f"lane c.args.{it} i" for it in reversed(INPUTS))
    lanes = " ".join(f"(lane c.args.{it} i)" for it in INPUTS)
    return f"""\
-- Made by tools/circuits of tools/circuits.txt.
use Rattle.std.proofs.Common.{{[], ◌∷◌, ap, ◌∙◌}}
use Rattle.duk_lanes.proofs.Gates.{{picked, is_run, ◌also◌}}
use Rattle.duk_lanes.proofs.CircuitOf{number}.{{gates{number}, outputs{number}, is_box{number}}}
use Rattle.duk_lanes.proofs.boxes.s{number}.select{number}.Goals as goal

pub returns : goal.returns
returns g c = λ i h.
    let lane = g.L.Lanes.lane in
    ap (picked outputs{number}) (is_run gates{number} ({inputs} ∷ [])
    ({chain("∷", values, "[]", 4)})
    ({chain("also", facts, "tt", 4)}))
    ∙ is_box{number} {lanes}
"""


def wrong_body(number: int, circuit: Circuit) -> str:
    """A wrong body of the function, of another kind from box to box. It calls what the right one
    calls, so that it is the contract that refuses it."""
    name, gates = "bits_in_reverse", list(circuit.gates)
    old = f"    [{', '.join(map(name_of, circuit.outputs))}]"
    new = f"    [{', '.join(map(name_of, reversed(circuit.outputs)))}]"
    if number % 4:
        exchanged = number % 2 == 0
        name = "operands_exchanged" if exchanged else "another_operand"
        at = next(at for at, it in enumerate(gates) if KINDS[it.kind] == "and_not")
        gate = gates[at]
        other = 0 if gate.left else 1
        gates[at] = (Gate(gate.kind, gate.right, gate.left) if exchanged
                     else Gate(gate.kind, other, gate.right))
        place = name_of(len(INPUTS) + at)
        old, new = (called(it, place).rstrip("\n") for it in (gate, gates[at]))
    return (f"select{number}.{name}\nrefuses: duk_lanes::boxes::s{number}::select{number}\n"
            f"old: {old}\nnew: {new}\n")


def made(circuits: Mapping[int, Circuit]) -> dict[str, str]:
    """The made files, by their names."""
    files = {}
    for number, circuit in sorted(circuits.items()):
        files[f"{CRATE}/src/boxes/s{number}.rt"] = function(number, circuit)
        files[f"{CRATE}/proofs/CircuitOf{number}.antt"] = lemma(number, circuit)
        files[f"{CRATE}/proofs/boxes/s{number}/select{number}/Answers.antt"] = answer(number, circuit)
        if number in WRONG:
            files[f"{CRATE}/wrong-bodies/boxes/s{number}.edits"] = wrong_body(number, circuit)
    return files
