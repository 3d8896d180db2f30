"""Which cases can find a mistake: those whose calls reach the file that has it.

A case of another area makes no call into that file, and is not tried. The areas are those in which
dukpt-check gives its grades.
"""
from __future__ import annotations

from typing import Mapping, Sequence

from dukpt_check.cases import Case
from dukpt_check.grading import area_of

DERIVATION, NUMBERS, REGISTERS, CIPHERS, MACS, CHECK_VALUES, PINS, KEY_BLOCKS, IMAGES, FRAMES = (
    "derivation", "numbers", "registers", "ciphers", "MACs", "check values", "PIN blocks",
    "key blocks", "images", "frames")

# Of a crate, or of a file of one, the areas whose calls reach it. All areas reach the others.
REACHED: Mapping[str, Sequence[str]] = {
    "duk_io/": (KEY_BLOCKS,),
    "duk_mac/": (MACS, CHECK_VALUES, KEY_BLOCKS, FRAMES),
    "duk_block/": (KEY_BLOCKS,),
    "duk_pin/": (PINS, FRAMES),
    "duk_tree/": (DERIVATION, NUMBERS, REGISTERS, IMAGES, FRAMES),
    "duk_regs/": (REGISTERS, IMAGES),
    "duk_frame/": (FRAMES,),
    "duk_calls/blocks": (KEY_BLOCKS,),
    "duk_calls/ciphers": (CIPHERS, PINS),
    "duk_calls/frames": (FRAMES,),
    "duk_calls/keys": (DERIVATION, REGISTERS),
    "duk_calls/macs": (MACS, CHECK_VALUES),
    "duk_calls/numbers": (NUMBERS,),
    "duk_calls/optional": (KEY_BLOCKS,),
    "duk_calls/pins": (PINS, FRAMES),
    "duk_calls/registers": (REGISTERS, IMAGES),
    "duk_calls/replies": (FRAMES,),
    "duk_calls/requests": (FRAMES,),
    "duk_calls/reversals": (FRAMES,),
    "duk_data/": (DERIVATION,),
    "duk_reversal/": (FRAMES,),
}


def reaching(cases: Sequence[Case], label: str) -> list[Case]:
    """The cases that can find the mistake with this label."""
    areas = next((found for place, found in REACHED.items() if label.startswith(place)), None)
    return [it for it in cases if areas is None or area_of(it.operation) in areas]
