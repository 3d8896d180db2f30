"""The rows of tests/data/commands/everyday: commands as one types them, and what the program has to write.

A row has the command after `$ `, what goes to standard output, after `! ` a fault, and after `= ` the
status. The keys are the samples of ANSI X9.24-1; what follows from them was computed by the package
cryptography of Python, and that of no row by this project.
"""
from __future__ import annotations

import re
import shlex

from ..program import COMMANDS, Ended

ROW = re.compile(r"\$ (?P<words>.*)\n(?P<output>(?:(?![$!=] ).*\n)*)(?:! (?P<fault>.*\n))?"
                 r"= (?P<status>\d)\n")

BASE = "0123456789ABCDEFFEDCBA9876543210"
INITIAL = "6AC292FAA1315B4D858AB3A3D7D5933A"
IKSN = 0xFFFF9876543210E00000
FIRST, SERIAL = "FFFF9876543210E00000", "FFFF9876543210E00001"
PAN, PIN = "4012345678909", "1234"
ZONE = "3F419E1CB7079442AA37474C2EFBF8B8"
KBPK = "DD7515F2BFC17F85CE48F3CA25CB21F6"
PIN_KEY = "042666B49184CF5C68DE9628D0397B36"
KEY_BLOCK = "B0080P0TE00E000094B420079CC80BA3461F86FE26EFC4A3B8E4FA4C5F5341176EED7B727B8A248E"
REQUEST = ("002E0101FFFF9876543210E000010D34303132333435363738393039000000011B9C1845EB993A7A"
           "A05619896B683F13")
REPLY = "00160102FFFF9876543210E000013030591B50E0CA98FE70"
# Right words of each command, with all options that take a value.
RIGHT = {
    "derive": ["derive", BASE, SERIAL],
    "walk": ["walk", BASE, FIRST, "2", "--skip", "1"],
    "pin": ["pin", PIN, PAN, "--key", PIN_KEY],
    "wrap": ["wrap", KBPK, "P0TE00E", ZONE, "A5A5A5A5A5A5"],
    "unwrap": ["unwrap", KBPK, KEY_BLOCK],
    "initial": ["initial", BASE, FIRST],
    "registers": ["registers", INITIAL, SERIAL, "--initial"],
    "kcv": ["kcv", BASE, ZONE, KBPK, "--components"],
    "lmk": ["lmk", f"{BASE} 08D7B4", f"{KBPK} F7BAA8", "--key", ZONE, "--fields", "P0TB00N",
            "--pad", "A5A5A5A5A5A5"],
    "mac": ["mac", BASE, "text"],
    "data": ["data", BASE, "16 bytes of text", "--iv", "0123456789ABCDEF"],
    "unpin": ["unpin", "1B9C1845EB993A7A", PAN, "--key", PIN_KEY, "--show"],
    "translate": ["translate", "1B9C1845EB993A7A", PAN, BASE, SERIAL, ZONE],
    "show": ["show", "frame", REQUEST, "--show", "--key", BASE],
    "request": ["request", BASE, SERIAL, PAN, PIN, "1"],
    "reply": ["reply", BASE, REQUEST, REPLY],
    "find": ["find", BASE, "1B9C1845EB993A7A", "--from", SERIAL, "--pan", PAN],
}


def rows() -> list[tuple[list[str], Ended]]:
    """The words of each row, and how a run with them ends."""
    text, found, at = (COMMANDS / "everyday").read_text(encoding="utf-8"), [], 0
    while at < len(text):
        row = ROW.match(text, at)
        if not row:
            raise ValueError(f"no row here: {text[at : at + 80]!r}")
        found.append((shlex.split(row["words"]),
                      Ended(int(row["status"]), row["output"].encode(), (row["fault"] or "").encode())))
        at = row.end()
    return found
