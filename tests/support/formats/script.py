"""Scripts, as docs/FORMATS.md has them: their lines, and which of these are events.

It was written from that document alone.
"""
from __future__ import annotations

import re
from typing import Callable, Optional

NUMBER = re.compile(rb"0|[1-9][0-9]{0,9}")
TERMINAL = re.compile(rb"t([1-9]|1[0-6])")
KSN = re.compile(rb"[0-9A-Fa-f]{20}")
PAN = re.compile(rb"[0-9]{12,19}")
PIN = re.compile(rb"[0-9]{4,12}")
MOST = 0xFFFFFFFF
# The counter is the last 21 bits of a key serial number.
COUNTER = 0x1FFFFF


def lines(script: bytes) -> list[bytes]:
    """The lines, without the LF and the one CR before it that end them."""
    *ended, last = script.split(b"\n")
    whole = [line[:-1] if line.endswith(b"\r") else line for line in ended]
    return whole + [last] if last else whole


def is_silent(line: bytes) -> bool:
    """Whether a line says nothing."""
    return not line or line.startswith(b"#")


def events(script: bytes) -> list[bytes]:
    """The lines that say something."""
    return [line for line in lines(script) if not is_silent(line)]


def first_bad_line(script: bytes, over_journal: bool = False) -> Optional[int]:
    """The number of the first line that is no event, counted from 1. Over a journal there are more
    events."""
    for number, line in enumerate(lines(script), 1):
        if not is_silent(line) and not is_event(line) and not (over_journal and is_of_till(line)):
            return number
    return None


def is_event(line: bytes) -> bool:
    return is_one_of(line, {
        b"load": (is_terminal, is_initial),
        b"begin": (is_terminal, PAN.fullmatch, PIN.fullmatch, is_number),
        b"up": (is_number,),
        b"down": (is_number, is_terminal),
        b"restart": (is_end,),
        b"arm": (is_end, is_number),
    })


def is_of_till(line: bytes) -> bool:
    """Whether a line is an event that tills alone have."""
    return is_one_of(line, {
        b"reverse": (is_terminal,),
        b"arm": (is_terminal, lambda word: word == b"book", is_number),
    })


def is_one_of(line: bytes, commands: dict[bytes, tuple[Callable[[bytes], object], ...]]) -> bool:
    command, *words = line.split(b" ")
    kinds = commands.get(command)
    return kinds is not None and len(kinds) == len(words) and all(
        is_right(word) for is_right, word in zip(kinds, words))


def is_number(word: bytes) -> bool:
    return bool(NUMBER.fullmatch(word)) and int(word) <= MOST


def is_terminal(word: bytes) -> bool:
    return bool(TERMINAL.fullmatch(word))


def is_end(word: bytes) -> bool:
    return word == b"host" or is_terminal(word)


def is_initial(word: bytes) -> bool:
    return bool(KSN.fullmatch(word)) and int(word, 16) & COUNTER == 0
