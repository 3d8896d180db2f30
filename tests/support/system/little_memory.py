"""How much memory a program needs, and sizes of memory to try it with."""
from __future__ import annotations

import os

from ..program import Ended, Limits, Program

AMPLE = 1 << 30
PAGE = os.sysconf("SC_PAGE_SIZE")
OUT_OF_MEMORY = b"out of memory\n"


def least_to_start(program: Program) -> int:
    """The least size with which the program starts, but for less than a page.

    With less the system does not start it: the loader that maps its libraries ends before the
    program begins, by a signal or with a status and a text of its own, of which this project says
    nothing. So what is tried begins here.
    """
    dead, alive = 0, AMPLE
    if not starts(program, alive):
        raise AssertionError(f"{program.name} does not start with {AMPLE >> 20} MiB of memory")
    while alive - dead > PAGE:
        memory = (dead + alive) // 2
        dead, alive = (dead, memory) if starts(program, memory) else (memory, alive)
    return alive


def starts(program: Program, memory: int) -> bool:
    """Whether the program is started: it prints its version, or reports that it is refused
    memory."""
    ended = program.run("--version", limits=Limits(memory=memory))
    return ended in (Ended(0, b"dukpt 0.1.0\n", b""), Ended(1, b"", OUT_OF_MEMORY))
