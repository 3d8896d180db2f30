"""Thousands of short runs of a program: with less work for each than `Program.run` has.

Output and faults go to files in memory. The runs are in a new folder. A run that does not end is killed,
and is an error of the test; and so is one that leaves anything in that folder.
"""
from __future__ import annotations

import os
import select
import signal
from tempfile import TemporaryDirectory
from types import TracebackType
from typing import Optional, Sequence

from .listing import Strayed
from .program import SECONDS, Ended, Program, Word

IGNORED_BY_PYTHON = (signal.SIGPIPE, signal.SIGXFSZ)


class QuickRuns:
    """Runs of a program, one after the other."""

    def __init__(self, program: Program) -> None:
        self.program = program
        self.streams = [os.memfd_create(name) for name in ("input", "output", "faults")]
        self.actions = [(os.POSIX_SPAWN_DUP2, stream, place)
                        for place, stream in enumerate(self.streams)]

    def run(self, words: Sequence[Word], given: bytes = b"") -> Ended:
        for stream in self.streams:
            os.lseek(stream, 0, os.SEEK_SET)
            os.ftruncate(stream, 0)
        os.pwrite(self.streams[0], given, 0)
        process = os.posix_spawn(
            self.program.path, ["dukpt", *words], os.environ, file_actions=self.actions,
            setsigdef=IGNORED_BY_PYTHON)
        status = self.wait(process)
        if os.listdir():
            raise Strayed(f"`{words}` made {os.listdir()}")
        output, faults = (os.pread(it, os.fstat(it).st_size, 0) for it in self.streams[1:])
        return Ended(status, output, faults)

    def wait(self, process: int) -> int:
        handle = os.pidfd_open(process)
        try:
            ending = select.poll()
            ending.register(handle, select.POLLIN)
            is_ended = bool(ending.poll(1000 * SECONDS))
        finally:
            os.close(handle)
        if not is_ended:
            os.kill(process, signal.SIGKILL)
        status = os.waitstatus_to_exitcode(os.waitpid(process, 0)[1])
        if not is_ended:
            raise AssertionError(f"a run did not end in {SECONDS} seconds")
        return status

    def __enter__(self) -> "QuickRuns":
        self.before, self.folder = os.getcwd(), TemporaryDirectory(prefix="dukpt-runs-")
        os.chdir(self.folder.name)
        return self

    def __exit__(self, kind: Optional[type[BaseException]], why: Optional[BaseException],
                 where: Optional[TracebackType]) -> None:
        os.chdir(self.before)
        self.folder.cleanup()
        for stream in self.streams:
            os.close(stream)
