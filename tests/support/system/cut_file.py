"""A process that keeps a log on a file system in user space, and how a test speaks with it.

The file system is mounted where that process alone sees it, so it goes with it, however that ends.
Others reach the file through the process's folder below /proc.
"""
from __future__ import annotations

import multiprocessing
import os
import random
import select
from multiprocessing.connection import Connection
from pathlib import Path
from typing import Any, Optional

from .cut_disk import Plan, PlannedDisk
from .user_files import NAME, UserFiles, leave_namespace, mount

SECONDS = 60


class NoUserFiles(AssertionError):
    """That there is no file system in user space here, and why."""


class CutFile:
    """A log that behaves as planned, and whose power can be lost. `close` ends its process."""

    def __init__(self, folder: Path, image: bytes) -> None:
        context = multiprocessing.get_context("spawn")
        self.tests, theirs = context.Pipe()
        self.process = context.Process(target=keep, args=(str(folder), image, theirs), daemon=True)
        self.process.start()
        theirs.close()
        self.path = Path(f"/proc/{self.process.pid}/root{folder}/{os.fsdecode(NAME)}")
        fault = self.answer()
        if fault:
            self.close()
            raise NoUserFiles(f"this test needs /dev/fuse and the right to mount it: {fault}")

    def answer(self) -> Any:
        if not self.tests.poll(SECONDS):
            raise AssertionError("the file system in user space does not answer")
        return self.tests.recv()

    def ask(self, *words: Any) -> Any:
        self.tests.send(words)
        return self.answer()

    def make(self, image: bytes) -> None:
        """Makes the log anew, with all its bytes sure."""
        self.ask("make", image)

    def begin(self, plan: Plan) -> None:
        """Begins a life."""
        self.ask("begin", plan)

    def image(self) -> bytes:
        """What a read gives."""
        return self.ask("image")

    def cut(self, seed: int) -> bytes:
        """Loses the power, and answers what that leaves."""
        return self.ask("cut", seed)

    def calls(self) -> int:
        """How many writes and syncs this life has had."""
        return self.ask("calls")

    def reads(self) -> int:
        """How many reads this life has had."""
        return self.ask("reads")

    def close(self) -> None:
        self.tests.close()
        self.process.join(5)
        if self.process.is_alive():
            self.process.kill()
            self.process.join()


class Keeper:
    """The process's side."""

    def __init__(self, image: bytes) -> None:
        self.file = PlannedDisk(image)

    def make(self, image: bytes) -> None:
        self.file.disk = type(self.file.disk)(image)

    def begin(self, plan: Plan) -> None:
        self.file.begin(plan)

    def image(self) -> bytes:
        return bytes(self.file.disk.seen)

    def cut(self, seed: int) -> bytes:
        self.file.disk.cut(random.Random(seed))
        return self.image()

    def calls(self) -> int:
        return self.file.calls

    def reads(self) -> int:
        return self.file.reads


def keep(folder: str, image: bytes, tests: Connection) -> None:
    """Serves the file system and the test, until the test closes its end."""
    keeper = Keeper(image)
    files = mounted(folder, keeper, tests)
    while files is not None:
        ready = select.select([files.device, tests], [], [])[0]
        if files.device in ready and not files.serve():
            return
        if tests in ready and not obey(keeper, tests):
            return


def mounted(folder: str, keeper: Keeper, tests: Connection) -> Optional[UserFiles]:
    """Mounts the file system, and tells the test whether that was done."""
    try:
        leave_namespace()
        files = UserFiles(mount(folder), keeper.file)
    except OSError as why:
        tests.send(str(why))
        return None
    tests.send(None)
    return files


def obey(keeper: Keeper, tests: Connection) -> bool:
    """Does what the test asks for. It answers whether there may be more."""
    try:
        name, *words = tests.recv()
    except EOFError:
        return False
    tests.send(getattr(keeper, name)(*words))
    return True
