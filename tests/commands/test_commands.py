"""The commands of tests/data/commands: arguments, and what the program has to write on each.

A line of arguments.txt is the arguments of one command, with one space between two; two spaces have
an empty argument between them. Files are named from tests/data/commands. Of each line the file expected
has the line after `$ `, then what the program writes to its output, then after `! ` what it writes
of a fault, and after `= ` its status.
"""
from __future__ import annotations

import re
import shutil
from pathlib import Path
from typing import Callable

from ..support.case import Case, ProgramCase
from ..support.program import COMMANDS, Ended

KEYS = (b"derive", b"pin", b"wrap", b"unwrap")
OTHERS = (b"walk", b"run", b"serve")
STORED = re.compile(
    rb"(?P<output>(?:(?![!=] ).*\n)*)(?:! (?P<faults>(?:.*\n)+?))?= (?P<status>\d+)\n")


def commands() -> list[bytes]:
    return (COMMANDS / "arguments.txt").read_bytes().splitlines()


def expected() -> list[tuple[bytes, bytes]]:
    """Each command that has something stored, and what stands below it."""
    parts = re.split(rb"^\$ (.*)\n", (COMMANDS / "expected").read_bytes(), flags=re.M)
    return list(zip(parts[1::2], parts[2::2]))


def ended(stored: bytes) -> Ended:
    found = STORED.fullmatch(stored)
    if not found:
        raise ValueError(f"expected has no output with a status here: {stored!r}")
    return Ended(int(found["status"]), found["output"], found["faults"] or b"")


def images(folder: Path) -> dict[str, bytes]:
    """What each file below a folder holds."""
    files = [it for it in folder.rglob("*") if it.is_file()]
    return {str(it.relative_to(folder)): it.read_bytes() for it in files}


class Stored(Case):
    """What is stored of the commands."""

    def test_each_command_is_expected(self) -> None:
        self.assertEqual([command for command, _ in expected()], commands())
        self.assertEqual(len(set(commands())), len(commands()), "a command stands there twice")
        for command, stored in expected():
            with self.subTest(command):
                ended(stored)
        self.tells(f"{len(commands())} commands")


class Commands(ProgramCase):
    """Each command is run, and its files stay as they are."""

    weight = 6

    def run_commands(self, is_meant: Callable[[bytes], bool]) -> None:
        # A folder of this test alone: a log is locked by whoever serves over it.
        folder = self.folder() / "commands"
        shutil.copytree(COMMANDS, folder)
        before, count = images(folder), 0
        for command, stored in expected():
            arguments = command.split(b" ") if command else []
            if not is_meant(arguments[0] if arguments else b""):
                continue
            found, wanted = self.program.run(*arguments, folder=folder), ended(stored)
            where = f"arguments.txt has `{command.decode()}`"
            self.assert_ended(found, wanted.status, wanted.output, wanted.faults, where)
            self.assertEqual(images(folder), before, f"{where}: files were changed")
            count += 1
        self.assertGreater(count, 0, "no command is meant")
        self.tells(f"{count} commands")

    def test_keys(self) -> None:
        self.run_commands(lambda command: command in KEYS)

    def test_walk(self) -> None:
        self.run_commands(lambda command: command == b"walk")

    def test_run(self) -> None:
        self.run_commands(lambda command: command == b"run")

    def test_serve(self) -> None:
        self.run_commands(lambda command: command == b"serve")

    def test_others(self) -> None:
        self.run_commands(lambda command: command not in KEYS + OTHERS)
