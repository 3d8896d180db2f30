"""The files that each command opens: none is opened to be written, made, renamed or removed but its own."""
from __future__ import annotations

import re
import shutil
from pathlib import Path
from typing import Iterator, Sequence

from ..support.commands.everyday_rows import (
    BASE, FIRST, IKSN, INITIAL, KEY_BLOCK, RIGHT, SERIAL, ZONE)
from ..support.formats.bank import SCRIPT
from ..support.formats.images import image_of
from ..support.formats.ledger_file import ledger_image
from ..support.formats.log_file import log_image
from ..support.listing import own_files
from ..support.models.model_journal import payments_of_all
from ..support.program import Ended, Program, behind_shell, spoken
from ..support.service.client import payments
from ..support.service.journal_case import JournalCase, stream_of
from ..support.standards.dukpt import registers_at

# One line of strace: the process, the call, its arguments and what it gave.
LINE = re.compile(r"^\d+ +(\w+)\((.*)\) += (-?\d+|\?)", re.MULTILINE)
OPENS = ("open", "openat", "openat2", "creat")
TO_WRITE = re.compile(r"O_(?:WRONLY|RDWR|CREAT|TRUNC|APPEND|TMPFILE)|creat")
# Calls with a file's name that leave all as it is.
LOOKS = ("access", "faccessat", "faccessat2", "stat", "lstat", "newfstatat", "statx", "readlink",
         "readlinkat", "getcwd", "statfs")
QUOTED = re.compile(r'"((?:\\.|[^"\\])*)"')
# What the language's library opens before a program starts. It takes no bytes.
NOTHING = "/dev/full"
SECRET, MISSING = "@bdk.txt", "@missing"
# The words of each command, beside those of the commands of every day.
MORE = (
    ("derive", "@-", SERIAL),
    ("kcv", "-"),
    ("show", "block", KEY_BLOCK),
    ("show", "image", "@image.txt", "--show"),
    ("show", "log", "log"),
    ("show", "journal", "journal"),
    ("show", "ledger", "ledger"),
    ("issue", SECRET, "@zone.txt", FIRST, "2", "--ledger", "ledger"),
    ("issue", SECRET, "@zone.txt", FIRST, "2", "--skip-issued", "--ledger", "ledger", "--out", "blocks"),
    ("run", "bank.toml", "all.script"),
    ("run", "bank.toml", "all.script", "--journal"),
    ("serve", "bank.toml"),
    ("serve", "bank.toml", "--log", "log"),
    ("serve", "bank.toml", "--journal", "journal"),
    ("new-log", "new.log", "7"),
    ("new-journal", "new", "7"),
    ("new-ledger", "new.ledger", "7"),
    ("grow-journal", "journal", "7"),
    ("copy-journal", "journal", "copy"),
    ("copy-ledger", "old.ledger", "copy.ledger"),
    ("help",),
    ("help", "derive"),
    ("--version",),
    ("derive", MISSING, SERIAL),
    ("derive", "--explain", MISSING, SERIAL),
)


def rows() -> Iterator[Sequence[str]]:
    for words in RIGHT.values():
        yield words
        if BASE in words:
            yield [SECRET if it == BASE else it for it in words]
    yield from MORE


class OpenedFiles(JournalCase):
    weight = 2

    def setUp(self) -> None:
        super().setUp()
        self.write("bdk.txt", f"{BASE}\n".encode())
        self.write("zone.txt", f"{ZONE}\n".encode())
        self.write("all.script", SCRIPT)
        image = image_of(registers_at(bytes.fromhex(INITIAL), IKSN, 3))
        self.write("image.txt", f"{image.hex()}\n".encode())
        self.make_log(5)
        self.write("ledger", ledger_image([], 5))
        self.write("old.ledger", log_image([], 5))
        self.make_journal(7, [payments_of_all(payments(3)[2:])])

    def traced(self, words: Sequence[str]) -> tuple[Ended, list[str]]:
        """How a command ends, and the calls by which it changes files that are not its own."""
        strace = shutil.which("strace")
        self.assertIsNotNone(strace, "strace is not installed: apt-get install strace")
        trace = self.folder() / "trace"
        given = stream_of(payments(2)) if words[0] == "serve" else f"{BASE}\n".encode()
        ended = Program(Path(strace or "")).run(
            "-f", "-s", "4096", "-e", "trace=%file", "-o", trace, self.program.path, *words, given=given,
            folder=self.home)
        return ended, [*strayed(trace.read_text(), [NOTHING, *own_files(words)])]

    def test_each_command(self) -> None:
        """Each command of the program has a row."""
        told = self.program.run("--help").output.decode()
        listed = told[told.index("Commands:\n") : told.index("Options:\n")]
        commands = re.findall(r"^  (\S+)  ", listed, re.MULTILINE)
        tried = {words[0] for words in rows()}
        self.assertEqual(sorted(set(commands) - tried), [], "commands without a row")
        for words in rows():
            ended, found = self.traced(words)
            self.assertEqual(found, [], spoken(words))
            self.assertEqual(ended.status, 1 if MISSING in words else 0, f"{spoken(words)}: {ended}")
        self.tells(f"{len([*rows()])} rows of {len(commands)} commands")

    def test_planted(self) -> None:
        """A program that leaves a key in another file is found, wherever that is; and one that starts
        another program."""
        words, program, other = ["derive", SECRET, SERIAL], self.program, self.folder() / "kept"
        for way, wanted in ((":", ""), (f"read key <bdk.txt; echo $key >{other}", f'"{other}"'),
                            ("cat bdk.txt >/dev/null", "/cat")):
            self.program = behind_shell(self.folder(), program, way)
            found = [it for it in self.traced(words)[1] if str(program.path) not in it]
            self.assertEqual(bool(found), bool(wanted), f"{way}: {found}")
            self.assertTrue(not found or any(wanted in it for it in found), f"{way}: {found}")


def strayed(trace: str, own: Sequence[str]) -> Iterator[str]:
    """The calls of a trace that change a file but these."""
    starts = 0
    for name, words, _ in LINE.findall(trace):
        if name == "execve":
            starts += 1
            if starts > 1:
                yield f"{name}({words})"
        elif name in LOOKS or name in OPENS and not TO_WRITE.search(f"{name} {QUOTED.sub('', words)}"):
            continue
        elif not QUOTED.findall(words) or not set(QUOTED.findall(words)) <= set(own):
            yield f"{name}({words})"
