"""That each row of the bench lists its folder: programs that leave a key in another file are found."""
from __future__ import annotations

import unittest

from ..support.case import ProgramCase
from ..support.listing import own_files
from ..support.program import behind_shell
from .test_commands import Commands
from .test_everyday_random import TestEveryday
from .test_everyday_rows import Rows

# What a program does first whose command is this one, and a test that finds it.
PLANTED = (
    ("derive", 'echo "$2" >left', Commands, "test_keys"),
    ("run", 'echo "# $2" >>"$3"', Commands, "test_run"),
    ("kcv", 'echo "$2" >left', Rows, "test_rows"),
    ("kcv", 'echo "$2" >left', TestEveryday, "test_kcv"),
)
# The words of a command, and the files that are its own.
OWN = (
    (("derive", "@bdk", "--log", "used"), []),
    (("serve", "bank.toml", "--log", "used"), ["used"]),
    (("serve", "bank.toml", "--journal=used"), ["used"]),
    (("run", "bank.toml", "all.script", "--journal"), []),
    (("issue", "--ledger", "l", "@bdk"), ["l"]),
    (("issue", "--ledger", "l", "--out=o"), ["l", "o"]),
    (("new-log", "new", "7"), ["new"]),
    (("new-journal", "--explain", "new", "7"), ["new"]),
    (("new-ledger", "--json", "new", "7"), ["new"]),
    (("grow-journal", "grown", "7", "--json"), ["grown"]),
    (("copy-journal", b"old", b"new"), ["new"]),
    (("copy-ledger", "--json", "old", "new"), ["new"]),
)


class Listing(ProgramCase):
    weight = 2

    def test_planted(self) -> None:
        for command, does, case, test in PLANTED:
            way = f'case "$1" in {command}) {does};; esac'
            tried, result = case(test), unittest.TestResult()
            tried.program = behind_shell(self.folder(), self.program, way)
            tried.run(result)
            told = "\n".join(text for _, text in result.failures + result.errors)
            self.assertIn("Strayed", told, f"{way}: {told}")

    def test_own_files(self) -> None:
        for words, wanted in OWN:
            self.assertEqual(own_files(words), wanted, words)
