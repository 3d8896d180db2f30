"""The base of the tests of `--explain`: a folder as tests/data/commands, with the program over it."""
from __future__ import annotations

import os
import re
import shlex
import shutil
import subprocess
from typing import Sequence, Union

from ..case import ProgramCase
from ..program import COMMANDS, SECONDS, Ended, Word, spoken
from .everyday_rows import BASE, FIRST

EXPLAIN = "--explain"
# In the folder: a script of nothing, and a command before the name of its ledger.
SCRIPT = "scripts/empty.script"
ISSUE = ["issue", BASE, BASE, FIRST, "1", "--ledger"]
ROW = re.compile(r"\$ (.*)\n! (.*)\n! (.*)\n")
# A process of root reads any file but without these.
WITHOUT_RIGHTS = ("setpriv", "--inh-caps=-all", "--bounding-set=-dac_override,-dac_read_search")


def rows() -> list[tuple[list[str], str, str]]:
    """The rows of tests/data/commands/explained: the words of a command, the line of its fault, and the line
    behind it."""
    text = (COMMANDS / "explained").read_text(encoding="utf-8")
    found = ROW.findall(text)
    if 3 * len(found) != len(text.splitlines()):
        raise ValueError("tests/data/commands/explained has more than its rows")
    return [(shlex.split(words), fault, line) for words, fault, line in found]


def places(words: Sequence[Word]) -> range:
    """Where `--explain` may stand among the words: before a `--`."""
    return range((list(words).index("--") if "--" in words else len(words)) + 1)


def with_explain(words: Sequence[Word], place: int) -> list[Word]:
    return [*words[:place], EXPLAIN, *words[place:]]


class ExplainCase(ProgramCase):
    """A test in a folder with what tests/data/commands has."""

    weight = 2

    def setUp(self) -> None:
        super().setUp()
        self.home = self.folder() / "commands"
        shutil.copytree(COMMANDS, self.home)

    def write(self, name: str, data: bytes) -> None:
        (self.home / name).write_bytes(data)

    def run_with(self, words: Sequence[Word], given: Union[bytes, int] = b"",
                 front: Sequence[str] = (), **how: object) -> Ended:
        """A run, which another command may start."""
        if not front:
            return self.program.run(*words, given=given, folder=self.home, **how)
        feeds = {"input": given} if isinstance(given, bytes) else {"stdin": given}
        done = subprocess.run([*front, str(self.program.path), *words], cwd=self.home, check=False,
                              capture_output=True, timeout=SECONDS, **feeds)
        return Ended(done.returncode, done.stdout, done.stderr)

    def in_bash(self, words: Sequence[str], rest: str, given: bytes = b"") -> Ended:
        """A run that bash starts, with its streams turned elsewhere."""
        done = subprocess.run(["bash", "-c", f'exec "$0" "$@" {rest}', str(self.program.path), *words],
                              input=given, capture_output=True, check=False, timeout=SECONDS,
                              cwd=self.home)
        return Ended(done.returncode, done.stdout, done.stderr)

    def explained(self, words: Sequence[Word], fault: str, line: str, printed: bytes = b"",
                  given: Union[bytes, int] = b"", front: Sequence[str] = (), **how: object) -> None:
        """That a run ends with this fault and, with `--explain` at any place, with this line behind it."""
        if isinstance(given, int):
            os.lseek(given, 0, os.SEEK_SET)
        alone = self.run_with(words, given, front, **how)
        self.assert_ended(alone, 1, printed, f"{fault}\n".encode(), spoken(words))
        if isinstance(given, int):
            os.lseek(given, 0, os.SEEK_SET)
        asked = with_explain(words, self.chance.choice(places(words)))
        ended = self.run_with(asked, given, front, **how)
        self.assert_ended(ended, 1, printed, f"{fault}\n{line}\n".encode(), spoken(asked))
