"""The arguments that the program's help names: the files that name them too, and the examples of each help."""
from __future__ import annotations

import os
import subprocess
from pathlib import Path

from ..support.case import ProgramCase
from ..support.commands.words_of_files import (
    FILES, PROGRAM, commands_of_help, examples_of_help, kinds_of_completions, kinds_of_help,
    words_of_help)
from ..support.program import ROOT, SECONDS, Ended


class Words(ProgramCase):
    """The manual page, the completions and docs/COMMANDS.md name the arguments that the help names."""

    weight = 2

    def helps(self) -> dict[str, str]:
        """The help of the program and of each command, which `help COMMAND` prints too."""
        helps = {PROGRAM: self.help("--help")}
        for command in commands_of_help(helps[PROGRAM]):
            helps[command] = self.help("help", command)
            if command != "help":
                for word in ("-h", "--help"):
                    self.assertEqual(self.help(command, word), helps[command], f"{command} {word}")
        self.assertEqual(self.help("help"), helps[PROGRAM])
        self.assertEqual(self.help("-h"), helps[PROGRAM])
        self.assertGreater(len(helps), 2, "the help names no commands")
        return helps

    def help(self, *words: str) -> str:
        ended = self.program.run(*words)
        self.assertEqual((ended.status, ended.faults), (0, b""), words)
        return ended.output.decode()

    def test_files(self) -> None:
        lines = words_of_help(self.helps()).lines()
        for name, read in FILES.items():
            with self.subTest(name):
                found = read().lines()
                self.assertEqual(sorted(lines - found), [], f"{name} lacks these")
                self.assertEqual(sorted(found - lines), [], f"the help lacks what {name} has")
        self.tells(f"{len(lines)} words in {len(FILES)} files")

    def test_kinds(self) -> None:
        """Each completion offers the kinds that `show` knows."""
        wanted = kinds_of_help(self.help("show", "--help"))
        self.assertIn("journal", wanted)
        for name, kinds in kinds_of_completions().items():
            self.assertEqual(kinds, wanted, name)

    def test_examples(self) -> None:
        """Each command but `help` has an example, and prints what stands there."""
        count = 0
        for command, text in self.helps().items():
            examples, folder = examples_of_help(text), self.example_folder()
            self.assertTrue(examples or command == "help", f"the help of {command} has no example")
            for words, printed in examples:
                found = run_in_bash(words, folder)
                self.assert_ended(found, 0, printed.encode(), b"", f"{command}: {words}")
            count += len(examples)
        self.tells(f"{count} examples")

    def example_folder(self) -> Path:
        """A folder as an example has it: the program, the examples, and a file of requests."""
        folder = self.folder()
        (folder / PROGRAM).symlink_to(self.program.path)
        (folder / "examples").symlink_to(ROOT / "examples")
        (folder / "requests").write_bytes(b"")
        return folder


def run_in_bash(words: str, folder: Path) -> Ended:
    path = f"{folder}{os.pathsep}{os.environ['PATH']}"
    done = subprocess.run(["bash", "-c", words], cwd=folder, stdin=subprocess.DEVNULL,
                          capture_output=True, env={**os.environ, "PATH": path}, timeout=SECONDS,
                          check=False)
    return Ended(done.returncode, done.stdout, done.stderr)
