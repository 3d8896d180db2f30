"""The recipes of docs/COMMANDS.md.

A recipe stands in the part "Recipes" below a heading of the third level. Of its indented lines `$ `
begins a command and `> ` goes on with it, `< ` is typed behind it, and what stands after that is what it
prints. The commands of a recipe are run in one bash, behind those that stand before the first recipe, in a folder
that has the program as `dukpt` beside `tests` and `examples`. Each ends with status 0, and nothing is
on standard error.
"""
from __future__ import annotations

import os
import re
import subprocess
from dataclasses import dataclass

from ..support.case import ProgramCase
from ..support.program import ROOT, SECONDS

COMMANDS = ROOT / "docs" / "COMMANDS.md"
PART = "## Recipes"
# A key or a PIN that a command writes, or a PAN.
# What was typed behind `read -rs KEY` is in no history, and bash hands it on by a pipe.
SECRET = re.compile(
    r"\b(?:echo|printf)\b[^|]*(?:\b(?:[0-9A-F]{32,}|\d{4,19})|\$KEYS?)\b|(?<!<)<<(?!<\"\$KEY\"$)")
# Stands after what a command prints, with its status. No command prints it.
END = "\x1e"


@dataclass
class Command:
    """A command of a recipe, and what it prints."""

    text: str
    typed: str = ""
    printed: str = ""

    def in_bash(self) -> str:
        """The command for bash, with what is typed as its input, and with what shows its end."""
        typed = f"{{ {self.text}\n}} <<'END'\n{self.typed}END" if self.typed else self.text
        return f"{typed}\nprintf '{END}%d{END}' $?\n"


def recipes() -> list[tuple[str, list[Command]]]:
    """The title of each recipe, and its commands. The first one is what all begin with."""
    found: list[tuple[str, list[Command]]] = [("what each begins with", [])]
    is_inside = False
    for number, line in enumerate(COMMANDS.read_text(encoding="utf-8").splitlines(), 1):
        if line.startswith("## "):
            is_inside = line == PART
        elif is_inside and line.startswith("### "):
            found.append((line[4:], []))
        elif is_inside and line.startswith("    "):
            read_line(found[-1][1], line[4:], number)
    return found


def read_line(commands: list[Command], line: str, number: int) -> None:
    if line.startswith("$ "):
        commands.append(Command(line[2:]))
    elif not commands:
        raise ValueError(f"line {number} of docs/COMMANDS.md belongs to no command")
    elif line.startswith("> "):
        commands[-1].text += "\n" + line[2:]
    elif line.startswith("< "):
        commands[-1].typed += line[2:] + "\n"
    else:
        commands[-1].printed += line + "\n"


class Recipes(ProgramCase):
    """Each command prints what stands in the document."""

    weight = 6

    def run_recipe(self, place: int) -> None:
        (_, front), (title, own) = recipes()[0], recipes()[place]
        commands = [*front, *own]
        printed, faults = self.play(commands)
        self.assertEqual(faults, "", title)
        self.assertEqual(len(printed), len(commands), title)
        for command, found in zip(commands, printed):
            self.assertEqual(found, (command.printed, "0"), f"{title}: `{command.text}`")
        self.assertTrue(front and own, f"{title} has no command")
        self.tells(f"{title}: {len(own)} commands")

    def play(self, commands: list[Command]) -> tuple[list[tuple[str, str]], str]:
        """What each command printed, with its status, as far as they came, and the faults."""
        folder = self.folder()
        (folder / "dukpt").symlink_to(self.program.path)
        for name in ("tests", "examples"):
            (folder / name).symlink_to(ROOT / name)
        script = "".join(it.in_bash() for it in commands)
        done = subprocess.run(
            ["bash", "-c", script], cwd=folder, stdin=subprocess.DEVNULL, capture_output=True,
            env={**os.environ, "LC_ALL": "C", "TMPDIR": str(folder)}, timeout=SECONDS, check=False)
        parts = done.stdout.decode(errors="replace").split(END)
        self.assertEqual(parts[-1], "", "what is printed after the last command")
        return list(zip(parts[::2], parts[1::2])), done.stderr.decode(errors="replace")

    def test_loading_blocks(self) -> None:
        self.run_recipe(1)

    def test_components(self) -> None:
        self.run_recipe(2)

    def test_components_of_a_local_master_key(self) -> None:
        self.run_recipe(3)

    def test_many_items(self) -> None:
        self.run_recipe(4)

    def test_a_frame(self) -> None:
        self.run_recipe(5)

    def test_a_reversal_and_its_reply(self) -> None:
        self.run_recipe(6)

    def test_a_trace(self) -> None:
        self.run_recipe(7)

    def test_a_wrong_mac(self) -> None:
        self.run_recipe(8)

    def test_a_key_block_that_does_not_open(self) -> None:
        self.run_recipe(9)

    def test_a_variant(self) -> None:
        self.run_recipe(10)

    def test_enciphered_data(self) -> None:
        self.run_recipe(11)

    def test_a_translated_pin_block(self) -> None:
        self.run_recipe(12)

    def test_a_walk(self) -> None:
        self.run_recipe(13)

    def test_a_request_and_its_answer(self) -> None:
        self.run_recipe(14)

    def test_a_file_of_frames(self) -> None:
        self.run_recipe(15)

    def test_a_larger_journal(self) -> None:
        self.run_recipe(16)

    def test_a_lost_terminal(self) -> None:
        self.run_recipe(17)

    def test_there_are_no_others(self) -> None:
        """The last one is of the page, and has no command."""
        self.assertEqual([bool(commands) for _, commands in recipes()], [True] * 18 + [False])

    def test_no_secret_is_written_by_a_command(self) -> None:
        """In no document, and not even by a command that is no process: it would stand in the shell's
        history."""
        for file in (ROOT / "README.md", *sorted((ROOT / "docs").glob("*.md"))):
            for number, line in enumerate(file.read_text(encoding="utf-8").splitlines(), 1):
                self.assertIsNone(SECRET.search(line), f"{file.name}, line {number}: {line}")
