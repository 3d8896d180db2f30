"""docs/LIBRARY.md and docs/calls.txt: the commands print what stands there, the calls and faults are
those of the library."""
from __future__ import annotations

import os
import re
import subprocess
from dataclasses import dataclass
from typing import Iterator

from ..support.case import Case
from ..support.library.library import built_library, demand
from ..support.library.library_calls import CALLS, FAULTS
from ..support.library.rust_library import BUILT
from ..support.program import ROOT

DOCUMENT = ROOT / "docs" / "LIBRARY.md"
TABLES = ROOT / "docs" / "calls.txt"
HEADER = ROOT / "library" / "c" / "dukpt.h"
SECONDS = 300
# Of a comment of the header, before its call: the arguments, each in a line; the statuses.
COMMENT = re.compile(
    r"/\* ((?:(?!\*/).)*?)\*/\nDUKPT_STATUS uint32_t dukpt_(\w+)\(", re.DOTALL)
ARGUMENT = re.compile(r"^ \*   (\w+ +(?:in out|in|out)\b.*)$", re.MULTILINE)


@dataclass
class Command:
    text: str
    printed: str = ""


def commands() -> list[Command]:
    """The commands of the document behind a `$`, with what they print: the lines below them."""
    found: list[Command] = []
    is_printed = False
    for line in DOCUMENT.read_text(encoding="utf-8").splitlines():
        is_printed = line.startswith("    $ ") or is_printed and line.startswith("    ")
        if line.startswith("    $ "):
            found.append(Command(line[6:]))
        elif is_printed:
            found[-1].printed += line[4:] + "\n"
    return found


def row(name: str, comment: str) -> str:
    """The row of a call, as the comment in the header has it."""
    takes, gives = [], []
    for argument in ARGUMENT.findall(comment):
        word, way, *about = re.split("  +", argument)
        length = f" {about[0]}" if len(about) == 2 else ""
        if word.endswith("_length"):
            gives[-1] = re.sub(r"(\d+)$", r"up to \1", gives[-1])
        else:
            takes += [f"`{word}`{length}"] * ("in" in way)
            gives += [f"`{word}`{length}"] * ("out" in way)
    numbers = [str(number_of(it)) for it in re.findall(r"DUKPT_FAULT_(\w+)", statuses_in(comment))]
    return f"| `{name}` | {', '.join(takes)} | {', '.join(gives)} | {', '.join(numbers)} |"


def statuses_in(comment: str) -> str:
    return comment.partition("Answers, in this order:")[2]


def number_of(constant: str) -> int:
    """The number of a fault by its name in the header, such as NOT_A_REPLY."""
    return FAULTS.index("".join(part.capitalize() for part in constant.split("_")))


def rows() -> Iterator[str]:
    for comment, name in COMMENT.findall(HEADER.read_text(encoding="utf-8")):
        yield row(name, comment)


class TestDocument(Case):
    def setUp(self) -> None:
        super().setUp()
        self.text = DOCUMENT.read_text(encoding="utf-8")
        self.tables = TABLES.read_text(encoding="utf-8")

    def test_commands(self) -> None:
        """In a folder that looks like the repository."""
        demand("bash", "gcc", "cargo", "rustc")
        folder, library = self.folder(), built_library()
        (folder / "library").symlink_to(ROOT / "library")
        (folder / "out").mkdir()
        (folder / "out" / "library").symlink_to(library)
        known = {**os.environ, "CARGO_TARGET_DIR": str(BUILT), "CARGO_NET_OFFLINE": "true",
                 "DUKPT_LIBRARY": str(library / "libdukpt.so.0"),
                 "DUKPT_LIBRARY_DIR": str(library)}
        found = commands()
        self.assertEqual(len(found), 4)
        for it in found:
            done = subprocess.run(["bash", "-c", it.text], cwd=folder, capture_output=True,
                                  text=True, env=known, timeout=SECONDS, check=False)
            ended = done.stdout, done.stderr, done.returncode
            self.assertEqual(ended, (it.printed, "", 0), it.text)

    def test_calls(self) -> None:
        """The table has each call, with what its comment in the header says."""
        has = re.findall(r"^\| `[a-z_]+` \|.*\| [\d, ]+ \|$", self.tables, re.MULTILINE)
        self.assertEqual(has, list(rows()))
        self.assertEqual([f"dukpt_{it.split('`')[1]}" for it in has], list(CALLS))

    def test_faults(self) -> None:
        wanted = ", ".join(f"{number} `{name}`" for number, name in enumerate(FAULTS) if number)
        self.assertIn(f"\n{wanted}.\n", self.tables)

    def test_examples(self) -> None:
        """Each example is there in each language, and there is no other one."""
        named = re.findall(r"^\| `(\w+)(?: [^`]+)?` \| [^`|]+ \|$", self.text, re.MULTILINE)
        files = {f"{name}.{kind}" for name in named for kind in ("c", "py", "rs")}
        there = {it.name for it in (ROOT / "library" / "examples").iterdir() if it.is_file()}
        self.assertEqual(there, files | {"example.h", "terminal_book.h", "terminal_files.h"})
