"""The linters have nothing to say of the sources, and each finds a fault that is planted.

Python: pyflakes, and mypy on tools and `dukpt_check`; package and host have stricter tests of types of
their own. C: clang's analysis; the tests that build them have the compilers' warnings. Shell:
shellcheck. JavaScript: TypeScript, which knows names and imports; the page has no types, so what it says
of types is left out. All: what `.editorconfig` says of spaces and ends.
"""
from __future__ import annotations

import re
import shutil
import subprocess
from pathlib import Path
from typing import Iterable

from tests.support.case import Case
from tests.support.program import ROOT

PACKAGES = {"pyflakes3": "pyflakes3", "mypy": "mypy", "clang": "clang", "shellcheck": "shellcheck",
            "tsc": "node-typescript", "git": "git"}
TYPES = ROOT / "tools" / "mypy.ini"
PAGE = ROOT / "page"
# What TypeScript says of the types of values.
OF_TYPES = {"TS2322", "TS2339", "TS2345", "TS2349", "TS2365", "TS2554"}
# Of browsers, and younger than Debian's TypeScript.
YOUNGER = "'DecompressionStream'"
# A program that ends leaves its memory to the system. The analysis that follows calls takes ten times
# as long, and tells no more of these files.
C_WORDS = ("--analyze", "-Xclang", "-analyzer-output=text", "-Xclang",
           "-analyzer-disable-checker=unix.Malloc", "-Xclang", "-analyzer-config", "-Xclang",
           "mode=shallow", "-Wall", "-Wextra", "-D_GNU_SOURCE",
           f"-I{ROOT / 'library' / 'c'}", f'-DARENA="{ROOT / "tools" / "page_of" / "arena.c"}"',
           "-o", "/dev/null")
# It is for WebAssembly alone; tests/data/arena has it in a program.
NOT_ALONE = "tools/page_of/arena.c"
# What a test compares byte by byte, and a table with tabs between its columns.
BYTES = ("tests/data/commands/", "tests/data/vectors/", "docs/latency.tsv")


def run(command: str, *words: object, folder: Path = ROOT) -> list[str]:
    """The lines that a linter writes. Where it fails, there is one at least."""
    if shutil.which(command) is None:
        raise AssertionError(f"{command} is not installed: apt-get install {PACKAGES[command]}")
    done = subprocess.run([command, *map(str, words)], cwd=folder, capture_output=True, text=True,
                          check=False)
    lines = (done.stdout + done.stderr).splitlines()
    return lines or ([f"{command}: status {done.returncode}"] if done.returncode else [])


def sources() -> list[Path]:
    """The files of the repository that are none of a crate, each in UTF-8."""
    names = "\n".join(run("git", "-c", "safe.directory=*", "ls-files", "-z")).split("\0")
    return [ROOT / it for it in names if it and not it.startswith("crates/") and is_text(ROOT / it)]


def is_text(path: Path) -> bool:
    try:
        return path.is_file() and "\0" not in path.read_text(encoding="utf-8")
    except UnicodeDecodeError:
        return False


def written_in(files: Iterable[Path], suffixes: str, starts: str) -> list[Path]:
    """The files with such a name, or with such a first line."""
    return [it for it in files if re.fullmatch(suffixes, it.suffix)
            or not it.suffix and re.match(f"#!.*{starts}", it.read_text(encoding="utf-8"))]


def of_pyflakes(files: Iterable[Path]) -> list[str]:
    """What it says, but of lines that say so."""
    return [it for it in run("pyflakes3", *files) if not is_noted(it)]


def is_noted(line: str) -> bool:
    path, number, *_ = f"{line}:0".split(":")
    if not number.isdigit() or not Path(path).is_file():
        return False
    lines = Path(path).read_text(encoding="utf-8").splitlines()
    return "# noqa" in "".join(lines[int(number) - 1:][:1])


def of_mypy(cache: Path, files: Iterable[Path]) -> list[str]:
    lines = run("mypy", "--config-file", TYPES, "--cache-dir", cache, *files)
    return [it for it in lines if not it.startswith("Success: ")]


def of_clang(file: Path) -> list[str]:
    return run("clang", *C_WORDS, file)


def of_shellcheck(files: Iterable[Path]) -> list[str]:
    return run("shellcheck", "--severity=warning", "--format=gcc", *files)


def of_typescript(folder: Path) -> list[str]:
    """What it says of names, imports and syntax. What goes on in further lines has spaces first."""
    lines = run("tsc", "-p", "jsconfig.json", "--checkJs", "--pretty", "false", folder=folder)
    return [it for it in lines if not it.startswith(" ") and YOUNGER not in it
            and OF_TYPES.isdisjoint(re.findall(r": error (TS\d+): ", it))]


def of_editors(path: Path) -> list[str]:
    text = path.read_bytes().decode()
    said = [f"{at}: spaces at its end" for at, line in enumerate(text.split("\n"), 1)
            if line != line.rstrip()]
    said += ["a tab"] if "\t" in text else []
    said += ["no end of line at its end"] if text and not text.endswith("\n") else []
    return [f"{path}: {it}" for it in said]


class TestLinters(Case):
    weight = 60

    def nothing(self, said: list[str]) -> None:
        self.assertEqual(said, [], "\n".join(["", *said]))

    def found(self, said: list[str], *wanted: str) -> None:
        for it in wanted:
            self.assertTrue(any(it in line for line in said), f"{it}: {said}")

    def planted(self, name: str, text: str) -> Path:
        path = self.folder() / name
        path.write_text(text)
        return path

    def test_python(self) -> None:
        files = written_in(sources(), r"\.py", "python")
        self.assertGreater(len(files), 400)
        self.nothing(of_pyflakes(files))
        self.tells(f"{len(files)} files")
        said = of_pyflakes([self.planted(
            "it.py", "import os\nimport re  # noqa: F401\ndef one():\n    return nothing\n")])
        self.assertEqual(len(said), 2, said)
        self.found(said, "'os' imported but unused", "undefined name 'nothing'")

    def test_types(self) -> None:
        folders = [*ROOT.glob("tools/*_of"), ROOT / "vectors" / "dukpt_check"]
        self.assertGreater(len(folders), 8)
        cache = self.folder()
        self.nothing(of_mypy(cache, folders))
        self.found(of_mypy(cache, [self.planted("it.py", "def one() -> int:\n    return ''\n")]),
                   "Incompatible return value type")

    def test_c(self) -> None:
        files = [it for it in written_in(sources(), r"\.cc?", "no")
                 if it != ROOT / NOT_ALONE]
        self.assertGreater(len(files), 50)
        self.nothing([line for it in files for line in of_clang(it)])
        self.tells(f"{len(files)} files")
        self.found(of_clang(self.planted(
            "it.c", "int it(int way)\n{\n    int one;\n    if (way)\n        one = 1;\n"
            "    return one / 2;\n}\n")), "garbage value")

    def test_shell(self) -> None:
        files = written_in(sources(), r"\.bash|\.(post|pre)(inst|rm)", "(ba)?sh")
        self.assertGreater(len(files), 10)
        self.nothing(of_shellcheck(files))
        self.tells(f"{len(files)} files")
        self.found(of_shellcheck([self.planted("it", "#!/bin/sh\ncd /tmp\nlocal a\necho $b\n")]),
                   "[SC2164]")

    def test_javascript(self) -> None:
        self.nothing(of_typescript(PAGE))
        folder = self.folder()
        shutil.copy(PAGE / "jsconfig.json", folder)
        (folder / "one.js").write_text("export const one = 1;\n")
        (folder / "two.js").write_text(
            'import { one, other } from "./one.js";\nexport const two = nothing + other;\n')
        self.found(of_typescript(folder), "'one' is declared but its value is never read",
                   "has no exported member 'other'", "Cannot find name 'nothing'")
        # Of a file that it cannot read it says no more.
        (folder / "three.js").write_text("export const three = (1;\n")
        self.found(of_typescript(folder), "three.js(1,24)")

    def test_editors(self) -> None:
        files = [it for it in sources() if not str(it.relative_to(ROOT)).startswith(BYTES)]
        self.assertGreater(len(files), 500)
        self.nothing([line for it in files for line in of_editors(it)])
        said = of_editors(self.planted("it.txt", "one \ntwo\tthree\r\nfour"))
        self.assertEqual([it.partition("it.txt: ")[2] for it in said], [
            "1: spaces at its end", "2: spaces at its end", "a tab", "no end of line at its end"])
