"""The examples of library/examples in each language, as commands over the library that is built."""
from __future__ import annotations

import os
import subprocess
import sys
from pathlib import Path

from ..case import Case
from ..program import ROOT, Word
from .library import built_library, compiler
from .python_library import PACKAGE, SHARED, VARIABLE
from .rust_library import built_examples

EXAMPLES = ROOT / "library" / "examples"
SECONDS = 300


class ExampleCase(Case):
    """A test of the examples in one language, in a folder of its own. That is in memory where it can
    be: thousands of syncs take long on a disk, and show nothing here."""

    def setUp(self) -> None:
        super().setUp()
        self.home = self.folder(in_memory=True)

    def command(self, name: str) -> list[str]:
        """The words that start an example."""
        raise NotImplementedError

    def run_example(
        self, name: str, *words: str, given: bytes = b"", before: tuple[str, ...] = ()
    ) -> subprocess.CompletedProcess[bytes]:
        """Runs an example to its end, perhaps by a command before it."""
        return subprocess.run(
            [*before, *self.command(name), *words], cwd=self.home, input=given,
            capture_output=True, env=known(), timeout=SECONDS, check=False)


def known() -> dict[str, str]:
    """The environment of an example."""
    return {**os.environ, VARIABLE: str(built_library() / SHARED), "PYTHONPATH": str(PACKAGE),
            "PYTHONDONTWRITEBYTECODE": "1"}


class InC(ExampleCase):
    # What is compiled and linked with an example.
    beside: tuple[Word, ...] = ()

    def setUp(self) -> None:
        super().setUp()
        self.made = self.folder()

    def command(self, name: str) -> list[str]:
        program, library = self.made / name, built_library()
        if not program.exists():
            compiler("-std=c11", "-Wall", "-Wextra", "-Wpedantic", "-Werror", "-O1", "-I", library,
                     "-o", program, EXAMPLES / f"{name}.c", *self.beside, library / "libdukpt.a")
        return [str(program)]


class InPython(ExampleCase):
    # The folder of the examples.
    sources: Path = EXAMPLES

    def command(self, name: str) -> list[str]:
        return [sys.executable, str(self.sources / f"{name}.py")]


class InRust(ExampleCase):
    def command(self, name: str) -> list[str]:
        return [str(built_examples() / name)]
