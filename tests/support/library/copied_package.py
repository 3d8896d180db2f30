"""Runs a test on a copy of the Python package and of the examples, in a process of its own:
`python3 -m tests.support.library.copied_package PACKAGE EXAMPLES SEED TEST..`. The status is 1 where it fails.
"""
from __future__ import annotations

import sys
import unittest
from pathlib import Path

from ..case import Case
from . import example_programs, python_library

# How many cases of a call are tried.
FEW = 60


def main(package: str, examples: str, seed: str, *tests: str) -> int:
    # Before the modules of the tests take these names.
    python_library.PACKAGE = example_programs.PACKAGE = Path(package)
    example_programs.InPython.sources = Path(examples)
    Case.seed = int(seed)
    from ...library import test_library_python as python

    python.COUNTS.update({name: min(FEW, count) for name, count in python.COUNTS.items()})
    names = [f"tests.library.{it}" for it in tests]
    suite = unittest.defaultTestLoader.loadTestsFromNames(names)
    done = unittest.TextTestRunner(stream=sys.stderr).run(suite)
    return 0 if done.wasSuccessful() and done.testsRun else 1


if __name__ == "__main__":
    sys.exit(main(*sys.argv[1:]))
