"""The Rust crate of library/rust, over the library that is built."""
from __future__ import annotations

import os
import random
import re
import shutil
import subprocess
from functools import lru_cache
from pathlib import Path
from typing import Iterator, Sequence

from ..program import ROOT
from .binding_cases import BindingCase, binding_cases, names, spoiled
from .call_cases import Argument
from .library import LibraryMissing, built_library, demand, locked

CRATE = ROOT / "library" / "rust"
EXAMPLES = ROOT / "library" / "examples"
# What cargo builds, once for all tests.
BUILT = ROOT / "out" / "rust"
VARIABLE = "DUKPT_LIBRARY_DIR"
SECONDS = 600
# How many cases of a call there are, and of how many one argument is changed.
COUNT, FEW = 50, 15


def cargo(
    command: str, *words: str, crate: Path = CRATE, built: Path = BUILT,
    unset: Sequence[str] = (), **variables: str,
) -> subprocess.CompletedProcess[str]:
    """Runs a command of cargo in the crate, without a network. One runs at a time over what is
    built in a folder."""
    demand("cargo", "rustc", "gcc")
    known = {**os.environ, VARIABLE: str(built_library()), "CARGO_TARGET_DIR": str(built),
             "CARGO_TERM_COLOR": "never", "CARGO_INCREMENTAL": "0", "CARGO_PROFILE_DEV_DEBUG": "0"}
    known = {**{name: known[name] for name in known if name not in unset}, **variables}
    with locked(built.with_suffix(".lock")):
        return subprocess.run(
            ["cargo", command, "--offline", "--locked", *words], cwd=crate, capture_output=True,
            text=True, env=known, timeout=SECONDS, check=False)


@lru_cache(1)
def built_examples() -> Path:
    """The folder of the built examples of library/examples."""
    done = cargo("build", "--quiet", "--examples")
    if done.returncode != 0:
        raise LibraryMissing(f"cargo builds no examples:\n{done.stdout}{done.stderr}")
    return BUILT / "debug" / "examples"


def copied_crate(folder: Path) -> Path:
    """A copy of the crate with its examples beside it, and nothing else."""
    crate = folder / "library" / "rust"
    shutil.copytree(CRATE, crate, ignore=shutil.ignore_patterns("target"))
    shutil.copytree(EXAMPLES, folder / "library" / "examples",
                    ignore=shutil.ignore_patterns("__pycache__"))
    return crate


# Cases of the calls, as the crate's test reads them


def word(value: Argument) -> str:
    """A value: bytes, or the four bytes of a number."""
    data = value if isinstance(value, bytes) else value.to_bytes(4, "big")
    return data.hex() or "-"


def line(case: BindingCase) -> str:
    gives = [] if case.status else case.gives
    return " ".join([case.name, str(case.status), *map(word, case.given), "=", *map(word, gives)])


def cases(name: str, chance: random.Random, times: int) -> Iterator[BindingCase]:
    found = list(binding_cases(name, chance, COUNT * times))
    yield from found
    for case in found[:FEW]:
        yield spoiled(case, chance)


def write_cases(folder: Path, chance: random.Random, times: int = 1) -> tuple[str, int]:
    """A file of cases of each call, and how many they are."""
    lines = [line(case) for name in names() for case in cases(name, chance, times)]
    path = folder / "cases"
    path.write_text("".join(f"{it}\n" for it in lines))
    return str(path), len(lines)


def results(output: str) -> list[tuple[int, int]]:
    """Of each part of the crate's tests, how many passed and how many were ignored; no part where
    one failed."""
    found = re.findall(r"^test result: (\w+)\. (\d+) passed; (\d+) failed; (\d+) ignored", output,
                       re.MULTILINE)
    if any(state != "ok" or failed != "0" for state, _, failed, _ in found):
        return []
    return [(int(passed), int(ignored)) for _, passed, _, ignored in found]
