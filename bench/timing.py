"""What bench/measure and bench/library share: the time that a program takes, and how both build C."""
from __future__ import annotations

import hashlib
import os
import subprocess
import sys
import tempfile
from typing import IO, Sequence, Union

BENCH = os.path.dirname(os.path.realpath(__file__))
ROOT = os.path.dirname(BENCH)
OUT = os.path.join(BENCH, "out")
USAGE = os.path.join(OUT, "usage")
# What a program reads, or writes to: a file, or nothing.
Stream = Union[IO[bytes], int]
# The functions over OpenSSL's libcrypto, and how they are compiled.
OPENSSL = os.path.join(BENCH, "openssl")
OVER_OPENSSL = ["-O2", "-DOPENSSL_SUPPRESS_DEPRECATED"]


def usage_of(
    program: str,
    words: Sequence[str],
    given: Stream = subprocess.DEVNULL,
    output: Stream = subprocess.DEVNULL,
) -> tuple[float, int]:
    """The processor time in seconds and the memory in KiB of one run of a program."""
    done = subprocess.run([USAGE, program, *words], stdin=given, stdout=output,
                          stderr=subprocess.PIPE)
    if done.returncode != 0:
        sys.exit(f"{program} {' '.join(words)}: status {done.returncode}\n{done.stderr.decode()}")
    microseconds, memory = map(int, done.stderr.split())
    return microseconds / 1_000_000, memory


class Run:
    """One run of a program: its processor time in seconds, its memory in KiB and its output."""

    def __init__(self, program: str, words: Sequence[str], source: str = os.devnull) -> None:
        with open(source, "rb") as given, tempfile.TemporaryFile() as output:
            self.seconds, self.memory = usage_of(program, words, given, output)
            output.seek(0)
            self.output = hashlib.file_digest(output, "sha256").hexdigest()


def call(words: Sequence[str], folder: str) -> None:
    """Runs a command in a folder, and ends with what it says where it fails."""
    done = subprocess.run(words, cwd=folder, stdout=subprocess.DEVNULL, stderr=subprocess.PIPE)
    if done.returncode != 0:
        sys.exit(f"{' '.join(words)}, in {folder}: failed\n{done.stderr.decode()}")


def build_usage() -> None:
    """Builds the program that tells what another one uses."""
    os.makedirs(OUT, exist_ok=True)
    call(["cc", "-O2", "-o", USAGE, "usage.c"], BENCH)


def c_files(folder: str) -> list[str]:
    """The paths of the C files of a folder."""
    return sorted(os.path.join(folder, name) for name in os.listdir(folder) if name.endswith(".c"))
