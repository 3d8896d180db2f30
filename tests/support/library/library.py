"""The library for other languages, built once for all tests that use it, and C programs over it."""
from __future__ import annotations

import fcntl
import hashlib
import os
import shutil
import subprocess
import sys
from contextlib import contextmanager
from pathlib import Path
from typing import Iterable, Iterator, Optional, Sequence

from ..program import ROOT, Word

BUILT = ROOT / "out" / "library"
# The sums of the sources of what was found built, and of its record.
SUMS = BUILT.with_suffix(".sums")
SOURCES = (ROOT / "library" / "c", ROOT / "library" / "calls.toml", ROOT / "tools" / "library_of",
           *ROOT.glob("crates/duk*/src"))
FILES = ("libdukpt.a", "libdukpt.so.0", "libdukpt.so", "dukpt.h", "dukpt.pc", "BUILD")
# Of each command that tests of the library run, the Debian package that has it.
PACKAGES = {"gcc": "gcc", "g++": "g++", "clang": "clang", "clang++": "clang", "valgrind": "valgrind",
            "nm": "binutils", "readelf": "binutils", "cargo-clippy": "rust-clippy"}
SECONDS = 1800
# The file of another library, for all tests; and whether a run may build the one of the repository.
VARIABLE, MAY_BUILD = "DUKPT_LIBRARY", "DUKPT_TESTS_BUILD"
NOT_BUILT = (
    "out/library is not built of these sources, which may take an hour: build it by tools/library, or by"
    f" tools/test --build, or have {VARIABLE} name the file of another one")


class LibraryMissing(AssertionError):
    """That the library cannot be built, or a command is missing: a test that wants it fails."""


def demand(*commands: str) -> None:
    """That commands are there."""
    for command in commands:
        if shutil.which(command) is None:
            package = PACKAGES.get(command, command)
            raise LibraryMissing(f"{command} is not installed: apt-get install {package}")


@contextmanager
def locked(path: Path) -> Iterator[None]:
    """No other test of any run is in such a part with the same path meanwhile."""
    path.parent.mkdir(parents=True, exist_ok=True)
    with open(path, "w", encoding="ascii") as lock:
        fcntl.flock(lock, fcntl.LOCK_EX)
        yield


def newest(paths: Iterable[Path]) -> float:
    """When the newest of these files, and of those in these folders, was changed."""
    return max((file.stat().st_mtime for path in paths for file in files_of(path)), default=0)


def files_of(path: Path) -> list[Path]:
    """A file, or the files of a folder and of those in it."""
    return [path] if path.is_file() else [it for it in path.rglob("*.*") if it.is_file()
                                          and "__pycache__" not in it.parts]


def is_fresh(made: Sequence[Path], sources: Iterable[Path]) -> bool:
    """Whether files are there, and none of their sources is newer than the oldest."""
    return all(map(Path.exists, made)) and (
        min(file.stat().st_mtime for file in made) >= newest(filter(Path.exists, sources)))


def built_library() -> Path:
    """The folder of the built library: of the file that DUKPT_LIBRARY names, or else of the
    repository. That one is built where it is not made of the sources as they are, if the run may: one
    of chosen tests is to be told so, since all proofs may belong to it."""
    named = os.environ.get(VARIABLE)
    if named:
        return whole(Path(named).absolute().parent)
    with locked(BUILT.with_suffix(".lock")):
        if not is_current():
            if not os.environ.get(MAY_BUILD):
                raise LibraryMissing(NOT_BUILT)
            build()
            keep_sums()
    return BUILT


def whole(folder: Path) -> Path:
    """A folder of a library, which has each of its files."""
    missing = [name for name in FILES if not (folder / name).exists()]
    if missing:
        raise LibraryMissing(f"{VARIABLE} names a file of {folder}, which has no {' and no '.join(missing)}")
    return folder


def is_current() -> bool:
    """Whether the library is made of the sources as they are: none is newer, or each has the bytes
    that it had when none was."""
    made = [BUILT / name for name in FILES]
    if is_fresh(made, SOURCES):
        keep_sums()
        return True
    return all(map(Path.exists, made)) and SUMS.exists() and SUMS.read_text() == sums()


def keep_sums() -> None:
    SUMS.write_text(sums(), encoding="ascii")


def sums() -> str:
    """The sums of the sources, and of the record of what is built, by their paths."""
    files = [file for path in (*SOURCES, BUILT / "BUILD") for file in files_of(path)]
    return "".join(f"{hashlib.sha256(it.read_bytes()).hexdigest()} {it.relative_to(ROOT)}\n"
                   for it in sorted(files))


# What tools/library reads, but for the archive and the built library.
READ = ("tools/library", "tools/library_of", "library/calls.toml", "library/c",
        "library/python/dukpt", "library/rust/src", "page/call_table.js", "docs/calls.txt",
        "share/debian/libdukpt0.symbols", "crates.txt", "crates/dukpt_c/src",
        "crates/duk_calls/src")


def copy_sources(folder: Path) -> Path:
    """Copies tools/library and what it reads into a folder, and gives the copied command."""
    for name in READ:
        source, copied = ROOT / name, folder / name
        copied.parent.mkdir(parents=True, exist_ok=True)
        if source.is_dir():
            shutil.copytree(source, copied, ignore=shutil.ignore_patterns("__pycache__"))
        else:
            shutil.copy2(source, copied)
    return folder / READ[0]


def build() -> None:
    done = subprocess.run([sys.executable, str(ROOT / "tools" / "library")],
                          capture_output=True, text=True, check=False)
    if done.returncode != 0:
        raise LibraryMissing(done.stderr.strip() or f"tools/library: status {done.returncode}")


# C programs

PROGRAMS = ROOT / "tests" / "data" / "library"
OVER_OPENSSL = ROOT / "bench" / "openssl"
OBJECTS = ROOT / "out" / "library-tests"
MAINS = ("random", "lengths", "lines", "stack", "secrets", "many")
STRICT = ("-Wall", "-Wextra", "-Wpedantic", "-Werror")
PLAIN = ("-O2",)
SANITIZED = ("-O1", "-g", "-fsanitize=address,undefined", "-fno-sanitize-recover=all")


def compiler(*words: Word, folder: Optional[Path] = None, command: str = "gcc") -> None:
    """Runs a compiler, which says nothing where all is well."""
    demand(command)
    done = subprocess.run([command, *map(os.fspath, words)], cwd=folder, stdout=subprocess.PIPE,
                          stderr=subprocess.STDOUT, text=True, check=False)
    if done.returncode != 0 or done.stdout:
        raise LibraryMissing(explained(f"{command} failed\n{done.stdout.strip()}"))


def explained(fault: str) -> str:
    """A fault of a compiler, with the package that it lacks."""
    if "openssl/" in fault and "No such file" in fault:
        return f"{fault}\nlibcrypto's headers are not installed: apt-get install libssl-dev"
    if "valgrind/" in fault and "No such file" in fault:
        return f"{fault}\nvalgrind's headers are not installed: apt-get install valgrind"
    return fault


def objects(way: Sequence[str]) -> Path:
    """The folder of the objects of all programs, compiled in a way once for all tests."""
    folder = OBJECTS / ("plain" if way == PLAIN else "sanitized")
    sources = sorted(PROGRAMS.glob("*.c")) + [OVER_OPENSSL / "text.c"]
    with locked(folder.with_suffix(".lock")):
        # Two folders may have a file of one name.
        made = {folder / f"{it.parent.name}-{it.stem}.o": it for it in sources}
        if not is_fresh(list(made), (PROGRAMS, OVER_OPENSSL, ROOT / "library" / "c")):
            folder.mkdir(parents=True, exist_ok=True)
            for name, source in made.items():
                compiler("-std=c99", *STRICT, *way, "-DOPENSSL_SUPPRESS_DEPRECATED",
                         "-I", ROOT / "library" / "c", "-c", source, "-o", name)
    return folder


def program(
    main: str, folder: Path, way: Sequence[str] = PLAIN, is_shared: bool = False,
    shim: Sequence[Word] = (),
) -> Path:
    """A program of tests/data/library, linked into a folder with the archive or the shared library, and
    with a shim before it."""
    made = objects(way)
    parts = [it for it in sorted(made.glob("*.o"))
             if it.stem not in {f"library-{other}" for other in MAINS if other != main}]
    compiler(*way, "-o", folder / main, *parts, *shim, *linked(built_library(), is_shared),
             "-lcrypto")
    return folder / main


def linked(library: Path, is_shared: bool) -> list[Word]:
    """The words that link the library of a folder."""
    if not is_shared:
        return [library / "libdukpt.a"]
    return [f"-L{library}", "-ldukpt", f"-Wl,-rpath,{library}"]


def ran(*words: Word, given: str = "", seconds: float = SECONDS) -> str:
    """What a program writes that ends well. Its last lines are the fault of one that does not."""
    done = subprocess.run([*map(os.fspath, words)], input=given, stdout=subprocess.PIPE,
                          stderr=subprocess.STDOUT, text=True, timeout=seconds, check=False)
    if done.returncode != 0:
        lines = done.stdout.splitlines()
        tail = "\n".join(line[:3000] for line in lines if not line.startswith(("case ", "done ")))
        raise AssertionError(f"{Path(os.fspath(words[0])).name}: status {done.returncode}\n{tail}")
    return done.stdout
