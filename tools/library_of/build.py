"""Builds the library's files of the archive that the kit makes of the proved crate."""
from __future__ import annotations

import os
import shutil
import subprocess
import tempfile
from pathlib import Path
from typing import Optional, Union

from . import kit
from .calls import Table
from .record import sums_of_inputs, write_record
from .table import read_table

Word = Union[str, os.PathLike]

SOURCES = ("library", "c")

SHARED, LINK, STATIC, PROVIDES = "libdukpt.so.0", "libdukpt.so", "libdukpt.a", "dukpt.pc"

# Of each command that is run, the Debian package that has it.
PACKAGES = {"gcc": "gcc", "ld": "binutils", "objcopy": "binutils", "ar": "binutils"}


class Refused(Exception):
    """Why nothing is built, in a line or more."""


def build(root: Path, archive: Optional[Path], out: Path) -> None:
    """Builds all files in a folder of their own, and then moves them to where they go."""
    for command in PACKAGES:
        demand(command)
    is_proved = archive is None
    if archive is None:
        archive = kit.archive()
    elif not archive.is_file():
        raise Refused(f"there is no archive {archive}")
    # Before they are read: what changes meanwhile is not what they are said to be.
    made_of = sums_of_inputs(root, archive)
    table, sources = read_table(root), root.joinpath(*SOURCES)
    out.mkdir(parents=True, exist_ok=True)
    with tempfile.TemporaryDirectory(prefix="library-", dir=out.parent) as made_in:
        folder = Path(made_in)
        compile_support(sources, folder / "support.o")
        link_object(archive, folder / "support.o", table, folder / "dukpt.o")
        run("ar", "rcsD", folder / STATIC, folder / "dukpt.o")
        link_shared(folder / "dukpt.o", sources / "dukpt.map", folder / SHARED)
        (folder / LINK).symlink_to(SHARED)
        shutil.copyfile(sources / "dukpt.h", folder / "dukpt.h")
        template = (sources / "dukpt.pc.in").read_text(encoding="utf-8")
        (folder / PROVIDES).write_text(beside(template, table.version_text), encoding="utf-8")
        for name in (STATIC, SHARED, LINK, "dukpt.h", PROVIDES):
            os.replace(folder / name, out / name)
    write_record(out, (STATIC, SHARED, "dukpt.h", PROVIDES), table.version_text, is_proved, made_of)


def demand(command: str) -> None:
    if shutil.which(command) is None:
        raise Refused(f"{command} is not installed: apt-get install {PACKAGES[command]}")


def compile_support(sources: Path, made: Path) -> None:
    """Compiles what the library has for C alone. The frame of its wipe of the stack has to begin
    with the frame pointer, and to end with it. No path of this machine gets into the object."""
    run("gcc", "-std=c11", "-O2", "-fPIC", "-fno-omit-frame-pointer", "-fno-stack-protector",
        "-fvisibility=default", "-Wall", "-Wextra", "-Wpedantic", "-Werror",
        f"-ffile-prefix-map={sources}=.", "-c", sources / "support.c", "-o", made)


def link_object(archive: Path, support: Path, table: Table, made: Path) -> None:
    """Links what the exports reach into one object, in which they alone are global."""
    wanted = [f"--undefined={it.export}" for it in table.exports]
    run("ld", "-r", "--force-group-allocation", "--require-defined=dukpt_version", *wanted, support,
        archive, "-o", made)
    kept = made.with_suffix(".exports")
    kept.write_text("".join(f"{it}\n" for it in table.symbols), encoding="utf-8")
    run("objcopy", "--strip-debug", f"--keep-global-symbols={kept}", made)


def link_shared(made: Path, exports: Path, shared: Path) -> None:
    """Links the shared library: what it needs of the C library is found, and is found at once."""
    run("gcc", "-shared", "-fPIC", f"-Wl,-soname,{SHARED}", f"-Wl,--version-script={exports}",
        "-Wl,-z,defs", "-Wl,-z,relro", "-Wl,-z,now", "-Wl,-z,noexecstack", "-Wl,--as-needed", made,
        "-o", shared)


def beside(template: str, version: str) -> str:
    """The description for pkg-config of files that stand in one folder with it."""
    values = {"prefix": "${pcfiledir}", "includedir": "${prefix}", "libdir": "${prefix}",
              "version": version}
    for name, value in values.items():
        template = template.replace(f"@{name}@", value)
    return template


def run(command: str, *words: Word) -> None:
    done = subprocess.run([command, *(os.fspath(it) for it in words)], stdout=subprocess.PIPE,
                          stderr=subprocess.STDOUT, text=True, check=False)
    if done.returncode != 0:
        raise Refused(f"{command} failed\n{done.stdout.rstrip()}")
