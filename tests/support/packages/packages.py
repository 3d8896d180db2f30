"""The Debian packages: made by tools/package, and read as files of dpkg's format."""
from __future__ import annotations

import io
import os
import shutil
import subprocess
import sys
import tarfile
from pathlib import Path
from typing import Mapping, Optional, Sequence

from ..case import Case
from ..library.library import built_library
from ..program import ROOT, Ended, Word, built, demand_built

TOOL = Path("tools") / "package"
VERSION = "0.1.0"
# The version of packages of something that is not known as proved.
UNPROVED = f"{VERSION}+unproved"
NAMES = {"dukpt": "amd64", "dukpt-host": "all", "libdukpt0": "amd64", "libdukpt-dev": "amd64", "python3-dukpt": "all"}
SECONDS = 600
# What the tool reads beside program and library.
PARTS = ("tools", "share", "docs", "examples", "library", "vectors", "page/dukpt.html", "README.md",
         "CHANGELOG.md", "CONTRIBUTING.md", "crates.txt", "crates/duk_program/src")
# The head of a member of an ar archive: its name, and after that its date.
AR_HEAD, AR_DATE = 60, slice(16, 28)


def demand(**packages: str) -> None:
    """Fails with the package of Debian that has a command which is not there."""
    for command, package in packages.items():
        name = command.replace("_", "-")
        if not shutil.which(name):
            raise AssertionError(f"{name} is not installed: apt-get install {package}")


def make(root: Path, *words: Word, **changes: Optional[str]) -> Ended:
    """The end of the tool of a repository, with these arguments, and changes of its environment,
    of which None is to be unset."""
    environment = {**os.environ, **changes}
    done = subprocess.run(
        [sys.executable, root / TOOL, *words], capture_output=True, check=False, timeout=SECONDS,
        env={name: value for name, value in environment.items() if value is not None})
    return Ended(done.returncode, done.stdout, done.stderr)


def copy_of_repository(folder: Path, parts: Sequence[str] = PARTS) -> None:
    """Copies what the tool reads, without what belongs to a clone alone."""
    for part in parts:
        copy = shutil.copytree if (ROOT / part).is_dir() else shutil.copy2
        (folder / part).parent.mkdir(parents=True, exist_ok=True)
        copy(ROOT / part, folder / part)


class Package:
    """The file of a package."""

    def __init__(self, path: Path) -> None:
        self.path = path
        self.files = self.members("--fsys-tarfile")
        self.control = self.members("--ctrl-tarfile")

    def members(self, part: str) -> dict[str, tuple[tarfile.TarInfo, bytes]]:
        """What is in a part, by its path without `./`: each one's head, and the bytes of a file."""
        demand(dpkg_deb="dpkg")
        done = subprocess.run(["dpkg-deb", part, self.path], capture_output=True, check=True)
        with tarfile.open(fileobj=io.BytesIO(done.stdout)) as held:
            return {it.name.removeprefix("./"): (it, content_of(held, it)) for it in held}

    def content(self, path: str) -> bytes:
        return self.files[path][1]

    def fields(self) -> dict[str, str]:
        """The fields of control, without the paragraphs of the description."""
        lines = self.control["control"][1].decode().splitlines()
        return dict(line.split(": ", 1) for line in lines if not line.startswith(" "))

    def dates(self) -> set[int]:
        """The dates of all files and folders, and of the members of the package itself."""
        heads = [it for it, _ in (*self.files.values(), *self.control.values())]
        return {int(it.mtime) for it in heads} | set(self.dates_of_members())

    def dates_of_members(self) -> list[int]:
        image, at, found = self.path.read_bytes(), len(b"!<arch>\n"), []
        while at < len(image):
            head = image[at : at + AR_HEAD]
            found.append(int(head[AR_DATE]))
            size = int(head[48:58])
            at += AR_HEAD + size + size % 2
        return found


def content_of(held: tarfile.TarFile, it: tarfile.TarInfo) -> bytes:
    file = held.extractfile(it) if it.isfile() else None
    return file.read() if file else b""


class PackageCase(Case):
    """A test of packages of the built program and library."""

    def inputs(self) -> Mapping[str, Path]:
        program = built("dukpt")[0]
        demand_built(program)
        return {"--program": program.path, "--library": built_library()}

    def small_program(self) -> Path:
        """A compiled program that says its version, for what does not depend on the program."""
        demand(gcc="gcc")
        made = self.folder() / "dukpt"
        text = f'#include <stdio.h>\nint main(void) {{ return puts("dukpt {VERSION}") < 0; }}\n'
        subprocess.run(["gcc", "-xc", "-", "-o", made], input=text.encode(), check=True)
        return made

    def made(
        self, root: Path = ROOT, program: Optional[Path] = None, **changes: Optional[str]
    ) -> dict[str, Package]:
        """The packages that a repository's tool makes, in a new folder. A program that is given is
        not known as proved."""
        out, inputs = self.folder(), dict(self.inputs())
        if program:
            inputs["--program"] = program
        words = [word for pair in inputs.items() for word in pair]
        words += ["--unproved"] if program else []
        ended = make(root, *words, "--out", out, **changes)
        self.assertEqual((ended.status, ended.faults), (0, b""), ended)
        return packages_in(out, UNPROVED if program else VERSION)


def packages_in(folder: Path, version: str) -> dict[str, Package]:
    """The packages of a folder, which has each one and nothing else."""
    wanted = {f"{name}_{version}_{kind}.deb": name for name, kind in NAMES.items()}
    found = sorted(it.name for it in folder.iterdir())
    if found != sorted(wanted):
        raise AssertionError(f"the packages are {found}")
    return {wanted[name]: Package(folder / name) for name in found}
