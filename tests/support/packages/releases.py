"""Releases of a repository of its own, whose program and library count as proved."""
from __future__ import annotations

import json
import os
import re
import shutil
import subprocess
import sys
from pathlib import Path
from typing import Any, Optional

from ..program import Ended, Word
from .packages import PARTS, VERSION, PackageCase, copy_of_repository, demand

TOOL = Path("tools") / "release"
# The option that makes a release of a version of which CHANGELOG.md says that there is none yet.
UNRELEASED = "--unreleased"
SECONDS = 600
NAMES = (
    "CHANGELOG.md", "SHA256SUMS", f"dukpt-{VERSION}-py3-none-linux_x86_64.whl",
    f"dukpt-{VERSION}.crate", f"dukpt-{VERSION}.provenance.json", f"dukpt-{VERSION}.spdx.json",
    f"dukpt-{VERSION}.tar.gz", f"dukpt-host_{VERSION}_all.deb", f"dukpt-vectors-{VERSION}.tar.gz", "dukpt.html",
    f"dukpt_{VERSION}_amd64.deb", f"libdukpt-{VERSION}-x86_64-linux.tar.gz",
    f"libdukpt-dev_{VERSION}_amd64.deb", f"libdukpt0_{VERSION}_amd64.deb",
    f"python3-dukpt_{VERSION}_all.deb")
# What a commit has beside its files, so that equal files have the same name of a commit.
OWNER = ("user.name=A Name", "user.email=name@example.org")
DAY = "2026-03-01T12:00:00Z"
DAY_SECONDS = 1772366400


class Repository:
    """A repository with one commit, and what a release is made of."""

    def __init__(self, folder: Path, program: Path, library: Path) -> None:
        self.root = folder / "dukpt"
        copy_of_repository(self.root, (*PARTS, ".gitignore"))
        made = self.root / "crates/dukpt/out/dukpt"
        made.parent.mkdir(parents=True)
        shutil.copy2(program, made)
        os.utime(made)
        shutil.copytree(library, self.root / "out/library", symlinks=True)
        record = self.root / "out/library/BUILD"
        record.write_text(re.sub("^Proof: none$", "Proof: proved", record.read_text(), flags=re.M))
        self.git("init", "--quiet")
        self.git("add", "--all")
        self.git("commit", "--quiet", "--message", "All")
        self.commit = self.git("rev-parse", "HEAD")

    def git(self, *words: str) -> str:
        told = [word for it in OWNER for word in ("-c", it)]
        days = {"GIT_AUTHOR_DATE": DAY, "GIT_COMMITTER_DATE": DAY}
        done = subprocess.run(["git", *told, *words], cwd=self.root, capture_output=True, text=True,
                              env={**os.environ, **days}, check=True)
        return done.stdout.strip()

    def release(self, out: Path, *words: Word, **changes: Optional[str]) -> Ended:
        """The end of a run of the tool, also before the version is released, with changes of its
        environment, of which None is to be unset."""
        return self.release_by(out, UNRELEASED, *words, **changes)

    def release_by(self, out: Path, *words: Word, **changes: Optional[str]) -> Ended:
        """The same, by these words alone."""
        known = {**os.environ, "SOURCE_DATE_EPOCH": None, **changes}
        done = subprocess.run(
            [sys.executable, self.root / TOOL, "--out", out, *words], capture_output=True,
            check=False, timeout=SECONDS,
            env={name: value for name, value in known.items() if value is not None})
        return Ended(done.returncode, done.stdout, done.stderr)


class ReleaseCase(PackageCase):
    """A test of releases."""

    def setUp(self) -> None:
        super().setUp()
        demand(git="git", cargo="cargo", dpkg_deb="dpkg", rt="the Rattle kit")

    def repository(self, program: Optional[Path] = None) -> Repository:
        given = self.inputs()
        return Repository(self.folder(), program or given["--program"], given["--library"])

    def made(self, repository: Repository, *words: Word, **changes: Optional[str]) -> Path:
        """The folder of a release."""
        out = self.folder() / "release"
        ended = repository.release(out, *words, **changes)
        self.assertEqual((ended.status, ended.faults), (0, b""), ended)
        self.assertEqual(sorted(it.name for it in out.iterdir()), sorted(NAMES))
        return out


def differing(one: Path, other: Path) -> list[str]:
    """The names of files that two folders have otherwise, or only one of them has."""
    names = {it.name for folder in (one, other) for it in folder.iterdir()}
    return sorted(name for name in names if bytes_of(one / name) != bytes_of(other / name))


def bytes_of(path: Path) -> Optional[bytes]:
    return path.read_bytes() if path.exists() else None


def read_json(folder: Path, kind: str) -> Any:
    return json.loads((folder / f"dukpt-{VERSION}.{kind}.json").read_text(encoding="utf-8"))
