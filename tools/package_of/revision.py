"""The revision of the repository, as git has it."""
from __future__ import annotations

import os
import subprocess
from dataclasses import dataclass
from functools import cached_property
from pathlib import Path
from typing import AbstractSet, Iterator

from .items import Refused

NONE = "none"
# No setting of a user's own hides a file, and another account than that of the repository may ask.
SETTINGS = ("safe.directory=*", "core.excludesFile=", "core.fsmonitor=false")
# What git says of a file that it has, and that it compares with the commit.
COMPARED = "H"


@dataclass(frozen=True)
class Revision:
    """A commit, its date in seconds, the files that git has, and those that differ from the commit,
    are not in it, or are not compared with it."""

    commit: str = NONE
    seconds: str = ""
    tracked: tuple[str, ...] = ()
    changes: tuple[str, ...] = ()

    @property
    def tree(self) -> str:
        """What the files are beside the commit."""
        return NONE if self.commit == NONE else "modified" if self.changes else "clean"

    @cached_property
    def files(self) -> AbstractSet[str]:
        """Those that are packed: of the commit, or named as changes of it."""
        return {*self.tracked, *self.changes}


def revision_of(root: Path) -> Revision:
    """That of a folder which is a repository of its own. Of another one, or one without a commit,
    there is none."""
    if not (root / ".git").exists() or not said_by_git(root, "rev-list", "--all", "--max-count=1"):
        return Revision()
    commit, _, seconds = said_by_git(root, "log", "-1", "--format=%H %ct").strip().partition(" ")
    listed = [it.split(" ", 1) for it in parts(said_by_git(root, "ls-files", "-v", "-z"))]
    status = said_by_git(root, "status", "--porcelain", "-z", "--no-renames",
                         "--untracked-files=all")
    # Each has two letters and a space before its path.
    changed = {it[3:] for it in parts(status)}
    changed |= {path for tag, path in listed if tag != COMPARED}
    return Revision(commit, seconds, tuple(path for _, path in listed), tuple(sorted(changed)))


def parts(text: str) -> Iterator[str]:
    return filter(None, text.split("\0"))


def said_by_git(root: Path, *words: str) -> str:
    """What git prints, which has to end well: else nothing is known of the files."""
    told = [word for it in SETTINGS for word in ("-c", it)]
    known = {name: it for name, it in os.environ.items() if not name.startswith("GIT_")}
    try:
        done = subprocess.run(["git", *told, "--no-optional-locks", "-C", str(root), *words],
                              env=known, capture_output=True, check=False)
    except FileNotFoundError:
        raise Refused("there is no git: it is in the Debian package git") from None
    if done.returncode:
        why = os.fsdecode(done.stderr).strip().replace("\n", " ")
        raise Refused(f"{root}: git {words[0]} fails, so it is not known what of the files is in"
                      f" the commit: {why}")
    return os.fsdecode(done.stdout)
