"""What changed, as git tells it."""
from __future__ import annotations

import subprocess
from dataclasses import dataclass
from pathlib import Path
from typing import Optional

from .crates import Crates

CRATES = "crates.txt"


class NotKnown(Exception):
    """Why the change cannot be told, as a sentence."""


@dataclass(frozen=True)
class Changes:
    """The files that changed, and crates.txt before and after."""

    files: list[str]
    before: Crates
    after: Crates


def changes(root: Path, given: Optional[str]) -> Changes:
    """What changed in a range A..B; from a revision to the files that are there; or since HEAD."""
    old, dots, new = (given or "HEAD").partition("..")
    old = old or "HEAD"
    if dots:
        if new.startswith("."):
            new = new[1:]
            old = git(root, "merge-base", old, new or "HEAD").strip()
        return between(root, old, new or "HEAD")
    files = listed(git(root, "diff", "--no-renames", "--name-only", "-z", checked(root, old), "--"))
    files += listed(git(root, "ls-files", "--others", "--exclude-standard", "-z"))
    path = root / CRATES
    after = path.read_text(encoding="utf-8") if path.exists() else ""
    return Changes(sorted({*files}), crates_at(root, old), Crates.of(after))


def between(root: Path, old: str, new: str) -> Changes:
    named = checked(root, old), checked(root, new)
    files = listed(git(root, "diff", "--no-renames", "--name-only", "-z", *named, "--"))
    return Changes(files, crates_at(root, old), crates_at(root, new))


def checked(root: Path, revision: str) -> str:
    """The name of the commit that a revision means."""
    return git(root, "rev-parse", "--verify", "--quiet", "--end-of-options",
               f"{revision}^{{commit}}", why=f"{revision} is no revision").strip()


def crates_at(root: Path, revision: str) -> Crates:
    """The crates of a revision: none where it has no list of them."""
    commit = checked(root, revision)
    has_list = git(root, "ls-tree", "--name-only", commit, "--", CRATES)
    return Crates.of(git(root, "show", f"{commit}:{CRATES}") if has_list else "")


def listed(text: str) -> list[str]:
    return [it for it in text.split("\0") if it]


def git(root: Path, *words: str, why: str = "") -> str:
    try:
        done = subprocess.run(["git", *words], cwd=root, capture_output=True, text=True, check=False)
    except FileNotFoundError:
        raise NotKnown("there is no git") from None
    if done.returncode:
        raise NotKnown(why or done.stderr.strip())
    return done.stdout
