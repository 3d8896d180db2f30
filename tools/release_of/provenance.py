"""The statement of provenance (in-toto, SLSA 1): what was made, of what, how and by which tools.
It is not signed: whoever hands a release out may sign it."""
from __future__ import annotations

import hashlib
import os
import shlex
import subprocess
import sys
import zlib
from dataclasses import dataclass
from pathlib import Path
from typing import Iterable, Mapping

from library_of.record import PROVED, UNPROVED, sum_of
from package_of.items import Refused, read
from package_of.sources import Sources

from .parts import PLACE, Json

STATEMENT, PREDICATE = "https://in-toto.io/Statement/v1", "https://slsa.dev/provenance/v1"
BUILD_TYPE, BUILDER = f"{PLACE}/release/v1", f"{PLACE}/builder/unnamed"
TOOLS = ("gcc", "ld", "ar", "objcopy", "strip", "dpkg", "dpkg-deb", "cargo", "rustc", "git")
# The variable that gives all files another date than the commit's.
DATE = "SOURCE_DATE_EPOCH"


@dataclass(frozen=True)
class Made:
    """What a statement is about, and what was told to the command that makes it."""

    files: tuple[Path, ...]
    kit_folder: Path
    builder: str
    maintainer: str
    seconds: int
    # The options as they were given, but for the folder of the release, which changes no byte.
    options: tuple[str, ...]


def statement(made: Made, sources: Sources) -> dict[str, Json]:
    return {
        "_type": STATEMENT,
        "subject": [{"name": it.name, "digest": {"sha256": sum_of(it)}} for it in made.files],
        "predicateType": PREDICATE,
        "predicate": {
            "buildDefinition": {
                "buildType": BUILD_TYPE,
                "externalParameters": told(made, sources),
                "internalParameters": {
                    DATE: str(made.seconds),
                    "kit": sources.proofs.kit,
                    "logic": sources.proofs.logic,
                    "proof": PROVED if sources.proofs.is_all_proved else UNPROVED,
                    "tools": {name: version for name, version in versions().items()},
                    "howToMakeItAgain": [*again(made, sources)],
                },
                "resolvedDependencies": [*materials(made, sources)],
            },
            "runDetails": {"builder": {"id": made.builder}},
        },
    }


def told(made: Made, sources: Sources) -> dict[str, Json]:
    """What the maker of the release chose. Of a tree with changes they are named."""
    found: dict[str, Json] = {"version": sources.packed, "revision": sources.revision.commit,
                              "tree": sources.revision.tree, "maintainer": made.maintainer,
                              "commandLine": ["tools/release", *made.options]}
    if os.environ.get(DATE):
        found["environment"] = {DATE: os.environ[DATE]}
    if sources.revision.changes:
        found["uncommitted"] = list(sources.revision.changes)
    return found


def again(made: Made, sources: Sources) -> Iterable[Json]:
    """What makes a release of the same commit, in this order. Of what was run before this tool it
    knows what stands in the records that it read, and no more."""
    yield from (f"git checkout {sources.revision.commit}", "./dukpt --prove", "tools/library")
    words = ["tools/release", "--out", "FOLDER", *made.options]
    yield f"{DATE}={made.seconds} {shlex.join(words)}"


def materials(made: Made, sources: Sources) -> Iterable[Json]:
    """The repository, the kit, and what was built before."""
    yield {"name": "repository", "uri": f"git+{PLACE}", "digest": {
        "gitCommit": sources.revision.commit}}
    yield {"name": f"{sources.proofs.kit.split()[0]}: WHAT", "digest": {
        "sha256": sum_of(made.kit_folder / "WHAT")}}
    yield {"name": "crates/dukpt/out/dukpt", "digest": {
        "sha256": hashlib.sha256(read(sources.program)).hexdigest()}}
    for name, sum_ in (*sources.record.made_of.items(), *sources.record.files.items()):
        yield {"name": name, "digest": {"sha256": sum_}}


def versions() -> Mapping[str, str]:
    """The first line that each tool says of its version, and the libraries that compress."""
    return {"python": sys.version.split()[0], "zlib": zlib.ZLIB_RUNTIME_VERSION,
            "liblzma": said_by("dpkg-query", "--show", "--showformat=${Version}", "liblzma5"),
            **{name: said_by(name, "--version") for name in TOOLS}}


def said_by(*words: str) -> str:
    try:
        done = subprocess.run(words, capture_output=True, text=True, check=True,
                              env={"PATH": os.environ["PATH"], "LC_ALL": "C.UTF-8"})
    except (OSError, subprocess.CalledProcessError):
        raise Refused(f"{' '.join(words)}: it does not run") from None
    return done.stdout.splitlines()[0]
