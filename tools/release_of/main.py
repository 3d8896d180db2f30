"""The command tools/release."""
from __future__ import annotations

import argparse
import json
import shutil
import sys
import tempfile
from datetime import datetime
from pathlib import Path
from typing import Iterator, Sequence

from library_of.kit import Kit
from library_of.record import sum_of
from package_of.changelog import CHANGES, date_of, says_unreleased
from package_of.documents import PAGE
from package_of.items import Item, Refused, read
from package_of.main import MAINTAINER, ROOT, make as make_packages, name_and_address, sources_of
from package_of.revision import NONE
from package_of.sources import Sources

from .kit_parts import kit_parts
from .library import library_items, name_of
from .parts import Component, Json, parts
from .provenance import BUILDER, Made, statement
from .python_files import python_files
from .rust_crate import crate
from .tar import packed

SUMS, OUT = "SHA256SUMS", "--out"


def words() -> argparse.Namespace:
    parser = argparse.ArgumentParser(
        prog="tools/release", allow_abbrev=False,
        description="Makes all that is handed out of a version, in one folder: Debian's packages,"
        " the library for C, the Python package, the Rust crate, the page, the test vectors, a list"
        " of parts (SPDX), a statement of provenance (SLSA) and SHA256SUMS. Program and library have"
        " to be proved. Equal commits give equal bytes, with equal tools, options and"
        " SOURCE_DATE_EPOCH.")
    parser.add_argument(OUT, type=Path, default=ROOT / "out/release",
                        help="the folder, which has to be new or empty; else out/release")
    parser.add_argument("--program", type=Path, default=ROOT / "crates/dukpt/out/dukpt",
                        help="the proved program; else that of crates/dukpt/out")
    parser.add_argument("--library", type=Path, default=ROOT / "out/library",
                        help="the folder of tools/library; else out/library")
    parser.add_argument("--maintainer", type=name_and_address, default=MAINTAINER,
                        help="who hands it out: a name, and an address in angles")
    parser.add_argument("--builder", default=BUILDER, metavar="URI",
                        help="what the statement calls the machine that made it")
    parser.add_argument("--dirty", action="store_true",
                        help="takes files that differ from the commit, and names them in the"
                        " statement")
    parser.add_argument("--unreleased", action="store_true",
                        help=f"takes a {CHANGES} that says of this version that it is not released"
                        " yet. The statement has this option")
    # A release has nothing that is not proved.
    parser.set_defaults(unproved=False)
    return parser.parse_args()


def options(given: Sequence[str]) -> Iterator[str]:
    """The options as they were given, without the folder of the release, which changes no byte."""
    is_folder = False
    for word in given:
        is_out = word == OUT and not is_folder
        if not (is_folder or is_out or word.startswith(f"{OUT}=")):
            yield word
        is_folder = is_out


def demand_commit(sources: Sources, is_dirty_told: bool) -> None:
    """That the files are those of a commit."""
    revision = sources.revision
    if revision.commit == NONE:
        raise Refused(f"{ROOT}: it is no repository with a commit, which a release is of")
    if revision.changes and not is_dirty_told:
        raise Refused(f"{len(revision.changes)} files differ from the commit, first"
                      f" {revision.changes[0]}: commit them, or --dirty names them in the statement")


def demand_released(sources: Sources) -> None:
    """That the list of changes, which goes into each release, does not deny it."""
    if says_unreleased(sources.read(CHANGES).decode(), sources.version):
        raise Refused(f"{CHANGES}: its section of {sources.version} says that it is not released"
                      " yet: take that out, or --unreleased makes a release of it nevertheless")


def demand_empty(out: Path) -> None:
    if out.exists() and any(out.iterdir()):
        raise Refused(f"{out}: it is not empty, and a release has a folder of its own")


def make(told: argparse.Namespace, folder: Path) -> None:
    """Makes all files of a release in an empty folder."""
    demand_empty(told.out)
    sources = sources_of(told)
    demand_commit(sources, told.dirty)
    if not told.unreleased:
        demand_released(sources)
    date = date_of(ROOT)
    make_files(sources, told.maintainer, date, folder)
    kit = Kit.found().folder
    listed = parts(sources, sorted(folder.iterdir()), components(kit), date)
    write_json(folder / f"dukpt-{sources.packed}.spdx.json", listed)
    made = Made(tuple(sorted(folder.iterdir())), kit, told.builder, told.maintainer,
                int(date.timestamp()), tuple(options(sys.argv[1:])))
    write_json(folder / f"dukpt-{sources.packed}.provenance.json", statement(made, sources))
    lines = [f"{sum_of(it)}  {it.name}\n" for it in sorted(folder.iterdir())]
    (folder / SUMS).write_text("".join(lines), encoding="ascii")


def make_files(sources: Sources, maintainer: str, date: datetime, folder: Path) -> None:
    """Makes what is used of a release."""
    seconds = int(date.timestamp())
    with tempfile.TemporaryDirectory() as room:
        for path in make_packages(sources, maintainer, Path(room)):
            shutil.copyfile(path, folder / path.name)
    python_files(sources, folder, seconds)
    name, data = crate(sources)
    (folder / name).write_bytes(data)
    (folder / f"{name_of(sources)}.tar.gz").write_bytes(packed(library_items(sources), seconds))
    (folder / f"dukpt-vectors-{sources.packed}.tar.gz").write_bytes(
        packed(vectors(sources), seconds))
    (folder / "dukpt.html").write_bytes(sources.read(PAGE))
    (folder / CHANGES).write_bytes(sources.read(CHANGES))


def vectors(sources: Sources) -> Iterator[Item]:
    """The folder of test vectors, which stands alone."""
    top, held = f"dukpt-vectors-{sources.packed}", sources.root / "vectors"
    for path in sources.below("vectors"):
        mode = 0o755 if path.stat().st_mode & 0o100 else 0o644
        yield Item(f"{top}/{path.relative_to(held)}", read(path), mode)


def components(kit: Path) -> list[Component]:
    """What the crates of the repository are linked into."""
    return [
        Component("program", "the program dukpt", tuple(kit_parts(kit, "dukpt"))),
        Component("library", "libdukpt, which the Python wheel has too, and the module of the page",
                  tuple(kit_parts(kit, "dukpt_c"))),
        Component("player", "the module of the page's stage", tuple(kit_parts(kit, "dukpt_player"))),
    ]


def write_json(path: Path, value: dict[str, Json]) -> None:
    path.write_text(json.dumps(value, indent=1, sort_keys=False) + "\n", encoding="utf-8")


def hand_out(folder: Path, out: Path) -> None:
    """Puts the files into their folder, and the sums last: a release that has them is whole."""
    out.mkdir(parents=True, exist_ok=True)
    for path in sorted(folder.iterdir(), key=lambda it: (it.name == SUMS, it.name)):
        shutil.copyfile(path, out / path.name)
        print(f"{out / path.name}: {path.stat().st_size:,} bytes")


def main() -> int:
    told = words()
    try:
        with tempfile.TemporaryDirectory() as folder:
            make(told, Path(folder))
            hand_out(Path(folder), told.out)
    except (Refused, OSError) as why:
        print(f"release: {why}", file=sys.stderr)
        return 1
    return 0
