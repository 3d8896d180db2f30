"""The command tools/package."""
from __future__ import annotations

import argparse
import re
import sys
import tempfile
from dataclasses import replace
from pathlib import Path
from typing import Iterable, Sequence

from .about import build_file
from .archive import sums, write_package
from .built import demand_inputs, proofs_of
from .changelog import date_of, debian_changelog
from .contents import packages
from .control import Package, control_file
from .documents import compressed
from .items import Item, Refused
from .revision import revision_of
from .sources import Sources
from .versions import version_of

ROOT = Path(__file__).resolve().parent.parent.parent
# The project has no address. Whoever hands packages out gives one.
MAINTAINER = "The dukpt project <dukpt@project.invalid>"
# What stands behind the version of packages of which something is not known as proved.
UNPROVED = "+unproved"


def words() -> argparse.Namespace:
    parser = argparse.ArgumentParser(
        prog="tools/package",
        description="Makes the Debian packages of the program, the library and its Python package."
        " All files have the date SOURCE_DATE_EPOCH, or else that of the last commit, and equal"
        " inputs give equal packages.")
    parser.add_argument("--program", type=Path, default=ROOT / "crates/dukpt/out/dukpt",
                        help="the built program; else that of crates/dukpt/out")
    parser.add_argument("--library", type=Path, default=ROOT / "out/library",
                        help="the folder of tools/library; else out/library")
    parser.add_argument("--out", type=Path, default=ROOT / "out/packages",
                        help="the folder that the packages go to; else out/packages")
    parser.add_argument("--maintainer", type=name_and_address, default=MAINTAINER,
                        help="who hands them out: a name, and an address in angles")
    parser.add_argument("--unproved", action="store_true",
                        help="packs also a program or a library that is not known as proved. The"
                        f" version of the packages then ends in {UNPROVED}")
    return parser.parse_args()


def name_and_address(text: str) -> str:
    if not re.fullmatch(r"[^<>\s][^<>\n]* <[^<>\s@]+@[^<>\s@]+>", text):
        raise argparse.ArgumentTypeError("it is to be as in: A Name <name@example.org>")
    return text


def sources_of(told: argparse.Namespace) -> Sources:
    """What packages are made of, which has to be there, and of one version."""
    record = demand_inputs(ROOT, told.program, told.library)
    version = version_of(ROOT, told.program, told.library)
    proofs = proofs_of(ROOT, told.program, told.library, told.unproved)
    return Sources(ROOT, told.program, told.library, version,
                   version if proofs.is_all_proved else version + UNPROVED, revision_of(ROOT),
                   proofs, record)


def with_documents(package: Package, sources: Sources, maintainer: str) -> Sequence[Item]:
    """The files of a package, with those that each package has."""
    folder = f"usr/share/doc/{package.name}"
    changes = debian_changelog(sources.root, package.name, sources.packed, maintainer)
    return sorted([*package.items,
                   build_file(package.name, package.proof, package.made_of, sources),
                   Item(f"{folder}/copyright", sources.share("debian", "copyright")),
                   Item(f"{folder}/changelog.gz", compressed(changes.encode()))],
                  key=lambda it: it.path)


def make(sources: Sources, maintainer: str, folder: Path) -> list[Path]:
    """Makes all packages in an empty folder."""
    seconds, made = int(date_of(ROOT).timestamp()), []
    for package in packages(sources):
        items = with_documents(package, sources, maintainer)
        whole = replace(package, items=items)
        control = [control_file(whole, sources.packed, maintainer), sums(items), *package.control]
        made.append(folder / package.file_name(sources.packed))
        write_package(folder / package.name, made[-1], items, control, seconds)
    return made


def hand_out(made: Iterable[Path], out: Path) -> None:
    """Puts packages into a folder, each one whole or not at all."""
    out.mkdir(parents=True, exist_ok=True)
    for path in made:
        beside = out / f".{path.name}"
        beside.write_bytes(path.read_bytes())
        beside.replace(out / path.name)
        print(f"{out / path.name}: {path.stat().st_size:,} bytes")


def main() -> int:
    told = words()
    try:
        with tempfile.TemporaryDirectory() as folder:
            hand_out(make(sources_of(told), told.maintainer, Path(folder)), told.out)
    except (Refused, OSError) as why:
        print(f"package: {why}", file=sys.stderr)
        return 1
    return 0
