"""The command tools/page."""
from __future__ import annotations

import argparse
import sys
from pathlib import Path

from .document import document
from .module import Modules, NoModule, built, kept
from .script import NotBundled

ROOT = Path(__file__).resolve().parent.parent.parent
SOURCES = ROOT / "page"
MADE = SOURCES / "dukpt.html"
MOST_BYTES = 600_000


def main() -> int:
    parser = argparse.ArgumentParser(
        prog="tools/page",
        description="Makes page/dukpt.html: one file of the page's sources and the modules of proved"
        " code, which needs no network. The same sources and the same kit make the same bytes.")
    parser.add_argument("--kept", action="store_true",
                        help="takes the modules that the page has, and needs no kit")
    parser.add_argument("--check", action="store_true",
                        help="writes nothing, and compares every byte with the page; where another"
                        " kit compiled its modules, every byte but those of the modules")
    words = parser.parse_args()
    try:
        modules = kept(MADE) if words.kept else built(MADE)
        if words.check:
            return compare(made(modules), modules.kit)
        return write(made(modules))
    except (NoModule, NotBundled, ValueError, OSError) as error:
        print(f"tools/page: {error}", file=sys.stderr)
        return 1


def made(modules: Modules) -> bytes:
    page = document(SOURCES, modules).encode()
    if len(page) > MOST_BYTES:
        raise ValueError(f"the page has {len(page)} bytes, and may have {MOST_BYTES}")
    return page


def write(page: bytes) -> int:
    MADE.write_bytes(page)
    print(f"{MADE}: {len(page)} bytes")
    return 0


def compare(page: bytes, kit: str) -> int:
    """Compares the page with what is there."""
    before = kept(MADE)
    if before.kit != kit:
        page = made(before)
        print(f"its modules are of {before.kit}, and this is {kit}: the rest is compared")
    at = first_difference(page, MADE.read_bytes())
    if at is not None:
        raise ValueError(f"{MADE} is not what the sources and the modules make, from byte {at} on:"
                         " run tools/page")
    print(f"{MADE}: as its sources and its modules make it")
    return 0


def first_difference(one: bytes, other: bytes) -> int | None:
    """The first place where two texts differ."""
    if one == other:
        return None
    pairs = zip(one, other)
    return next((at for at, (a, b) in enumerate(pairs) if a != b), min(len(one), len(other)))
