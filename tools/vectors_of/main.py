"""The command tools/vectors."""
from __future__ import annotations

import argparse
import sys
from pathlib import Path

from .files import made
from .form import Unexpected
from .proved import Missing, Proved

ROOT = Path(__file__).resolve().parent.parent.parent
FOLDER = ROOT / "vectors"
PROGRAM = ROOT / "crates" / "dukpt" / "out" / "dukpt"
LIBRARY = ROOT / "out" / "library" / "libdukpt.so.0"


def main() -> int:
    """Reads the words of the command, and makes or compares the files."""
    parser = argparse.ArgumentParser(
        prog="tools/vectors",
        description="Makes the test vectors of vectors/ and their schema. Each answer is asked of"
        " the proved library, and of the proved program what the library has no call for. What is"
        " drawn comes of a fixed seed: two runs make the same bytes.")
    parser.add_argument("--program", type=Path, metavar="FILE", default=PROGRAM,
                        help="the program: crates/dukpt/out/dukpt where it is not given")
    parser.add_argument("--library", type=Path, metavar="FILE", default=LIBRARY,
                        help="the shared library: out/library/libdukpt.so.0 where it is not given")
    parser.add_argument("--out", type=Path, metavar="FOLDER", default=FOLDER,
                        help="where they go: vectors/ where it is not given")
    parser.add_argument("--check", action="store_true",
                        help="writes nothing, and names each file that is not as it is made")
    words = parser.parse_args()
    try:
        texts = made(Proved(words.program.absolute(), words.library.absolute()))
    except (Missing, Unexpected, OSError) as why:
        print(f"tools/vectors: {why}", file=sys.stderr)
        return 1
    return compare(texts, words.out) if words.check else write(texts, words.out)


def write(texts: dict[str, str], folder: Path) -> int:
    """Writes each file, and says how long it is."""
    folder.mkdir(parents=True, exist_ok=True)
    for name, text in texts.items():
        (folder / name).write_text(text, encoding="ascii")
        print(f"{name}: {len(text):,} bytes")
    return 0


def compare(texts: dict[str, str], folder: Path) -> int:
    """Names each file that is missing, differs, or is none that is made."""
    there = {path.name: path.read_bytes() for path in folder.glob("*.json")}
    differ = sorted(name for name in {*texts, *there}
                    if there.get(name) != texts.get(name, "").encode("ascii"))
    for name in differ:
        print(f"{name}: not as tools/vectors makes it")
    print(f"{len(texts)} files, {len(differ)} differ")
    return 1 if differ else 0
