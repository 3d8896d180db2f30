"""The command tools/pictures: which pictures there are, and what is done with them."""
from __future__ import annotations

import argparse
import sys
from pathlib import Path

from . import architecture, hosts, journal, keys, latency
from .crates import Unreadable, read_crates
from .drawing import DoesNotFit

ROOT = Path(__file__).resolve().parent.parent.parent
FOLDER, MEASURED = "docs/pictures", "docs/latency.tsv"
ABOUT = """Makes docs/pictures/*.svg: the worked examples of the page's stage, as page/dukpt.html draws and saves
them, each at its end; and pictures of crates, keys, a journal, a host and its times, which need no browser."""


def of_texts(root: Path) -> dict[str, str]:
    """The pictures that need no browser, by the names of their files."""
    return {"architecture.svg": architecture.drawn(read_crates(root)), "hosts.svg": hosts.drawn(),
            "journal.svg": journal.drawn(), "keys.svg": keys.drawn(),
            "latency.svg": latency.drawn((root / MEASURED).read_text(encoding="ascii"))}


def of_page() -> dict[str, str]:
    """Those that the page draws: Chromium and its driver are wanted for them alone."""
    from tests.support.page.browser import Browser, BrowserFault
    from tests.support.page.stage_pictures import PAGE, pictures
    try:
        with Browser() as browser:
            made: dict[str, str] = pictures(browser, PAGE)
    except BrowserFault as why:
        raise Unreadable(str(why)) from why
    return made


def write(folder: Path, made: dict[str, str]) -> int:
    folder.mkdir(exist_ok=True)
    for name, text in made.items():
        (folder / name).write_text(text, encoding="utf-8")
    print(f"{folder}: {len(made)} pictures")
    return 0


def compare(folder: Path, made: dict[str, str]) -> int:
    others = [name for name, text in made.items()
              if not (folder / name).exists() or (folder / name).read_bytes() != text.encode()]
    for name in others:
        print(f"tools/pictures: {name} is not what tools/pictures makes", file=sys.stderr)
    return 1 if others else 0


def main() -> int:
    parser = argparse.ArgumentParser(prog="tools/pictures", description=ABOUT)
    parser.add_argument("--check", action="store_true", help="writes nothing, and compares every byte")
    parser.add_argument("--without-browser", action="store_true",
                        help="those of texts alone; the others need Debian's chromium and chromium-driver")
    chosen = parser.parse_args()
    try:
        made = of_texts(ROOT)
        if not chosen.without_browser:
            made.update(of_page())
    except (Unreadable, DoesNotFit, OSError) as why:
        print(f"tools/pictures: {why}", file=sys.stderr)
        return 1
    return (compare if chosen.check else write)(ROOT / FOLDER, made)
