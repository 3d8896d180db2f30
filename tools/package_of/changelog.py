"""The changelog of Debian's form, which CHANGELOG.md becomes, and the date of the packages."""
from __future__ import annotations

import os
import re
import textwrap
from datetime import datetime, timezone
from pathlib import Path
from typing import Iterator

from .items import Refused, read
from .revision import revision_of

CHANGES = "CHANGELOG.md"
DAY = r"^## (?:.*, )?(\d{1,2} \w+ \d{4})$"
WIDTH = 78
UNRELEASED = re.compile(r"\bnot\s+(?:yet\s+)?released\b|\bunreleased\b", re.I)


def date_of(root: Path) -> datetime:
    """The date of all files: SOURCE_DATE_EPOCH where it is set, else that of the last commit, and
    where there is no repository the newest one of CHANGELOG.md."""
    told = os.environ.get("SOURCE_DATE_EPOCH") or revision_of(root).seconds
    if not told:
        return newest_day(root)
    if not told.isdecimal():
        raise Refused(f"SOURCE_DATE_EPOCH is {told}, and no number of seconds")
    return datetime.fromtimestamp(int(told), timezone.utc)


def newest_day(root: Path) -> datetime:
    found = re.search(DAY, read(root / CHANGES).decode(), re.M)
    if not found:
        raise Refused(f"{CHANGES}: it has no heading with a date, such as 25 November 2026")
    return datetime.strptime(found[1], "%d %B %Y").replace(tzinfo=timezone.utc)


def says_unreleased(text: str, version: str) -> bool:
    """Whether the section of a version says that it is not released yet. Where no heading has the
    version, the whole text is its section."""
    sections = re.split(r"^## ", text, flags=re.M)
    heading = re.compile(rf"(?<![\d.]){re.escape(version)}(?![\d.])")
    of_version = [it for it in sections[1:] if heading.search(it.partition("\n")[0])]
    return any(UNRELEASED.search(it) for it in of_version or [text])


def debian_changelog(root: Path, package: str, version: str, maintainer: str) -> str:
    """One entry of this version, with what CHANGELOG.md has below each of its headings."""
    text = read(root / CHANGES).decode()
    head, parts = f"{package} ({version}) unstable; urgency=medium", "\n".join(lines_of(text))
    date = newest_day(root).strftime("%a, %d %b %Y %H:%M:%S %z")
    return f"{head}\n\n{parts}\n\n -- {maintainer}  {date}\n"


def lines_of(text: str) -> Iterator[str]:
    """The headings in brackets, and the points below each."""
    is_first = True
    for line in text.splitlines():
        if line.startswith("## "):
            yield from () if is_first else ("",)
            yield f"  [ {line[3:]} ]"
            is_first = False
        elif line.startswith("- ") and not is_first:
            yield from textwrap.wrap(line[2:], WIDTH, initial_indent="  * ",
                                     subsequent_indent="    ", break_long_words=False,
                                     break_on_hyphens=False)
