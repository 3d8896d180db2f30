"""The documents: what is wrong with the length of their lines, with their links, and with how a page of
docs/ begins."""
from __future__ import annotations

import os
import re
from dataclasses import dataclass
from pathlib import Path
from typing import Iterator
from urllib.parse import unquote

# At the top of the repository, beside the pages of docs/.
AT_TOP = ("README.md", "CONTRIBUTING.md", "CHANGELOG.md")
README_BYTES = 9216
ROW, PROSE = 160, 240
SENTENCES = 3
LINK = re.compile(r"\]\(([^()\s]+)\)")
HEADING = re.compile(r"^#+ (.+)$", re.M)
# Code between fences or behind four spaces; as a span in a line.
FENCE, INDENTED, SPAN = re.compile(r"^ *```"), "    ", re.compile(r"`[^`]*`")


@dataclass
class Document:
    """A document of a repository, by its path there."""

    root: Path
    path: Path

    def text(self) -> str:
        return (self.root / self.path).read_text(encoding="utf-8")

    def lines(self) -> Iterator[tuple[int, str]]:
        """Its lines with their numbers, but for code."""
        is_code = False
        for number, line in enumerate(self.text().splitlines(), 1):
            if FENCE.match(line):
                is_code = not is_code
            elif not is_code and not line.startswith(INDENTED):
                yield number, line

    def faults(self) -> Iterator[str]:
        for number, line in self.lines():
            for fault in (*too_long(line), *self.dead_links(line)):
                yield f"{self.path}, line {number}: {fault}"

    def dead_links(self, line: str) -> Iterator[str]:
        """The links that lead to no file of the repository, or to no heading of one."""
        for link in LINK.findall(SPAN.sub("`", line)):
            file, _, anchor = link.partition("#")
            if ":" in file:
                continue
            place = os.path.normpath(self.path.parent / unquote(file)) if file else str(self.path)
            target = Document(self.root, Path(place))
            if not (self.root / place).exists():
                yield f"a link to {link}, which is not there"
            elif anchor and anchor not in anchors(target.text()):
                yield f"a link to {link}, which has no such heading"


def too_long(line: str) -> Iterator[str]:
    """A picture is no prose: it has a text that tells what is seen, and stands in one line."""
    if line.startswith("|") and len(line) > ROW:
        yield f"a row of {len(line)} characters"
    elif not line.startswith(("|", "![")) and len(line) > PROSE:
        yield f"{len(line)} characters of prose"


def anchors(text: str) -> set[str]:
    """The anchors of headings, as hosts of Markdown make them."""
    return {re.sub(r"[^\w\- ]", "", it.lower()).replace(" ", "-") for it in HEADING.findall(text)}


def opening_faults(page: Document) -> Iterator[str]:
    """A page has its title, a line that says for whom it is, and the answer in three sentences."""
    parts = page.text().split("\n\n")
    if not re.fullmatch(r"# .+", parts[0]):
        yield f"{page.path}: it does not begin with its title alone"
    elif len(parts) < 3 or not re.fullmatch(r"For .+\.", parts[1]):
        yield f"{page.path}: no line below the title says for whom it is"
    else:
        count = len(re.findall(r"[.?!]\)?(?=\s|$)", SPAN.sub("`", parts[2])))
        if count != SENTENCES:
            yield f"{page.path}: its answer has {count} sentences"


def document_faults(root: Path) -> list[str]:
    """Each fault of the documents of a repository, in a line."""
    pages = [Document(root, it.relative_to(root)) for it in sorted(root.glob("docs/*.md"))]
    found = [fault for it in pages for fault in opening_faults(it)]
    for document in (*(Document(root, Path(it)) for it in AT_TOP), *pages):
        found += document.faults()
    size = (root / "README.md").stat().st_size
    return found + [f"README.md has {size} bytes"] * (size > README_BYTES)
