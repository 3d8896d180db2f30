"""The links of a document, in a package that has not all of the repository."""
from __future__ import annotations

import os
import re
from dataclasses import dataclass
from pathlib import Path
from typing import AbstractSet

from .items import Refused

# A link or a picture, in whose text a picture may stand; or a span of code.
PART = re.compile(
    r"!?\[(?P<text>(?:[^\[\]]|!?\[[^\[\]]*\]\([^()]*\))*)\]\((?P<target>[^()\s]+)\)"
    r"|`(?P<code>[^`]+)`")
# Lines of code: between fences, or indented.
CODE = re.compile(r"(^```.*?^```$|^    [^\n]*$)", re.MULTILINE | re.DOTALL)
DOCUMENT = re.compile(r"docs/\w+\.(?:md|txt)")
ELSEWHERE = "in the repository"


@dataclass(frozen=True)
class Document:
    """A document of a repository, by its path there, for a package that holds these paths of it."""

    root: Path
    path: Path
    held: AbstractSet[str]

    def text_of(self, data: bytes) -> str:
        """Its text as the package has it. A link to a file that the package holds stays; of another
        one the text and the path stay."""
        return "".join(it if CODE.match(it) else PART.sub(self.changed, it)
                       for it in CODE.split(data.decode()))

    def changed(self, found: re.Match[str]) -> str:
        if found["code"] is not None:
            is_away = DOCUMENT.fullmatch(found["code"]) and found["code"] not in self.held
            return f"{found[0]} {ELSEWHERE}" if is_away else found[0]
        file = found["target"].partition("#")[0]
        if not file or ":" in file:
            return found[0]
        # From the top of the repository.
        target = os.path.normpath(self.path.parent / file)
        if target in self.held:
            return found[0]
        if not (self.root / target).exists():
            raise Refused(f"{self.root / self.path}: its link to {file} leads nowhere")
        text, named = PART.sub(self.changed, found["text"]), f"`{target}` {ELSEWHERE}"
        return named if text == f"`{file}`" else f"{text} ({named})"
