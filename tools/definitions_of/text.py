"""Words of source text: of the code, and of clauses and definitions."""
from __future__ import annotations

import re
from typing import Iterator

# Comments, strings and characters of the code.
MASKED = re.compile(
    r"//[^\n]*|/\*.*?\*/|b?r(#*)\".*?\"\1|b?\"(?:\\.|[^\"\\])*\"|(?<!\w)b?'(?:\\[^']+|[^'\\\n])'",
    re.S)
# A dot that stands before a field is a word of its own, apart from the dot of a lambda.
WORD = re.compile(r"\.(?=\S)|[^\s(){}\[\];,.]+|[(){}\[\];,.]")
PAIRS = {"(": ")", "[": "]", "{": "}"}


def masked(text: str) -> str:
    """The code with blanks in place of comments, strings and characters."""
    return MASKED.sub(lambda found: re.sub(r"[^\n]", " ", found.group()), text)


def words_of(text: str) -> list[str]:
    """The words of a clause or a definition; `.x` is the dot before a field with its field."""
    found: list[str] = []
    for at in WORD.finditer(text):
        if found and found[-1] == "." and at.start() > 0 and text[at.start() - 1] == ".":
            found[-1] = "." + at.group()
        else:
            found.append(at.group())
    return found


def closing(text: str, at: int) -> int:
    """The place after the bracket that closes the one at `at`."""
    open_, close, depth = text[at], PAIRS[text[at]], 0
    for place in range(at, len(text)):
        if text[place] == open_:
            depth += 1
        elif text[place] == close:
            depth -= 1
            if not depth:
                return place + 1
    raise ValueError(f"no bracket closes {text[at:at + 40]!r}")


def line_at(text: str, at: int) -> int:
    return text.count("\n", 0, at) + 1


def split_list(text: str) -> Iterator[str]:
    """The parts between the commas outside brackets, of angles too."""
    depth, start = 0, 0
    for place, sign in enumerate(text):
        arrow = sign == ">" and place > 0 and text[place - 1] in "-="
        depth += (sign in "([{<") - (sign in ")]}>" and not arrow)
        if sign == "," and depth == 0:
            yield text[start:place].strip()
            start = place + 1
    if text[start:].strip():
        yield text[start:].strip()
