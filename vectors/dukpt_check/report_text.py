"""The report as text, for a terminal."""
from __future__ import annotations

import textwrap
from typing import Iterator

from . import __version__
from .cause import Cause
from .hints import spoken_difference
from .judging import Verdict, spoken
from .result import Result, cases_in_words

WIDTH = 98
# So many lines of the beginning and the end of standard error are shown: some languages say first
# why a program ended, and others last.
FIRST_LINES, LAST_LINES = 5, 3
# How wide the words of a grade may be, behind its counts.
WORDS_WIDTH = 64
# What a flag has for a section that has none of its own.
SECTION_OF_GROUP = "that of the group"


def text_report(result: Result, examples: int) -> str:
    """The report, with so many examples of each cause."""
    return "\n".join(lines(result, examples)) + "\n"


def lines(result: Result, examples: int) -> Iterator[str]:
    """The lines of the report."""
    yield f"dukpt-check {__version__}"
    yield from wrapped(f"adapter: {result.adapter}")
    yield ""
    yield from table(result)
    for line in result.first_steps:
        yield from wrapped(line)
    for place, cause in enumerate(result.causes, 1):
        yield ""
        yield from cause_lines(place, cause, examples)
    for why, what in result.not_tried:
        yield ""
        yield from wrapped(f"not tried, and so not right: {what}. Why: {why}")
    if result.unsupported:
        yield ""
        told = ", ".join(f"{name} ({count:,})" for name, count in result.unsupported)
        yield from wrapped(f"unsupported, and not judged: {told}")
    yield ""
    yield result.last_line


def table(result: Result) -> Iterator[str]:
    """The grades."""
    yield f"{'area':14}{'grade':7}{'right':>8}{'deviations':>12}{'unsupported':>13}"
    for it in result.grades:
        row = f"{it.area:14}{it.letter:7}{it.right:>8,}{it.deviations:>12,}{it.unsupported:>13,}  "
        yield from textwrap.wrap(it.words, len(row) + WORDS_WIDTH, initial_indent=row,
                                 subsequent_indent=" " * len(row))


def cause_lines(place: int, cause: Cause, examples: int) -> Iterator[str]:
    """What is told of one cause."""
    yield from wrapped(f"{place}. {cause.area}: {cause.operation}, {cause.section}", "", "   ")
    yield from wrapped(f"{cause.words}: {cause.kinds}", "   ")
    if noted(cause):
        yield from wrapped(f"flag {cause.flag}: {noted(cause)}", "   ")
    if cause.members:
        yield from wrapped(f"wrong outputs: {cause.members}", "   ")
    for hint in cause.hints:
        yield from wrapped(hint, "   ")
    if cause.flags:
        yield from wrapped(f"their flags: {cause.flags}", "   ")
    shown = cause.examples(examples)
    for flag, note in cause.other_notes(shown):
        yield from wrapped(f"flag {flag}: {note.description}", "   ")
    for it in shown:
        yield from case_lines(it)
    rest = cause.other_numbers(shown)
    if rest:
        yield from wrapped(f"and {len(rest):,} more: {cases_in_words(rest)}", "   ", "     ")


def noted(cause: Cause) -> str:
    """What the flag of a cause means, with its section where that is another one."""
    note = cause.note
    is_other = note.section not in ("", cause.section, SECTION_OF_GROUP)
    return note.description + (f" ({note.section})" if is_other else "")


def case_lines(it: Verdict) -> Iterator[str]:
    """What is told of a case."""
    case = it.case
    flags = f" [{', '.join(case.flags)}]" if case.flags else ""
    result = "valid" if case.is_valid else "invalid"
    yield from wrapped(f"case {case.number}, {result}: {case.comment}{flags}", "   ", "     ")
    yield from told("inputs", spoken(case.inputs))
    if it.differences:
        for difference in it.differences:
            expected, found = spoken_difference(difference)
            yield from told("expected", f"{difference.member} {expected}")
            yield from told("found", f"{difference.member} {found}")
    else:
        yield from told("expected", it.expected)
        yield from told("found", it.found)
    if it.said:
        yield from told("standard error", " / ".join(ends_of(it.said)))


def ends_of(said: str) -> list[str]:
    """The first and the last lines of a text: either end may have the reason."""
    lines_ = [line.strip() for line in said.splitlines() if line.strip()]
    if len(lines_) <= FIRST_LINES + LAST_LINES:
        return lines_
    return [*lines_[:FIRST_LINES], "..", *lines_[-LAST_LINES:]]


def told(name: str, text: str) -> Iterator[str]:
    """A line of a case, with its name in a column."""
    return wrapped(text, f"     {name:9} ", " " * 15)


def wrapped(text: str, first: str = "", later: str = "") -> Iterator[str]:
    """A text in lines that are not too wide. Control characters are shown as such."""
    plain = "".join(it if it.isprintable() or it in "\n\t" else f"\\x{ord(it):02X}" for it in text)
    yield from textwrap.wrap(
        plain, WIDTH, initial_indent=first, subsequent_indent=later or first,
        break_on_hyphens=False) or [first.rstrip()]
