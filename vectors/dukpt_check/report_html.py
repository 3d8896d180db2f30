"""The report as one HTML page, without scripts and without anything from elsewhere."""
from __future__ import annotations

from html import escape
from typing import Iterator

from . import __version__
from .cause import Cause
from .grading import Grade
from .hints import spoken_difference
from .judging import Verdict, spoken
from .report_text import noted
from .result import Result, cases_in_words

STYLE = """
:root { color-scheme: light dark; --back: #fff; --ink: #1b1b1b; --soft: #5b5b5b; --line: #cfcfcf;
  --good: #1a6b32; --fair: #7a5600; --bad: #a11d1d; }
@media (prefers-color-scheme: dark) { :root { --back: #17191c; --ink: #e8e8e8; --soft: #a8a8a8;
  --line: #44484d; --good: #7fd598; --fair: #e8bf5f; --bad: #ff9a94; } }
@media print { :root { color-scheme: light; --back: #fff; --ink: #000; --soft: #444; --line: #999;
  --good: #000; --fair: #000; --bad: #000; } article, tr { break-inside: avoid; } }
body { background: var(--back); color: var(--ink); font: 16px/1.5 system-ui, sans-serif;
  margin: 2rem auto; max-width: 60rem; padding: 0 1rem; }
h2 { margin-top: 2.5rem; } h3 { margin-bottom: .3rem; }
table { border-collapse: collapse; width: 100%; }
th, td { border-bottom: 1px solid var(--line); padding: .3rem .6rem .3rem 0; text-align: left;
  vertical-align: top; }
td.count, th.count { text-align: right; } td.grade { font-weight: bold; }
.A { color: var(--good); } .B, .C { color: var(--fair); } .D { color: var(--bad); }
code, dd { font-family: ui-monospace, monospace; font-size: .875rem; overflow-wrap: anywhere; }
article { border-left: 3px solid var(--line); margin: 1rem 0; padding-left: 1rem; }
dl { display: grid; grid-template-columns: 7rem 1fr; margin: .3rem 0; }
dt { color: var(--soft); } dd { margin: 0; white-space: pre-wrap; }
.soft { color: var(--soft); }
"""


def html_report(result: Result, examples: int) -> str:
    """The page, with so many examples of each cause."""
    return "\n".join(page(result, examples)) + "\n"


def page(result: Result, examples: int) -> Iterator[str]:
    """The lines of the page."""
    yield '<!doctype html>\n<html lang="en">\n<head>\n<meta charset="utf-8">'
    yield '<meta name="viewport" content="width=device-width, initial-scale=1">'
    yield f"<title>dukpt-check: {escape(result.last_line)}</title>"
    yield f"<style>{STYLE}</style>\n</head>\n<body>\n<h1>dukpt-check</h1>"
    yield f"<p>Adapter: <code>{escape(result.adapter)}</code></p>"
    yield f"<p><strong>{escape(result.last_line)}</strong></p>"
    yield "<h2>Grades</h2>\n<table>\n<tr><th>area<th>grade<th class=count>right"
    yield "<th class=count>deviations<th class=count>unsupported<th>in words</tr>"
    yield from map(row, result.grades)
    yield "</table>"
    for line in result.first_steps:
        yield f"<p>{escape(line)}</p>"
    if result.causes:
        yield "<h2>Deviations</h2>"
    for place, cause in enumerate(result.causes, 1):
        yield from section(place, cause, examples)
    if result.not_tried:
        yield "<h2>Not tried, and so not right</h2>"
    for why, what in result.not_tried:
        yield f"<p>{escape(what)}<br>{escape(why)}</p>"
    if result.unsupported:
        told = ", ".join(f"{name} ({count:,})" for name, count in result.unsupported)
        yield f"<h2>Unsupported</h2>\n<p>Not judged: {escape(told)}</p>"
    yield f'<p class="soft">Made by dukpt-check {__version__}.</p>\n</body>\n</html>'


def row(it: Grade) -> str:
    """The row of an area."""
    mark = "none" if it.letter == "-" else it.letter
    return (f'<tr><td>{escape(it.area)}<td class="grade {mark}">{it.letter}'
            f"<td class=count>{it.right:,}<td class=count>{it.deviations:,}"
            f"<td class=count>{it.unsupported:,}<td>{escape(it.words)}</tr>")


def section(place: int, cause: Cause, examples: int) -> Iterator[str]:
    """What the page tells of a cause."""
    yield f"<section>\n<h3>{place}. {escape(cause.area)}: {escape(cause.operation)}</h3>"
    yield f"<p>{escape(cause.section)}<br>{escape(cause.words)}: {escape(cause.kinds)}</p>"
    if noted(cause):
        yield f"<p>Flag <code>{escape(cause.flag)}</code>: {escape(noted(cause))}</p>"
    if cause.members:
        yield f"<p>Wrong outputs: {escape(cause.members)}</p>"
    for hint in cause.hints:
        yield f"<p>{escape(hint)}</p>"
    if cause.flags:
        yield f"<p>Their flags: {escape(cause.flags)}</p>"
    shown = cause.examples(examples)
    for flag, note in cause.other_notes(shown):
        yield f"<p>Flag <code>{escape(flag)}</code>: {escape(note.description)}</p>"
    for it in shown:
        yield from article(it)
    rest = cause.other_numbers(shown)
    if rest:
        yield f'<p class="soft">And {len(rest):,} more: {cases_in_words(rest)}</p>'
    yield "</section>"


def article(it: Verdict) -> Iterator[str]:
    """What the page tells of a case."""
    case = it.case
    result = "valid" if case.is_valid else "invalid"
    flags = "".join(f" <code>{escape(flag)}</code>" for flag in case.flags)
    yield f"<article>\n<p>Case {case.number}, {result}: {escape(case.comment)}{flags}</p>\n<dl>"
    yield term("inputs", spoken(case.inputs))
    for difference in it.differences:
        expected, found = spoken_difference(difference)
        yield term("expected", f"{difference.member} {expected}")
        yield term("found", f"{difference.member} {found}")
    if not it.differences:
        yield term("expected", it.expected)
        yield term("found", it.found)
    if it.said:
        yield term("standard error", it.said)
    yield "</dl>\n</article>"


def term(name: str, text: str) -> str:
    """A line of a case."""
    return f"<dt>{name}<dd>{escape(text)}"
