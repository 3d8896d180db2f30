"""The command dukpt-check."""
from __future__ import annotations

import argparse
import shlex
import sys
import time
from collections import Counter
from pathlib import Path
from typing import Any, Callable, Iterator, Optional, Sequence

from . import __version__
from .cases import Case, VectorsFault, read_vectors
from .grading import NAMES, WORDS, area_of
from .process import CannotStart
from .report_html import html_report
from .report_junit import junit_report
from .report_text import text_report
from .result import Result
from .running import Run

REPORTS: dict[str, Callable[[Result, int], str]] = {
    "text": text_report,
    "junit": lambda result, examples: junit_report(result),
    "html": html_report,
}
CANNOT_RUN = 2

DESCRIPTION = """\
Judges an implementation of TDES DUKPT, or a part of one, by test vectors.

ADAPTER is a program that speaks for the implementation: it reads one case a line on standard input,
a JSON object, and answers each with one line on standard output, a JSON object with the case's
number. It flushes each line:

  {"tcId": 17, "operation": "derive", "bdk": "0123..", "ksn": "FFFF.."}   is asked
  {"tcId": 17, "key": "0426..", "pin_key": "0426..", ..}                  the outputs
  {"tcId": 17, "error": "any text"}                                       a refusal
  {"tcId": 17, "unsupported": true}                                       no such operation
"""
EPILOG = """\
grades of an area:
{grades}

examples:
  dukpt-check ./my-adapter
  dukpt-check --area MACs --area 'PIN blocks' python3 adapter.py --slow
  dukpt-check --report junit --out dukpt.xml --report html --out dukpt.html ./my-adapter

status: 0 no deviation, 1 deviations, 2 the check could not run
"""


class Reports(argparse.Action):
    """Collects reports: `--report KIND`, and `--out FILE` of the report before it."""

    def __call__(
        self, parser: argparse.ArgumentParser, namespace: argparse.Namespace, values: Any,
        option_string: Optional[str] = None,
    ) -> None:
        """Takes one of the two options."""
        found: list[tuple[str, Optional[Path]]] = list(namespace.reports or [])
        if option_string == "--report":
            found.append((values, None))
        elif found and found[-1][1] is None:
            found[-1] = (found[-1][0], Path(values))
        else:
            parser.error("--out comes behind the --report that goes to the file")
        namespace.reports = found


def read_words(given: Optional[Sequence[str]] = None) -> argparse.Namespace:
    """The options, the adapter and its arguments."""
    grades = "\n".join(f"  {letter}  {words}" for letter, words in WORDS.items())
    parser = argparse.ArgumentParser(
        prog="dukpt-check", usage="dukpt-check [options] ADAPTER [ARGUMENTS..]",
        description=DESCRIPTION, epilog=EPILOG.format(grades=grades),
        formatter_class=argparse.RawDescriptionHelpFormatter)
    choose = parser.add_argument_group("cases (each may be given several times)")
    choose.add_argument("--area", action="append", metavar="NAME", type=area_name,
                        choices=NAMES, default=[],
                        help=f"cases of an area: {', '.join(NAMES)}")
    choose.add_argument("--operation", action="append", metavar="NAME", default=[],
                        help="cases of an operation, as derive")
    choose.add_argument("--file", action="append", metavar="NAME", default=[], type=file_name,
                        help="cases of a file of the vectors, as derive.json or derive")
    choose.add_argument("--skip-flag", action="append", metavar="FLAG", default=[],
                        help="leaves out the cases with a flag, as OwnRule")
    choose.add_argument("--vectors", type=Path, metavar="FOLDER",
                        help="where the vectors are, if they are not beside this package")
    choose.add_argument("--list", action="store_true", help="lists the cases, and runs nothing")
    say = parser.add_argument_group("reports")
    say.add_argument("--report", dest="reports", action=Reports, choices=list(REPORTS),
                     help="what is written: text if nothing is said; may be given several times")
    say.add_argument("--out", dest="reports", action=Reports, metavar="FILE",
                     help="where the report before it goes: standard output if nothing is said")
    say.add_argument("--examples", type=whole, default=3, metavar="N",
                     help="how many cases of each cause a report has in full: 3; 0 for all")
    limits = parser.add_argument_group("limits")
    limits.add_argument("--timeout", type=seconds, default=10.0, metavar="SECONDS",
                        help="for each answer: 10")
    limits.add_argument("--restarts", type=whole, default=5, metavar="N",
                        help="how often the adapter is started again in an operation: 5")
    parser.add_argument("--version", action="version", version=f"dukpt-check {__version__}")
    parser.add_argument("adapter", nargs=argparse.REMAINDER, help=argparse.SUPPRESS)
    words = parser.parse_args(given)
    if words.adapter[:1] == ["--"]:
        del words.adapter[0]
    if not words.adapter and not words.list:
        parser.error("the ADAPTER is missing")
    return words


def file_name(text: str) -> str:
    """The name of a file of vectors, whose ending need not be written."""
    return text if text.endswith(".json") else f"{text}.json"


def area_name(text: str) -> str:
    """The name of an area, in upper or lower case; the text where there is none."""
    return next((it for it in NAMES if it.lower() == text.lower()), text)


def whole(text: str) -> int:
    """A whole number from 0."""
    number = int(text)
    if number < 0:
        raise ValueError(text)
    return number


def seconds(text: str) -> float:
    """A time in seconds, above 0."""
    number = float(text)
    if not 0 < number < float("inf"):
        raise ValueError(text)
    return number


def default_vectors() -> Path:
    """Where the vectors are: in the package, as it is installed, or in the folder around it."""
    package = Path(__file__).resolve().parent
    inside = package / "vectors"
    return inside if inside.is_dir() else package.parent


def is_wanted(case: Case, words: argparse.Namespace) -> bool:
    """Whether the options choose a case."""
    return ((not words.area or area_of(case.operation) in words.area)
            and (not words.operation or case.operation in words.operation)
            and (not words.file or case.group.file in words.file)
            and not set(case.flags) & set(words.skip_flag))


def chosen(words: argparse.Namespace) -> tuple[list[Case], int]:
    """The cases that the options choose, and how many they leave out."""
    cases = read_vectors(words.vectors or default_vectors())
    for what, given, known in (
        ("operation", words.operation, {it.operation for it in cases}),
        ("file", words.file, {it.group.file for it in cases}),
        ("flag", words.skip_flag, {flag for it in cases for flag in it.flags}),
    ):
        for it in given:
            if it not in known:
                raise VectorsFault(f"no case has the {what} {it}: --list has all that there are")
    wanted = [it for it in cases if is_wanted(it, words)]
    if not wanted:
        raise VectorsFault("the options leave no case")
    return wanted, len(cases) - len(wanted)


def listing(cases: Sequence[Case]) -> Iterator[str]:
    """What --list prints: areas with their operations, files, and flags."""
    valid = Counter(it.operation for it in cases if it.is_valid)
    every = Counter(it.operation for it in cases)
    yield f"{'area':14}{'operation':22}{'valid':>7}{'invalid':>9}"
    for area in NAMES:
        for name, count in every.items():
            if area_of(name) == area:
                yield f"{area:14}{name:22}{valid[name]:>7,}{count - valid[name]:>9,}"
    yield f"\n{'file':36}{'cases':>7}"
    for file, count in Counter(it.group.file for it in cases).items():
        yield f"{file:36}{count:>7,}"
    yield f"\n{'flag':29}{'cases':>7}"
    notes = {flag: it.note(flag).description for it in cases for flag in it.flags}
    for flag, count in sorted(Counter(flag for it in cases for flag in it.flags).items()):
        yield f"{flag:29}{count:>7,}  {notes[flag]}"


def progress(cases: int) -> Callable[[int], None]:
    """Tells on a terminal how far the run is."""
    if not sys.stderr.isatty():
        return lambda count: None
    last = [0.0]

    def tell(count: int) -> None:
        """Writes the count over the last one, from time to time."""
        now = time.monotonic()
        if now - last[0] > 0.2 or count == cases:
            last[0] = now
            sys.stderr.write(f"\r{count:,} of {cases:,} cases" + "\n" * (count == cases))
            sys.stderr.flush()

    return tell


def judged(cases: Sequence[Case], left_out: int, words: argparse.Namespace) -> Result:
    """Runs the cases."""
    began = time.monotonic()
    run = Run(words.adapter, words.timeout, words.restarts)
    verdicts = run.verdicts(cases, progress(len(cases)))
    adapter = " ".join(map(shlex.quote, words.adapter))
    return Result(adapter, verdicts, left_out, time.monotonic() - began)


def write_reports(result: Result, words: argparse.Namespace) -> None:
    """Writes the reports, each to its file or to standard output."""
    for kind, path in words.reports or [("text", None)]:
        text = REPORTS[kind](result, words.examples)
        if path is None:
            sys.stdout.write(text)
        else:
            path.write_text(text, encoding="utf-8", errors="backslashreplace")
    sys.stdout.flush()


def main(given: Optional[Sequence[str]] = None) -> int:
    """Runs the command, and gives its status."""
    words = read_words(given)
    for stream in (sys.stdout, sys.stderr):
        stream.reconfigure(errors="backslashreplace")  # type: ignore[attr-defined, union-attr]
    try:
        cases, left_out = chosen(words)
        if words.list:
            print("\n".join(listing(cases)))
            return 0
        result = judged(cases, left_out, words)
        write_reports(result, words)
    except (CannotStart, VectorsFault, OSError) as why:
        print(f"dukpt-check: {why}", file=sys.stderr)
        return CANNOT_RUN
    except KeyboardInterrupt:
        print("dukpt-check: interrupted", file=sys.stderr)
        return CANNOT_RUN
    if words.reports:
        print(f"dukpt-check: {result.last_line}", file=sys.stderr)
    return 1 if result.deviations else 0
