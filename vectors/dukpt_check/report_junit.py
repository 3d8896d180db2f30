"""The report as JUnit's XML: a test suite for each area, in which a case is a test."""
from __future__ import annotations

from xml.etree import ElementTree as tree

from .grading import Grade, area_of
from .judging import Kind, Verdict, spoken
from .result import Result

UNPRINTABLE = {code: f"\\x{code:02X}" for code in range(32) if chr(code) not in "\t\n"}
UNPRINTABLE.update({code: f"\\u{code:04X}" for code in (*range(0xD800, 0xE000), 0xFFFE, 0xFFFF)})
# What had no answer is an error of the adapter; a wrong answer is a failure.
ERRORS = (Kind.GARBAGE, Kind.OTHER_NUMBER, Kind.ENDED, Kind.SILENT, Kind.TOO_LONG, Kind.NOT_TRIED)


def junit_report(result: Result) -> str:
    """The report."""
    root = tree.Element("testsuites", name="dukpt-check", time=f"{result.seconds:.3f}")
    for it in result.grades:
        here = [verdict for verdict in result.verdicts
                if area_of(verdict.case.operation) == it.area]
        root.append(suite(it, here))
    count(root, list(result.verdicts))
    tree.indent(root)
    return '<?xml version="1.0" encoding="utf-8"?>\n' + tree.tostring(root, "unicode") + "\n"


def suite(grade: Grade, verdicts: list[Verdict]) -> tree.Element:
    """The test suite of an area. Its grade is a property."""
    made = tree.Element("testsuite", name=grade.area)
    count(made, verdicts)
    properties = tree.SubElement(made, "properties")
    tree.SubElement(properties, "property", name="grade", value=grade.letter)
    tree.SubElement(properties, "property", name="words", value=clean(grade.words))
    for it in verdicts:
        made.append(test(it))
    return made


def count(element: tree.Element, verdicts: list[Verdict]) -> None:
    """Tells of an element how many tests there are, and how they ended."""
    failed = [it.kind for it in verdicts if it.is_deviation]
    element.set("tests", str(len(verdicts)))
    element.set("failures", str(sum(it not in ERRORS for it in failed)))
    element.set("errors", str(sum(it in ERRORS for it in failed)))
    element.set("skipped", str(sum(it.kind is Kind.UNSUPPORTED for it in verdicts)))


def test(it: Verdict) -> tree.Element:
    """A case as a test."""
    case = it.case
    made = tree.Element("testcase", name=clean(f"{case.number} {case.comment}"),
                        classname=clean(f"{case.group.file.split('.')[0]}.{case.operation}"))
    if it.kind is Kind.UNSUPPORTED:
        tree.SubElement(made, "skipped", message=f"{case.operation} is unsupported")
    elif it.is_deviation:
        ending = tree.SubElement(made, "error" if it.kind in ERRORS else "failure",
                                 type=it.kind.value,
                                 message=clean(f"{it.kind.value}: {case.group.section}"))
        ending.text = clean(explained(it))
    return made


def explained(it: Verdict) -> str:
    """What is told of a deviation."""
    case = it.case
    told = [f"section: {case.group.section}", f"group: {case.group.comment}"]
    told += [f"flag {flag}: {case.note(flag).description}" for flag in case.flags]
    told += [f"inputs: {spoken(case.inputs)}", f"expected: {it.expected}", f"found: {it.found}"]
    if it.said:
        told.append(f"standard error: {it.said}")
    return "\n".join(told)


def clean(text: str) -> str:
    """A text without the characters that XML has not."""
    return text.translate(UNPRINTABLE)
