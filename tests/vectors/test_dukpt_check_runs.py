"""The check of vectors/dukpt_check with adapters that crash, hang, or write what they should not;
its options and statuses."""
from __future__ import annotations

import re
import time
from typing import Any

from ..support.program import Word
from ..support.vectors.vectors_check import CheckCase, Report

# Cases of counters with so many one bits: the last two are refused.
ONES = (0, 1, 5, 9, 10, 10, 11, 12)
SPOILED = 3
# An adapter that is right, but for what it does at one case.
SCRIPT = """
import json, os, sys, time
for line in sys.stdin:
    case = json.loads(line)
    ones = bin(int(case["ksn"], 16) % (1 << 21)).count("1")
    outputs = {{"error": "eleven"}} if ones > 10 else {{"usable": ones > 0}}
    answer = json.dumps({{"tcId": case["tcId"], **outputs}})
    if {when}:
        {deed}
    print(answer, flush=True)
"""
# What an adapter does at a case, and what is told of it.
DEEDS = (
    ("os.abort()", "the adapter ended by SIGABRT before it answered"),
    ("print('why it ends', file=sys.stderr, flush=True); os._exit(3)",
     "the adapter ended with status 3 before it answered.* standard error why it ends"),
    ("os._exit(0)", "the adapter ended with status 0 before it answered"),
    ("sys.stdout.write(answer); sys.stdout.flush(); os._exit(0)",
     "the adapter ended with status 0 before it answered"),
    ("os.close(1); time.sleep(600)", "the adapter ended by SIGKILL before it answered"),
    ("time.sleep(600)", "no answer came within 3 s"),
    ("os.fork() or time.sleep(600); os._exit(0)", "no answer came within 3 s"),
    ("answer = 'garbage'", "the line is no JSON: garbage"),
    ("answer = '[1]'", "the line is no JSON object"),
    ("answer = ''", "the line is no JSON"),
    ("answer = '[' * 50000", "the line is no JSON"),
    ("os.write(1, bytes(range(128, 256)) + bytes([0, 10])); continue", "the line is no JSON"),
    ("answer = answer.replace('tcId', 'id')", "the answer has no tcId"),
    ("answer = answer.replace('3,', '\"3\",')", "the answer has no tcId that is a number"),
    ("answer = answer.replace('3,', 'true,')", "the answer has no tcId that is a number"),
    ("answer = answer.replace('3,', '99,')", "the answer has the number 99"),
    ("answer = answer.replace('3,', '2,')", "the answer has the number 2"),
    ("os.write(1, b'x' * (3 << 20)); time.sleep(600)", "a line of the adapter has more than"),
    ("print('one line too many', flush=True)", "the line is no JSON: one line too many"),
    ("answer = answer.replace('usable', 'other')", "usable true .*usable no such member"),
    ("answer = answer.replace('true', '1')", "expected usable true found usable 1"),
    ("answer = json.dumps({'tcId': 3, 'error': 'no'})", "expected usable true found a refusal: no"),
)
# What an adapter may do.
HARMLESS = (
    "os.write(2, b'x' * (8 << 20))",
    "answer = answer.replace(':', ' :   ') + '   \\r'",
    "answer = answer.replace('}', ', \"more\": [1]}')",
    "print(answer, flush=True)",
    "time.sleep(0.3)",
)


def tests() -> list[dict[str, Any]]:
    """The cases of counters."""
    return [{"tcId": number, "comment": f"{ones} one bits",
             "flags": ["TenOneBits"] if ones == 10 else [],
             "inputs": {"ksn": f"{0xFFFF9876543210E00000 + (1 << ones) - 1:020X}"},
             **({"result": "valid", "outputs": {"usable": ones > 0}} if ones <= 10
                else {"result": "invalid", "fault": "NotUsable"})}
            for number, ones in enumerate(ONES, 1)]


class RunsCase(CheckCase):
    def setUp(self) -> None:
        super().setUp()
        self.vectors = ("--vectors", self.small_vectors(*tests()))

    def deed(self, deed: str, when: str = f'case["tcId"] == {SPOILED}') -> list[Word]:
        """The command of an adapter that does something at a case."""
        return self.script(SCRIPT.format(when=when, deed=deed))

    def run_deed(self, deed: str, *words: Word) -> Report:
        return self.report(*self.vectors, "--timeout", "3", *words, *self.deed(deed))


class TestMisbehaving(RunsCase):
    weight = 20

    def test_deeds(self) -> None:
        """Each is a deviation of that case alone: all others are right."""
        for deed, told in DEEDS:
            with self.subTest(deed):
                report = self.run_deed(deed)
                grade = report.grades["numbers"]
                self.assertEqual((grade.letter, grade.right, grade.deviations),
                                 ("C", len(ONES) - 1, 1), report.text)
                [cause] = report.causes
                self.assertEqual((cause.area, cause.operation), ("numbers", "usable"))
                self.assertRegex(cause.text, "^ANSI X9.24-1:2009 annex A 1 of the 8 cases")
                self.assertRegex(cause.text, f"case {SPOILED}, valid: 5 one bits.*{told}")
        self.tells(f"{len(DEEDS)} ways to misbehave")

    def test_harmless(self) -> None:
        for deed in HARMLESS:
            with self.subTest(deed):
                report = self.run_deed(deed)
                self.assertEqual(report.ended.status, 0, report.text)

    def test_accepted(self) -> None:
        """An invalid case that is answered, and not refused."""
        words = self.deed("answer = json.dumps({'tcId': case['tcId'], 'usable': False})",
                          "ones > 10")
        report = self.report(*self.vectors, *words)
        grade = report.grades["numbers"]
        self.assertEqual((grade.letter, grade.deviations), ("B", 2))
        self.assertRegex(report.causes[0].text, "an invalid case is accepted \\(2\\).*"
                         "expected a refusal \\(NotUsable\\) found usable false")

    def test_flag(self) -> None:
        """Deviations with one flag are told together, with what it means."""
        words = self.deed("answer = answer.replace('true', 'false')", "ones == 10")
        [cause] = self.report(*self.vectors, *words).causes
        self.assertRegex(cause.text, "all 2 cases with the flag TenOneBits: another value"
                         ".* flag TenOneBits: The counter has ten one bits. "
                         r"\(ANSI X9.24-1:2009 annex A.2\)")

    def test_grades(self) -> None:
        """C and D."""
        for when, letter in (("ones == 1", "C"), ("ones in (1, 5, 9)", "C"),
                             ("ones in (0, 1, 5, 9)", "D"), ("True", "D")):
            words = self.deed("answer = json.dumps({'tcId': case['tcId'], 'usable': 7})", when)
            self.assertEqual(self.report(*self.vectors, *words).grades["numbers"].letter, letter)

    def test_unanswered(self) -> None:
        """A case without an answer is no wrong one in the words of the grade."""
        ending, wrong = "os._exit(1)", "answer = answer.replace('true', 'false')"
        for deed, when, words in (
                (ending, "ones == 1", "some valid cases are not answered"),
                (wrong, "ones == 1", "some valid cases are wrong"),
                (f"exec({ending!r}) if ones == 1 else None\n        {wrong}", "ones in (1, 5)",
                 "some valid cases are wrong or not answered"),
                (ending, "True", "most valid cases are not answered")):
            report = self.report(*self.vectors, *self.deed(deed, when))
            self.assertRegex(report.text, f"(?m)^numbers .* {words}$")

    def test_unsupported(self) -> None:
        """It is counted apart, and is no deviation and nothing right."""
        lacking = "answer = json.dumps({'tcId': case['tcId'], 'unsupported': True})"
        report = self.report(*self.vectors, *self.deed(lacking, "True"))
        grade = report.grades["numbers"]
        self.assertEqual((grade.letter, grade.right, grade.deviations, grade.unsupported),
                         ("-", 0, 0, 8))
        self.assertIn("unsupported, and not judged: usable (8)\n", report.text)
        grade = self.report(*self.vectors, *self.deed(lacking)).grades["numbers"]
        self.assertEqual((grade.letter, grade.right, grade.unsupported), ("A", 7, 1))


class TestStandardError(RunsCase):
    def test_ends(self) -> None:
        """Of what an adapter writes there the first lines and the last are shown."""
        lines = [f"line {number} of many" for number in range(1, 41)]
        deed = f"sys.stderr.write({chr(10).join(lines)!r}); sys.stderr.flush(); os._exit(1)"
        [cause] = self.report(*self.vectors, *self.deed(deed)).causes
        shown = [lines[at] for at in (0, 1, 2, 3, 4)] + [".."] + lines[-3:]
        self.assertIn(f"standard error {' / '.join(shown)}", cause.text)
        # The first line is there too behind more than is kept.
        deed = ("print('why it ends', 'x' * (1 << 20), 'the end', sep=chr(10), file=sys.stderr,"
                " flush=True); os._exit(1)")
        [cause] = self.report(*self.vectors, *self.deed(deed)).causes
        self.assertRegex(cause.text, "standard error why it ends / x+.* the end")

    def test_untried(self) -> None:
        """What is told of all tried cases says how many were not tried."""
        report = self.report(*self.vectors, "--restarts", "2",
                             *self.deed("os._exit(1)", "case['tcId'] > 1"))
        self.assertIn("4 cases of the operation were not tried", report.causes[0].text)


class TestRestarts(RunsCase):
    """The adapter is started again, and not for ever."""

    def test_never_answers(self) -> None:
        for deed in ("os._exit(1)", "time.sleep(600)"):
            words = self.deed(deed, "True")
            began = time.monotonic()
            report = self.report(*self.vectors, "--timeout", "0.5", *words)
            self.assertLess(time.monotonic() - began, 20)
            self.assertEqual(report.grades["numbers"].deviations, len(ONES))
            text = " ".join(report.text.split())
            self.assertIn("not tried, and so not right: usable (5). Why: the adapter was started 3"
                          " times, and never answered", text)

    def test_limit(self) -> None:
        words = self.deed("os._exit(1)", "case['tcId'] > 1")
        for limit, tried in ((0, 1), (2, 3), (20, 7)):
            report = self.report(*self.vectors, "--restarts", str(limit), *words)
            grade = report.grades["numbers"]
            self.assertEqual((grade.right, grade.deviations), (1, 7))
            left = f"usable ({7 - tried})" in report.text
            self.assertEqual(left, tried < 7, report.text)

    def test_wrong_number_always(self) -> None:
        deed = "answer = answer.replace('\"tcId\": ', '\"tcId\": 1')"
        words = self.deed(deed, "case['tcId'] > 1")
        report = self.report(*self.vectors, *words)
        self.assertEqual(report.grades["numbers"].right, 1)
        words = self.deed("answer = answer.replace(str(case['tcId']), '1', 1)", "case['tcId'] > 1")
        report = self.report(*self.vectors, "--timeout", "3", "--restarts", "2", *words)
        self.assertEqual(report.grades["numbers"].right, 1)

    def test_flood(self) -> None:
        """Lines without end, on either stream, from an adapter that reads nothing."""
        for text, why in (("while True: os.write(1, b'y\\n' * 4096)", "the line is no JSON: y"),
                          ("while True: os.write(2, b'y\\n' * 4096)", "no answer came within")):
            report = self.report(*self.vectors, "--timeout", "0.5",
                                 *self.script(f"import os\n{text}\n"))
            self.assertEqual(report.grades["numbers"].deviations, len(ONES))
            self.assertIn(why, report.text)


class TestStatuses(RunsCase):
    def refuse(self, told: str, *words: Word) -> None:
        """That the check cannot run, and says why in a line."""
        ended = self.check(*words)
        self.assertEqual((ended.status, ended.output), (2, b""), ended)
        self.assertRegex(ended.faults.decode(), f"^dukpt-check: .*{told}.*\n$")

    def test_cannot_start(self) -> None:
        missing = self.folder() / "missing"
        plain = self.folder() / "plain"
        plain.write_text("no program")
        for path in (missing, plain, self.folder()):
            self.refuse(f"the adapter {path} cannot be started: ", *self.vectors, path)

    def test_vectors(self) -> None:
        folder = self.folder()
        self.refuse("has no vectors", "--vectors", folder, "true")
        self.refuse("has no vectors", "--vectors", folder / "missing", "true")
        for text, told in (("{", "cannot be read"), ("[]", "is no file of vectors"),
                           ('{"testGroups": [{"operation": "usable"}]}', "is no file of vectors")):
            (folder / "one.json").write_text(text)
            self.refuse(told, "--vectors", folder, "true")
        double = self.small_vectors(tests()[0], tests()[0])
        self.refuse("have a case 1", "--vectors", double, "true")

    def test_choices(self) -> None:
        right = self.deed("pass")
        for words, count in (((), 8), (("--operation", "usable"), 8), (("--area", "numbers"), 8),
                             (("--skip-flag", "TenOneBits"), 6), (("--file", "small"), 8),
                             (("--file", "small.json"), 8)):
            report = self.report(*self.vectors, *words, *right)
            self.assertEqual(report.grades["numbers"].right, count, words)
        self.refuse("no case has the file other.json", *self.vectors, "--file", "other", *right)
        self.refuse("no case has the operation wrap", *self.vectors, "--operation", "wrap", *right)
        self.refuse("no case has the flag Other", *self.vectors, "--skip-flag", "Other", *right)
        self.refuse("the options leave no case", *self.vectors, "--area", "frames", *right)

    def test_words(self) -> None:
        for words in ((), ("--area", "other", "true"), ("--timeout", "0", "true"),
                      ("--timeout", "soon", "true"), ("--restarts", "-1", "true"),
                      ("--out", "file", "true"), ("--report", "pdf", "true")):
            ended = self.check(*self.vectors, *words)
            self.assertEqual((ended.status, ended.output), (2, b""), words)
            self.assertIn(b"\ndukpt-check: error: ", ended.faults)

    def test_help(self) -> None:
        ended = self.check("--help")
        self.assertEqual((ended.status, ended.faults), (0, b""))
        named = set(re.findall(r"^  (--[a-z-]+)", ended.output.decode(), re.MULTILINE))
        self.assertEqual(named, {"--version", "--area", "--operation", "--file", "--skip-flag",
                                 "--vectors", "--list", "--report", "--out", "--examples",
                                 "--timeout", "--restarts"})

    def test_list(self) -> None:
        ended = self.check(*self.vectors, "--list")
        self.assertEqual((ended.status, ended.faults), (0, b""))
        lines = [line.split() for line in ended.output.decode().splitlines()]
        self.assertIn(["numbers", "usable", "6", "2"], lines)
        self.assertIn(["small.json", "8"], lines)
        self.assertIn("TenOneBits 2 The counter has ten one bits.".split(), lines)

    def test_arguments_of_the_adapter(self) -> None:
        """They are its own, even where they look like options."""
        script = self.script("import sys\nassert sys.argv[1:] == ['--report', 'x', '--list']\n"
                             + SCRIPT.format(when="False", deed="pass"))
        report = self.report(*self.vectors, *script, "--report", "x", "--list")
        self.assertEqual(report.ended.status, 0, report.text)
