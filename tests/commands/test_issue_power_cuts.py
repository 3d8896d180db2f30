"""Runs of `issue --out` whose power is lost at each of their calls. Of what that leaves one goes on as
docs/COMMANDS.md says: with `--skip-issued`, and with `--again` for the number that has no whole line."""
from __future__ import annotations

from dataclasses import dataclass
from typing import Callable, Iterator, Optional, Sequence

from ..support.commands.issue_cuts import FOLDER, LEDGER, LINES, Left, cuts_of, whole_lines_in
from ..support.commands.issuing import Ledger, issued_by, numbers_from, numbers_of, read_lines
from ..support.formats.ledger_file import Kept
from ..support.formats.opened_ledger import Refusal, opened
from ..support.standards.dukpt import serial_text
from ..support.system.traced_files import SYNCS, WRITES, Call, traced
from .test_issue import FIRST_NUMBER, KEYS, IssueCase, passed_over

ROOM = 12
# At each call so many states are drawn, beside those in which nothing or all was kept; and so many are tried
# at least, of all runs.
DRAWN, LEAST = 20, 400
WITHOUT_NUMBER, MORE_LOST = "a line without its number", "more than the last line is lost"


@dataclass(frozen=True)
class Run:
    """A run: how many numbers it is to issue, how many of them the ledger has before, and whether it makes
    lines again. The lines of those that are there are in another file, but where they are made again."""

    count: int
    there: int = 0
    again: bool = False

    @property
    def elsewhere(self) -> list[int]:
        return [] if self.again else numbers_from(FIRST_NUMBER, self.there)


@dataclass(frozen=True)
class Done:
    """A run as it was done: the ledger before it, its calls, and what it left."""

    run: Run
    before: bytes
    calls: Sequence[Call]
    after: Left

    def cuts(self, drawn: int, case: IssueCase) -> Iterator[Left]:
        return cuts_of(self.before, self.calls, self.after, drawn, case.chance)


RUNS = (Run(6), Run(7, there=3), Run(4, there=4, again=True))
# Changes of the calls of a run that lose what it promises, and what is found then.
PLANTED: dict[str, tuple[Callable[[Sequence[Call]], list[Call]], str]] = {
    "no sync of the lines": (lambda calls: without_sync(calls, LINES), MORE_LOST),
    "no sync of the folder": (lambda calls: without_sync(calls, FOLDER), MORE_LOST),
    "no sync of the ledger": (lambda calls: without_sync(calls, LEDGER), WITHOUT_NUMBER),
    "lines before their numbers": (lambda calls: lines_first(calls), WITHOUT_NUMBER),
}


def without_sync(calls: Sequence[Call], file: str) -> list[Call]:
    return [it for it in calls if it.file != file or it.name not in SYNCS]


def lines_first(calls: Sequence[Call]) -> list[Call]:
    lines = [it for it in calls if it.file == LINES and it.name in (*WRITES, *SYNCS)]
    others = [it for it in calls if it not in lines]
    first = next(at for at, it in enumerate(others) if it.file == LEDGER and it.name in WRITES)
    return [*others[:first], *lines, *others[first:]]


class PowerCuts(IssueCase):
    """The files are in memory: what a loss of power leaves comes of the calls, not of a disk."""

    weight = 15

    def setUp(self) -> None:
        super().setUp()
        self.home = self.folder(in_memory=True)
        self.path = self.home / LEDGER

    def test_cuts(self) -> None:
        """No line stands there without its number, at most the last number has none, and each gets one."""
        cuts = lost = 0
        for run in RUNS:
            done = self.do(run)
            for left in done.cuts(DRAWN * self.times, self):
                missing = self.judge(run, left)
                self.go_on(run, left, missing)
                cuts, lost = cuts + 1, lost + bool(missing)
        self.assertGreaterEqual(cuts, LEAST)
        self.assertGreater(8 * lost, cuts, "hardly a line is lost")
        self.tells(f"{cuts} cuts, {lost} of them with lines that were made again")

    def test_planted_orders(self) -> None:
        done = self.do(RUNS[0])
        for name, (change, fault) in PLANTED.items():
            worse = Done(done.run, done.before, change(done.calls), done.after)
            with self.assertRaisesRegex(AssertionError, fault, msg=name):
                for left in worse.cuts(0, self):
                    self.judge(done.run, left)

    def test_a_line_that_is_not_made_again(self) -> None:
        """One that goes on without `--again` has fewer lines than numbers, and that is found."""
        done = self.do(RUNS[0])
        left = next(it for it in done.cuts(0, self) if self.judge(done.run, it))
        with self.assertRaisesRegex(AssertionError, "Lists differ"):
            self.go_on(done.run, left, [])

    def do(self, run: Run) -> Done:
        """Does a run under strace, and sees that all that it wrote was synced."""
        self.begin(ROOM, numbers_from(FIRST_NUMBER, run.there))
        self.put(LINES, None)
        before = self.path.read_bytes()
        words = self.words(FIRST_NUMBER, run.count, skips=not run.again, again=run.again)
        ended, calls = traced([self.program.path, *words, "--out", LINES], self.home,
                              self.folder() / "trace", LEDGER)
        passed = passed_over(0 if run.again else run.there)
        self.assert_ended(ended, 0, b"", passed, "issue --out under strace")
        after = Left(self.path.read_bytes(), (self.home / LINES).read_bytes())
        done = Done(run, before, calls, after)
        *_, last = done.cuts(0, self)
        self.assertEqual(last, after, "not all is synced at the end")
        return done

    def judge(self, run: Run, left: Left) -> list[int]:
        """The numbers that are spent and have no whole line."""
        kept = self.kept_in(left)
        spent = numbers_of(kept)
        self.assertEqual(spent, numbers_from(FIRST_NUMBER, len(spent)))
        self.assertEqual(kept[run.there :], issued_by(KEYS, spent[run.there :], 1))
        made = [it.number for it in read_lines(left.whole_lines, KEYS)]
        self.assertEqual(set(made) - set(spent), set(), WITHOUT_NUMBER)
        missing = [it for it in spent if it not in (*run.elsewhere, *made)]
        self.assertTrue(run.again or missing in ([], spent[-1:]), MORE_LOST)
        return missing

    def go_on(self, run: Run, left: Left, missing: Sequence[int]) -> None:
        """All others are issued, those without a line are made again, and each number has one then."""
        self.path.write_bytes(left.ledger)
        self.put(LINES, left.lines)
        kept = self.kept_in(left)
        spent = len(kept)
        found = [*run.elsewhere, *self.numbers_of(left.lines)]
        found += self.lines_of(FIRST_NUMBER, run.count, passed_over(spent))
        for number in missing:
            found += self.lines_of(number, 1, again=True)
        self.assertEqual(sorted(found), numbers_from(FIRST_NUMBER, run.count), f"{left}")
        ledger = Ledger(ROOM)
        ledger.kept = kept
        ledger.keep(KEYS, numbers_from(FIRST_NUMBER, run.count)[spent:])
        self.assertEqual(self.path.read_bytes(), ledger.image)

    def kept_in(self, left: Left) -> list[Kept]:
        kept = opened(left.ledger)
        assert not isinstance(kept, Refusal), kept
        return kept

    def lines_of(self, first: int, count: int, faults: bytes = b"", again: bool = False) -> list[int]:
        """The numbers whose lines a run writes into another file, which it makes for a line alone."""
        self.put("more", None)
        words = [*self.words(first, count, skips=not again, again=again), "--out", "more"]
        self.assert_ended(self.run_issue(*words), 0, b"", faults, f"{serial_text(first)} {count}")
        more = self.home / "more"
        return self.numbers_of(more.read_bytes() if more.exists() else None)

    @staticmethod
    def numbers_of(lines: Optional[bytes]) -> list[int]:
        return [it.number for it in read_lines(whole_lines_in(lines), KEYS)]

    def put(self, name: str, data: Optional[bytes]) -> None:
        """A file with these bytes, or none."""
        if data is None:
            (self.home / name).unlink(missing_ok=True)
        else:
            (self.home / name).write_bytes(data)
