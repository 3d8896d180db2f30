"""Lines of `issue` that were lost: numbers whose lines are made again, lines in a new file, and what a loss
of power leaves of that and of the ledger."""
from __future__ import annotations

import os
import subprocess
from pathlib import Path
from typing import Sequence

from ..support.commands.issuing import Keys, bytes_of, issued_by, numbers_from, read_lines
from ..support.formats.ledger_file import RECORD
from ..support.formats.log_file import log_image
from ..support.formats.opened_ledger import Refusal
from ..support.program import SECONDS, Limits
from ..support.standards.dukpt import SPENT, serial_text
from ..support.system.traced_files import OPENS, REMOVES, SYNCS, WRITES, Call, traced
from .test_issue import FIRST_NUMBER, KEYS, LINE_LENGTH, WRITE_FAILED, IssueCase, passed_over


class Again(IssueCase):
    """Numbers that the ledger has, whose lines are made once more."""

    def test_numbers_there(self) -> None:
        """Any of them, in any order, as often as one likes; the padding is another each time."""
        ledger = self.begin(6, numbers_from(FIRST_NUMBER, 5))
        for first, count in ((0, 5), (0, 1), (4, 1), (1, 3)):
            begin = FIRST_NUMBER + first * SPENT
            made = [self.check(ledger, begin, count, again=True) for _ in range(2)]
            self.assertEqual(*([it.key for it in one] for one in made))
            self.assertFalse({it.padding for it in made[0]} & {it.padding for it in made[1]})

    def test_numbers_missing(self) -> None:
        """The first that is not issued is told, and no line is made."""
        numbers = [it for it in numbers_from(FIRST_NUMBER, 6) if it != FIRST_NUMBER + 3 * SPENT]
        ledger = self.begin(9, numbers)
        for first, count in ((0, 4), (3, 1), (2, 4), (5, 2), (6, 1)):
            self.check(ledger, FIRST_NUMBER + first * SPENT, count, again=True)
        self.check(self.begin(1), FIRST_NUMBER, 1, again=True)

    def test_a_full_ledger(self) -> None:
        """There is no room, and none is wanted."""
        self.check(self.begin(2, numbers_from(FIRST_NUMBER, 2)), FIRST_NUMBER, 2, again=True)

    def test_numbers_passed_over(self) -> None:
        """Where lines are made again, none is passed over."""
        ledger = self.begin(3, numbers_from(FIRST_NUMBER, 2))
        for count in (2, 3):
            words = self.words(FIRST_NUMBER, count, True, again=True)
            self.check(ledger, FIRST_NUMBER, count, words=words, again=True)

    def test_a_number_whose_line_was_lost(self) -> None:
        """A run to a full device spends a number. The next passes over it, and says so; its line is made
        again."""
        ledger = self.begin(3)
        with open("/dev/full", "wb") as full:
            ended = self.run_issue(*self.words(FIRST_NUMBER, 3), output=full.fileno())
        self.assert_ended(ended, 1, b"", WRITE_FAILED, "a full device")
        ledger.keep(KEYS, [FIRST_NUMBER])
        self.assertEqual(len(self.check(ledger, FIRST_NUMBER, 3, True)), 2)
        self.assertEqual(len(self.check(ledger, FIRST_NUMBER, 1, again=True)), 1)

    def test_ledgers_that_are_none(self) -> None:
        words = self.words(FIRST_NUMBER, 1, again=True)
        self.refused(words, "ledger: cannot open")
        self.path.write_bytes(b"0123456789ABCDEF" * 4)
        self.refused(words, Refusal.DAMAGED.value)
        self.path.write_bytes(log_image(bytes_of([FIRST_NUMBER]), 3))
        self.refused(words, Refusal.OLD.value)

    def test_another_key_set(self) -> None:
        """The check values in the ledger are not compared: the lines are of the given keys."""
        ledger, keys = self.begin(2), Keys(self.chance.randbytes(16), KEYS.loading)
        ledger.kept = issued_by(KEYS, numbers_from(FIRST_NUMBER, 2), 1)
        self.path.write_bytes(ledger.image)
        self.check(ledger, FIRST_NUMBER, 2, keys=keys, again=True)


class Out(IssueCase):
    """Lines that go to a new file."""

    def setUp(self) -> None:
        super().setUp()
        self.out = self.home / "blocks"

    def out_words(self, count: int, skips: bool = False, again: bool = False) -> list[str]:
        return [*self.words(FIRST_NUMBER, count, skips, again=again), "--out", "blocks"]

    def lines(self) -> list[int]:
        return [it.number for it in read_lines(self.out.read_bytes(), KEYS)]

    def test_lines(self) -> None:
        """All of them stand in the file, which is its owner's alone, and none on the output."""
        ledger = self.begin(3)
        self.assert_ended(self.run_issue(*self.out_words(3)), 0, b"", b"", "issue --out")
        self.assertEqual(self.lines(), numbers_from(FIRST_NUMBER, 3))
        self.assertEqual(self.out.stat().st_mode & 0o777, 0o600)
        ledger.keep(KEYS, numbers_from(FIRST_NUMBER, 3))
        self.assertEqual(self.path.read_bytes(), ledger.image)

    def test_numbers_passed_over(self) -> None:
        self.begin(3, numbers_from(FIRST_NUMBER, 2))
        ended = self.run_issue(*self.out_words(3, skips=True))
        self.assert_ended(ended, 0, b"", passed_over(2), "issue --out --skip-issued")
        self.assertEqual(self.lines(), numbers_from(FIRST_NUMBER, 3)[2:])

    def test_lines_made_again(self) -> None:
        self.begin(2, numbers_from(FIRST_NUMBER, 2))
        self.assert_ended(self.run_issue(*self.out_words(2, again=True)), 0, b"", b"", "--again --out")
        self.assertEqual(self.lines(), numbers_from(FIRST_NUMBER, 2))

    def test_files_that_are_there(self) -> None:
        """They stay as they are, and nothing is issued."""
        ledger = self.begin(2)
        self.out.write_bytes(b"mine")
        (self.home / "link").symlink_to("nowhere")
        (self.home / "folder").mkdir()
        for name in ("blocks", "link", "folder", "missing/blocks", "ledger", ""):
            self.refused([*self.words(FIRST_NUMBER, 1), "--out", name], "out: cannot make")
        self.assertEqual(self.out.read_bytes(), b"mine")
        self.assertEqual(sorted(it.name for it in self.home.iterdir()),
                         ["blocks", "folder", "ledger", "link"])
        self.assertEqual(self.path.read_bytes(), ledger.image)

    def test_nothing_issued(self) -> None:
        """Where no line is made, no file is left."""
        self.begin(1, [FIRST_NUMBER])
        for words, fault in ((self.out_words(1), f"{serial_text(FIRST_NUMBER)}: issued"),
                             (self.out_words(3, True), "ledger: full"),
                             (self.out_words(2, again=True),
                              f"{serial_text(FIRST_NUMBER + SPENT)}: not issued")):
            self.refused(words, fault)
            self.assertFalse(self.out.exists())

    def test_a_closed_output(self) -> None:
        """The lines are in the file: the output is not wanted."""
        self.begin(2)
        done = subprocess.run(
            ["bash", "-c", 'exec "$0" "$@" >&-', str(self.program.path), *self.out_words(2)],
            cwd=self.home, capture_output=True, check=False, timeout=SECONDS)
        self.assertEqual((done.returncode, done.stderr), (0, b""))
        self.assertEqual(self.lines(), numbers_from(FIRST_NUMBER, 2))

    def test_a_file_that_fails(self) -> None:
        """It takes no write behind some byte. The number of the line that was begun is spent, and its line
        is made again."""
        count = 3
        size = RECORD * (1 + count)
        for room in (size, size + 1, 2 * LINE_LENGTH, 2 * LINE_LENGTH + 1, count * LINE_LENGTH - 1):
            ledger = self.begin(count)
            ended = self.run_issue(*self.out_words(count), limits=Limits(file_size=room))
            self.assert_ended(ended, 1, b"", WRITE_FAILED, f"{room} bytes")
            whole = self.out.read_bytes()[: room // LINE_LENGTH * LINE_LENGTH]
            done = [it.number for it in read_lines(whole, KEYS)]
            ledger.keep(KEYS, numbers_from(FIRST_NUMBER, len(done) + 1))
            self.assertEqual(done, ledger.numbers[:-1])
            self.assertEqual(self.path.read_bytes(), ledger.image)
            self.check(ledger, ledger.numbers[-1], 1, again=True)
            self.out.unlink()

    def test_power_cuts(self) -> None:
        """The power is lost at each call: what was written and not synced may be there or not. A line
        that may be there has its number in the ledger for sure, and at most one number that may be in the
        ledger, the last, has no line for sure; and the file has its name before a number is spent."""
        count = 5
        self.begin(count)
        ended, calls = traced([self.program.path, *self.out_words(count)], self.home,
                              self.home / "trace", "ledger")
        self.assert_ended(ended, 0, b"", b"", "issue --out under strace")
        self.assertEqual(self.lines(), numbers_from(FIRST_NUMBER, count))
        self.judge(calls, count)

    def test_orders_that_lose(self) -> None:
        """The judge of the power cuts finds a sync that is missing, of either file and of the folder, and
        a line that goes out before its number."""
        count = 3
        self.begin(count)
        _, calls = traced([self.program.path, *self.out_words(count)], self.home,
                          self.home / "trace", "ledger")
        for file in ("ledger", "blocks", "."):
            without = [it for it in calls if it.file != file or it.name not in SYNCS]
            with self.assertRaises(AssertionError, msg=f"no sync of {file}"):
                self.judge(without, count)
        lines = [it for it in calls if it.file == "blocks" and it.name in (*WRITES, *SYNCS)]
        others = [it for it in calls if it not in lines]
        first = next(at for at, it in enumerate(others)
                     if it.file == "ledger" and it.name in WRITES)
        with self.assertRaises(AssertionError, msg="lines before their numbers"):
            self.judge([*others[:first], *lines, *others[first:]], count)

    def judge(self, calls: Sequence[Call], count: int) -> None:
        """At each call: how many numbers may be in the ledger, how many are for sure, and the same of the
        lines. A number takes the write of its bytes and then that of its gate."""
        gates = lines = sure_gates = sure_lines = 0
        is_named = False
        for it in calls:
            self.assertNotIn(it.name, REMOVES)
            if it.file == "ledger" and it.name in WRITES:
                self.assertTrue(is_named, "a number is spent before the file has its name")
                gates += it.span.start % RECORD == 0
            elif it.file == "ledger" and it.name in SYNCS:
                sure_gates = gates
            elif it.file == "blocks" and it.name in WRITES:
                lines += 1
            elif it.file == "blocks" and it.name in SYNCS:
                sure_lines = lines
            elif it.file == "." and it.name in SYNCS:
                is_named = True
            self.assertLessEqual(lines, sure_gates, f"{it}: a line without its number")
            self.assertLessEqual(gates, sure_lines + 1, f"{it}: two numbers without their lines")
        self.assertEqual((sure_gates, sure_lines, is_named), (count, count, True))


class OutFolder(IssueCase):
    """A new file of lines in another folder."""

    def test_its_folder_is_synced(self) -> None:
        self.begin(1)
        other = self.folder()
        words = [*self.words(FIRST_NUMBER, 1), "--out", str(Path(other) / "blocks")]
        _, calls = traced([self.program.path, *words], self.home, self.home / "trace", "ledger")
        opened = [it.file for it in calls if it.name in OPENS]
        synced = [it.file for it in calls if it.name in SYNCS]
        self.assertIn(str(other), opened)
        self.assertEqual(synced[:1] and str(other) in synced, True)
        self.assertEqual(os.listdir(other), ["blocks"])
