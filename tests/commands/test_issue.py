"""The initial keys that `issue` makes, each once: the lines of a run, the ledger behind it, what is
refused, and runs that are killed at any moment."""
from __future__ import annotations

import fcntl
import os
import shutil
import signal
import subprocess
import time
from collections import Counter
from pathlib import Path
from typing import Optional, Sequence

from ..service.test_service_log_calls import (
    LENGTH, REPLIED, STEPS, SYNCED, opening, steps_of, write)
from ..support.case import ProgramCase, in_parts
from ..support.commands.commands import Refused as Fault
from ..support.commands.everyday_cases import Case, Draw
from ..support.commands.everyday_rows import BASE, FIRST, SERIAL
from ..support.commands.everyday_words import COMMANDS as WORDS
from ..support.commands.everyday_words import ArgumentsRefused, References, read, resolve
from ..support.commands.issuing import (
    BEGUN, KEY_SET, MOST_COUNT, NUMBERS, Issued, Keys, Ledger, asked, bytes_of, issued_by, last_run,
    numbers_from, numbers_left, numbers_of, read_line, read_lines, whole_lines)
from ..support.commands.leaks import leaked, leaks
from ..support.formats import log_file
from ..support.formats.checked_journal import journal_of
from ..support.formats.ledger_file import (
    MOST_RUN, RECORD, Kept, Made, header_of, kept_in, ledger_image, record)
from ..support.formats.left_files import AHEAD, LEDGER, looked
from ..support.formats.log_file import log_image
from ..support.formats.opened_ledger import Refusal, opened
from ..support.models.model_journal import payments_of_all
from ..support.program import COMMANDS, SECONDS, Ended, Limits, Program, Word, spoken
from ..support.quick import QuickRuns
from ..support.service.client import payments
from ..support.service.service import Service
from ..support.standards.des import encrypt_block
from ..support.standards.dukpt import SPENT, serial_text
from ..support.system.cut_disk import Lies, Place, Plan, Stop
from ..support.system.cut_file import CutFile

LOADING = "0123456789ABCDEFFEDCBA98765432100123456789ABCDEF"
KEYS = Keys(bytes.fromhex(BASE), bytes.fromhex(LOADING))
FIRST_NUMBER = int(FIRST, 16)
LINE_LENGTH = 116
WRITE_FAILED = b"write failed\n"
NO_COUNTS = ("", "0", "00000000", "x", "1x", "0x1", "1.0", " 1", "1 ", "+1", "1048577", "-1", "-",
             "99999999999999999999", "9" * 400, "\u0661")
# Ledgers of two records that keep a number with a counter, and other files that are none.
COUNTED = {what: ledger_image([Kept(bytes.fromhex(it)) for it in numbers], 2) for what, numbers in {
    "a number with a counter": [SERIAL], "behind a number without": [FIRST, FIRST[:-1] + "1"],
    "the last counter": ["FFFF9876543210FFF800"], "no usable counter": ["FFFF9876543210FFFFFF"],
}.items()}
NO_LEDGERS = {
    **COUNTED, "empty": b"", "one byte": bytes(1), "fifteen bytes": bytes(15),
    "17 bytes": bytes(17),
    "a part of a header": header_of()[:-1], "a part of a record": header_of() + bytes(RECORD - 1),
    "open behind closed": header_of() + bytes(RECORD) + record(Kept(bytes(10)), 2),
    "a journal": journal_of([[it] for it in payments_of_all(payments(2))], 2),
    "a new journal": journal_of([], 2),
    "a log whose front has no zeros":
        log_file.record(bytes(10), rest=b"\x00\x00\x00\x00\x01") + bytes(16),
}
# Ledgers in the form of a log, of which more is not looked at.
OLD_LEDGERS = {
    "new": log_image([], 2), "a record of zeros": log_image([], 1),
    "numbers": log_image(bytes_of(numbers_from(int(FIRST, 16), 3)), 5),
    "full": log_image([bytes.fromhex(FIRST)], 1),
    "what a stop left": log_image([bytes.fromhex(FIRST)], 1) + b"\x00" + b"a" * 15 + bytes(32),
    "a log of a service": log_image([bytes.fromhex(SERIAL)], 3),
    "a number behind a closed record": log_image([], 1) + log_image([bytes.fromhex(FIRST)], 2),
    "a ledger without its header": bytes(RECORD) + record(Kept(bytes(10)), 1),
}
# So many runs at random, on all programs that are tried, and so many of them on one ledger.
RUNS, ON_ONE = 10_000, 12
KINDS_OF_RUNS = ("issued", "nothing", "there", "ledger: full", "arguments refused", "BDK refused",
                 "loading refused", "IKSN refused", "count refused", "KCV refused", "KCV differs",
             "again", "not there",
                 *(f"{name}: {why}" for name in ("BDK", "LOADING")
                   for why in ("cannot read", "too long", "not UTF-8")))
KILLS = 100
# So many losses of power each of some tests has, and within so many a file system that lies is found.
CUTS, MOST_CUTS = 400, 25_000
# The numbers that are issued where the power is lost, and the calls on the ledger for each.
FEW, CALLS = 8, 4
PLACES = tuple(Place)
# How many numbers a ledger of a history has room for, and how many of them a run shall reach.
ROOM, SHARE = 60, 6


def passed_over(count: int) -> bytes:
    """What a run that passes over so many numbers says of them."""
    return f"passed over {count}\n".encode() if count else b""


class IssueCase(ProgramCase):
    """A test over a ledger in a folder of its own."""

    weight = 3

    def setUp(self) -> None:
        super().setUp()
        self.home = self.folder()
        self.path = self.home / "ledger"

    def begin(self, room: int, numbers: Sequence[int] = ()) -> Ledger:
        """A ledger, as it has to be, and its file."""
        ledger = Ledger(room, numbers)
        self.path.write_bytes(ledger.image)
        return ledger

    def words(self, first: int, count: int, skips: bool = False, keys: Keys = KEYS,
              again: bool = False) -> list[str]:
        words = ["issue", keys.base.hex(), keys.loading.hex().upper(), serial_text(first), str(count),
                 "--ledger", "ledger"]
        return [*words, *["--skip-issued"] * skips, *["--again"] * again]

    def random_first(self, count: int) -> int:
        """A first number, from which on its key set has so many; now and then the last of these."""
        last = MOST_COUNT - count
        place = self.chance.choice((0, last, None, None))
        key_set = self.chance.choice((0, NUMBERS // KEY_SET - 1, self.chance.randrange(KEY_SET)))
        return key_set * KEY_SET + (self.chance.randint(0, last) if place is None else place) * SPENT

    def run_issue(self, *words: Word, **how: object) -> Ended:
        return self.program.run(*words, folder=self.home, **how)

    def check(self, ledger: Ledger, first: int, count: int, skips: bool = False, keys: Keys = KEYS,
              words: Optional[Sequence[str]] = None, given: bytes = b"",
              again: bool = False) -> list[Issued]:
        """That a run issues what it has to, or makes the lines again, and leaves the ledger so."""
        numbers, fault = (ledger.again(first, count) if again
                          else ledger.issue(keys, first, count, skips))
        words = self.words(first, count, skips, keys, again) if words is None else words
        ended = self.run_issue(*words, given=given)
        what = f"{spoken(words)}: {ended}"
        self.assertEqual((ended.status, ended.faults),
                         (1, f"{fault}\n".encode()) if fault
                         else (0, passed_over(count - len(numbers))), what)
        issued = read_lines(ended.output, keys)
        self.assertEqual([it.number for it in issued], numbers, what)
        self.assertEqual(self.path.read_bytes(), ledger.image, what)
        secrets = {it.hex() for it in (keys.base, keys.loading, *(it.key for it in issued))}
        self.assertEqual(leaked(ended, secrets), [], "a key is printed")
        return issued

    def refused(self, words: Sequence[Word], fault: str) -> None:
        """That a run is refused, and leaves the file as it is."""
        before = self.path.read_bytes() if self.path.is_file() else None
        ended = self.run_issue(*words)
        self.assert_ended(ended, 1, b"", f"{fault}\n".encode(), spoken(words))
        self.assertEqual(self.path.read_bytes() if self.path.is_file() else None, before)


class Lines(IssueCase):
    """What a run prints, and what its ledger has then."""

    def random_keys(self) -> Keys:
        return Keys(self.chance.randbytes(16), self.chance.randbytes(self.chance.choice((16, 24))))

    def test_blocks(self) -> None:
        """Each has the initial key of its own number, under keys of either length."""
        for _ in range(20 * self.times):
            keys, count = self.random_keys(), self.chance.choice((1, 2, 9))
            first, more = self.random_first(count), self.chance.randrange(3)
            self.check(self.begin(count + more), first, count, self.chance.random() < 0.5, keys)

    def test_check_values(self) -> None:
        """Those of OpenSSL, which enciphers zeros under the key of the block."""
        for issued in self.check(self.begin(8), FIRST_NUMBER, 8):
            done = subprocess.run(
                ["openssl", "enc", "-des-ede", "-nopad", "-K", issued.key.hex()], input=bytes(8),
                capture_output=True, check=True)
            self.assertEqual(done.stdout[:3].hex().upper(), issued.check_value)

    def test_known_lines(self) -> None:
        """The check values of the sample terminal of ANSI X9.24-1, and of the one before it."""
        issued = self.check(self.begin(2), FIRST_NUMBER - SPENT, 2)
        self.assertEqual([it.check_value for it in issued], ["159303", "AF8C07"])
        self.assertEqual(issued[1].key.hex().upper(), "6AC292FAA1315B4D858AB3A3D7D5933A")

    def test_unwrap(self) -> None:
        """The program itself opens its blocks."""
        ended = self.run_issue(*self.words(self.begin(1).room * FIRST_NUMBER, 1))
        block = ended.output.split()[2].decode()
        found = self.program.run("unwrap", LOADING, block)
        initial = self.program.run("initial", BASE, FIRST).output.split()[1].decode()
        self.assert_ended(found, 0, f"fields B1TX00N\nkey {initial}\n".encode(), b"", block)

    def test_written_otherwise(self) -> None:
        """Digits in either case, zeros before a count, options anywhere, secrets by reference."""
        (self.home / "base").write_text(f"{BASE.lower()}\nmore\n")
        (self.home / "loading").write_text(f"{LOADING}\r\n")
        behind = ["--ledger", "ledger"]
        for words, given in (
            ([BASE.lower(), LOADING.lower(), FIRST.lower(), "0" * 40 + "3", *behind], ""),
            (["--ledger=ledger", BASE, LOADING, FIRST, "3"], ""),
            ([BASE, "--ledger", "ledger", LOADING, FIRST, "--", "3"], ""),
            (["@base", "@loading", FIRST, "3", *behind], ""),
            (["@-", LOADING, FIRST, "3", *behind], f"{BASE}\n"),
            (["@base", "@-", FIRST, "3", *behind], f"{LOADING}"),
            ([BASE, LOADING, FIRST, "3", "--ledger", str(self.path)], ""),
        ):
            self.check(self.begin(3), FIRST_NUMBER, 3, words=["issue", *words], given=given.encode())
            self.check(self.begin(3), FIRST_NUMBER, 3, True, words=["issue", "--skip-issued", *words],
                       given=given.encode())

    def test_padding(self) -> None:
        """It differs from line to line, and from run to run with the same arguments; each of its bits
        is now zero and now one."""
        found = [it.padding for _ in range(6) for it in self.check(self.begin(20), FIRST_NUMBER, 20)]
        self.assertEqual({len(it) for it in found}, {6})
        self.assertEqual(len(set(found)), len(found), "a padding comes again")
        values = [int.from_bytes(it, "big") for it in found]
        for bit in range(48):
            ones = sum(value >> bit & 1 for value in values)
            # Of 120 bits at random fewer are alike less than once in 10^20 runs.
            self.assertTrue(10 < ones < len(values) - 10, f"bit {bit} is one {ones} times")

    def test_histories(self) -> None:
        """Runs at random over one ledger, and each outcome comes."""
        tally = Counter[str]()
        for _ in range(40 * self.times):
            room, first = self.chance.randint(1, 30), self.random_first(80)
            ledger, keys = self.begin(room), self.random_keys()
            for _ in range(8):
                start, skips = first + self.chance.randrange(40) * SPENT, self.chance.random() < 0.6
                count, before = self.chance.choice((1, 2, 5, 12)), len(ledger.numbers)
                issued = self.check(ledger, start, count, skips, keys)
                is_full = skips and len(ledger.numbers) == before and not issued
                kind = "all" if len(issued) == count else "some" if issued else "none"
                there = set(numbers_from(start, count)) <= set(ledger.numbers)
                tally[f"{kind}{', all there' if is_full and there else ''}{', skips' * skips}"] += 1
        for kind in ("all, skips", "all", "some, skips", "none, skips", "none"):
            self.assertGreater(tally[kind], 0, dict(tally))
        self.tells(f"{dict(tally)}")

    def test_what_stands_behind(self) -> None:
        """The rest of the record behind the last number may be anything, and is replaced."""
        for gate in (0, 2, 255):
            junk = bytes([gate]) + self.chance.randbytes(RECORD - 1)
            ledger = Ledger(2, numbers_from(FIRST_NUMBER, 2))
            self.path.write_bytes(ledger.image + junk + bytes(2 * RECORD))
            ledger.room = 5
            self.check(ledger, FIRST_NUMBER, 4, True)

    def test_runs_have_numbers(self) -> None:
        """Each is one more than the largest in the ledger, wherever that is; what was copied has
        none, and a run that issues nothing takes none."""
        for runs, wanted in (([], 1), ([0, 0], 1), ([1, 1, 2], 3), ([7, 0, 3], 8),
                             ([MOST_RUN - 1], MOST_RUN)):
            ledger = Ledger(9)
            for at, run in enumerate(runs):
                keys = Keys(self.chance.randbytes(16), b"")
                ledger.kept += issued_by(keys, [FIRST_NUMBER + at * SPENT], run) if run else [
                    Kept((FIRST_NUMBER + at * SPENT).to_bytes(10, "big"))]
            self.path.write_bytes(ledger.image)
            self.check(ledger, FIRST_NUMBER, len(runs) + 1, again=True)
            if runs:
                self.check(ledger, FIRST_NUMBER, len(runs), True)
                self.check(ledger, FIRST_NUMBER, len(runs), again=True)
            self.check(ledger, FIRST_NUMBER, len(runs) + 2, True)
            self.assertEqual(last_run(ledger.kept), wanted)
            new = ledger.kept[len(runs) :]
            self.assertEqual([it.made.run for it in new if it.made], [wanted] * 2)

    def test_the_last_run(self) -> None:
        """Behind it none issues a number, or passes any over; lines are made again."""
        ledger = self.begin(9)
        ledger.kept = [Kept(FIRST_NUMBER.to_bytes(10, "big"), Made(b"abc", b"def", MOST_RUN))]
        self.path.write_bytes(ledger.image)
        for count, skips, fault in ((2, False, f"{FIRST}: issued"), (2, True, "ledger: full"),
                                    (1, True, "ledger: full")):
            self.refused(self.words(FIRST_NUMBER, count, skips), fault)
        self.check(ledger, FIRST_NUMBER, 1, again=True)

    def test_a_number_twice(self) -> None:
        """What stands in the ledger twice is no fault."""
        ledger = self.begin(5, numbers_from(FIRST_NUMBER, 2) * 2)
        self.check(ledger, FIRST_NUMBER, 2)
        self.check(ledger, FIRST_NUMBER, 3, True)
        self.check(ledger, FIRST_NUMBER, 3, again=True)


class Random(IssueCase):
    """Runs with arguments at random, right ones and wrong ones, over ledgers that they share."""

    weight = 25

    def test_runs(self) -> None:
        draw, tally = Draw(self.own_chance(), str(self.home)), Counter[str]()
        with QuickRuns(self.program) as runs:
            for at in range(self.share_of(RUNS)):
                if at % ON_ONE == 0:
                    ledger = self.begin(draw.chance.randint(1, 12))
                    first = self.first_of(draw)
                case = self.drawn(draw, first + draw.chance.randrange(4) * SPENT)
                tally[self.play(runs, ledger, case)] += 1
        missing = [it for it in KINDS_OF_RUNS if not tally[it]]
        self.assertFalse(missing, f"this never came: {missing}, but {dict(tally)}")
        self.tells(f"{tally.total()} runs, {tally['issued']} issued keys")

    def first_of(self, draw: Draw) -> int:
        """Behind it there are numbers enough for most runs; now and then hardly any."""
        first = draw.iksn()
        last = first - first % KEY_SET + KEY_SET - 8 * SPENT
        return last if draw.one_in(8) else min(last, first)

    def drawn(self, draw: Draw, first: int) -> Case:
        iksn = serial_text(first + (draw.chance.choice((1, 0x1FF800)) if draw.one_in(16) else 0))
        base, word = draw.key(16)
        value = encrypt_block(base, bytes(8))[:3] if draw.one_in(2) else draw.chance.randbytes(3)
        return draw.case("issue", word, draw.key(16, 24)[1], draw.written(iksn),
                         draw.count(6, MOST_COUNT + 1), ledger=str(self.path),
                         **({"bdk-kcv": draw.written(value.hex())} if draw.one_in(6) else {}))

    def play(self, runs: QuickRuns, ledger: Ledger, case: Case) -> str:
        """What kind of an end a run has, where it is the right one."""
        for path, data in case.files.items():
            Path(path).write_bytes(data)
        ended = runs.run([word.encode() for word in case.words], case.given)
        what = f"{spoken(case.words)} with {case.files} and {case.given!r}"
        issued, fault, keys, passed = self.wanted(case, ledger)
        if fault.startswith("error: "):
            self.assertTrue(ended.faults.startswith(f"{fault}\n".encode()), f"{what}: {ended}")
            self.assert_ended(ended, 2, b"", ended.faults, what)
        else:
            faults = f"{fault}\n".encode() if fault else passed_over(passed)
            self.assert_ended(ended, int(bool(fault)), ended.output, faults, what)
        found = [] if keys is None else read_lines(ended.output, keys)
        self.assertEqual([it.number for it in found], issued, what)
        self.assertEqual(self.path.read_bytes(), ledger.image, what)
        self.assertEqual(leaks(case, ended), [], what)
        return self.kind_of(fault, issued, "--again" in case.words)

    def wanted(self, case: Case, ledger: Ledger) -> tuple[list[int], str, Optional[Keys], int]:
        """The numbers that are issued, the fault, the keys where they are right, and how many numbers
        are passed over."""
        about = WORDS["issue"]
        try:
            given = read(case.words[1:], about)
            resolve(about, given, References(case.files, case.given))
            keys, first, count = asked(*given.values, given.valued.get("bdk-kcv"))
        except ArgumentsRefused as why:
            return [], f"error: {why}", None, 0
        except Fault as why:
            return [], str(why), None, 0
        if "again" in given.flags:
            return *ledger.again(first, count), keys, 0
        issued, fault = ledger.issue(keys, first, count, "skip-issued" in given.flags)
        return issued, fault, keys, count - len(issued)

    def kind_of(self, fault: str, issued: list[int], again: bool) -> str:
        if not fault:
            return "again" if again else "issued" if issued else "nothing"
        if fault.endswith("issued"):
            return "not there" if fault.endswith("not issued") else "there"
        return "arguments refused" if fault.startswith("error: ") else fault


class Refused(IssueCase):
    """What is refused before anything is printed or issued, in which order."""

    def test_order(self) -> None:
        """Each fault comes before all that stand behind it, of which all are there."""
        self.path.write_bytes(b"no ledger")
        steps = [("BDK refused", "x", BASE), ("loading refused", "x", LOADING),
                 ("IKSN refused", SERIAL, FIRST), ("count refused", "x", "3")]
        for at, (fault, _, _) in enumerate(steps):
            words = [right if place < at else wrong for place, (_, wrong, right) in enumerate(steps)]
            self.refused(["issue", *words, "--ledger", "missing/ledger"], fault)
        right = [it for _, _, it in steps]
        self.refused(["issue", *right, "--ledger", "missing/ledger"], "ledger: cannot open")
        self.refused(["issue", *right, "--ledger", "ledger"], "ledger: damaged")
        ledger = self.begin(2, [FIRST_NUMBER + SPENT])
        self.check(ledger, FIRST_NUMBER, 3)
        self.check(ledger, FIRST_NUMBER, 3, True)
        self.assertEqual(ledger.numbers, [FIRST_NUMBER + SPENT], "neither run issues a number")

    def test_keys(self) -> None:
        self.begin(1)
        for wrong in ("", BASE[:-1], BASE + "0", LOADING, BASE[:-1] + "g", f"{BASE} ", "\u00e9" * 16):
            self.refused(["issue", wrong, LOADING, FIRST, "1", "--ledger", "ledger"], "BDK refused")
        for wrong in ("", LOADING[:-1], LOADING + "0", BASE[:16], BASE * 2, LOADING[:-1] + "G"):
            self.refused(["issue", BASE, wrong, FIRST, "1", "--ledger", "ledger"], "loading refused")

    def test_numbers(self) -> None:
        self.begin(1)
        for wrong in ("", FIRST[4:], FIRST + "0", FIRST[:-1] + "g", SERIAL, "FFFF9876543210F00000",
                      "FFFF9876543210E00800"):
            self.refused(["issue", BASE, LOADING, wrong, "1", "--ledger", "ledger"], "IKSN refused")

    def test_counts(self) -> None:
        """Those that are none, and those behind which no number has twenty digits."""
        ledger = self.begin(3)
        for wrong in NO_COUNTS:
            words = ["issue", "--ledger", "ledger", "--", BASE, LOADING, FIRST, wrong]
            self.refused(words, "count refused")
        for behind in (KEY_SET, FIRST_NUMBER - FIRST_NUMBER % KEY_SET + KEY_SET):
            self.assertEqual(numbers_left(behind - 2 * SPENT), 2)
            self.refused(self.words(behind - 2 * SPENT, 3), "count refused")
            self.refused(self.words(behind - SPENT, 2), "count refused")
            self.check(self.begin(2), behind - 2 * SPENT, 2)
        ledger = self.begin(3)
        last = NUMBERS - SPENT
        for back, count in ((0, 2), (0, MOST_COUNT), (1, 3), (2, 4), (MOST_COUNT - 2, MOST_COUNT)):
            self.refused(self.words(last - back * SPENT, count), "count refused")
        self.refused(self.words(last - (MOST_COUNT - 1) * SPENT, MOST_COUNT), "ledger: full")
        self.check(ledger, last, 1)
        self.check(ledger, last - 2 * SPENT, 3, True)
        self.check(ledger, last - 2 * SPENT, 3)

    def test_check_value(self) -> None:
        """A base derivation key with another check value issues nothing; it is tested last of the
        arguments, and before the ledger is opened."""
        right = encrypt_block(bytes.fromhex(BASE), bytes(8))[:3].hex()
        ledger = self.begin(2)
        for wrong in ("", right[:-1], right + "00", "x" * 6, f" {right}"):
            self.refused([*self.words(FIRST_NUMBER, 1), f"--bdk-kcv={wrong}"], "KCV refused")
        for wrong in ("000000", f"{int(right, 16) ^ 1:06x}", f"{int(right, 16) ^ 0x800000:06X}"):
            self.refused([*self.words(FIRST_NUMBER, 1), "--bdk-kcv", wrong], "KCV differs")
        for count, fault in (("0", "count refused"), ("1", "KCV differs")):
            words = ["issue", BASE, LOADING, FIRST, count, "--ledger", "missing"]
            self.refused([*words, "--bdk-kcv", "000000"], fault)
        for word in (right, right.upper()):
            words = [*self.words(FIRST_NUMBER, 1), "--bdk-kcv", word]
            self.check(ledger, FIRST_NUMBER, 1, words=words)

    def test_no_ledgers(self) -> None:
        logs = {it.stem: it.read_bytes() for it in (COMMANDS / "logs").glob("*.log")}
        images = {**NO_LEDGERS, **OLD_LEDGERS, **logs}
        told = {what: opened(image) for what, image in images.items()}
        for what, wanted in ((NO_LEDGERS, Refusal.DAMAGED), (OLD_LEDGERS, Refusal.OLD)):
            self.assertEqual({name: told[name] for name in what}, dict.fromkeys(what, wanted))
        for name, image in images.items():
            self.path.write_bytes(image)
            fault = opened(image)
            self.assertIsInstance(fault, Refusal, name)
            for words in (self.words(0, 1), self.words(0, 1, True), self.words(0, 1, again=True)):
                self.refused(words, fault.value)

    def test_a_service_log(self) -> None:
        """A log of a service is no ledger, and a ledger with numbers is no log of a service."""
        bank, asked = COMMANDS / "bank.toml", COMMANDS / "service" / "payments"
        frame = bytes.fromhex(asked.read_text().split()[0])
        self.path.write_bytes(log_image([], 3))
        ended = self.run_issue("serve", bank, "--log", "ledger", given=frame)
        self.assertEqual((ended.status, ended.faults), (0, b""))
        self.assertEqual(self.path.read_bytes()[:1], b"\x01", "the service accepted a request")
        self.refused(self.words(FIRST_NUMBER, 1), Refusal.OLD.value)
        self.check(self.begin(3), FIRST_NUMBER, 1)
        self.refused(["serve", bank, "--log", "ledger"], "log: failed")

    def test_no_file(self) -> None:
        """None is ever made."""
        (self.home / "folder").mkdir()
        for name in ("missing", "missing/ledger", "folder", ".", "", "ledger/", "@ledger"):
            words = ["issue", BASE, LOADING, FIRST, "1", "--ledger", name]
            self.refused(words, "ledger: cannot open")
        self.assertEqual([it.name for it in self.home.iterdir()], ["folder"])

    def test_a_file_for_reading_alone(self) -> None:
        self.begin(3)
        self.path.chmod(0o444)
        without = ["setpriv", "--inh-caps=-all", "--bounding-set=-dac_override,-dac_read_search"]
        done = subprocess.run([*without, str(self.program.path), *self.words(FIRST_NUMBER, 1)],
                              cwd=self.home, capture_output=True, check=False, timeout=SECONDS)
        self.assertEqual((done.returncode, done.stdout, done.stderr),
                         (1, b"", b"ledger: cannot open\n"))

    def test_in_use(self) -> None:
        """By a service, by another run, or by any process that has a lock on it."""
        ledger = self.begin(3)
        with open(self.path, "rb") as other:
            fcntl.flock(other, fcntl.LOCK_EX)
            self.refused(self.words(FIRST_NUMBER, 1), "ledger: cannot open")
        self.check(ledger, FIRST_NUMBER, 1)
        self.path.write_bytes(log_image([], 3))
        service = Service(self.program, self.home, "serve", COMMANDS / "bank.toml", "--log", "ledger")
        self.addCleanup(service.release)
        # It answers when it has its log.
        service.ask([b"\x00\x00"])
        self.refused(self.words(FIRST_NUMBER, 1), "ledger: cannot open")
        self.assertEqual(service.end().status, 0)
        self.refused(self.words(FIRST_NUMBER, 1), Refusal.OLD.value)

    def test_another_run(self) -> None:
        """One that waits, for nobody reads its lines, has the ledger; it goes on behind that."""
        count = 2000
        ledger = self.begin(count)
        service = Service(self.program, self.home, *self.words(FIRST_NUMBER, count))
        self.addCleanup(service.release)
        service.exchange(b"", lambda: len(service.collected) > 0, float("inf"))
        self.refused_in_use()
        service.kill()
        service.end()
        kept = kept_in(self.path.read_bytes())
        ledger.keep(KEYS, numbers_from(FIRST_NUMBER, len(kept)))
        self.assertEqual(kept, ledger.kept)

    def refused_in_use(self) -> None:
        ended = self.run_issue(*self.words(0, 1))
        self.assert_ended(ended, 1, b"", b"ledger: cannot open\n", "in use by another run")

    def test_arguments(self) -> None:
        """Refused as such: without a ledger, with two, with options or values that there are not."""
        self.begin(1)
        right = ["issue", BASE, LOADING, FIRST, "1"]
        for words, line in (
            (right, b"error: the following required arguments were not provided:\n"),
            (["issue", "--ledger", "ledger"], b"error: the following required"),
            ([*right[:-1], "--ledger", "ledger"], b"error: the following required"),
            ([*right, "--ledger"], b"error: a value is required for '--ledger <FILE>'"),
            ([*right, "--ledger", "a", "--ledger", "b"],
             b"error: the argument '--ledger <FILE>' cannot be used multiple times\n"),
            ([*right, "more", "--ledger", "ledger"], b"error: unexpected argument 'more' found\n"),
            ([*right, "--ledger", "ledger", "--skip"], b"error: unexpected argument '--skip' found"),
            ([*right, "--ledger", "ledger", "--skip-issued=x"],
             b"error: unexpected value 'x' for '--skip-issued' found; no more were expected\n"),
            ([*right, "--ledger", "ledger", "--skip-issued", "--skip-issued"],
             b"error: the argument '--skip-issued' cannot be used multiple times\n"),
            ([*right, "--log", "ledger"], b"error: unexpected argument '--log' found"),
            ([*right, "--ledger", "ledger", "--out"],
             b"error: a value is required for '--out <FILE>'"),
            ([*right, "--ledger", "ledger", "--bdk-kcv"],
             b"error: a value is required for '--bdk-kcv <KCV>'"),
        ):
            ended = self.run_issue(*words)
            self.assertEqual((ended.status, ended.output), (2, b""), spoken(words))
            self.assertTrue(ended.faults.startswith(line), f"{spoken(words)}: {ended.faults!r}")

    def test_references(self) -> None:
        """Their faults come before all others; BDK is the first."""
        (self.home / "long").write_bytes(b"0" * 4097)
        (self.home / "bytes").write_bytes(b"\xff\n")
        for one, other, fault in (
            ("@missing", "@long", "BDK: cannot read"), ("@long", "@missing", "BDK: too long"),
            ("@bytes", "x", "BDK: not UTF-8"), ("x", "@missing", "LOADING: cannot read"),
            ("x", "@long", "LOADING: too long"), (BASE, "@bytes", "LOADING: not UTF-8"),
            ("@-", "@-", "LOADING: cannot read"),
        ):
            self.refused(["issue", one, other, "x", "x", "--ledger", "missing"], fault)


class Lost(IssueCase):
    """Where output or ledger take no more: what was printed stands in the ledger, and the next run
    goes on behind it."""

    def goes_on(self, ledger: Ledger, kept: int, count: int) -> None:
        """The ledger keeps so many of the numbers; the next run issues all others."""
        ledger.keep(KEYS, numbers_from(FIRST_NUMBER, kept))
        self.assertEqual(self.path.read_bytes(), ledger.image)
        issued = self.check(ledger, FIRST_NUMBER, count, True)
        self.assertEqual(len(issued), count - kept)

    def test_a_full_device(self) -> None:
        """The number of the line that was begun stands in the ledger, and no other."""
        for count in (1, 2, 40):
            ledger = self.begin(count)
            with open("/dev/full", "wb") as full:
                ended = self.run_issue(*self.words(FIRST_NUMBER, count), output=full.fileno())
            self.assert_ended(ended, 1, b"", WRITE_FAILED, f"{count} numbers on /dev/full")
            self.goes_on(ledger, 1, count)

    def test_at_bytes(self) -> None:
        """An output that takes no more behind some byte. The limit is that of the ledger too, which
        is shorter."""
        count, path = 2, self.home / "output"
        whole, size = count * LINE_LENGTH, RECORD * (1 + count)
        places = {size, *range(LINE_LENGTH - 1, LINE_LENGTH + 2), whole - 1, whole}
        for room in sorted(places | set(self.chance.sample(range(size, whole), 15))):
            ledger = self.begin(count)
            with open(path, "wb") as output:
                ended = self.run_issue(*self.words(FIRST_NUMBER, count), output=output.fileno(),
                                       limits=Limits(file_size=room))
            is_cut, written = room < whole, path.read_bytes()
            fault = WRITE_FAILED if is_cut else b""
            self.assert_ended(ended, int(is_cut), b"", fault, f"{room} bytes")
            self.assertEqual(len(written), room)
            lines, begun = whole_lines(written)
            kept = min(count, room // LINE_LENGTH + 1)
            self.assertEqual([it.number for it in read_lines(lines, KEYS)],
                             numbers_from(FIRST_NUMBER, room // LINE_LENGTH))
            number = serial_text(FIRST_NUMBER + (kept - 1) * SPENT)
            line = f"issued {number} B0080B1TX00N0000".encode()
            self.assertTrue(begun.startswith(line[:len(begun)]), begun)
            self.goes_on(ledger, kept, count)

    def test_a_closed_output(self) -> None:
        """The ledger is not taken for it."""
        for way, status, faults in ((">&-", 1, WRITE_FAILED), (">&- 2>&-", 1, b"")):
            ledger = self.begin(3)
            done = subprocess.run(
                ["bash", "-c", f'exec "$0" "$@" {way}', str(self.program.path),
                 *self.words(FIRST_NUMBER, 3)],
                cwd=self.home, capture_output=True, check=False, timeout=SECONDS)
            self.assertEqual((done.returncode, done.stdout, done.stderr), (status, b"", faults), way)
            self.goes_on(ledger, 1, 3)

    def test_closed_faults(self) -> None:
        """The lines are those of any run."""
        for way in ("2>&-", "2>/dev/full", "<&-"):
            ledger = self.begin(3)
            done = subprocess.run(
                ["bash", "-c", f'exec "$0" "$@" {way}', str(self.program.path),
                 *self.words(FIRST_NUMBER, 2)],
                cwd=self.home, capture_output=True, check=False, timeout=SECONDS)
            self.assertEqual((done.returncode, done.stderr), (0, b""), way)
            self.assertEqual([it.number for it in read_lines(done.stdout, KEYS)],
                             numbers_from(FIRST_NUMBER, 2))
            self.goes_on(ledger, 2, 3)

    def test_closed_faults_of_refused_runs(self) -> None:
        """A fault is never written into the ledger."""
        for way in ("2>&-", ">&- 2>&-", "<&- >&- 2>&-", "2>/dev/full"):
            ledger = self.begin(2, numbers_from(FIRST_NUMBER, 1))
            for first, count in ((FIRST_NUMBER, 1), (FIRST_NUMBER + SPENT, 2)):
                done = subprocess.run(
                    ["bash", "-c", f'exec "$0" "$@" {way}', str(self.program.path),
                     *self.words(first, count)],
                    cwd=self.home, capture_output=True, check=False, timeout=SECONDS)
                self.assertEqual((done.returncode, done.stdout, done.stderr), (1, b"", b""), way)
                self.assertEqual(self.path.read_bytes(), ledger.image, way)

    def test_a_ledger_that_fails(self) -> None:
        """Its file takes no write behind some byte: a number that is not in it has no line."""
        count = 4
        for room in range(RECORD * (1 + count)):
            ledger = self.begin(count)
            ended = self.run_issue(*self.words(FIRST_NUMBER, count), limits=Limits(file_size=room))
            issued = [it.number for it in read_lines(ended.output, KEYS)]
            self.assertEqual((ended.status, ended.faults), (1, b"ledger: failed\n"), room)
            self.assertEqual(issued, numbers_from(FIRST_NUMBER, max(0, room // RECORD - 1)), room)
            ledger.keep(KEYS, issued)
            self.assertEqual(opened(self.path.read_bytes()), ledger.kept, room)

    def test_no_random_bytes(self) -> None:
        """Nothing is issued where there is no random device, or an empty one."""
        self.begin(2)
        image = self.path.read_bytes()
        for way in ("mount -t tmpfs none /dev", "mount --bind /dev/null /dev/urandom"):
            script = f'{way} && exec "$@"'
            done = subprocess.run(
                ["unshare", "--user", "--map-root-user", "--mount", "sh", "-c", script, "sh",
                 str(self.program.path), *self.words(FIRST_NUMBER, 1)],
                cwd=self.home, capture_output=True, check=False, timeout=SECONDS)
            self.assertEqual((done.returncode, done.stdout, done.stderr),
                             (1, b"", b"padding: cannot read\n"), way)
            self.assertEqual(self.path.read_bytes(), image)


class Calls(IssueCase):
    """The calls on the ledger and the output, in their order, as the system sees them."""

    def test_two_numbers(self) -> None:
        """A number is synced in the ledger, and then its line goes out."""
        strace = shutil.which("strace")
        self.assertIsNotNone(strace, "strace is not installed: apt-get install strace")
        ledger = self.begin(3, [FIRST_NUMBER])
        before = ledger.image
        self.path.rename(self.home / "log")
        trace = self.home / "trace"
        words = ["-f", "-e", f"trace={','.join(STEPS)}", "-o", trace, self.program.path,
                 *self.words(FIRST_NUMBER, 3, True)]
        words[words.index("ledger")] = "log"
        ended = Program(Path(strace or "")).run(*words, folder=self.home)
        numbers, _ = ledger.issue(KEYS, FIRST_NUMBER, 3, True)
        self.assertEqual([it.number for it in read_lines(ended.output, KEYS)], numbers)
        self.assertEqual((self.home / "log").read_bytes(), ledger.image)
        self.assertEqual(steps_of(trace.read_text()),
                         [*started(before), *kept_at(2), *kept_at(3)])


def started(image: bytes) -> list[str]:
    """A ledger is looked at, to see that it is one. Behind a sync its header is read, which takes
    bytes ahead, and then its records, if they were not among these."""
    looks = [f"pread64(log, {count} bytes at {at})" for count, at in looked(LEDGER, image)]
    assert len(image) <= AHEAD
    return [*opening("log"), LENGTH, *looks, *SYNCED, f"pread64(log, {len(image)} bytes at 0)"]


def kept_at(place: int) -> list[str]:
    """The body of a record is written and synced, and then the gate; then the line goes out."""
    gate = RECORD * place
    return [*write(RECORD - 1, gate + 1), *write(1, gate), REPLIED]


class Kills(IssueCase):
    """Runs that are killed at any moment, and go on: no number is printed twice, and each that is
    printed stands in the ledger."""

    weight = 6

    def setUp(self) -> None:
        super().setUp()
        self.kills = self.midst = self.unprinted = self.histories = 0
        # How long a run needs for a number, about.
        self.gap = 0.002

    @in_parts(4)
    def test_histories(self) -> None:
        while self.kills < KILLS * self.times:
            self.begin_history()
            while self.kills < KILLS * self.times and len(self.kept) < ROOM:
                self.kill_a_run()
            self.end_history()
        self.assertGreater(4 * self.midst, self.kills, "too few kills fell in the midst of numbers")
        self.tells(f"{self.kills} kills in {self.histories} histories, {self.midst} in the midst of "
                   f"numbers, {self.unprinted} behind a number whose line was not printed")

    def begin_history(self) -> None:
        self.first = self.random_first(ROOM)
        self.keys = Keys(self.chance.randbytes(16), self.chance.randbytes(24))
        self.all = numbers_from(self.first, ROOM)
        self.kept: list[Kept] = []
        self.printed: list[int] = []
        self.begin(ROOM)
        self.histories += 1

    def kill_a_run(self) -> None:
        """Behind some of its lines or at once, and then a little later."""
        process = subprocess.Popen(
            ["dukpt", *self.words(self.first, ROOM, True, self.keys)], stdin=subprocess.DEVNULL,
            executable=str(self.program.path), cwd=self.home, stdout=subprocess.PIPE,
            stderr=subprocess.PIPE)
        assert process.stdout is not None and process.stderr is not None
        lines, began = self.chance.randint(0, SHARE), time.monotonic()
        output = self.read_up_to(process.stdout.fileno(), lines * LINE_LENGTH)
        if lines:
            self.gap = (self.gap + (time.monotonic() - began) / lines) / 2
        time.sleep(self.chance.uniform(0, 2 * self.gap))
        process.kill()
        rest, faults = process.communicate(timeout=SECONDS)
        is_killed = process.returncode == -signal.SIGKILL
        self.assertTrue(is_killed or process.returncode == 0, process.returncode)
        self.assertIn(faults, (b"", passed_over(len(self.kept))))
        more = self.judge_run(output + rest)
        self.kills += is_killed
        self.midst += is_killed and more > 0 and len(self.kept) < ROOM

    def read_up_to(self, stream: int, count: int) -> bytes:
        """So many bytes, or all that there are."""
        data = b""
        while len(data) < count:
            piece = os.read(stream, count - len(data))
            if not piece:
                break
            data += piece
        return data

    def judge_run(self, output: bytes) -> int:
        """Judges what a run printed and what the ledger keeps; how many numbers that has more."""
        lines, begun = whole_lines(output)
        numbers = [int(line.split()[1], 16) for line in lines.splitlines()]
        for line in self.chance.sample(lines.splitlines(keepends=True), min(2, len(numbers))):
            read_line(line, self.keys)
        found = BEGUN.match(begun)
        if found:
            numbers.append(int(found[1], 16))
        kept = opened(self.path.read_bytes())
        assert not isinstance(kept, Refusal)
        run = 1 + last_run(self.kept)
        wanted = issued_by(self.keys, self.all[len(self.kept) : len(kept)], run)
        self.assertEqual(kept, [*self.kept, *wanted], "each number in order, with its run")
        more = numbers_of(wanted)
        self.assertIn(more, (numbers, [*numbers, *more[-1:]]), "what is printed stands there")
        self.assertFalse(set(numbers) & set(self.printed), "a number is printed twice")
        self.unprinted += len(more) > len(numbers)
        self.kept, self.printed = kept, self.printed + numbers
        return len(more)

    def end_history(self) -> None:
        """Without --skip-issued the first number is refused; with it the rest is issued."""
        if self.kept:
            ended = self.run_issue(*self.words(self.first, ROOM, False, self.keys))
            fault = f"{serial_text(self.all[0])}: issued\n".encode()
            self.assert_ended(ended, 1, b"", fault, "a run over a ledger behind kills")
        ended = self.run_issue(*self.words(self.first, ROOM, True, self.keys))
        self.assertEqual((ended.status, ended.faults), (0, passed_over(len(self.kept))))
        self.judge_run(ended.output)
        self.assertEqual(numbers_of(self.kept), self.all, "in the end each number is issued")


class Broken(AssertionError):
    """That a number is printed twice, or is not in the ledger, or that what is left is refused."""


class PowerCuts(IssueCase):
    """Runs over a ledger whose power is lost at any of its calls, which leaves any bytes of what was
    not synced."""

    weight = 10

    def setUp(self) -> None:
        super().setUp()
        self.cuts = self.midst = self.histories = 0

    @in_parts(2)
    def test_histories(self) -> None:
        self.play(CUTS * self.times)

    def test_syncs_that_do_nothing(self) -> None:
        """Over a file system that answers a sync and does none, numbers are printed twice or lost:
        the judge has to find that."""
        for lies in Lies:
            if lies is not Lies.NONE:
                self.cuts = 0
                with self.assertRaises(Broken, msg=f"{lies.value} is not missed") as found:
                    self.play(MOST_CUTS, lies)
                self.tells(f"without {lies.value}: {self.cuts} cuts, {found.exception}")

    def play(self, cuts: int, lies: Lies = Lies.NONE) -> None:
        file = CutFile(self.folder(), ledger_image([], FEW))
        try:
            while self.cuts < cuts:
                self.begin_history(file)
                for _ in range(self.chance.randint(1, 6)):
                    self.live(file, lies, True)
                self.live(file, lies, False)
                if numbers_of(self.kept) != self.all:
                    raise Broken("in the end not each number is issued")
        finally:
            file.close()
        self.assertGreater(4 * self.midst, self.cuts, "too few cuts fell in the midst of numbers")
        self.tells(f"the power lost {self.cuts} times in {self.histories} histories, {self.midst} in "
                   "the midst of numbers")

    def begin_history(self, file: CutFile) -> None:
        self.all = numbers_from(self.random_first(FEW), FEW)
        # What the ledger keeps, and how many of these no loss of power may take.
        self.kept: list[Kept] = []
        self.sure = 0
        self.printed: set[int] = set()
        self.histories += 1
        file.make(ledger_image([], FEW, self.chance.getrandbits(64)))

    def live(self, file: CutFile, lies: Lies, stops: bool) -> None:
        """A run, which goes on where the one before was cut, and what is left then."""
        stop = Stop(self.chance.randrange(1 + CALLS * FEW // 2), self.chance.choice(PLACES))
        file.begin(Plan(self.chance.getrandbits(32), stop if stops else None, lies,
                        in_pieces=self.chance.random() < 0.2))
        words = self.words(self.all[0], FEW, True)
        words[words.index("ledger")] = str(file.path)
        ended = self.run_issue(*words)
        is_cut = ended.status == -signal.SIGKILL
        if (ended.status, ended.faults) != (
            (-signal.SIGKILL, b"") if is_cut else (0, passed_over(len(self.kept)))):
            raise Broken(f"a run ends with {ended.faults!r}")
        # Now and then the process alone is gone, and the power stays on.
        stays_on = is_cut and self.chance.random() < 0.2
        image = file.image() if stays_on else file.cut(self.chance.getrandbits(32))
        # With the power on nothing is lost, and a run that ends has told of all that it found.
        self.judge([int(line.split()[1], 16) for line in ended.output.splitlines()], image,
                   self.sure if is_cut and not stays_on else len(self.kept))
        # What a kill left may have a last record whose gate was not synced.
        self.sure = max(self.sure, len(self.kept) - 1) if stays_on else len(self.kept)
        self.cuts += is_cut and not stays_on
        self.midst += is_cut and bool(ended.output)

    def judge(self, printed: Sequence[int], image: bytes, least: int) -> None:
        """That of what the ledger kept so many are there at least."""
        kept = opened(image)
        if isinstance(kept, Refusal):
            raise Broken(f"what is left is no ledger: {kept.value}")
        if len(kept) < least:
            raise Broken("the ledger lost what it kept")
        new = numbers_of(kept[len(self.kept) :])
        wanted = [*self.kept, *issued_by(KEYS, new, 1 + last_run(self.kept))]
        if kept != wanted[: len(kept)]:
            raise Broken("the ledger has other numbers, other check values, or another run")
        self.kept = kept
        if len(set(printed)) < len(printed) or self.printed & set(printed):
            raise Broken("a number is printed twice")
        self.printed |= set(printed)
        if not self.printed <= set(numbers_of(self.kept)):
            raise Broken("a number is printed, and not in the ledger")
        if numbers_of(self.kept) != self.all[: len(self.kept)]:
            raise Broken("the ledger has other numbers")
