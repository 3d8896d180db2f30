"""`--explain` over what files hold: which record of a log is wrong, that a journal or a ledger is,
and which line of a configuration or a script is wrong."""
from __future__ import annotations

import os
import threading
from typing import Optional, Sequence

from ..service.test_store_files import turn_of_devices
from ..support.commands.everyday_rows import FIRST
from ..support.commands.explain_case import EXPLAIN, ISSUE, SCRIPT, ExplainCase
from ..support.commands.explained import Asked, Facts, damaged_record, explained, line_of
from ..support.commands.issuing import Ledger, bytes_of, numbers_from
from ..support.commands.shown import journal_ended
from ..support.formats import journal_records, ledger_file, left_files
from ..support.formats.checked_journal import HEADER, blank, checked, journal_of
from ..support.formats.bank import BANK, BDK, CARD, FRONT
from ..support.formats.ledger_file import Kept, Made
from ..support.formats.left_files import Records
from ..support.formats.log_file import RECORD, log_image, record
from ..support.models.model_journal import payments_of_all
from ..support.program import SECONDS, Limits, spoken
from ..support.service.client import payments
from ..support.service.service import How, Service
from ..support.standards.dukpt import SPENT, counter_of, serial_text, usable
from .test_show import Damaged

A_GOOD_LOG = "a log as it was kept, on a device that works"
A_GOOD_JOURNAL = "a journal as it was kept, on a device that works"
A_GOOD_LEDGER = "a ledger as it was kept"
A_GOOD_OLD_LEDGER = "a ledger of version 1 as it was kept, on a device that works"
MAKERS = {"log": "new-log", "journal": "new-journal", "ledger": "new-ledger"}


def first_unusable(numbers: Sequence[int]) -> Optional[int]:
    """The place of the first that numbers no transaction, or stands there before."""
    return next((at for at, it in enumerate(numbers)
                 if it in numbers[:at] or not usable(counter_of(it))), None)


def first_counted(numbers: Sequence[int]) -> Optional[int]:
    """The place of the first that has a counter."""
    return next((at for at, it in enumerate(numbers) if counter_of(it)), None)


def strange(form: Records, image: bytes, called: str, wanted: str) -> Optional[str]:
    """What is told of the file `it` that is empty, or whose whole records no such store leaves."""
    is_old = form is left_files.OLD_LEDGER
    if not image:
        # A ledger that is copied is not to be made anew.
        way = "" if is_old else f"; make it by dukpt {MAKERS[called]} FILE RECORDS"
        return f"{called} it: empty; wanted: {wanted}{way}"
    is_other = is_old and not form.is_front(image[: form.size])
    # A ledger is looked at as one of version 2 first, whose records are longer.
    whole = left_files.LEDGER.size if is_old else form.size
    record_ = None if is_other or len(image) % whole else form.foreign(image)
    if record_ is None:
        return None
    return f"no {called} it: record {record_} is neither open nor zero; wanted: {wanted}"


class Logs(ExplainCase):
    """Which record of a log is damaged, or has a number that does not belong there."""

    def failed(self, image: bytes, place: Optional[int], name: str) -> None:
        """That serve and copy-ledger name this record, and change nothing."""
        found = "wrong records, or a step that failed" if place is None else f"record {place}"
        self.write("it", image)
        for words, form, called, wanted in (
            (["serve", "bank.toml", "--log", "it"], left_files.LOG, "log", A_GOOD_LOG),
            (["copy-ledger", "it", "new"], left_files.OLD_LEDGER, "ledger", A_GOOD_OLD_LEDGER),
        ):
            line = (strange(form, image, called, wanted)
                    or f"{called} it: {found}; wanted: {wanted}")
            self.explained(words, f"{called}: failed", line)
            self.assertFalse((self.home / "new").exists(), name)
        self.assertEqual((self.home / "it").read_bytes(), image, name)

    def test_spoiled(self) -> None:
        """One byte behind a number changed, at each record; or the gate of one closed: then the next
        one is wrong."""
        numbers = bytes_of(numbers_from(int(FIRST, 16), 4))
        for place, turned in ([(RECORD * it + self.chance.randrange(11, RECORD), 1) for it in range(4)]
                              + [(RECORD * it, 3) for it in range(3)]):
            image = bytearray(log_image(numbers, 6))
            image[place] ^= turned
            wanted = place // RECORD + (place % RECORD == 0)
            self.assertEqual(damaged_record(bytes(image)), wanted)
            self.failed(bytes(image), wanted, f"byte {place}")

    def test_sizes(self) -> None:
        for size in (0, 1, 15, 17, 31, 33, 1000, RECORD * 1000 + 5):
            self.failed(bytes(size), size // RECORD, f"{size} bytes")

    def test_random(self) -> None:
        """The first record at which a reader of the format stops."""
        count = 0
        while count < 60 * self.times:
            image = Damaged(self.chance).log()
            place = damaged_record(image)
            if place is not None:
                self.failed(image, place, image.hex())
                count += 1

    def test_what_is_no_file(self) -> None:
        """Devices without an end, and a pipe to which nobody writes: the run ends as it does without
        `--explain`. They are not read again, and no record is told."""
        os.mkfifo(self.home / "pipe")
        with turn_of_devices():
            for name in ("/dev/null", "/dev/zero", "/dev/full", "pipe"):
                for words, fault, called, wanted, none in (
                    (["serve", "bank.toml", "--log", name], "log: failed", "log", A_GOOD_LOG,
                     "wrong records, or a step that failed"),
                    ([*ISSUE, name], "ledger: damaged", "ledger", A_GOOD_LEDGER,
                     "records that no ledger has"),
                ):
                    ended = self.run_with([*words, EXPLAIN], seconds=20)
                    line = f"{fault}\n{called} {name}: {none}; wanted: {wanted}\n".encode()
                    self.assert_ended(ended, 1, b"", line, spoken(words))

    def test_far_behind(self) -> None:
        """Of many records the last but one is open, behind closed ones."""
        self.failed(bytes(RECORD * 5000) + record(bytes(10)) + bytes(RECORD), 5000, "record 5000")

    def test_other_numbers(self) -> None:
        """Records that are sound, with a number that does not belong there: the first is named."""
        first = int(FIRST, 16)
        of_service = {"twice": ([first + 1, first + 2, first + 1], 2), "no counter": ([first], 0),
                      "eleven ones": ([first + 1, first + 0x7FF], 1),
                      "after others": ([first + 3, first + 3, first, first + 3], 1),
                      "another terminal's": ([first + 1, first + SPENT + 2, first + 1], 2)}
        of_ledger = {"a counter": ([first, first + SPENT + 1], 1), "the first": ([first + 1], 0),
                     "twice and a counter": ([first, first, first + 2, first + 1], 2)}
        for words, called, wanted, cases in (
            (["serve", "bank.toml", "--log", "it"], "log", A_GOOD_LOG, of_service),
            (["copy-ledger", "it", "new"], "ledger", A_GOOD_OLD_LEDGER, of_ledger),
        ):
            for name, (numbers, place) in cases.items():
                self.write("it", log_image(bytes_of(numbers), 5))
                ended = self.run_with([*words, EXPLAIN])
                line = f"{called}: failed\n{called} it: record {place}; wanted: {wanted}\n"
                self.assert_ended(ended, 1, b"", line.encode(), name)

    def test_numbers_before_damage(self) -> None:
        """A damaged record goes first, where another number stands before it too."""
        first = int(FIRST, 16)
        image = log_image(bytes_of([first + 1, first + 1]), 2) + record(bytes(10), rest=b"\1" * 5)
        self.failed(image, 2, "a number twice, then a record without its zeros")

    def test_random_numbers(self) -> None:
        """The first number that a service's log, or a ledger of version 1, does not keep."""
        first = int(FIRST, 16)
        for _ in range(20 * self.times):
            few = [first, first + self.chance.randrange(1, 1 << 21), first + 1, first + 2, first + 3,
                   first + SPENT + 1]
            numbers = [self.chance.choice(few) for _ in range(self.chance.randrange(1, 30))]
            self.write("it", log_image(bytes_of(numbers), 30))
            for words, called, wanted, place in (
                (["serve", "bank.toml", "--log", "it"], "log", A_GOOD_LOG, first_unusable(numbers)),
                (["copy-ledger", "it", "new"], "ledger", A_GOOD_OLD_LEDGER, first_counted(numbers)),
            ):
                if place is not None:
                    line = f"{called}: failed\n{called} it: record {place}; wanted: {wanted}\n"
                    ended = self.run_with([*words, EXPLAIN])
                    self.assert_ended(ended, 1, b"", line.encode(), str(numbers))
            (self.home / "new").unlink(missing_ok=True)

    def test_writes_that_fail(self) -> None:
        """The log itself is sound then."""
        for room in (0, 5, RECORD, RECORD + 3):
            self.write("it", bytes(5 * RECORD))
            limits = Limits(file_size=room)
            frames = b"".join(it.frame for it in payments(3))
            ended = self.run_with(["serve", "bank.toml", "--log", "it", EXPLAIN], frames, limits=limits)
            line = f"log it: wrong records, or a step that failed; wanted: {A_GOOD_LOG}"
            answers = b"".join(it.answer for it in payments(3)[: room // RECORD])
            self.assert_ended(ended, 1, answers, f"log: failed\n{line}\n".encode(), f"{room} bytes")


class Ledgers(ExplainCase):
    """Of a damaged ledger only `show ledger` tells the record."""

    line = f"ledger it: records that no ledger has; wanted: {A_GOOD_LEDGER}"

    def failed(self, image: bytes, what: str) -> None:
        """That `issue` and `show ledger` tell so, and change nothing."""
        self.write("it", image)
        line = strange(left_files.LEDGER, image, "ledger", A_GOOD_LEDGER) or self.line
        self.explained([*ISSUE, "it"], "ledger: damaged", line)
        with self.assertRaises(ledger_file.DamagedLedger) as found:
            ledger_file.kept_in(image)
        fault = f"ledger refused at {found.exception.args[0]}: Damaged"
        line = explained(Asked("show"), fault, Facts(path="it"))
        self.explained(["show", "ledger", "it"], fault, line)
        self.assertEqual((self.home / "it").read_bytes(), image, what)

    def test_damage(self) -> None:
        """A byte of each record, a gate that is lost, and a size."""
        size = ledger_file.RECORD
        image = Ledger(6, numbers_from(int(FIRST, 16), 4)).image
        bytes_of_records = [size * it + self.chance.randrange(1, size) for it in range(1, 5)]
        for at in [*range(1, size), *bytes_of_records, *[size * it for it in range(1, 4)]]:
            changed = bytearray(image)
            # Not the bit with which the sixteenth byte is the last of the zeros of a log's record.
            changed[at] ^= 1 << self.chance.randrange(5)
            self.failed(bytes(changed), f"byte {at}")
        for size in (0, 1, 15, 33, 32 * 6 + 5, 32 * 7 - 1):
            self.failed(image[:size], f"{size} bytes")

    def test_strange(self) -> None:
        """Records behind those that are kept, which no stop leaves: the last that is not zero is
        named."""
        size = ledger_file.RECORD
        image = Ledger(2, numbers_from(int(FIRST, 16), 2)).image
        gated = bytes(size) + b"\x02" + bytes(2 * size - 1)
        for behind, place in ((b"a" * 2 * size, 4), (gated, 4), (bytes(3 * size - 1) + b"\x01", 5)):
            self.write("it", image + behind)
            self.assertEqual(left_files.LEDGER.foreign(image + behind), place)
            line = (f"no ledger it: record {place} is neither open nor zero; "
                    f"wanted: {A_GOOD_LEDGER}")
            self.explained([*ISSUE, "it"], "ledger: damaged", line)

    def test_other_numbers(self) -> None:
        """A number with a counter is no initial key's."""
        first = int(FIRST, 16)
        for numbers in ([first, first + SPENT + 1], [first + 1], [first, first, first + 2]):
            self.failed(Ledger(5, numbers).image, str(numbers))

    def test_version_1(self) -> None:
        """How to come from it, whatever its numbers are."""
        first = int(FIRST, 16)
        line = ("ledger it: version 1; wanted: one of version 2; make it by dukpt copy-ledger OLD "
                "NEW")
        for numbers in ([], [first], [first, first + SPENT], [first + 1], [first, first]):
            image = log_image(bytes_of(numbers), 5)
            self.write("it", image)
            self.explained([*ISSUE, "it"], "ledger: version 1, use copy-ledger", line)
            self.assertEqual((self.home / "it").read_bytes(), image)

    def test_writes_that_fail(self) -> None:
        """The ledger itself is sound then."""
        size = ledger_file.RECORD
        for room in (0, 5, size, size + 3, 2 * size, 2 * size + 3, 3 * size + 31):
            self.write("it", Ledger(5).image)
            limits = Limits(file_size=room)
            ended = self.run_with([*ISSUE[:4], "3", "--ledger", "it", EXPLAIN], limits=limits)
            line = ("ledger it: a step of its device failed; wanted: a device that works; the next number "
                    "may stand in it")
            self.assertEqual((ended.status, ended.faults), (1, f"ledger: failed\n{line}\n".encode()))
            self.assertEqual(ended.output.count(b"\n"), max(0, room // size - 1))

    def test_issued(self) -> None:
        """The first of the numbers that stands there; and where there is too little room."""
        numbers = numbers_from(int(FIRST, 16), 3)
        image = Ledger(2, numbers[1:2]).image
        self.write("it", image)
        second = serial_text(numbers[1])
        line = (f"IKSN: {second} stands in the ledger; wanted: numbers that do not; --skip-issued "
                "passes over them")
        self.explained([*ISSUE[:4], "3", "--ledger", "it"], f"{second}: issued", line)
        line = ("ledger it: too little room, or the largest run is 4294967295; wanted: 32 bytes of zeros "
                "for each number, and a largest run below 4294967295")
        words = [*ISSUE[:4], "3", "--ledger", "it", "--skip-issued"]
        self.explained(words, "ledger: full", line)
        self.assertEqual((self.home / "it").read_bytes(), image)
        of_last_run = Kept(bytes.fromhex(FIRST), Made(bytes(3), bytes(3), ledger_file.MOST_RUN))
        self.write("of_last_run", ledger_file.ledger_image([of_last_run], 5))
        words = [*ISSUE[:4], "2", "--ledger", "of_last_run", "--skip-issued"]
        self.explained(words, "ledger: full", line.replace(" it:", " of_last_run:"))
        ended = self.run_with([*ISSUE[:4], "2", "--ledger", "it", "--skip-issued", EXPLAIN])
        self.assertEqual((ended.status, ended.faults, ended.output.count(b"\n")), (0, b"passed over 1\n", 1))

    def test_not_issued(self) -> None:
        """The first of the numbers that does not stand there."""
        numbers = numbers_from(int(FIRST, 16), 3)
        image = Ledger(3, [numbers[2], numbers[0]]).image
        self.write("it", image)
        second = serial_text(numbers[1])
        line = (f"IKSN: {second} does not stand in the ledger; wanted: numbers that do; without --again it "
                "is issued")
        self.explained([*ISSUE[:4], "3", "--ledger", "it", "--again"], f"{second}: not issued", line)
        self.assertEqual((self.home / "it").read_bytes(), image)


class Journals(ExplainCase):
    """Of a damaged journal only `show journal` tells the record; a service and a copy tell that there is
    damage, or that a step failed."""

    line = f"journal it: wrong records, or a step that failed; wanted: {A_GOOD_JOURNAL}"

    def failed(self, image: bytes, what: str) -> None:
        """That each command over it tells so, and changes nothing."""
        self.write("it", image)
        line = strange(left_files.JOURNAL, image, "journal", A_GOOD_JOURNAL) or self.line
        for words in (["serve", "bank.toml", "--journal", "it"], ["copy-journal", "it", "new"],
                      ["copy-journal", "it", "bank.toml"]):
            self.explained(words, "journal: failed", line)
        fault = journal_ended(image).faults.decode()[:-1]
        self.assertRegex(fault, r"journal refused at \d+: Damaged")
        self.explained(["show", "journal", "it"], fault, explained(Asked("show"), fault, Facts(path="it")))
        self.assertEqual((self.home / "it").read_bytes(), image, what)
        self.assertFalse((self.home / "new").exists(), what)

    def test_each_damage(self) -> None:
        journals = journal_records.Journals(self.chance)
        for damage in journal_records.DAMAGES:
            groups = [[journals.payment(0)], [journals.payment(2 << 21), journals.payment(3 << 21)]]
            image = journal_records.journal_of(groups, 3, self.chance)
            self.failed(checked(damage(journals, groups, image)[0]), damage.__name__)

    def test_sizes_and_numbers(self) -> None:
        for size in (0, 1, 31, 33, 32 * 1000 + 5):
            self.failed(bytes(size), f"{size} bytes")
        kept = payments_of_all(payments(3))
        self.failed(journal_of([kept, kept[1:2]], 1), "a number twice")

    def test_writes_that_fail(self) -> None:
        """The journal itself is sound then. Its groups were answered up to the limit."""
        requests = payments(3)
        for room in (0, 5, 32, 40):
            self.write("it", blank(5))
            service = Service(self.program, self.home, "serve", "bank.toml", "--journal", "it", EXPLAIN,
                              how=How(limits=Limits(file_size=HEADER + room)))
            self.addCleanup(service.release)
            service.ask([it.frame for it in requests])
            answers = b"".join(it.answer for it in requests[: room // 32])
            self.assert_ended(service.end(), 1, answers, f"journal: failed\n{self.line}\n".encode(),
                              f"{room} bytes")


class Configurations(ExplainCase):
    """Which line of a configuration is wrong."""

    def wrong(self, config: bytes, key: str, line: Optional[int]) -> None:
        """A configuration with this fault, of which this line is told, or none."""
        self.assertEqual(line_of(config, f"config: {key}"), line, config)
        self.write("it.toml", config)
        told = explained(Asked("run"), f"config: {key}", Facts(place=line, path="it.toml"))
        self.explained(["run", "it.toml", SCRIPT], f"config: {key}", told)
        self.explained(["serve", "it.toml", "--log", "missing"], f"config: {key}", told)

    def test_lines(self) -> None:
        for config, key, line in (
            (b"# a comment\n\n" + BANK.replace(b"log = 100", b"log = 0"), "bad log", 7),
            (BANK.replace(b"log = 100", b"  log\t=   0  # none"), "bad log", 5),
            (BANK.replace(b"log = 100", b"log=0"), "bad log", 5),
            (BANK.replace(b"log = 100\n", b"# log = 0\n"), "bad log", None),
            (BANK.replace(b"log = 100", b'"log" = 0'), "bad log", None),
            (BANK.replace(b"lmk = ", b"# lmk = 1\nlmk = 1 # "), "bad lmk", 2),
            (BANK.replace(b"terminals = 2", b"terminals = 17"), "bad terminals", 4),
            (BANK.replace(b"terminals = 2\n", b""), "bad terminals", None),
            (b"logs = 1\n" + BANK, "unknown logs", 1),
            (b"lo = 1\n" + BANK, "unknown lo", 1),
            (BANK + b"[other]\nx = 1\n", "unknown other", 13),
            (BANK + b"\n  [[other]]\n", "unknown other", 14),
            (b"a.b = 1\n" + BANK, "unknown a", None),
            (b"'a b' = 1\n" + BANK, "unknown key 1", None),
            (b"'' = 1\n" + BANK, "unknown key 1", None),
            (FRONT + b"[bdk]\n" + CARD, "bad bdk", 6),
            (FRONT + 9 * BDK + CARD, "bad bdk", 6),
            (FRONT + BDK + b"# twice\n" + BDK + CARD, "bad bdk 2", 10),
            (FRONT + BDK + b" [[bdk]] \n" + CARD, "bad bdk 2", 9),
            (BANK + CARD, "bad card 2", 13),
            (BANK.replace(b"limit = 10000", b"limit = -1"), "bad card 1", 9),
            (BANK.replace(b"[[card]]", b"[card]"), "bad card", 9),
        ):
            self.wrong(config, key, line)

    def stops(self, config: bytes, line: int) -> None:
        """What is no TOML, of which this line is told."""
        self.write("it.toml", config)
        for words in (["run", "it.toml", SCRIPT], ["serve", "it.toml", "--log", "missing"]):
            self.explained(words, "config: not TOML", f"CONFIG it.toml: line {line}; wanted: TOML in UTF-8")

    def test_not_toml(self) -> None:
        """The line at which reading stops: of what is no UTF-8 that of the first byte that is not."""
        for config, line in (
            (b"lmk", 1),
            (b"lmk = \n", 1),
            (BANK + b"x\n", 13),
            (BANK + b"\x00", 13),
            (BANK + b"# \x07\n" + BANK, 13),
            (BANK + b"[bdk]\n", 13),
            (b"bdk = []\n" + BDK, 2),
            (b"lmk = 1\n\nlmk = 1\n", 3),
            (b"[[bdk]]\nprefix = 1\nprefix = 2\n", 3),
            (BANK.replace(b"limit = 10000", b"limit = 010000"), 12),
            (BANK.replace(b'"1234"', b'"12\n34"'), 11),
            (b"#\r\n#\r\nx\r\n#\r\n", 3),
            (b"lmk = [\n1,\n2 3\n]\n", 3),
            (b"lmk = [\n1,\n2\n", 4),
            (b"lmk = '''\n\n\n", 4),
            (b"lmk\n# \xff\n", 2),
            (BANK + b"# \xc3", 13),
            (b"\n" * 100_000 + b"x", 100_001),
        ):
            self.stops(config, line)

    def test_random_lines_of_no_toml(self) -> None:
        """A line that is no TOML, at each place of a configuration."""
        lines = BANK.split(b"\n")
        for place in range(len(lines)):
            wrong = self.chance.choice([b"x", b"x = ", b"= 1", b"x = 1 2", b"[x", b"x = 0x", b"\xe2\x82",
                                        b'x = "', b"x = [}", b"x = 1979-13-01"])
            self.stops(b"\n".join([*lines[:place], wrong, *lines[place:]]), place + 1)

    def test_toml_by_now(self) -> None:
        """A configuration that is TOML when it is read once more: no line is told."""
        ended = self.run_with(["run", "/dev/stdin", SCRIPT, EXPLAIN], b"lmk = \n")
        self.assertEqual((ended.status, ended.output), (1, b""))
        self.assertIn(ended.faults, {f"config: not TOML\nCONFIG /dev/stdin: {it}; wanted: TOML in UTF-8\n".encode()
                                     for it in ("other text", "line 1")})

    def test_many_entries(self) -> None:
        """The last card of a thousand."""
        cards = b"".join(b'[[card]]\npan = "%012d"\npin = "1234"\nlimit = 1\n' % it for it in range(999))
        wrong = b'[[card]]\npan = "1"\npin = "1234"\nlimit = 1\n'
        self.wrong(FRONT + BDK + cards + wrong, "bad card 1000", 9 + 4 * 999)

    def test_by_other_ways(self) -> None:
        """A configuration that comes once, as by a pipe: its line is told, or that there is none. The run
        ends as it does without `--explain`."""
        config = BANK.replace(b"log = 100", b"log = 0")
        wanted = {f"config: bad log\nCONFIG {name}: {it}; wanted: 1 to 100000\n".encode()
                  for it in ("line 5", "the line was not found") for name in ("/dev/stdin", "pipe")}
        ended = self.run_with(["run", "/dev/stdin", SCRIPT, EXPLAIN], config)
        self.assertEqual((ended.status, ended.output), (1, b""))
        self.assertIn(ended.faults, wanted)
        os.mkfifo(self.home / "pipe")
        writer = threading.Thread(target=(self.home / "pipe").write_bytes, args=[config])
        writer.start()
        ended = self.run_with(["run", "pipe", SCRIPT, EXPLAIN], seconds=20)
        writer.join(SECONDS)
        self.assertEqual((ended.status, ended.output), (1, b""))
        self.assertIn(ended.faults, wanted)

    def test_scripts(self) -> None:
        for script, line in ((b"up 01\n", 1), (b"# up\n\nup 1\nup\n", 4), (b"\n" * 99 + b" ", 100)):
            self.write("it.script", script)
            wanted = f"SCRIPT it.script: line {line}; wanted: an event, a comment after # or an empty line"
            self.explained(["run", "bank.toml", "it.script"], f"line {line}: not an event", wanted)
