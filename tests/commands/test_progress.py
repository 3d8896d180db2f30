"""`--progress`: the lines that it adds on standard error, and that it changes nothing else."""
from __future__ import annotations

import os
import shutil
import subprocess
from typing import Iterable, Optional, Sequence

from ..support.case import ProgramCase
from ..support.commands.batches import ITEMS_REFUSED
from ..support.commands.everyday_rows import BASE, FIRST, RIGHT, SERIAL
from ..support.commands.issuing import Keys, Ledger, bytes_of, numbers_from, read_lines
from ..support.formats import ledger_file
from ..support.formats.checked_journal import (
    HEADER, blank, header_of, identity_of, journal_of, with_check_sums)
from ..support.formats.journal_records import RECORD, Payment
from ..support.formats.log_file import log_image
from ..support.models.model_journal import payments_of_all
from ..support.program import SECONDS, Ended, Limits, Word, behind_shell, spoken
from ..support.service.client import first_counters, payments
from ..support.service.journal_case import alone
from ..support.standards.dukpt import SPENT
from ..support.system.small_files import PAGE, SmallFiles
from .test_batch import DERIVE, KINDS
from .test_keys_of_walk import IKSN
from .test_keys_of_walk import lines_of as lines_of_walk

PROGRESS = "--progress"
LOADING = "0123456789ABCDEFFEDCBA98765432100123456789ABCDEF"
KEYS = Keys(bytes.fromhex(BASE), bytes.fromhex(LOADING))
FIRST_NUMBER = int(FIRST, 16)
# Where no one knows how many items there are, a line stands after so many.
UNKNOWN = 10_000
# So many items and about as many: fewer than a hundred, a hundredth that is no whole item.
COUNTS = (1, 2, 99, 100, 101, 199, 200, 201, 250, 1000)
RECORDS = {"new-log": 16, "new-journal": 32, "new-ledger": 32}
# A header is a record more.
HEADERS = {"new-log": 0, "new-journal": 1, "new-ledger": 1}
PIECE = 1 << 16


def told(done: int, total: Optional[int] = None) -> list[str]:
    """The lines of so many items that are done, of so many where that is known."""
    if total is None:
        return [f"progress {it}" for it in range(UNKNOWN, done + 1, UNKNOWN)]
    each = -(-total // 100)
    return [f"progress {it} of {total}" for it in range(1, done + 1) if it % each == 0 or it == total]


def places(words: Sequence[Word]) -> range:
    """Where the option may stand among the words: before a `--`."""
    return range((list(words).index("--") if "--" in words else len(words)) + 1)


def with_progress(words: Sequence[Word], place: int) -> list[Word]:
    return [*words[:place], PROGRESS, *words[place:]]


def faults_of(lines: Iterable[str]) -> bytes:
    return "".join(f"{it}\n" for it in lines).encode()


def without_identity(image: bytes) -> bytes:
    """A file without what is drawn at each run: of a journal and of a new ledger, its identity, and
    the check sums that it is part of."""
    if ledger_file.identity_of(image) is not None and not any(image[HEADER:]):
        return ledger_file.header_of(0) + image[HEADER:]
    identity = identity_of(image)
    if identity is None:
        return image
    end = RECORD * -(-len(image.rstrip(b"\x00")) // RECORD)
    return header_of(0) + with_check_sums(image[HEADER:end], identity) + image[end:]


class ProgressCase(ProgramCase):
    """A test in a folder of its own, some of whose files are as they were before each run."""

    weight = 2

    def setUp(self) -> None:
        super().setUp()
        self.home = self.folder()
        self.kept: dict[str, bytes] = {}

    def keep(self, name: str, data: bytes) -> None:
        """What a file has before each run."""
        self.kept[name] = data

    def begin(self) -> None:
        """The folder as it is before a run."""
        shutil.rmtree(self.home)
        self.home.mkdir()
        for name, data in self.kept.items():
            (self.home / name).write_bytes(data)

    def files(self) -> dict[str, bytes]:
        return {it.name: it.read_bytes() for it in sorted(self.home.iterdir())}

    def run_with(self, words: Sequence[Word], **how: object) -> tuple[Ended, dict[str, bytes]]:
        """How a run ends, and the files behind it, but for what is drawn."""
        self.begin()
        return self.program.run(*words, folder=self.home, **how), self.files_alike()

    def files_alike(self) -> dict[str, bytes]:
        return {name: without_identity(image) for name, image in self.files().items()}

    def asked(self, words: Sequence[Word]) -> list[Word]:
        """The words with the option at some place: not behind another one, the word behind which is taken
        for the file that the run may change."""
        free = [at for at in places(words) if at == 0 or not str(words[at - 1]).startswith("--")]
        return with_progress(words, self.chance.choice(free))

    def tells_of(self, words: Sequence[Word], lines: Sequence[str], status: int = 0,
                 everywhere: bool = False, **how: object) -> Ended:
        """That with the option, at some place or everywhere, these lines stand before what is told
        without it, and that nothing else differs. How the run without it ends."""
        wanted, left = self.run_with(words, **how)
        self.assertEqual(wanted.status, status, f"{spoken(words)}: {wanted}")
        every = [with_progress(words, at) for at in places(words)]
        for asked in every if everywhere else [self.asked(words)]:
            ended, files = self.run_with(asked, **how)
            faults = faults_of(lines) + wanted.faults
            self.assert_ended(ended, wanted.status, wanted.output, faults, spoken(asked))
            self.assertEqual(files, left, spoken(asked))
        return wanted


class Walk(ProgressCase):
    """The lines of its output, of COUNT."""

    def test_counts(self) -> None:
        for count in COUNTS:
            ended = self.tells_of(["walk", BASE, IKSN, str(count)], told(count, count))
            self.assertEqual(ended.output, lines_of_walk(first_counters(count)))

    def test_none(self) -> None:
        self.tells_of(["walk", BASE, IKSN, "0"], [])

    def test_each_place(self) -> None:
        """The option may stand anywhere before a `--`."""
        self.tells_of(["walk", BASE, IKSN, "3", "--skip", "2", "--ksn"], told(3, 3), everywhere=True)
        self.tells_of(["walk", "--ksn", BASE, IKSN, "--", "3"], told(3, 3), everywhere=True)

    def test_many(self) -> None:
        """A hundred lines, however many are written at once."""
        count = 20_000 + self.chance.randrange(20_000)
        lines = told(count, count)
        self.assertEqual(len(lines), 100)
        self.tells_of(["walk", BASE, IKSN, str(count), "--ksn"], lines)

    def test_leading_zeros(self) -> None:
        self.tells_of(["walk", BASE, IKSN, "007"], told(7, 7))

    def test_spent(self) -> None:
        """That line is one of the output. None is told of that COUNT has not."""
        self.tells_of(["walk", BASE, IKSN, "5", "--skip", "1048574"], told(2, 5))
        self.tells_of(["walk", BASE, IKSN, "2", "--skip", "1048574"], told(2, 2))
        self.tells_of(["walk", BASE, IKSN, "0", "--skip", "1048576"], [])

    def test_by_reference(self) -> None:
        """No one knows how many there are before it is read."""
        self.keep("few", b"7\n")
        self.keep("many", b"20001\n")
        self.tells_of(["walk", BASE, IKSN, "@few"], [])
        self.tells_of(["walk", BASE, IKSN, "@many", "--ksn"], told(20_001))
        self.tells_of(["walk", "@-", IKSN, "3"], told(3, 3), given=f"{BASE}\n".encode())

    def test_refused(self) -> None:
        for words in (["walk", "x", IKSN, "3"], ["walk", BASE, IKSN, "x"], ["walk", BASE, IKSN, ""],
                      ["walk", BASE, IKSN, "1048577"], ["walk", BASE, IKSN, "9" * 400],
                      ["walk", BASE, IKSN, "-"], ["walk", BASE, IKSN, "@missing"]):
            self.tells_of(words, [], 1)
        self.tells_of(["walk", BASE, IKSN], [], 2)

    def test_an_output_that_takes_no_more(self) -> None:
        """Lines that were written are told, and no other."""
        output = lines_of_walk(first_counters(1000))
        for room in (0, 53, 54, 32_768, len(output) - 1, self.chance.randrange(len(output))):
            path = self.folder() / "output"
            words = ["walk", BASE, IKSN, "1000", PROGRESS]
            with open(path, "wb") as file:
                ended = self.program.run(*words, output=file.fileno(), limits=Limits(file_size=room))
            lines = told(output[:room].count(b"\n"), 1000)
            self.assert_ended(ended, 1, b"", faults_of([*lines, "write failed"]), f"room for {room}")
            self.assertEqual(path.read_bytes(), output[:room])


class Issued(ProgressCase):
    """The lines of the output, or of the new file, of COUNT. Their padding is another in each run."""

    def words(self, count: Word, *more: str) -> list[Word]:
        return ["issue", BASE, LOADING, FIRST, count, "--ledger", "ledger", *more]

    def keep_ledger(self, room: int, *issued: int) -> None:
        """A ledger with the numbers of these places, of those from the first one on."""
        self.keep("ledger", Ledger(room, [FIRST_NUMBER + at * SPENT for at in issued]).image)

    def check(self, words: Sequence[Word], places: Sequence[int], lines: Sequence[str],
              behind: str = "", name: Optional[str] = None) -> None:
        """That with and without the option the numbers of these places are issued, to standard output or
        to a new file, and these lines of progress stand before what is told without it."""
        numbers, ledgers = [FIRST_NUMBER + at * SPENT for at in places], set()
        for asked, faults in ((words, behind.encode()),
                              (self.asked(words), faults_of(lines) + behind.encode())):
            ended, files = self.run_with(asked)
            written = files[name] if name else ended.output
            self.assert_ended(ended, 0, b"" if name else written, faults, spoken(asked))
            self.assertEqual([it.number for it in read_lines(written, KEYS)], numbers)
            self.assertEqual(set(files), {*self.kept, *([name] if name else [])})
            ledgers.add(files["ledger"])
        self.assertEqual(len(ledgers), 1, spoken(words))

    def test_counts(self) -> None:
        for count in (1, 3, 101):
            self.keep_ledger(count)
            self.check(self.words(str(count)), range(count), told(count, count))

    def test_to_a_file(self) -> None:
        for count in (1, 3, 101):
            self.keep_ledger(count)
            words = self.words(str(count), "--out", "out")
            self.check(words, range(count), told(count, count), name="out")

    def test_by_reference(self) -> None:
        self.keep_ledger(3)
        self.keep("count", b"3\n")
        self.check(self.words("@count"), range(3), [])
        self.check(self.words("@count", "--out", "out"), range(3), [], name="out")

    def test_passed_over(self) -> None:
        """Such numbers have no line, and are no items."""
        self.keep_ledger(9, 1, 3)
        self.check(self.words("6", "--skip-issued"), (0, 2, 4, 5), told(4, 6), "passed over 2\n")
        self.keep_ledger(9, 0, 1, 2)
        self.check(self.words("3", "--skip-issued"), (), [], "passed over 3\n")
        words = self.words("3", "--skip-issued", "--out", "out")
        self.tells_of(words, [])

    def test_again(self) -> None:
        self.keep_ledger(9, 0, 1, 2, 3)
        self.check(self.words("4", "--again"), range(4), told(4, 4))

    def test_refused(self) -> None:
        """Nothing is told where nothing is issued."""
        self.keep_ledger(9, 1)
        for count in ("0", "x", "3", "10", "@missing"):
            self.tells_of(self.words(count), [], 1)
            self.tells_of(self.words(count, "--out", "out"), [], 1)
        self.tells_of(self.words("1", "--out", "missing/out"), [], 1)


class Batches(ProgressCase):
    """The lines of standard input that are read."""

    def test_few(self) -> None:
        for batch, right, wrong in KINDS:
            data = "".join(f"{it}\n" for it in (right, *wrong, right)).encode()
            self.tells_of(batch.words, [], 1, given=data)
            self.tells_of(batch.words, [], given=b"")

    def test_many(self) -> None:
        """25,000 items, as 9,999 and 10,000; the last without an end."""
        item = f"{SERIAL}\n".encode()
        for count in (9_999, 10_000, 25_000):
            self.tells_of(DERIVE.words, told(count), given=count * item)
        self.tells_of(DERIVE.words, told(9_999), given=9_999 * item + item[:-1])

    def test_of_each_kind(self) -> None:
        """Items that are refused, with the fault behind the lines of progress."""
        for batch, _, _ in KINDS:
            ended = self.tells_of(batch.words, told(UNKNOWN), 1, given=b"\n" * UNKNOWN)
            self.assertEqual(ended.faults, ITEMS_REFUSED)

    def test_explained(self) -> None:
        """An item is explained behind it, and what it has beside its items behind its fault."""
        self.tells_of([*DERIVE.words, "--explain"], told(10_000), 1, given=b"x\n" * 10_000)
        self.tells_of(["derive", "x", "-", "--explain"], [], 1, given=b"x\n" * 10_000)

    def test_a_line_of_a_reference(self) -> None:
        """It is one of those that are read."""
        given = f"{BASE}\n".encode() + b"x\n" * 9_999
        self.tells_of(["derive", "@-", "-"], told(10_000), 1, given=given)
        self.tells_of(["derive", "@-", "-"], [], 1, given=given[:-2])

    def test_while_it_goes_on(self) -> None:
        """A line comes once its items are read, whatever comes behind them."""
        item = f"{SERIAL}\n".encode()
        with subprocess.Popen(
                ["dukpt", *DERIVE.words, PROGRESS], executable=str(self.program.path),
                stdin=subprocess.PIPE, stdout=subprocess.DEVNULL, stderr=subprocess.PIPE) as running:
            for lines in (1, 2):
                running.stdin.write(item * UNKNOWN)
                running.stdin.flush()
                self.assertEqual(running.stderr.readline(), f"progress {lines * UNKNOWN}\n".encode())
            _, faults = running.communicate(timeout=SECONDS)
        self.assertEqual((running.returncode, faults), (0, b""))


class Shown(ProgressCase):
    """The lines of the output of `show log`, `show journal` and `show ledger`."""

    def test_logs(self) -> None:
        """Two lines, and one for each terminal."""
        for count in (1, 2 * UNKNOWN - 3, 2 * UNKNOWN - 2):
            self.keep("log", log_image(bytes_of(numbers_from(FIRST_NUMBER, count)), count))
            ended = self.tells_of(["show", "log", "log"], told(count + 2))
            self.assertEqual(ended.output.count(b"\n"), count + 2)

    def test_journals(self) -> None:
        """Four lines, one for each payment, and one for each terminal."""
        for count in (1, UNKNOWN // 2 - 3, UNKNOWN // 2 - 2):
            entries = [Payment(FIRST_NUMBER + it * SPENT + 1, it, 0, bytes(8)) for it in range(count)]
            self.keep("journal", journal_of(alone(entries), 1))
            ended = self.tells_of(["show", "journal", "journal"], told(2 * count + 4))
            self.assertEqual(ended.output.count(b"\n"), 2 * count + 4)

    def test_ledgers(self) -> None:
        """Four lines, and one for each key."""
        for count in (1, UNKNOWN - 5, UNKNOWN - 4):
            self.keep("ledger", Ledger(count, numbers_from(FIRST_NUMBER, count)).image)
            ended = self.tells_of(["show", "ledger", "ledger"], told(count + 4))
            self.assertEqual(ended.output.count(b"\n"), count + 4)

    def test_refused(self) -> None:
        self.keep("log", bytes(15))
        for words in (["show", "log", "log"], ["show", "journal", "log"], ["show", "ledger", "log"],
                      ["show", "log", "missing"]):
            self.tells_of(words, [], 1)


class NewFiles(ProgressCase):
    """The records that are written, of those of the new file."""

    def assert_blank(self, command: str, count: int) -> None:
        made = self.files()
        self.assertEqual([*made], ["made"])
        image = made["made"]
        wanted = {"new-log": bytes(RECORDS[command] * count), "new-journal": blank(count, 0),
                  "new-ledger": ledger_file.ledger_image([], count, 0)}[command]
        self.assertEqual(without_identity(image), wanted)

    def test_records(self) -> None:
        for command, length in RECORDS.items():
            piece = PIECE // length
            for count in (*COUNTS, piece - 1, piece, piece + 1, 3 * piece, 5 * piece + 7):
                records = HEADERS[command] + count
                self.tells_of([command, "made", str(count)], told(records, records))
                self.assert_blank(command, count)

    def test_a_million(self) -> None:
        lines = told(1_000_000, 1_000_000)
        self.assertEqual((len(lines), lines[0]), (100, "progress 10000 of 1000000"))
        for command in RECORDS:
            count = 1_000_000 - HEADERS[command]
            self.tells_of([command, "made", f"0{count}"], lines)
            self.assert_blank(command, count)

    def test_by_reference(self) -> None:
        """The file that is made tells how many there are."""
        self.keep("count", b"7\n")
        for command, headers in HEADERS.items():
            lines = told(7 + headers, 7 + headers)
            self.tells_of([command, "made", "@count"], lines)
            self.tells_of([command, "made", "@-"], lines, given=b"7\n")

    def test_refused(self) -> None:
        self.keep("there", b"something")
        for command in RECORDS:
            for words in (["there", "3"], ["missing/made", "3"], ["made", "x"], ["made", "0"],
                          ["made", "1000000001"], ["made", "@missing"]):
                self.tells_of([command, *words], [], 1)

    def test_a_full_file_system(self) -> None:
        """What was written is told, and then the fault."""
        pages, records = 40, 64 * PAGE // 32
        small = SmallFiles(self.folder(), pages)
        self.addCleanup(small.close)
        made = small.folder / "made"
        # A piece more would take more room than there is.
        done = ((pages * PAGE - 32) // PIECE * PIECE + 32) // 32
        words = self.asked(["new-journal", os.fspath(made), str(records - 1)])
        faults = faults_of([*told(done, records), "journal: cannot make"])
        self.assert_ended(self.program.run(*words), 1, b"", faults, spoken(words))
        self.assertEqual([*small.folder.iterdir()], [])


class Copies(ProgressCase):
    """The records that are written to NEW, of those that it has."""

    def test_records(self) -> None:
        """Those that are kept, and zeros behind them."""
        made = payments_of_all(payments(4100))
        for kept, room in ((0, 1), (1, 1), (0, 300), (150, 300), (2047, 2048), (2048, 2048), (2048, 2049),
                           (4100, 9000)):
            self.keep("journal", journal_of(alone(made[:kept]), room - kept))
            self.tells_of(["copy-journal", "journal", "copy"], told(1 + room, 1 + room))
            identity = identity_of(self.files()["copy"])
            assert identity is not None
            self.assertEqual(self.files()["copy"],
                             journal_of(alone(made[:kept]), room - kept, identity=identity))

    def test_refused(self) -> None:
        self.keep("journal", journal_of(alone(payments_of_all(payments(2))), 2))
        self.keep("there", b"something")
        for words in (["journal", "there"], ["there", "copy"], ["missing", "copy"],
                      ["journal", "missing/copy"]):
            self.tells_of(["copy-journal", *words], [], 1)

    def test_a_full_file_system(self) -> None:
        pages, records = 40, 64 * PAGE // 32
        small = SmallFiles(self.folder(), pages)
        self.addCleanup(small.close)
        self.keep("journal", journal_of(alone(payments_of_all(payments(3))), records - 4))
        self.begin()
        copy = small.folder / "copy"
        ended = self.program.run("copy-journal", "journal", os.fspath(copy), PROGRESS, folder=self.home)
        # The records that are kept are a piece of their own.
        done = ((pages * PAGE - 128) // PIECE * PIECE + 128) // 32
        faults = faults_of([*told(done, records), "journal: cannot make"])
        self.assert_ended(ended, 1, b"", faults, "a full file system")
        self.assertEqual([*small.folder.iterdir()], [])


class Others(ProgressCase):
    """Commands that tell nothing of progress."""

    def test_done(self) -> None:
        """The option changes nothing."""
        for words in RIGHT.values():
            if words[0] != "walk":
                self.tells_of(words, [])

    def test_refused(self) -> None:
        for words in (["derive", "x", SERIAL], ["kcv", "x"], ["show", "block", "x"], ["derive", BASE]):
            wanted = self.program.run(*words)
            self.tells_of(words, [], wanted.status)


class LinesThatAreLost(ProgressCase):
    """A line of progress that cannot be written is no fault."""

    def test_each_stream(self) -> None:
        """A full device, a pipe that no one reads, and no stream at all."""
        journal = journal_of(alone(payments_of_all(payments(3))), 300)
        self.keep("journal", journal)
        item = f"{SERIAL}\n".encode()
        closed = behind_shell(self.folder(), self.program, "exec 2>&-")
        for words, given in ((["walk", BASE, IKSN, "250"], b""), (["new-log", "made", "250"], b""),
                             (["new-journal", "made", "250"], b""),
                             (["new-ledger", "made", "250"], b""),
                             (["copy-journal", "journal", "made"], b""),
                             (DERIVE.words, item * UNKNOWN)):
            wanted, left = self.run_with(words, given=given)
            self.assert_ended(wanted, 0, wanted.output, b"", spoken(words))
            self.begin()
            asked = [*words, PROGRESS]
            self.same(closed.run(*asked, given=given, folder=self.home), wanted, left, "no stream")
            with open("/dev/full", "wb", buffering=0) as full:
                ended, _ = self.run_with(asked, given=given, faults=full.fileno())
                self.same(ended, wanted, left, "a full device")
            read, write = os.pipe()
            os.close(read)
            try:
                ended, _ = self.run_with(asked, given=given, faults=write)
            finally:
                os.close(write)
            self.same(ended, wanted, left, "a pipe that no one reads")

    def same(self, ended: Ended, wanted: Ended, left: dict[str, bytes], what: str) -> None:
        self.assertEqual((ended, self.files_alike()), (wanted, left), what)
