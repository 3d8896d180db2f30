"""`--explain`: the line that it adds to that of a fault, and that it changes nothing else. What it says
of files stands in test_explain_files."""
from __future__ import annotations

import re
from collections import Counter
from pathlib import Path

from ..support.commands import everyday_words
from ..support.commands.batches import ITEMS_REFUSED, LINE_REFUSED, MOST_ITEM, Batch, lines_in
from ..support.commands.everyday_cases import DRAWS, Case, Draw
from ..support.commands.everyday_rows import BASE, FIRST, PAN, PIN, RIGHT, SERIAL
from ..support.commands.everyday_rows import rows as everyday_rows
from ..support.commands.explain_case import EXPLAIN, ExplainCase, places, rows, with_explain
from ..support.commands.explained import (
    CONSTANT, OF_ONE, OF_UNWRAP, REASONED, SHOWN, TEXTS, Asked, asked_by, expected, explained)
from ..support.commands.leaks import leaks, leaks_of_batch
from ..support.commands.shown import ended as shown_ended
from ..support.program import COMMANDS, ROOT, Ended, Limits, spoken
from ..support.quick import QuickRuns
from .test_batch import KINDS, WRONG
from .test_everyday_references import secrets_of
from .test_show import Damaged

# Of faults that no argument makes.
OF_STREAMS = {"write failed", "script: write failed", "serve: write failed", "serve: read failed",
              "serve: input ends in a frame", "serve: frame too long", "batch: items refused",
              "batch: read failed", "out of memory", "log: too long", "journal: too long",
              "ledger: too long", "config: too long", "script: too long", "ledger: failed",
              "padding: cannot read",
              "identity: cannot read", "journal: cannot grow"}
# Faults as the manual page has them, whose rows are no command of this folder; and what else stands
# there for a part of a line.
ELSEWHERE = {"batch: ..", "padding: ..", "IKSN: issued", "IKSN: not issued"}
FAULT = re.compile(r'^\.B "(.*)"$', re.M)
PARTS = {r"^[A-Z]+: \.\.$": "[A-Z]+: .*", r"\.\.": ".*", r"\bNAME\b": "[A-Z]+",
         r"\b[NI]\b": "[0-9]+"}
LOST = "output: a write failed; wanted: a device with room, or a reader"
NAME_OF_FILE = ", a file of that name is there: "
# Bytes that no key, PIN or number has, and no three of which stand in an explanation.
NO_DIGITS = "GHJQXZ"


# An IKSN, the next counter, the first register, past IKSNs; where it is wrong, and why.
IMAGES = (
    (bytes.fromhex(SERIAL), "000001", 0, b"", 1, "Iksn"),
    (bytes.fromhex(FIRST), "000000", 0, b"", 11, "Counter"),
    (bytes.fromhex(FIRST), "000002", 1, b"", 14, "Registers"),
    (bytes.fromhex(FIRST), "000001", 0, bytes([9]), 350, "Past"),
    (bytes.fromhex(FIRST), "200000", 0, b"\x01" + bytes.fromhex(FIRST), 350, "Past"),
)


def image_rows() -> list[tuple[list[str], str, str]]:
    """Images with a wrong field: its place, and what is told of it."""
    found = []
    for iksn, counter, first, past, place, why in IMAGES:
        registers = first.to_bytes(16, "big") + bytes(320)
        image = b"\x02" + iksn + bytes.fromhex(counter) + registers + past.ljust(81, b"\x00")
        found.append((["show", "image", image.hex()], f"image refused at {place}: {why}",
                      f"WHAT: 862 bytes; wanted: {SHOWN['image'][why]}"))
    return found


class Rows(ExplainCase):
    """Each row of tests/data/commands/explained, and images."""

    def test_rows(self) -> None:
        for words, fault, line in (*rows(), *image_rows()):
            self.explained(words, fault, line)
        self.tells(f"{len(rows())} rows")

    def test_each_fault_has_a_row(self) -> None:
        found = {fault for _, fault, _ in (*rows(), *image_rows())}
        shown = {f"{kind}: {why}" for kind, table in SHOWN.items() for why in table}
        had = {f"{it.split()[0]}: {it.split()[-1]}" for it in found if " refused at " in it}
        self.assertEqual(sorted(shown - had), [], "shown fields without a row")
        wanted = {*CONSTANT} | {*REASONED} | {*TEXTS} | {*OF_ONE} | {*OF_UNWRAP}
        self.assertEqual(sorted(wanted - OF_STREAMS - found), [], "faults without a row")

    def test_each_fault_of_the_manual_page(self) -> None:
        """It has a row, or is one of streams, of memory or of long files, and is explained here."""
        page = (ROOT / "share" / "man" / "dukpt.1").read_text().replace(r"\-", "-")
        named = {*FAULT.findall(page)}
        self.assertLessEqual(ELSEWHERE, named)
        found = {fault for _, fault, _ in (*rows(), *image_rows())} | OF_STREAMS
        for fault in named - ELSEWHERE:
            line = fault
            for part, stands_for in PARTS.items():
                line = re.sub(part, stands_for, line)
            self.assertTrue(any(re.match(line, it) for it in found), f"{fault} has no row")
        self.tells(f"{len(named)} faults")

    def test_by_reference(self) -> None:
        """Of a secret in a file the line is explained that was read."""
        for data, line in ((b"0123\n", "4 bytes"), (b"0123\r\nmore", "4 bytes"), (b"", "0 bytes"),
                           (BASE.encode() + b" \n", "33 bytes, wrong at 32"),
                           (b"\xc3\xa9\n", "2 bytes, wrong at 0")):
            self.write("it", data)
            line = f"BDK: {line}; wanted: 32 hexadecimal digits"
            self.explained(["derive", "@it", SERIAL], "BDK refused", line)
            self.explained(["derive", "@-", SERIAL], "BDK refused", line, given=data)


class Words(ExplainCase):
    """Where `--explain` may stand, and what it does to other words: nothing."""

    def test_each_place(self) -> None:
        for words in (["walk", BASE, FIRST, "x", "--skip", "2"], ["kcv", "--components", BASE, BASE, "x"],
                      ["pin", PAN, "--key=x", PAN], ["mac", "--hex", BASE, "--", "x"],
                      ["issue", BASE, "x", "--ledger", "it", "--skip-issued", FIRST, "1"]):
            alone = self.run_with(words)
            told = {self.run_with(with_explain(words, at)) for at in places(words)}
            self.assertEqual(len(told), 1, spoken(words))
            ended = told.pop()
            self.assertEqual((ended.status, ended.output), (1, b""), spoken(words))
            self.assertRegex(ended.faults, b"\\A" + alone.faults + b"[A-Z]+( [0-9]+)?: .*; wanted: .*\n\\Z")

    def test_done(self) -> None:
        """Nothing more is written where nothing is wrong."""
        for words in (*RIGHT.values(), ["help"], ["help", "derive"], ["-V"], ["derive", "--help"],
                      ["run", "bank.toml", "scripts/codes.script"], ["serve", "bank.toml"],
                      ["show", "log", "logs/one_used.log"]):
            alone = self.run_with(words)
            self.assertEqual((alone.status, alone.faults), (0, b""), spoken(words))
            for at in places(words):
                self.assertEqual(self.run_with(with_explain(words, at)), alone, spoken(words))
        for words, wanted in everyday_rows():
            if wanted.status == 0:
                found = self.run_with(with_explain(words, 0))
                self.assertEqual(found, wanted, spoken(words))

    def test_refused(self) -> None:
        """The text of refused arguments is the same."""
        for words in ([], ["derive"], ["derive", BASE], ["nothing"], ["derive", BASE, SERIAL, "more"],
                      ["walk", BASE, FIRST, "1", "--skip"], ["pin", "--key", "--show"], ["-x"],
                      ["kcv", BASE, "--show", BASE], ["help", "nothing"], ["serve", "--log"],
                      ["derive", b"\xff", SERIAL], ["issue", BASE, BASE, FIRST, "1"]):
            alone = self.run_with(words)
            self.assertEqual((alone.status, alone.output), (2, b""), words)
            for at in places(words):
                self.assertEqual(self.run_with(with_explain(words, at)), alone, words)

    def test_a_second_one(self) -> None:
        line = b"error: unexpected argument '--explain' found\n"
        for words in (["derive", BASE, SERIAL], ["derive", "x", SERIAL], ["kcv", "x"],
                      ["serve", "bank.toml"], ["run", "bank.toml", "missing"]):
            for one in places(words):
                for other in range(one + 1, len(words) + 2):
                    twice = with_explain(with_explain(words, one), other)
                    ended = self.run_with(twice)
                    self.assertEqual((ended.status, ended.output), (2, b""), spoken(twice))
                    self.assertTrue(ended.faults.startswith(line), f"{spoken(twice)}: {ended}")

    def test_what_is_none(self) -> None:
        for word in ("--explain=1", "--explain=", "--Explain", "--explai", "-explain", "--explained"):
            ended = self.run_with(["kcv", "x", word])
            self.assertEqual((ended.status, ended.output), (2, b""), word)

    def test_an_argument(self) -> None:
        """Behind `--` it is an argument as any other one."""
        mac = self.run_with(["mac", BASE, "--hex", EXPLAIN.encode().hex()])
        self.assertEqual(mac.status, 0)
        for words in (["mac", BASE, "--", EXPLAIN], ["mac", EXPLAIN, BASE, "--", EXPLAIN],
                      ["mac", "--", BASE, EXPLAIN]):
            self.assertEqual(self.run_with(words), mac, spoken(words))
        line = b"KSN: 9 bytes, wrong at 0; wanted: 20 hexadecimal digits\n"
        for words, faults in ((["derive", "--", BASE, EXPLAIN], b"KSN refused\n"),
                              ([EXPLAIN, "derive", "--", BASE, EXPLAIN], b"KSN refused\n" + line)):
            self.assert_ended(self.run_with(words), 1, b"", faults, spoken(words))
        ended = self.run_with(["derive", EXPLAIN, "--", BASE, SERIAL, EXPLAIN])
        self.assertEqual((ended.status, ended.output), (2, b""))


class Wrong(Draw):
    """Draws cases of which most have a fault: what is rare else comes more often."""

    def one_in(self, count: int) -> bool:
        return super().one_in(count if count < 16 else count // 4)


class Random(ExplainCase):
    """Commands with arguments at random, most of them wrong: each line to the letter."""

    weight = 15

    def test_keys(self) -> None:
        self.play(1600, "derive", "walk", "initial", "registers", "kcv", "lmk", "new_component", "mac", "data")

    def test_blocks_and_frames(self) -> None:
        self.play(1600, "pin", "unpin", "translate", "request", "reply", "others")

    def test_searches(self) -> None:
        self.play(800, "find", "shown_frame")

    def play(self, count: int, *commands: str) -> None:
        draw, tally = Wrong(self.chance, str(self.folder())), Counter[int]()
        with QuickRuns(self.program) as runs:
            while tally.total() < count * self.times:
                case = DRAWS[self.chance.choice(commands)](draw)
                wanted = expected(case.words, case.files, case.given)
                if wanted.status == 1 or self.chance.random() < 0.1:
                    self.check(runs, case, wanted)
                    tally[wanted.status] += 1
        self.assertLessEqual({0, 1, 2}, set(tally), "not all statuses come")
        self.tells(f"{tally[1]} faults, and {tally[0] + tally[2]} other runs")

    def test_shown(self) -> None:
        """Frames, key blocks and images."""
        draws = {"frame": Damaged.frame, "block": Damaged.block, "image": Damaged.image}
        count, chance = 0, self.chance
        with QuickRuns(self.program) as runs:
            for _ in range(900 * self.times):
                kind = chance.choice([*draws])
                what = draws[kind](Damaged(chance))
                if what.startswith(("-", "@")):
                    continue
                wanted, words = shown_ended(kind, what), ["show", kind, what]
                if wanted.status == 1:
                    line = explained(Asked("show", {"WHAT": what}), wanted.faults.decode()[:-1])
                    wanted = Ended(1, b"", wanted.faults + f"{line}\n".encode())
                    count += 1
                asked = with_explain(words, chance.choice(places(words)))
                found = runs.run([word.encode() for word in asked])
                self.assert_ended(found, wanted.status, wanted.output, wanted.faults, spoken(asked))
        self.tells(f"{count} faults")

    def check(self, runs: QuickRuns, case: Case, wanted: Ended) -> None:
        for path, data in case.files.items():
            Path(path).write_bytes(data)
        words = with_explain(case.words, self.chance.choice(places(case.words)))
        ended = runs.run([word.encode() for word in words], case.given)
        what = f"{spoken(words)} with {case.files} and {case.given!r}"
        if wanted.status == 2:
            wanted = runs.run([word.encode() for word in case.words], case.given)
        self.assert_ended(ended, wanted.status, wanted.output, wanted.faults, what)
        self.assertEqual(leaks(case, ended), [], what)


class Secrets(ExplainCase):
    """Of a secret no more is told than its length and the first byte that is wrong."""

    def wrong_word(self, length: int, wrong: int) -> str:
        """A word so long whose first byte that is no digit stands there."""
        front = "".join(self.chance.choices("0123456789", k=wrong))
        return front + "".join(self.chance.choices(NO_DIGITS, k=length - wrong))

    def test_same_measures(self) -> None:
        """Secrets of one length that are wrong at one place have one explanation."""
        count = 0
        for command, right in RIGHT.items():
            for at, name in secrets_of(command):
                if (command, name) == ("show", "WHAT"):
                    continue
                for _ in range(6 * self.times):
                    length = self.chance.choice((4, len(right[at]), 60, 4000))
                    wrong = self.chance.randrange(length)
                    told = {self.told_of(right, at, self.wrong_word(length, wrong)) for _ in range(3)}
                    self.assertEqual(len(told), 1, f"{command} {name} of {length}, wrong at {wrong}: {told}")
                    count += 3
        self.tells(f"{count} secrets")

    def told_of(self, right: list[str], at: int, secret: str) -> bytes:
        """What is told of a secret, as an argument and in a file."""
        words = with_explain([*right[:at], secret, *right[at + 1 :]], 1)
        ended = self.run_with(words)
        self.assertEqual((ended.status, ended.output, ended.faults.count(b"\n")), (1, b"", 2),
                         f"{spoken(words)}: {ended}")
        for place in range(len(secret) - 2):
            part = secret[place : place + 3]
            if not part.isdigit():
                self.assertNotIn(part.encode(), ended.faults, spoken(words))
        self.write("secret", secret.encode() + self.chance.choice((b"", b"\n", b"\r\nmore\n")))
        words[at + 1] = "@secret"
        self.assertEqual(self.run_with(words), ended, f"{secret} in a file")
        return ended.faults

    def test_rows_and_their_secrets(self) -> None:
        """No written row has a secret of its command in its explanation, but as the name of a file."""
        for words, fault, line in rows():
            is_file = words[1] in ("log", "journal", "ledger")
            if words[0] in everyday_words.COMMANDS and not is_file:
                line, _, name = line.partition(NAME_OF_FILE)
                self.assertTrue(not name or (COMMANDS / name[1:].split(";")[0]).is_file(), spoken(words))
                ended = Ended(1, b"", f"{fault}\n{line}\n".encode())
                self.assertEqual(leaks(Case(words), ended), [], spoken(words))


class Items(ExplainCase):
    """Of items the faults stand in their places, each with the line behind it that explains it."""

    line = b"input: lines that are refused; wanted: one item a line; the fault of each stands in its place\n"

    def check(self, batch: Batch, data: bytes) -> Ended:
        """That each answer is that of its item alone, wherever `--explain` stands."""
        answers = [batch.explained_answer(it) for it in lines_in(data)]
        is_refused = any(refused for _, refused in answers)
        output = b"".join(text for text, _ in answers)
        words = with_explain(batch.words, self.chance.choice(places(batch.words)))
        ended = self.run_with(words, data)
        faults = ITEMS_REFUSED + self.line if is_refused else b""
        self.assert_ended(ended, int(is_refused), output, faults, f"{spoken(words)} {data[:200]!r}")
        return ended

    def test_each_kind(self) -> None:
        for batch, right, wrong in KINDS:
            self.check(batch, b"")
            self.check(batch, f"{right}\n".encode())
            for item in wrong:
                self.check(batch, f"{right}\n{item}\r\n\n{right}".encode())
            self.check(batch, "\n".join((*wrong, right, *wrong)).encode())

    def test_other_arguments(self) -> None:
        """Wrong ones are explained as of the command alone."""
        for batch in WRONG:
            ended = self.run_with([EXPLAIN, *batch.words], f"{PIN}\n{PAN}\n{SERIAL}\n\n".encode())
            why = batch.others()
            given = everyday_words.Given([*batch.values], {*batch.flags}, {**batch.valued})
            asked = asked_by(batch.command, given)
            line = f"{why}\n{explained(asked, why)}\n".encode()
            self.assert_ended(ended, 1, b"", line, spoken(batch.words))

    def test_as_alone(self) -> None:
        """The program itself explains the item as its argument with the same line."""
        for batch, _, wrong in KINDS:
            for item in wrong:
                if item == "-" or item.startswith("@"):
                    continue
                words = [*batch.options, "--", *(item if it == "-" else it for it in batch.values)]
                alone = self.run_with([EXPLAIN, *words])
                ended = self.run_with([EXPLAIN, *batch.words], item.encode())
                self.assertEqual(alone.faults.count(b"\n"), 2, spoken(words))
                self.assertEqual((ended.status, ended.output), (1, alone.faults), spoken(words))

    def test_no_items(self) -> None:
        """A line that is none is not explained."""
        for batch, right, _ in KINDS:
            for bad in (b"\xff", b"0" * (MOST_ITEM + 1)):
                ended = self.check(batch, right.encode() + b"\n" + bad)
                self.assertTrue(ended.output.endswith(LINE_REFUSED))

    def test_long_answers(self) -> None:
        """Faults of the longest items, of more than the output takes at once."""
        for batch, _, _ in KINDS[::4]:
            self.check(batch, b"\n".join([b"x" * MOST_ITEM, b"0" * MOST_ITEM] + 400 * [b"x"]))

    def test_secrets(self) -> None:
        """No explanation has an item of which it tells, or a secret beside it."""
        for batch, _, wrong in KINDS:
            data = "\n".join(wrong).encode()
            self.assertEqual(leaks_of_batch(batch, data, self.check(batch, data)), [], spoken(batch.words))

    def test_references(self) -> None:
        """Of a secret in a file that is explained which was read."""
        self.write("it", b"0123\n")
        line = b"BDK refused\nBDK: 4 bytes; wanted: 32 hexadecimal digits\n"
        for words, given in ((["derive", "@it", "-"], b""), (["derive", "@-", "-"], b"0123\n")):
            ended = self.run_with([EXPLAIN, *words], given + f"{SERIAL}\nx\n".encode())
            self.assert_ended(ended, 1, b"", line, spoken(words))

    def test_faults_before_items(self) -> None:
        self.explained(["derive", "@missing", "-"], "BDK: cannot read",
                       "BDK @missing: no such file; wanted: a file that can be read", given=b"x\n")

    def test_names_of_files(self) -> None:
        """No file is asked, so none is told whose name an item is."""
        for batch, _, _ in KINDS:
            self.write("it", b"it")
            self.assertNotIn(NAME_OF_FILE.encode(), self.check(batch, b"it").output)


class Lost(ExplainCase):
    """Standard error or output that takes nothing, or no more."""

    def test_no_faults(self) -> None:
        """Without standard error status, output and files are the same."""
        before = {it: it.read_bytes() for it in self.home.rglob("*") if it.is_file()}
        of_files = [it for it in rows() if it[0][0] in (
            "issue", "serve", "run", "show", "new-log", "new-journal", "new-ledger", "grow-journal",
            "copy-journal", "copy-ledger")]
        for words, _, _ in [*self.chance.sample(rows(), 30), *of_files]:
            for way in ("2>&-", "2>/dev/full", ">&- 2>&-", "<&- >&- 2>&-"):
                ended = self.in_bash(with_explain(words, 0), way)
                self.assertEqual(ended, Ended(1, b"", b""), f"{spoken(words)} {way}")
        after = {it: it.read_bytes() for it in self.home.rglob("*") if it.is_file()}
        self.assertEqual(after, before, "a file was changed")

    def test_at_each_byte(self) -> None:
        """Standard error takes so many bytes: they are the first ones."""
        path = self.home / "faults"
        for words in (["kcv", "x"], ["derive", BASE, SERIAL[4:]], ["run", "bank.toml", "missing"]):
            whole = self.run_with(with_explain(words, 0)).faults
            self.assertEqual(whole.count(b"\n"), 2)
            for room in range(len(whole) + 2):
                with open(path, "wb") as faults:
                    ended = self.run_with(with_explain(words, 0), faults=faults.fileno(),
                                          limits=Limits(file_size=room))
                self.assertEqual((ended.status, ended.output), (1, b""), f"{spoken(words)}, {room}")
                self.assertEqual(path.read_bytes(), whole[:room], f"{spoken(words)}, {room}")

    def test_a_lost_output(self) -> None:
        with open("/dev/full", "wb") as full:
            for words, fault in (
                (["kcv", BASE], "write failed"),
                (["walk", BASE, FIRST, "5000"], "write failed"),
                (["derive", BASE, "-"], "write failed"),
                (["run", "bank.toml", "scripts/payment.script"], "script: write failed"),
                (["serve", "bank.toml"], "serve: write failed"),
            ):
                given = f"{SERIAL}\n".encode() if words[0] == "derive" else b"\x00\x00"
                self.explained(words, fault, LOST, given=given, output=full.fileno())

    def test_a_lost_help(self) -> None:
        """Help is no command, and its fault is not explained."""
        with open("/dev/full", "wb") as full:
            for words in (["--help"], ["help", "derive"], ["-V"]):
                for at in places(words):
                    ended = self.run_with(with_explain(words, at), output=full.fileno())
                    self.assert_ended(ended, 1, b"", b"write failed\n", spoken(words))
