"""`--json`: what a command writes as objects says what it writes as lines, and nothing more."""
from __future__ import annotations

import json
import shutil
import subprocess
from collections import Counter
from dataclasses import dataclass
from typing import Callable, Iterator, Sequence, Union

from ..support.case import ProgramCase
from ..support.commands.batches import MOST_ITEM, Batch, broken_input, lines_in
from ..support.commands.everyday_cases import Draw
from ..support.commands.everyday_rows import (
    BASE, FIRST, KEY_BLOCK, PAN, PIN, REQUEST, SERIAL, ZONE)
from ..support.commands.everyday_rows import rows as everyday_rows
from ..support.commands.explain_case import EXPLAIN, places
from ..support.commands.explain_case import rows as explained_rows
from ..support.commands.issuing import Keys, Ledger, numbers_from, read_lines
from ..support.commands.json_answers import (
    JSON, LINE_REFUSED_TEXT, Object, command_of, is_help, object_of_item, objects_in,
    wanted)
from ..support.commands.shown import journal_ended, log_ended
from ..support.formats.images import log_disk
from ..support.formats.journal_records import DAMAGES, Journals, journal_of
from ..support.formats.ledger_file import RECORD, DamagedLedger, shown_ledger
from ..support.models.model_journal import payments_of_all
from ..support.program import COMMANDS, SECONDS, Ended, Limits, Program, Word, spoken
from ..support.service.client import payments
from ..support.service.service import Service
from ..support.standards.dukpt import SPENT
from ..support.system.little_memory import AMPLE, OUT_OF_MEMORY, least_to_start
from .test_batch import KINDS, WRONG
from .test_commands import ended as stored_ended
from .test_commands import expected as stored
from .test_show import Damaged

Objects = list[Object]

# They have no answers, and so no such option.
WITHOUT = ("run", "serve")
LOADING = "0123456789ABCDEFFEDCBA98765432100123456789ABCDEF"
KEYS = Keys(bytes.fromhex(BASE), bytes.fromhex(LOADING))
NUMBERS = numbers_from(int(FIRST, 16), 5)
ISSUE = ["issue", BASE, LOADING, FIRST]
WRITE_FAILED: Objects = [[("fault", "write failed")]]
ITEMS_REFUSED: Objects = [[("fault", "batch: items refused")]]
UNKNOWN = "error: unexpected argument '--json' found\n"
# So many batches of each kind, and so many journals, on all programs that are tried.
BATCHES, JOURNALS = 100, 400
# Texts that are hard to tell.
HARD = ("x\"y", "\\", "\\n", "a\"b\\c/", "\t", "\r", "\n", "\x01", "\x1b[31m", "\x7f", "\u00e9", "\u2028",
        "\U0001f600", "{}", "x\ntried 1 of 2\n", "a" * 5000)
# What a batch may have between its items: none of it is one.
ODD = (b"", b"\xff", b"@missing", b"--json", b'"', b"\\", b"0" * (MOST_ITEM + 1), "\u00e9".encode())


class JsonCase(ProgramCase):
    """A test in a folder with what tests/data/commands has."""

    weight = 3

    def setUp(self) -> None:
        super().setUp()
        self.home = self.folder() / "commands"
        shutil.copytree(COMMANDS, self.home)

    def write(self, name: str, data: bytes) -> None:
        (self.home / name).write_bytes(data)

    def run_here(self, words: Sequence[Word], **how: object) -> Ended:
        return self.program.run(*words, folder=self.home, **how)

    def with_json(self, words: Sequence[Word]) -> list[Word]:
        """With the option at any place."""
        place = self.chance.choice(places(words))
        return [*words[:place], JSON, *words[place:]]

    def demand(self, found: Ended, status: int, objects: Objects, faults: Objects, what: str) -> None:
        """That a run ended with these objects."""
        self.assertEqual(objects_in(found.output), objects, what)
        self.assertEqual(objects_in(found.faults), faults, what)
        self.assertEqual(found.status, status, what)

    def check(self, words: Sequence[Word], plain: Ended, **how: object) -> None:
        """That a run over its arguments alone says what it says without the option."""
        asked = self.with_json(words)
        found = self.run_here(asked, **how)
        if plain.status == 0 and is_help(words):
            self.assert_ended(found, 0, plain.output, plain.faults, spoken(asked))
        else:
            self.demand(found, plain.status, *wanted(words, plain), spoken(asked))

    def check_alone(self, words: Sequence[Word], **how: object) -> Ended:
        """The same, by a run without it."""
        plain = self.run_here(words, **how)
        self.check(words, plain, **how)
        return plain

    def check_batch(self, batch: Batch, data: bytes, explain: bool = False,
                    **how: object) -> Objects:
        """The objects that answer the items of an input, by the bench's model."""
        words = self.with_json([*batch.words, EXPLAIN] if explain else batch.words)
        what = f"{spoken(words)} {data[:200]!r}"
        found = self.run_here(words, given=data, **how)
        if fault := batch.others():
            self.assertEqual((found.status, found.output), (1, b""), what)
            self.assertEqual(objects_in(found.faults)[0][0], ("fault", fault), what)
            return []
        answer = batch.explained_answer if explain else batch.answer
        answers = [answer(line) for line in lines_in(data)]
        objects = [object_of_item(*it) for it in answers]
        is_refused = any(refused for _, refused in answers)
        self.assertEqual(objects_in(found.output), objects, what)
        self.assertEqual(found.status, int(is_refused), what)
        faults = objects_in(found.faults)
        self.assertEqual([it[:1] for it in faults], ITEMS_REFUSED if is_refused else [], what)
        self.assertEqual([len(it) for it in faults], [1 + explain] * is_refused, what)
        return objects


class Commands(JsonCase):
    """Each command of tests/data/commands, with the option at any place."""

    weight = 6

    def test_stored(self) -> None:
        count = 0
        for command, text in stored():
            words = command.decode().split(" ") if command else []
            if command_of(words) not in WITHOUT:
                self.check(words, stored_ended(text))
                count += 1
        self.assertGreater(count, 100)
        self.tells(f"{count} commands")

    def test_everyday(self) -> None:
        count = 0
        for words, plain in everyday_rows():
            if command_of(words) not in WITHOUT:
                self.check(words, plain)
                count += 1
        self.assertGreater(count, 100)
        self.tells(f"{count} commands")

    def test_explained(self) -> None:
        """The explanation of a fault is a member beside it."""
        count = 0
        for words, fault, line in explained_rows():
            if command_of(words) not in WITHOUT:
                place = self.chance.choice(places(words))
                asked = self.with_json([*words[:place], EXPLAIN, *words[place:]])
                self.demand(self.run_here(asked), 1, [], [[("fault", fault), ("explanation", line)]],
                            spoken(asked))
                count += 1
        self.assertGreater(count, 100)
        self.tells(f"{count} commands")

    def test_written_out(self) -> None:
        """The examples of docs/COMMANDS.md."""
        found = self.run_here(["kcv", "-", JSON], given=f"{BASE}\n00\n".encode())
        self.assert_ended(found, 1, b'{"kcv":"08D7B4","cmac":"0A82458664"}\n{"fault":"key refused"}\n',
                          b'{"fault":"batch: items refused"}\n')
        found = self.run_here(["kcv", BASE[:16], JSON, EXPLAIN])
        self.assert_ended(
            found, 1, b"", b'{"fault":"key refused","explanation":'
            b'"KEY: 16 bytes; wanted: 32 or 48 hexadecimal digits"}\n')

    def test_walk(self) -> None:
        for words in (["1000"], ["1000", "--ksn"], ["3", "--skip", "1048573"], ["0"]):
            plain = self.check_alone(["walk", BASE, FIRST, *words])
            self.assertEqual(plain.status, 0)

    def test_several_keys(self) -> None:
        """There is an object for each, but of components."""
        for words in ([BASE], [BASE, ZONE], [BASE] * 16, ["00" * 16, BASE, "01" * 16]):
            self.check_alone(["kcv", *words])
            self.check_alone(["kcv", *words, "--components"])
            self.check_alone(["kcv", "--show", *words, "--components"])

    def test_names_of_two_words(self) -> None:
        """`none stands` alone has two."""
        words = [words for words, plain in everyday_rows() if plain.output.startswith(b"none stands")]
        self.assertEqual(objects_in(self.run_here([*words[0], JSON]).output),
                         [[("none stands", SERIAL)]])

    def test_hard_fields(self) -> None:
        """Fields of key blocks may be any characters that can be printed."""
        for fields in ('"', "\\", "\\u0041", "{[:,]}", "   ", "' /~"):
            text = fields.ljust(7)[:7]
            block = self.run_here(["wrap", ZONE, text, BASE, "00" * 6]).output.decode().strip()
            self.assertEqual(block[:1], "B", text)
            plain = self.check_alone(["unwrap", ZONE, block])
            self.assertIn(f"fields {text}\n".encode(), plain.output)
            self.check_alone(["show", "block", block])

    def test_files(self) -> None:
        """Of files that are made nothing is said."""
        for words in (["new-log", "a", "3"], ["new-journal", "b", "3"], ["copy-journal", "b", "c"],
                      ["new-ledger", "d", "3"], ["copy-ledger", "a", "e"]):
            self.assert_ended(self.run_here(self.with_json(words)), 0, b"", b"", spoken(words))
            self.assertEqual(objects_in(self.run_here(self.with_json(words)).faults)[0][0][0], "fault")
        self.assert_ended(self.run_here(self.with_json(["grow-journal", "b", "3"])), 0, b"", b"", "grown")
        for kind, name in (("log", "a"), ("journal", "b"), ("journal", "c"), ("ledger", "d"),
                           ("ledger", "e")):
            self.check_alone(["show", kind, name])


class Arguments(JsonCase):
    """Where the option may stand, and what is refused."""

    def test_refused(self) -> None:
        """The text is that of standard error as ever, without its last end of a line."""
        for text in HARD:
            for words in ([text], ["derive", f"--{text}"], ["help", text], ["walk", BASE, FIRST],
                          ["derive", BASE, SERIAL, text], ["walk", f"--skip={text}"], []):
                plain = self.check_alone(words)
                self.assertIn(plain.status, (1, 2))
        self.assertEqual(self.run_here([]).status, 2)

    def test_hard_paths(self) -> None:
        """In an explanation a path has its control characters told; it may be refused."""
        for text in HARD:
            for words in (["show", "log", text], ["show", "journal", f"@{text}"],
                          ["derive", f"@{text}", SERIAL], ["new-log", f"{text}/{text}", "1"]):
                for more in ([], [EXPLAIN]):
                    self.assertEqual(self.check_alone([*words, *more]).status, 1)

    def test_help(self) -> None:
        helps = self.run_here(["--help"]), self.run_here(["--version"])
        for words, plain in ((["--help"], helps[0]), (["-h"], helps[0]), (["help"], helps[0]),
                             (["-V"], helps[1]), (["--version"], helps[1])):
            for asked in ([*words, JSON], [JSON, *words]):
                self.assert_ended(self.run_here(asked), 0, plain.output, b"", spoken(asked))
        for command in ("derive", "issue", "run", "serve"):
            plain = self.run_here(["help", command])
            for asked in (["help", command, JSON], [JSON, "help", command], [command, "--help", JSON]):
                self.assert_ended(self.run_here(asked), 0, plain.output, b"", spoken(asked))
        self.assert_ended(self.run_here(["derive", JSON, "-h"]), 0,
                          self.run_here(["help", "derive"]).output, b"")

    def test_twice(self) -> None:
        """A second one is an option that is not known."""
        for words in (["derive", BASE, SERIAL, JSON, JSON], [JSON, "derive", JSON, BASE, SERIAL]):
            found = self.run_here(words)
            self.assertEqual((found.status, found.output), (2, b""))
            (name, text), = objects_in(found.faults)[0]
            self.assertEqual((name, text[: len(UNKNOWN)]), ("refused", UNKNOWN))

    def test_without(self) -> None:
        """A script and a service have no such option, and say so as ever."""
        script = ["run", "bank.toml", "scripts/payment.script"]
        for words in (script, [*script, "--journal"], ["serve", "bank.toml"], ["run"], ["serve", "a", "b"]):
            for place in range(len(words) + 1):
                asked = [*words[:place], JSON, *words[place:]]
                found = self.run_here(asked, given=bytes.fromhex(REQUEST))
                self.assertEqual((found.status, found.output), (2, b""), spoken(asked))
                self.assertEqual(found.faults[:7], b"error: ", spoken(asked))
                if len(words) > 1 and place < 3:
                    self.assertEqual(found.faults.decode()[: len(UNKNOWN)], UNKNOWN, spoken(asked))

    def test_behind_the_end(self) -> None:
        """Behind `--` it is a text as any."""
        self.assertEqual(self.run_here(["mac", BASE, "--", JSON]),
                         self.run_here(["mac", BASE, JSON.encode().hex(), "--hex"]))
        plain = self.check_alone(["mac", BASE, "--", JSON])
        self.assertEqual(plain.output[:4], b"mac ")

    def test_not_utf_8(self) -> None:
        """Arguments that cannot be read are refused before any option is found in them."""
        found = self.run_here([JSON.encode(), b"derive", b"\xff"])
        self.assert_ended(found, 2, b"", b"error: a word is not UTF-8\n")

    def test_references(self) -> None:
        """What is read is as what is written."""
        plain = self.run_here(["derive", BASE, SERIAL])
        self.write("bdk", f"{BASE}\n".encode())
        self.check(["derive", "@bdk", SERIAL], plain)
        self.check(["derive", "@-", SERIAL], plain, given=f"{BASE}\nmore".encode())
        self.check(["derive", "@-", "@-"], Ended(1, b"", b"KSN: cannot read\n"), given=BASE.encode())


class Batches(JsonCase):
    """The items of an input: one object each."""

    weight = 8

    def test_each_kind(self) -> None:
        for batch, right, wrong in KINDS:
            for explain in (False, True):
                self.assertEqual(len(self.check_batch(batch, f"{right}\n".encode() * 3, explain)), 3)
                self.assertEqual(self.check_batch(batch, b"", explain), [])
                for item in wrong:
                    self.check_batch(batch, f"{right}\n{item}\n{right}\n".encode(), explain)
                    self.check_batch(batch, f"{item}\n{item}\n{right}\n{right}".encode(), explain)
                self.check_batch(batch, "\n".join((*wrong, *wrong)).encode(), explain)

    def test_lines_that_are_no_items(self) -> None:
        """`line refused` has no explanation."""
        for batch, right, wrong in KINDS:
            item, fault = right.encode(), wrong[0].encode()
            lines = [b"\xff", b"0" * (MOST_ITEM + 1)]
            data = b"\n".join([*lines, item, *lines, fault, *lines, item, fault, fault, *lines])
            objects = self.check_batch(batch, data, explain=True)
            refused = [it for it in objects if it[0] == ("fault", LINE_REFUSED_TEXT)]
            self.assertEqual([len(it) for it in refused], [1] * 8, spoken(batch.words))

    def test_other_arguments(self) -> None:
        """Wrong ones are told alone."""
        for batch in WRONG:
            for explain in (False, True):
                self.assertEqual(self.check_batch(batch, f"{PIN}\n{PAN}\n".encode(), explain), [])

    def test_a_reference_to_items(self) -> None:
        """Nobody but the command knows of it that it stands for items."""
        self.write("it", b"-\n")
        for batch, right, wrong in KINDS:
            if batch.command != "derive":
                words = [*batch.options, *("@it" if it == "-" else it for it in batch.values)]
                data = f"{right}\n{wrong[0]}\n{right}\n".encode()
                found = self.run_here([*words, JSON], given=data)
                objects = [object_of_item(*batch.answer(line)) for line in lines_in(data)]
                self.demand(found, 1, objects, ITEMS_REFUSED, spoken(words))

    def test_random(self) -> None:
        """Items of each kind, right ones, wrong ones and none at all."""
        draw, damaged, tally = Draw(self.own_chance(), ""), Damaged(self.own_chance()), Counter[str]()
        shown = {"frame": damaged.frame, "block": damaged.block, "image": damaged.image}
        for batch, right, wrong in KINDS:
            draws: list[Callable[[], Union[str, bytes]]] = [
                lambda: right, lambda: draw.chance.choice(wrong), lambda: draw.chance.choice(ODD)]
            if batch.command == "show":
                draws += [shown[batch.values[0]]] * 4
            elif batch.command == "unwrap":
                draws += [lambda: draw.key_block(bytes.fromhex(batch.values[0]))] * 4
            elif batch.command == "kcv":
                draws += [lambda: draw.checked_key(16, 24)] * 4
            for _ in range(self.share_of(BATCHES)):
                items = [draw.chance.choice(draws)() for _ in range(draw.chance.choice((1, 3, 9, 40)))]
                data = b"".join((it.encode() if isinstance(it, str) else it)
                                + draw.chance.choice((b"\n", b"\n", b"\r\n")) for it in items)
                objects = self.check_batch(batch, data, draw.one_in(2))
                tally.update("fault" if it[0][0] == "fault" else "done" for it in objects)
        self.assertGreater(min(tally["fault"], tally["done"]), 100)
        self.tells(f"{tally['done']} items done, {tally['fault']} refused")

    def test_many(self) -> None:
        """More than one write has."""
        for explain in (False, True):
            data = (f"{SERIAL}\nx\n" * 5_000).encode()
            self.assertEqual(len(self.check_batch(KINDS[0][0], data, explain)), 10_000)

    def test_one_answer_for_each_item(self) -> None:
        """Another program writes an item, and waits for its answer before it writes the next one."""
        for batch, right, wrong in KINDS:
            service = Service(self.program, self.home, *batch.words, JSON)
            self.addCleanup(service.release)
            whole = b""
            for item in (right, wrong[0], right):
                one = self.run_here([*batch.words, JSON], given=item.encode()).output
                service.ask_all(f"{item}\n".encode(), len(one))
                whole += one
                self.assertEqual(bytes(service.collected), whole)
            found = service.end()
            self.assertEqual(objects_in(found.faults), ITEMS_REFUSED)
            service.release()

    def test_a_read_that_fails(self) -> None:
        with broken_input(f"{SERIAL}\n{SERIAL}".encode()) as reader:
            found = self.run_here(["derive", BASE, "-", JSON], given=reader.fileno())
        self.demand(found, 1, [object_of_item(*KINDS[0][0].answer(SERIAL.encode()))],
                    [[("fault", "batch: read failed")]], "a read that fails")


class Issued(JsonCase):
    """Each number that is issued is an object of its own, which does not wait for the next one."""

    def begin(self, room: int, numbers: Sequence[int] = ()) -> None:
        self.write("ledger", Ledger(room, numbers).image)

    def issuing(self, *words: str) -> list[Word]:
        """A command that issues five numbers. Behind `--ledger` stands its file, as the bench has it."""
        place = self.chance.randint(0, len(ISSUE))
        return [*ISSUE[:place], JSON, *ISSUE[place:], "5", "--ledger", "ledger", *words]

    def numbers_in(self, found: Union[Ended, bytes]) -> list[int]:
        """The numbers of objects, whose blocks and check values are read."""
        objects = objects_in(found if isinstance(found, bytes) else found.output)
        for it in objects:
            self.assertEqual([name for name, _ in it], ["iksn", "block", "kcv"])
        lines = "".join("issued " + " ".join(text for _, text in it) + "\n" for it in objects)
        return [it.number for it in read_lines(lines.encode(), KEYS)]

    def test_numbers(self) -> None:
        self.begin(9)
        found = self.run_here(self.issuing())
        self.assertEqual(self.numbers_in(found), NUMBERS)
        self.assertEqual((found.status, found.faults), (0, b""))
        ledger = Ledger(9)
        ledger.keep(KEYS, NUMBERS)
        self.assertEqual((self.home / "ledger").read_bytes(), ledger.image)
        found = self.run_here(self.issuing())
        self.demand(found, 1, [], [[("fault", f"{FIRST}: issued")]], "issued")

    def test_passed_over(self) -> None:
        """How many is a note."""
        self.begin(9, NUMBERS[1:3])
        found = self.run_here(self.issuing("--skip-issued"))
        self.assertEqual(self.numbers_in(found), [NUMBERS[0], *NUMBERS[3:]])
        self.assertEqual((found.status, objects_in(found.faults)), (0, [[("note", "passed over 2")]]))

    def test_again_and_out(self) -> None:
        """A file has lines as ever."""
        self.begin(9, NUMBERS)
        self.assertEqual(self.numbers_in(self.run_here(self.issuing("--again"))), NUMBERS)
        self.assert_ended(self.run_here(self.issuing("--again", "--out", "new")), 0, b"", b"")
        lines = read_lines((self.home / "new").read_bytes(), KEYS)
        self.assertEqual([it.number for it in lines], NUMBERS)

    def test_a_lost_output(self) -> None:
        """An object is written before the next number is spent. The limit is that of the ledger too,
        which is shorter."""
        self.begin(5)
        length, size = len(self.run_here(self.issuing()).output) // 5, RECORD * (1 + 5)
        for room in (size, 2 * length - 1, 2 * length, 2 * length + 7, 4 * length + 1,
                     5 * length - 1):
            self.begin(5)
            with open(self.home / "output", "wb") as output:
                ended = self.run_here(self.issuing(), output=output.fileno(),
                                      limits=Limits(file_size=room))
            self.demand(ended, 1, [], WRITE_FAILED, f"{room} bytes")
            written, count = (self.home / "output").read_bytes(), room // length
            self.assertEqual(len(written), room)
            self.assertEqual(self.numbers_in(written[: count * length]), NUMBERS[:count])
            # The number of the object that was begun is spent, and none behind it.
            spent = Ledger(5)
            spent.keep(KEYS, NUMBERS[: count + 1])
            self.assertEqual((self.home / "ledger").read_bytes(), spent.image, f"{room} bytes")


def ledger_ended(image: bytes) -> Ended:
    """What `show ledger` does."""
    try:
        return Ended(0, shown_ledger(image).encode(), b"")
    except DamagedLedger as damaged:
        return Ended(1, b"", f"ledger refused at {damaged.args[0]}: Damaged\n".encode())


class Stores(JsonCase):
    """What logs, journals and ledgers keep is one object, however much that is."""

    weight = 10

    def shows(self, kind: str, data: bytes, plain: Ended) -> None:
        self.write("it", data)
        self.check(["show", kind, "it"], plain)

    def test_logs(self) -> None:
        for count in (0, 1, 3, 2_000):
            data = log_disk([at % 50 * SPENT + at // 50 + 1 for at in range(count)], 1)
            self.shows("log", data, log_ended(data))

    def test_journals(self) -> None:
        """Payments and reversals stand among one another."""
        journals, tally = Journals(self.own_chance()), Counter[int]()
        for _ in range(self.share_of(JOURNALS)):
            groups, data = journals.entry_journal(journals.chance.randrange(9))
            if any(len(group) > 1 for group in groups) and journals.chance.random() < 0.2:
                data, _ = journals.chance.choice(DAMAGES)(journals, groups, data)
            plain = journal_ended(data)
            self.shows("journal", data, plain)
            tally[plain.status] += 1
        self.assertEqual(set(tally), {0, 1})
        self.tells(f"{tally[0]} journals, {tally[1]} damaged ones")

    def test_ledgers(self) -> None:
        """Keys that runs issued, and numbers that were copied; and damaged ones."""
        for count, copied in ((0, 0), (1, 0), (0, 3), (5, 5), (3, 2000)):
            ledger = Ledger(count + copied + 1, numbers_from(int(FIRST, 16) + 9 * SPENT, copied))
            ledger.keep(KEYS, NUMBERS[:count])
            self.shows("ledger", ledger.image, ledger_ended(ledger.image))
            damaged = ledger.image[:-1]
            self.shows("ledger", damaged, ledger_ended(damaged))

    def test_a_large_journal(self) -> None:
        data = journal_of([[it] for it in payments_of_all(payments(20_000))], 1)
        self.shows("journal", data, journal_ended(data))

    def test_little_memory(self) -> None:
        """All of the object is written, or none of it, and the fault is told."""
        data = journal_of([[it] for it in payments_of_all(payments(10_000))], 1)
        self.write("journal", data)
        plain, told = journal_ended(data), Counter[str]()
        least = least_to_start(self.program)
        for size in [AMPLE, *(least + (at << 15) for at in range(150))]:
            found = self.run_here(["show", "journal", "journal", JSON], limits=Limits(memory=size))
            what = f"{size >> 10} KiB: {found}"
            if found.status == 0:
                self.demand(found, 0, *wanted(["show"], plain), what)
                told["done"] += 1
            elif found.faults == OUT_OF_MEMORY:
                # The arguments could not be read, and what they ask was not known.
                self.assertEqual((found.status, found.output), (1, b""), what)
            else:
                faults = objects_in(found.faults)
                self.demand(found, 1, [], faults, what)
                self.assertIn(faults, (WRITE_FAILED, [[("fault", "out of memory")]]), what)
                told[faults[0][0][1]] += 1
        self.assertGreater(told["done"], 0)
        self.assertGreater(told["write failed"], 0)
        self.assertGreater(told["out of memory"], 0)
        self.tells(f"{dict(told)}")


class Streams(JsonCase):
    """What cannot be written, and what is written at once."""

    writers = (["derive", BASE, SERIAL, "--all"], ["walk", BASE, FIRST, "9"], ["registers", BASE, SERIAL],
               ["show", "frame", REQUEST], ["unwrap", ZONE, KEY_BLOCK], ["mac", BASE, "x"], ["--help"])

    def test_a_full_device(self) -> None:
        with open("/dev/full", "wb") as full:
            for words in self.writers:
                if self.run_here(words).status == 0:
                    found = self.run_here([*words, JSON], output=full.fileno())
                    self.demand(found, 1, [], WRITE_FAILED, spoken(words))
            for batch, right, wrong in KINDS:
                for item in (right, wrong[0]):
                    found = self.run_here([*batch.words, JSON], given=item.encode(),
                                          output=full.fileno())
                    self.demand(found, 1, [], WRITE_FAILED, spoken(batch.words))

    def test_at_each_byte(self) -> None:
        for words in self.writers[:3]:
            whole = self.run_here([*words, JSON]).output
            rooms = {0, 1, len(whole) - 1, len(whole), len(whole) + 1}
            for room in rooms | {self.chance.randrange(len(whole)) for _ in range(20)}:
                with open(self.home / "output", "wb") as output:
                    found = self.run_here([*words, JSON], output=output.fileno(),
                                          limits=Limits(file_size=room))
                is_cut, what = room < len(whole), f"{spoken(words)}: {room} bytes"
                self.demand(found, int(is_cut), [], WRITE_FAILED * is_cut, what)
                self.assertEqual((self.home / "output").read_bytes(), whole[:room], what)

    def test_closed_outputs(self) -> None:
        words = ["derive", BASE, "-", JSON]
        whole = self.run_here(words, given=f"{SERIAL}\nx\n".encode())
        for way, status, output, faults in (
            (">&-", 1, b"", b'{"fault":"write failed"}\n'), ("2>&-", 1, whole.output, b""),
            (">&- 2>&-", 1, b"", b""), ("2>/dev/full", 1, whole.output, b""),
            ("<&-", 1, b"", b'{"fault":"batch: read failed"}\n'),
        ):
            done = subprocess.run(
                ["bash", "-c", f'exec "$0" "$@" {way}', str(self.program.path), *words],
                input=f"{SERIAL}\nx\n".encode(), capture_output=True, check=False, timeout=SECONDS)
            self.assertEqual((done.returncode, done.stdout, done.stderr), (status, output, faults), way)

    def test_notes(self) -> None:
        """The progress of a search, line by line, while it goes on."""
        text = "x" * 50_000
        step = 3_000_000 // (len(text) + 24)
        words = ["find", BASE, "00" * 8, "--from", SERIAL, "--window", str(3 * step), "--text", text]
        with subprocess.Popen(["dukpt", *words, JSON], executable=str(self.program.path),
                              stdout=subprocess.PIPE, stderr=subprocess.PIPE) as running:
            first = running.stderr.readline()
            self.assertIsNone(running.poll(), "the first note comes at the end")
            output, rest = running.communicate(timeout=SECONDS)
        found = Ended(running.returncode, output, first + rest)
        notes: Objects = [[("note", f"tried {at * step} of {3 * step}")] for at in (1, 2)]
        self.demand(found, 1, [], [*notes, [("fault", "not found")]], "a search")


# What is planted


@dataclass(frozen=True)
class Altered(Program):
    """A program of which the answers with the option are altered."""

    alter: Callable[[Ended], Ended]

    def run(self, *words: Word, **how: object) -> Ended:
        ended = super().run(*words, **how)
        return self.alter(ended) if JSON in words else ended


def written(objects: Objects) -> bytes:
    return b"".join(json.dumps(dict(it)).encode() + b"\n" for it in objects)


def in_output(change: Callable[[Objects], Objects]) -> Callable[[Ended], Ended]:
    return lambda it: Ended(it.status, written(change(objects_in(it.output))), it.faults)


def in_faults(change: Callable[[Objects], Objects]) -> Callable[[Ended], Ended]:
    return lambda it: Ended(it.status, it.output, written(change(objects_in(it.faults))))


def in_members(change: Callable[[str, Union[str, list[str]]], object]) -> Callable[[Objects], Objects]:
    """A change of each text or array, by its name."""
    return lambda objects: [[(name, change(name, it)) for name, it in one] for one in objects]


def in_names(change: Callable[[str], str]) -> Callable[[Objects], Objects]:
    return lambda objects: [[(change(name), it) for name, it in one] for one in objects]


PLANTED: dict[str, Callable[[Ended], Ended]] = {
    "an object is lost": in_output(lambda it: it[:-1]),
    "an object comes twice": in_output(lambda it: it[:1] + it),
    "objects change places": in_output(lambda it: it[::-1]),
    "two are one": in_output(lambda it: [sum(it, [])] if it else []),
    "a member is lost": in_output(lambda it: [one[:-1] if len(one) > 1 else one for one in it]),
    "members change places": in_output(lambda it: [one[::-1] for one in it]),
    "a text is cut": in_output(in_members(lambda _, it: it[:-1] if isinstance(it, str) else it)),
    "a text has a space before it": in_output(
        in_members(lambda _, it: f" {it}" if isinstance(it, str) else it)),
    "an array of one is a text": in_output(
        in_members(lambda _, it: it[0] if isinstance(it, list) and len(it) == 1 else it)),
    "an array is a text": in_output(
        in_members(lambda _, it: "\n".join(it) if isinstance(it, list) else it)),
    "a text is an array of one": in_output(
        in_members(lambda name, it: [it] if name == "key" else it)),
    "an array loses its last text": in_output(
        in_members(lambda _, it: it[:-1] if isinstance(it, list) else it)),
    "texts of an array change places": in_output(
        in_members(lambda _, it: it[::-1] if isinstance(it, list) else it)),
    "a text is a number": in_output(
        in_members(lambda _, it: int(it) if isinstance(it, str) and it.isdigit() else it)),
    "a name is another one": in_output(in_names(lambda it: it.replace("key", "keys"))),
    "the name of a key block is another one": in_output(
        in_names(lambda it: it.replace("block", "text"))),
    "a name has one word": in_output(in_names(lambda it: it.split(" ")[0])),
    "the fault of an item is a line": in_output(in_names(lambda it: it.replace("fault", "KSN"))),
    "an explanation is lost": in_output(lambda it: [
        [pair for pair in one if pair[0] != "explanation"] for one in it]),
    "an explanation is an object": in_output(lambda it: [
        new for one in it for new in ([one[:1], one[1:]] if one[0][0] == "fault" and one[1:] else [one])]),
    "the explanation of a fault is lost": in_faults(lambda it: [one[:1] for one in it]),
    "a fault is lost": in_faults(lambda it: it[:-1]),
    "refused arguments are a fault": in_faults(in_names(lambda it: it.replace("refused", "fault"))),
    "a fault is refused arguments": in_faults(in_names(lambda it: it.replace("fault", "refused"))),
    "the last end of a line is told": in_faults(in_members(lambda _, it: f"{it}\n")),
    "the status is another one": lambda it: Ended(0, it.output, it.faults),
    "the last line has no end": lambda it: Ended(it.status, it.output[:-1], it.faults),
    "all objects are an array": lambda it: Ended(
        it.status, b"[" + b",".join(it.output.splitlines()) + b"]\n", it.faults),
    "lines are as ever": lambda it: Ended(it.status, it.output.replace(b'"', b""), it.faults),
    "a fault is as ever": lambda it: Ended(it.status, it.output, it.faults.replace(b'{"fault"', b"")),
}


class Planted(JsonCase):
    """The checks of this module find what is planted in the answers."""

    rows: Sequence[Sequence[str]] = (
        ["derive", BASE, "FFFF9876543210E00003", "--trace", "--all"], ["derive", BASE, SERIAL],
        ["derive", BASE, SERIAL, "--trace"], ["kcv", BASE, ZONE], ["kcv", BASE, ZONE, "--components"],
        ["walk", BASE, FIRST, "3"], ["derive", BASE, "x"], ["derive", BASE, "x", EXPLAIN],
        ["wrap", ZONE, "P0TE00E", BASE, "A5A5A5A5A5A5"], ["lmk", "--new", ZONE],
        ["lmk", f"{BASE} 08D7B4", f"{ZONE} 57C409", "--key", BASE, "--fields", "P0TE00E", "--pad",
         "A5A5A5A5A5A5"],
        ["unpin", "041274EDCBA9876F", PAN, "--show"],
        ["walk", BASE], ["derive", "--quiet"])

    def check_some(self) -> Iterator[None]:
        """The checks, one after the other."""
        for words in self.rows:
            yield self.check_alone(words)
        for batch, right, wrong in KINDS[:3]:
            for explain in (False, True):
                yield self.check_batch(batch, f"{right}\n{wrong[0]}\n{right}\n".encode(), explain)
        yield self.assertEqual(self.run_here(["show", "log", "logs/one_used.log"]).status, 0)
        yield self.check_alone(["show", "log", "logs/one_used.log"])
        words = next(words for words, plain in everyday_rows() if plain.output[:5] == b"none ")
        yield self.check_alone(words)

    def test_planted(self) -> None:
        own = self.program
        for _ in self.check_some():
            pass
        for name, alter in PLANTED.items():
            self.program = Altered(own.path, alter)
            found = 0
            checks = self.check_some()
            while True:
                try:
                    next(checks)
                except StopIteration:
                    break
                except AssertionError:
                    found += 1
                    break
            self.assertEqual(found, 1, f"{name}: nothing tells it")
        self.program = own
        self.tells(f"{len(PLANTED)} found")
