"""Commands on the lines of standard input: each answer is that of the command with its item alone."""
from __future__ import annotations

import resource
import subprocess
import time
from collections import Counter
from typing import Callable, Union

from ..support.case import ProgramCase
from ..support.commands.batches import (
    ITEMS_REFUSED, MOST_ITEM, READ_FAILED, WRITE_FAILED, Batch, broken_input, lines_in, written)
from ..support.commands.everyday import derive_lines
from ..support.commands.everyday_cases import Draw
from ..support.commands.everyday_rows import (
    BASE, INITIAL, KBPK, KEY_BLOCK, PAN, PIN, PIN_KEY, REPLY, REQUEST, SERIAL, ZONE)
from ..support.commands.everyday_words import INPUTS, expected
from ..support.commands.leaks import leaks_of_batch
from ..support.formats.images import RECORD
from ..support.program import SECONDS, Ended, Limits, spoken
from ..support.service.service import PACKETS, Service, cuts
from .test_show import (
    BLOCK_FAULTS, FRAME_FAULTS, IMAGE_FAULTS, NEW_IMAGE, OPTIONAL, PLACES, Damaged)

DERIVE, KCV = Batch("derive", (BASE, "-")), Batch("kcv", ("-",))
PINS, PANS = Batch("pin", ("-", PAN), (), {"key": PIN_KEY}), Batch("pin", (PIN, "-"))
FRAMES, BLOCKS, IMAGES = (Batch("show", (kind, "-")) for kind in ("frame", "block", "image"))
OPEN_IMAGES = Batch("show", ("image", "-"), ("show",))
# A batch of each kind, with an item that is done and some that are refused.
KINDS = (
    (DERIVE, SERIAL, ("FFFF9876543210E00000", "x", f"@{SERIAL}", "-", f" {SERIAL}")),
    (Batch("derive", (INITIAL, "-"), ("initial", "trace", "all")), SERIAL, (SERIAL[4:], "--trace")),
    (KCV, BASE, (BASE[:-1], f"{BASE} {ZONE}", "@missing", "--show")),
    (PINS, PIN, ("123", "12a4", "1234567890123", "\u0661234")),
    (PANS, PAN, ("40123456789", "4012345678901234567x")),
    (Batch("unwrap", (KBPK, "-")), KEY_BLOCK, (KEY_BLOCK[:-1], f"{KEY_BLOCK[:-1]}0", "-", "@missing")),
    (FRAMES, REQUEST, (REPLY[:-1], f"{REQUEST} ", "--show", KEY_BLOCK)),
    (BLOCKS, OPTIONAL, (KEY_BLOCK[:-1], f"@{KEY_BLOCK}", "-", REQUEST)),
    (IMAGES, NEW_IMAGE.hex(), (NEW_IMAGE.hex()[:-1], "@missing", REPLY)),
    (OPEN_IMAGES, NEW_IMAGE.hex(), (NEW_IMAGE.hex()[2:], "--show", "\u0660")),
)
# What goes wrong with the other arguments: nothing is answered.
WRONG = (Batch("derive", ("x", "-")), Batch("derive", ("x", "-"), ("initial",)),
         Batch("pin", ("-", "x")), Batch("pin", ("x", "-")),
         Batch("pin", ("-", PAN), (), {"key": "x"}), Batch("pin", ("-", "x"), (), {"key": "x"}),
         Batch("unwrap", ("x", "-")))
# So many of each kind at random, on all programs that are tried.
ITEMS = 10_000
COUNT = 100_000
# How much processor time they may take: five times what docs/PERFORMANCE.md has.
MOST_SECONDS = 3


class BatchCase(ProgramCase):
    weight = 3

    def setUp(self) -> None:
        super().setUp()
        self.home = self.folder()

    def run_batch(self, batch: Batch, given: Union[bytes, int], limits: Limits = Limits()) -> Ended:
        return self.program.run(*batch.words, given=given, folder=self.home, limits=limits)

    def check(self, batch: Batch, data: bytes, what: str = "") -> Ended:
        wanted = batch.ended(data)
        ended = self.run_batch(batch, data)
        self.assert_ended(ended, wanted.status, wanted.output, wanted.faults,
                          f"{spoken(batch.words)} {what or repr(data[:200])}")
        return wanted


class Items(BatchCase):
    """Rows: what is an item, and what answers it."""

    def test_each_kind(self) -> None:
        """As often as items are refused, they have no part in the answers to others."""
        for batch, right, wrong in KINDS:
            self.assertEqual(self.check(batch, f"{right}\n{right}\n".encode()).status, 0)
            self.assertEqual(self.check(batch, b"").output, b"")
            for item in wrong:
                self.assertEqual(self.check(batch, f"{right}\n{item}\n{right}\n".encode()).status, 1)
            self.check(batch, "\n".join((*wrong, right)).encode())

    def test_written_out(self) -> None:
        """The example of docs/COMMANDS.md."""
        ended = self.run_batch(DERIVE, b"FFFF9876543210E00001\nFFFF9876543210E00000\n")
        self.assert_ended(ended, 1, b"initial 6AC292FAA1315B4D858AB3A3D7D5933A\n"
                          b"key 042666B49184CFA368DE9628D0397BC9\n"
                          b"pin 042666B49184CF5C68DE9628D0397B36\ncounter refused\n", ITEMS_REFUSED)

    def test_as_alone(self) -> None:
        """The program itself answers the item as its argument with the same line."""
        for batch, right, wrong in KINDS:
            for item in (right, *wrong):
                # In a batch alone these stand for themselves.
                if item == "-" or item.startswith("@"):
                    continue
                # Behind `--` no item is an option.
                words = [*batch.options, "--", *(item if it == "-" else it for it in batch.values)]
                alone = self.program.run(*words)
                ended = self.run_batch(batch, item.encode())
                self.assertEqual((ended.status, ended.output),
                                 (alone.status, alone.output + alone.faults), spoken(words))

    def test_ends_of_lines(self) -> None:
        """LF and CR LF, which the last item may lack; an empty line is an item, and nothing behind
        the last LF is none."""
        for batch, right, _ in KINDS:
            item = right.encode()
            for data in (item, item + b"\n", item + b"\r\n", b"\n", b"\r\n", b"\r", b"\n\n",
                         b"\n" + item, item + b"\n\n", item + b"\n\r\n" + item, item + b"\r",
                         item + b"\r\r\n", b"\r" + item + b"\n", item + b"\n\r", item + b"\x00\n",
                         b"\x00", b"\xef\xbb\xbf" + item, item + b"\x0b\n", item + b"\x0c" + item,
                         item + "\u2028".encode() + item + b"\n", item + "\u0085".encode()):
                self.check(batch, data)

    def test_long_lines(self) -> None:
        """The end of a line is no part of it."""
        for batch, right, _ in KINDS:
            item = right.encode()
            for size in (MOST_ITEM - 1, MOST_ITEM, MOST_ITEM + 1, 65_535, 65_536, 65_537, 200_000):
                long = b"0" * size
                for end in (b"\n", b"\r\n"):
                    data = item + b"\n" + long + end + item + end
                    wanted = self.check(batch, data, f"{size} bytes")
                    self.assertEqual(b"line refused\n" in wanted.output, size > MOST_ITEM)
                self.check(batch, long, f"{size} bytes")
                self.check(batch, b"0" * (size - 1) + b"\r", f"{size} bytes with CR")

    def test_lines_that_are_no_text(self) -> None:
        """Each is answered; a letter of two bytes at the most length is text."""
        two = "\u00e9".encode()
        for batch, right, _ in KINDS:
            item = right.encode()
            for bad in (b"\xff", item + b"\xff", b"\xc3", two[:1] + b"\r", b"\xed\xa0\x80",
                        b"\xc0\x80", b"\xf4\x90\x80\x80", two * (MOST_ITEM // 2),
                        b"\xff" * (MOST_ITEM + 1)):
                self.check(batch, item + b"\n" + bad + b"\n" + item + b"\n")
                self.check(batch, bad)

    def test_other_arguments(self) -> None:
        """Wrong ones are told alone, whatever the items are."""
        for batch in WRONG:
            self.check(batch, b"")
            self.check(batch, f"{PIN}\n{PAN}\n{SERIAL}\n\n".encode())

    def test_words_that_are_no_batch(self) -> None:
        """`-` elsewhere is a text as any, and standard input is left to whoever reads it next."""
        self.write("input", b"1234\n")
        for words in (["kcv", "-", "--show"], ["kcv", "-", "--components"], ["kcv", "-", BASE],
                      ["kcv", BASE, "-"], ["derive", "-", SERIAL], ["pin", PIN, PAN, "--key", "-"],
                      ["mac", BASE, "-"], ["mac", "-", "text"], ["initial", BASE, "-"],
                      ["walk", BASE, "-", "1"], ["registers", BASE, "-"], ["unpin", "-", PAN],
                      ["translate", "-", PAN, BASE, SERIAL, ZONE], ["wrap", "-", "-", "-", "-"],
                      ["request", BASE, "-", "-", "-", "-"], ["reply", BASE, "-", "-"],
                      ["show", "x", "-"], ["show", "", "-"], ["show", "-", REQUEST],
                      ["show", "-", "-"], ["show", "frames", "-", "--show"],
                      ["show", "frame", "-", "--key", BASE], ["show", "frame", REQUEST, "--key", "-"],
                      ["find", BASE, "-"], ["find", "-", REQUEST], ["find", BASE, REQUEST, "--from", "-"],
                      ["find", BASE, BASE[:16], "--from", SERIAL, "--pan", "-"]):
            wanted = expected(words)
            ended = self.in_bash('{ "$0" "$@"; echo $?; cat; } < input', *words)
            printed = wanted.output + b"%d\n1234\n" % wanted.status
            self.assertEqual(ended.output, printed, spoken(words))
            self.assertEqual(ended.faults, wanted.faults, spoken(words))

    def test_a_log_whose_name_is_a_hyphen(self) -> None:
        """`-` is the path of a log as any."""
        self.write("input", REQUEST.encode())
        for words in (["show", "log", "-"], ["show", "log", "-", "--show"]):
            for data, wanted in ((None, b"1\n"), (bytes(RECORD), b"numbers 0\nroom 1\n0\n")):
                if data is not None:
                    self.write("-", data)
                ended = self.in_bash('{ "$0" "$@"; echo $?; cat; } < input', *words)
                self.assertEqual(ended.output, wanted + REQUEST.encode(), spoken(words))
                self.assertEqual(ended.faults, b"log: cannot read\n" if data is None else b"")
            (self.home / "-").unlink()

    def test_two_places(self) -> None:
        """Of `pin - -` the PINs come."""
        self.check(Batch("pin", ("-", "-")), f"{PIN}\n{PAN}\n".encode())

    def write(self, name: str, data: bytes) -> None:
        (self.home / name).write_bytes(data)

    def in_bash(self, script: str, *words: str) -> Ended:
        done = subprocess.run(["bash", "-c", script, str(self.program.path), *words], cwd=self.home,
                              capture_output=True, check=False, timeout=SECONDS)
        return Ended(done.returncode, done.stdout, done.stderr)


class Secrets(BatchCase):
    """Secrets by reference beside items."""

    def test_first_line(self) -> None:
        """Of an input with `@-`, or a path of it, the first line is the secret, and the items follow."""
        for batch, first in ((Batch("derive", ("@-", "-"), ("all",)), BASE),
                             (Batch("pin", ("@-", "-")), PIN), (Batch("pin", ("-", "@-")), PAN),
                             (Batch("pin", ("-", PAN), (), {"key": "@-"}), PIN_KEY)):
            named = Batch(batch.command, tuple(first if it == "@-" else it for it in batch.values),
                          batch.flags, {name: first if it == "@-" else it
                                        for name, it in batch.valued.items()})
            for rest in (b"", b"\n", f"{SERIAL}\n{PIN}\r\n{PAN}".encode()):
                for end in (b"\n", b"\r\n"):
                    wanted = named.ended(rest)
                    for name in INPUTS:
                        words = [word.replace("@-", name) for word in batch.words]
                        ended = self.program.run(*words, given=first.encode() + end + rest,
                                                 folder=self.home)
                        self.assert_ended(ended, wanted.status, wanted.output, wanted.faults,
                                          f"{spoken(words)} {end + rest!r}")

    def test_references_that_are_refused(self) -> None:
        """Before any item is answered."""
        for words, data, line in (
            (["derive", "@missing", "-"], f"{SERIAL}\n", "BDK: cannot read"),
            (["derive", "@-", "-"], "0" * 4097 + f"\n{SERIAL}\n", "BDK: too long"),
            (["pin", "-", PAN, "--key", "@missing"], f"{PIN}\n", "KEY: cannot read"),
        ):
            ended = self.program.run(*words, given=data.encode(), folder=self.home)
            self.assert_ended(ended, 1, b"", f"{line}\n".encode(), spoken(words))

    def test_a_reference_to_items(self) -> None:
        """A text that was read is as one that was written: of `-` there are items."""
        (self.home / "it").write_text("-\n")
        for batch, right, wrong in KINDS:
            if batch.command == "derive":
                # KSN is no secret.
                continue
            data = f"{right}\n{wrong[0]}\n{right}".encode()
            words = [*batch.options, *("@it" if it == "-" else it for it in batch.values)]
            found = self.program.run(*words, given=data, folder=self.home)
            wanted = batch.ended(data)
            self.assert_ended(found, wanted.status, wanted.output, wanted.faults, spoken(words))

    def test_a_file(self) -> None:
        (self.home / "bdk").write_text(f"{BASE}\r\nmore\n")
        wanted = DERIVE.ended(f"{SERIAL}\nx".encode())
        ended = self.run_batch(Batch("derive", ("@bdk", "-")), f"{SERIAL}\nx".encode())
        self.assertEqual(ended, wanted)


class Random(BatchCase):
    """Inputs of random items, right ones and wrong ones: each answer, and no secret in it."""

    weight = 12

    def items_of(self, command: str, draw: Draw, count: int) -> tuple[Batch, list[str]]:
        """A batch with arguments at random, and items for it."""
        flags = [it for it in ("trace", "all") if draw.one_in(3)]
        if command == "derive":
            batch = Batch("derive", (draw.key(16)[1], "-"), flags)
            return batch, [draw.number()[1] for _ in range(count)]
        if command == "kcv":
            return KCV, [draw.checked_key(16, 24) for _ in range(count)]
        if command == "unwrap":
            protection, word = draw.key(16, 24)
            return Batch("unwrap", (word, "-")), [draw.key_block(protection) for _ in range(count)]
        valued = {} if draw.one_in(2) else {"key": draw.key(16)[1]}
        if command == "PINs":
            pins = [draw.pin()[1] for _ in range(count)]
            return Batch("pin", ("-", draw.pan()[1]), (), valued), pins
        pans = [draw.pan()[1] for _ in range(count)]
        return Batch("pin", (draw.pin()[1], "-"), (), valued), pans

    def play(self, command: str) -> None:
        draw, tally = Draw(self.own_chance(), str(self.home)), Counter[str]()
        while tally["lines"] < self.share_of(ITEMS):
            batch, items = self.items_of(command, draw, draw.chance.choice((1, 3, 20, 100)))
            if any(word.startswith("@") for word in batch.words):
                # It is spoiled so that it is a reference.
                continue
            data = b"".join(item.encode() + self.end_of_line() for item in items)
            if draw.one_in(3):
                data = data.removesuffix(b"\n")
            words = [*batch.options, "--", *batch.values]
            wanted = batch.ended(data)
            ended = self.program.run(*words, given=data)
            self.assert_ended(ended, wanted.status, wanted.output, wanted.faults,
                              f"{spoken(words)} {data!r}")
            self.assertEqual(leaks_of_batch(batch, data, ended), [], f"{spoken(words)} {data!r}")
            tally["refused" if wanted.status else "done"] += 1
            tally["lines"] += len(lines_in(data))
        self.assertGreater(tally["done"], 0)
        self.assertGreater(tally["refused"], 0)
        self.tells(f"{tally['done']} batches done, {tally['refused']} with refused items, "
                   f"{tally['lines']} lines")

    def end_of_line(self) -> bytes:
        """Now and then there is more before it, or another line behind it."""
        return self.chance.choice(
            (b"\n", b"\n", b"\n", b"\r\n", b"\n\n", b"\n\xff\n", b" \n", b"\n@-\n"))

    def test_derive(self) -> None:
        self.play("derive")

    def test_kcv(self) -> None:
        self.play("kcv")

    def test_pins(self) -> None:
        self.play("PINs")

    def test_pans(self) -> None:
        self.play("PANs")

    def test_unwrap(self) -> None:
        self.play("unwrap")


class Shown(BatchCase):
    """Inputs of texts of one kind, whole ones and damaged ones."""

    weight = 12

    def play(self, kind: str, draw: Callable[[Damaged], str], faults: set[str]) -> None:
        damaged, tally = Damaged(self.own_chance()), Counter[str]()
        while tally.total() < self.share_of(ITEMS):
            batch = Batch("show", (kind, "-"), ["show"] if damaged.one_in(2) else [])
            texts = [draw(damaged) for _ in range(damaged.chance.choice((1, 3, 100)))]
            data = b"".join(text.encode() + damaged.chance.choice((b"\n", b"\r\n"))
                            for text in texts)
            data = data.removesuffix(b"\n") if damaged.one_in(3) else data
            wanted = self.check(batch, data)
            self.assertEqual(leaks_of_batch(batch, data, wanted), [], repr(data))
            found = [it[3].decode() for it in PLACES.finditer(wanted.output)]
            tally.update(found)
            tally["done"] += len(texts) - len(found)
        self.assertEqual(set(tally), faults | {"done"}, dict(tally))
        self.tells(", ".join(f"{name} {tally[name]}" for name in sorted(tally)))

    def test_frames(self) -> None:
        self.play("frame", Damaged.frame, FRAME_FAULTS)

    def test_blocks(self) -> None:
        self.play("block", Damaged.block, BLOCK_FAULTS)

    def test_images(self) -> None:
        self.play("image", Damaged.image, IMAGE_FAULTS)

    def test_no_secret(self) -> None:
        """Without --show no key of an image is printed."""
        data, key = f"{NEW_IMAGE.hex()}\n".encode() * 3, NEW_IMAGE[14:30].hex().upper().encode()
        self.assertNotIn(key, self.check(IMAGES, data).output)
        self.assertIn(key, self.check(OPEN_IMAGES, data).output)


class Input(BatchCase):
    """However the input comes, the answers are the same."""

    weight = 3

    def start(self, batch: Batch, **how: object) -> Service:
        service = Service(self.program, self.home, *batch.words, **how)
        self.addCleanup(service.release)
        return service

    def some(self, count: int) -> bytes:
        """Items for `derive`, of which some are wrong."""
        draw = Draw(self.chance, "")
        return b"".join(draw.number()[1].encode() + self.chance.choice((b"\n", b"\r\n"))
                        for _ in range(count))

    def test_pieces(self) -> None:
        for most in (1, 2, 30, 300):
            for behind in (b"", b"FFFF", SERIAL.encode(), b"\r"):
                data = self.some(25) + behind
                for how in ({}, {"how": PACKETS}):
                    service = self.start(DERIVE, **how)
                    service.talk(cuts(data, self.chance, most))
                    self.assertEqual(service.end(), DERIVE.ended(data), f"pieces of {most}: {data!r}")
                    service.release()

    def test_one_answer_for_each_item(self) -> None:
        """Another program writes an item, and waits for its answer before it writes the next one."""
        service = self.start(DERIVE)
        data = self.some(30)
        for line in data.splitlines(keepends=True):
            answer = DERIVE.ended(line).output
            before = len(service.collected)
            service.ask_all(line, len(answer))
            self.assertEqual(bytes(service.collected[before:]), answer, line)
        self.assertEqual(service.end(), DERIVE.ended(data))

    def test_an_input_without_an_end(self) -> None:
        """What has not ended is answered at the end, and not before."""
        service = self.start(DERIVE)
        front, rest = self.some(3), SERIAL.encode()
        service.ask_all(front + rest, len(DERIVE.ended(front).output))
        time.sleep(0.1)
        service.ask_all(b"", 0)
        self.assertEqual(bytes(service.collected), DERIVE.ended(front).output)
        self.assertEqual(service.end(), DERIVE.ended(front + rest))

    def test_no_input(self) -> None:
        """A closed one, a folder, and one for writing alone."""
        for batch, _, _ in KINDS:
            for way in ("<&-", "<.", "0>other", "</dev/null"):
                done = subprocess.run(
                    ["bash", "-c", f'exec "$0" "$@" {way}', str(self.program.path), *batch.words],
                    cwd=self.home, capture_output=True, check=False, timeout=SECONDS)
                wanted = (0, b"", b"") if way == "</dev/null" else (1, b"", READ_FAILED)
                self.assertEqual((done.returncode, done.stdout, done.stderr), wanted,
                                 f"{spoken(batch.words)} {way}")

    def test_a_read_that_fails(self) -> None:
        """The lines that had ended are answered, a line that had not is not."""
        for data, ended in ((b"", b""), (b"x", b""), (b"x\n", b"x\n"),
                            (f"{SERIAL}\r\nx\n{SERIAL}".encode(), f"{SERIAL}\r\nx\n".encode()),
                            (b"0" * 70_000, b""), (b"x\n" * 40_000 + b"x", b"x\n" * 40_000)):
            with broken_input(data) as reader:
                found = self.run_batch(DERIVE, reader.fileno())
            self.assert_ended(found, 1, DERIVE.ended(ended).output, READ_FAILED, repr(data[:80]))

    def test_no_wait_for_an_end(self) -> None:
        """A pipe that stays open behind `@-` and an item: the answer comes."""
        service = self.start(Batch("derive", ("@-", "-")))
        wanted = DERIVE.ended(f"{SERIAL}\n".encode())
        service.ask_all(f"{BASE}\n{SERIAL}\n".encode(), len(wanted.output))
        self.assertEqual(bytes(service.collected), wanted.output)
        self.assertEqual(service.end(), wanted)


class LostOutput(BatchCase):
    """An output that takes nothing, or no more after some byte."""

    data = f"{SERIAL}\nx\n{SERIAL}\n".encode()

    def test_a_full_device(self) -> None:
        with open("/dev/full", "wb") as full:
            for batch, right, wrong in KINDS:
                for item in (right, wrong[0]):
                    ended = self.program.run(*batch.words, given=item.encode(), output=full.fileno())
                    self.assert_ended(ended, 1, b"", WRITE_FAILED, spoken(batch.words))
                ended = self.program.run(*batch.words, output=full.fileno())
                self.assert_ended(ended, 0, b"", b"", "nothing to write")

    def test_at_each_byte(self) -> None:
        path, wanted = self.home / "output", DERIVE.ended(self.data)
        for room in range(len(wanted.output) + 2):
            with open(path, "wb") as output:
                ended = self.program.run(*DERIVE.words, given=self.data, output=output.fileno(),
                                         limits=Limits(file_size=room))
            is_cut = room < len(wanted.output)
            fault = WRITE_FAILED if is_cut else ITEMS_REFUSED
            self.assert_ended(ended, 1, b"", fault, f"{room} bytes")
            self.assertEqual(path.read_bytes(), wanted.output[:room])

    def test_long_outputs(self) -> None:
        """The front of the answers is written, and no more of the input is needed."""
        path, data = self.home / "output", b"x\n" * 30_000
        wanted = DERIVE.ended(b"x\n").output * 30_000
        for room in (0, 1, 32_767, 32_768, 65_536, 65_537, len(wanted) - 1):
            with open(path, "wb") as output:
                ended = self.program.run(*DERIVE.words, given=data, output=output.fileno(),
                                         limits=Limits(file_size=room))
            self.assert_ended(ended, 1, b"", WRITE_FAILED, f"{room} bytes")
            self.assertEqual(path.read_bytes(), wanted[:room])

    def test_closed_outputs(self) -> None:
        wanted = DERIVE.ended(self.data)
        for way, status, output, faults in (
            (">&-", 1, b"", WRITE_FAILED), ("2>&-", 1, wanted.output, b""), (">&- 2>&-", 1, b"", b""),
            ("2>/dev/full", 1, wanted.output, b""),
        ):
            done = subprocess.run(
                ["bash", "-c", f'exec "$0" "$@" {way}', str(self.program.path), *DERIVE.words],
                input=self.data, capture_output=True, check=False, timeout=SECONDS)
            found = Ended(done.returncode, done.stdout, done.stderr)
            self.assertEqual(found, Ended(status, output, faults), way)

    def test_a_reader_that_goes(self) -> None:
        """With a front of the answers, and no fault of the program's making but that of the write."""
        done = subprocess.run(
            ["bash", "-c", f'yes {SERIAL} | "$0" "$@" 2>faults | head -n 4', str(self.program.path),
             *DERIVE.words],
            cwd=self.home, capture_output=True, check=False, timeout=SECONDS)
        lines = written(derive_lines(BASE, SERIAL)).splitlines(keepends=True)
        self.assertEqual(done.stdout, b"".join((lines * 2)[:4]))
        self.assertIn((self.home / "faults").read_bytes(), (b"", WRITE_FAILED))


def seconds_of_programs() -> float:
    """The processor time of all programs that this test has run."""
    used = resource.getrusage(resource.RUSAGE_CHILDREN)
    return used.ru_utime + used.ru_stime


class Many(BatchCase):
    """As many items as a night has."""

    weight = 8

    def items(self, count: int) -> tuple[bytes, bytes]:
        """So many items for `derive`, of some numbers again and again, and their answers."""
        draw = Draw(self.chance, "")
        lines = [b"x\n", *(draw.number()[1].encode() + b"\n" for _ in range(100))]
        answers = [DERIVE.ended(line).output for line in lines]
        order = self.chance.choices(range(len(lines)), k=count)
        return b"".join(lines[at] for at in order), b"".join(answers[at] for at in order)

    def test_a_hundred_thousand(self) -> None:
        """From a file into a file, with little processor time."""
        data, wanted = self.items(COUNT)
        (self.home / "items").write_bytes(data)
        path, before = self.home / "output", seconds_of_programs()
        with open(self.home / "items", "rb") as reader, open(path, "wb") as writer:
            ended = self.program.run(*DERIVE.words, given=reader.fileno(), output=writer.fileno())
        seconds = seconds_of_programs() - before
        self.assert_ended(ended, 1, b"", ITEMS_REFUSED, "a hundred thousand items")
        self.assertTrue(path.read_bytes() == wanted, "the answers are others")
        self.assertLess(seconds, MOST_SECONDS)
        self.tells(f"{COUNT} items in {seconds:.2f} s of processor time")
