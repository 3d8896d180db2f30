"""An output that takes nothing, or no more after some byte, and faults that cannot be written."""
from __future__ import annotations

from typing import Iterable, Sequence

from ..support.formats.bank import LINES, BankCase
from ..support.program import Ended, Limits, Word, spoken
from ..support.service.client import first_counters, payments, refusal
from ..worlds.test_worlds_books import BY_HAND
from .test_files import BASE, BLOCK, DERIVED, PIN_KEY, PROTECTION, SERIAL, ZONE
from .test_keys_of_walk import IKSN, lines_of as lines_of_walk

RUN = ("run", "bank.toml", "all.script")
# Commands with what they write.
WRITERS: list[tuple[tuple[Word, ...], bytes]] = [
    (("derive", BASE, SERIAL), DERIVED),
    (("pin", "1234", "4012345678909", "--key", PIN_KEY),
     b"block 041274EDCBA9876F\nenciphered 1B9C1845EB993A7A\n"),
    (("unwrap", PROTECTION, BLOCK), f"fields P0TE00E\nkey {ZONE}\n".encode()),
    (("wrap", PROTECTION, "P0TE00E", ZONE, "A5A5A5A5A5A5"),
     b"B0080P0TE00E0000E7EA8C782E7641E7CE775995E04329A4A0870CA20BF8F6E92E580F2E81EC0BA5\n"),
    (("--version",), b"dukpt 0.1.0\n"),
]


class LostOutput(BankCase):
    """What cannot be written is reported, and what was written is the front of the output."""

    weight = 6

    def run_into(self, words: Sequence[Word], room: int, given: bytes = b"") -> tuple[Ended, bytes]:
        """A command whose output is a file that takes so many bytes, and what stands in it."""
        path = self.home / "output"
        with open(path, "wb") as output:
            ended = self.program.run(*words, given=given, folder=self.home, output=output.fileno(),
                                     limits=Limits(file_size=room))
        return ended, path.read_bytes()

    def cut(self, words: Sequence[Word], output: bytes, rooms: Iterable[int], fault: bytes,
            given: bytes = b"") -> None:
        for room in rooms:
            ended, written = self.run_into(words, room, given)
            is_cut, what = room < len(output), f"{spoken(words)} with room for {room} bytes"
            self.assert_ended(ended, 1 if is_cut else 0, b"", fault if is_cut else b"", what)
            self.assertEqual(written, output[:room], what)

    def test_commands_at_each_byte(self) -> None:
        for words, output in WRITERS:
            self.cut(words, output, range(len(output) + 2), b"write failed\n")

    def test_walk(self) -> None:
        """At places of its lines, and about the ends of buffers."""
        output = lines_of_walk(first_counters(700))
        rooms = [0, 1, 53, 54, 32_723, 32_724, 32_767, 32_768, 32_769, 37_799, 37_800, 37_801]
        rooms += [self.chance.randrange(len(output)) for _ in range(20 * self.times)]
        self.assertEqual(len(output), 37_800)
        self.cut(("walk", BASE, IKSN, "700"), output, rooms, b"write failed\n")

    def test_run_at_each_byte(self) -> None:
        self.cut(RUN, LINES, range(len(LINES) + 2), b"script: write failed\n")

    def test_run_over_a_journal_at_each_byte(self) -> None:
        self.write("tills.script", "".join(f"{event}\n" for event, _ in BY_HAND).encode())
        output = "".join(f"{line}\n" for _, line in BY_HAND).encode()
        self.cut(("run", "bank.toml", "tills.script", "--journal"), output, range(len(output) + 2),
                 b"script: write failed\n")

    def test_run_of_many_lines(self) -> None:
        output = b"no such frame\n" * 20_000
        self.write("many.script", b"up 0\n" * 20_000)
        rooms = [1 << 12, 1 << 13, 1 << 15, 1 << 16, len(output) - 1, len(output)]
        rooms += [self.chance.randrange(len(output)) for _ in range(6 * self.times)]
        self.cut(("run", "bank.toml", "many.script"), output, rooms, b"script: write failed\n")

    def test_serve_at_each_byte(self) -> None:
        requests = payments(2)
        answers = b"".join(it.answer for it in requests)
        stream = b"".join(it.frame for it in requests)
        self.cut(("serve", "bank.toml"), answers, range(len(answers) + 2),
                 b"serve: write failed\n", stream)

    def test_serve_over_a_log(self) -> None:
        """The number of the answer that is cut is used. The limit holds for the log too, which has
        one record."""
        first, second = payments(2)
        answers = first.answer + refusal(second.number, 6)
        for room in range(16, len(answers) + 2):
            (self.home / "log").write_bytes(bytes(16))
            self.cut(("serve", "bank.toml", "--log", "log"), answers, [room],
                     b"serve: write failed\n", first.frame + second.frame)
            self.assertEqual((self.home / "log").read_bytes(), b"\x01" + first.number + bytes(5))

    def test_a_full_device(self) -> None:
        with open("/dev/full", "wb") as full:
            for words, fault in ((RUN, b"script: write failed\n"),
                                 *((words, b"write failed\n") for words, _ in WRITERS),
                                 (("--help",), b"write failed\n"),
                                 (("help", "run"), b"write failed\n"),
                                 (("walk", BASE, IKSN, "5000"), b"write failed\n")):
                ended = self.program.run(*words, folder=self.home, output=full.fileno())
                self.assert_ended(ended, 1, b"", fault, f"{spoken(words)} >/dev/full")

    def test_a_service_on_a_full_device(self) -> None:
        """At its end, and before each fault: an answer that is lost is told in its place."""
        payment, cut = payments(1)[0].frame, b"\x00\x2e\x01"
        (self.home / "no log").write_bytes(b"")
        on_no_log = ("serve", "bank.toml", "--log", "no log")
        lost = b"serve: write failed\n"
        with open("/dev/full", "wb") as full:
            for given, fault in ((payment, lost), (payment + cut, lost), (b"\x00\x00", lost),
                                 (payment + b"\x00\x3f", lost),
                                 (cut, b"serve: input ends in a frame\n"),
                                 (b"\x00\x3f", b"serve: frame too long\n")):
                ended = self.program.run("serve", "bank.toml", given=given, folder=self.home,
                                         output=full.fileno())
                self.assert_ended(ended, 1, b"", fault, f"{given.hex()} >/dev/full")
            ended = self.program.run(*on_no_log, given=payment, folder=self.home,
                                     output=full.fileno())
            self.assert_ended(ended, 1, b"", b"log: failed\n", "no log >/dev/full")

    def test_a_full_device_of_nothing(self) -> None:
        """What has nothing to write is done."""
        self.write("empty.script", b"# nothing\n")
        with open("/dev/full", "wb") as full:
            for words in (("run", "bank.toml", "empty.script"), ("serve", "bank.toml"),
                          ("walk", BASE, IKSN, "0")):
                ended = self.program.run(*words, folder=self.home, output=full.fileno())
                self.assert_ended(ended, 0, b"", b"", f"{spoken(words)} >/dev/full")


class LostFaults(BankCase):
    """Where a fault cannot be written, its status stands, and the output is as it is."""

    def test_a_full_device(self) -> None:
        cases = ((("derive", "", SERIAL), 1), (("run", "missing", "all.script"), 1),
                 (("run", "bank.toml", "missing"), 1), (("serve",), 2), ((), 2))
        with open("/dev/full", "wb") as full:
            for words, status in cases:
                ended = self.program.run(*words, folder=self.home, faults=full.fileno())
                self.assert_ended(ended, status, b"", b"", f"{spoken(words)} 2>/dev/full")

    def test_at_each_byte(self) -> None:
        path, fault = self.home / "faults", b"BDK refused\n"
        for room in range(len(fault) + 2):
            with open(path, "wb") as faults:
                ended = self.program.run("derive", "", SERIAL, faults=faults.fileno(),
                                         limits=Limits(file_size=room))
            self.assert_ended(ended, 1, b"", b"", f"room for {room} bytes of a fault")
            self.assertEqual(path.read_bytes(), fault[:room])
