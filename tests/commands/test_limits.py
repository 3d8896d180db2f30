"""The greatest files, the greatest configuration, and the greatest log."""
from __future__ import annotations

import os
import threading

from ..support.formats.bank import BANK, CARD, FRONT, LINES, LONGEST, SCRIPT, BankCase
from ..support.formats.frames import write_reply, write_request
from ..support.formats.log_file import log_image
from ..support.service.client import first_counters, payments, refusal
from ..support.standards.dukpt import derive

# Where a configuration may have the most of something.
KEY_SETS = 8
TERMINALS = 16
CARDS = 1000
LOG = 100_000


def filled(pattern: bytes, length: int) -> bytes:
    """So many bytes: this pattern again and again."""
    return (pattern * (length // len(pattern) + 1))[:length]


def padded(text: bytes, length: int, pattern: bytes = b"#") -> bytes:
    return text + filled(pattern, length - len(text))


def feed(writer: int, text: bytes) -> None:
    """Writes a text a byte at a time, to a pipe that somebody reads."""
    try:
        for at in range(len(text)):
            os.write(writer, text[at : at + 1])
    except BrokenPipeError:
        pass
    finally:
        os.close(writer)


class LongFiles(BankCase):
    """Files of the greatest length are read, whatever is in them, and no longer ones."""

    weight = 8

    def play(self, text: bytes, output: bytes = b"", fault: str = "") -> None:
        self.write("long.script", text)
        self.check(("run", "bank.toml", "long.script"), output, fault)

    def configure(self, text: bytes, output: bytes = b"", fault: str = "") -> None:
        self.write("long.toml", text)
        self.check(("run", "long.toml", "all.script"), output, fault)

    def test_scripts(self) -> None:
        """Comments, empty lines, a line that is no event, and events up to the part of one."""
        whole = LONGEST // len(b"up 1\n")
        for pattern, fault in ((b"#", ""), (b"\n", ""), (b"x", "line 1: not an event"),
                               (b"up 1\n", f"line {whole + 1}: not an event"),
                               (b"\r\n", ""), (b"#\xff\n", ""), (b"\x00", "line 1: not an event"),
                               (b"up 01\n", "line 1: not an event")):
            self.play(filled(pattern, LONGEST), fault=fault)
            self.play(filled(pattern, LONGEST + 1), fault="script: too long")

    def test_a_script_of_the_greatest_length(self) -> None:
        self.play(padded(SCRIPT, LONGEST), LINES)
        self.play(padded(SCRIPT, LONGEST + 1), fault="script: too long")
        self.play(filled(b"\n", LONGEST - len(SCRIPT)) + SCRIPT, LINES)
        self.play(filled(b"\n", LONGEST - len(SCRIPT) + 1) + SCRIPT, fault="script: too long")

    def test_a_script_of_single_reads(self) -> None:
        """A pipe of packets gives a byte to each read, the ones that come before empty lines."""
        reader, writer = os.pipe2(os.O_DIRECT)
        text = filled(b"\n", LONGEST - len(SCRIPT)) + SCRIPT
        feeder = threading.Thread(target=feed, args=(writer, text))
        feeder.start()
        words = ("run", "bank.toml", "/dev/stdin")
        ended = self.program.run(*words, given=reader, folder=self.home)
        os.close(reader)
        feeder.join()
        self.assert_ended(ended, 0, LINES, b"", "a byte per read")

    def test_the_number_of_the_last_line(self) -> None:
        """Each LF counts, the last one too, whether or not a CR stands before it."""
        for end in (b"\n", b"\r\n"):
            count = (LONGEST - 4) // len(end)
            for last in (b"up", b"up" + end):
                self.play(end * count + last, fault=f"line {count + 1}: not an event")

    def test_the_script_of_most_events(self) -> None:
        count = LONGEST // len(b"up 0\n")
        self.play(b"up 0\n" * count, b"no such frame\n" * count)

    def test_configurations(self) -> None:
        """Comments, empty lines, and what is no TOML, some of it deep."""
        for pattern, fault in ((b"#", "bad lmk"), (b"\n", "bad lmk"), (b"x", "not TOML"),
                               (b"\r\n", "bad lmk"), (b"[", "not TOML"), (b"a.", "not TOML"),
                               (b"\xff", "not TOML"), (b"\x00", "not TOML"), (b'"', "not TOML")):
            self.configure(filled(pattern, LONGEST), fault=f"config: {fault}")
            self.configure(filled(pattern, LONGEST + 1), fault="config: too long")
        for opened in (b"lmk = ", b"lmk = {a = "):
            self.configure(padded(opened, LONGEST, b"["), fault="config: not TOML")

    def test_a_configuration_of_the_greatest_length(self) -> None:
        self.configure(padded(BANK, LONGEST), LINES)
        self.configure(padded(BANK, LONGEST + 1), fault="config: too long")
        self.configure(filled(b"\n", LONGEST - len(BANK)) + BANK, LINES)
        self.configure(filled(b"\n", LONGEST - len(BANK) + 1) + BANK, fault="config: too long")

    def test_a_configuration_of_great_values(self) -> None:
        """A text, and an array, as long as the file may be."""
        text = FRONT.replace(b"lmk", b"zzz") + b'lmk = "'
        digits = LONGEST - len(text) - 1
        self.configure(text + b"0" * digits + b'"', fault="config: unknown zzz")
        text = BANK.replace(b"CB21F6", b"CB21F6" + b"0" * (LONGEST - len(BANK)))
        self.configure(text, fault="config: bad lmk")
        cards = b"[[card]]\n" * ((LONGEST - len(BANK)) // len(b"[[card]]\n"))
        self.configure(padded(BANK + cards, LONGEST), fault="config: bad card")


def greatest_configuration(stores: str) -> bytes:
    """The most of all, under a local master key of 24 bytes."""
    text = f'''lmk = "DD7515F2BFC17F85CE48F3CA25CB21F6DD7515F2BFC17F85"
loading = "4CF15134A2850DD58A3D10BA80570D38"
zone = "3F419E1CB7079442AA37474C2EFBF8B8"
terminals = {TERMINALS}
log = {LOG}
stores = "{stores}"
'''
    for number in range(KEY_SETS):
        text += f'[[bdk]]\nprefix = "FFFF98765{number}"\nkey = "{number:032X}"\n'
    for number in range(CARDS // 2):
        text += f'[[card]]\npan = "{number:012}"\npin = "1234"\nlimit = 0\n'
        text += f'[[card]]\npan = "{number:019}"\npin = "123456789012"\nlimit = 4294967295\n'
    return text.encode()


# Payments with the least and the most digits and amounts, with their codes.
PAYMENTS = [
    ("000000000499 1234 0", "00"), ("0000000000000000499 123456789012 4294967295", "00"),
    ("000000000499 1234 1", "51"), ("0000000000000000499 12345678901 0", "55"),
    ("000000000000 1234 4294967295", "51"), ("0000000000000000000 123456789012 0", "00"),
    ("000000000500 1234 0", "14"), ("0000000000000000500 123456789012 0", "14"),
    ("0000000000499 1234 0", "14"),
]


def greatest_script() -> tuple[str, str]:
    """A script in which each terminal is loaded and makes each of these payments, and its lines."""
    script, lines, sent = "", "", 0
    for t in range(1, TERMINALS + 1):
        # Two terminals have one key set. Their numbers differ in the last bits before the counter.
        serial = f"FFFF98765{t % KEY_SETS}3210{2 * (t // KEY_SETS)}0000"
        script += f"load t{t} {serial}0\n"
        lines += f"t{t} loaded {serial}0\n"
        for counter, (payment, code) in enumerate(PAYMENTS, 1):
            sent, number = sent + 1, f"{serial}{counter}"
            script += f"begin t{t} {payment}\nup {sent}\ndown {sent} t{t}\n"
            lines += (f"t{t} sent {sent} {number}\nanswer {sent} accepted {number} {code}\n"
                      f"t{t} done {number} {code}\n")
    return script + "restart host\n", lines + f"host used {sent}\n"


def greatest_stream() -> tuple[list[bytes], list[bytes], list[bytes]]:
    """Of each key set a request of each of these payments, with the replies and the numbers."""
    frames, answers, numbers = [], [], []
    for key_set in range(KEY_SETS):
        base = bytes.fromhex(f"{key_set:032X}")
        for counter, (payment, code) in enumerate(PAYMENTS, 1):
            pan, pin, amount = payment.split()
            serial = int(f"FFFF98765{key_set}321000000{counter}", 16)
            key = derive(base, serial)
            frames.append(write_request(key, serial, pan, pin, int(amount)))
            answers.append(write_reply(key, serial, code))
            numbers.append(serial.to_bytes(10, "big"))
    return frames, answers, numbers


def first_of(terminal: int) -> bytes:
    """The first number of one of many terminals of a key set."""
    return bytes.fromhex("FFFF987655") + (terminal << 21 | 1).to_bytes(5, "big")


class Greatest(BankCase):
    """The most of all that a configuration may have."""

    weight = 8

    def test_configuration(self) -> None:
        script, lines = greatest_script()
        self.write("greatest.script", script.encode())
        for stores in ("memory", "disk"):
            text = greatest_configuration(stores)
            self.write("greatest.toml", text)
            self.check(("run", "greatest.toml", "greatest.script"), lines.encode())
        self.tells(f"{lines.count(' accepted ')} payments over each kind of store")

    def test_a_service(self) -> None:
        """Over a log in memory, and over one on a file that is used up but for its requests."""
        frames, answers, numbers = greatest_stream()
        self.write("greatest.toml", greatest_configuration("memory"))
        words, given, log = ("serve", "greatest.toml"), b"".join(frames), self.home / "log"
        self.check(words, b"".join(answers), given=given)
        used = [first_of(terminal) for terminal in range(LOG - len(numbers))]
        log.write_bytes(log_image(used, LOG))
        words = (*words, "--log", "log")
        self.check(words, b"".join(answers), given=given)
        self.assertEqual(log.read_bytes(), log_image([*used, *numbers], LOG))
        self.check(words, b"".join(refusal(it, 5) for it in numbers), given=given)
        self.tells(f"{len(numbers)} payments of {KEY_SETS} key sets")

    def test_the_script_of_most_answers(self) -> None:
        """Of one request, which is accepted once and then repeated: more than the log has room
        for."""
        script = b"load t1 FFFF9876543210000000\nbegin t1 000000000499 1234 0\n"
        count = (LONGEST - len(script)) // len(b"up 1\n")
        self.assertGreater(count, LOG + 1)
        lines = b"t1 loaded FFFF9876543210000000\nt1 sent 1 FFFF9876543210000001\n"
        lines += b"answer 1 accepted FFFF9876543210000001 00\n" + b"".join(
            b"answer %d repeated FFFF9876543210000001 00\n" % it for it in range(2, count + 1))
        self.play(script + b"up 1\n" * count, lines)
        self.tells(f"{count} answers")

    def test_the_script_of_most_requests(self) -> None:
        """Of the shortest lines, each is accepted. There is no place for more in a script."""
        events, counters = [b"load t1 FFFF9876543210000000\n"], first_counters(30_000)
        lines, room = [b"t1 loaded FFFF9876543210000000\n"], LONGEST - len(events[0])
        for sent, counter in enumerate(counters, 1):
            event = b"begin t1 000000000499 1234 0\nup %d\n" % sent
            room -= len(event)
            if room < 0:
                break
            number = b"FFFF9876543210%06X" % counter
            events.append(event)
            lines.append(b"t1 sent %d %b\n" % (sent, number))
            lines.append(b"answer %d accepted %b 00\n" % (sent, number))
        self.assertLess(room, 0)
        self.play(b"".join(events), b"".join(lines))
        self.tells(f"{len(events) - 1} requests")

    def play(self, script: bytes, lines: bytes) -> None:
        self.write("most.script", script)
        for stores in ("memory", "disk"):
            self.write("greatest.toml", greatest_configuration(stores))
            self.check(("run", "greatest.toml", "most.script"), lines)

    def test_one_more(self) -> None:
        text = greatest_configuration("memory")
        for what, more in (("terminals", text.replace(b"terminals = 16", b"terminals = 17")),
                           ("log", text.replace(b"log = 100000", b"log = 100001")),
                           ("card", text + CARD),
                           ("bdk", text + b'[[bdk]]\nprefix = "FFFF987658"\nkey = "%032d"\n' % 0)):
            self.write("more.toml", more)
            self.check(("run", "more.toml", "all.script"), fault=f"config: bad {what}")

    def test_log(self) -> None:
        """A host comes up over so many numbers as a log in memory may have, and one more record."""
        first, second, third = payments(3)
        others = [first_of(terminal) for terminal in range(LOG - 1)]
        numbers = [*others[: LOG // 2], first.number, *others[LOG // 2 :]]
        image = b"".join(b"\x01" + number + bytes(5) for number in numbers)
        stream = first.frame + second.frame + third.frame
        used = refusal(first.number, 5)
        for room, answers in (
            (0, used + refusal(second.number, 6) + refusal(third.number, 6)),
            (1, used + second.answer + refusal(third.number, 6)),
        ):
            (self.home / "log").write_bytes(image + bytes(16 * room))
            self.check(("serve", "bank.toml", "--log", "log"), answers, given=stream)
            kept = b"\x01" + second.number + bytes(5) if room else b""
            self.assertEqual((self.home / "log").read_bytes(), image + kept)
