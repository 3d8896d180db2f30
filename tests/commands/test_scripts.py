"""Scripts: which lines are events, what they say, scripts that are cut, and spoiled ones.

What is expected comes of `script`, which reads lines by docs/FORMATS.md. Its own answers are
compared with lines that were written down by hand.
"""
from __future__ import annotations

from random import Random

from ..support.case import Case
from ..support.formats import script
from ..support.formats.bank import BANK, CARD, LINES, SCRIPT, BankCase

# Lines that are events, and lines that are none.
EVENTS = [
    b"begin t1 4012345678909 1234 500", b"begin t16 401234567890 123456789012 0",
    b"begin t1 4012345678909123456 1234 4294967295", b"load t1 FFFF9876543210E00000",
    b"load t1 ffff9876543210e00000", b"load t2 00000000000000000000",
    b"load t16 FFFFFFFFFFFFFFE00000", b"up 0", b"up 1", b"up 4294967295", b"down 1 t1",
    b"down 0 t16", b"down 4294967295 t9", b"restart t1", b"restart t16", b"restart host",
    b"arm t1 0", b"arm t16 4294967295", b"arm host 4294967295", b"arm host 0", b"up 1\r\n",
    b"# up 1", b"#", b"", b"\r\n", b"#\xff\xfe\r", b"#\x00",
]
NO_EVENTS = [
    b"up 01", b"up 00", b" up 1", b"up 1 ", b"up  1", b"up\t1", b"up", b"up ", b"up +1",
    b"up -1", b"up 1 2", b"up 4294967296", b"up 99999999999999999999",
    b"up 18446744073709551617", b"up 0x1", b"up one", b"up 1.", b"Up 1", b"up 1\r\r\n",
    b"up 1\r", b"\r", b"\r\r\n", b" # a comment", b" ", b"\t", b"\x00", b"up 1\x00", b"up 1\xff",
    "up \u0661".encode(), b"up 1#", b"up 1 # a comment", b"restart t0", b"restart t17",
    b"restart t01", b"restart t", b"restart 1", b"restart T1", b"restart Host", b"restart",
    b"restart host ", b"restart t1 t2", b"restart t4294967297", b"arm host", b"arm t1",
    b"arm 1 t1", b"arm host 4294967296", b"arm t17 1", b"down t1 1", b"down 1", b"down 1 host",
    b"down 1 t17", b"down 01 t1", b"load t1", b"load t1 FFFF9876543210E00001",
    b"load t1 FFFF9876543210F00000", b"load t1 FFFF9876543210E0000",
    b"load t1 FFFF9876543210E000000", b"load t1 FFFF9876543210G00000",
    b"load host FFFF9876543210E00000", b"load t1 9876543210E00000",
    b"begin t1 40123456789 1234 500", b"begin t1 40123456789012345678 1234 500",
    b"begin t1 4012345678909 123 500", b"begin t1 4012345678909 1234567890123 500",
    b"begin t1 401234567890x 1234 500", b"begin t1 4012345678909 12x4 500",
    b"begin t1 4012345678909 1234 4294967296", b"begin t1 4012345678909 1234 0500",
    b"begin t1 4012345678909 1234", b"begin t1 4012345678909 1234 500 1",
    b"begin host 4012345678909 1234 1", b"events", b"wait 1", b"\xef\xbb\xbfup 1",
]

# Two cards more, a limit for each, and a script whose lines show what each word of an event says.
CARDS = BANK.replace(b"terminals = 2", b"terminals = 16") + b"".join(
    CARD.replace(b"4012345678909", pan).replace(b"1234\"\n", pin + b"\"\n").replace(b"10000", limit)
    for pan, pin, limit in ((b"401234567890", b"123456789012", b"0"),
                            (b"4012345678909123456", b"0000", b"4294967294")))
SAID = [
    (b"# a stop\r", b""),
    (b"load t1 ffff9876543210e00000", b"t1 loaded FFFF9876543210E00000"),
    (b"load t16 FFFF987654ffffe00000", b"t16 loaded FFFF987654FFFFE00000"),
    (b"load t2 00000000000000000000", b"t2 no key set"),
    (b"", b""),
    (b"begin t1 401234567890 123456789012 0", b"t1 sent 1 FFFF9876543210E00001"),
    (b"up 1", b"answer 1 accepted FFFF9876543210E00001 00"),
    (b"begin t16 401234567890 123456789012 1\r", b"t16 sent 2 FFFF987654FFFFE00001"),
    (b"up 2", b"answer 2 accepted FFFF987654FFFFE00001 51"),
    (b"down 1 t16", b"t16 fault NotMine"),
    (b"down 2 t16", b"t16 done FFFF987654FFFFE00001 51"),
    (b"down 1 t1", b"t1 done FFFF9876543210E00001 00"),
    (b"begin t1 4012345678909123456 0000 4294967294", b"t1 sent 3 FFFF9876543210E00002"),
    (b"begin t1 4012345678909123456 0000 4294967295", b"t1 sent 4 FFFF9876543210E00003"),
    (b"begin t1 4012345678909123456 00000 1", b"t1 sent 5 FFFF9876543210E00004"),
    (b"begin t1 401234567890912345 0000 1", b"t1 sent 6 FFFF9876543210E00005"),
    (b"up 3", b"answer 3 accepted FFFF9876543210E00002 00"),
    (b"up 4", b"answer 4 accepted FFFF9876543210E00003 51"),
    (b"up 5", b"answer 5 accepted FFFF9876543210E00004 55"),
    (b"up 6", b"answer 6 accepted FFFF9876543210E00005 14"),
    (b"up 7", b"no such frame"),
    (b"up 0", b"no such frame"),
    (b"up 4294967295", b"no such frame"),
    (b"down 0 t1", b"no such frame"),
    (b"#\xff\xfe", b""),
    (b"arm t1 0", b"t1 armed 0"),
    (b"arm t16 4294967295", b"t16 armed 4294967295"),
    (b"arm host 4294967295", b"host armed 4294967295"),
    (b"restart t1", b"t1 next FFFF9876543210E00006"),
    (b"restart t15", b"t15 empty"),
    (b"restart host", b"host used 6"),
    (b"up 6", b"answer 7 refused FFFF9876543210E00005 5"),
    (b"down 7 t1", b"t1 fault NotPending"),
    (b"begin t1 401234567890912345 0000 1", b"t1 sent 7 FFFF9876543210E00006"),
    (b"up 7", b"answer 8 accepted FFFF9876543210E00006 14"),
    (b"up 7", b"answer 9 repeated FFFF9876543210E00006 14"),
    (b"down 7 t1", b"t1 fault NotMine"),
    (b"restart host", b"host used 7"),
    (b"up 7", b"answer 10 refused FFFF9876543210E00006 5"),
    (b"down 10 t1", b"t1 refused FFFF9876543210E00006 5"),
    (b"down 9 t1", b"t1 done FFFF9876543210E00006 14"),
]


def fault_of(text: bytes) -> str:
    number = script.first_bad_line(text)
    return f"line {number}: not an event" if number else ""


class Reader(Case):
    """The reader that judges."""

    def test_lines(self) -> None:
        for line in EVENTS:
            self.assertIsNone(script.first_bad_line(line), line)
        for line in NO_EVENTS:
            self.assertEqual(script.first_bad_line(line), 1, line)

    def test_numbers_of_lines(self) -> None:
        self.assertEqual(script.first_bad_line(b"# a stop\r\n\nup 1\r\n#\xff\n\r\n #\nup\n"), 6)
        self.assertIsNone(script.first_bad_line(b""))
        self.assertEqual(len(script.events(SCRIPT)), len(LINES.splitlines()))


class Scripts(BankCase):
    """What the program makes of scripts."""

    weight = 8

    def play(
        self, text: bytes, output: bytes = b"", fault: str = "", bank: str = "bank.toml"
    ) -> None:
        self.write("tried.script", text)
        self.check(("run", bank, "tried.script"), b"" if fault else output, fault,
                   what=f"run of a script of {len(text)} bytes, {text[-300:]!r}")

    def test_lines_that_are_no_events(self) -> None:
        for line in NO_EVENTS:
            self.play(line, fault="line 1: not an event")
            # Some end in a CR, which is dropped before the LF.
            text = b"up 1\n\n#\r\n" + line + b"\nup\n"
            self.play(text, fault=fault_of(text))
        self.tells(f"{len(NO_EVENTS)} lines")

    def test_lines_that_are_events(self) -> None:
        """With one that is none behind them, so that each is read and nothing is played."""
        for line in EVENTS:
            self.play(line.removesuffix(b"\n") + b"\nup\n", fault="line 2: not an event")
        self.tells(f"{len(EVENTS)} lines")

    def test_numbers_of_lines(self) -> None:
        """Each line ends with CR LF, or some do. A line behind the last LF has its number too."""
        for ends in ((b"\r\n",), (b"\n",), (b"\r\n", b"\n"), (b"\n", b"\r\n")):
            for before in range(6):
                lines = [b"up 1", b"", b"# up", b"up 2"] * 2
                front = b"".join(lines[at] + ends[at % len(ends)] for at in range(before))
                for last in (b"up", b"up\r", b"up 1\r", b"up\n", b"up\r\n", b"up\r\nup\r\n"):
                    self.play(front + last, fault=f"line {before + 1}: not an event")
                self.play(front + b"\r\nup 01\r\n", fault=f"line {before + 2}: not an event")
                events = sum(it.startswith(b"up") for it in lines[:before])
                self.play(front, b"no such frame\n" * events)

    def test_what_events_say(self) -> None:
        self.write("cards.toml", CARDS)
        self.write("disk.toml", b'stores = "disk"\n' + CARDS)
        text = b"\n".join(event for event, _ in SAID)
        lines = b"".join(line + b"\n" for _, line in SAID if line)
        for bank in ("cards.toml", "disk.toml"):
            self.play(text, lines, bank=bank)

    def test_cut(self) -> None:
        """Each proper prefix of a script has its first bad line, or the lines of its events."""
        lines, played = LINES.splitlines(keepends=True), 0
        for length in range(len(SCRIPT)):
            cut = SCRIPT[:length]
            fault = fault_of(cut)
            self.play(cut, b"".join(lines[: len(script.events(cut))]), fault)
            played += not fault
        # Each line with its LF and without, none at all, and two amounts with fewer digits, twice.
        self.assertEqual(played, 2 * len(lines) + 4)
        self.tells(f"{len(SCRIPT)} prefixes, of which {played} are scripts")

    def test_spoiled(self) -> None:
        """Random scripts of events whose lines stand by themselves, with a byte changed or not."""
        played, count = 0, 200 * self.times
        for _ in range(count):
            text = random_script(self.chance)
            fault = fault_of(text)
            self.play(text, lines_of(text), fault)
            played += not fault
        self.assertTrue(0 < played < count)
        self.tells(f"{count} scripts, of which {played} were played")


# Where nothing is loaded and nothing sent, the line of an event says what the event says.


def random_script(chance: Random) -> bytes:
    numbers = [b"0", b"1", b"10", b"99", b"4294967295"]
    ends = [b"t1", b"t2", b"t3", b"t16", b"host"]
    lines = []
    for _ in range(chance.randrange(1, 12)):
        number, end = chance.choice(numbers), chance.choice(ends)
        lines.append(chance.choice([
            b"up " + number, b"restart " + end, b"arm " + end + b" " + number,
            b"# \xff" + number, b""]))
    text = b"".join(line + chance.choice([b"\n", b"\r\n"]) for line in lines)
    if chance.random() < 0.6:
        at, lost, put = chance.randrange(len(text) + 1), *chance.choice(((0, 1), (1, 1), (1, 0)))
        byte = chance.choice([b"0", b"1", b"7", b" ", b"#", b"\n", b"\r", b"t", b"\x00", b"\xff"])
        text = text[:at] + byte * put + text[at + lost :]
    return text


def lines_of(text: bytes) -> bytes:
    """The lines of such a script over two terminals."""
    if fault_of(text):
        return b""
    return b"".join(line_of(event.decode()) for event in script.events(text))


def line_of(event: str) -> bytes:
    command, *words = event.split(" ")
    if command == "up":
        return b"no such frame\n"
    end = words[0]
    if end not in ("t1", "t2", "host"):
        return b"no such terminal\n"
    if command == "arm":
        return f"{end} armed {words[1]}\n".encode()
    return b"host used 0\n" if end == "host" else f"{end} empty\n".encode()
