"""Configurations: each rule of docs/FORMATS.md, texts that are cut, and texts that are spoiled.

What is expected comes of `configuration`, which reads them by that document. Its own answers are
compared with faults that were written down by hand.
"""
from __future__ import annotations

from random import Random

from ..support.case import Case
from ..support.formats import configuration
from ..support.formats.bank import BANK, BDK, CARD, FRONT, BankCase
from ..support.formats.configuration import Configuration, Refused

SIZES = b"terminals = 2\nlog = 100\n"
ZONE = b'zone = "3F419E1CB7079442AA37474C2EFBF8B8"\n'
# An entry of each of the two arrays, as an inline table.
KEY_SET = b'{prefix = "FFFF987654", key = "0123456789ABCDEFFEDCBA9876543210"}'
ONE_CARD = b'{pan = "4012345678909", pin = "1234", limit = 10000}'


def with_value(line: bytes, other: bytes) -> bytes:
    """The configuration with another line for this one."""
    if line not in BANK:
        raise ValueError(f"the bank has no {line!r}")
    return BANK.replace(line, other, 1)


def with_key_sets(count: int) -> bytes:
    sets = b"".join(BDK.replace(b"FFFF987654", b"FFFF9876%02d" % place) for place in range(count))
    return FRONT + BDK + sets + CARD


def with_cards(count: int) -> bytes:
    cards = (CARD.replace(b"4012345678909", b"%012d" % place) for place in range(count))
    return BANK + b"".join(cards)


# Configurations, with the faults that they have; none where they are right.
TABLE: list[tuple[bytes, str]] = [
    (BANK, ""),
    (BANK.replace(b"\n", b"\r\n"), ""),
    (b"# a comment\n" + BANK[:-1], ""),
    # Keys that stand behind an array of tables belong to its last entry.
    (CARD + BDK + FRONT, "bad lmk"),
    (FRONT + b"bdk = [" + KEY_SET + b"]\ncard = [" + ONE_CARD + b"]\n", ""),
    (FRONT + BDK, ""),
    (FRONT + b"card = []\n" + BDK, ""),
    (FRONT + b"bdk = []\n" + CARD, "bad bdk"),
    (with_key_sets(7), ""),
    (with_key_sets(8), "bad bdk"),
    (with_cards(999), ""),
    (with_cards(1000), "bad card"),
    (BANK + CARD, "bad card 2"),
    (with_cards(3) + CARD, "bad card 5"),
    # Other ways to write a key of the table, a text and a whole number.
    (with_value(b"terminals", b'"terminals"'), ""),
    (with_value(b'pin = "1234"', b"pin = '1234'"), ""),
    (with_value(b'pin = "1234"', b'pin = """1234"""'), ""),
    (with_value(b'pin = "1234"', b'pin = "\\u0031234"'), ""),
    (with_value(b"limit = 10000", b"limit = 10_000"), ""),
    (with_value(b"limit = 10000", b"limit = +10000"), ""),
    (with_value(b"limit = 10000", b"limit = 0x2710"), ""),
    (with_value(b"limit = 10000", b"limit = 0o23420"), ""),
    (with_value(b"limit = 10000", b"limit = 0b10011100010000"), ""),
    (with_value(b"limit = 10000", b"limit = 010000"), "not TOML"),
    (with_value(b"limit = 10000", b"limit = 1e4"), "bad card 1"),
    (with_value(b"limit = 10000", b"limit = 10000.0"), "bad card 1"),
    (with_value(b"limit = 10000", b'limit = "10000"'), "bad card 1"),
    (with_value(b"limit = 10000", b"limit = true"), "bad card 1"),
    (with_value(b"limit = 10000", b"limit = [10000]"), "bad card 1"),
    (with_value(b"limit = 10000", b"limit = 1979-05-27"), "bad card 1"),
    # The ends of each range.
    (with_value(b"limit = 10000", b"limit = 4294967295"), ""),
    (with_value(b"limit = 10000", b"limit = 4294967296"), "bad card 1"),
    (with_value(b"limit = 10000", b"limit = 9223372036854775807"), "bad card 1"),
    (with_value(b"limit = 10000", b"limit = 18_446_744_073"), "bad card 1"),
    (with_value(b"limit = 10000", b"limit = -0"), ""),
    (with_value(b"limit = 10000", b"limit = -1"), "bad card 1"),
    (with_value(b"terminals = 2", b"terminals = 16"), ""),
    (with_value(b"terminals = 2", b"terminals = 17"), "bad terminals"),
    (with_value(b"terminals = 2", b"terminals = 0"), "bad terminals"),
    (with_value(b"terminals = 2", b"terminals = 258"), "bad terminals"),
    (with_value(b"terminals = 2", b"terminals = 2.0"), "bad terminals"),
    (with_value(b"terminals = 2", b'terminals = "2"'), "bad terminals"),
    (with_value(b"log = 100", b"log = 1"), ""),
    (with_value(b"log = 100", b"log = 100000"), ""),
    (with_value(b"log = 100", b"log = 100001"), "bad log"),
    (with_value(b"log = 100", b"log = 0"), "bad log"),
    (with_value(b"log = 100", b"log = -1"), "bad log"),
    (with_value(b"log = 100", b"log = 4294967297"), "bad log"),
    (with_value(b"log = 100", b'stores = "memory"\nlog = 100'), ""),
    (with_value(b"log = 100", b'stores = "disk"\nlog = 100'), ""),
    (with_value(b"log = 100", b'stores = "Disk"\nlog = 100'), "bad stores"),
    (with_value(b"log = 100", b'stores = ""\nlog = 100'), "bad stores"),
    (with_value(b"log = 100", b"stores = 1\nlog = 100"), "bad stores"),
    # Keys: 32 or 48 digits, where a long one may stand.
    (with_value(b"CE48F3CA25CB21F6", b"ce48f3ca25cb21f6"), ""),
    (with_value(b"CE48F3CA25CB21F6", b"CE48F3CA25CB21F6" * 2), ""),
    (with_value(b"CE48F3CA25CB21F6", b""), "bad lmk"),
    (with_value(b"CE48F3CA25CB21F6", b"CE48F3CA25CB21F6" * 3), "bad lmk"),
    (with_value(b"CE48F3CA25CB21F6", b"CE48F3CA25CB21F6CE"), "bad lmk"),
    (with_value(b"CE48F3CA25CB21F6", b"CE48F3CA25CB21FG"), "bad lmk"),
    (with_value(b"CE48F3CA25CB21F6", b"CE48F3CA25CB21F "), "bad lmk"),
    (with_value(b'lmk = "', b'lmk = "0x'), "bad lmk"),
    (with_value(b"AA37474C2EFBF8B8", b"AA37474C2EFBF8B8" * 2), ""),
    (with_value(b"AA37474C2EFBF8B8", b"AA37474C2EFBF8B80"), "bad zone"),
    (with_value(b"8A3D10BA80570D38", b"8A3D10BA80570D38" * 2), "bad loading"),
    (with_value(b"8A3D10BA80570D38", b""), "bad loading"),
    (with_value(b"FEDCBA9876543210", b"FEDCBA9876543210" * 2), "bad bdk 1"),
    (with_value(b"FEDCBA9876543210", b"FEDCBA987654321"), "bad bdk 1"),
    (with_value(b'"FFFF987654"', b'"ffff987654"'), ""),
    (with_value(b'"FFFF987654"', b'"FFFF9876543"'), "bad bdk 1"),
    (with_value(b'"FFFF987654"', b'"FFFF98765"'), "bad bdk 1"),
    (with_value(b'"FFFF987654"', b"987654"), "bad bdk 1"),
    (FRONT + BDK + BDK.replace(b"FFFF987654", b"ffff987654") + CARD, "bad bdk 2"),
    (FRONT + BDK + BDK.replace(b"FFFF987654", b"FFFF987655") + BDK, "bad bdk 3"),
    # PANs and PINs.
    (with_value(b"4012345678909", b"401234567890"), ""),
    (with_value(b"4012345678909", b"40123456789"), "bad card 1"),
    (with_value(b"4012345678909", b"4012345678909123456"), ""),
    (with_value(b"4012345678909", b"40123456789091234567"), "bad card 1"),
    (with_value(b"4012345678909", b"401234567890A"), "bad card 1"),
    (with_value(b'"4012345678909"', b"4012345678909"), "bad card 1"),
    (with_value(b"4012345678909", "401234567890\u0661".encode()), "bad card 1"),
    (with_value(b'"1234"', b'"123456789012"'), ""),
    (with_value(b'"1234"', b'"1234567890123"'), "bad card 1"),
    (with_value(b'"1234"', b'"123"'), "bad card 1"),
    (with_value(b'"1234"', b'"123x"'), "bad card 1"),
    (with_value(b'"1234"', b"1234"), "bad card 1"),
    (BANK + CARD.replace(b"4012345678909", b"4012345678910"), ""),
    # Entries that lack a key or have one more, and values that are no arrays of tables.
    (BANK + b'name = "x"\n', "bad card 1"),
    (BANK + FRONT, "bad card 1"),
    (with_value(b"limit = 10000\n", b""), "bad card 1"),
    (with_value(b'prefix = "FFFF987654"\n', b""), "bad bdk 1"),
    (FRONT + BDK + b"note = 1\n" + CARD, "bad bdk 1"),
    (FRONT + b"bdk = " + KEY_SET + b"\n", "bad bdk"),
    (FRONT + b"bdk = 1\n", "bad bdk"),
    (FRONT + b"bdk = [" + KEY_SET + b", 1]\n", "bad bdk 2"),
    (FRONT + b"bdk = [[]]\n", "bad bdk 1"),
    (FRONT + b"card = [1]\n" + BDK, "bad card 1"),
    (FRONT + b"card = {}\n" + BDK, "bad card"),
    (FRONT + b'card = "x"\n' + BDK, "bad card"),
    # The order of the faults: what is unknown, in the order of bytes, and then key by key.
    (b"port = 1\nPort = 1\n", "unknown key 1"),
    (b"port = 1\n", "unknown port"),
    (b'"" = 1\nPort = 1\n', "unknown key 1"),
    (b"port = 1\nabacus = 1\nzebra = 1\nlmk = 1\n", "unknown abacus"),
    ('q = 1\n"k\u00e9y" = 1\n'.encode(), "unknown key 1"),
    (b'"a b" = 1\n', "unknown key 1"),
    # A name that may be a secret, or would write another line, is told by its place.
    (b"abcdefgh_-ijklmn = 1\n", "unknown abcdefgh_-ijklmn"),
    (b"abcdefgh_-ijklmno = 1\n", "unknown key 1"),
    (b'"port\\nserve: write failed" = 1\nlmk = 1\nzone = 1\n', "unknown key 2"),
    (b'"\\u001B[2J" = 1\n', "unknown key 1"),
    (b'"port\\u0000" = 1\n', "unknown key 1"),
    (b'"port\\u007F" = 1\nbdk = 1\ncard = 1\nlog = 1\n', "unknown key 4"),
    (BANK.replace(b'loading = "', b'3F419E1CB7079442AA37474C2EFBF8B8 = "'), "unknown key 1"),
    (b'"1234" = 1\n', "unknown key 1"),
    (b"ab1 = 1\n", "unknown key 1"),
    (b'"`" = 1\n', "unknown key 1"),
    (b'"a{" = 1\n', "unknown key 1"),
    (b"lmk.a = 1\n", "bad lmk"),
    (b"LMK = 1\n" + BANK, "unknown key 1"),
    (b"[port]\n", "unknown port"),
    (FRONT.replace(ZONE, b"zone = 1\n").replace(SIZES, b"terminals = 0\n"), "bad zone"),
    (BANK.replace(SIZES, b""), "bad terminals"),
    (BANK.replace(b"log = 100\n", b"") + b"limit2 = 1\n", "bad log"),
    (FRONT.replace(SIZES, b"log = 0\nterminals = 0\n") + BDK, "bad terminals"),
    (b'stores = "x"\n' + BANK.replace(SIZES, b"terminals = 2\nlog = 0\n"), "bad log"),
    (b'stores = "x"\n' + FRONT + b"bdk = 1\n", "bad stores"),
    (FRONT + b"bdk = []\ncard = 1\n", "bad bdk"),
    (FRONT + b"card = 1\nbdk = [1]\n", "bad bdk 1"),
    # What is no TOML.
    (b"lmk", "not TOML"),
    (b"lmk = 1 2\n", "not TOML"),
    (b"lmk = 1\nlmk = 1\n", "not TOML"),
    (BANK + BANK[: BANK.index(b"loading")] * 2, "not TOML"),
    (BANK + b"[bdk]\n", "not TOML"),
    (b"bdk = []\n" + BDK, "not TOML"),
    (BANK + b"# \xc3\n", "not TOML"),
    (BANK + b"\x00", "not TOML"),
    (BANK + b"# \x07\n", "not TOML"),
    (with_value(b'"1234"', b'"12\n34"'), "not TOML"),
    (with_value(b'"1234"', b'"1234'), "not TOML"),
]


# A script whose lines show what a configuration says: its key set, its card, how many terminals
# there are, for how many numbers the log has room, and how many device steps a begin has.
PAY = b"begin t1 4012345678909 1234 500\n"
SHOWING = (
    b"load t1 FFFF9876543210E00000\n" + PAY + b"up 1\ndown 1 t1\n" + PAY + b"up 2\n"
    + b"".join(b"restart t%d\n" % t for t in range(2, 17)) + b"arm t1 2\n" + PAY
)


def shown(config: Configuration) -> bytes:
    """The lines of that script."""
    number = "FFFF9876543210E0000"
    code = config.code("4012345678909", "1234", 500)
    if any(it.prefix.hex() == "ffff987654" for it in config.bdks):
        second = f"accepted {number}2 {code}" if config.log > 1 else f"refused {number}2 6"
        paid = [f"t1 loaded {number}0", f"t1 sent 1 {number}1",
                f"answer 1 accepted {number}1 {code}", f"t1 done {number}1 {code}",
                f"t1 sent 2 {number}2", f"answer 2 {second}"]
        # A begin has two device steps over memory, and eight over a disk.
        last = f"t1 sent 3 {number}3" if config.stores == "memory" else "t1 fault Store Device"
    else:
        paid = ["t1 no key set", "t1 fault NotLoaded", "no such frame", "no such frame",
                "t1 fault NotLoaded", "no such frame"]
        last = "t1 fault NotLoaded"
    others = [f"t{t} empty" if t <= config.terminals else "no such terminal" for t in range(2, 17)]
    return "".join(line + "\n" for line in [*paid, *others, "t1 armed 2", last]).encode()


def expected(text: bytes) -> tuple[bytes, str]:
    """The output and the fault of that script under a configuration."""
    try:
        return shown(configuration.read(text)), ""
    except Refused as refused:
        return b"", str(refused)


class Reader(Case):
    """The reader that judges."""

    def test_faults(self) -> None:
        for text, fault in TABLE:
            with self.subTest(text[-200:]):
                found = expected(text)[1]
                self.assertEqual(found, f"config: {fault}" if fault else "")

    def test_faults_of_cut_texts(self) -> None:
        """The prefixes of the bank that are texts of TOML, and their first faults."""
        faults = {
            "bad lmk": {0}, "bad zone": {40, 41, 85, 86}, "bad terminals": {127, 128},
            "bad log": {141, 142}, "bad bdk": {149, 150, 151, 152},
            "bad bdk 1": {159, 160, 181, 182}, "bad card 1": {231, 232, 253, 254, 266, 267},
        }
        of_length = {length: fault for fault, lengths in faults.items() for length in lengths}
        right = {222, 223, 276, 277, 278, 279, 280}
        for length in range(len(BANK)):
            fault = of_length.get(length, "" if length in right else "not TOML")
            found = expected(BANK[:length])[1]
            self.assertEqual(found, f"config: {fault}" if fault else "", length)


# What a spoiled text may have in the place of a byte. A colon or a backslash may begin what TOML
# 1.1 has and Python's reader, which reads TOML 1.0, has not.
BYTES = bytes(set(range(0x20, 0x7F)) - set(b":\\")) + b"\n\t\r\x00\x7f\xff\xc3"


class Configurations(BankCase):
    """What the program makes of configurations."""

    weight = 8

    def setUp(self) -> None:
        super().setUp()
        self.write("showing.script", SHOWING)

    def check_read(self, text: bytes) -> None:
        self.write("tried.toml", text)
        output, fault = expected(text)
        self.check(("run", "tried.toml", "showing.script"), output, fault,
                   what=f"run of a configuration of {len(text)} bytes, {text[-300:]!r}")

    def test_table(self) -> None:
        for text, _ in TABLE:
            self.check_read(text)
        self.tells(f"{len(TABLE)} configurations")

    def test_cut(self) -> None:
        """Each proper prefix of a configuration has its first fault, or is one."""
        read = 0
        for length in range(len(BANK)):
            self.check_read(BANK[:length])
            read += not expected(BANK[:length])[1]
        # Two with no card, four that end in the limit, and the whole but for its last LF.
        self.assertEqual(read, 7)
        self.tells(f"{len(BANK)} prefixes, of which {read} are configurations")

    def test_spoiled(self) -> None:
        """A byte is changed, lost or put in, or a line is lost, doubled or moved."""
        read, count = 0, 300 * self.times
        for _ in range(count):
            text = spoiled(self.chance)
            self.check_read(text)
            read += not expected(text)[1]
        self.assertTrue(0 < read < count)
        self.tells(f"{count} spoiled, of which {read} are configurations")


def spoiled(chance: Random) -> bytes:
    if chance.random() < 0.7:
        at = chance.randrange(len(BANK) + 1)
        lost, put = chance.choice(((0, 1), (1, 1), (1, 0)))
        return BANK[:at] + bytes(chance.choices(BYTES, k=put)) + BANK[at + lost :]
    lines = BANK.splitlines(keepends=True)
    line = chance.choice(lines)
    if chance.random() < 0.7:
        lines.remove(line)
    if chance.random() < 0.7:
        lines.insert(chance.randrange(len(lines) + 1), line)
    return b"".join(lines)
