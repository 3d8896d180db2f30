"""The commands of every day: written rows, each fault in its order, arguments that are refused, and
what one command gives another."""
from __future__ import annotations

from itertools import permutations

from ..support.case import ProgramCase
from ..support.commands.everyday_rows import BASE, INITIAL, rows
from ..support.commands.everyday_words import (
    COMMANDS, MOST_KEYS, NO_BLOCK, NO_REVERSAL, NO_SEARCH, NO_TEST, expected)
from ..support.commands.leaks import SEARCHES_REFUSED_ARGUMENTS
from ..support.program import spoken

NEW = ("initial", "registers", "kcv", "lmk", "mac", "data", "unpin", "translate", "request", "reply",
       "find", "show")
SERIAL = "FFFF9876543210E00001"
ONE_LINE = b"error: the following required arguments were not provided:\n"


class Rows(ProgramCase):
    """Each row of tests/data/commands/everyday."""

    weight = 3

    def test_rows(self) -> None:
        ran = set()
        for words, wanted in rows():
            ended = self.program.run(*words)
            self.assert_ended(ended, wanted.status, wanted.output, wanted.faults, spoken(words))
            ran.add(words[0])
        self.assertEqual(sorted(set(NEW) - ran), [], "commands without a row")
        self.tells(f"{len(rows())} rows")

    def refused(self, first: bytes, *words: str) -> None:
        ended = self.program.run(*words)
        self.assertEqual((ended.status, ended.output), (2, b""), spoken(words))
        self.assertTrue(ended.faults.startswith(first), f"{spoken(words)}: {ended.faults!r}")

    def test_refused_words(self) -> None:
        """Too few words, too many, options twice or with a value, and options of other commands."""
        for name in NEW:
            about = COMMANDS[name]
            words = [name, *about.values]
            self.refused(ONE_LINE, name)
            self.refused(expected(words[:-1]).faults, *words[:-1])
            self.refused(b"error: unexpected argument '--skip' found\n", *words, "--skip", "1")
            if not about.is_many:
                self.refused(b"error: unexpected argument 'more' found\n", *words, "more")
            for flag in about.flags:
                self.refused(b"error: the argument '--%b' cannot be used multiple times\n"
                             % flag.encode(), *words, f"--{flag}", f"--{flag}")
                self.refused(b"error: unexpected value 'x' for '--%b' found; no more were expected\n"
                             % flag.encode(), *words, f"--{flag}=x")
        for words in ((BASE, SERIAL), (BASE, SERIAL, "1", "--reverse", SERIAL),
                      (BASE, SERIAL, "1", "1", "1", f"--reverse={SERIAL}")):
            self.refused(f"error: {NO_REVERSAL}\n".encode(), "request", *words)
        begun, told = ("--from", SERIAL), (("--text", "a"), ("--pan", "1"), ("--clear", "x"))
        for words in (*told, *((*one, *other, *begun) for one, other in permutations(told, 2)),
                      ("--hex",), ("--hex", *begun), ("--hex", "--pan", "1", *begun),
                      ("--hex", "--clear", "x", *begun), ("--hex", "--text", "a")):
            self.refused(f"error: {NO_SEARCH}\n".encode(), "find", BASE, "x", *words)
        for words in (("block", "x", "--key", BASE), ("log", "x", "--key", BASE),
                      ("frames", "x", "--key", BASE), ("", "x", "--key", BASE),
                      ("frame", "x", "--initial"), ("image", "x", "--initial", "--show")):
            self.refused(f"error: {NO_TEST}\n".encode(), "show", *words)
        block = ("--key", BASE), ("--fields", "P0TE00E"), ("--pad", "A5A5A5A5A5A5")
        for words in (*block, *((*one, *other) for one, other in permutations(block, 2)),
                      *(("--new", *it) for it in (*block, sum(block, ())))):
            self.refused(f"error: {NO_BLOCK}\n".encode(), "lmk", "x", "y", *words)
        for words in (("walk", "--trace"), ("initial", "--initial"), ("pin", "--show"),
                      ("wrap", "--hex")):
            option = words[1].encode()
            self.refused(b"error: unexpected argument '%b' found\n" % option, *words)
        for option in (["--key"], ["--key", "--show"]):
            self.refused(b"error: a value is required for '--key <KEY>' but none was supplied\n",
                         "unpin", "041274EDCBA9876F", "4012345678909", *option)

    def test_most_keys(self) -> None:
        """Sixteen keys, and not one more. Of these none is shown where there are too many."""
        keys = [self.chance.randbytes(16).hex() for _ in range(MOST_KEYS + 1)]
        for options in ([], ["--components"], ["--components", "--show"]):
            self.assertEqual(self.program.run("kcv", *options, *keys[:-1]).status, 0)
            words = ["kcv", *options, *keys]
            self.refused(expected(words).faults, *words)
            for key in keys if SEARCHES_REFUSED_ARGUMENTS else keys[:-1]:
                self.assertNotIn(key.encode(), self.program.run(*words).faults, "a key is shown")

    def test_keys_that_stand_apart(self) -> None:
        """An option stands before all keys or after them."""
        for name, called in (("kcv", b"KEY"), ("lmk", b"COMPONENT")):
            for flag in COMMANDS[name].flags:
                words = [name, BASE, f"--{flag}", BASE]
                self.refused(b"error: the argument '<%b>...' cannot be used multiple times\n" % called, *words)
                self.refused(expected(words).faults, *words)

    def test_bytes_that_are_no_text(self) -> None:
        for words in (("kcv", b"\xff"), ("mac", BASE, b"\xff"), ("unpin", b"\xc3", "1"),
                      ("derive", b"@\xff", SERIAL), ("request", BASE, SERIAL, b"\x80", "1", "1")):
            ended = self.program.run(*words)
            self.assertEqual((ended.status, ended.output), (2, b""), spoken(words))

    def test_what_one_command_gives_another(self) -> None:
        """Keys, blocks and frames go from one command to the next."""
        step = self.program.run("derive", INITIAL, SERIAL, "--initial", "--trace", "--all").output
        lines = dict(line.split(" ", 1) for line in step.decode().splitlines())
        self.assertEqual(lines["step"], f"{SERIAL} {lines['key']}")
        asked = self.lines("request", BASE, SERIAL, "4012345678909", "1234", "7")["request"]
        block = asked[64:80]
        self.assertEqual(self.lines("unpin", block, "4012345678909", "--key", lines["pin"], "--show"),
                         {"pin": "1234"})
        body = asked[4:-16]
        self.assertEqual(self.lines("mac", lines["mac-request"], body, "--hex"), {"mac": asked[-16:]})
        answer = f"0102{SERIAL}3030"
        mac = self.lines("mac", lines["mac-response"], answer, "--hex")["mac"]
        self.assertEqual(self.lines("reply", BASE, asked, f"0016{answer}{mac}"),
                         {"accepted": f"{SERIAL} 00"})
        hidden = self.lines("data", lines["data-request"], "4012345678909D98")["data"]
        self.assertEqual(self.lines("data", lines["data-request"], hidden, "--decipher"),
                         {"data": b"4012345678909D98".hex().upper()})
        self.assertEqual(self.lines("find", BASE, hidden[:16], "--from", SERIAL, "--clear",
                                    b"40123456".hex()), {"found": f"{SERIAL} request-data"})
        moved = self.lines("translate", block, "4012345678909", BASE, SERIAL, BASE)["translated"]
        self.assertEqual(self.lines("unpin", moved, "4012345678909", "--key", BASE, "--show"),
                         {"pin": "1234"})

    def lines(self, *words: str) -> dict[str, str]:
        ended = self.program.run(*words)
        self.assertEqual((ended.status, ended.faults), (0, b""), spoken(words))
        return dict(line.split(" ", 1) if " " in line else (line, "")
                    for line in ended.output.decode().splitlines())
