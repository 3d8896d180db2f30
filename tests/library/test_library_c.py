"""The library in C: its calls against the standards' values, OpenSSL and the bench's own ciphers.

The programs of tests/data/library try each call with random arguments and with every size of each slice,
plainly, under sanitizers and under valgrind. The header is compiled alone, and its examples run.
"""
from __future__ import annotations

import os
import re
import subprocess
import sys
from pathlib import Path
from typing import Sequence

from ..support.case import Case
from ..support.library.library import (
    SANITIZED, STRICT, built_library, compiler, copy_sources, demand, linked, program, ran)
from ..support.library.library_calls import CALLS, Value, answer
from ..support.program import ROOT, Word
from ..vectors.test_ciphers import BASE, vectors

HEADER = ROOT / "library" / "c" / "dukpt.h"
TOOL = ROOT / "tools" / "library"
C99, CPP17 = ("-x", "c", "-std=c99"), ("-x", "c++", "-std=c++17")
# How many cases of each call there are, or a tenth where it is one over a security module; and how
# many the bench's own ciphers answer too.
CASES, BY_CLIENT = 100_000, 500
SANITIZED_CASES, WATCHED_CASES = 2_000, 30
# How deep the calls go on the stack, as tests/library/test_library_secrets.py measures it.
STACK_BYTES = 81920
# The lengths of the formats, by their names in the header.
LENGTHS = {
    "KEY_BYTES": 16, "TRIPLE_KEY_BYTES": 24, "KSN_BYTES": 10, "BLOCK_BYTES": 8, "MAC_BYTES": 8,
    "CHECK_VALUE_BYTES": 3, "CMAC_CHECK_VALUE_BYTES": 5, "IMAGE_BYTES": 431, "IMAGE_1_BYTES": 350,
    "PIN_LEAST": 4, "PIN_ROOM": 12, "PAN_LEAST": 12, "PAN_ROOM": 19, "HEADER_BYTES": 7,
    "USAGE_BYTES": 2, "KEY_BLOCK_LEAST": 80, "KEY_BLOCK_ROOM": 512, "OPTIONAL_ID_BYTES": 2,
    "OPTIONAL_ROOM": 251, "CODE_BYTES": 2, "FRAME_ROOM": 64, "MODULE_BYTES": 4706,
    "PREFIX_BYTES": 5, "CARD_BYTES": 37, "JUDGED_BYTES": 64, "STACK_BYTES": STACK_BYTES,
    "HOST_STACK_BYTES": 409600}
LENGTH = re.compile(r"^#define DUKPT_(\w+_(?:BYTES|LEAST|ROOM)) (\d+)", re.MULTILINE)
# An example in a comment, and what it prints.
EXAMPLE = re.compile(
    r"^ \* Example: (.*?)\n(.*?)^ \* It prints:\n(.*?)^ \*/", re.MULTILINE | re.DOTALL)
CODE = re.compile(r"^ \*(?:     (.*))?$", re.MULTILINE)


class LibraryCase(Case):
    def seed_word(self) -> str:
        return str(self.chance.randrange(1 << 63))


def spoken(value: Value) -> str:
    """An argument as the programs read and print it."""
    return str(value) if isinstance(value, int) else value.hex().upper() or "-"


def heard(name: str, words: Sequence[str]) -> tuple[Value, ...]:
    """The arguments of a call as the programs print them."""
    return tuple(int(word) if kind in ("count", "number") else bytes.fromhex(word.replace("-", ""))
                 for kind, word in zip(CALLS[name].kinds, words, strict=True))


class Random(LibraryCase):
    """Random arguments, by the library, by OpenSSL and by the bench's own ciphers."""

    weight = 60

    def test_cases(self) -> None:
        tried = program("random", self.folder(), is_shared=True)
        cases_of_each = CASES * self.times
        lines = ran(tried, self.seed_word(), str(cases_of_each), str(BY_CLIENT)).splitlines()
        done = [line.split(" ")[1] for line in lines if line.startswith("done ")]
        self.assertEqual(done, list(CALLS))
        cases = [line for line in lines if line.startswith("case ")]
        self.assertEqual(len(cases), BY_CLIENT * len(CALLS))
        for case in cases:
            self.check_case(case)
        self.tells(f"{cases_of_each:,} cases of each of {len(done)} calls")

    def check_case(self, case: str) -> None:
        before, after = case.removeprefix("case ").split(" -> ")
        name, *given = before.split(" ")
        status, *changed = after.split(" ")
        wanted = answer(name, heard(name, given))
        self.assertEqual((int(status), heard(name, changed)), (wanted.status, wanted.arguments),
                         before)


class Sizes(LibraryCase):
    """Every size of each slice, from 0 to twice the right one."""

    weight = 10

    def test_sizes(self) -> None:
        lines = ran(program("lengths", self.folder()), self.seed_word(), "20").splitlines()
        self.assertEqual([line.split(" ")[1] for line in lines], list(CALLS))
        wrong = sum(int(line.split(" ")[4]) for line in lines)
        self.tells(f"{wrong:,} wrong sizes")


class Watched(LibraryCase):
    """Fewer cases, with tools that watch memory."""

    weight = 20

    def test_sanitizers(self) -> None:
        """AddressSanitizer and UndefinedBehaviorSanitizer, in the programs around the library."""
        folder = self.folder()
        for main, count in (("random", [str(SANITIZED_CASES), "0"]), ("lengths", ["2"])):
            ran(program(main, folder, SANITIZED), self.seed_word(), *count, "exact")

    def test_valgrind(self) -> None:
        """Each byte that the library itself reads or writes."""
        demand("valgrind")
        folder = self.folder()
        watch = ("valgrind", "--quiet", "--error-exitcode=9", "--leak-check=no")
        for main, count in (("random", [str(WATCHED_CASES), "0"]), ("lengths", ["1"])):
            ran(*watch, program(main, folder), self.seed_word(), *count, "exact")


class Vectors(LibraryCase):
    """The standards' values."""

    def setUp(self) -> None:
        super().setUp()
        self.lines = program("lines", self.folder(), is_shared=True)
        self.asked: list[str] = []
        self.wanted: list[str] = []

    def ask(self, name: str, given: Sequence[Value], after: Sequence[Value]) -> None:
        """Asks for a call that is done, and leaves these arguments."""
        self.asked.append(" ".join([name, *map(spoken, given)]))
        self.wanted.append(" ".join(["0", *map(spoken, after)]))

    def check(self) -> None:
        said = ran(self.lines, given="".join(f"{line}\n" for line in self.asked)).splitlines()
        for asked, is_, wanted in zip(self.asked, said, self.wanted, strict=True):
            self.assertEqual(is_, wanted, asked)
        self.assertGreater(len(said), 0)

    def test_ciphers(self) -> None:
        for key, clear, ciphertext in hexadecimal("triple_des.txt"):
            for at in range(0, len(clear), 8):
                blocks = clear[at : at + 8], ciphertext[at : at + 8]
                self.ask("dukpt_tdes_encrypt", [key, blocks[0]], [key, blocks[1]])
                self.ask("dukpt_tdes_decrypt", [key, blocks[1]], [key, blocks[0]])
        # DES under equal keys is DES; a chain of one block from zeros is the block.
        for key, clear, ciphertext in hexadecimal("des.txt"):
            for count in (2, 3):
                self.ask("dukpt_tdes_encrypt", [key * count, clear], [key * count, ciphertext])
                zeros = [key * count, bytes(8)]
                self.ask("dukpt_cbc_encrypt", [*zeros, clear], [*zeros, ciphertext])
                self.ask("dukpt_cbc_decrypt", [*zeros, ciphertext], [*zeros, clear])
        self.check()

    def test_macs(self) -> None:
        for name, call in (("cmac.txt", "dukpt_cmac"), ("retail.txt", "dukpt_retail_mac")):
            for key, message, mac in hexadecimal(name):
                self.ask(call, [key, message, bytes(8)], [key, message, mac])
        self.check()

    def test_keys(self) -> None:
        """The sample numbers of the standard, from the base derivation key, from the initial key,
        and out of the registers of a terminal that was loaded."""
        initial = bytes.fromhex("6AC292FAA1315B4D858AB3A3D7D5933A")
        iksn = bytes.fromhex("FFFF9876543210E00000")
        self.ask("dukpt_initial_key", [BASE, iksn, bytes(16)], [BASE, iksn, initial])
        for number, key in vectors("dukpt.txt"):
            given, made = bytes.fromhex(number), bytes.fromhex(key)
            self.ask("dukpt_derive", [BASE, given, bytes(16)], [BASE, given, made])
            self.ask("dukpt_derive_from_initial", [initial, given, bytes(16)],
                     [initial, given, made])
        self.check()
        self.check_taken(initial, iksn)

    def check_taken(self, initial: bytes, iksn: bytes) -> None:
        """Takes the first numbers of a terminal one after the other."""
        image = self.after("dukpt_registers_load", initial, iksn, bytes(431))[2]
        for number, key in list(vectors("dukpt.txt"))[:30]:
            _, image, *taken = self.after("dukpt_registers_next", image, bytes(431), bytes(16), bytes(10))
            self.assertEqual(taken, [bytes.fromhex(key), bytes.fromhex(number)])

    def after(self, name: str, *given: Value) -> tuple[Value, ...]:
        """The arguments of a call that is done, afterwards."""
        status, *words = ran(self.lines, given=" ".join([name, *map(spoken, given)])).split()
        self.assertEqual(status, "0", name)
        return heard(name, words)

    def test_pin_blocks(self) -> None:
        for pin, pan, block in vectors("pin_blocks.txt"):
            digits, account, made = pin.encode(), pan.encode(), bytes.fromhex(block)
            self.ask("dukpt_pin_block", [digits, account, bytes(8)], [digits, account, made])
            self.ask("dukpt_pin_of_block", [made, account, bytes(12), 0],
                     [made, account, digits.ljust(12, b"\x00"), len(digits)])
        self.check()

    def test_key_blocks(self) -> None:
        for protection, block, fields, key in vectors("key_blocks.txt"):
            kbpk, text, found = bytes.fromhex(protection), block.encode(), bytes.fromhex(key)
            self.ask("dukpt_unwrap", [kbpk, text, bytes(7), bytes(24), 0],
                     [kbpk, text, fields.encode(), found.ljust(24, b"\x00"), len(found)])
        self.check()


def hexadecimal(name: str) -> list[list[bytes]]:
    """The words of each line of a file of values; a hyphen is nothing."""
    return [[bytes.fromhex(word.replace("-", "")) for word in line] for line in vectors(name)]


class Header(LibraryCase):
    def test_alone(self) -> None:
        """The header compiles alone, without a warning, in both languages."""
        for language, command in ((C99, "gcc"), (CPP17, "g++")):
            compiler(*STRICT, *language, "-fsyntax-only", HEADER, command=command)

    def test_lengths(self) -> None:
        found = {name: int(number) for name, number in LENGTH.findall(HEADER.read_text())}
        self.assertEqual(found, LENGTHS)

    def test_examples(self) -> None:
        """Each example of the header prints what the header says, in both languages, with the
        shared library and with the archive."""
        examples = EXAMPLE.findall(HEADER.read_text())
        self.assertEqual(len(examples), HEADER.read_text().count("Example:"))
        self.assertGreater(len(examples), 1)
        for number, (_, code, printed) in enumerate(examples):
            source = self.folder() / f"example{number}.c"
            source.write_text(lines_in(code))
            for language, command in ((C99, "gcc"), (CPP17, "g++")):
                for is_shared in (False, True):
                    self.check_example(source, lines_in(printed), language, command, is_shared)

    def check_example(
        self, source: Path, wanted: str, language: Sequence[str], command: str, is_shared: bool
    ) -> None:
        library = built_library()
        made = source.with_suffix("")
        compiler(*STRICT, f"-I{library}", *language, source, "-x", "none", "-o", made,
                 *linked(library, is_shared), command=command)
        self.assertEqual(ran(made), wanted, f"{source.name}, {language}, shared {is_shared}")

    def test_pkg_config(self) -> None:
        """The description for pkg-config finds header and library in its own folder."""
        demand("pkg-config")
        library = built_library()
        wanted = {"--cflags": f"-I{library}", "--libs": f"-L{library} -ldukpt",
                  "--modversion": "0.1.0"}
        for word, said in wanted.items():
            found = ran("env", f"PKG_CONFIG_PATH={library}", "pkg-config", word, "dukpt")
            self.assertEqual(found.strip(), said)


def lines_in(comment: str) -> str:
    """The lines of a comment that are set in, as a text."""
    return "\n".join(CODE.findall(comment)).strip("\n") + "\n"


class Built(LibraryCase):
    """What the header says of all calls, in the built files."""

    def listed(self, *words: str) -> list[list[str]]:
        """The words of each line that a command prints of the archive's object."""
        demand(words[0])
        folder = self.folder()
        subprocess.run(["ar", "x", built_library() / "libdukpt.a"], cwd=folder, check=True)
        return [line.split() for line in ran(*words, *folder.glob("*.o")).splitlines()]

    def test_needs(self) -> None:
        """The calls ask nothing of the system, and take no memory: they copy and fill alone."""
        needed = {words[-1] for words in self.listed("nm", "--undefined-only") if len(words) == 2}
        self.assertLessEqual(needed, {"memcpy", "memmove", "memset", "memcmp"})

    def test_no_state(self) -> None:
        """No section can be written that has a byte."""
        sections = [words for words in self.listed("readelf", "--sections", "--wide")
                    if "WA" in words]
        self.assertTrue(all(int(words[words.index("WA") - 2], 16) == 0 for words in sections),
                        sections)


class Tool(LibraryCase):
    """The command tools/library."""

    def run_tool(self, *words: Word, path: str, tool: Path = TOOL) -> tuple[int, str]:
        done = subprocess.run([sys.executable, tool, *words], env={**os.environ, "PATH": path},
                              capture_output=True, text=True, check=False)
        return done.returncode, done.stdout + done.stderr

    def stand_in(self, folder: Path, command: str, text: str = "") -> None:
        """A command of this name that does what a text of the shell says."""
        (folder / command).write_text(f"#!/bin/sh\n{text}\n")
        (folder / command).chmod(0o755)

    def test_no_differences(self) -> None:
        built_library()
        self.assertEqual(self.run_tool("--check", path=os.environ["PATH"]), (0, "no differences\n"))

    def test_missing_commands(self) -> None:
        """Each missing command is said in a line, and nothing is made."""
        folder, copy = self.folder(), self.folder()
        tool, words = copy_sources(copy), ("--out", folder / "made")
        said = "library: gcc is not installed: apt-get install gcc\n"
        self.assertEqual(self.run_tool(*words, path=str(folder), tool=tool), (1, said))
        for command in ("gcc", "ld", "objcopy", "ar"):
            self.stand_in(folder, command)
        said = "library: rt is not on PATH: put the kit's bin folder on it\n"
        self.assertEqual(self.run_tool(*words, path=str(folder), tool=tool), (1, said))
        said = "library: there is no archive none\n"
        words = ("--archive", "none", *words)
        self.assertEqual(self.run_tool(*words, path=str(folder), tool=tool), (1, said))
        self.assertFalse((folder / "made").exists())

    def test_kit(self) -> None:
        """What is below the crate is proved by `rt lib` in its folder, and the library is built of
        the archive that the kit makes."""
        kit, copy = self.folder(), self.folder()
        tool, path = copy_sources(copy), f"{kit}:{os.environ['PATH']}"
        self.stand_in(kit, "rt", "echo a fault of the proof; exit 1")
        said = "library: rt did not build dukpt_c\na fault of the proof\n"
        self.assertEqual(self.run_tool(path=path, tool=tool), (1, said))
        (kit / "bin").mkdir()
        self.stand_in(kit, "rt", f"case $1 in doc) echo {kit}/page;; lib) echo $PWD >{kit}/proved;; esac")
        built_library()
        archive = ROOT / "crates" / "dukpt_c" / "out" / "libdukpt_c.a"
        self.stand_in(kit / "bin", "rattle", f"for to; do :; done; cp {archive} $to")
        self.assertEqual(self.run_tool(path=path, tool=tool), (0, ""))
        crate = copy / "crates" / "dukpt_c"
        self.assertEqual((kit / "proved").read_text(), f"{crate}\n")
        self.assertTrue((crate / "out" / "libdukpt_c.a").exists())
        self.assertEqual(self.run_tool("--check", path=path, tool=tool), (0, "no differences\n"))
