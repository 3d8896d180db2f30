"""The table of the calls: what is made of it is as it makes it, and it says what the library does.

A fault that is planted in a made file, or in the table, is told by tools/library --check, or found
at the built library.
"""
from __future__ import annotations

import ctypes
import re
import shutil
import subprocess
import sys
import tomllib
from pathlib import Path
from typing import Any, Iterator, Mapping, Optional, Sequence
from unittest import mock

from ..support.case import Case
from ..support.formats.images import image_of
from ..support.library.library import STRICT, built_library, compiler, copy_sources
from ..support.library.library_calls import CALLS as MODELS
from ..support.library.library_calls import FAULTS
from ..support.program import ROOT
from ..support.standards.dukpt import registers_at

TABLE, HEADER = "library/calls.toml", "library/c/dukpt.h"
EXPORTS, CRATE = "crates/dukpt_c/src/lib.rt", "crates/duk_calls/src"
PYTHON, RUST = "library/python/dukpt", "library/rust/src"
PY_CALLS, PY_FAULTS = f"{PYTHON}/_exports.py", f"{PYTHON}/faults.py"
RS_EXPORTS, RS_CALLS, RS_FAULTS = (f"{RUST}/{it}.rs" for it in ("exports", "calls", "fault/kinds"))
MAP, TEXTS = "library/c/dukpt.map", "library/c/status_texts.inc"
PAGE, DOCUMENT, SYMBOLS = "page/call_table.js", "docs/calls.txt", "share/debian/libdukpt0.symbols"
# The made files, in the order in which they are told.
MADE = (EXPORTS, MAP, TEXTS, PY_CALLS, RS_EXPORTS, RS_FAULTS, PAGE, DOCUMENT, SYMBOLS, HEADER,
        PY_FAULTS, RS_CALLS)
# Those that have the arguments of each call in order, and those that have the faults' numbers.
OF_CALLS = {EXPORTS, PY_CALLS, RS_EXPORTS, RS_CALLS, HEADER, DOCUMENT}
OF_FAULTS = {TEXTS, PY_FAULTS, RS_FAULTS, PAGE, DOCUMENT, HEADER}

# In a made file a text, which stands there once, becomes another one.
BY_HAND: Sequence[tuple[str, str, str]] = (
    # A length.
    (HEADER, " *   value   out  3 ", " *   value   out  4 "),
    (DOCUMENT, "`next` 10", "`next` 11"),
    (PAGE, "cmac_check_value: [READ, 5]", "cmac_check_value: [READ, 8]"),
    (HEADER, "16 for each 10 of ksns", "16 for each 20 of ksns"),
    (DOCUMENT, "1 for each 64 of frames", "2 for each 64 of frames"),
    (PAGE, "size: 1, each: 64, of: 1", "size: 1, each: 64, of: 0"),
    # The order of two arguments, or the kind of one.
    (HEADER, "dukpt_derive(const uint8_t *bdk, size_t bdk_size",
     "dukpt_derive(const uint8_t *ksn, size_t ksn_size"),
    (PY_CALLS, '"dukpt_derive": {"bdk": "bytes", "ksn"', '"dukpt_derive": {"ksn": "bytes", "bdk"'),
    (PY_CALLS, '"reason": "number"', '"reason": "count"'),
    (RS_EXPORTS, "reason: u32", "reason: *mut u32"),
    (RS_CALLS, "dukpt_derive: read bdk, read ksn", "dukpt_derive: read ksn, read bdk"),
    (EXPORTS, "duk_calls::derive(bdk, ksn, key)", "duk_calls::derive(ksn, bdk, key)"),
    (EXPORTS, "(DeriveAnswers bdk.now ksn.now", "(DeriveAnswers ksn.now bdk.now"),
    # A fault's number, name or sentence, or the order of a call's faults.
    (HEADER, "DUKPT_FAULT_NOT_MINE = 26", "DUKPT_FAULT_NOT_MINE = 27"),
    (HEADER, "DUKPT_FAULT_PART_OF_FRAME; DUKPT_FAULT_TOO_LONG",
     "DUKPT_FAULT_TOO_LONG; DUKPT_FAULT_PART_OF_FRAME"),
    (TEXTS, "[DUKPT_FAULT_BAD_MAC]", "[DUKPT_FAULT_NOT_MINE]"),
    (PY_FAULTS, "NotMine(DukptError, number=26)", "NotMine(DukptError, number=62)"),
    (PY_FAULTS, "class NotMine(", "class NotYours("),
    (RS_FAULTS, "NotMine = 26", "NotMine = 62"),
    (PAGE, "BAD_MAC: 27", "BAD_MAC: 26"),
    (DOCUMENT, "26 `NotMine`", "27 `NotMine`"),
    # A name that is missing, the version, and the version of the symbols.
    (MAP, "    dukpt_registers_next;\n", ""),
    (MAP, "DUKPT_0.1 {", "DUKPT_0.2 {"),
    (SYMBOLS, " dukpt_registers_next@DUKPT_0.1 0.1.0\n", ""),
    (HEADER, 'VERSION_TEXT "0.1.0"', 'VERSION_TEXT "0.1.1"'),
)

DERIVE = """[groups.calls.derive]
about = \"\"\"
Writes the transaction key of a key serial number under the base derivation key. The counter may be
any: zero gives the initial key. `check_usable` tells whether it numbers a transaction.\"\"\"
arguments = [
    ["bdk", "in", "16", "base derivation key"],
    ["ksn", "in", "10", "key serial number"],
    ["key", "out", "16", "transaction key"],
]
"""
BDK = '    ["bdk", "in", "16", "base derivation key"],\n'
KSN = '    ["ksn", "in", "10", "key serial number"],\n'
DERIVE_HAS = "bdk: &[u8], ksn: &[u8], key: &mut [u8]"
KEYS = '["keys", "out", "16 for each 10 of ksns", '
NOT_MINE, BAD_MAC = "NotMine = [26, ", "BadMac = [27, "

# In the table texts become others: these made files are told then, and these lines.
IN_TABLE: Sequence[tuple[str, str, set[str], Sequence[str]]] = (
    # A length that is read, and one that is written.
    (DERIVE, DERIVE.replace('"in", "10"', '"in", "12"'), {HEADER, DOCUMENT}, ()),
    (DERIVE, DERIVE.replace('"out", "16"', '"out", "24"'), {HEADER, DOCUMENT, PAGE}, ()),
    (KEYS, KEYS.replace("16", "24"), {HEADER, DOCUMENT, PAGE}, ()),
    # The order of two arguments.
    (DERIVE, DERIVE.replace(BDK + KSN, KSN + BDK), OF_CALLS,
     [f"{CRATE}: derive has the arguments {DERIVE_HAS}, and in the table ksn: &[u8], bdk: &[u8],"
      " key: &mut [u8]"]),
    # Two faults' names and numbers, the order of a call's faults.
    (f'{NOT_MINE}"the reply is to another key serial number"]\n{BAD_MAC}',
     'BadMac = [26, "the reply is to another key serial number"]\nNotMine = [27, ', OF_FAULTS,
     [f"{CRATE}: the number of BadMac is 27, and in the table 26",
      f"{CRATE}: the number of NotMine is 26, and in the table 27"]),
    ('["PartOfFrame", "TooLong"]', '["TooLong", "PartOfFrame"]', {HEADER, DOCUMENT},
     [f"{CRATE}: frame_length has the faults PartOfFrame, TooLong, and in the table TooLong,"
      " PartOfFrame"]),
    # A name, the version, the version of the symbols.
    (DERIVE, DERIVE.replace("derive]", "derived]"), {*OF_CALLS, MAP, SYMBOLS, PAGE},
     [f"{CRATE}: derived has the arguments none, and in the table {DERIVE_HAS}",
      f"{CRATE}: derived has the faults none, and in the table Length",
      f"{CRATE}: derive is not in the table",
      "libdukpt.a: dukpt_derived is missing", "libdukpt.a: dukpt_derive is no export",
      "libdukpt.so.0: dukpt_derived@@DUKPT_0.1 is missing",
      "libdukpt.so.0: dukpt_derive@@DUKPT_0.1 is no export"]),
    ('\nversion = "0.1.0"', '\nversion = "0.1.1"', {EXPORTS, HEADER, DOCUMENT},
     [f"{CRATE}: the version is 0.1.0, and in the table 0.1.1"]),
    ('"wipe_host_stack"]', '"wipe_host_stack", "wipe"]', {MAP, SYMBOLS},
     ["libdukpt.a: dukpt_wipe is missing", "libdukpt.so.0: dukpt_wipe@@DUKPT_0.1 is missing"]),
    # What is no table of calls.
    (NOT_MINE, NOT_MINE.replace("26", "62"), set(),
     [f"{TABLE}: NotMine has number 62 in the place of 26"]),
    (DERIVE, DERIVE.replace("ksn", "bdk"), set(), [f"{TABLE}: derive: bdk stands more than once"]),
    (DERIVE, DERIVE.replace('"out", "16"', '"out", "16 or 24"'), set(),
     [f"{TABLE}: derive: key: 16 or 24 is no length"]),
    *((KEYS, KEYS.replace("16 for each 10 of ksns", length), set(),
       [f"{TABLE}: derive_many: keys: {length} is no length"])
      for length in ("16 for each of ksns", "16 for each 8 of ksns", "16 for each 10 of bdk",
                     "16 for each 10 of keys", "a multiple of 16")),
    (DERIVE, DERIVE.replace('"10", ', ""), set(),
     [f"{TABLE}: derive: ['ksn', 'in', 'key serial number'] has not name, way, length and words"]),
    ('["PartOfFrame", "TooLong"]', '["PartOfFrame", "Long"]', set(),
     [f"{TABLE}: frame_length: Long is no fault"]),
    ('by = "pin_key_of"', 'by = "pin_key"', set(), ["pin_key: no home is told of pin_key"]),
)


class Checked(Case):
    """The table and all that is made of it, in a copy."""

    def setUp(self) -> None:
        super().setUp()
        self.library = built_library()
        self.copy = self.folder()
        self.tool = copy_sources(self.copy)

    def run_tool(self, *words: str) -> tuple[int, list[str]]:
        done = subprocess.run([sys.executable, str(self.tool), *words], capture_output=True,
                              text=True, check=False)
        return done.returncode, (done.stdout + done.stderr).splitlines()

    def check(self, out: Optional[Path] = None) -> tuple[int, list[str]]:
        return self.run_tool("--check", "--out", str(out or self.library))

    def plant(self, name: str, old: str, new: str) -> str:
        """Puts a text in the place of another one in a file, and gives what the file had."""
        file = self.copy / name
        before = file.read_text(encoding="utf-8")
        self.assertEqual(before.count(old), 1, f"{name}: {old}")
        file.write_text(before.replace(old, new), encoding="utf-8")
        return before


class TestMade(Checked):
    def test_nothing_planted(self) -> None:
        self.assertEqual(self.check(), (0, ["no differences"]))
        self.assertEqual(self.run_tool("--make"), (0, ["no changes"]))

    def test_by_hand(self) -> None:
        """A change of a made file is told with its line, and --make takes all back."""
        for name, old, new in BY_HAND:
            before = self.plant(name, old, new)
            at = next(at for at, (one, other) in enumerate(zip(old, new + "\0"), 1) if one != other)
            line = before[: before.index(old) + at].count("\n") + 1
            said = f"{name} is not what {TABLE} makes: line {line}"
            self.assertEqual(self.check(), (1, [said]), (old, new))
            (self.copy / name).write_text(before, encoding="utf-8")
        last = {name: edit for name, *edit in BY_HAND}
        texts = {name: self.plant(name, *edit) for name, edit in last.items()}
        self.assertEqual(self.run_tool("--make"), (0, [it for it in MADE if it in texts]))
        for name, text in texts.items():
            self.assertEqual((self.copy / name).read_text(encoding="utf-8"), text)
        self.tells(f"{len(BY_HAND)} found")

    def test_gone(self) -> None:
        """A made file that is not there, and a part that has no place in its file."""
        (self.copy / MAP).unlink()
        self.assertEqual(self.check(), (1, [f"{MAP} is not what {TABLE} makes: line 1"]))
        self.assertEqual(self.run_tool("--make"), (0, [MAP]))
        self.plant(HEADER, "enum dukpt_status {", "enum status {")
        said = f"{HEADER} has 0 parts behind enum dukpt_status {{"
        self.assertEqual(self.check(), (1, [said]))
        self.assertEqual(self.run_tool("--make"), (1, [f"library: {said}"]))


class TestPlanted(Checked):
    def test_in_table(self) -> None:
        """A change of the table is told with what it changes: files, the crate, the library."""
        for old, new, files, lines in IN_TABLE:
            before = self.plant(TABLE, old, new)
            status, said = self.check()
            told = [line.partition(f" is not what {TABLE} makes: ") for line in said]
            stale = [name for name, middle, _ in told if middle]
            rest = [line.replace(f"{self.library}/", "") for line, middle, _ in told if not middle]
            self.assertEqual((status, stale), (1, [it for it in MADE if it in files]), new)
            self.assertEqual(rest, list(lines), new)
            (self.copy / TABLE).write_text(before, encoding="utf-8")
        self.tells(f"{len(IN_TABLE)} found")

    def test_other_exports(self) -> None:
        """A library that has a name too many, one too few, another version, and no soname."""
        out = self.folder()
        (out / "more.c").write_text("int leaked(void);\nint leaked(void) { return 0; }\n")
        for name in ("libdukpt.a", "dukpt.h", "dukpt.pc"):
            shutil.copy2(self.library / name, out / name)
        shared = out / "libdukpt.so.0"
        (out / "libdukpt.so").symlink_to(shared.name)
        text = (ROOT / MAP).read_text(encoding="utf-8")
        (out / "other.map").write_text(text.replace("    dukpt_registers_next;\n", "").replace(
            "    dukpt_wrap;\n", "    leaked;\n") + "DUKPT_0.2 { global: dukpt_wrap; };\n")
        compiler(*STRICT, "-shared", "-fPIC", "-Wl,--version-script=other.map", "more.c",
                 "-Wl,--whole-archive", "libdukpt.a", "-Wl,--no-whole-archive", "-o", shared,
                 folder=out)
        lines = [f"{shared}: {line}" for line in (
            "dukpt_wrap@@DUKPT_0.1 is missing", "dukpt_registers_next@@DUKPT_0.1 is missing",
            "dukpt_wrap@@DUKPT_0.2 is no export",
            "leaked@@DUKPT_0.1 is no export", "its soname is none, and not libdukpt.so.0")]
        status, said = self.check(out)
        self.assertEqual((status, sorted(said)), (1, sorted(lines)))


# The built library

# What a slice is filled with: no first byte of a frame or a key block, and the digit 1.
FILL = b"1"
# How many bytes a slice of any length has, but none, and what numbers are, but 0.
SIZES, NUMBERS = {"padding": 6}, {"wanted": 16, "reason": 1, "state": 1}
BEYOND = 6
# Slices of parts, and how long a part is; how the length of a slice begins that has so many bytes
# for each of them.
PARTS, FOR_EACH = {"ksns": 10, "frames": 64, "settled": 64}, " for each "
INITIAL, IKSN = bytes(range(16)), 0xFFFF9876543210E00000
# The fault of another length, where the words of an argument name one.
NAMED = re.compile(r"(?:another length is|fewer are) `(\w+)`")

Row = Sequence[str]


def calls() -> Iterator[tuple[str, Mapping[str, Any]]]:
    for group in tomllib.loads((ROOT / TABLE).read_text(encoding="utf-8"))["groups"]:
        yield from group["calls"].items()


def numbers_in(length: str) -> list[int]:
    return list(map(int, re.findall(r"\d+", length)))


def others(length: str) -> Iterator[str]:
    """What is like a length: each number in it one more, and one less."""
    for found in re.finditer(r"\d+", length):
        for number in (int(found[0]) + 1, int(found[0]) - 1):
            yield f"{length[:found.start()]}{number}{length[found.end():]}"


def fits(way: str, length: str, size: int, sizes: Mapping[str, int]) -> bool:
    """Whether a slice may have so many bytes, where the others have these sizes."""
    first, *others = numbers_in(length)
    if FOR_EACH in length:
        return size >= least_size(length, sizes)
    if way == "out" or length.endswith(" or more"):
        return size >= first
    if length.startswith("a multiple of "):
        return size % first == 0
    return first <= size <= others[0] if " to " in length else size in (first, *others)


def least_size(length: str, sizes: Mapping[str, int]) -> int:
    """How many bytes a slice has at least with so many for each so many of another one."""
    size, each = numbers_in(length)
    return size * (sizes[length.split(" ")[-1]] // each)


def are_roomy(rows: Sequence[Row], sizes: Mapping[str, int]) -> bool:
    """Whether each slice has room that has so many bytes for each part of another one."""
    return all(sizes[argument] >= least_size(length, sizes)
               for argument, _, length, _ in rows if FOR_EACH in length)


def right_sizes(rows: Sequence[Row]) -> dict[str, int]:
    """A right size of each slice. Of parts there are as many as one has bytes: another length
    of a part makes another number of them."""
    right: dict[str, int] = {}
    for argument, _, length, _ in rows:
        numbers = numbers_in(length) or [SIZES.get(argument, 0)]
        right[argument] = numbers[0]
        if argument in PARTS:
            right[argument] = PARTS[argument] ** 2
        if FOR_EACH in length:
            right[argument] = least_size(length, right)
    return right


def content(argument: str, size: int) -> bytes:
    """The bytes of a slice that is read: right ones where another fault would come before."""
    if argument == "image" and size in (350, 431):
        return image_of(registers_at(INITIAL, IKSN, 1), 2 if size == 431 else 1)
    if argument == "iksn" and size == 10:
        return IKSN.to_bytes(10, "big")
    return FILL * size


class TestLengths(Case):
    """The lengths of the table are those of the built library: each size of each slice."""

    def setUp(self) -> None:
        super().setUp()
        self.library = ctypes.CDLL(str(built_library() / "libdukpt.so.0"))
        self.tried = 0

    def test_lengths(self) -> None:
        names = []
        for name, call in calls():
            names.append(f"dukpt_{name}")
            self.check_call(name, call["arguments"], call["faults"])
        self.assertEqual(names, list(MODELS))
        self.tells(f"{len(names)} calls, {self.tried:,} sizes")

    def test_planted(self) -> None:
        """Each length of the table, and one more or one less in its place."""
        planted = 0
        for name, call in calls():
            for at, (argument, way, length, words) in enumerate(call["arguments"]):
                for other in others(length):
                    rows = [*call["arguments"]]
                    rows[at] = (argument, way, other, words)
                    with self.assertRaises(AssertionError, msg=f"{name}, {argument} of {other}"):
                        self.check_call(name, rows, call["faults"])
                    planted += 1
        self.tells(f"{planted} found")

    def test_refusing(self) -> None:
        """A call that has the fault of a length always, whatever it is given, is found."""
        for name, call in calls():
            with mock.patch.object(self, "status", return_value=FAULTS.index("Length")):
                with self.assertRaises(AssertionError, msg=name):
                    self.check_call(name, call["arguments"], call["faults"])

    def check_call(self, name: str, rows: Sequence[Row], faults: Sequence[str]) -> None:
        right = right_sizes(rows)
        for argument, way, length, words in rows:
            if length in ("number", "any"):
                continue
            fault = found[1] if (found := NAMED.search(words)) else "Length"
            self.assertIn(fault, faults, f"{name}, {argument}")
            for size in range(2 * max(*numbers_in(length), right[argument]) + BEYOND):
                sizes = {**right, argument: size}
                status = self.status(name, rows, sizes)
                is_right = fits(way, length, size, sizes) and are_roomy(rows, sizes)
                self.assertEqual(status != FAULTS.index(fault), is_right,
                                 f"{name}, {argument} of {size} bytes: status {status}")

    def status(self, name: str, rows: Sequence[Row], sizes: Mapping[str, int]) -> int:
        """The status of a call with slices of these sizes."""
        words: list[object] = []
        for argument, way, length, _ in rows:
            if length == "number":
                number = ctypes.c_uint32(NUMBERS.get(argument, 0))
                words.append(number if way == "in" else ctypes.byref(number))
            else:
                held = content(argument, sizes[argument])
                words += [(ctypes.c_char * max(len(held), 1))(*held), ctypes.c_size_t(len(held))]
        self.tried += 1
        return int(getattr(self.library, f"dukpt_{name}")(*words))


class TestPage(Case):
    """What the page has of the calls by hand."""

    def test_words(self) -> None:
        """There are words for each fault, and no others."""
        text = (ROOT / "page" / "faults.js").read_text(encoding="utf-8")
        words = text.partition("const WORDS = {\n")[2].partition("\n};\n")[0]
        self.assertEqual(re.findall(r"^  (\w+):", words, re.MULTILINE), list(FAULTS[1:]))

    def test_calls(self) -> None:
        """Each call that is made is one of the table, with as many arguments as it reads."""
        text = (ROOT / "page" / "calls.js").read_text(encoding="utf-8")
        reads = {name: sum(way != "out" for _, way, _, _ in call["arguments"])
                 for name, call in calls()}
        made = re.findall(r'\b(?:one|call)\("(\w+)"((?:, \w+)*)\)', text)
        self.assertEqual(len(made), len(re.findall(r'\b(?:one|call)\("', text)))
        for name, arguments in made:
            self.assertEqual(arguments.count(","), reads[name], name)
        self.tells(f"{len(made)} calls")
