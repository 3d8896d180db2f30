"""Streams, statuses and real files: what the program makes of arguments, and of the files that they name."""
from __future__ import annotations

import os
import re
import shutil
import subprocess
from pathlib import Path

from ..support.case import Case
from ..support.formats.bank import BANK, BDK, FRONT, LINES, BankCase
from ..support.program import ROOT, SECONDS, Ended, spoken

BASE = "0123456789ABCDEFFEDCBA9876543210"
SERIAL = "FFFF9876543210E00001"
PROTECTION = "DD7515F2BFC17F85CE48F3CA25CB21F6"
ZONE = "3F419E1CB7079442AA37474C2EFBF8B8"
# A published key block of the zone key (ANSI X9.143).
BLOCK = "B0080P0TE00E000094B420079CC80BA3461F86FE26EFC4A3B8E4FA4C5F5341176EED7B727B8A248E"
DERIVED = b"""\
initial 6AC292FAA1315B4D858AB3A3D7D5933A
key 042666B49184CFA368DE9628D0397BC9
pin 042666B49184CF5C68DE9628D0397B36
"""
PIN_KEY = "042666B49184CF5C68DE9628D0397B36"

# Arguments, with the output and the fault that they have.
COMMANDS = [
    (("--version",), b"dukpt 0.1.0\n", ""),
    (("derive", BASE, SERIAL), DERIVED, ""),
    (("derive", BASE, "FFFF9876543210E00000"), b"", "counter refused"),
    (("derive", "", SERIAL), b"", "BDK refused"),
    (("walk", BASE, "FFFF9876543210E00000", "2", "--skip", "2045", "--ksn"),
     b"FFFF9876543210E007FE\nFFFF9876543210E00800\n", ""),
    (("pin", "1234", "4012345678909", "--key", PIN_KEY),
     b"block 041274EDCBA9876F\nenciphered 1B9C1845EB993A7A\n", ""),
    (("pin", "123", "4012345678909"), b"", "PinLength"),
    (("unwrap", PROTECTION, BLOCK), f"fields P0TE00E\nkey {ZONE}\n".encode(), ""),
    (("unwrap", PROTECTION, BLOCK[:-1]), b"", "Length"),
    (("wrap", PROTECTION, "P0TE00E", ZONE, "0000000000"), b"", "PadLength"),
]

# Arguments that are refused, and those that are because one is no UTF-8.
REFUSED_WORDS = [
    ("run", "bank.toml"), ("derive", BASE, SERIAL, SERIAL), ("serve",), ("",), ("--", "-x"),
]
NO_UTF8 = [
    ("derive", b"\xff", SERIAL), ("run", "bank.toml", b"all.script\xff"),
    (b"derive\xc3", BASE, SERIAL), ("serve", "bank.toml", b"--log=\xed\xa0\x80"), (b"\x80",),
    ("pin", "1234", b"401234567890\xb9"), ("--help", b"\xf8"), ("nothing", "of", b"this\xc0\xaf"),
]

# Configurations that are refused, and their faults.
REFUSED_FILES = [
    (b"", "bad lmk"),
    (BANK.replace(b"log = 100", b"log = 0"), "bad log"),
    (b"port = 1\n" + BANK.replace(b"log = 100", b"log = 0"), "unknown port"),
    (BANK.replace(b"[[card]]", BDK + b"[[card]]"), "bad bdk 2"),
    (BANK.replace(BDK, b""), "bad bdk"),
    (BANK.replace(b'"4012345678909"', b'"40123"'), "bad card 1"),
    (b'stores = "tape"\n' + BANK, "bad stores"),
    (BANK.replace(b'zone = "3F', b'zone = "3'), "bad zone"),
    (BANK.replace(b'loading = "4C', b'loading = "4'), "bad loading"),
    (b"lmk = ", "not TOML"),
    (FRONT + b'bdk = "\xff"', "not TOML"),
]


class Streams(BankCase):
    """Which stream has what, with which status."""

    def test_commands(self) -> None:
        for words, output, fault in COMMANDS:
            with self.subTest(spoken(words)):
                self.check(words, output, fault)

    def test_refused_words(self) -> None:
        for words in REFUSED_WORDS:
            with self.subTest(spoken(words)):
                ended = self.program.run(*words, folder=self.home)
                self.assertEqual((ended.status, ended.output), (2, b""))
                self.assertTrue(ended.faults.startswith(b"error: "), ended)

    def test_words_that_are_no_utf8(self) -> None:
        """Wherever one stands."""
        for words in NO_UTF8:
            ended = self.program.run(*words, folder=self.home)
            self.assert_ended(ended, 2, b"", b"error: a word is not UTF-8\n", spoken(words))

    def test_help(self) -> None:
        """Where there are no words the help is on standard error."""
        told = self.program.run("--help")
        self.assertEqual((told.status, told.faults), (0, b""))
        self.assertIn(b"\nUsage: dukpt <COMMAND>\n", told.output)
        self.assert_ended(self.program.run(), 2, b"", told.output, "dukpt")


class Files(BankCase):
    """What `run` makes of real files. What `serve` makes of them stands with the service."""

    def test_runs(self) -> None:
        self.write("empty.script", b"")
        self.write("bad.script", b"up 1\nup 01\n")
        for script, output, fault in (("all.script", LINES, ""), ("empty.script", b"", ""),
                                      ("bad.script", b"", "line 2: not an event"),
                                      ("bank.toml", b"", "line 1: not an event")):
            self.check(("run", "bank.toml", script), output, fault)
        self.check(("run", "all.script", "bank.toml"), fault="config: not TOML")

    def test_files_that_cannot_be_read(self) -> None:
        (self.home / "folder").mkdir()
        (self.home / "nowhere").symlink_to("missing")
        for name in ("missing", "folder", "", "nowhere", "bank.toml/bank.toml", "x" * 300):
            self.check(("run", name, "all.script"), fault="config: cannot read")
            self.check(("run", name, name), fault="config: cannot read")
            self.check(("run", "bank.toml", name), fault="script: cannot read")

    def test_files_by_other_ways(self) -> None:
        """A link, a path from the root, and a standard input that is named as a file."""
        (self.home / "link").symlink_to("bank.toml")
        script = self.home / "all.script"
        self.check(("run", "link", script), LINES)
        self.check(("run", "bank.toml", "/dev/stdin"), LINES, given=script.read_bytes())
        self.check(("run", "/dev/stdin", "all.script"), LINES, given=BANK)

    def test_no_script_is_opened_for_a_refused_configuration(self) -> None:
        """The script is a pipe that nobody writes to: whoever opens it waits."""
        os.mkfifo(self.home / "pipe.script")
        for text, fault in REFUSED_FILES:
            self.write("refused.toml", text)
            for script in ("pipe.script", "missing"):
                self.check(("run", "refused.toml", script), fault=f"config: {fault}")


# A kit that notes its calls and makes a program that prints its arguments, one that makes nothing,
# and one that makes a program for a try. That one prints its folder, its arguments and its input,
# and the kit has it until the pipe is opened that it runs on. A proof, which is of `duk_one` first, takes
# some time, and a source may be edited meanwhile.
MAKES = """#!/bin/sh
echo "$*" >>"$NOTED"
sleep 0.01
if [ -e "$NOTED.edit" ]; then rm "$NOTED.edit" && touch src/lib.rt; fi
sleep 0.01
[ "$1" = run ] || exit 0
mkdir -p out
printf '#!/bin/sh\necho "$@"\nexit 3\n' >out/dukpt
chmod +x out/dukpt
"""
MAKES_NOTHING = """#!/bin/sh
echo "no proof"
exit 1
"""
TRIES = """#!/bin/sh
echo "$*" >>"$NOTED"
mkdir "$TMPDIR/made"
printf '#!/bin/sh\npwd\necho "$@"\ncat\nexit 4\n' >"$TMPDIR/made/program"
chmod +x "$TMPDIR/made/program"
cat "$4"
echo proved=no
exit 1
"""
# The same, where none of four is built before all are begun.
TRIES_TOGETHER = TRIES.replace("mkdir", 'while test "$(wc -l <"$NOTED")" -lt 4; do sleep 0.01; done\nmkdir', 1)
SYSTEM = "/usr/bin:/bin"
NO_KIT = b"dukpt: the program is not built, and there is no rt on PATH to build it\n"
# What is said where a build without a proof is made.
UNPROVED = (rb"\Adukpt: building the program without a proof, .* 800 times slower .*\n"
            rb"dukpt: \./dukpt --prove proves .*\ndukpt: built, after \d+ s\n\Z")


class StartScript(Case):
    """The script `dukpt`, over two crates and a kit that stands in for the true one."""

    def setUp(self) -> None:
        super().setUp()
        self.home = self.folder()
        shutil.copy(ROOT / "dukpt", self.home)
        (self.home / "crates.txt").write_text("# A comment.\nduk_one: hex\ndukpt: duk_one\n")
        for crate in ("duk_one", "dukpt"):
            for part in ("src", "specs", "proofs"):
                (self.home / "crates" / crate / part).mkdir(parents=True)
        self.temporary = self.folder()

    def start(self, *words: str, kit: str = "") -> subprocess.Popen:
        if kit:
            command = self.home / "rt"
            # One that runs cannot be written.
            if not command.exists() or command.read_text() != kit:
                command.write_text(kit)
                command.chmod(0o755)
        told = {"PATH": f"{self.home}:{SYSTEM}" if kit else SYSTEM, "NOTED": str(self.noted),
                "TMPDIR": str(self.temporary)}
        return subprocess.Popen([self.home / "dukpt", *words], cwd=self.temporary, env=told,
                                stdin=subprocess.PIPE, stdout=subprocess.PIPE,
                                stderr=subprocess.PIPE)

    def run_script(self, *words: str, kit: str = "", given: bytes = b"") -> Ended:
        return self.ended(self.start(*words, kit=kit), given)

    @staticmethod
    def ended(script: subprocess.Popen, given: bytes = b"") -> Ended:
        output, faults = script.communicate(given, timeout=SECONDS)
        return Ended(script.returncode, output, faults)

    def make_source_newer(self, program: Path) -> None:
        source = self.home / "crates" / "duk_one" / "src" / "lib.rt"
        source.write_text("")
        later = os.stat(program).st_mtime + 10
        os.utime(source, (later, later))

    @property
    def noted(self) -> Path:
        return self.home / "noted"

    @property
    def proved(self) -> Path:
        return self.home / "crates" / "dukpt" / "out" / "dukpt"

    @property
    def unproved(self) -> Path:
        return self.home / "out" / "unproved" / "dukpt"

    def test_no_kit(self) -> None:
        self.assertIsNone(shutil.which("rt", path=SYSTEM), "the kit is among the system's programs")
        for words in (("derive",), ("--prove",), ("--unproved", "derive")):
            self.assertEqual(self.run_script(*words), Ended(125, b"", NO_KIT), words)

    def test_not_built(self) -> None:
        for words in (("derive",), ("--prove", "derive"), ("--unproved", "derive")):
            ended = self.run_script(*words, kit=MAKES_NOTHING)
            self.assertEqual((ended.status, ended.output), (125, b""), words)
            fault = b"no proof\ndukpt: the program could not be built\n"
            self.assertTrue(ended.faults.endswith(fault), ended)
        self.assert_clean([])

    def test_prove(self) -> None:
        """Once, and again where a source is newer. Arguments and status are the program's."""
        ended = self.run_script("--prove", kit=MAKES)
        self.assertEqual((ended.status, ended.output), (0, b""))
        self.assertRegex(ended.faults, rb"(?s)\Adukpt: proving .*\ndukpt: built, after 0 min\n\Z")
        calls = "lib\nrun -- --help\n"
        self.assertEqual(self.noted.read_text(), calls)
        self.assertEqual(self.run_script("--prove", kit=MAKES), Ended(0, b"", b""))
        self.assertEqual(self.run_script("--prove", "pin", "a  b"), Ended(3, b"pin a  b\n", b""))
        self.assertEqual(self.run_script("--prove", ""), Ended(3, b"\n", b""))
        self.assertEqual(self.noted.read_text(), calls)
        self.make_source_newer(self.proved)
        self.assertEqual(self.run_script("--prove", "x", kit=MAKES).output, b"x\n")
        self.assertEqual(self.noted.read_text(), calls * 2)

    def test_edited_while_proved(self) -> None:
        """Whoever edits a source while it is proved has no proof of it."""
        (self.home / "noted.edit").touch()
        self.assertEqual(self.run_script("--prove", kit=MAKES).status, 0)
        self.assertFalse((self.home / "noted.edit").exists())
        self.check_built(self.run_script("x", kit=TRIES), "x")
        self.assertEqual(self.run_script("--prove", "x", kit=MAKES).output, b"x\n")
        self.assertEqual(self.run_script("x"), Ended(3, b"x\n", b""))

    def check_unproved(self, ended: Ended, arguments: str, given: bytes = b"") -> None:
        """That the program ran in the folder and with the streams of the script."""
        output = f"{self.temporary.resolve()}\n{arguments}\n".encode() + given
        self.assertEqual((ended.status, ended.output), (4, output), ended)

    def check_built(self, ended: Ended, arguments: str, given: bytes = b"") -> None:
        """That it was built for this, and that this and the other choice were said."""
        self.check_unproved(ended, arguments, given)
        self.assertRegex(ended.faults, UNPROVED)

    def check_silent(self, ended: Ended, arguments: str, given: bytes = b"") -> None:
        self.check_unproved(ended, arguments, given)
        self.assertEqual(ended.faults, b"")

    def test_unproved(self) -> None:
        """Built once, and again where a source is newer, beside the proved program."""
        given = b"\0\xff\n"
        self.check_built(self.run_script("--unproved", "pin", "a  b", kit=TRIES, given=given),
                         "pin a  b", given)
        self.assertRegex(self.noted.read_text(), r"\Atry -- run (\S+) \1\n\Z")
        self.check_silent(self.run_script("--unproved", "--unproved", given=given), "--unproved", given)
        self.assertEqual(self.run_script("--prove", kit=MAKES).status, 0)
        self.check_silent(self.run_script("--unproved", "x"), "x")
        self.make_source_newer(self.unproved)
        self.check_built(self.run_script("--unproved", kit=TRIES), "")
        self.assertEqual(len(re.findall("^try ", self.noted.read_text(), re.M)), 2)
        self.assert_clean(["dukpt"])

    def test_plain(self) -> None:
        """The proved program, else the one without a proof, which is built where it has to be."""
        self.check_built(self.run_script("pin", "a  b", kit=TRIES), "pin a  b")
        self.check_silent(self.run_script("x", "--prove"), "x --prove")
        self.assertEqual(self.run_script("--prove", kit=MAKES).status, 0)
        self.assertEqual(self.run_script("x", "--unproved"), Ended(3, b"x --unproved\n", b""))
        self.make_source_newer(self.proved)
        later = os.stat(self.proved).st_mtime + 20
        os.utime(self.unproved, (later, later))
        self.check_silent(self.run_script(), "")
        self.make_source_newer(self.unproved)
        self.check_built(self.run_script("x", kit=TRIES), "x")
        self.assertEqual(len(re.findall("^try ", self.noted.read_text(), re.M)), 2)

    def assert_clean(self, programs: list[str]) -> None:
        self.assertEqual(os.listdir(self.temporary), [], "files for the build are left")
        self.assertEqual(os.listdir(self.unproved.parent), programs)

    def test_unproved_twice_at_once(self) -> None:
        scripts = [self.start("--unproved", str(at), kit=TRIES_TOGETHER) for at in range(4)]
        for at, script in enumerate(scripts):
            self.check_built(self.ended(script), str(at))
        self.assert_clean(["dukpt"])
