"""Secrets by reference: what is read of files, standard input and devices, and what is refused.

Each command is tried with a secret argument as a reference, and all of its others as they are.
"""
from __future__ import annotations

import errno
import os
import subprocess
import threading
import time
from itertools import product
from pathlib import Path
from typing import Iterator, Optional, Sequence, Union

from ..support.case import ProgramCase
from ..support.commands.everyday_rows import (
    BASE, FIRST as IKSN, KBPK, PAN, PIN, REPLY, REQUEST, RIGHT, SERIAL, ZONE, rows)
from ..support.commands.everyday_words import (
    COMMANDS, INPUTS, MOST_BYTES, expected, is_secret, may_refer)
from ..support.program import SECONDS, Ended, Word, spoken

# A process of root reads any file but without these.
WITHOUT = ("setpriv", "--inh-caps=-all", "--bounding-set=-dac_override,-dac_read_search")
LONG = b"0" * MOST_BYTES


def names_of(command: str) -> Iterator[tuple[int, str]]:
    """The place and the name of each word behind a command: of a value, or of an option's value."""
    about, place = COMMANDS[command], 0
    for at, word in enumerate(RIGHT[command][1:], 1):
        before = RIGHT[command][at - 1]
        if before[2:] in about.valued:
            yield at, about.valued[before[2:]]
        elif not word.startswith("--"):
            yield at, about.values[0 if about.is_many else place]
            place += 1


def references_of(command: str) -> list[tuple[int, str]]:
    return [(at, name) for at, name in names_of(command) if may_refer(name)]


def secrets_of(command: str) -> list[tuple[int, str]]:
    return [(at, name) for at, name in names_of(command) if is_secret(command, name)]


class ReferenceCase(ProgramCase):
    """A test in a folder of its own."""

    weight = 3

    def setUp(self) -> None:
        super().setUp()
        self.home = self.folder()

    def run_with(self, words: Sequence[Word], given: Union[bytes, int] = b"",
                 handles: Sequence[int] = (), front: Sequence[str] = ()) -> Ended:
        """A run that has these handles too, and may be started by another command."""
        feeds = {"input": given} if isinstance(given, bytes) else {"stdin": given}
        done = subprocess.run([*front, str(self.program.path), *words], cwd=self.home, timeout=SECONDS,
                              capture_output=True, check=False, pass_fds=handles, **feeds)
        return Ended(done.returncode, done.stdout, done.stderr)

    def check(self, words: Sequence[str], data: Optional[bytes], given: bytes = b"") -> None:
        """That a run ends as it has to where `@it` holds this, or where there is no such file."""
        if data is not None:
            (self.home / "it").write_bytes(data)
        files = {} if data is None else {"it": data}
        self.is_as(self.run_with(words, given), words, files, given)

    def is_as(self, ended: Ended, words: Sequence[str], files: dict[str, bytes],
              given: bytes = b"") -> None:
        wanted = expected(words, files, given)
        if wanted.status == 2:
            # The usage stands behind the first line.
            ended = Ended(ended.status, ended.output, ended.faults.splitlines(True)[0])
        self.assert_ended(ended, wanted.status, wanted.output, wanted.faults,
                          f"{spoken(words)} with {str(files)[:200]}")

    def fault(self, ended: Ended, line: str, what: str) -> None:
        self.assert_ended(ended, 1, b"", f"{line}\n".encode(), what)


class References(ReferenceCase):
    """What is read, and what is said of it."""

    def test_each_secret(self) -> None:
        """Each secret argument of each command, in a file and on standard input; and no other."""
        count = 0
        for command, right in RIGHT.items():
            for at, name in names_of(command):
                words, data = [*right], right[at].encode() + b"\r\nmore\n"
                words[at] = "@it"
                self.check(words, data)
                words[at] = "@-"
                self.is_as(self.run_with(words, data), words, {}, data)
                if may_refer(name):
                    wanted = expected(right)
                    self.assertEqual((self.run_with(words, data), wanted.status), (wanted, 0), words)
                count += 1
        self.tells(f"{count} arguments")

    def test_ends_of_lines(self) -> None:
        key = BASE.encode()
        for end in (b"", b"\n", b"\r\n", b"\r", b"\r\r\n", b" \n", b"\nmore", b"\n\xff", b"\x00\n",
                    b"\r\nmore\r\n", b"\t\n", b"\r \n"):
            self.check(["derive", "@it", SERIAL], key + end)
        for data in (b"", b"\n", b"\r\n", b"\n" + key, b"\r" + key, b" " + key, b"\xef\xbb\xbf" + key):
            self.check(["derive", "@it", SERIAL], data)
        for pin in (b"", b"\n", b"1234\n", b"1234", b"1234\r\n", b"1234 \n"):
            self.check(["pin", "@it", PAN], pin)

    def test_lengths(self) -> None:
        """4,096 bytes before the end of the line, and one more."""
        for data in (LONG, LONG + b"\n", LONG + b"\r\n", LONG + b"\r", LONG + b"0", LONG + b"0\n",
                     LONG + b"0\r\n", LONG + b"\r\r\n", LONG + b"\r0", LONG[1:] + b"\r\n", LONG * 40,
                     LONG + b"\n" + LONG * 40, LONG[1:] + b"\r", LONG[1:] + b"\r0"):
            self.check(["kcv", "@it"], data)
            self.check(["kcv", "@-"], None, data)

    def test_texts(self) -> None:
        """UTF-8 on the first line alone; where it is too long as well, that comes first."""
        for data in (b"\xff\n", b"\xc3", b"\xed\xa0\x80\n", b"\xc0\x80\n", b"\xf4\x90\x80\x80\n",
                     b"\xc3\xa9\n", BASE.encode() + b"\n\xff", BASE.encode() + b"\xff",
                     b"\xff" * MOST_BYTES, b"\xff" * (MOST_BYTES + 1), LONG[1:] + b"\xc3\xa9\n",
                     LONG[2:] + b"\xc3\xa9\n", LONG[1:] + b"\xc3\n"):
            self.check(["derive", "@it", SERIAL], data)

    def test_what_cannot_be_read(self) -> None:
        """No file, a folder, no name, what fails at once, and what one may not read."""
        (self.home / "folder").mkdir()
        (self.home / "loop").symlink_to("loop")
        (self.home / "gone").symlink_to("nowhere")
        for name in ("missing", "folder", "", "loop", "gone", "/", ".", "missing/it", "it/", "x" * 300,
                     "/proc/self/mem", "/dev/fd/99", "~", "@it", "-x", "it "):
            (self.home / "it").write_text(BASE)
            self.fault(self.run_with(["derive", f"@{name}", SERIAL]), "BDK: cannot read", name)
        (self.home / "it").chmod(0)
        front = WITHOUT if os.geteuid() == 0 else ()
        ended = self.run_with(["derive", "@it", SERIAL], front=front)
        self.fault(ended, "BDK: cannot read", "no right")
        (self.home / "it").chmod(0o400)
        self.assertEqual(self.run_with(["derive", "@it", SERIAL], front=front).status, 0)

    def test_names(self) -> None:
        """Any name is one, also by a link, in a folder, and with bytes of all kinds."""
        (self.home / "folder").mkdir()
        for name in ("a b", "-", "--show", "@", "\u20ac", "folder/../it", "./-", "n\nl", "x" * 255):
            (self.home / name).write_text(f"{BASE}\n")
            words = ["derive", f"@{self.home}/{name}", SERIAL]
            self.assertEqual(self.run_with(words), expected(["derive", BASE, SERIAL]), name)
        (self.home / "link").symlink_to("a b")
        self.assertEqual(self.run_with(["derive", "@link", SERIAL]).status, 0)

    def test_a_closed_input(self) -> None:
        words = ["bash", "-c", 'exec "$0" derive @- FFFF9876543210E00001 <&-', str(self.program.path)]
        done = subprocess.run(words, capture_output=True, check=False, timeout=SECONDS)
        self.fault(Ended(done.returncode, done.stdout, done.stderr), "BDK: cannot read", "<&-")

    def test_other_words(self) -> None:
        """What is no secret is as it is written, and so is a reference within a file."""
        for words in (["derive", BASE, "@it"], ["walk", BASE, IKSN, "@it"], ["mac", BASE, "@it"],
                      ["walk", BASE, "@it", "1"], ["mac", BASE, "@-"], ["unwrap", KBPK, "@it"],
                      ["wrap", KBPK, "@it....", ZONE, "A5" * 6], ["wrap", KBPK, "P0TE00E", ZONE, "@it"],
                      ["reply", BASE, "@it", REPLY], ["reply", BASE, REQUEST, "@it"],
                      ["request", BASE, SERIAL, PAN, PIN, "@it"], ["initial", BASE, "@it"],
                      ["walk", BASE, IKSN, "1", "--skip", "@it"]):
            self.check(words, b"1\n", b"1\n")
        (self.home / "other").write_text(BASE)
        self.check(["derive", "@it", SERIAL], b"@other\n")
        self.check(["derive", "@it", SERIAL], b"@-\n", BASE.encode())
        self.check(["derive", "--", "@it", SERIAL], BASE.encode())


class Streams(ReferenceCase):
    """Pipes and devices, and standard input."""

    def piped(self, data: bytes, keeps: bool = False) -> int:
        """The end to read of a pipe that has this. Its other end stays open where `keeps` says so."""
        reader, writer = os.pipe()
        os.write(writer, data)
        if keeps:
            self.addCleanup(os.close, writer)
        else:
            os.close(writer)
        self.addCleanup(os.close, reader)
        return reader

    def test_handles(self) -> None:
        """Two secrets on two handles, as a shell hands them over."""
        words = ["unpin", "041274EDCBA9876F", f"@/dev/fd/{self.piped(PAN.encode())}", "--show"]
        handle = int(words[2].rpartition("/")[2])
        self.assertEqual(self.run_with(words, handles=[handle]), Ended(0, b"pin 1234\n", b""))
        one, other = self.piped(f"{BASE}\n".encode()), self.piped(f"{ZONE}\r\nmore".encode())
        words = ["kcv", f"@/dev/fd/{one}", f"@/dev/fd/{other}"]
        self.assertEqual(self.run_with(words, handles=[one, other]), expected(["kcv", BASE, ZONE]))

    def test_a_shell(self) -> None:
        words = ['printf "%s\\n" "$1" | "$0" derive @- FFFF9876543210E00001',
                 '"$0" derive @<(printf %s "$1") FFFF9876543210E00001',
                 '"$0" derive @- FFFF9876543210E00001 <<<"$1"',
                 '"$0" derive @/dev/stdin FFFF9876543210E00001 <<<"$1"']
        for word in words:
            done = subprocess.run(["bash", "-c", word, str(self.program.path), BASE],
                                  capture_output=True, check=False, timeout=SECONDS)
            ended = Ended(done.returncode, done.stdout, done.stderr)
            self.assertEqual(ended, expected(["derive", BASE, SERIAL]), word)

    def test_a_pipe_in_a_folder(self) -> None:
        """It is written a byte at a time, and comes whole; nobody closes it before the end."""
        path = self.home / "pipe"
        os.mkfifo(path)
        ended: list[Ended] = []
        words = ["derive", "@pipe", SERIAL]
        run = threading.Thread(target=lambda: ended.append(self.run_with(words)))
        run.start()
        writer = self.writer(path, run)
        if writer is not None:
            for byte in f"{BASE}\n".encode():
                os.write(writer, bytes([byte]))
            run.join(SECONDS)
            os.close(writer)
        run.join()
        self.assertEqual(ended, [expected(["derive", BASE, SERIAL])])

    def writer(self, path: Path, run: threading.Thread) -> Optional[int]:
        """The end to write of a pipe in a folder, once the run has the other one."""
        while run.is_alive():
            try:
                return os.open(path, os.O_WRONLY | os.O_NONBLOCK)
            except OSError as why:
                if why.errno != errno.ENXIO:
                    raise
            time.sleep(0.001)
        return None

    def test_an_open_input(self) -> None:
        """The line is enough: nobody waits for what stands behind it."""
        for data, name in product((f"{BASE}\n", f"{BASE}\r\n", "x\n"), INPUTS):
            reader = self.piped(data.encode(), keeps=True)
            words = ["derive", name, SERIAL]
            self.assertEqual(self.run_with(words, reader), expected(words, {}, data.encode()), data)

    def test_devices(self) -> None:
        for name, line in (("/dev/zero", "BDK: too long"), ("/dev/null", "BDK refused"),
                           ("/dev/full", "BDK: too long")):
            self.fault(self.run_with(["derive", f"@{name}", SERIAL]), line, name)
        with open("/dev/zero", "rb") as zero:
            self.fault(self.run_with(["derive", "@-", SERIAL], zero.fileno()), "BDK: too long", "zeros")
        folder = os.open(self.home, os.O_RDONLY)
        self.fault(self.run_with(["derive", "@-", SERIAL], folder), "BDK: cannot read", "a folder")
        os.close(folder)

    def test_standard_input_once(self) -> None:
        """A second time it cannot be read, of whichever argument; the first one is looked at first."""
        for words, given in (
            (["pin", "@-", "@-"], PIN), (["pin", "@-", "@-"], "\u00e9\n\xff"),
            (["kcv", "@-", "@-"], BASE),
            (["pin", "@-", PAN, "--key", "@-"], PIN), (["pin", "--key", "@-", "@-", PAN], PIN),
            (["translate", "@-", "@-", "@-", SERIAL, "@-"], ""), (["wrap", "@-", "P", "@-", ""], KBPK),
            (["request", "@-", "x", PAN, "@-", "x"], BASE), (["unpin", "x", "@-", "--key=@-"], PAN),
        ):
            ended = self.run_with(words, given.encode("latin-1"))
            self.is_as(ended, words, {}, given.encode("latin-1"))
            # By whatever path it is named.
            for path in INPUTS[1:]:
                for other in ("@-", *INPUTS[1:]):
                    turn = iter((path, *[other] * 4))
                    words = [next(turn) if it == "@-" else it for it in words]
                    ended = self.run_with(words, given.encode("latin-1"))
                    self.is_as(ended, words, {}, given.encode("latin-1"))
                    words = ["@-" if it in INPUTS else it for it in words]

    def test_an_argument_alone_does_not_read(self) -> None:
        """Without `@-` standard input is left to whoever reads it next."""
        words = ('{ "$0" kcv "$1"; cat; } < input', str(self.program.path), BASE)
        (self.home / "input").write_text("left\n")
        done = subprocess.run(["bash", "-c", *words], cwd=self.home, capture_output=True, check=True)
        self.assertEqual(done.stdout, expected(["kcv", BASE]).output + b"left\n")


class Order(ReferenceCase):
    """The order of faults: those of references before all others, in the order of the arguments."""

    def test_before_all_others(self) -> None:
        """One secret is a reference that is refused, and all else is wrong."""
        for command, right in RIGHT.items():
            for place, (at, name) in enumerate(references_of(command)):
                # But the kind of what is shown, on which its options depend.
                wrong = [word if at_ == 0 or word.startswith("--") or word == "frame" else "x"
                         for at_, word in enumerate(right)]
                for data, fault in ((None, "cannot read"), (LONG + b"0", "too long"),
                                    (b"\xff", "not UTF-8")):
                    words = [*wrong[:at], "@it" if data else "@missing", *wrong[at + 1 :]]
                    self.check(words, data)
                    self.fault(self.run_with(words), f"{name}: {fault}", f"{spoken(words)} {place}")

    def test_by_arguments(self) -> None:
        """Of two references that are refused the first in the order of the help, options last."""
        (self.home / "long").write_bytes(LONG + b"0")
        for command, right in RIGHT.items():
            secrets = references_of(command)
            for one, (first, name) in enumerate(secrets):
                for second, _ in secrets[one + 1 :]:
                    words = [*right]
                    words[first], words[second] = "@long", "@missing"
                    self.fault(self.run_with(words), f"{name}: too long", spoken(words))
                    words[first], words[second] = "@missing", "@long"
                    self.fault(self.run_with(words), f"{name}: cannot read", spoken(words))
        for words in (["pin", "--key", "@missing", "@long", PAN],
                      ["pin", "--key=@missing", PIN, "@long"]):
            name = "PIN" if words[-1] == PAN else "PAN"
            self.fault(self.run_with(words), f"{name}: too long", spoken(words))

    def test_behind_refused_words(self) -> None:
        """Arguments that are refused as such are not read at all."""
        for words in (["derive", "@missing"], ["pin", "@-", "@-", "x"], ["kcv"],
                      ["derive", "@-", "1", "2"]):
            ended = self.run_with(words, b"1234\n")
            self.assertEqual((ended.status, ended.output), (2, b""), words)
            self.assertNotIn(b"cannot read", ended.faults)

    def test_rows(self) -> None:
        """Each written row with all of its secrets in files."""
        count = 0
        for words, wanted in rows():
            # Behind `--` all words are values; there is one such row, and its key stands before it.
            given = self.referred(words) if "--" not in words else words
            if given != words:
                ended = self.run_with(given)
                self.assert_ended(ended, wanted.status, wanted.output, wanted.faults, spoken(given))
                count += 1
        self.tells(f"{count} rows")

    def referred(self, words: list[str]) -> list[str]:
        """The same words, with a file for each secret."""
        about, given, place, is_value = COMMANDS[words[0]], [words[0]], 0, False
        for word in words[1:]:
            option, _, value = word[2:].partition("=")
            if word.startswith("--"):
                is_value = option in about.valued and not value
                given.append(word)
                continue
            name = about.valued[given[-1][2:]] if is_value else about.values[
                0 if about.is_many else place]
            place += not is_value
            is_value = False
            path = self.home / str(len(given))
            path.write_text(f"{word}\n", encoding="utf-8")
            given.append(f"@{path}" if may_refer(name) else word)
        return given
