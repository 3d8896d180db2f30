"""The example terminal in C, Python and Rust: its frames, its lines and its files are those of the
bench's own ciphers and formats, whatever answer it gets."""
from __future__ import annotations

import os
import re
import subprocess
import tomllib
from typing import Optional, Sequence

from ..support.formats.frames import (
    framed, write_refusal, write_reply, write_request, write_reversal, write_reversal_reply)
from ..support.formats.images import image_of
from ..support.library.example_programs import ExampleCase, InC, InPython, InRust, known
from ..support.library.library import demand
from ..support.library.terminal_book import Approved, Declined, Last, Open, Undone, book_file, told
from ..support.program import ROOT
from ..support.standards.dukpt import SPENT, Registers, derive, initial_key, registers_at
from ..vectors.test_ciphers import BASE, IKSN

PAN, PIN = "4012345678909", "1234"
INITIAL = initial_key(BASE, IKSN)
# The counters of the last three numbers of a life; the last two are for reversals alone.
LAST_PURCHASE, LAST_BUT_ONE, LAST = 0x1FF200, 0x1FF400, 0x1FF800
LARGEST = (1 << 32) - 1


def key_of(counter: int) -> bytes:
    return derive(BASE, IKSN + counter)


def request(counter: int, amount: int) -> bytes:
    return write_request(key_of(counter), IKSN + counter, PAN, PIN, amount)


def reply(counter: int, code: str = "00") -> bytes:
    return write_reply(key_of(counter), IKSN + counter, code)


def reversal(counter: int, other: int) -> bytes:
    return write_reversal(key_of(counter), IKSN + counter, IKSN + other)


def undone(counter: int, other: int, state: int = 1) -> bytes:
    return write_reversal_reply(key_of(counter), IKSN + counter, IKSN + other, state)


# The calls of a terminal that strace shows, and a line of it.
TRACED = ("flock", "write", "fsync", "fdatasync", "rename", "renameat", "renameat2", "ftruncate")
CALL = re.compile(r"^\d+ +(\w+)\((.*)\) += \d+$", re.MULTILINE)


def stored(name: str) -> list[str]:
    """The steps that store a file."""
    return [f"write {name}.next", f"fsync {name}.next", f"rename {name}.next to {name}", "fsync ."]


def steps_in(trace: str, home: str) -> list[str]:
    """What a terminal did to its files in a folder, and when it sent a frame and told a line."""
    found = []
    for call, words in CALL.findall(trace):
        paths = [os.path.relpath(os.path.join(home, path), home)
                 for path in re.findall(r'<([^>]*)>|"([^"]*)"', words) for path in path if path]
        if call == "write" and words.startswith("2<"):
            found.append("line")
        elif call == "write" and paths[0].startswith("pipe:"):
            # Its output, perhaps under another number.
            found.append("frame")
        elif call.startswith("rename"):
            found.append(f"rename {paths[-2]} to {paths[-1]}")
        else:
            found.append(f"{call} {paths[0]}")
    return found


class Terminal:
    """What holds of the example terminal in each language."""

    def setUp(self: ExampleCase) -> None:
        super().setUp()
        self.image, self.book = self.home / "image", self.home / "image.book"

    def keep(self: ExampleCase, counter: int, last: Optional[Last] = None) -> None:
        """Makes the files of a terminal whose next number has this counter."""
        self.image.write_bytes(image_of(registers_at(INITIAL, IKSN, counter)))
        self.image.chmod(0o600)
        if last is not None:
            self.book.write_bytes(book_file(last))
            self.book.chmod(0o600)

    def assert_kept(self: ExampleCase, counter: int, last: Optional[Last]) -> None:
        """That the files are these, and no other is there but the lock's."""
        kept = registers_at(INITIAL, IKSN, counter) if counter != SPENT else \
            Registers(IKSN, SPENT, (bytes(16),) * 21)
        self.assertEqual(self.image.read_bytes(), image_of(kept))
        names = {"image", "image.lock"}
        if last is not None:
            self.assertEqual(self.book.read_bytes(), book_file(last))
            names.add("image.book")
        self.assertEqual(set(os.listdir(self.home)), names)
        for name in names:
            self.assertEqual((self.home / name).stat().st_mode & 0o777, 0o600, name)

    def files(self: ExampleCase) -> dict[str, bytes]:
        """The files below the folder, by their paths."""
        return {str(path): path.read_bytes() if path.is_file() else b""
                for path in self.home.rglob("*")}

    def no_reply(self: ExampleCase, fault: str) -> str:
        """The line of an answer that is not the reply for this fault."""
        return f"no reply: {fault}"

    def assert_run(
        self: ExampleCase, words: Sequence[object], given: bytes, sent: bytes, lines: Sequence[str],
        status: int = 0,
    ) -> None:
        """That a run with these answers sends these frames, tells these lines and so ends."""
        done = self.run_example("terminal", "image", *map(str, words), given=given)
        self.assertEqual(done.stderr.decode().splitlines(), list(lines))
        self.assertEqual((done.stdout.hex(), done.returncode), (sent.hex(), status))

    def assert_stopped(self: ExampleCase, *words: str, given: bytes = b"") -> str:
        """That a run sends nothing, and tells one line. Gives that."""
        done = self.run_example("terminal", *words, given=given)
        lines = done.stderr.decode().splitlines()
        self.assertEqual((done.returncode, done.stdout), (1, b""), lines)
        self.assertEqual(len(lines), 1, lines)
        return lines[0]

    # Purchases

    def test_purchases(self: ExampleCase) -> None:
        """One in each start, and some in one, over one image."""
        self.assert_run([500], reply(1), request(1, 500), [
            f"loaded {IKSN:020X}", f"number {IKSN + 1:020X}", f"approved {IKSN + 1:020X} 500"])
        self.assert_kept(2, Approved(IKSN + 1, 500))
        sent = request(2, 0) + request(3, LARGEST)
        self.assert_run([0, LARGEST], reply(2) + reply(3, "51"), sent, [
            f"last approved {IKSN + 1:020X} 500",
            f"number {IKSN + 2:020X}", f"approved {IKSN + 2:020X} 0",
            f"last approved {IKSN + 2:020X} 0",
            f"number {IKSN + 3:020X}", f"declined {IKSN + 3:020X} 51"])
        self.assert_kept(4, Declined(IKSN + 3, "51"))
        self.assert_run([], b"", b"", [f"last declined {IKSN + 3:020X} 51"])
        self.assert_kept(4, Declined(IKSN + 3, "51"))

    def test_a_terminal_that_is_loaded_alone(self: ExampleCase) -> None:
        self.assert_run([], b"", b"", [f"loaded {IKSN:020X}"])
        self.assert_kept(1, None)

    def test_codes(self: ExampleCase) -> None:
        for counter, code in enumerate(("14", "30", "51", "55"), 1):
            self.keep(counter)
            self.book.unlink(missing_ok=True)
            self.assert_run([7], reply(counter, code), request(counter, 7), [
                f"number {IKSN + counter:020X}", f"declined {IKSN + counter:020X} {code}"])
            self.assert_kept(counter + 1, Declined(IKSN + counter, code))

    def test_version_1(self: ExampleCase) -> None:
        """An image of version 1 is read, and the next one is of version 2."""
        self.image.write_bytes(image_of(registers_at(INITIAL, IKSN, 0x7FE), 1))
        self.assert_run([1], reply(0x7FE), request(0x7FE, 1), [
            f"number {IKSN + 0x7FE:020X}", f"approved {IKSN + 0x7FE:020X} 1"])
        self.assert_kept(0x800, Approved(IKSN + 0x7FE, 1))

    def test_elsewhere(self: ExampleCase) -> None:
        """By its path from another folder, all files are beside the image."""
        self.keep(1)
        away = self.home / "away"
        away.mkdir()
        done = subprocess.run(
            [*self.command("terminal"), "../image", "5"], cwd=away, input=reply(1),
            capture_output=True, env=known(), check=False)
        self.assertEqual((done.returncode, done.stdout), (0, request(1, 5)), done.stderr)
        away.rmdir()
        self.assert_kept(2, Approved(IKSN + 1, 5))

    def test_the_order(self: ExampleCase) -> None:
        """The image is synced and has its name before the book is, the book before the request
        goes out, and the outcome before it is told; and all that between lock and end."""
        demand("strace")
        self.keep(2, Open(IKSN + 1, 9))
        trace = self.folder() / "trace"
        strace = ("strace", "-f", "-y", "-s", "0", "-o", str(trace),
                  "-e", f"trace={','.join(TRACED)}")
        done = self.run_example("terminal", "image", "5", given=undone(2, 1) + reply(3),
                                before=strace)
        self.assertEqual(done.returncode, 0, done.stderr)
        image, book = stored("image"), stored("image.book")
        self.assertEqual(steps_in(trace.read_text(), str(self.home)), [
            "flock image.lock", "line", *image, "line", "frame", *book, "line",
            *image, *book, "line", "frame", *book, "line"])

    # Lost replies

    def test_a_lost_reply(self: ExampleCase) -> None:
        """The purchase stays open, and is reversed at the next start, before another one."""
        for state, line in ((1, "undone"), (0, "none stands")):
            self.keep(1)
            self.book.unlink(missing_ok=True)
            self.assert_run([500], b"", request(1, 500),
                            [f"number {IKSN + 1:020X}", "no reply"], 1)
            self.assert_kept(2, Open(IKSN + 1, 500))
            self.assert_run([7], undone(2, 1, state) + reply(3), reversal(2, 1) + request(3, 7), [
                f"last open {IKSN + 1:020X} 500", f"reversing {IKSN + 2:020X} of {IKSN + 1:020X}",
                f"{line} {IKSN + 1:020X}",
                f"number {IKSN + 3:020X}", f"approved {IKSN + 3:020X} 7"])
            self.assert_kept(4, Approved(IKSN + 3, 7))

    def test_a_lost_reversal(self: ExampleCase) -> None:
        """It is made again under a further number, without a purchase too, until it has its
        reply."""
        self.keep(2, Open(IKSN + 1, 500))
        for counter in (2, 3):
            self.assert_run([], b"", reversal(counter, 1), [
                f"last open {IKSN + 1:020X} 500",
                f"reversing {IKSN + counter:020X} of {IKSN + 1:020X}", "no reply"], 1)
            self.assert_kept(counter + 1, Open(IKSN + 1, 500))
        self.assert_run([], undone(4, 1), reversal(4, 1), [
            f"last open {IKSN + 1:020X} 500", f"reversing {IKSN + 4:020X} of {IKSN + 1:020X}",
            f"undone {IKSN + 1:020X}"])
        self.assert_kept(5, Undone(IKSN + 1))
        self.assert_run([], b"", b"", [f"last undone {IKSN + 1:020X}"])

    def test_a_purchase_in_the_midst(self: ExampleCase) -> None:
        """Where one has no reply, those behind it are not begun."""
        self.keep(1)
        self.assert_run([1, 2, 3], reply(1), request(1, 1) + request(2, 2), [
            f"number {IKSN + 1:020X}", f"approved {IKSN + 1:020X} 1",
            f"last approved {IKSN + 1:020X} 1", f"number {IKSN + 2:020X}", "no reply"], 1)
        self.assert_kept(3, Open(IKSN + 2, 2))

    # Answers that are no reply

    def test_answers_to_a_request(self: ExampleCase) -> None:
        wrong_mac = bytearray(reply(1))
        wrong_mac[-1] ^= 1
        of_other_key = write_reply(key_of(2), IKSN + 1, "00")
        for answer, line in (
            (write_refusal(IKSN + 1, 5), f"refused {IKSN + 1:020X} 5"),
            (write_refusal(0, 1), f"refused {0:020X} 1"),
            (bytes(wrong_mac), self.no_reply("BadMac")),
            (of_other_key, self.no_reply("BadMac")),
            (reply(2), self.no_reply("NotMine")),
            (undone(1, 2), self.no_reply("NotAReply")),
            (request(1, 9), self.no_reply("NotAReply")),
            (framed(b""), self.no_reply("NotAReply")),
            (reply(1)[:-1], "no reply"), (reply(1)[:1], "no reply"),
            (b"\x00\x3f" + bytes(64), "no reply"),
        ):
            self.keep(1)
            self.book.unlink(missing_ok=True)
            self.assert_run([9], answer, request(1, 9), [f"number {IKSN + 1:020X}", line], 1)
            self.assert_kept(2, Open(IKSN + 1, 9))

    def test_answers_to_a_reversal(self: ExampleCase) -> None:
        wrong_mac = bytearray(undone(3, 1))
        wrong_mac[-8] ^= 0x80
        for answer, line in (
            (write_refusal(IKSN + 3, 6), f"refused {IKSN + 3:020X} 6"),
            (bytes(wrong_mac), self.no_reply("BadMac")),
            (write_reversal_reply(key_of(1), IKSN + 3, IKSN + 1, 1), self.no_reply("BadMac")),
            (undone(3, 2), self.no_reply("NotMine")), (undone(2, 1), self.no_reply("NotMine")),
            (reply(3), self.no_reply("NotAReversalReply")),
            (reply(1), self.no_reply("NotAReversalReply")),
            (undone(3, 1)[:20], "no reply"),
        ):
            self.keep(3, Open(IKSN + 1, 9))
            self.assert_run([8], answer, reversal(3, 1), [
                f"last open {IKSN + 1:020X} 9", f"reversing {IKSN + 3:020X} of {IKSN + 1:020X}",
                line], 1)
            self.assert_kept(4, Open(IKSN + 1, 9))

    def test_a_host_that_is_gone(self: ExampleCase) -> None:
        """A frame that cannot be sent has no reply."""
        self.keep(1)
        ends = os.pipe()
        os.close(ends[0])
        done = subprocess.run(
            [*self.command("terminal"), "image", "5"], cwd=self.home, stdin=subprocess.DEVNULL,
            stdout=ends[1], stderr=subprocess.PIPE, env=known(),
            check=False)
        os.close(ends[1])
        self.assertEqual(done.stderr.decode().splitlines(), [f"number {IKSN + 1:020X}", "no reply"])
        self.assertEqual(done.returncode, 1)
        self.assert_kept(2, Open(IKSN + 1, 5))

    # The end of a life

    def test_the_last_numbers(self: ExampleCase) -> None:
        """The last two are for reversals alone; behind them a purchase stays open."""
        self.keep(LAST_PURCHASE)
        self.assert_run([5], b"", request(LAST_PURCHASE, 5),
                        [f"number {IKSN + LAST_PURCHASE:020X}", "no reply"], 1)
        number = f"{IKSN + LAST_PURCHASE:020X}"
        for counter, following in ((LAST_BUT_ONE, LAST), (LAST, SPENT)):
            self.assert_run([5], b"", reversal(counter, LAST_PURCHASE), [
                f"last open {number} 5", f"reversing {IKSN + counter:020X} of {number}",
                "no reply"], 1)
            self.assert_kept(following, Open(IKSN + LAST_PURCHASE, 5))
        self.assert_fault(["5"], [f"last open {number} 5"])
        self.assert_kept(SPENT, Open(IKSN + LAST_PURCHASE, 5))

    def test_no_purchase_under_the_last_numbers(self: ExampleCase) -> None:
        for counter in (LAST_BUT_ONE, LAST):
            self.keep(counter)
            self.assert_fault(["5"], [])
            self.assert_kept(counter, None)
            self.assert_run([], b"", b"", [])

    def assert_fault(self: ExampleCase, words: Sequence[str], lines: Sequence[str]) -> None:
        """That a run sends nothing, and tells these lines and then a fault."""
        done = self.run_example("terminal", "image", *words)
        self.assertEqual(done.stderr.decode().splitlines()[:-1], list(lines))
        self.assertEqual((done.returncode, done.stdout), (1, b""))

    # What it cannot begin

    def test_damaged_images(self: ExampleCase) -> None:
        fresh = image_of(registers_at(INITIAL, IKSN, 1))
        for kept in (b"", fresh[:-1], fresh + b"\x00", b"\x03" + fresh[1:]):
            self.image.write_bytes(kept)
            self.assert_stopped("image", "5", given=reply(1))
            self.assertEqual(self.image.read_bytes(), kept)

    def test_damaged_books(self: ExampleCase) -> None:
        good = book_file(Open(IKSN + 1, 5))
        bad = [b"", good[:-1], good + b"\x00", b"\x80" + good[1:], b"\x81\x05" + good[2:],
               b"\x81\x00" + good[2:], good[:-1] + b"\x0e",
               book_file(Undone(IKSN + 1))[:-2] + b"\x01\x00",
               book_file(Declined(IKSN + 1, "14"))[:-1] + b"\x00", book_file(Open(IKSN, 5)),
               book_file(Declined(IKSN + 1, "14"))[:-1] + b"\x01",
               book_file(Approved(IKSN + 0x7FF, 5))]
        for kept in bad:
            self.keep(2)
            before = self.image.read_bytes()
            self.book.write_bytes(kept)
            self.assert_stopped("image", "5", given=reply(2))
            self.assertEqual((self.image.read_bytes(), self.book.read_bytes()), (before, kept))

    def test_a_lost_image(self: ExampleCase) -> None:
        """A terminal that had a purchase is not loaded anew: its numbers would come again."""
        self.book.write_bytes(book_file(Approved(IKSN + 1, 5)))
        self.assert_stopped("image", "5", given=reply(1))
        self.assertFalse(self.image.exists())

    def test_an_image_with_a_second_name(self: ExampleCase) -> None:
        """Under another name its numbers would come again. It is refused before anything is made."""
        self.keep(2, Open(IKSN + 1, 5))
        away = self.home / "away"
        away.mkdir()
        for make in (os.symlink, os.link):
            for other in (self.home / "other", away / "other"):
                make(self.image, other)
                there = self.files()
                line = self.assert_stopped(os.path.relpath(other, self.home), "5", given=undone(2, 1))
                self.assertIn("an image is a file with one name, and no link", line)
                self.assertEqual(self.files(), there)
                other.unlink()
        (self.home / "lost").symlink_to("nothing")
        for word in ("lost", "away", ".", "..", "/", "nowhere/image"):
            there = self.files()
            self.assert_stopped(word, "5")
            self.assertEqual(self.files(), there)

    def test_a_folder_with_a_second_name(self: ExampleCase) -> None:
        """The files are beside the image."""
        self.keep(1)
        (self.home / "away").symlink_to(".")
        done = self.run_example("terminal", "away/image", "5", given=reply(1))
        self.assertEqual((done.returncode, done.stdout), (0, request(1, 5)), done.stderr)
        (self.home / "away").unlink()
        self.assert_kept(2, Approved(IKSN + 1, 5))

    def test_words(self: ExampleCase) -> None:
        for words in ((), ("image", "x"), ("image", "-1"), ("image", "4294967296"), ("image", ""),
                      ("image", "1", "1.5"), ("image", "+1"), ("image", "9" * 30)):
            self.assert_stopped(*words)
            self.assertEqual(os.listdir(self.home), [])

    # What is stored

    def test_what_a_stop_left(self: ExampleCase) -> None:
        """It goes: what is stored is for its owner alone, and no link is followed."""
        self.keep(1)
        following = [self.home / "image.next", self.home / "image.book.next"]
        for path in following:
            path.write_bytes(bytes(500))
            path.chmod(0o644)
        self.assert_run([5], reply(1), request(1, 5), [
            f"number {IKSN + 1:020X}", f"approved {IKSN + 1:020X} 5"])
        self.assert_kept(2, Approved(IKSN + 1, 5))
        other = self.folder() / "other"
        other.write_bytes(b"")
        for path in following:
            path.symlink_to(other)
        self.assert_run([6], reply(2), request(2, 6), [
            f"last approved {IKSN + 1:020X} 5", f"number {IKSN + 2:020X}",
            f"approved {IKSN + 2:020X} 6"])
        self.assert_kept(3, Approved(IKSN + 2, 6))
        self.assertEqual(other.read_bytes(), b"")

    # What cannot be stored

    def test_an_image_that_cannot_be_stored(self: ExampleCase) -> None:
        """No request goes out, and the image is as it was."""
        for last in (None, Open(IKSN + 1, 9)):
            self.keep(3, last)
            (self.home / "image.next").mkdir(exist_ok=True)
            before = self.image.read_bytes()
            self.assert_fault(["5"], [f"last {told(last)}"] if last else [])
            self.assertEqual(self.image.read_bytes(), before)

    def test_a_book_that_cannot_be_stored(self: ExampleCase) -> None:
        """No request goes out; a reply is not told."""
        self.keep(3)
        (self.home / "image.book.next").mkdir()
        self.assert_fault(["5"], [])
        self.assertFalse(self.book.exists())
        self.keep(4, Open(IKSN + 3, 9))
        done = self.run_example("terminal", "image", given=undone(4, 3))
        self.assertEqual(done.stderr.decode().splitlines()[:-1], [
            f"last open {IKSN + 3:020X} 9", f"reversing {IKSN + 4:020X} of {IKSN + 3:020X}"])
        self.assertEqual((done.returncode, done.stdout), (1, reversal(4, 3)))
        self.assertEqual(self.book.read_bytes(), book_file(Open(IKSN + 3, 9)))


class TestC(Terminal, InC):
    def no_reply(self, fault: str) -> str:
        """C has the sentence of the fault."""
        table = tomllib.loads((ROOT / "library" / "calls.toml").read_text(encoding="utf-8"))
        return f"no reply: {table['faults'][fault][1]}"


class TestPython(Terminal, InPython):
    pass


class TestRust(Terminal, InRust):
    pass
