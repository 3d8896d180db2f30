"""The commands of every day where standard output or standard error takes nothing, or no more."""
from __future__ import annotations

import subprocess

from ..support.case import ProgramCase
from ..support.commands.everyday_rows import BASE, INITIAL, RIGHT, SERIAL
from ..support.commands.everyday_words import expected
from ..support.program import SECONDS, Ended, Limits, spoken

# Words whose output has many lines, or is the longest.
LONG = (["registers", BASE, SERIAL], ["derive", INITIAL, "FFFF9876543210EFF800", "--initial", "--trace",
                                      "--all"], ["kcv", *[BASE] * 16, "--components", "--show"])
WRITERS = (*RIGHT.values(), *LONG)
LOST = b"write failed\n"


class LostOutput(ProgramCase):
    """What cannot be written is reported, and what was written is the front of the output."""

    weight = 5

    def setUp(self) -> None:
        super().setUp()
        self.home = self.folder()

    def test_a_full_device(self) -> None:
        with open("/dev/full", "wb") as full:
            for words in WRITERS:
                ended = self.program.run(*words, output=full.fileno())
                self.assert_ended(ended, 1, b"", LOST, f"{spoken(words)} >/dev/full")

    def test_at_each_byte(self) -> None:
        """Of each command, but of long outputs some places alone."""
        path = self.home / "output"
        for words in WRITERS:
            wanted = expected(words).output
            rooms = range(len(wanted) + 2)
            if len(wanted) > 60:
                # The ends of lines, the last byte, and some others.
                rooms = sorted({0, 1, len(wanted) - 1, len(wanted), wanted.index(b"\n"),
                                wanted.index(b"\n") + 1, *self.chance.sample(rooms, 12)})
            for room in rooms:
                with open(path, "wb") as output:
                    ended = self.program.run(*words, output=output.fileno(),
                                             limits=Limits(file_size=room))
                is_cut = room < len(wanted)
                self.assert_ended(ended, int(is_cut), b"", LOST if is_cut else b"",
                                  f"{spoken(words)} with room for {room} bytes")
                self.assertEqual(path.read_bytes(), wanted[:room], spoken(words))

    def in_bash(self, words: list[str], rest: str) -> Ended:
        done = subprocess.run(["bash", "-c", f'exec "$0" "$@" {rest}', str(self.program.path), *words],
                              capture_output=True, check=False, timeout=SECONDS, cwd=self.home)
        return Ended(done.returncode, done.stdout, done.stderr)

    def test_a_closed_output(self) -> None:
        """Nobody takes it for a file that is opened later: a secret is read, and never written to."""
        (self.home / "it").write_text(f"{BASE}\n")
        for words in (*WRITERS, ["derive", "@it", SERIAL]):
            self.assert_ended(self.in_bash(words, ">&-"), 1, b"", LOST, f"{spoken(words)} >&-")
        self.assertEqual((self.home / "it").read_text(), f"{BASE}\n")

    def test_closed_faults(self) -> None:
        """Without standard error the status is the same, and so is the output."""
        (self.home / "it").write_text(f"{BASE}\n")
        for words in (*WRITERS, ["derive", "@it", SERIAL]):
            wanted = expected(words, {"it": f"{BASE}\n".encode()})
            self.assertEqual(self.in_bash(words, "2>&-"), Ended(0, wanted.output, b""), words)
        for words, status in ((["kcv", "x"], 1), (["kcv", "@missing"], 1), (["kcv"], 2)):
            self.assertEqual(self.in_bash(words, "2>&-"), Ended(status, b"", b""), words)
            self.assertEqual(self.in_bash(words, "2>/dev/full"), Ended(status, b"", b""), words)
            self.assertEqual(self.in_bash(words, ">&- 2>&-"), Ended(status, b"", b""), words)
        self.assertEqual((self.home / "it").read_text(), f"{BASE}\n")

    def test_faults_before_output(self) -> None:
        """Where there is a fault nothing is written, so a device that is full is not noticed."""
        with open("/dev/full", "wb") as full:
            for words, fault in ((["unpin", "041274EDCBA9876E", "4012345678909"], b"NotAPinBlock\n"),
                                 (["kcv", BASE, "x"], b"key refused\n"),
                                 (["kcv", "@missing"], b"KEY: cannot read\n")):
                ended = self.program.run(*words, output=full.fileno())
                self.assert_ended(ended, 1, b"", fault, f"{spoken(words)} >/dev/full")
