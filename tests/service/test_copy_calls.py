"""The calls by which a log is copied, as the system sees them: their order, and each one that fails
or in which the script is killed."""
from __future__ import annotations

import itertools
import os
import re
import shutil
import signal
import subprocess
import sys
from dataclasses import dataclass
from typing import Iterator, Sequence

from ..support.case import Case
from ..support.formats.log_file import log_image
from ..support.program import SECONDS, Ended
from ..support.service.client import payments
from ..support.service.service_case import numbers_of
from .test_deployment import COPY

# One line of strace: the call, its arguments, what it gave, and whether strace made it fail.
LINE = re.compile(r"^(\w+)\((.*)\) += (-?\d+|\?)(.*)$", re.MULTILINE)
CALLS = ("openat", "flock", "read", "fchown", "write", "fsync", "link", "unlink")
WAYS = re.compile(r"O_(?:RDONLY|WRONLY|RDWR|CREAT|EXCL|TRUNC|APPEND)")
PATHS = re.compile(r'"([^"]*)"')
OUTPUT = "write(the output)"


@dataclass(frozen=True)
class Call:
    """A call of the script."""

    name: str
    # Which one of its name it is, as strace counts those of the process, from 1.
    count: int
    step: str
    # How many bytes it read or wrote.
    size: int
    is_changed: bool


class CopyCalls(Case):
    def setUp(self) -> None:
        super().setUp()
        self.home = self.folder().resolve()
        self.old, self.new = self.home / "old", self.home / "new"
        self.used = numbers_of(payments(3))

    def make_old(self, room: int = 5) -> None:
        self.image = log_image(self.used, room)
        self.old.write_bytes(self.image)
        self.said = f"{self.new}: 3 numbers, and room for {room - 3} more\n".encode()

    def traced(self, *changes: str) -> tuple[Ended, list[Call]]:
        """How a copy ends in which strace makes these changes, and its calls."""
        strace = shutil.which("strace")
        self.assertIsNotNone(strace, "strace is not installed: apt-get install strace")
        trace = self.folder() / "trace"
        options = itertools.chain(*(("-e", it) for it in (f"trace={','.join(CALLS)}", *changes)))
        words = [strace or "", "-o", trace, *options,
                 sys.executable, "-ISB", COPY, self.old, self.new]
        done = subprocess.run(words, capture_output=True, timeout=SECONDS, check=False)
        self.assertEqual(self.old.read_bytes(), self.image, "the log is left as it is")
        calls = list(self.calls(trace.read_text()))
        return Ended(done.returncode, done.stdout, done.stderr), calls

    # What a trace says

    def calls(self, trace: str) -> Iterator[Call]:
        """The calls from the one that opens the log."""
        counts, files = dict.fromkeys(CALLS, 0), {"1": "the output"}
        is_open = False
        for name, words, gave, more in LINE.findall(trace):
            counts[name] += 1
            paths = PATHS.findall(words) if name in ("openat", "link", "unlink") else []
            is_open = is_open or paths == [str(self.old)]
            if name == "openat":
                files[gave] = self.named(paths[0])
            if is_open:
                step = f"{name}({', '.join(self.arguments(name, words, paths, files))})"
                size = int(gave) if name in ("read", "write") and gave.isdigit() else 0
                yield Call(name, counts[name], step, size, more.endswith("(INJECTED)"))

    def arguments(
        self, name: str, words: str, paths: Sequence[str], files: dict[str, str]
    ) -> list[str]:
        """The arguments of a call, without what it reads or writes."""
        file, *others = words.split(", ")
        if name == "openat":
            return [self.named(paths[0]), "|".join(WAYS.findall(words))]
        if paths:
            return [self.named(it) for it in paths]
        return [files.get(file, file), *(others if name == "flock" else [])]

    def named(self, path: str) -> str:
        """A file in the folder. Until it has the name of the copy, it has a random one."""
        parent, name = os.path.split(path)
        if path == str(self.home):
            return "the folder"
        if parent == str(self.home):
            return "beside" if name.startswith("new.") else name
        return path

    def left(self) -> list[str]:
        """What is in the folder, the log apart."""
        return sorted(self.named(str(it)) for it in self.home.iterdir() if it != self.old)

    # The tests

    def test_calls(self) -> None:
        """The whole log is read. The copy is a new file, which is synced and read back before it has
        its name. Its folder is synced before anything is said."""
        for room in (5, 3000):
            self.make_old(room)
            ended, calls = self.traced()
            self.assertEqual(ended, Ended(0, self.said, b""))
            self.assertEqual(steps_of(calls), [
                "openat(old, O_RDONLY)",
                "flock(old, LOCK_EX|LOCK_NB)",
                f"read(old): {len(self.image)} bytes",
                "openat(beside, O_RDWR|O_CREAT|O_EXCL)",
                "fchown(beside)",
                f"write(beside): {len(self.image)} bytes",
                "fsync(beside)",
                f"read(beside): {len(self.image)} bytes",
                "link(beside, new)",
                "unlink(beside)",
                "openat(the folder, O_RDONLY)",
                "fsync(the folder)",
                f"{OUTPUT}: {len(self.said)} bytes",
            ])
            self.assertTrue(self.clear())

    def test_each_call_that_fails(self) -> None:
        """Then there is no copy, and a line says why."""
        self.make_old()
        for call in self.all_calls():
            if call.step == OUTPUT:
                continue
            ended, calls = self.traced(f"inject={call.name}:error=EIO:when={call.count}")
            self.assertEqual([it.step for it in calls if it.is_changed], [call.step])
            if call.step == "unlink(beside)":
                # The copy is good, and has a second name.
                self.assertEqual(ended, Ended(0, self.said, b""))
                self.assertEqual(self.left(), ["beside", "new"])
            else:
                self.assertEqual((ended.status, ended.output, self.left()), (1, b"", []), call.step)
                self.assertRegex(ended.faults, rb"\Adukpt-copy-log: .+\n\Z", call.step)
            self.clear()

    def test_a_line_that_is_lost(self) -> None:
        """The copy is good, and the status is not that of success."""
        self.make_old()
        with open("/dev/full", "wb") as full:
            done = subprocess.run([COPY, self.old, self.new], stdout=full, stderr=subprocess.PIPE,
                                  timeout=SECONDS, check=False)
        self.assertNotEqual(done.returncode, 0)
        self.assertTrue(self.clear())

    def test_killed_in_each_call(self) -> None:
        """No copy has its name before it is whole."""
        self.make_old()
        for call in self.all_calls():
            ended, calls = self.traced(f"inject={call.name}:signal=KILL:when={call.count}")
            self.assertEqual((ended.status, calls[-1].step), (-signal.SIGKILL, call.step))
            is_named = self.clear()
            if call.name != "link":
                self.assertEqual(is_named, "link(beside, new)" in [it.step for it in calls])

    def all_calls(self) -> list[Call]:
        """The calls of a copy where nothing fails, which is removed again."""
        calls = self.traced()[1]
        self.assertTrue(self.clear())
        return calls

    def clear(self) -> bool:
        """Removes all but the log, and answers whether there was a copy, which has to be whole."""
        is_named = self.new.exists()
        if is_named:
            self.assertEqual(self.new.read_bytes(), self.image)
        for it in self.home.iterdir():
            if it != self.old:
                it.unlink()
        return is_named

    def test_the_folder_of_a_link(self) -> None:
        """The folder that is synced is the one in which the copy stands, however it is named."""
        far = self.folder().resolve()
        (far / "deep").mkdir()
        (self.home / "link").symlink_to(far / "deep")
        self.new = self.home / "link" / ".." / "new"
        self.make_old()
        ended, calls = self.traced()
        self.assertEqual(ended, Ended(0, self.said, b""))
        self.assertEqual((far / "new").read_bytes(), self.image)
        self.assertEqual(sorted(it.name for it in far.iterdir()), ["deep", "new"])
        self.assertEqual(self.left(), ["link"])
        steps = [it.step for it in calls]
        self.assertEqual(steps[-3:-1], [f"openat({far}, O_RDONLY)", f"fsync({far})"])


def steps_of(calls: Sequence[Call]) -> list[str]:
    """Reads and writes of one file that follow each other are one step, of all their bytes."""
    steps = []
    for step, group in itertools.groupby(calls, key=lambda it: it.step):
        same = list(group)
        if same[0].name in ("read", "write"):
            steps.append(f"{step}: {sum(it.size for it in same)} bytes")
        else:
            steps += [step] * len(same)
    return steps
