"""Eight example terminals at once over one image, in each language: they take turns, so that each
number is used once and none is lost. Without the lock this is found."""
from __future__ import annotations

import subprocess
import threading
from typing import IO

from ..support.formats.frames import serial_in
from ..support.formats.images import image_of
from ..support.library.example_programs import (
    EXAMPLES, SECONDS, ExampleCase, InC, InPython, InRust, known)
from ..support.library.terminal_book import Approved, read_book_file
from ..support.standards import many
from ..support.standards.dukpt import next_counter, registers_at
from ..vectors.test_ciphers import IKSN
from . import test_library_terminal as alone

TERMINALS, PURCHASES = 8, 200
# What is left out in a copy of the example.
LOCK = "        fcntl.flock(lock, fcntl.LOCK_EX)\n"
# What stands in its place: whoever asks has the lock at once, and lets the others run.
UNLOCKED = "        __import__('time').sleep(0.003)\n"
NO_LOCK = """#include <unistd.h>
int __wrap_flock(int file, int how);
int __wrap_flock(int file, int how)
{
    usleep(3000);
    return (void)file, (void)how, 0;
}
"""


def numbers_in_turn(count: int) -> list[int]:
    """The first so many numbers of a terminal."""
    counters = [1]
    while len(counters) < count:
        counters.append(next_counter(counters[-1]))
    return [IKSN + counter for counter in counters]


class Host:
    """Answers each purchase of a terminal with its approval, as long as there is one for it."""

    def __init__(self, replies: dict[int, bytes]) -> None:
        self.replies = replies
        self.frames: list[bytes] = []

    def serve(self, given: IO[bytes], taken: IO[bytes]) -> None:
        with given, taken:
            while len(front := given.read(2)) == 2:
                frame = front + given.read(int.from_bytes(front, "big"))
                self.frames.append(frame)
                answer = self.replies.get(serial_in(frame))
                if answer is None:
                    return
                taken.write(answer)
                taken.flush()


class AtOnce:
    def test_at_once(self: ExampleCase) -> None:
        self.run_at_once(PURCHASES)

    def run_at_once(self: ExampleCase, purchases: int) -> None:
        """That eight terminals pay so often each, over an image that none of them has yet."""
        numbers = numbers_in_turn(TERMINALS * purchases)
        keys = many.transaction_keys([alone.INITIAL] * len(numbers), numbers)
        replies = dict(zip(numbers, many.replies(keys, numbers, ["00"] * len(numbers))))
        hosts = [Host(replies) for _ in range(TERMINALS)]
        faults = self.pay_all(hosts, purchases)
        self.assertEqual(faults, [0] * TERMINALS, "statuses")
        self.assert_frames(hosts, numbers, keys)
        self.assert_lines(purchases)
        last = read_book_file((self.home / "image.book").read_bytes())
        self.assertIsInstance(last, Approved)
        after = next_counter(numbers[-1] - IKSN)
        self.assertEqual((self.home / "image").read_bytes(),
                         image_of(registers_at(alone.INITIAL, IKSN, after)))

    def pay_all(self: ExampleCase, hosts: list[Host], purchases: int) -> list[int]:
        """Runs the terminals, each beside its host. Each pays amounts that no other one pays."""
        running, threads = [], []
        command = self.command("terminal")
        for place, host in enumerate(hosts):
            amounts = [str(1_000_000 * place + at) for at in range(purchases)]
            with open(self.home / f"lines{place}", "wb") as lines:
                process = subprocess.Popen(
                    [*command, "image", *amounts], cwd=self.home, stdin=subprocess.PIPE,
                    stdout=subprocess.PIPE, stderr=lines, env=known())
            assert process.stdin is not None and process.stdout is not None
            running.append(process)
            threads.append(threading.Thread(target=host.serve,
                                            args=(process.stdout, process.stdin)))
            threads[-1].start()
        statuses = [process.wait(SECONDS) for process in running]
        for thread in threads:
            thread.join()
        return statuses

    def assert_frames(
        self: ExampleCase, hosts: list[Host], numbers: list[int], keys: list[bytes]
    ) -> None:
        """That the requests use each number once, and are those of the bench's own ciphers."""
        amounts = {}
        for place, host in enumerate(hosts):
            for at, frame in enumerate(host.frames):
                self.assertNotIn(serial_in(frame), amounts, "a number is used twice")
                amounts[serial_in(frame)] = 1_000_000 * place + at
        self.assertEqual(sorted(amounts), numbers, "a number is lost")
        made = many.requests(keys, numbers, [alone.PAN] * len(numbers), [alone.PIN] * len(numbers),
                             [amounts[it] for it in numbers])
        sent = {serial_in(frame): frame for host in hosts for frame in host.frames}
        self.assertEqual([sent[it] for it in numbers], made)
        payers = [amounts[it] // 1_000_000 for it in numbers]
        turns = 1 + sum(one != other for one, other in zip(payers, payers[1:]))
        self.assertGreaterEqual(turns, len(hosts))
        self.tells(f"{len(numbers)} purchases in {turns} turns")

    def assert_lines(self: ExampleCase, purchases: int) -> None:
        """That one terminal was loaded, and that each tells its own purchases as approved."""
        loaded = 0
        for place in range(TERMINALS):
            lines = (self.home / f"lines{place}").read_text().splitlines()
            loaded += f"loaded {IKSN:020X}" in lines
            paid = [int(line.split()[2]) for line in lines if line.startswith("approved ")]
            self.assertEqual(paid, [1_000_000 * place + at for at in range(purchases)])
            self.assertEqual({line.split()[0] for line in lines} - {"loaded"},
                             {"last", "number", "approved"})
        self.assertEqual(loaded, 1)


class TestC(AtOnce, InC):
    weight = 2

    def test_without_the_lock(self) -> None:
        """The same is tried where the lock is given to whoever asks: it is found."""
        shim = self.folder() / "no_lock.c"
        shim.write_text(NO_LOCK)
        self.beside = ("-Wl,--wrap=flock", shim)
        with self.assertRaises(AssertionError, msg="nothing is found"):
            self.run_at_once(PURCHASES)


class TestPython(AtOnce, InPython):
    weight = 2

    def test_without_the_lock(self) -> None:
        """The same is tried on a copy of the example that takes no lock: it is found."""
        self.sources = self.folder()
        text = (EXAMPLES / "terminal.py").read_text(encoding="utf-8")
        self.assertEqual(text.count(LOCK), 1)
        (self.sources / "terminal.py").write_text(text.replace(LOCK, UNLOCKED), encoding="utf-8")
        with self.assertRaises(AssertionError, msg="nothing is found"):
            self.run_at_once(PURCHASES)


class TestRust(AtOnce, InRust):
    weight = 2
