"""The library's calls over many terminals at once: each place of a group, groups of each length.

Keys are compared with the standards' values, with the bench's own ciphers, and by a million with
libcrypto.
"""
from __future__ import annotations

import ctypes
import random
import subprocess
from typing import Sequence

from ..support.library.call_cases import Argument, Chance, Drawn, derive_many
from ..support.library.call_cases_of_texts import check_requests
from ..support.library.library import built_library, program
from ..support.library.library_values import KEY, KSN, ROOM, STATUS, number, parts
from ..support.standards.dukpt import derive
from ..vectors.test_ciphers import BASE, vectors
from .test_library_c import LibraryCase

# A group of 128 terminals, and two more.
MOST = 130
# How many keys are compared with libcrypto, by how many processes.
KEYS, PROCESSES = 1_000_000, 4


class Sized(Chance):
    """Draws calls over so many terminals each."""

    def __init__(self, chance: random.Random, sizes: Sequence[int]) -> None:
        super().__init__(chance)
        self.sizes = sizes

    def group_sizes(self, count: int) -> list[int]:
        return list(self.sizes)


class Groups(LibraryCase):
    weight = 20

    def setUp(self) -> None:
        super().setUp()
        self.library = ctypes.CDLL(str(built_library() / "libdukpt.so.0"))

    def call(self, name: str, bdk: bytes, given: bytes, size: int) -> bytes:
        """What a call writes that gives so many bytes."""
        made = ctypes.create_string_buffer(size)
        words = [word for it in (bdk, given) for word in (it, ctypes.c_size_t(len(it)))]
        status = getattr(self.library, name)(*words, made, ctypes.c_size_t(size))
        self.assertEqual(status, 0)
        return made.raw

    def derived(self, bdk: bytes, ksns: Sequence[bytes]) -> list[bytes]:
        made = self.call("dukpt_derive_many", bdk, b"".join(ksns), KEY * len(ksns))
        return parts(made, KEY)

    def one_by_one(self, bdk: bytes, ksns: Sequence[bytes]) -> list[bytes]:
        return [self.call("dukpt_derive", bdk, ksn, KEY) for ksn in ksns]

    def test_vectors_at_each_place(self) -> None:
        """The standard's keys, each at each place of two groups, among others at random."""
        rows = [(bytes.fromhex(ksn), bytes.fromhex(key)) for ksn, key in vectors("dukpt.txt")]
        for ksn, key in rows:
            others = list(map(bytes, parts(self.chance.randbytes(KSN * MOST), KSN)))
            wanted = self.one_by_one(BASE, others)
            for place in range(MOST):
                found = self.derived(BASE, [*others[:place], ksn, *others[place + 1 :]])
                self.assertEqual(found, [*wanted[:place], key, *wanted[place + 1 :]], (ksn, place))
        together = self.derived(BASE, [ksn for ksn, _ in rows])
        self.assertEqual(together, [key for _, key in rows])
        self.tells(f"{len(rows)} keys at {MOST} places")

    def test_each_length(self) -> None:
        """Groups of each length, by the ciphers of the bench."""
        sizes = range(MOST + 1)
        for drawn in derive_many(Sized(self.chance, sizes), len(sizes)):
            self.check("dukpt_derive_many", drawn, KEY, KSN)
        for drawn in check_requests(Sized(self.chance, sizes), len(sizes)):
            self.check("dukpt_check_requests", drawn, 1, ROOM)

    def check(self, name: str, drawn: Drawn, size: int, each: int) -> None:
        (bdk, given, _), _, (wanted,) = drawn
        found = self.call(name, octets(bdk), octets(given), size * (len(octets(given)) // each))
        self.assertEqual(found, wanted, f"{name}({octets(bdk).hex()}, {octets(given).hex()})")

    def test_requests_at_each_place(self) -> None:
        """A request at each place whose MAC has one bit that is another one, among right ones."""
        bdk, places, results = self.right_requests()
        self.assertEqual(self.call("dukpt_check_requests", bdk, b"".join(places), MOST), results)
        for at, place in enumerate(places):
            end = 2 + number(place[:2])
            spot = end - 1 - self.chance.randrange(8)
            bit = 1 << self.chance.randrange(8)
            other = place[:spot] + bytes([place[spot] ^ bit]) + place[spot + 1 :]
            told = self.call("dukpt_check_requests", bdk,
                             b"".join([*places[:at], other, *places[at + 1 :]]), MOST)
            self.assertEqual(told, results[:at] + bytes([STATUS["BadMac"]]) + results[at + 1 :], at)

    def right_requests(self) -> tuple[bytes, list[bytes], bytes]:
        """Requests that are right, and what is told of them: nothing."""
        drawn = check_requests(Sized(self.chance, [3 * MOST]), 1)
        ((bdk, given, _), _, (told,)), = drawn
        rows = zip(parts(octets(given), ROOM), octets(told))
        right = [place for place, result in rows if result == 0][:MOST]
        self.assertEqual(len(right), MOST)
        return octets(bdk), right, bytes(MOST)

    def test_alone(self) -> None:
        """The bench's plain ciphers, one key at a time."""
        ksns = list(map(bytes, parts(self.chance.randbytes(KSN * 20), KSN)))
        self.assertEqual(self.derived(BASE, ksns), [derive(BASE, number(ksn)) for ksn in ksns])


def octets(value: Argument) -> bytes:
    assert isinstance(value, bytes)
    return value


class Many(LibraryCase):
    """Random keys beside libcrypto."""

    weight = 10

    def test_keys(self) -> None:
        tried = program("many", self.folder())
        each = KEYS * self.times // PROCESSES
        running = [subprocess.Popen([tried, self.seed_word(), str(each)], stdout=subprocess.PIPE,
                                    text=True) for _ in range(PROCESSES)]
        found = [process.communicate()[0].split() for process in running]
        self.assertEqual([process.returncode for process in running], [0] * PROCESSES, found)
        self.assertEqual([(word, others) for word, _, others in found], [("done", "0")] * PROCESSES)
        count = sum(int(keys) for _, keys, _ in found)
        self.assertGreaterEqual(count, KEYS * self.times)
        self.tells(f"{count:,} keys")

    def test_planted(self) -> None:
        """A bit of one key that is another one is found."""
        tried = program("many", self.folder())
        for keys in ("1", "1000"):
            done = subprocess.run([tried, self.seed_word(), keys, "planted"], capture_output=True,
                                  text=True, check=True)
            self.assertEqual(done.stdout.split()[2], "1")
