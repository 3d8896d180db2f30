"""The input of a service, however it is cut, and where it ends."""
from __future__ import annotations

import os

from ..support.service.client import payments, refusal
from ..support.service.service import PACKETS, PLAIN, How, Pipes, cuts
from ..support.service.service_case import (
    IN_A_FRAME, ON_BANK, READ_FAILED, TOO_LONG, ServiceCase, answers_to, frames_of, stream_of)

# How many reads a run makes at most, the one that finds the end among them.
READS = 1_000_000


class EndOfInput(ServiceCase):
    """The input ends, or what comes is no frame: all requests before are answered."""

    weight = 1

    def test_nothing(self) -> None:
        self.check(ON_BANK, (), b"")

    def test_no_frame_at_the_front(self) -> None:
        for given, fault in ((b"\xff", IN_A_FRAME), (b"\x00", IN_A_FRAME), (b"\x00\x3f", TOO_LONG),
                             (b"\x01\x00", TOO_LONG), (b"\xff\xff", TOO_LONG),
                             (b"\x00\x3e" + bytes(61), IN_A_FRAME)):
            self.check(ON_BANK, [given], b"", fault, what=given.hex())

    def test_closed_in_a_frame(self) -> None:
        """At each place of the third request."""
        two, third = payments(3)[:2], payments(3)[2].frame
        for cut in range(1, len(third)):
            given = stream_of(two) + third[:cut]
            self.check(ON_BANK, [given], answers_to(two), IN_A_FRAME, what=f"{cut} bytes of it")

    def test_too_long_behind_requests(self) -> None:
        two, third = payments(3)[:2], payments(3)[2].frame
        for length in (b"\xff\x00", b"\x01\x00", b"\x00\x3f"):
            given = stream_of(two) + length + third
            self.check(ON_BANK, [given], answers_to(two), TOO_LONG, what=length.hex())

    def test_a_read_that_fails(self) -> None:
        """A folder can be opened and not read."""
        folder = os.open(self.home, os.O_RDONLY)
        self.addCleanup(os.close, folder)
        self.check(ON_BANK, (), b"", READ_FAILED, how=How(given=folder))


class Pieces(ServiceCase):
    """The answers are the same, in whatever pieces the input comes."""

    weight = 2
    sizes = (1, 2, 7, 30, 50, 100, 300, 1000)

    def test_each_place_of_two_reads(self) -> None:
        two = payments(3)[:2]
        stream = stream_of(two) + payments(3)[2].frame[:20]
        for at in range(len(stream) + 1):
            pieces = [piece for piece in (stream[:at], stream[at:]) if piece]
            self.check(ON_BANK, pieces, answers_to(two), IN_A_FRAME, PACKETS, f"cut at {at}")

    def test_each_byte_a_read(self) -> None:
        three = payments(3)
        for behind, fault in ((b"", ""), (three[0].frame[:10], IN_A_FRAME)):
            pieces = [bytes([byte]) for byte in stream_of(three) + behind]
            self.check(ON_BANK, pieces, answers_to(three), fault, PACKETS)

    def test_reads_of_any_size(self) -> None:
        self.try_sizes(PACKETS)

    def test_pipes(self) -> None:
        self.try_sizes(PLAIN)

    def try_sizes(self, how: How) -> None:
        for most in self.sizes:
            requests = self.mixed(90)
            stream, answers = stream_of(requests), answers_to(requests)
            what = f"{how.pipes.value}: pieces of 1 to {most} bytes"
            self.check(ON_BANK, cuts(stream, self.chance, most), answers, "", how, what)
            pieces = cuts(stream + b"\x01\x00" + stream, self.chance, most)
            self.check(ON_BANK, pieces, answers, TOO_LONG, how, what)
            pieces = cuts(stream + requests[0].frame[:-1], self.chance, most)
            self.check(ON_BANK, pieces, answers, IN_A_FRAME, how, what)

    def test_one_answer_for_each_read(self) -> None:
        """Each answer comes before the next request is given."""
        requests = self.mixed(90)
        service = self.start(*ON_BANK, how=How(Pipes.NARROW))
        service.ask(frames_of(requests))
        self.assertEqual(bytes(service.collected), answers_to(requests), "before the input ends")
        self.assert_output(service.end(), answers_to(requests), "", "one request after another")


class ManyReads(ServiceCase):
    """A run makes a million reads, the one that finds the end among them."""

    weight = 5

    def test_one_to_spare(self) -> None:
        """The input ends behind a frame, and the last read but one finds that."""
        self.try_reads(READS - 2, "")

    def test_as_many_as_there_are(self) -> None:
        self.try_reads(READS - 1, IN_A_FRAME)

    def test_one_too_many(self) -> None:
        self.try_reads(READS, READ_FAILED)

    def try_reads(self, count: int, fault: str) -> None:
        """Two zeros are an empty frame."""
        zero = b"\x00"
        pieces = (zero for _ in range(count))
        self.check(ON_BANK, pieces, refusal(bytes(10), 1) * (count // 2), fault, PACKETS)
