"""The input of a service over a journal: however it is cut, and wherever it ends, the answers are
the same. How it is grouped is seen in the journal."""
from __future__ import annotations

import itertools
import os

from ..support.formats.checked_journal import blank
from ..support.formats.journal_file import groups_in, records_for
from ..support.models.model_journal import MOST_FRAMES, READ, answers_of, judged, payments_of_all
from ..support.service.client import Exchange, payments, refusal, refused_requests
from ..support.service.journal_case import ON_JOURNAL, JournalCase, frames_of, stream_of
from ..support.service.service import NARROW, PACKETS, PLAIN, How, cuts
from ..support.service.service_case import (
    IN_A_FRAME, READ_FAILED, TOO_LONG, WRITE_FAILED, answers_to, numbers_of)

# A run over a log ends behind so many reads.
READS = 1_000_000


class EndOfInput(JournalCase):
    """The input ends, or what comes is no frame: all requests before are kept and answered."""

    def test_closed_in_a_frame(self) -> None:
        """At each place of the third request; the two before are one group."""
        two, third = payments(3)[:2], payments(3)[2].frame
        for cut in range(1, len(third)):
            self.make_room(4)
            self.check_file(two, third[:cut], IN_A_FRAME, what=f"{cut} bytes of it")

    def test_no_frame(self) -> None:
        """At the front, and behind requests, in the same read and in a later one."""
        for given, fault in ((b"\xff", IN_A_FRAME), (b"\x00", IN_A_FRAME), (b"\x00\x3f", TOO_LONG),
                             (b"\x01\x00", TOO_LONG), (b"\xff\xff", TOO_LONG),
                             (b"\x00\x3e" + bytes(61), IN_A_FRAME), (b"\x00\x3f" * 9, TOO_LONG)):
            for count in (0, 1, 1500):
                self.make_room(1500)
                what = f"{given.hex()} behind {count} requests"
                self.check_file(payments(count), given, fault, what=what)

    def test_requests_behind_what_is_no_frame(self) -> None:
        """They are neither answered nor kept."""
        requests = payments(9)
        self.make_room(9)
        self.check_file(requests[:3], b"\x00\x3f" + stream_of(requests[3:]), TOO_LONG)
        self.assertEqual(len(self.kept()), 3)

    def test_a_read_that_fails(self) -> None:
        """A folder can be opened and not read. What was read before is kept."""
        folder = os.open(self.home, os.O_RDONLY)
        self.addCleanup(os.close, folder)
        self.make_room(2)
        self.check(ON_JOURNAL, (), b"", READ_FAILED, how=How(given=folder))
        self.assert_bytes(blank(records_for(2)), "nothing was read")


class Pieces(JournalCase):
    """Each cut of a stream, by a socket that keeps pieces apart, and by pipes."""

    weight = 3

    def test_each_place_of_two_reads(self) -> None:
        """A read that ends two requests keeps them as a group; one that ends one keeps it alone."""
        requests = payments(3)
        stream = stream_of(requests)
        for at in range(1, len(stream)):
            self.make_room(4)
            pieces = [stream[:at], stream[at:]]
            self.check_run(requests, pieces, how=PACKETS, what=f"cut at {at}")
            first = sum(len(stream_of(requests[: count + 1])) <= at for count in range(3))
            sizes = [len(it) for it in groups_in(self.journal.read_bytes())]
            self.assertEqual(sizes, [it for it in (first, 3 - first) if it], f"cut at {at}")

    def test_each_byte_a_read(self) -> None:
        requests = [*payments(3), payments(1)[0]]
        for behind, fault in ((b"", ""), (requests[0].frame[:10], IN_A_FRAME)):
            self.make_room(4)
            pieces = [bytes([byte]) for byte in stream_of(requests) + behind]
            self.check_run(requests, pieces, fault=fault, how=PACKETS, what="each byte a read")
            self.assertEqual([len(it) for it in groups_in(self.journal.read_bytes())], [1, 1, 1])

    def test_packets_of_requests(self) -> None:
        """Each packet is a group, if it has a payment that is new."""
        for most in (1, 3, 40, 200):
            requests, packets = self.any_order(300), []
            while requests:
                count = self.chance.randint(1, most)
                packets.append(requests[:count])
                requests = requests[count:]
            self.make_room(290)
            self.check_packets(packets, f"packets of 1 to {most}")

    def test_any_pieces(self) -> None:
        for how in (PACKETS, PLAIN, NARROW):
            for most in (1, 7, 50, 300, 5000):
                self.make_room(250)
                requests = self.any_order(260)
                behind, fault = self.chance.choice(
                    ((b"", ""), (b"\x01\x00" + requests[0].frame, TOO_LONG),
                     (requests[0].frame[:-1], IN_A_FRAME)))
                pieces = cuts(stream_of(requests) + behind, self.chance, most)
                what = f"{how.pipes.value}: pieces of 1 to {most} bytes"
                self.check_run(requests, pieces, fault=fault, how=how, what=what)

    def test_one_answer_for_each_read(self) -> None:
        """Each answer comes before the next request is given, and then the request is kept."""
        requests = self.mixed(90)
        self.make_room(90)
        service = self.start(*ON_JOURNAL, how=NARROW)
        for it in requests:
            before = len(self.kept())
            service.ask([it.frame])
            self.assertLessEqual(len(self.kept()) - before, 1)
        wanted = answers_of(judged(requests, [], records_for(90)))
        self.assert_output(service.end(), wanted, "", "one request after another")
        self.assertEqual([len(it) for it in groups_in(self.journal.read_bytes())], [1] * 90)


class Groups(JournalCase):
    """Groups of the most frames, and reads of the most bytes."""

    weight = 3

    def test_sizes(self) -> None:
        """Of requests in a file each group is known to the byte: a read has more than 1,024 of
        them, and ends in the midst of one."""
        per_read = READ // len(payments(1)[0].frame)
        self.assertGreater(per_read, MOST_FRAMES)
        for count in (1, 2, MOST_FRAMES - 1, MOST_FRAMES, MOST_FRAMES + 1, per_read, per_read + 1,
                      per_read + MOST_FRAMES, 2 * per_read + 1, 5000):
            self.make_room(count)
            self.check_file(payments(count), what=f"{count} requests")
            sizes = [len(it) for it in groups_in(self.journal.read_bytes())]
            self.assertEqual(sizes[0], min(count, MOST_FRAMES))
            self.check_file(payments(count), what=f"{count} requests again")

    def test_more_than_there_is_room_for(self) -> None:
        """The room ends anywhere in a group, and at the border of one."""
        for room in (1, 700, MOST_FRAMES - 1, MOST_FRAMES, MOST_FRAMES + 1, 1365, 1366, 2999):
            self.make_room(room)
            self.check_file(payments(3000), what=f"room for {room}")
            self.assertEqual(len(self.kept()), room)

    def test_short_frames(self) -> None:
        """A read may end thirty thousand frames, and they are judged by 1,024."""
        requests = list(payments(40))
        empty = refused_requests()[0]
        self.assertEqual(empty.frame, b"\x00\x00")
        for before in (0, 1000, 1023, 1024, 5000, 40_000):
            self.make_room(40)
            self.check_file([empty] * before + requests, what=f"{before} empty frames before")
            spread = [it for request in requests for it in (*[empty] * (before // 40), request)]
            self.make_room(40)
            self.check_file(spread, what=f"{before} empty frames between")

    def test_mixed(self) -> None:
        for count in (500, 4000):
            requests = self.any_order(count)
            self.make_room(count - 20)
            self.check_file(requests, what=f"{len(requests)} frames")
            self.check_file(requests, what=f"{len(requests)} frames again")


class LostOutput(JournalCase):
    """An output that takes nothing ends the service; the group is kept, and the next run answers."""

    def test_a_full_device(self) -> None:
        requests = payments(20)
        self.make_room(30)
        with open("/dev/full", "wb") as full:
            ended = self.serve_file(stream_of(requests), how=How(taken=full.fileno()))
        self.assert_output(ended, b"", WRITE_FAILED, "an output that takes nothing")
        self.assertEqual(len(self.kept()), 20)
        self.check_file(requests, what="behind an output that takes nothing")

    def test_closed_early(self) -> None:
        """It is reported as a failed write, and ends nothing by a signal."""
        requests = payments(40)
        for ignored in (True, False):
            self.make_room(40)
            service = self.start(*ON_JOURNAL, how=How(ignores_pipe_signal=ignored))
            service.ask(frames_of(requests[:9]))
            service.close_output()
            service.talk([stream_of(requests[9:])])
            self.assert_output(service.end(), answers_to(requests[:9]), WRITE_FAILED, "closed")
            kept = [it.serial.to_bytes(10, "big") for it in self.kept()]
            self.assertEqual(kept, numbers_of(requests)[: len(kept)])
            self.assertGreater(len(kept), 9)
            self.check_file(requests, what="behind an output that was closed")


class ManyReads(JournalCase):
    """There is no end of a run's reads, as a run over a log has after a million."""

    weight = 8

    def test_more_than_a_million(self) -> None:
        """Each byte of many malformed frames is a read, and behind them a payment is kept as ever."""
        malformed = Exchange(b"\x00\x3e" + bytes(62), refusal(bytes(10), 1))
        count, first = READS // len(malformed.frame) + 1, payments(1)[0]
        pieces = (bytes([byte]) for byte in malformed.frame * count)
        self.make_room(1)
        service = self.start(*ON_JOURNAL, how=PACKETS)
        service.talk(itertools.chain(pieces, [first.frame, b"\x00"]))
        wanted = malformed.answer * count + first.answer
        self.assert_output(service.end(), wanted, IN_A_FRAME, "many reads")
        self.assert_payments(payments_of_all([first]), "behind many reads")
