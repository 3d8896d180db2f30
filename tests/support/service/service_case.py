"""The base of the tests of `dukpt serve`: a folder with configurations and a log."""
from __future__ import annotations

import re
from pathlib import Path
from typing import Iterable, Iterator, Optional, Sequence

from ..case import ProgramCase
from ..formats import log_file
from ..formats.bank import BANK
from ..program import Ended, Word
from .client import KEPT, Exchange, answered, payments, refused_requests
from .service import PLAIN, How, Service

# More than any test of a log in memory has payments for, but those of many requests.
AMPLE = 100_000
ON_BANK = ("serve", "bank.toml")
ON_LOG = ("serve", "bank.toml", "--log", "log")

# What a service says as it ends.
IN_A_FRAME = "serve: input ends in a frame"
TOO_LONG = "serve: frame too long"
READ_FAILED = "serve: read failed"
WRITE_FAILED = "serve: write failed"
CANNOT_OPEN = "log: cannot open"
LOG_FAILED = "log: failed"


def with_room(configuration: bytes, room: int) -> bytes:
    """A configuration whose log in memory has room for so many numbers."""
    return re.sub(rb"(?m)^log = \d+$", b"log = %d" % room, configuration)


def frames_of(requests: Iterable[Exchange]) -> list[bytes]:
    return [it.frame for it in requests]


def stream_of(requests: Iterable[Exchange]) -> bytes:
    return b"".join(frames_of(requests))


def answers_to(
    requests: Iterable[Exchange], used: Iterable[bytes] = (), room: int = AMPLE
) -> bytes:
    return b"".join(answered(requests, used, room)[0])


def numbers_of(requests: Iterable[Exchange]) -> list[bytes]:
    return [it.number for it in requests if it.number is not None]


class ServiceCase(ProgramCase):
    """A test of a service in a folder of its own, with `bank.toml`, and `wide.toml`, which has
    more room in memory."""

    def setUp(self) -> None:
        super().setUp()
        self.home = self.folder()
        # For how many numbers the file `log` has room.
        self.room = 0
        self.write("bank.toml", BANK)
        self.write("wide.toml", with_room(BANK, AMPLE))

    def write(self, name: str, data: bytes) -> None:
        (self.home / name).write_bytes(data)

    @property
    def log(self) -> Path:
        return self.home / "log"

    def make_log(self, room: int, numbers: Sequence[bytes] = ()) -> None:
        """Makes the file `log` anew."""
        self.room = room
        log_file.make_log(self.log, room, numbers)

    # Services

    def start(self, *words: Word, how: How = PLAIN) -> Service:
        service = Service(self.program, self.home, *words, how=how)
        self.addCleanup(service.release)
        return service

    def run_service(
        self, words: Sequence[Word], pieces: Iterable[bytes], how: How = PLAIN
    ) -> Ended:
        """How a service ends that is given these pieces."""
        service = self.start(*words, how=how)
        service.talk(pieces)
        ended = service.end()
        service.release()
        return ended

    def check(
        self,
        words: Sequence[Word],
        pieces: Iterable[bytes],
        output: bytes,
        fault: str = "",
        how: How = PLAIN,
        what: str = "",
    ) -> None:
        """That a service that is given these pieces writes this, and ends with this fault."""
        self.assert_output(self.run_service(words, pieces, how), output, fault, what)

    def check_requests(
        self,
        words: Sequence[Word],
        requests: Sequence[Exchange],
        used: Sequence[bytes] = (),
        room: Optional[int] = None,
        what: str = "",
    ) -> list[bytes]:
        """That a service whose log keeps the used numbers answers each request as it should, and
        ends well. It answers the numbers that are used then; without `room` it is that of the
        file `log`."""
        answers, listed = answered(requests, used, self.room if room is None else room)
        self.check(words, [stream_of(requests)], b"".join(answers), what=what)
        return listed

    def assert_output(self, ended: Ended, output: bytes, fault: str, what: str) -> None:
        """That a run ended with this output, and with status 0; or, where a fault is named, with
        status 1 and its line."""
        faults = f"{fault}\n".encode() if fault else b""
        self.assert_ended(ended, 1 if fault else 0, output, faults, what)

    def assert_kept(self, numbers: Sequence[bytes], what: str) -> None:
        """That the log keeps these numbers and no other, in this order."""
        found = log_file.read_log(self.log, self.room)
        if found != list(numbers):
            self.fail(f"{what}: the log keeps {len(found)} numbers, and not these {len(numbers)}")

    def assert_image(self, numbers: Sequence[bytes], what: str) -> None:
        """That the log is these numbers and zeros: no stop left a part of a record behind them."""
        self.assert_kept(numbers, what)
        if self.log.read_bytes() != log_file.log_image(numbers, self.room):
            self.fail(f"{what}: behind its numbers the log is not zeros")

    # Requests

    def mixed(self, count: int) -> list[Exchange]:
        """So many payments, with a refused request behind some, and behind some one that came
        before: any, or one of the last."""
        requests: list[Exchange] = []
        for it in payments(count):
            requests.append(it)
            requests += self.sometimes(0.2, refused_requests())
            requests += self.sometimes(0.1, requests)
            requests += self.sometimes(0.1, requests[-KEPT:])
        return requests

    def sometimes(self, share: float, requests: Sequence[Exchange]) -> Iterator[Exchange]:
        """One of the requests in so many of all cases, and else none."""
        if self.chance.random() < share:
            yield self.chance.choice(requests)
