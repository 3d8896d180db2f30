"""The log of a service: what is one and what is refused, and one service at a time."""
from __future__ import annotations

import os
import signal

from ..support.formats.log_file import RECORD, log_image, read_log, record, records_of
from ..support.program import COMMANDS
from ..support.service.client import PURCHASES, Exchange, number_of, payments, payments_of
from ..support.service.service_case import (
    CANNOT_OPEN, LOG_FAILED, ON_LOG, ServiceCase, answers_to, frames_of, numbers_of)
from ..support.worlds.streams import LAST

LOGS = COMMANDS / "logs"
REFUSED = ("empty", "of_31_bytes", "of_33_bytes", "open_behind_closed", "bytes_at_the_end",
           "number_twice", "counter_of_zero", "counter_of_11_ones")
# What is a log, with the numbers of it that are used.
ACCEPTED = {
    "two_numbers": [],
    "one_used": ["FFFF9876543210E00001"],
    "foreign_used": ["00000000543210E00001"],
    "closed_with_bytes": ["FFFF9876543210E00001"],
}


class RefusedLogs(ServiceCase):
    """What is no log is refused before a request is read, and is left as it is."""

    def test_images(self) -> None:
        images = {f"{name}.log": (LOGS / f"{name}.log").read_bytes() for name in REFUSED}
        images.update({"one byte": bytes(1), "fifteen bytes": bytes(15)})
        for name, image in images.items():
            self.log.write_bytes(image)
            self.check(ON_LOG, frames_of(payments(1)), b"", LOG_FAILED, what=name)
            self.assertEqual(self.log.read_bytes(), image, f"{name}: refused and changed")

    def test_spoiled(self) -> None:
        """A log of some numbers with one byte behind a number changed, at each of its records, or
        with the gate of one closed."""
        numbers = numbers_of(payments(4))
        good = log_image(numbers, 6)
        fronts = [RECORD * at for at in range(len(numbers))]
        places = [(front + at, 1) for front in fronts for at in range(11, RECORD)]
        places += [(front, 3) for front in fronts[:-1]]
        for place, turned in places:
            image = bytearray(good)
            image[place] ^= turned
            self.log.write_bytes(image)
            self.check(ON_LOG, frames_of(payments(1)), b"", LOG_FAILED, what=f"byte {place}")
            self.assertEqual(self.log.read_bytes(), image, f"byte {place}: refused and changed")


class Logs(ServiceCase):
    """What is a log is opened, and goes on where it ended."""

    def test_two_runs(self) -> None:
        requests = payments(3)
        self.make_log(2)
        used = self.check_requests(ON_LOG, requests[:1])
        self.check_requests(ON_LOG, requests, used)
        self.assert_image(numbers_of(requests[:2]), "two runs")

    def test_blanks_in_a_name(self) -> None:
        """A name is taken as it is given. Beside each file stands the one without its blanks."""
        requests, other = payments(3), log_image([], 1)
        self.make_log(3)
        image = self.log.read_bytes()
        self.write("used.log", other)
        for name in ("used.log ", " used.log", " used.log ", "used.log\t", "used.log\n", " "):
            self.write(name, image)
            used = self.check_requests(["serve", "bank.toml", "--log", name], requests, what=name)
            found = read_log(self.home / name, self.room)
            self.assertEqual(found, used, f"the log {name!r}")
            self.assertEqual((self.home / "used.log").read_bytes(), other, f"beside {name!r}")

    def test_stored_logs(self) -> None:
        requests = payments(3)
        for name, used in ACCEPTED.items():
            image = (LOGS / f"{name}.log").read_bytes()
            self.log.write_bytes(image)
            self.room = len(image) // RECORD
            kept = [bytes.fromhex(it) for it in used]
            listed = self.check_requests(ON_LOG, requests, kept, what=name)
            self.assertEqual(len(listed), self.room)
            self.assert_kept(listed, name)

    def test_a_number_of_no_key_set(self) -> None:
        """It is a kept number as any."""
        requests = payments(3)
        foreign = bytes(4) + requests[0].number[4:]
        self.make_log(3, [foreign])
        listed = self.check_requests(ON_LOG, requests, [foreign])
        self.assert_image(listed, "a number of no key set")

    def test_the_last_number_of_a_terminal(self) -> None:
        """Its counter has ten one bits in front. It is used as any."""
        first, second = payments(2)
        last = payments_of([LAST], PURCHASES[:1])[0]
        self.make_log(4)
        used = self.check_requests(ON_LOG, [first, last, last])
        self.assert_image(numbers_of([first, last]), "the last number")
        used = self.check_requests(ON_LOG, [last, first, second, last], used)
        self.assert_image(numbers_of([first, last, second]), "behind the last number")
        # Beside those of other terminals, and of the greatest key serial number that there is.
        kept = [last.number, number_of(LAST + (2 << 21)), b"\xff" * 8 + b"\xf8\x00"]
        self.make_log(4, kept)
        used = self.check_requests(ON_LOG, [last, first, last, second], kept)
        self.assert_image([*kept, first.number], "last numbers alone")

    def test_closed_records(self) -> None:
        """Any gate but 01 is closed, whatever stands behind it. A stop leaves one such record at most: with
        a second one the file is no log."""
        first, second, third = payments(3)
        for gate in (0, 2, 0x81, 0xFF):
            for closed in (record(third.number, gate), record(first.number, gate, b"\xff" * 5)):
                self.log.write_bytes(record(second.number) + closed + bytes(RECORD))
                self.room = 3
                self.check_requests(ON_LOG, [first, second, third], [second.number])
                self.assert_kept(numbers_of([second, first, third]), f"the gate {gate}")
                image = record(second.number) + closed + record(first.number, gate ^ 2)
                self.log.write_bytes(image)
                self.check(ON_LOG, [first.frame], b"", LOG_FAILED, what=f"two gates {gate}")
                self.assertEqual(self.log.read_bytes(), image, f"two gates {gate}")

    def test_greater_numbers_behind_it(self) -> None:
        """A log of zeros to which zeros were appended while it was full goes on."""
        requests = payments(6)
        self.make_log(2)
        used = self.check_requests(ON_LOG, requests)
        with open(self.log, "ab") as it:
            it.write(bytes(3 * RECORD))
        self.room = 5
        used = self.check_requests(ON_LOG, requests, used)
        self.assert_image(numbers_of(requests[:5]), "a log that has more room now")

    def test_any_gates(self) -> None:
        """Of random logs with a closed record somewhere, and zeros behind it: what stands before it is
        used."""
        made = payments_of([1, 2, 3, 5], PURCHASES[:4])
        for _ in range(20 * self.times):
            kept = made[: self.chance.randrange(4)]
            front = log_image(numbers_of(kept), len(kept)) + self.closed_record()
            self.log.write_bytes(front.ljust(RECORD * len(made), b"\x00"))
            self.room = len(made)
            order = self.chance.sample(made, len(made))
            listed = self.check_requests(ON_LOG, order, numbers_of(kept))
            self.assert_kept(listed, f"{len(kept)} used numbers before a closed record")
            self.assertEqual(len(records_of(self.log.read_bytes())), len(made))

    def closed_record(self) -> bytes:
        gate = self.chance.choice([it for it in range(256) if it != 1])
        return bytes([gate]) + self.chance.getrandbits(8 * (RECORD - 1)).to_bytes(RECORD - 1, "big")


class SecondService(ServiceCase):
    """A log is that of one service at a time, by each of its names."""

    def test_beside_the_first(self) -> None:
        self.make_log(50)
        os.link(self.log, self.home / "second name")
        os.symlink("log", self.home / "link")
        requests = payments(40)
        service = self.start(*ON_LOG)
        for at, it in enumerate(requests[:20]):
            service.ask([it.frame])
            if at % 4 == 0:
                self.refuse_others(frames_of(requests))
        service.kill()
        ended = service.end()
        self.assert_ended(ended, -signal.SIGKILL, answers_to(requests[:20]), b"", "killed")
        self.assert_image(numbers_of(requests[:20]), "beside others, and killed")
        self.go_on(requests, numbers_of(requests[:20]))

    def refuse_others(self, pieces: list[bytes]) -> None:
        for name in ("log", "second name", "link"):
            words = ["serve", "bank.toml", "--log", name]
            self.check(words, pieces, b"", CANNOT_OPEN, what=f"a second service on {name!r}")

    def go_on(self, requests: tuple[Exchange, ...], used: list[bytes]) -> None:
        """Behind the kill the log is free, by its other names too."""
        words = ["serve", "bank.toml", "--log", "second name"]
        used = self.check_requests(words, requests, used, what="behind the kill")
        self.assert_image(numbers_of(requests), "behind the kill")
        self.check_requests(["serve", "bank.toml", "--log", "link"], requests, used)
        self.check_requests(ON_LOG, requests, used, what="a third service")
        self.assert_image(numbers_of(requests), "a third service")
