"""What a service answers: to requests, to those that come again, and in each configuration."""
from __future__ import annotations

import re

from ..support.case import Case, ProgramCase
from ..support.formats.bank import BANK, LONGEST
from ..support.program import COMMANDS
from ..support.service.client import (
    KEPT, PAN, PIN, PURCHASES, Exchange, Purchase, answered, first_counters, key_lines, number_of,
    payments, payments_of, refusal, refused_requests, split)
from ..support.service.service_case import (
    ON_BANK, ON_LOG, ServiceCase, answers_to, frames_of, numbers_of, with_room)

BDK = "0123456789ABCDEFFEDCBA9876543210"


class StoredFrames(Case):
    """The frames of tests/data/commands/service, which a recipe uses, are the client's."""

    def test_the_first_payments(self) -> None:
        lines = [f"{it.frame.hex().upper()} {it.answer.hex().upper()}" for it in payments(6)]
        self.assertEqual((COMMANDS / "service" / "payments").read_text().splitlines(), lines)


class Keys(ProgramCase):
    """The client's keys are those that the program derives."""

    def test_keys_of_all_levels(self) -> None:
        counters = (1, 2, 3, 1023, 2046, 2048, 1046528, 1048576, 2066432)
        derived = b""
        for counter in counters:
            ended = self.program.run("derive", BDK, number_of(counter).hex().upper())
            self.assertEqual((ended.status, ended.faults), (0, b""), f"the counter {counter}")
            derived += ended.output
        self.assertEqual(derived.decode().splitlines(), key_lines(counters))


class Configurations(ServiceCase):
    """A service answers real requests in each configuration that is accepted."""

    weight = 2

    def test_stored_configurations(self) -> None:
        """Of their room each number is used, and the next one finds none."""
        paths = sorted(COMMANDS.glob("*.toml"))
        for path in paths:
            text = path.read_bytes()
            room = int(re.search(rb"(?m)^log = (\d+)$", text)[1])
            requests = self.requests(room + 2, b"[[card]]" in text)
            requests += [*refused_requests(), *requests[-4:], requests[0]]
            self.write("here.toml", text)
            used = self.check_requests(["serve", "here.toml"], requests, room=room, what=path.name)
            self.assertEqual(len(used), room)
            self.make_log(4)
            words = ["serve", "here.toml", "--log", "log"]
            used = self.check_requests(words, requests, what=f"{path.name} with a log")
            self.assert_image(used, path.name)
        self.tells(f"{len(paths)} configurations")

    def requests(self, count: int, has_cards: bool) -> list[Exchange]:
        """Payments for the card of the bank, and of an issuer that has no cards."""
        if has_cards:
            return list(payments(count))
        strangers = [Purchase(it.pan, it.pin, it.amount, "30" if it.pin is None else "14")
                     for it in PURCHASES]
        counters = first_counters(count)
        return payments_of(counters, [strangers[it % len(strangers)] for it in counters])

    def test_the_longest(self) -> None:
        requests = payments(3)
        for length, fault in ((LONGEST, ""), (LONGEST + 1, "config: too long")):
            self.write("long.toml", BANK.ljust(length, b"#"))
            answers = b"" if fault else answers_to(requests)
            self.check(["serve", "long.toml"], frames_of(requests), answers, fault)
        # It is refused before the log is opened.
        self.check(["serve", "long.toml", "--log", "missing"], (), b"", "config: too long")

    def test_the_room_is_that_of_the_file(self) -> None:
        requests = payments(3)
        self.write("narrow.toml", with_room(BANK, 1))
        self.make_log(3)
        self.check_requests(["serve", "narrow.toml", "--log", "log"], requests)
        self.assert_image(numbers_of(requests), "a log with more room than its configuration")
        self.check_requests(["serve", "narrow.toml"], requests, room=1)


class Repeats(ServiceCase):
    """A run gives the last requests that it accepted their replies again, and no later run does."""

    weight = 2

    def test_the_last_ones(self) -> None:
        """Also where the log is full. What is repeated is not kept again, and stays where it is
        among the last ones."""
        requests = list(payments(KEPT + 1))
        first, second = requests[:2]
        used = refusal(first.number, 5)
        # The first is among the last ones until the last one is accepted.
        again = [first, first, *requests[1:KEPT], first, requests[KEPT]]
        wanted = [it.answer for it in again] + [used, second.answer, used, second.answer]
        again += [first, second, first, second]
        for room in (len(requests), len(requests) + 1):
            self.make_log(room)
            self.check(ON_LOG, frames_of(again), b"".join(wanted), what="repeats in one run")
            self.assert_image(numbers_of(requests), "repeats in one run")
            refused = b"".join(refusal(it.number, 5) for it in requests)
            self.check(ON_LOG, frames_of(requests), refused, what="repeats in a later run")
            self.assert_image(numbers_of(requests), "repeats in a later run")

    def test_another_request_of_a_number(self) -> None:
        """One with another amount, and the MAC of that, is no repeat."""
        first = payments_of([1], [Purchase(PAN, PIN, 10000, "00")])[0]
        other = payments_of([1], [Purchase(PAN, PIN, 2, "00")])[0]
        self.assertEqual(first.number, other.number)
        self.assertNotEqual(first.frame, other.frame)
        used = refusal(first.number, 5)
        for one, another in ((first, other), (other, first)):
            self.make_log(3)
            wanted = one.answer + used + one.answer
            self.check(ON_LOG, frames_of([one, another, one]), wanted)
            self.assert_image(numbers_of([one]), "two requests of a number")

    def test_lives_of_a_log(self) -> None:
        """Of runs over one log, each of which is given requests of all before it, one alone accepts
        a number, and gives it one reply."""
        self.make_log(1000)
        listed: list[bytes] = []
        replies: dict[bytes, tuple[int, bytes]] = {}
        for life in range(6):
            requests = self.mixed(40 + 100 * life)
            ended = self.run_service(ON_LOG, [b"".join(frames_of(requests))])
            answers, listed = answered(requests, listed, self.room)
            self.assert_output(ended, b"".join(answers), "", f"run {life}")
            self.assert_image(listed, f"run {life}")
            self.note_replies(replies, life, ended.output)
        self.assertEqual(set(replies), set(listed), "the numbers of replies, and those of the log")
        self.tells(f"{len(listed)} numbers in 6 runs")

    def note_replies(
        self, replies: dict[bytes, tuple[int, bytes]], life: int, output: bytes
    ) -> None:
        """Notes in which run each number was replied to, and how."""
        for answer in split(output)[0]:
            if answer[2:4] == b"\x01\x02":
                number = answer[4:14]
                self.assertEqual(replies.setdefault(number, (life, answer)), (life, answer),
                                 f"{number.hex()} was replied to in two runs, or in two ways")


class NoLog(ServiceCase):
    """Without a log each run has a list of its own."""

    def test_two_runs(self) -> None:
        requests = payments(40)
        for run in ("a service with no log", "another one"):
            self.check(ON_BANK, frames_of(requests), answers_to(requests), what=run)
