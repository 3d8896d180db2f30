"""A service over a journal: what it answers, and what it keeps, from run to run."""
from __future__ import annotations

from ..commands.test_files import REFUSED_FILES
from ..support.formats.checked_journal import blank, checked
from ..support.formats.journal_records import Payment
from ..support.models.model_journal import added_by, answers_of, judged, payment_of, payments_of_all
from ..support.service.client import (
    PAN, PIN, PURCHASES, Exchange, Purchase, number_of, payments, payments_of, refusal, split)
from ..support.service.journal_case import ON_JOURNAL, JournalCase, alone, frames_of, stream_of
from ..support.service.service_case import answers_to, with_room
from ..support.worlds.streams import LAST


def another(first: Exchange, counter: int = 1) -> Exchange:
    """A request of the same number with another amount, and so with another MAC."""
    other = payments_of([counter], [Purchase(PAN, PIN, 7000, "00")])[0]
    assert other.number == first.number and other.frame != first.frame
    return other


class Rows(JournalCase):
    """Each kind of answer, and what it changes."""

    def test_one_of_each(self) -> None:
        """In one group: six codes, a repeat, another request of a number, and each refusal."""
        first = payments(7)
        requests = [*first[:6], first[0], another(first[0]), *self.mixed(30)]
        self.make_room(100)
        self.check_file(requests, what="one group")
        self.check_file(requests, what="once more")

    def test_by_hand(self) -> None:
        """The payment that docs/FORMATS.md has byte by byte, and its record."""
        self.make_journal(3)
        request = bytes.fromhex(
            "002E0101FFFF9876543210E000010D34303132333435363738393039000000011B9C1845EB993A7A"
            "A05619896B683F13")
        reply = bytes.fromhex("00160102FFFF9876543210E000013030591B50E0CA98FE70")
        self.check(ON_JOURNAL, [request], reply)
        record = bytes.fromhex(
            "01010000" "FFFF9876543210E00001" "00000001" "00" "A05619896B683F13" "0000000000")
        self.assert_bytes(checked(record + bytes(64)), "a payment")
        self.check(ON_JOURNAL, [request + request], reply + reply, what="another run")
        self.assert_bytes(checked(record + bytes(64)), "a payment that came again")

    def test_nothing(self) -> None:
        """No request, and none that is accepted, change nothing."""
        self.make_journal(2)
        self.check_file([], what="no frame")
        refused = [it for it in self.mixed(200) if it.number is None]
        self.check_file(refused, what="refused frames alone")
        self.assert_bytes(blank(2), "no payment")

    def test_a_full_journal(self) -> None:
        """A new number is refused with reason 6, one that is kept is answered again; so is it in the
        group that fills it, of which the first ones find room."""
        requests = payments(12)
        for kept in (0, 3, 7, 8):
            self.make_journal(8, alone(payments_of_all(requests[:kept])))
            order = [*requests, *requests, another(requests[0])]
            found = self.check_file(order, what=f"{kept} of 8")
            self.assertEqual(len(added_by(found)), 8 - kept)
            self.check_file(order, what="a full one")
            self.assertEqual(len(self.kept()), 8)

    def test_one_record(self) -> None:
        self.make_journal(1)
        for _ in range(2):
            self.check_file(payments(3), what="one record")
        self.assertEqual(self.kept(), payments_of_all(payments(1)))

    def test_the_last_number_of_a_terminal(self) -> None:
        """Beside numbers of other terminals, and the greatest that there is."""
        last, first = payments_of([LAST], PURCHASES[:1])[0], payments(2)
        strangers = [Payment(int.from_bytes(it, "big"), 1, 0, bytes(8))
                     for it in (number_of(LAST + (2 << 21)), b"\xff" * 8 + b"\xf8\x00")]
        for kept in ([], [strangers], [strangers, [payment_of(last)]]):
            self.make_journal(8, kept)
            self.check_file([last, *first, last], what="the last number")
            self.check_file([*first, last], what="once more")

    def test_numbers_in_any_order(self) -> None:
        """Each with gaps, and gaps filled later: what is used is exactly what came."""
        self.make_room(900)
        requests = list(payments(1600))
        for _ in range(4):
            order = self.chance.sample(requests, 400)
            self.check_file(order, what="any order")
        self.assertEqual(len({it.serial for it in self.kept()}), len(self.kept()))


class Configurations(JournalCase):
    """What a configuration says, and what the journal says."""

    def test_the_room_is_that_of_the_file(self) -> None:
        self.write("narrow.toml", with_room((self.home / "bank.toml").read_bytes(), 1))
        self.make_journal(3)
        self.check_file(payments(4), words=("serve", "narrow.toml", *ON_JOURNAL[2:]))

    def test_a_code_is_that_of_the_journal(self) -> None:
        """Where the issuer would decide otherwise today, the reply has the code of then, under a
        MAC of its own. Nothing is decided anew."""
        requests, bank = payments(12), (self.home / "bank.toml").read_bytes()
        self.make_journal(20)
        found = self.check_file(requests[:6], what="the first run")
        self.write("bank.toml", bank.replace(b"limit = 10000", b"limit = 0"))
        ended = self.serve_file(stream_of(requests[:6]))
        self.assert_output(ended, answers_of(found), "", "another limit")
        # Of a journal that says otherwise than the issuer the model knows the reply too.
        turned = [Payment(it.serial, it.amount, 51 if it.code == 0 else 0, it.mac)
                  for it in payments_of_all(requests[:6])]
        self.write("bank.toml", bank)
        self.make_journal(20, [turned])
        found = self.check_file(requests, what="other codes")
        self.assertNotEqual(answers_of(found), answers_to(requests))

    def test_another_key_set(self) -> None:
        """The keys of a configuration do not matter to what is kept: with others a number is
        refused with reason 2, and with its own it is answered again."""
        requests, bank = payments(4), (self.home / "bank.toml").read_bytes()
        self.make_journal(9)
        self.check_file(requests, what="its own")
        image = self.journal.read_bytes()
        self.write("bank.toml", bank.replace(b"FFFF987654", b"FFFF000000"))
        refused = b"".join(refusal(it.number or b"", 2) for it in requests)
        self.check(ON_JOURNAL, frames_of(requests), refused, what="another prefix")
        self.write("bank.toml", bank)
        self.assert_bytes(image, "another prefix")
        self.check_file(requests, what="its own again")


class Options(JournalCase):
    """What is refused before the journal is opened."""

    def test_both_stores(self) -> None:
        self.make_log(3)
        self.make_journal(3)
        for words in (("--log", "log", "--journal", "journal"),
                      ("--journal", "journal", "--log", "log"),
                      ("--journal", "journal", "--log", "journal"),
                      ("--journal=journal", "--log=log")):
            self.refuse("serve", "bank.toml", *words)
        self.assert_image([], "both")

    def test_no_file_named(self) -> None:
        self.make_journal(3)
        for words in (("--journal",), ("--journal", "journal", "--journal", "journal"),
                      ("--journals", "journal"), ("journal",)):
            self.refuse("serve", "bank.toml", *words)

    def test_places_of_the_option(self) -> None:
        """Before the configuration and behind it, in two words and in one."""
        for words in (("serve", "--journal", "journal", "bank.toml"),
                      ("serve", "--journal=journal", "bank.toml"),
                      ("serve", "bank.toml", "--journal=journal")):
            self.make_journal(3)
            self.check_file(payments(4), words=words, what=" ".join(words))

    def refuse(self, *words: str) -> None:
        ended = self.program.run(*words, given=payments(1)[0].frame, folder=self.home)
        self.assertEqual((ended.status, ended.output), (2, b""), words)
        self.assertNotEqual(ended.faults, b"", words)
        self.assert_bytes(blank(3), " ".join(words))

    def test_a_wrong_configuration(self) -> None:
        """It is reported before the journal is opened."""
        words = ("serve", "wrong.toml", "--journal", "missing")
        self.check(words, (), b"", "config: cannot read")
        for text, fault in REFUSED_FILES:
            self.write("wrong.toml", text)
            self.check(words, frames_of(payments(1)), b"", f"config: {fault}")


class Lives(JournalCase):
    """Runs over one journal."""

    weight = 3

    def test_lives_of_a_journal(self) -> None:
        """Of runs that are given requests of all before them, one alone accepts a number, and each
        later one gives it the same reply, byte by byte."""
        self.make_room(700)
        replies: dict[bytes, bytes] = {}
        accepted = again = 0
        for life in range(8):
            requests = self.any_order(40 + 120 * life)
            found = (self.check_file if life % 2 else self.check_run)(requests, what=f"run {life}")
            accepted += len(added_by(found))
            for answer in split(answers_of(found))[0]:
                if answer[2:4] == b"\x01\x02":
                    again += answer[4:14] in replies
                    self.assertEqual(replies.setdefault(answer[4:14], answer), answer)
        self.assertEqual(len(replies), accepted, "numbers with a reply, and numbers accepted")
        self.assertEqual(accepted, 700, "in the end it is full")
        self.tells(f"{accepted} numbers in 8 runs, {again} replies given again")

    def test_another_request_of_a_number(self) -> None:
        """It is refused with reason 5 in any run, and the first one keeps its reply."""
        first = payments(1)[0]
        other = another(first)
        for one, two in ((first, other), (other, first)):
            self.make_journal(3)
            self.check_file([one, two, one], what="in one group")
            self.check_file([two, one, two], what="in the next run")
            self.assert_bytes(checked(payment_of(one).record(1) + bytes(64)), "two requests of a number")

    def test_far_repeats(self) -> None:
        """A request behind thousands of others is answered again, in this run and in the next."""
        requests = payments(3000)
        self.make_room(3000)
        self.check_file([*requests, *requests[:1500]], what="one run")
        self.check_file([*requests[::-1], *requests], what="the next run")

    def test_no_journal(self) -> None:
        """What runs over no journal is of no use to one, and the other way round."""
        requests = payments(5)
        self.make_journal(5)
        self.check_file(requests[:2], what="the journal")
        self.check(("serve", "bank.toml"), frames_of(requests), answers_to(requests))
        found = judged(requests, payments_of_all(requests[:2]), 5)
        self.assertEqual(len(added_by(found)), 3)
        self.check_file(requests, what="the journal again")
