"""Files that are no logs, journals or ledgers: a service, and a run of `issue`, leave each as it is, and
say so."""
from __future__ import annotations

import gzip
import os
from pathlib import Path
from typing import Iterator, Sequence

from ..support.case import ProgramCase
from ..support.commands.issuing import Ledger, bytes_of, numbers_from
from ..support.formats import journal_records
from ..support.formats.bank import BANK
from ..support.formats.checked_journal import checked, journal_of
from ..support.formats.journal_records import RECORD as JOURNAL_RECORD
from ..support.formats.ledger_file import RECORD as RECORD_LENGTH
from ..support.formats.left_files import JOURNAL, LEDGER, LOG, OLD_JOURNAL, OLD_LEDGER, Records
from ..support.formats.log_file import RECORD, log_image, record
from ..support.formats.opened_ledger import Refusal
from ..support.models.model_journal import payments_of_all
from ..support.program import Ended, Word
from ..support.service.client import payments
from ..support.service.journal_case import OLD_VERSION
from ..support.service.service_case import numbers_of
from .test_deployment import copied

KEY = b"0123456789ABCDEFFEDCBA9876543210"
LOADING = "3F419E1CB7079442AA37474C2EFBF8B8"
FIRST = "FFFF9876543210E00000"
# Numbers that no run here issues.
OTHER = "FFFF9876550000000000"
EXPLAIN = "--explain"

# Commands over a file whose name stands behind them: its format, the line, and what explains it.
ON_LOG = (["serve", "bank.toml", "--log"], LOG, "log: failed", "log")
ON_JOURNAL = (["serve", "bank.toml", "--journal"], JOURNAL, "journal: failed", "journal")
ON_LEDGER = (["issue", KEY.decode(), LOADING, FIRST, "2", "--ledger"], LEDGER, "ledger: damaged",
             "ledger")
STORES = (ON_LOG, ON_JOURNAL, ON_LEDGER)
# Of these formats there is one of version 1, and its line.
OLD = {"journal": (OLD_JOURNAL, OLD_VERSION), "ledger": (OLD_LEDGER, Refusal.OLD.value)}


def whole(data: bytes, size: int) -> bytes:
    """Its front, as far as that is whole records."""
    return data[: len(data) // size * size]


class Others(ProgramCase):
    def setUp(self) -> None:
        super().setUp()
        self.home = self.folder()
        (self.home / "bank.toml").write_bytes(BANK)
        self.path = self.home / "file"

    def run_on(self, words: Sequence[Word], image: bytes, *more: Word) -> Ended:
        """A run over a file of these bytes, which it leaves as they are, and all else too."""
        self.path.write_bytes(image)
        before = os.listdir(self.home)
        ended = self.program.run(*words, "file", *more, given=payments(1)[0].frame, folder=self.home)
        self.assertEqual(self.path.read_bytes(), image, f"{words}: changed {image[:64]!r}")
        self.assertEqual(os.listdir(self.home), before, f"{words}: what is in the folder")
        return ended

    def refuse(self, words: Sequence[Word], image: bytes, line: str, what: str) -> None:
        ended = self.run_on(words, image)
        self.assert_ended(ended, 1, b"", f"{line}\n".encode(), f"{words}: {what}")

    def images(self, size: int) -> Iterator[tuple[str, bytes]]:
        """Files of others, by what they are."""
        source = Path(__file__).read_bytes()
        yield "a key", KEY
        yield "a key and the end of its line", KEY + b"\n"
        yield "two keys", KEY + KEY
        yield "a key's bytes", bytes.fromhex(KEY.decode()) * (size // 16)
        yield "a configuration", BANK
        yield "the front of a configuration", whole(BANK, size)
        yield "a source", source
        yield "the front of a source", whole(source, size)
        yield "an archive", whole(gzip.compress(source * 20), size)
        yield "an empty file", b""
        yield "zeros and a part of a record", bytes(3 * size + 1)
        for count in (1, 2, 3, 40, 5000):
            yield f"{count} random records", self.random_records(count, size)

    def random_records(self, count: int, size: int) -> bytes:
        """Of which the first is not open, and the gate of the last, where there are more, is no zero."""
        image = bytearray(self.chance.randbytes(count * size))
        image[0] = self.chance.choice((0, 2, 0x30, 0xFF))
        if count > 1:
            image[-size] = self.chance.randrange(2, 256)
        return bytes(image)

    def test_others(self) -> None:
        for words, form, line, name in STORES:
            for what, image in self.images(form.size):
                # Random records may be such as one of version 1 leaves.
                old, old_line = OLD.get(name, (form, line))
                self.refuse(words, image, old_line if old.is_left(image) else line, what)

    def test_copies(self) -> None:
        """None is copied as a journal, or as a log, that keeps nothing."""
        for what, image in self.images(JOURNAL.size):
            ended = self.run_on(["copy-journal"], image, "copy")
            self.assert_ended(ended, 1, b"", b"journal: failed\n", what)
        for what, image in self.images(LOG.size):
            self.path.write_bytes(image)
            ended = copied(self.path, self.home / "copy")
            self.assertEqual((ended.status, ended.output), (1, b""), what)
            self.assertFalse((self.home / "copy").exists(), what)

    def test_a_store_of_another_kind(self) -> None:
        """Each with entries."""
        requests = payments(5)
        log = log_image(numbers_of(requests), 8)
        journal = journal_of([[it] for it in payments_of_all(requests)], 3)
        ledger = Ledger(8, numbers_from(int(FIRST, 16), 5)).image
        self.refuse(ON_JOURNAL[0], log, ON_JOURNAL[2], "a log")
        for words, _, line, _ in (ON_LOG, ON_LEDGER):
            self.refuse(words, journal, line, "a journal")
        for words, _, line, _ in (ON_LOG, ON_JOURNAL):
            self.refuse(words, ledger, line, "a ledger")
        ended = self.run_on(["grow-journal"], ledger, "3")
        self.assert_ended(ended, 1, b"", b"journal: failed\n", "a ledger")
        ended = self.run_on(["copy-journal"], ledger, "copy")
        self.assert_ended(ended, 1, b"", b"journal: failed\n", "a ledger")
        for kind, image in (("journal", ledger), ("log", ledger), ("ledger", journal),
                            ("ledger", log)):
            ended = self.run_on(["show", kind], image)
            self.assert_ended(ended, 1, b"", f"{kind} refused at 0: Damaged\n".encode(), kind)

    def test_a_ledger_of_version_1(self) -> None:
        """A run of `issue` says how to come from it. So it does of zeros, as a new one was."""
        for count, room in ((0, 1), (0, 5), (5, 5), (5, 8)):
            image = log_image(bytes_of(numbers_from(int(FIRST, 16), count)), room)
            self.refuse(ON_LEDGER[0], image, Refusal.OLD.value, "a ledger of version 1")
            ended = self.run_on(ON_LEDGER[0], image, EXPLAIN)
            told = (f"{Refusal.OLD.value}\nledger file: version 1; wanted: one of version 2; make "
                    "it by dukpt copy-ledger OLD NEW\n")
            self.assert_ended(ended, 1, b"", told.encode(), "explained")

    def test_a_journal_of_version_1(self) -> None:
        """A service over it says how to come from it. So it does of zeros, as a new one was."""
        kept = payments_of_all(payments(5))
        for groups, room in (([], 1), ([], 5), ([[it] for it in kept], 0), ([kept], 3)):
            image = journal_records.journal_of(groups, room)
            self.refuse(ON_JOURNAL[0], image, OLD_VERSION, "a journal of version 1")
            ended = self.run_on(ON_JOURNAL[0], image, EXPLAIN)
            told = (f"{OLD_VERSION}\njournal file: version 1; wanted: one of version 2; make it by dukpt "
                    "copy-journal OLD NEW\n")
            self.assert_ended(ended, 1, b"", told.encode(), "explained")

    def test_any_records(self) -> None:
        """Of closed records behind some groups, at random: those that a stop may leave are served, and
        the last that is not zero is named of all others."""
        served = refused = 0
        requests = payments(3)
        for _ in range(60 * self.times):
            for words, form, line, name in STORES:
                count = self.chance.randrange(4)
                kept = payments_of_all(requests[:count])
                front = {"log": log_image(numbers_of(requests[:count]), count),
                         "journal": journal_of([[it] for it in kept], 0),
                         "ledger": Ledger(count, numbers_from(int(OTHER, 16), count)).image}[name]
                image = front + self.closed(form, self.chance.randrange(1 if count else 2, 6))
                place = form.foreign(image)
                ended = self.run_on_any(words, image)
                if place is None and name == "ledger" and len(image) < RECORD_LENGTH * (3 + count):
                    self.assertEqual((ended.status, ended.faults[:13]), (1, b"ledger: full\n"))
                elif place is None:
                    self.assertEqual((ended.status, ended.faults), (0, b""), f"{words}: {image.hex()}")
                    served += 1
                else:
                    self.assertEqual(self.path.read_bytes(), image)
                    told = f"{line}\nno {name} file: record {place} is neither open nor zero; wanted: "
                    self.assertEqual(ended.status, 1, image.hex())
                    self.assertTrue(ended.faults.decode().startswith(told), f"{ended} {image.hex()}")
                    refused += 1
        self.assertTrue(served > 10 and refused > 10, f"{served} served, {refused} refused")

    def run_on_any(self, words: Sequence[Word], image: bytes) -> Ended:
        self.path.write_bytes(image)
        return self.program.run(*words, "file", EXPLAIN, given=b"", folder=self.home)

    def closed(self, form: Records, room: int) -> bytes:
        """Closed records, most of them zeros: the first with any bytes, of the others some too."""
        records = [bytearray(form.size) for _ in range(room)]
        for at, it in enumerate(records):
            if self.chance.random() < (0.7 if at == 0 else 0.2):
                it[:] = self.chance.randbytes(form.size)
                it[0] = self.chance.choice((0, 0, 2, 0x30, 0xFF))
        return b"".join(bytes(it) for it in records)

    def test_explained(self) -> None:
        """What there is and what makes such a file."""
        for words, form, line, name in STORES:
            making = {"log": "new-log", "journal": "new-journal", "ledger": "new-ledger"}[name]
            ended = self.run_on(words, b"", EXPLAIN)
            told = ended.faults.decode()
            self.assertTrue(told.startswith(f"{line}\n{name} file: empty; wanted: "), told)
            self.assertTrue(told.endswith(f"; make it by dukpt {making} FILE RECORDS\n"), told)
            ended = self.run_on(words, whole(BANK, form.size), EXPLAIN)
            front = whole(BANK, form.size)
            place = OLD.get(name, (form, line))[0].foreign(front)
            told = f"{line}\nno {name} file: record {place} is neither open nor zero; wanted: "
            self.assertTrue(ended.faults.decode().startswith(told), str(ended))

    def test_what_a_stop_may_leave(self) -> None:
        """One record in part behind those that are open, with any bytes."""
        for gate in (0, 2, 0x30, 0xFF):
            torn = bytes([gate]) + self.chance.randbytes(RECORD - 1)
            image = record(numbers_of(payments(1))[0]) + torn + bytes(RECORD)
            self.assertTrue(LOG.is_left(image))
            self.path.write_bytes(image)
            ended = self.program.run(*ON_LOG[0], "file", given=b"", folder=self.home)
            self.assert_ended(ended, 0, b"", b"", image.hex())
        torn = b"".join(b"\x00" + self.chance.randbytes(JOURNAL_RECORD - 1) for _ in range(1024))
        self.path.write_bytes(checked(torn + bytes(JOURNAL_RECORD)))
        ended = self.program.run(*ON_JOURNAL[0], "file", given=b"", folder=self.home)
        self.assert_ended(ended, 0, b"", b"", "a group in part")
