"""Files on the panel "Frames and files": what one is taken for, that nothing of another one stays,
and a journal of a million payments."""
from __future__ import annotations

import base64
import random
import struct
from dataclasses import dataclass

from ..support.formats.journal_records import (
    BY_HAND, BY_HAND_ROWS, BY_HAND_SUMS, CODES, OPEN, RECORD, REVERSAL, REVERSED_BY_HAND, UNDONE,
    Payment, Place, Reversal, Row, journal_of, put, rows_of, without_repeats)
from ..support.formats.log_file import log_image
from ..support.page.browser import BACKSPACE
from ..support.page.page_file_case import LOOK, MOST_ROWS, FileCase, seen
from ..support.page.page_values import BASE, upper
from ..support.standards.dukpt import serial_text, usable
from .test_page_manners import FAINT, LEAST_CONTRAST, SCHEMES, WIDTHS

# Drops a file that is read slowly, and at once another one.
OVERTAKE = LOOK + """
const [slow, quick] = arguments[0].map(([name, data]) => fileOf(name, data));
let release;
let told;
const gate = new Promise((done) => { release = done; });
const isRead = new Promise((done) => { told = done; });
const read = File.prototype.arrayBuffer;
File.prototype.arrayBuffer = async function () {
  const bytes = await read.call(this);
  if (this.name === slow.name) {
    told();
    await gate;
  }
  return bytes;
};
drop(slow);
drop(quick);
while (!isShown()) await turn();
await isRead;
release();
for (let count = 0; count < 20; count += 1) await turn();
File.prototype.arrayBuffer = read;
return look();"""
# Drops a file that is not to be read.
UNREADABLE = LOOK + """
const read = File.prototype.arrayBuffer;
File.prototype.arrayBuffer = async () => { throw new DOMException("no", "NotReadableError"); };
drop(fileOf(...arguments[0]));
File.prototype.arrayBuffer = read;
while (!isShown()) await turn();
return look();"""


class TestStale(FileCase):
    """Nothing of one file stands beside another one."""

    def test_after_damage(self) -> None:
        right = bytes.fromhex(BY_HAND)
        wrong, place = put(right, 1, 18, b"\x01")
        first, second, third = self.drop(right, wrong, right, kind="journal")
        self.assertEqual((first.rows, first.sums), (BY_HAND_ROWS, BY_HAND_SUMS))
        self.assert_damaged(second, place)
        self.assertEqual((third.fault, third.rows, third.sums), ("", BY_HAND_ROWS, BY_HAND_SUMS))
        # What is read as another kind leaves nothing of the first.
        self.set(frame_file_kind="log")
        found = self.look()
        self.assertEqual((found.kind, found.rows, found.sums), ("", [], []))
        self.assertIn("as a log", found.fault)
        self.set(frame_file_kind="guess")
        found = self.look()
        self.assertEqual((found.kind, found.fault, found.rows), ("journal", "", BY_HAND_ROWS))

    def test_unreadable(self) -> None:
        """A file that cannot be read leaves nothing of the one before it."""
        right = base64.b64encode(bytes.fromhex(BY_HAND)).decode()
        for before in (bytes.fromhex(BY_HAND), bytes(64)):
            self.drop(before)
            found = seen(self.browser.run_async(UNREADABLE, ["gone.bin", right]))
            self.assertEqual((found.kind, found.words, found.rows, found.sums), ("", "", [], []))
            self.assertEqual((found.place, found.taken), (None, ""))
            self.assertIn("gone.bin cannot be read", found.fault)

    def test_overtaken(self) -> None:
        """Of two files the second is shown, though the first is read later."""
        slow = journal_of(self.journals.groups(3), 1)
        named = [("slow.bin", base64.b64encode(slow).decode()),
                 ("quick.bin", base64.b64encode(bytes.fromhex(BY_HAND)).decode())]
        found = seen(self.browser.run_async(OVERTAKE, named))
        self.assertEqual((found.title, found.rows), ("quick.bin", BY_HAND_ROWS))


class TestKinds(FileCase):
    """What a file is taken for, and a sentence where that is not sure."""

    def test_guesses(self) -> None:
        log = log_image([self.serial_bytes(0xFF) for _ in range(3)], 6)
        both = log_image([self.serial_bytes(OPEN)], 4)
        unfinished = b"\x01\x00" + bytes(62)
        reversed_ = log_image([self.serial_bytes(REVERSAL)], 4)
        no_log = log[:13] + b"\x01" + log[14:]
        journal = journal_of(without_repeats(self.journals.groups(3)), 2)
        undone = journal_of([[self.journals.reversal([1])],
                             *without_repeats(self.journals.groups(2))], 2)
        for data, kind, is_sure in ((log, "log", True), (both, "log", False),
                                    (reversed_, "log", False), (undone, "journal", True),
                                    (unfinished, "log", False),
                                    (bytes(64), "log", False), (bytes(48), "log", False),
                                    (no_log, "", False), (journal, "journal", True),
                                    (journal + b"\x00", "", True), (b"\x02" + bytes(63), "", True)):
            found = self.drop(data)[0]
            self.assertEqual(found.kind, kind, data[:32].hex())
            self.assertEqual(found.taken == "", is_sure, found.taken)
            self.assertEqual("read as a log" in found.taken, not is_sure)

    def test_chosen(self) -> None:
        """Zeros are a log or a journal, as the user chooses; then nothing is doubted."""
        self.drop(bytes(96))
        for kind, words in (("journal", "Journal of 3 records"), ("log", "Log of 6 records")):
            self.set(frame_file_kind=kind)
            found = self.look()
            self.assertEqual((found.kind, found.taken, found.fault), (kind, "", ""))
            self.assertIn(words, found.words)
        self.set(frame_file_kind="image")
        found = self.look()
        self.assertEqual((found.kind, found.place), ("", Place(0, 0)))

    def test_repeats_in_logs(self) -> None:
        """In logs too a number that stands twice is said beside its row, and counted."""
        for _ in range(10 * self.times):
            known = [self.serial_bytes(self.chance.randrange(256)) for _ in range(8)]
            numbers = self.chance.choices(known, k=self.chance.randint(1, 20))
            found = self.drop(log_image(numbers, 20), kind="log")[0]
            rows = [[str(at), upper(it), "" if numbers.index(it) == at
                     else f"also in record {numbers.index(it)}"] for at, it in enumerate(numbers)]
            self.assertEqual(found.rows, rows)
            repeated = len(numbers) - len(set(numbers))
            self.assertEqual("Repeated" in found.words, repeated > 0)
            if repeated:
                self.assertIn(f"Repeated numbers: {repeated}.", found.words)

    def serial_bytes(self, first: int) -> bytes:
        serial = self.journals.serial(first << 72 | self.chance.getrandbits(51) << 21)
        return serial.to_bytes(10, "big")


class TestLooks(FileCase):
    def test_files(self) -> None:
        """A log and journals, right and damaged, and a file that is doubted: readable in both
        schemes, and on narrow screens no wider than these."""
        right = bytes.fromhex(BY_HAND)
        files = (right, bytes.fromhex(REVERSED_BY_HAND), put(right, 1, 18, b"\x01")[0], bytes(64),
                 log_image([serial.to_bytes(10, "big") for serial in (1, 2, 1, 0)], 5))
        for scheme in SCHEMES:
            self.browser.prefer(prefers_color_scheme=scheme)
            for width in WIDTHS:
                self.browser.resize(width, 800)
                for it in files:
                    self.drop(it)
                    count, faint = self.browser.run(FAINT, LEAST_CONTRAST)
                    self.assertEqual(faint, [], scheme)
                    self.assertGreater(count, 15)
                    wide = self.browser.run("return document.scrollingElement.scrollWidth;")
                    self.assertLessEqual(wide, width)


@dataclass(frozen=True)
class Million:
    """A journal of a million payments, the first of which is undone by the last record: the first
    rows, and of each of its terminals in their order the initial key serial number, how many payments,
    how many approved, how many of these undone, and the sum of the others."""

    data: bytes
    rows: list[list[str]]
    groups: int
    sums: list[list[int]]


def a_million(chance: random.Random) -> Million:
    """A million payments of 1,500 terminals, some in groups, and one reversal."""
    sums = [[chance.getrandbits(59) << 21, 0, 0, 0, 0] for _ in range(1500)]
    counters = [it for it in range(1, 4096) if usable(it)]
    pack = struct.Struct(">BBHQHIB8s5x").pack
    amounts, codes = chance.choices(range(1 << 32), k=997), list(CODES)
    rows: list[Row] = []
    pieces: list[bytes] = []
    groups = 0
    while len(pieces) < 1_000_000:
        first = len(pieces)
        last = min(first + chance.choice((0, 0, 0, 3, 40)), 999_999)
        groups += 1
        for at in range(first, last + 1):
            total, amount, code = sums[at % 1500], amounts[at % 997], codes[at % 5]
            serial, mac = total[0] + counters[at // 1500], at.to_bytes(8, "big")
            total[1] += 1
            total[2] += code == 0
            total[4] += amount if code == 0 else 0
            pieces.append(pack(at == first, 1, last - first if at == first else 0, serial >> 16,
                               serial & 0xFFFF, amount, code, mac))
            if at < MOST_ROWS:
                rows.append((first, last, Payment(serial, amount, code, mac)))
    undoing = Reversal(sums[0][0] + counters[-1], sums[0][0] + counters[0], UNDONE, bytes(8))
    pieces.append(undoing.record(OPEN))
    sums[0][3:] = [1, sums[0][4] - amounts[0]]
    shown = rows_of(rows)
    shown[0][-1] = "undone by record 1000000"
    return Million(b"".join(pieces) + bytes(5 * RECORD), shown, groups + 1, sums)


class TestLarge(FileCase):
    weight = 6

    def test_large(self) -> None:
        """A million payments: the first rows and sums are shown, with the counts of all; and the
        key that only images are compared with does not read it again."""
        made = a_million(self.chance)
        path = self.folder() / "large.bin"
        path.write_bytes(made.data)
        began = self.browser.thread_milliseconds()
        self.browser.element("#frame-file").type(str(path))
        self.browser.wait_until("return document.getElementById('file-found').dataset.kind ==="
                                " 'journal';", seconds=60)
        spent = self.browser.thread_milliseconds() - began
        self.tells(f"a million payments are read and shown in {spent:.0f} ms of processor time")
        found = self.look()
        self.assertEqual(found.rows, made.rows)
        self.assertEqual(found.sums, [[serial_text(iksn), *map(str, totals)]
                                      for iksn, *totals in made.sums[:MOST_ROWS]])
        whole = sum(it[-1] for it in made.sums)
        self.assertEqual(found.words, (
            "Journal of 1000006 records: 1000000 payments and 1 reversals in"
            f" {made.groups} groups, room for 5 more."
            f" Sum of what stands, approved and not undone: {whole}, in the smallest unit of the"
            " currency. Undone payments: 1."
            f" The first {MOST_ROWS} records are shown."
            f" The sums of the first {MOST_ROWS} terminals are shown."))
        self.browser.run("document.querySelector('#file-found table').dataset.old = 'yes';")
        self.type("frame-key", BASE[:-1])
        self.browser.press("0", BACKSPACE)
        self.set(frame_key_kind="initial")
        self.assertEqual(self.browser.run(
            "return document.querySelector('#file-found table').dataset.old;"), "yes")
        self.assert_quiet()
