"""A terminal over stored files, beside a host: terminal.py IMAGE [AMOUNT..]

Each AMOUNT is a purchase. Frames go out on standard output and come in on standard input; lines on
standard error tell what happens. Beside the service:

    mkfifo host
    dukpt serve bank.toml --journal journal < host | python3 terminal.py image 500 > host

- The next image is stored in IMAGE before a key is used: no number is used twice.
- A purchase is stored in IMAGE.book as open before its request goes out, and its outcome before it
  is told. Of a purchase that is open at the next start, the reply was lost: it is reversed first.
- IMAGE.lock is locked from reading to the last store: two terminals at once take turns.
- IMAGE has one name. Under a second one its numbers would come again: a link is refused.
"""
from __future__ import annotations

import fcntl
import os
import stat
import struct
import sys
from contextlib import contextmanager
from functools import partial
from pathlib import Path
from typing import Iterator, NamedTuple, Optional

import dukpt
from dukpt.faults import NotARefusal

# The facility gives them to the terminal, in a key block: see key_block.py.
INITIAL = bytes.fromhex("6AC292FAA1315B4D858AB3A3D7D5933A")
IKSN = bytes.fromhex("FFFF9876543210E00000")
PAN, PIN = b"4012345678909", b"1234"

USAGE = "usage: terminal.py IMAGE [AMOUNT..]"

# The book of a till (docs/FORMATS.md): a mark, the state, the number, the amount and the code.
BOOK = struct.Struct(">BB10sIB")
MARK = 0x81
OPEN, APPROVED, DECLINED, UNDONE = 1, 2, 3, 4
APPROVAL, DECLINES = 0, (14, 30, 51, 55)


class Failed(Exception):
    """Why the terminal ends, in a line."""


class Last(NamedTuple):
    """The last purchase: its state, its number, and its amount or the code of its reply."""

    state: int
    ksn: bytes
    amount: int = 0
    code: int = 0

    def __str__(self) -> str:
        number = shown(self.ksn)
        if self.state in (OPEN, APPROVED):
            return f"{'open' if self.state == OPEN else 'approved'} {number} {self.amount}"
        return f"declined {number} {self.code:02}" if self.state == DECLINED else f"undone {number}"


def shown(ksn: bytes) -> str:
    return ksn.hex().upper()


def tell(line: str) -> None:
    """Writes a line at once, so that a stop leaves no part of it."""
    sys.stderr.write(f"{line}\n")
    sys.stderr.flush()


# Files


def only_path(word: str) -> Path:
    """The one path of an image: its folder is resolved, and a link is refused. Under a second path
    it would have another lock and another book."""
    path = Path(word).parent.resolve(strict=True) / Path(word).name
    try:
        known = path.lstat()
    except FileNotFoundError:
        return path
    if not stat.S_ISREG(known.st_mode) or known.st_nlink > 1:
        raise Failed(f"{word}: an image is a file with one name, and no link")
    return path


@contextmanager
def locked(path: Path) -> Iterator[None]:
    """No other terminal is in such a part over the same image. The file of the lock stays: a name
    that is made anew could be locked twice."""
    lock = os.open(f"{path}.lock", os.O_RDWR | os.O_CREAT, 0o600)
    try:
        fcntl.flock(lock, fcntl.LOCK_EX)
        yield
    finally:
        os.close(lock)


def private(path: str, flags: int) -> int:
    """Opens a file that its owner alone reads. A link is not followed."""
    return os.open(path, flags | os.O_NOFOLLOW, 0o600)


def store(path: Path, content: bytes) -> None:
    """Stores a file, so that a stop at any time leaves this content or the one before."""
    following = path.with_name(f"{path.name}.next")
    following.unlink(missing_ok=True)
    with open(following, "xb", opener=private) as file:
        file.write(content)
        file.flush()
        os.fsync(file.fileno())
    os.replace(following, path)
    folder = os.open(path.parent, os.O_RDONLY)
    try:
        os.fsync(folder)
    finally:
        os.close(folder)


def read(path: Path) -> Optional[bytes]:
    """The content of a file, if it is there."""
    try:
        return path.read_bytes()
    except FileNotFoundError:
        return None


def last_in(content: bytes) -> Last:
    """The last purchase that a book keeps."""
    if len(content) != BOOK.size:
        raise Failed("the book is damaged")
    mark, *fields = BOOK.unpack(content)
    last = Last(*fields)
    codes = DECLINES if last.state == DECLINED else (0,)
    has_amount = last.state in (OPEN, APPROVED)
    if (mark != MARK or last.state not in range(OPEN, UNDONE + 1) or last.code not in codes
            or (last.amount and not has_amount)):
        raise Failed("the book is damaged")
    dukpt.check_usable(last.ksn)
    return last


# Frames


def exchange(frame: bytes) -> bytes:
    """Sends a frame, and gives the answer to it. It is not known whose that is."""
    try:
        sent = os.write(sys.stdout.fileno(), frame)
        front = sys.stdin.buffer.read(2)
        length = dukpt.frame_length(front)
        answer = front + sys.stdin.buffer.read(length - len(front))
    except (OSError, dukpt.DukptError) as why:
        raise Failed("no reply") from why
    if sent != len(frame) or len(answer) != length:
        raise Failed("no reply")
    return answer


def not_a_reply(answer: bytes, why: dukpt.DukptError) -> Failed:
    """What is told of an answer that is not the reply, for this fault."""
    try:
        refusal = dukpt.read_refusal(answer)
    except NotARefusal:
        return Failed(f"no reply: {why.name}")
    return Failed(f"refused {shown(refusal.ksn)} {refusal.reason}")


# The terminal


class Till:
    """A terminal with its last purchase, as the files have them. They are locked meanwhile."""

    def __init__(self, path: Path) -> None:
        self.store_image = partial(store, path)
        self.store_book = partial(store, path.with_name(f"{path.name}.book"))
        image, book = read(path), read(path.with_name(f"{path.name}.book"))
        self.last = None if book is None else last_in(book)
        if image is not None:
            self.terminal = dukpt.Terminal.from_image(image)
        elif self.last is None:
            self.load()
        else:
            raise Failed("the image is lost: load another initial key serial number")

    def load(self) -> None:
        self.terminal = dukpt.Terminal.load(INITIAL, IKSN)
        self.store_image(self.terminal.image)
        tell(f"loaded {shown(IKSN)}")

    def keep(self, last: Last) -> None:
        """Has the book keep the last purchase."""
        self.store_book(BOOK.pack(MARK, *last))
        self.last = last

    def come_to_rest(self) -> None:
        """Tells the last purchase, and reverses it where its reply was lost."""
        if self.last is not None:
            tell(f"last {self.last}")
            if self.last.state == OPEN:
                self.reverse(self.last.ksn)

    def reverse(self, reversed_ksn: bytes) -> None:
        """Undoes the open purchase, under a number of its own."""
        key, ksn = self.terminal.take(self.store_image)
        frame = dukpt.reversal_request(key, ksn, reversed_ksn)
        tell(f"reversing {shown(ksn)} of {shown(reversed_ksn)}")
        answer = exchange(frame)
        try:
            dukpt.check_reversal_reply(key, ksn, reversed_ksn, answer)
        except dukpt.DukptError as why:
            raise not_a_reply(answer, why) from why
        stood = dukpt.read_reversal_reply(answer).state == dukpt.UNDONE
        self.keep(Last(UNDONE, reversed_ksn))
        tell(f"{'undone' if stood else 'none stands'} {shown(reversed_ksn)}")

    def pay(self, amount: int) -> None:
        """Makes a purchase. Two numbers stay behind it, for its reversal."""
        dukpt.next_number(dukpt.next_number(self.terminal.number))
        key, ksn = self.terminal.take(self.store_image)
        frame = dukpt.payment_request(key, ksn, PAN, PIN, amount)
        self.keep(Last(OPEN, ksn, amount))
        tell(f"number {shown(ksn)}")
        answer = exchange(frame)
        try:
            dukpt.check_reply(key, ksn, answer)
        except dukpt.DukptError as why:
            raise not_a_reply(answer, why) from why
        code = int(dukpt.read_reply(answer).code)
        outcome = Last(APPROVED, ksn, amount) if code == APPROVAL else Last(DECLINED, ksn, 0, code)
        self.keep(outcome)
        tell(str(outcome))


def amount_in(word: str) -> int:
    """An amount of the command line, in the smallest unit of the currency."""
    if not (word.isascii() and word.isdigit() and len(word) <= 10 and int(word) < 1 << 32):
        raise Failed(USAGE)
    return int(word)


def run(words: list[str]) -> None:
    if not words:
        raise Failed(USAGE)
    amounts: list[Optional[int]] = [*map(amount_in, words[1:])]
    path = only_path(words[0])
    for amount in amounts or [None]:
        with locked(path):
            till = Till(path)
            till.come_to_rest()
            if amount is not None:
                till.pay(amount)


def main() -> None:
    try:
        run(sys.argv[1:])
    except (Failed, OSError, dukpt.DukptError) as why:
        sys.exit(str(why))


if __name__ == "__main__":
    main()
