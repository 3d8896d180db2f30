"""What a command writes of which one argument is `-`: an answer to each line of standard input, by
docs/COMMANDS.md."""
from __future__ import annotations

import socket
from dataclasses import dataclass, field
from typing import Mapping, Sequence

from ..program import Ended
from .commands import Refused
from .everyday_words import Given, lines_of
from .explained import asked_by, explained

# Items of the right form, by the place of `-`.
RIGHT_ITEMS = {"derive": ("", "FFFF9876543210E00001"), "pin": ("1234", "4012345678909"),
               "unwrap": ("", "")}
MOST_ITEM = 16_384
LINE_REFUSED = b"line refused\n"
ITEMS_REFUSED = b"batch: items refused\n"
READ_FAILED = b"batch: read failed\n"
WRITE_FAILED = b"write failed\n"


@dataclass(frozen=True)
class Batch:
    """A command, its values with `-` at one place, and its options."""

    command: str
    values: Sequence[str]
    flags: Sequence[str] = ()
    valued: Mapping[str, str] = field(default_factory=dict)

    @property
    def options(self) -> list[str]:
        """The command with its options."""
        flags = [f"--{it}" for it in self.flags]
        valued = [word for name, value in self.valued.items() for word in (f"--{name}", value)]
        return [self.command, *flags, *valued]

    @property
    def words(self) -> list[str]:
        return [*self.options, *self.values]

    def alone(self, item: str) -> Given:
        """What stands behind the command where the item is an argument: of two places with `-` it
        is the first."""
        values = list(self.values)
        values[values.index("-")] = item
        return Given(values, set(self.flags), dict(self.valued))

    def others(self) -> str:
        """The fault of what the command has beside its items, or nothing. It is that of any item."""
        right = RIGHT_ITEMS.get(self.command)
        if right is None:
            return ""
        try:
            lines_of(self.command, self.alone(right[self.values.index("-")]))
        except Refused as why:
            return "" if self.command == "unwrap" and str(why) != "KBPK refused" else str(why)
        return ""

    def answer(self, line: bytes) -> tuple[bytes, bool]:
        """The answer to a line, and whether its item is refused."""
        try:
            if len(line) > MOST_ITEM:
                raise Refused("line refused")
            return written(lines_of(self.command, self.alone(line.decode()))), False
        except UnicodeDecodeError:
            return LINE_REFUSED, True
        except Refused as why:
            return f"{why}\n".encode(), True

    def explained_answer(self, line: bytes) -> tuple[bytes, bool]:
        """The same with `--explain`: behind the fault of an item stands the line that explains it."""
        text, is_refused = self.answer(line)
        if not is_refused or text == LINE_REFUSED:
            return text, is_refused
        asked = asked_by(self.command, self.alone(line.decode()))
        return text + f"{explained(asked, text.decode()[:-1])}\n".encode(), True

    def answers(self, data: bytes) -> list[tuple[bytes, bool]]:
        return [self.answer(line) for line in lines_in(data)]

    def ended(self, data: bytes) -> Ended:
        """How a run ends whose input this is. What the command has beside its items comes first."""
        fault = self.others()
        if fault:
            return Ended(1, b"", f"{fault}\n".encode())
        answers = self.answers(data)
        is_refused = any(refused for _, refused in answers)
        return Ended(int(is_refused), b"".join(text for text, _ in answers),
                     ITEMS_REFUSED if is_refused else b"")


def written(lines: Sequence[str]) -> bytes:
    """A line of a key block may begin or end within a character."""
    return "".join(f"{line}\n" for line in lines).encode(errors="surrogateescape")


def lines_in(data: bytes) -> list[bytes]:
    """They end with LF or CR LF, which the last may lack."""
    *ended, rest = data.split(b"\n")
    lines = [line[:-1] if line.endswith(b"\r") else line for line in ended]
    return [*lines, rest] if rest else lines


def broken_input(data: bytes) -> socket.socket:
    """A socket from which these bytes are read; the read behind them fails, for its other end was
    closed over bytes that nobody had read."""
    reader, other = socket.socketpair()
    reader.send(b"unread")
    other.sendall(data)
    other.close()
    return reader
