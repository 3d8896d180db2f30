"""What a call is in any language: its name, its arguments in their order, and its faults."""
from __future__ import annotations

import re
from dataclasses import dataclass
from typing import Optional, Union

# Bytes that are read; bytes that are written; a number that is written; a number that is read.
BYTES, BUFFER, COUNT, NUMBER = "bytes", "buffer", "count", "number"
# Whether a call reads an argument, writes it, or changes it in place.
IN, OUT, IN_OUT = WAYS = "in", "out", "in out"

PREFIX = "dukpt_"

# The length of a slice that is written, where it follows from that of one that is read.
FOR_EACH = re.compile(r"(\d+) for each (\d+) of (\w+)")


class Unreadable(Exception):
    """That a file has not the form in which it is read here."""


@dataclass(frozen=True)
class Parameter:
    """An argument: a slice counts as one."""

    name: str
    way: str
    # How many bytes a slice has: in words, or of a slice that is written a number, or how many for
    # each so many of another one. A number has none.
    length: Union[str, int, None]
    words: str

    @property
    def kind(self) -> str:
        if self.length is None:
            return NUMBER if self.way == IN else COUNT
        return BYTES if self.way == IN else BUFFER

    @property
    def is_slice(self) -> bool:
        return self.length is not None


@dataclass(frozen=True)
class Call:
    """A call: what the documents say of it, and by which words its contract is made."""

    name: str
    about: str
    parameters: tuple[Parameter, ...]
    faults: tuple[str, ...]
    # The definition of what the call answers; what that is told before the arguments; what joins
    # the first so many arguments that are read, and all that are written.
    answers: str = ""
    by: str = ""
    takes: str = ""
    taken: int = 0
    gives: str = ""

    @property
    def export(self) -> str:
        """The name in the library."""
        return PREFIX + self.name

    def counted(self, parameter: Parameter) -> Optional[Parameter]:
        """The number that says how many bytes of a slice a call writes, if there is one."""
        return next((it for it in self.parameters if it.kind == COUNT
                     and it.name == f"{parameter.name}_length"), None)


@dataclass(frozen=True)
class Group:
    """Calls of one subject, with the file of specs that has their words."""

    about: str
    specs: str
    calls: tuple[Call, ...]


@dataclass(frozen=True)
class Fault:
    number: int
    name: str
    text: str

    @property
    def constant(self) -> str:
        """The name, as `PinLength`, in the form of a constant's: `PIN_LENGTH`."""
        return re.sub(r"(?<!^)(?=[A-Z])", "_", self.name).upper()


# The call that answers the version, and takes nothing.
VERSION = Call("version", "", (), ())


@dataclass(frozen=True)
class Table:
    version: tuple[int, int, int]
    # The version of the library that first had the calls.
    since: str
    # The functions of the library that are in C alone.
    support: tuple[str, ...]
    faults: tuple[Fault, ...]
    groups: tuple[Group, ...]
    # Of words of contracts that no specs of the calls have, the file of specs.
    homes: dict[str, str]

    @property
    def calls(self) -> list[Call]:
        return [call for group in self.groups for call in group.calls]

    @property
    def exports(self) -> list[Call]:
        """All that the proved library exports, in order."""
        return [VERSION, *self.calls]

    @property
    def symbols(self) -> list[str]:
        """All names that the built library has for others, in order."""
        return [it.export for it in self.exports] + [PREFIX + it for it in self.support]

    @property
    def version_text(self) -> str:
        return ".".join(map(str, self.version))

    @property
    def version_number(self) -> int:
        major, minor, patch = self.version
        return major << 16 | minor << 8 | patch

    def fault(self, name: str) -> Fault:
        return next(it for it in self.faults if it.name == name)
