"""How the program has to end on arguments of the commands over keys and PINs, by docs/COMMANDS.md:
its status, its output and its faults, to the letter.

First the arguments are read as such; then the references, each in its turn; then the
command does its work, by `everyday` and `commands`. Of arguments that are refused as such, whose text
is of `clap`, only the first line is known here.
"""
from __future__ import annotations

from dataclasses import dataclass, field
from typing import Callable, Mapping, Optional, Sequence

from ..program import Ended
from .commands import Refused, pin_lines, unwrap_lines, wrap_lines
from .everyday import (
    data_lines, derive_lines, initial_lines, kcv_lines, lmk_lines, mac_lines, registers_lines, reply_lines,
    request_lines, translate_lines, unpin_lines, walk_lines)
from .finding import find_lines
from .shown import show_lines

# What a file named by a reference holds; one that is missing here cannot be read.
Files = Mapping[str, bytes]
Lines = Callable[..., list[str]]

MOST_BYTES = 4096
# The most bytes of a TEXT that is a file, or standard input.
MOST_MESSAGE = 1 << 24
MOST_KEYS = 16
# Arguments and values of options that are secrets.
SECRETS = {"BDK", "KBPK", "LOADING", "PIN", "PAN", "ZONE"}
OF_COMMANDS = {"wrap": {"KEY"}, "kcv": {"KEY"}, "lmk": {"COMPONENT", "KEY"}, "mac": {"KEY"}, "data": {"KEY"},
               "pin": {"KEY"}, "unpin": {"KEY", "BLOCK"}, "translate": {"BLOCK"}, "show": {"WHAT"},
               "find": {"WHAT", "BLOCK"}}


@dataclass
class Given:
    """What stands behind a command."""

    values: list[str] = field(default_factory=list)
    flags: set[str] = field(default_factory=set)
    valued: dict[str, str] = field(default_factory=dict)
    # Whether an option stood behind a value.
    is_after: bool = False


@dataclass(frozen=True)
class Command:
    """The names of a command's arguments, its options with what they take, and what it writes.

    An option is handed on by its name, or by another one where that is a word of Python."""

    lines: Lines
    values: tuple[str, ...]
    flags: tuple[str, ...] = ()
    valued: Mapping[str, str] = field(default_factory=dict)
    is_many: bool = False
    # How many of the arguments are demanded, where some may be left out.
    least: Optional[int] = None
    # Why what is given does not fit together, if it does not.
    unfit: Optional[Callable[[Given], Optional[str]]] = None


def no_lines(*_values: object, **_options: object) -> list[str]:
    raise NotImplementedError("what it writes does not follow from its arguments")


NO_REVERSAL = ("PAN, PIN and AMOUNT are required without '--reverse <NUMBER>', "
               "and cannot be used with it")
NO_SEARCH = ("'--text <TEXT>', '--pan <PAN>' and '--clear <BLOCK>' cannot be used with each other and "
             "require '--from <KSN>', and '--hex' requires '--text <TEXT>'")
NO_BLOCK = ("'--key <KEY>', '--fields <FIELDS>' and '--pad <PAD>' require each other, "
            "and cannot be used with '--new'")
NO_TEST = "'--key <BDK>' requires the KIND frame, and '--initial' requires '--key <BDK>'"


def unfit_payment(given: Given) -> Optional[str]:
    """All that a payment has, or a number to reverse, and nothing of a payment."""
    return NO_REVERSAL if len(given.values) != (2 if "reverse" in given.valued else 5) else None


def unfit_search(given: Given) -> Optional[str]:
    """One at most that tells what is sought, with the number from which on."""
    told = [it for it in ("text", "pan", "clear") if it in given.valued]
    is_fit = (len(told) <= 1 and (not told or "from" in given.valued)
              and ("hex" not in given.flags or told == ["text"]))
    return None if is_fit else NO_SEARCH


def unfit_block(given: Given) -> Optional[str]:
    """All that a key block is made of, or a new component, or neither."""
    return NO_BLOCK if len(given.valued) + 3 * len(given.flags) not in (0, 3) else None


def unfit_test(given: Given) -> Optional[str]:
    """A key tests a frame alone."""
    is_fit = given.values[0] == "frame" if "key" in given.valued else "initial" not in given.flags
    return None if is_fit else NO_TEST


INITIAL = ("initial",)
COMMANDS = {
    "derive": Command(derive_lines, ("BDK", "KSN"), ("initial", "trace", "all")),
    "walk": Command(walk_lines, ("BDK", "IKSN", "COUNT"), ("ksn", "initial"), {"skip": "K"}),
    "pin": Command(pin_lines, ("PIN", "PAN"), (), {"key": "KEY"}),
    "wrap": Command(wrap_lines, ("KBPK", "FIELDS", "KEY", "PAD")),
    "unwrap": Command(unwrap_lines, ("KBPK", "BLOCK")),
    "initial": Command(initial_lines, ("BDK", "IKSN")),
    "registers": Command(registers_lines, ("BDK", "KSN"), INITIAL),
    "kcv": Command(kcv_lines, ("KEY",), ("components", "show"), is_many=True),
    "lmk": Command(lmk_lines, ("COMPONENT",), ("new",),
                   {"key": "KEY", "fields": "FIELDS", "pad": "PAD"}, is_many=True, unfit=unfit_block),
    "mac": Command(mac_lines, ("KEY", "TEXT"), ("cmac", "hex")),
    "data": Command(data_lines, ("KEY", "TEXT"), ("decipher", "hex"), {"iv": "BLOCK"}),
    "unpin": Command(unpin_lines, ("BLOCK", "PAN"), ("show",), {"key": "KEY"}),
    "translate": Command(translate_lines, ("BLOCK", "PAN", "BDK", "KSN", "ZONE"), INITIAL),
    # Its lines are random: `issuing` reads them.
    "issue": Command(no_lines, ("BDK", "LOADING", "IKSN", "COUNT"), ("skip-issued", "again"),
                     {"ledger": "FILE", "bdk-kcv": "KCV", "out": "FILE"}),
    # A text; the logs are files.
    "show": Command(show_lines, ("KIND", "WHAT"), ("show", "initial"), {"key": "BDK"},
                    unfit=unfit_test),
    "request": Command(request_lines, ("BDK", "KSN", "PAN", "PIN", "AMOUNT"), INITIAL,
                       {"reverse": "NUMBER"}, least=2, unfit=unfit_payment),
    "reply": Command(reply_lines, ("BDK", "REQUEST", "ANSWER"), INITIAL),
    "find": Command(find_lines, ("BDK", "WHAT"), ("hex", "initial"),
                    {"from": "KSN", "window": "N", "text": "TEXT", "pan": "PAN", "clear": "BLOCK"},
                    unfit=unfit_search),
}
# What an option is called where Python has another use for its name.
HANDED = {"all": "all_", "hex": "hex_", "cmac": "is_cmac", "from": "from_"}


# Arguments that are not the first line of a reference: a word of the program's, a text of any bytes,
# names of files.
NEVER_REFERENCES = {"KIND", "TEXT", "FILE"}


def is_secret(command: str, name: str) -> bool:
    return name in SECRETS or name in OF_COMMANDS.get(command, ())


def may_refer(name: str) -> bool:
    """Whether an argument may be a reference."""
    return name not in NEVER_REFERENCES


class ArgumentsRefused(Exception):
    """The first line that tells why arguments are refused as such."""


def read(words: Sequence[str], command: Command) -> Given:
    """Options stand anywhere before `--`, each once, but not between values of which there may be
    many. All else are values, as many as there may be. That an option comes again whose value is a
    word of its own is told after the next word, unless that one is unexpected."""
    given, left, is_over, again = Given(), list(words), False, None
    while left:
        word = left.pop(0)
        if not is_over and word == "--":
            is_over = True
            continue
        try:
            once_more = read_word(word, is_over, left, command, given)
        except ArgumentsRefused as why:
            raise ArgumentsRefused(again) if again and not str(why).startswith("unexpected ") else why
        if again:
            raise ArgumentsRefused(again)
        again = once_more
    if again:
        raise ArgumentsRefused(again)
    demand_count(command, given)
    demand_fit(command, given)
    return given


def read_word(
    word: str, is_over: bool, left: list[str], command: Command, given: Given
) -> Optional[str]:
    """Reads an option, or a value. What is to be told of an option with a value that came before."""
    if not is_over and word.startswith("--"):
        again = read_option(word[2:], left, command, given)
        given.is_after = bool(given.values)
        return again
    if not is_over and word.startswith("-") and word != "-":
        raise ArgumentsRefused(f"unexpected argument '{word}' found")
    if command.is_many and given.is_after:
        demand_count(command, given)
        raise ArgumentsRefused(f"the argument '<{command.values[0]}>...' cannot be used multiple times")
    if len(given.values) == len(command.values) and not command.is_many:
        raise ArgumentsRefused(f"unexpected argument '{word}' found")
    given.values.append(word)
    return None


def demand_count(command: Command, given: Given) -> None:
    """Of too many keys the last one is named."""
    if command.is_many and len(given.values) > MOST_KEYS:
        raise ArgumentsRefused(
            f"unexpected value '{given.values[-1]}' for '<{command.values[0]}>...' found; "
            "no more were expected")
    least = len(command.values) if command.least is None else command.least
    if len(given.values) < least:
        raise ArgumentsRefused("the following required arguments were not provided:")


def demand_fit(command: Command, given: Given) -> None:
    """What does not fit together is told when all of it is read."""
    why = command.unfit(given) if command.unfit else None
    if why is not None:
        raise ArgumentsRefused(why)


def read_option(word: str, left: list[str], command: Command, given: Given) -> Optional[str]:
    name, equals, value = word.partition("=")
    if name in given.flags and not equals:
        raise ArgumentsRefused(f"the argument '--{name}' cannot be used multiple times")
    if name in command.flags and not equals:
        given.flags.add(name)
    elif name in command.valued and (equals or left and (left[0] == "-" or left[0][:1] != "-")):
        told, is_again = value if equals else left.pop(0), name in given.valued
        given.valued.setdefault(name, told)
        if is_again:
            again = f"the argument '--{name} <{command.valued[name]}>' cannot be used multiple times"
            if equals:
                raise ArgumentsRefused(again)
            return again
    elif name in command.flags:
        raise ArgumentsRefused(
            f"unexpected value '{value}' for '--{name}' found; no more were expected")
    elif name in command.valued:
        raise ArgumentsRefused(
            f"a value is required for '--{name} <{command.valued[name]}>' but none was supplied")
    else:
        raise ArgumentsRefused(f"unexpected argument '--{name}' found")
    return None


# Secrets by reference


# What refers to standard input.
INPUTS = ("@-", "@/dev/stdin", "@/dev/fd/0", "@/proc/self/fd/0")


class References:
    """Reads what references name; a line of standard input once, and then all that is left of it."""

    def __init__(self, files: Files, given: bytes) -> None:
        self.files = files
        self.given: Optional[bytes] = given
        self.left = given

    def text(self, name: str, word: str) -> str:
        if not word.startswith("@"):
            return word
        if word in INPUTS:
            data, self.given = self.given, None
            self.left = self.left.partition(b"\n")[2]
        else:
            data = self.files.get(word[1:])
        if data is None:
            raise Refused(f"{name}: cannot read")
        return first_line(name, data)


    def message(self, word: str) -> str:
        """What TEXT stands for: all bytes of a file, or what is left of standard input, as a text whose
        bytes they are. Behind a second @ it is the word itself."""
        if not word.startswith("@"):
            return word
        data = self.left if word in INPUTS else self.files.get(word[1:])
        if word.startswith("@@"):
            return word[1:]
        if data is None:
            raise Refused("TEXT: cannot read")
        if len(data) > MOST_MESSAGE:
            raise Refused("TEXT: too long")
        return data.decode(errors="surrogateescape")


def first_line(name: str, data: bytes) -> str:
    """The first line without its end, which is LF or CR LF."""
    line, end, _ = data.partition(b"\n")
    if end and line.endswith(b"\r"):
        line = line[:-1]
    if len(line) > MOST_BYTES:
        raise Refused(f"{name}: too long")
    try:
        return line.decode()
    except UnicodeDecodeError:
        raise Refused(f"{name}: not UTF-8") from None


def resolve(command: Command, given: Given, references: References) -> None:
    """Puts texts in the place of references: of the values in their order, then of the options."""
    for at, word in enumerate(given.values):
        called = command.values[0 if command.is_many else at]
        if may_refer(called):
            given.values[at] = references.text(called, word)
    for option, called in command.valued.items():
        if option in given.valued and may_refer(called):
            given.valued[option] = references.text(called, given.valued[option])
    if "TEXT" in command.values:
        at = command.values.index("TEXT")
        given.values[at] = references.message(given.values[at])
    if "text" in given.valued:
        given.valued["text"] = references.message(given.valued["text"])


# The whole


def lines_of(name: str, given: Given) -> list[str]:
    command = COMMANDS[name]
    options: dict[str, object] = {HANDED.get(it, it): True for it in given.flags}
    options.update({HANDED.get(it, it): value for it, value in given.valued.items()})
    values = [given.values] if command.is_many else given.values
    return command.lines(*values, **options)


def expected(words: Sequence[str], files: Optional[Files] = None, given: bytes = b"") -> Ended:
    """How a run with these arguments ends. Of refused arguments it has the first line alone."""
    name, *rest = words
    try:
        said = read(rest, COMMANDS[name])
    except ArgumentsRefused as why:
        return Ended(2, b"", f"error: {why}\n".encode())
    try:
        resolve(COMMANDS[name], said, References(files or {}, given))
        lines = lines_of(name, said)
    except Refused as why:
        return Ended(1, b"", f"{why}\n".encode())
    status = 3 if name == "reply" and lines[0].startswith("refused ") else 0
    return Ended(status, "".join(f"{line}\n" for line in lines).encode(), b"")
