"""What `--explain` adds to the line of a fault: a line more, of the arguments as they were read, of the
fault, and of what the system says of a file.

`expected` is the whole of a run of the commands over keys and PINs; of the others `explained` has the
line, where a test says what is known of their files.
"""
from __future__ import annotations

import re
import unicodedata
from dataclasses import dataclass, field, replace
from typing import Mapping, Optional, Sequence

from ..program import Ended
from . import everyday_words
from .commands import MOST_COUNT, Refused
from .everyday_words import (
    COMMANDS, INPUTS, Files, Given, References, may_refer, resolve)
from .issuing import numbers_left
from .shown import log_numbers

# Why a file is refused.
MISSING, NO_PERMISSION, A_FOLDER, IN_USE = "no such file", "no permission", "a folder", "in use"
OTHER, READ_BEFORE = "the system refuses it", "standard input, read before"
# Why a file is not made.
THERE, NO_FOLDER = "there already", "no such folder"

HEX = frozenset(b"0123456789ABCDEFabcdef")
DECIMAL = frozenset(b"0123456789")
PRINTABLE = frozenset(range(0x20, 0x7F))
ANY = frozenset(range(256))

ONE_KEY, ANY_KEY = "32 hexadecimal digits", "32 or 48 hexadecimal digits"
PAIRS = "pairs of hexadecimal digits"
READABLE = "a file that can be read"
A_LOG = "a log, as new-log makes one, that no other uses"
A_JOURNAL = "a journal, as new-journal makes one, that no other uses"
A_LEDGER = "a ledger, as new-ledger makes one, that no other uses"
AN_OLD_LEDGER = "a ledger of version 1 that no other uses"
A_NEW_FILE = "a name that no file has, in a folder with room"
BEFORE_16 = "write FFFF before it"
COUNTER_BITS = 21
# A longer path is not told, and none that may be a key of 8, 16 or 24 bytes, a PIN or a PAN.
MOST_PATH = 512
LIKE_A_SECRET = re.compile("([0-9A-Fa-f]{16}){1,3}|[0-9]{4,19}")


@dataclass(frozen=True)
class Facts:
    """What is known of a file after a fault: why it is refused; which record of a log, from 0, or which
    line of a text, from 1, is at fault; its path, or the reference to it; and of a reference among several
    of one name which it is, from 1."""

    reason: str = OTHER
    place: Optional[int] = None
    path: str = ""
    number: Optional[int] = None


@dataclass(frozen=True)
class Asked:
    """A command with its arguments, by their names; those of which there may be many stand apart. The names
    of those that were references stand there too."""

    command: str
    texts: Mapping[str, str] = field(default_factory=dict)
    keys: Sequence[str] = ()
    flags: frozenset[str] = frozenset()
    read: frozenset[str] = frozenset()


@dataclass(frozen=True)
class Explanation:
    name: str
    found: str
    wanted: str
    way: str = ""
    path: str = ""

    def __str__(self) -> str:
        about = f"{self.name} {told_path(self.path)}".rstrip(" ") if self.path else self.name
        return f"{about}: {self.found}; wanted: {self.wanted}" + (f"; {self.way}" if self.way else "")


def told_path(path: str) -> str:
    """A path as it is told: control characters as `\\x` and two digits, and nothing of a long one, or of one
    that may be a secret."""
    alone = path.removeprefix("@")
    if not alone or len(alone.encode()) > MOST_PATH or LIKE_A_SECRET.fullmatch(alone):
        return ""
    return "".join(f"\\x{ord(it):02X}" if unicodedata.category(it) == "Cc" else it for it in path)


# What is found of a text


def first_wrong(text: str, kind: frozenset[int]) -> Optional[int]:
    """The place of the first byte that is not of a kind."""
    return next((at for at, byte in enumerate(text.encode()) if byte not in kind), None)


def measured(text: str, wrong: Optional[int]) -> str:
    """All that is told of a text, which may be a secret."""
    count = len(text.encode())
    bytes_ = "1 byte" if count == 1 else f"{count} bytes"
    return bytes_ if wrong is None else f"{bytes_}, wrong at {wrong}"


def found_in(text: str, kind: frozenset[int]) -> str:
    return measured(text, first_wrong(text, kind))


def is_16_digits(text: str) -> bool:
    return len(text) == 16 and first_wrong(text, HEX) is None


def first_one_bit(text: str) -> Optional[int]:
    """Of twenty digits: the first that has one of the last 21 bits, and that bit is one."""
    bits = f"{int(text, 16):080b}"
    one = bits.find("1", len(bits) - COUNTER_BITS)
    return None if one < 0 else one // 4


def is_count(text: str) -> bool:
    return bool(re.fullmatch("[0-9]+", text)) and int(text) <= MOST_COUNT


# Faults of one argument, by its name: what it is made of, and what is wanted.

TEXTS = {
    "BDK refused": ("BDK", HEX, ONE_KEY),
    "initial refused": ("BDK", HEX, ONE_KEY),
    "KBPK refused": ("KBPK", HEX, ANY_KEY),
    "loading refused": ("LOADING", HEX, ANY_KEY),
    "zone refused": ("ZONE", HEX, ANY_KEY),
    "fields refused": ("FIELDS", ANY, "7 bytes"),
    "pad refused": ("PAD", HEX, PAIRS),
    "PadLength": ("PAD", HEX, "12 hexadecimal digits, and 16 for each further block"),
    "block refused": ("BLOCK", HEX, "16 hexadecimal digits"),
    "PinLength": ("PIN", DECIMAL, "4 to 12 decimal digits"),
    "PinDigit": ("PIN", DECIMAL, "4 to 12 decimal digits"),
    "PanLength": ("PAN", DECIMAL, "12 to 19 decimal digits"),
    "PanDigit": ("PAN", DECIMAL, "12 to 19 decimal digits"),
    "amount refused": ("AMOUNT", DECIMAL, "a number up to 4294967295"),
    "number refused": ("NUMBER", HEX, "20 hexadecimal digits"),
    "request refused": ("REQUEST", HEX, "the frame of a request or a reversal whose number is usable",
                        "show frame tells its fields"),
    "answer refused": ("ANSWER", HEX, "the frame of a reply or of a refusal",
                       "show frame tells its fields"),
    "KIND refused": ("KIND", ANY, "frame, block, image, log, journal or ledger"),
    "records refused": ("RECORDS", DECIMAL, "1 to 1000000000"),
    "KCV refused": ("KCV", HEX, "6 hexadecimal digits"),
    "PAN refused": ("PAN", DECIMAL, "12 to 19 decimal digits"),
    "BLOCK refused": ("BLOCK", HEX, "16 hexadecimal digits"),
    "window refused": ("N", DECIMAL, "1 to 100000"),
}
A_KEY_BLOCK = ("BLOCK", ANY, "a key block of version B", "show block tells the place")
OF_UNWRAP = dict.fromkeys(("Length", "Version", "HeaderField", "OptionalBlock", "Hex"), A_KEY_BLOCK)
PRINTED_FIELDS = ("FIELDS", PRINTABLE, "printable characters")


def of_text(asked: Asked, fault: str) -> Optional[Explanation]:
    if asked.command == "unwrap":
        row = OF_UNWRAP.get(fault) or TEXTS.get(fault)
    elif asked.command in ("wrap", "lmk") and fault == "HeaderField":
        row = PRINTED_FIELDS
    else:
        row = TEXTS.get(fault)
    if row is None:
        return None
    name, kind, *rest = row
    return Explanation(name, found_in(asked.texts[name], kind), *rest)


# Faults of one argument that are told otherwise


def of_ksn(asked: Asked) -> Explanation:
    """That of a frame is read: its counter is not usable."""
    if asked.command == "show":
        return Explanation("WHAT", measured(asked.texts["WHAT"], None), "a frame whose number is usable",
                           "without --key its fields are told")
    text = asked.texts["KSN"]
    way = BEFORE_16 if is_16_digits(text) else ""
    return Explanation("KSN", found_in(text, HEX), "20 hexadecimal digits", way)


def of_counter(asked: Asked) -> Explanation:
    ones = (int(asked.texts["KSN"], 16) % (1 << COUNTER_BITS)).bit_count()
    return Explanation("KSN", f"{ones} one bits in its counter", "1 to 10",
                       "walk prints the numbers that a terminal uses")


def of_iksn(asked: Asked) -> Explanation:
    text = asked.texts["IKSN"]
    wrong = first_wrong(text, HEX)
    if len(text) == 20 and wrong is None:
        wrong = first_one_bit(text)
    way = BEFORE_16 if is_16_digits(text) else ""
    return Explanation("IKSN", measured(text, wrong), "20 hexadecimal digits, the last 21 bits zeros", way)


def of_count(asked: Asked) -> Explanation:
    if asked.command == "issue":
        return of_issued_count(asked.texts["COUNT"], int(asked.texts["IKSN"], 16), "COUNT" in asked.read)
    name = "K" if is_count(asked.texts["COUNT"]) else "COUNT"
    return Explanation(name, found_in(asked.texts[name], DECIMAL), "a number up to 1048576")


def of_issued_count(text: str, iksn: int, is_read: bool) -> Explanation:
    """It is no secret, and told as it stands where it is a number of at most 20 digits, and no reference."""
    found = text if re.fullmatch("[0-9]{1,20}", text) and not is_read else found_in(text, DECIMAL)
    return Explanation("COUNT", found,
                       f"1 to {numbers_left(iksn)}, as many as are left in IKSN's key set")


def of_key(asked: Asked) -> Explanation:
    if asked.command == "kcv":
        return of_keys(asked.keys)
    is_any = asked.command in ("wrap", "data", "lmk") or "cmac" in asked.flags
    return Explanation("KEY", found_in(asked.texts["KEY"], HEX), ANY_KEY if is_any else ONE_KEY)


def of_keys(keys: Sequence[str]) -> Explanation:
    """The first that is no key; where all are, the first that is not as long as the first one."""
    none = next((at for at, it in enumerate(keys)
                 if len(it) not in (32, 48) or first_wrong(it, HEX) is not None), None)
    if none is not None:
        name = "KEY" if len(keys) == 1 else f"KEY {none + 1}"
        return Explanation(name, found_in(keys[none], HEX), ANY_KEY)
    other = next(at for at, it in enumerate(keys) if len(it) != len(keys[0]))
    return Explanation(f"KEY {other + 1}", found_in(keys[other], HEX), "as many digits as KEY 1")


def of_message(asked: Asked) -> Explanation:
    """Of a text that refers to other bytes these are not told."""
    if "TEXT" in asked.read:
        untold = replace(asked, texts={**asked.texts, "TEXT": ""})
        return replace(of_own_message(untold), found="other bytes")
    return of_own_message(asked)


def of_own_message(asked: Asked) -> Explanation:
    if asked.command == "data":
        return of_data(asked)
    if "hex" in asked.flags:
        return Explanation("TEXT", found_in(asked.texts["TEXT"], HEX), PAIRS)
    return Explanation("TEXT", found_in(asked.texts["TEXT"], ANY), "one byte or more")


def of_data(asked: Asked) -> Explanation:
    if {"hex", "decipher"} & asked.flags:
        return Explanation("TEXT", found_in(asked.texts["TEXT"], HEX),
                           "16 hexadecimal digits for each of 1 to 255 blocks")
    return Explanation("TEXT", found_in(asked.texts["TEXT"], ANY),
                       "8 bytes for each of 1 to 255 blocks")


def of_sought(asked: Asked) -> Explanation:
    """Without an option that tells of it, it is a frame."""
    found = found_in(asked.texts["WHAT"], HEX)
    if {"TEXT", "PAN", "BLOCK"}.isdisjoint(asked.texts):
        return Explanation("WHAT", found, "the frame of a request, a reversal or a reply, which has a MAC",
                           "show frame tells its fields")
    return Explanation("WHAT", found, "16 hexadecimal digits")


def of_random(asked: Asked) -> Explanation:
    """Of several texts the first."""
    return Explanation("COMPONENT" if len(asked.keys) == 1 else "COMPONENT 1", found_in(asked.keys[0], HEX),
                       "one text of 32 or 48 random digits, of a key that kcv does not call weak")


OF_ONE = {"KSN refused": of_ksn, "counter refused": of_counter, "IKSN refused": of_iksn,
          "count refused": of_count, "key refused": of_key, "text refused": of_message,
          "random refused": of_random, "WHAT refused": of_sought, "TEXT refused": of_message}

def of_component(asked: Asked, fault: str) -> Optional[Explanation]:
    """The first component that is refused: of its text the length alone is told."""
    found = re.fullmatch("component ([0-9]) refused", fault)
    if not found:
        return None
    text = asked.keys[int(found[1]) - 1]
    return Explanation(f"COMPONENT {found[1]}", measured(text, None),
                       "32 or 48 digits as those before it, a space, and their check value")


# Faults whose line says all that is known.

NO_ROOM = Explanation("output", "a write failed", "a device with room, or a reader")
CONSTANT = {
    "NotAPinBlock": Explanation("BLOCK", "no PIN of this PAN",
                                "the PAN and the key that it was made with"),
    "OtherIksn": Explanation("NUMBER", "another IKSN", "that of KSN"),
    "SameNumber": Explanation("NUMBER", "KSN itself", "the number of the payment"),
    "NotUsable": Explanation("NUMBER", "the counter of no payment",
                             "1 to 10 one bits in its counter"),
    "NotMine": Explanation("ANSWER", "another number or kind", "the answer to REQUEST"),
    "BadMac": Explanation("ANSWER", "another MAC",
                          "the answer as it was sent, and the key of its terminal"),
    "Mac": Explanation("BLOCK", "another MAC", "the key block as it was made, and its KBPK"),
    "Payload": Explanation("BLOCK", "no such key", "a key of 16 or 24 bytes"),
    "log: too long": Explanation("WHAT", "a longer file", "at most 1073741824 bytes"),
    "journal: too long": Explanation("WHAT", "a longer file", "at most 1073741824 bytes"),
    "ledger: too long": Explanation("WHAT", "a longer file", "at most 1073741824 bytes"),
    "journal: version 1, use copy-journal": Explanation(
        "journal", "version 1", "one of version 2; make it by dukpt copy-journal OLD NEW"),
    "journal: failed": Explanation("journal", "wrong records, or a step that failed",
                                   "a journal as it was kept, on a device that works"),
    "ledger: failed": Explanation("ledger", "a step of its device failed", "a device that works",
                                  "the next number may stand in it"),
    "ledger: full": Explanation(
        "ledger", "too little room, or the largest run is 4294967295",
        "32 bytes of zeros for each number, and a largest run below 4294967295"),
    "ledger: version 1, use copy-ledger": Explanation(
        "ledger", "version 1", "one of version 2; make it by dukpt copy-ledger OLD NEW"),
    "ledger: version 2 already": Explanation("ledger", "version 2", "one of version 1",
                                             "issue takes this one as it is"),
    "ledger: damaged": Explanation("ledger", "records that no ledger has",
                                   "a ledger as it was kept"),
    "config: too long": Explanation("CONFIG", "a longer file", "at most 1048576 bytes"),
    "script: too long": Explanation("SCRIPT", "a longer file", "at most 1048576 bytes"),
    "serve: read failed": Explanation("input", "a read failed", "frames"),
    "serve: input ends in a frame": Explanation("input", "a part of a frame", "whole frames"),
    "serve: frame too long": Explanation("input", "a length above 62", "frames of requests"),
    "journal: cannot grow": Explanation("journal", "a write or a sync failed, or too many records",
                                        "a device with room for RECORDS more, of 32 bytes each"),
    "write failed": NO_ROOM,
    "script: write failed": NO_ROOM,
    "serve: write failed": NO_ROOM,
    "batch: items refused": Explanation("input", "lines that are refused", "one item a line",
                                        "the fault of each stands in its place"),
    "batch: read failed": Explanation("input", "a read failed", "one item a line"),
    "components refused": Explanation("COMPONENT", "too few or too many", "2 to 9 lines"),
    "LMK weak": Explanation("COMPONENT", "components of a weak key",
                            "components of a key that kcv does not call weak"),
    "KCV differs": Explanation("BDK", "another check value", "a key with the check value KCV",
                               "kcv prints that of a key"),
    "not found": Explanation("WHAT", "made by no key that was tried",
                             "its key, and its number among those that are tried",
                             "--from and --window choose the numbers"),
    "out of memory": Explanation("memory", "refused", "more memory"),
}

# Faults of files for which the system is asked.

REASONED = {
    "log: cannot read": ("WHAT", READABLE),
    "journal: cannot read": ("WHAT", READABLE),
    "ledger: cannot read": ("WHAT", READABLE),
    "config: cannot read": ("CONFIG", READABLE),
    "script: cannot read": ("SCRIPT", READABLE),
    "padding: cannot read": ("/dev/urandom", "a device that can be read"),
    "identity: cannot read": ("/dev/urandom", "a device that can be read"),
    "log: cannot open": ("log", A_LOG),
    "ledger: cannot open": ("ledger", A_LEDGER),
    "journal: cannot open": ("journal", A_JOURNAL),
    "log: cannot make": ("log", A_NEW_FILE),
    "journal: cannot make": ("journal", A_NEW_FILE),
    "ledger: cannot make": ("ledger", A_NEW_FILE),
    "out: cannot make": ("out", A_NEW_FILE),
}


def of_file(fault: str, facts: Facts) -> Optional[Explanation]:
    if fault in REASONED:
        name, wanted = REASONED[fault]
        return Explanation(name, facts.reason, wanted)
    record = None if facts.place is None else f"record {facts.place}"
    if fault == "log: failed":
        return Explanation("log", record or "wrong records, or a step that failed",
                           "a log as it was kept, on a device that works")
    number = re.fullmatch("([0-9A-F]{20}): (issued|not issued)", fault)
    if number and number[2] == "issued":
        return Explanation("IKSN", f"{number[1]} stands in the ledger", "numbers that do not",
                           "--skip-issued passes over them")
    if number:
        return Explanation("IKSN", f"{number[1]} does not stand in the ledger", "numbers that do",
                           "without --again it is issued")
    line = re.fullmatch("line ([0-9]+): not an event", fault)
    if line:
        return Explanation("SCRIPT", f"line {line[1]}",
                           "an event, a comment after # or an empty line")
    return None


# A secret that is a reference


OF_REFERENCE = re.compile("([A-Z]+): (cannot read|too long|not UTF-8)")


def of_reference(fault: str, facts: Facts) -> Optional[Explanation]:
    found = OF_REFERENCE.fullmatch(fault)
    if not found:
        return None
    name, why = found.groups()
    if (name, why) == ("TEXT", "too long"):
        return Explanation(name, "more bytes", "at most 16777216 bytes")
    return {"cannot read": Explanation(name, facts.reason, READABLE),
            "too long": Explanation(name, "a longer line", "at most 4096 bytes"),
            "not UTF-8": Explanation(name, "other bytes", "a line of UTF-8")}[why]


# Configurations

WANTED_OF = {
    "lmk": ANY_KEY, "zone": ANY_KEY, "loading": ONE_KEY, "terminals": "1 to 16", "log": "1 to 100000",
    "stores": "memory or disk", "bdk": "1 to 8 tables", "card": "at most 1000 tables",
}
WANTED_OF_ENTRY = {
    "bdk": "prefix, 10 hexadecimal digits, and key, 32; each prefix once",
    "card": "pan, 12 to 19 digits, pin, 4 to 12, and limit up to 4294967295; each pan once",
}
BLANKS = b" \t"


def of_config(fault: str, facts: Facts) -> Optional[Explanation]:
    line = None if facts.place is None else f"line {facts.place}"
    if fault == "config: not TOML":
        return Explanation("CONFIG", line or "other text", "TOML in UTF-8")
    if fault.startswith("config: unknown "):
        return Explanation("CONFIG", line or "another key",
                           "lmk, zone, loading, terminals, log, stores, bdk and card")
    bad = re.fullmatch("config: bad ([a-z]+)( [0-9]+)?", fault)
    if not bad:
        return None
    wanted = (WANTED_OF_ENTRY if bad[2] else WANTED_OF)[bad[1]]
    return Explanation("CONFIG", line or "the line was not found", wanted)


def line_of(config: bytes, fault: str) -> Optional[int]:
    """The line of a configuration, from 1, that a fault is of."""
    found = re.fullmatch("config: unknown (.*)|config: bad ([a-z]+)( [0-9]+)?", fault, re.S)
    if not found:
        return None
    key, place = (found[1] or found[2] or "").encode(), found[3]
    lines = [it.strip(BLANKS) for it in config.split(b"\n")]
    if place:
        heads = [at for at, it in enumerate(lines, 1) if is_head(it, key, 2)]
        return heads[int(place) - 1] if int(place) <= len(heads) else None
    return next((at for at, it in enumerate(lines, 1)
                 if is_set(it, key) or is_head(it, key, 1) or is_head(it, key, 2)), None)


def is_set(line: bytes, key: bytes) -> bool:
    """`KEY =`: the key as a whole word."""
    return line.startswith(key) and line[len(key) :].lstrip(BLANKS).startswith(b"=")


def is_head(line: bytes, key: bytes, brackets: int) -> bool:
    """`[KEY]` or `[[KEY]]`, with blanks within."""
    inner = line[brackets : len(line) - brackets]
    return line == b"[" * brackets + inner + b"]" * brackets and inner.strip(BLANKS) == key


# What is shown

SHOWN = {
    "frame": {
        "Hex": PAIRS, "Length": "the length of the frame in its first two bytes", "Version": "01",
        "Kind": "01 to 05", "Size": "the size of its kind",
        "PanLength": "0C to 13, and 35 less than the frame has bytes",
        "PanDigit": "decimal digits", "Code": "00, 14, 30, 51 or 55", "Reason": "01 to 06",
        "Reversed": "another usable number of the same IKSN", "State": "00 or 01",
    },
    "block": {
        "Length": "80 to 512 characters in eights, and their number at 1",
        "Version": "B",
        "HeaderField": "printable fields, and two decimal digits at 12",
        "OptionalBlock": "as many optional blocks as are told at 12, and 64 digits or more",
        "Hex": "hexadecimal digits",
    },
    "image": {
        "Hex": PAIRS, "Version": "01 or 02", "Length": "350 bytes of version 1, 431 of version 2",
        "Iksn": "a counter of zero", "Counter": "a counter with 1 to 10 one bits, or 200000",
        "Registers": "zeros in each register without a number",
        "Past": "past numbers with counters of zero, each once, then zeros",
    },
}
A_RECORD = {"log": "16 zero bytes, or a record as FORMATS has it",
            "journal": "32 zero bytes, or a payment as FORMATS has it",
            "ledger": "32 zero bytes, a header, or an issue as FORMATS has it"}


def of_show(asked: Asked, fault: str) -> Optional[Explanation]:
    kinds = "frame|block|image|log|journal|ledger"
    found = re.fullmatch(f"({kinds}) refused at ([0-9]+): ([A-Za-z]+)", fault)
    if not found:
        return None
    kind, place, why = found.groups()
    if kind in A_RECORD:
        return Explanation("WHAT", f"record {place}", A_RECORD[kind])
    wrong = int(place) if why == "Hex" else None
    return Explanation("WHAT", measured(asked.texts["WHAT"], wrong), SHOWN[kind][why])


def damaged_record(log: bytes) -> Optional[int]:
    """The record at which these bytes are no log, from 0."""
    try:
        log_numbers(log)
    except Refused as why:
        return int(str(why).split()[3].rstrip(":"))
    return None


# The whole


def explained(asked: Asked, fault: str, facts: Facts = Facts()) -> str:
    """The line behind that of a fault; neither has its end here."""
    of_this = OF_ONE.get(fault)
    found = (CONSTANT.get(fault) or of_show(asked, fault) or of_reference(fault, facts)
             or of_file(fault, facts) or of_config(fault, facts) or of_text(asked, fault)
             or of_component(asked, fault) or (of_this and of_this(asked)))
    if not found:
        raise ValueError(f"there is no such fault: {fault}")
    name = found.name if facts.number is None else f"{found.name} {facts.number}"
    return str(replace(found, name=name, path=facts.path))


def secret_words(name: str, given: Given) -> list[tuple[str, str]]:
    """The arguments that may be references, each with its name, in the order in which they are read."""
    command = COMMANDS[name]
    words = [(command.values[0 if command.is_many else at], word) for at, word in enumerate(given.values)]
    words += [(called, given.valued[option]) for option, called in command.valued.items()
              if option in given.valued]
    return [(called, word) for called, word in words if may_refer(called)]


def message_in(name: str, given: Given) -> str:
    """The word of TEXT; empty where there is none."""
    values = dict(zip(COMMANDS[name].values, given.values))
    return values.get("TEXT", given.valued.get("text", ""))


def refers_to_bytes(word: str) -> bool:
    """Whether TEXT stands for the bytes of a file or of standard input."""
    return word.startswith("@") and not word.startswith("@@")


def facts_of_reference(name: str, given: Given, references: References) -> Facts:
    """What is known of the reference that is not read: the first in their order. Standard input can be read,
    once."""
    secrets, is_input_read = secret_words(name, given), False
    names = [called for called, _ in secrets]
    for at, (called, word) in enumerate(secrets):
        try:
            references.text(called, word)
        except Refused:
            reason = MISSING if word not in INPUTS else READ_BEFORE if is_input_read else OTHER
            number = names[: at + 1].count(called) if names.count(called) > 1 else None
            return Facts(reason, path=word, number=number)
        is_input_read = is_input_read or word in INPUTS
    return Facts()


def asked_by(name: str, given: Given) -> Asked:
    command = COMMANDS[name]
    texts = {} if command.is_many else dict(zip(command.values, given.values))
    texts.update({called: given.valued[option] for option, called in command.valued.items()
                  if option in given.valued})
    return Asked(name, texts, given.values if command.is_many else (), frozenset(given.flags))


def expected(words: Sequence[str], files: Optional[Files] = None, given: bytes = b"") -> Ended:
    """How a run of these words with `--explain` among them ends. A file that is not among these does
    not exist."""
    ended = everyday_words.expected(words, files, given)
    if ended.status != 1:
        return ended
    name, fault = words[0], ended.faults.decode()[:-1]
    said = everyday_words.read(words[1:], COMMANDS[name])
    facts, message = facts_of_reference(name, said, References(files or {}, given)), message_in(name, said)
    read = frozenset(called for called, word in secret_words(name, said) if word.startswith("@"))
    if refers_to_bytes(message):
        read |= {"TEXT"}
        if fault.upper().startswith("TEXT"):
            facts = Facts(MISSING, path=message)
    try:
        resolve(COMMANDS[name], said, References(files or {}, given))
    except Refused:
        # Its line is that of the run.
        pass
    line = explained(replace(asked_by(name, said), read=read), fault, facts)
    return Ended(1, ended.output, ended.faults + f"{line}\n".encode())
