"""What `show` prints, by docs/COMMANDS.md: the fields of a frame, a key block, an image, a log or a
journal, read by docs/FORMATS.md; or the first field that is wrong, and where it begins."""
from __future__ import annotations

import re
from typing import Callable, NoReturn, Optional

from ..formats.checked_journal import plain_of
from ..formats.frames import Request, Reversal, reverses
from ..formats.images import IMAGE_1, IMAGE_2, RECORD
from ..program import Ended
from ..standards.des import decrypt_block
from ..standards.dukpt import (
    COUNTER_BITS, MOST_PAST, NO_KEY, SPENT, counter_of, held, initial_key, iksn_of, key_of, pin_key,
    request_key, response_key, serial_text, usable)
from ..standards.key_blocks import HEXADECIMAL, LENGTHS, PRINTED
from ..standards.macs import retail_mac
from ..standards.pin_blocks import PAN_LENGTHS
from .commands import DOUBLE, Refused, hexadecimal, shown
from .finding import frame_with_mac

CODES = {"00": "approved", "14": "no such card", "30": "PIN block unreadable",
         "51": "over the card's limit", "55": "wrong PIN"}
STATES = ("00 none stands", "01 undone")
REASONS = ("malformed", "unknown key set", "bad counter", "bad MAC", "used", "log full")

# The tables of ANSI X9.143, in words of this project.
USAGES = {
    "B0": "base derivation key", "B1": "initial DUKPT key", "B2": "base key variant key",
    "B3": "key derivation key, not ANSI X9.24", "C0": "card verification key",
    "D0": "symmetric key for data encryption", "D1": "asymmetric key for data encryption",
    "D2": "data encryption key for a decimalization table",
    "D3": "data encryption key for sensitive data",
    "E0": "EMV issuer master key, application cryptograms",
    "E1": "EMV issuer master key, secure messaging for confidentiality",
    "E2": "EMV issuer master key, secure messaging for integrity",
    "E3": "EMV issuer master key, data authentication code",
    "E4": "EMV issuer master key, dynamic numbers",
    "E5": "EMV issuer master key, card personalization", "E6": "EMV issuer master key, other",
    "E7": "EMV asymmetric key pair for PIN block encryption", "I0": "initialization vector",
    "K0": "key encryption or wrapping", "K1": "TR-31 key block protection key",
    "K2": "TR-34 asymmetric key", "K3": "asymmetric key for key agreement or key wrapping",
    "K4": "ISO 20038 key block protection key", "M0": "ISO 16609 MAC algorithm 1, using TDEA",
    "M1": "ISO 9797-1 MAC algorithm 1", "M2": "ISO 9797-1 MAC algorithm 2",
    "M3": "ISO 9797-1 MAC algorithm 3", "M4": "ISO 9797-1 MAC algorithm 4",
    "M5": "ISO 9797-1:1999 MAC algorithm 5", "M6": "ISO 9797-1:2011 MAC algorithm 5, CMAC",
    "M7": "HMAC", "M8": "ISO 9797-1:2011 MAC algorithm 6", "P0": "PIN encryption",
    "P1": "PIN generation", "S0": "asymmetric key pair for digital signature",
    "S1": "asymmetric key pair, CA key", "S2": "asymmetric key pair, not ANSI X9.24",
    "V0": "PIN verification, other algorithm", "V1": "PIN verification, IBM 3624",
    "V2": "PIN verification, VISA PVV", "V3": "PIN verification, ANSI X9.132 algorithm 1",
    "V4": "PIN verification, ANSI X9.132 algorithm 2",
    "V5": "PIN verification, ANSI X9.132 algorithm 3",
}
ALGORITHMS = {"A": "AES", "D": "DEA", "E": "elliptic curve", "H": "HMAC", "R": "RSA", "S": "DSA",
              "T": "TDEA"}
MODES = {
    "B": "both encrypt and decrypt, or wrap and unwrap", "C": "both generate and verify",
    "D": "decrypt or unwrap only", "E": "encrypt or wrap only", "G": "generate only",
    "N": "no special restrictions", "S": "signature only", "T": "both sign and decrypt",
    "V": "verify only", "X": "derive other keys", "Y": "create key variants",
}
EXPORTABILITIES = {"E": "exportable under a trusted key, in a form of ANSI X9.24",
                   "N": "not exportable", "S": "sensitive, exportable under a key in another form"}


def stop(kind: str, place: int, fault: str) -> NoReturn:
    raise Refused(f"{kind} refused at {place}: {fault}")


def bytes_in(kind: str, text: str) -> bytes:
    """The bytes of a text in hexadecimal; places are those of its characters as bytes."""
    data = text.encode()
    wrong = next((at for at, it in enumerate(data) if it not in HEXADECIMAL), len(data))
    if wrong < len(data) or len(data) % 2:
        stop(kind, wrong, "Hex")
    return bytes.fromhex(text)


# Frames


def frame_lines(text: str) -> list[str]:
    data = bytes_in("frame", text)
    if len(data) < 2 or int.from_bytes(data[:2], "big") != len(data) - 2:
        stop("frame", 0, "Length")
    if data[2:3] != b"\x01":
        stop("frame", 2, "Version")
    if not 1 <= int.from_bytes(data[3:4], "big") <= len(OF_KINDS):
        stop("frame", 3, "Kind")
    return OF_KINDS[data[3] - 1](data)


def request_lines(data: bytes) -> list[str]:
    count = len(data) - 2 - 33
    if count not in PAN_LENGTHS:
        stop("frame", 0, "Size")
    if data[14] != count:
        stop("frame", 14, "PanLength")
    pan, rest = data[15 : 15 + count], data[15 + count :]
    if not re.fullmatch(b"[0-9]*", pan):
        stop("frame", 15, "PanDigit")
    return ["frame request", f"ksn {shown(data[4:14])}", f"pan {pan.decode()}",
            f"amount {int.from_bytes(rest[:4], 'big')}", f"pin-block {shown(rest[4:12])}",
            f"mac {shown(rest[12:])}"]


def reply_lines(data: bytes) -> list[str]:
    if len(data) != 24:
        stop("frame", 0, "Size")
    code = data[14:16].decode("latin-1")
    if code not in CODES:
        stop("frame", 14, "Code")
    return ["frame reply", f"ksn {shown(data[4:14])}", f"code {code} {CODES[code]}",
            f"mac {shown(data[16:])}"]


def refusal_lines(data: bytes) -> list[str]:
    if len(data) != 15:
        stop("frame", 0, "Size")
    if not 1 <= data[14] <= len(REASONS):
        stop("frame", 14, "Reason")
    return ["frame refusal", f"ksn {shown(data[4:14])}", f"reason {data[14]} {REASONS[data[14] - 1]}"]


def reversal_lines(data: bytes) -> list[str]:
    if len(data) != 32:
        stop("frame", 0, "Size")
    return ["frame reversal", *numbers_lines(data), f"mac {shown(data[24:])}"]


def reversal_reply_lines(data: bytes) -> list[str]:
    if len(data) != 33:
        stop("frame", 0, "Size")
    numbers, state = numbers_lines(data), data[24]
    if state >= len(STATES):
        stop("frame", 24, "State")
    return ["frame reversal-reply", *numbers, f"state {STATES[state]}", f"mac {shown(data[25:])}"]


def numbers_lines(data: bytes) -> list[str]:
    """The number of a reversal and the one that it reverses."""
    serial, other = data[4:14], data[14:24]
    if not reverses(int.from_bytes(serial, "big"), int.from_bytes(other, "big")):
        stop("frame", 14, "Reversed")
    return [f"ksn {shown(serial)}", f"reversed {shown(other)}"]


OF_KINDS = (request_lines, reply_lines, refusal_lines, reversal_lines, reversal_reply_lines)


# Key blocks


def block_lines(text: str) -> list[str]:
    data = text.encode()
    if data[:1] in (b"A", b"C", b"D", b"E"):
        stop("block", 0, "Version")
    if len(data) not in LENGTHS or len(data) % 8 or data[1:5] != b"%04d" % len(data):
        stop("block", 1, "Length")
    if data[:1] != b"B":
        stop("block", 0, "Version")
    for place in range(5, 14):
        if data[place] not in (PRINTED if place < 12 else b"0123456789"):
            stop("block", place, "HeaderField")
    blocks, at = optional_blocks(data)
    wrong = next((place for place in range(at, len(data)) if data[place] not in HEXADECIMAL), None)
    if wrong is not None:
        stop("block", wrong, "Hex")
    return [
        "version B", f"length {len(data)}", worded("usage", text[5:7], USAGES),
        worded("algorithm", text[7], ALGORITHMS), worded("mode", text[8], MODES),
        f"key-version {text[9:11]}", worded("exportability", text[11], EXPORTABILITIES),
        f"optional-blocks {int(text[12:14])}", f"reserved {escaped(data[14:16])}",
        *(f"optional-block {escaped(it)}" for it in blocks),
        f"ciphertext {data[at:-16].decode()}", f"mac {data[-16:].decode()}"]


def escaped(data: bytes) -> str:
    """A part of a text on one line: what is no printable character of ASCII stands as its digits."""
    return "".join(
        "\\\\" if byte == 0x5C else chr(byte) if byte in PRINTED else f"\\x{byte:02X}"
        for byte in data)


def optional_blocks(data: bytes) -> tuple[list[bytes], int]:
    """Each optional block, and where what follows them begins."""
    found, at = [], 16
    for _ in range(int(data[12:14])):
        digits = data[at + 2 : at + 4]
        length = int(digits, 16) if len(digits) == 2 and HEXADECIMAL.issuperset(digits) else 0
        if length < 4 or at + length > len(data):
            stop("block", at, "OptionalBlock")
        found.append(data[at : at + length])
        at += length
    if len(data) - at < 64 or (len(data) - at) % 16:
        stop("block", at, "OptionalBlock")
    return found, at


def worded(name: str, value: str, table: dict[str, str]) -> str:
    return f"{name} {value} {table.get(value, 'unknown')}"


# Images


def image_lines(text: str, show: bool = False) -> list[str]:
    data = bytes_in("image", text)
    version = data[0] if data else 0
    if version not in (1, 2):
        stop("image", 0, "Version")
    size = IMAGE_1 if version == 1 else IMAGE_2
    if len(data) != size:
        stop("image", min(len(data), size), "Length")
    iksn, counter = int.from_bytes(data[1:11], "big"), int.from_bytes(data[11:14], "big")
    if counter_of(iksn):
        stop("image", 1, "Iksn")
    if not (usable(counter) or counter == SPENT):
        stop("image", 11, "Counter")
    lines = [f"version {version}", f"iksn {serial_text(iksn)}",
             "next spent" if counter == SPENT else f"next {serial_text(iksn + counter)}"]
    for place in range(COUNTER_BITS):
        key = data[14 + 16 * place : 30 + 16 * place]
        if key != NO_KEY and held(counter, place) is None:
            stop("image", 14, "Registers")
        state = "empty" if key == NO_KEY else shown(key) if show else "filled"
        lines.append(f"register {place} {COUNTER_BITS - place} {state}")
    return lines + ([f"past {serial_text(it)}" for it in past_in(data[IMAGE_1:], iksn)]
                    if version == 2 else [])


def past_in(data: bytes, iksn: int) -> list[int]:
    """The initial key serial numbers of an image of version 2 that were before."""
    count, places = data[0], data[1:]
    if count > MOST_PAST or any(places[10 * count :]):
        stop("image", IMAGE_1, "Past")
    past = [int.from_bytes(places[at : at + 10], "big") for at in range(0, 10 * count, 10)]
    if len({iksn, *past}) != count + 1 or any(map(counter_of, past)):
        stop("image", IMAGE_1, "Past")
    return past


# Logs


def log_numbers(data: bytes) -> list[int]:
    """The first record that is wrong, and behind whole ones the one in which the bytes end."""
    numbers: list[int] = []
    for place in range(len(data) // RECORD):
        record = data[RECORD * place : RECORD * (place + 1)]
        if record[0] != 1:
            continue
        if len(numbers) < place or any(record[11:]):
            stop("log", place, "Damaged")
        numbers.append(int.from_bytes(record[1:11], "big"))
    if not data or len(data) % RECORD:
        stop("log", len(data) // RECORD, "Damaged")
    return numbers


def log_lines(data: bytes) -> list[str]:
    numbers = log_numbers(data)
    demand_one_log(numbers)
    of: dict[int, list[int]] = {}
    for it in numbers:
        of.setdefault(iksn_of(it), []).append(it)
    return [f"numbers {len(numbers)}", f"room {len(data) // RECORD - len(numbers)}",
            *(f"terminal {serial_text(iksn)} {len(it)} {serial_text(it[0])} {serial_text(it[-1])}"
              for iksn, it in of.items())]


def demand_one_log(numbers: list[int]) -> None:
    """All are of transactions, as in the log of a host, or all are initial key serial numbers, as in
    a ledger; none comes again."""
    earlier = set[int]()
    is_ledger = bool(numbers) and numbers[0] == iksn_of(numbers[0])
    for place, it in enumerate(numbers):
        counter = it - iksn_of(it)
        is_right = counter == 0 if is_ledger else 1 <= bin(counter).count("1") <= 10
        if it in earlier or not is_right:
            stop("log", place, "Damaged")
        earlier.add(it)


# Journals of payments and reversals, whose records are of 32 bytes

ENTRY_BYTES = 32
MOST_FOLLOWERS = 4095
# Behind a reversal, where a payment has its code, stands this more than the state.
OF_A_STATE = 128


def journal_lines(data: bytes) -> list[str]:
    """The lines of a journal of either version, or the first record behind the header that does not go
    on with those before it."""
    plain = plain_of(data)
    if plain is None:
        return record_lines(data, not data)
    identity = data[16:24].hex().upper()
    return ["version 2", f"identity {identity}", *record_lines(plain, False)]


def record_lines(data: bytes, is_none: bool) -> list[str]:
    """The lines of records, which are no journal where there is none."""
    whole = len(data) // ENTRY_BYTES
    rows: list[tuple[int, bytes]] = []
    left, first, ended, known = 0, 0, False, set[int]()
    for place in range(whole):
        record = data[ENTRY_BYTES * place : ENTRY_BYTES * (place + 1)]
        inside, is_open = left > 0, record[0] == 1
        if not inside and not is_open:
            ended = True
            continue
        number, followers = int.from_bytes(record[4:14], "big"), int.from_bytes(record[2:4], "big")
        if (ended or inside == is_open or not is_decided(record)
                or followers > (0 if inside else MOST_FOLLOWERS)
                or any(record[27:]) or not usable(counter_of(number)) or number in known):
            stop("journal", place, "Damaged")
        known.update({number, reversed_by(record)} if record[1] == 2 else {number})
        left, first = (left - 1, first) if inside else (followers, place)
        rows.append((first, record))
    if left or is_none or len(data) % ENTRY_BYTES:
        stop("journal", whole, "Damaged")
    records = [record for _, record in rows]
    payments = sum(it[1] == 1 for it in records)
    reversals = len(records) - payments
    return [*(entry_line(place, *row) for place, row in enumerate(rows)),
            f"payments {payments}", *([f"reversals {reversals}"] if reversals else []),
            f"room {whole - len(rows)}", *payer_lines(records)]


def is_decided(record: bytes) -> bool:
    """Whether it has a kind, and what goes with that: a payment's code, or a reversal's state and
    the counter of another number."""
    counter, own = int.from_bytes(record[14:18], "big"), int.from_bytes(record[4:14], "big")
    if record[1] == 2:
        return (record[18] - OF_A_STATE in range(len(STATES)) and usable(counter)
                and counter != counter_of(own))
    return record[1] == 1 and f"{record[18]:02}" in CODES


def reversed_by(record: bytes) -> int:
    """The number that a reversal is of."""
    return iksn_of(int.from_bytes(record[4:14], "big")) + int.from_bytes(record[14:18], "big")


def entry_line(place: int, first: int, record: bytes) -> str:
    front, mac = f"{place} group {first} ksn {shown(record[4:14])}", shown(record[19:27])
    if record[1] == 2:
        return (f"reversal {front} of {serial_text(reversed_by(record))} mac {mac}"
                f" state {STATES[record[18] - OF_A_STATE]}")
    code = f"{record[18]:02}"
    return (f"payment {front} amount {int.from_bytes(record[14:18], 'big')} mac {mac}"
            f" code {code} {CODES[code]}")


def payer_lines(records: list[bytes]) -> list[str]:
    of: dict[int, list[bytes]] = {}
    undone = {reversed_by(it) for it in records if it[1] == 2}
    for it in records:
        of.setdefault(iksn_of(int.from_bytes(it[4:14], "big")), []).append(it)
    return [payer_line(iksn, own, undone) for iksn, own in of.items()]


def payer_line(iksn: int, own: list[bytes], undone: set[int]) -> str:
    """Of one terminal: what is undone is no part of the sum, and is counted, where any is."""
    approved = [it for it in own if it[1] == 1 and it[18] == 0]
    standing = [it for it in approved if int.from_bytes(it[4:14], "big") not in undone]
    amount = sum(int.from_bytes(it[14:18], "big") for it in standing)
    tail = f" undone {len(approved) - len(standing)}" if len(standing) < len(approved) else ""
    return (f"terminal {serial_text(iksn)} {sum(it[1] == 1 for it in own)} {shown(own[0][4:14])}"
            f" {shown(own[-1][4:14])} approved {amount}{tail}")


# The whole


def printed(lines: list[str]) -> bytes:
    return "".join(f"{line}\n" for line in lines).encode(errors="surrogateescape")


KINDS: dict[str, Callable[[str], list[str]]] = {
    "frame": frame_lines, "block": block_lines, "image": image_lines}


def show_lines(kind: str, what: str, show: bool = False, key: Optional[str] = None,
               initial: bool = False) -> list[str]:
    """The lines of a text."""
    if kind not in KINDS:
        raise Refused("KIND refused")
    if key is not None:
        return checked_lines(what, show, key, initial)
    return image_lines(what, show) if kind == "image" else KINDS[kind](what)


def checked_lines(what: str, show: bool, key: str, initial: bool) -> list[str]:
    """The lines of a frame, and what its MAC is under the key of its number."""
    base = hexadecimal(key, DOUBLE, "initial" if initial else "BDK")
    lines, frame = frame_lines(what), frame_with_mac(bytes.fromhex(what))
    if frame is None:
        return lines
    if not usable(counter_of(frame.serial)):
        raise Refused("KSN refused")
    own = key_of(base if initial else initial_key(base, iksn_of(frame.serial)), frame.serial)
    is_sent = isinstance(frame, (Request, Reversal))
    mac = retail_mac(request_key(own) if is_sent else response_key(own), frame.text)
    lines += [f"mac-expected {shown(mac)}", f"mac-check {'right' if mac == frame.mac else 'wrong'}"]
    if show and isinstance(frame, Request):
        clear = decrypt_block(pin_key(own), frame.block.to_bytes(8, "big"))
        lines.append(f"clear-pin-block {shown(clear)}")
    return lines


def ended(kind: str, what: str, show: bool = False) -> Ended:
    """How a run ends over a text."""
    try:
        return Ended(0, printed(show_lines(kind, what, show)), b"")
    except Refused as why:
        return Ended(1, b"", f"{why}\n".encode())


def log_ended(data: bytes) -> Ended:
    """How a run ends over a log of these bytes."""
    try:
        return Ended(0, printed(log_lines(data)), b"")
    except Refused as why:
        return Ended(1, b"", f"{why}\n".encode())


def journal_ended(data: bytes) -> Ended:
    """How a run ends over a journal of these bytes."""
    try:
        return Ended(0, printed(journal_lines(data)), b"")
    except Refused as why:
        return Ended(1, b"", f"{why}\n".encode())
