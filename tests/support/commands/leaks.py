"""Secrets in what a run wrote: those that stand on standard error, or on a standard output that nobody
asked to show them."""
from __future__ import annotations

import re
from typing import Iterable

from ..formats.frames import Request
from ..formats.images import IMAGE_1
from ..program import Ended
from ..standards.des import decrypt_block
from ..standards.dukpt import SPENT, derive, initial_key, iksn_of, key_of, pin_key
from ..standards.pin_blocks import pin_block, pin_in
from .batches import MOST_ITEM, Batch, lines_in
from .commands import Refused, shown
from .everyday import new_component
from .everyday_cases import Case
from .everyday_words import (
    COMMANDS, ArgumentsRefused, Given, References, is_secret, lines_of, read, resolve)
from .finding import frame_with_mac, keys_of_number

# Whether the text of refused arguments is searched too: no word of a user stands there then.
SEARCHES_REFUSED_ARGUMENTS = False
# A shorter word is in any text by chance.
LEAST = 4
# So long a word is nowhere by chance. It is looked for within others, and so are its parts so long.
LONG = 16
# One with fewer characters, as of zeros alone, is in texts by chance.
FEW = 4


def leaks(case: Case, ended: Ended) -> list[str]:
    """The secrets of a case that stand where they must not."""
    name, *rest = case.words
    command = COMMANDS[name]
    try:
        given = read(rest, command)
        resolve(command, given, References(case.files, case.given))
    except ArgumentsRefused:
        return leaked(ended, refused_words(rest)) if SEARCHES_REFUSED_ARGUMENTS else []
    except Refused:
        # Some are references yet; what they name is searched for as far as it was read.
        pass
    secrets = given_secrets(name, given)
    if ended.status:
        return leaked(ended, secrets)
    return leaked(ended, secrets | made_secrets(name, given), asked_for(name, given))


def leaks_of_batch(batch: Batch, data: bytes, ended: Ended) -> list[str]:
    """The same of items, each with the other arguments."""
    secrets: set[str] = set()
    asked: set[str] = set()
    for line in lines_in(data):
        try:
            given = batch.alone(line.decode() if len(line) <= MOST_ITEM else "")
            if batch.command == "show" and given.values[0] == "block":
                # Its fields are shown, and those of a refused one may stand in another.
                continue
            secrets |= given_secrets(batch.command, given)
            lines_of(batch.command, given)
        except (UnicodeDecodeError, Refused):
            continue
        secrets |= made_secrets(batch.command, given)
        asked |= asked_for(batch.command, given)
    return leaked(ended, secrets, asked)


def leaked(ended: Ended, secrets: Iterable[str], asked: Iterable[str] = ()) -> list[str]:
    """Those of these secrets that stand on standard error, or unasked on standard output."""
    output, faults = (it.decode(errors="replace").upper() for it in (ended.output, ended.faults))
    shown_ones = {it.upper() for it in asked}
    for one in sorted(shown_ones, key=len, reverse=True):
        # A part of what is asked for may be a part of a secret by right.
        output = output.replace(one, " ")
    return [it for it in {it.upper() for it in secrets if len(it) >= LEAST}
            if is_in(it, faults) or it not in shown_ones and is_in(it, output)]


def is_in(secret: str, text: str) -> bool:
    if not text:
        return False
    if len(secret) >= LONG:
        return any(it in text for it in (secret, *parts_of(secret)) if len(set(it)) >= FEW)
    # A short one has to stand by itself: digits of a key may be a PIN's by chance.
    return re.search(f"(?<![0-9A-Z]){re.escape(secret)}(?![0-9A-Z])", text) is not None


def parts_of(secret: str) -> list[str]:
    return [secret[at : at + LONG] for at in range(0, len(secret) - LONG + 1, LONG)]


def refused_words(words: list[str]) -> set[str]:
    """All that stands behind a command but for the names of options: any of it may be a secret."""
    return {it.partition("=")[2] if it.startswith("--") else it for it in words}


def given_secrets(name: str, given: Given) -> set[str]:
    """Secrets among the arguments. A reference is a path, which may be told."""
    command = COMMANDS[name]
    found = {word for at, word in enumerate(given.values)
             if is_secret(name, command.values[0 if command.is_many else at])}
    found |= {word for option, word in given.valued.items() if is_secret(name, command.valued[option])}
    return {word for word in found if not word.startswith("@")}


def made_secrets(name: str, given: Given) -> set[str]:
    """What a command has in its hands beside its arguments."""
    values = given.values
    if name == "kcv" and "components" in given.flags:
        return {combined(values)}
    if name == "lmk" and "new" in given.flags:
        return set()
    if name == "lmk":
        return {combined([word.split(" ")[0] for word in values])}
    if name in ("translate", "request"):
        base, number = values[2:4] if name == "translate" else values[:2]
        serial = int(number, 16)
        first = bytes.fromhex(base)
        if "initial" not in given.flags:
            first = initial_key(first, iksn_of(serial))
        key = key_of(first, serial)
        keys = {shown(first), shown(key), shown(pin_key(key))}
        if "reverse" in given.valued:
            return keys
        if name == "request":
            return keys | {f"{pin_block(values[3], values[2]):016X}"}
        return keys | opened(decrypt_block(pin_key(key), bytes.fromhex(values[0])), values[1])
    if name == "unpin":
        block, key = bytes.fromhex(values[0]), given.valued.get("key")
        return opened(block if key is None else decrypt_block(bytes.fromhex(key), block), values[1])
    if name == "reply":
        serial = int(values[1][8:28], 16)
        base = bytes.fromhex(values[0])
        return {shown((key_of if "initial" in given.flags else derive)(base, serial))}
    if name == "issue":
        base, first = bytes.fromhex(values[0]), int(values[2], 16)
        return {shown(initial_key(base, first + at * SPENT)) for at in range(int(values[3]))}
    if name == "find":
        return made_by_search(given)
    if name == "show" and "key" in given.valued:
        return made_by_test(given)
    if name == "show" and values[0] == "image" and "show" not in given.flags:
        image = bytes.fromhex(values[1])
        return {shown(image[at : at + 16]) for at in range(14, IMAGE_1, 16)} - {"0" * 32}
    return set()


def base_of(word: str, serial: int, given: Given) -> bytes:
    """The initial key of a number's terminal, by the first key of these words."""
    key = bytes.fromhex(word)
    return key if "initial" in given.flags else initial_key(key, iksn_of(serial))


def made_by_search(given: Given) -> set[str]:
    """The keys of the number that is found, the initial key, and a PIN block and a PIN."""
    line = lines_of("find", given)[0].split()
    serial = int(line[1], 16)
    first = base_of(given.values[0], serial, given)
    keys = dict(keys_of_number(key_of(first, serial)))
    found = {shown(it) for it in (first, *keys.values())}
    if "pan" not in given.valued:
        return found
    clear = decrypt_block(keys[line[2]], bytes.fromhex(given.values[1]))
    return found | opened(clear, given.valued["pan"])


def made_by_test(given: Given) -> set[str]:
    """The keys of the number of a frame, the initial key, and a request's PIN block and PIN; that
    block stands there where it is asked for."""
    frame = frame_with_mac(bytes.fromhex(given.values[1]))
    if frame is None:
        return set()
    first = base_of(given.valued["key"], frame.serial, given)
    keys = dict(keys_of_number(key_of(first, frame.serial)))
    found = {shown(it) for it in (first, *keys.values())}
    if not isinstance(frame, Request):
        return found
    clear = decrypt_block(keys["pin"], frame.block.to_bytes(8, "big"))
    return found | opened(clear, frame.pan) - ({shown(clear)} if "show" in given.flags else set())


def combined(words: list[str]) -> str:
    made = 0
    for word in words:
        made ^= int(word, 16)
    return f"{made:0{len(words[0])}X}"


def opened(clear: bytes, pan: str) -> set[str]:
    pin = pin_in(int.from_bytes(clear, "big"), pan)
    return {shown(clear), pin} if pin else {shown(clear)}


def asked_for(name: str, given: Given) -> set[str]:
    """Secrets that these words ask to show."""
    if name == "derive" and "initial" in given.flags:
        return {given.values[0]}
    if name == "kcv" and given.flags == {"components", "show"}:
        return {combined(given.values)}
    if name == "lmk" and "new" in given.flags:
        return {new_component(given.values).partition(" ")[0]}
    if name == "unpin" and "show" in given.flags:
        return {pin for pin in made_secrets(name, given) if len(pin) < LONG}
    if name == "show":
        return {given.values[1]}
    return set()
