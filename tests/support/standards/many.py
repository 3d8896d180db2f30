"""The ciphers, MACs, keys and key blocks of many cases at once, each with values of its own.

It is what `des`, `macs`, `dukpt` and `key_blocks` have for one case, over the ciphers of `client`,
which take all cases together. Each function takes lists that are equally long, and gives such one.
"""
from __future__ import annotations

from typing import Callable, Iterable, Sequence

from ..formats.frames import bytes_of, framed
from ..service.client import columns, des, round_keys, values
from .dukpt import (
    COUNTER_BITS, KEY_MASK, LOW, NO_KEY, SPENT, Registers, counter_of, held, iksn_of, masked,
    next_counter, pin_key, request_key, response_key)
from .key_blocks import AUTHENTICATION, ENCRYPTION, header
from .macs import doubled
from .pin_blocks import pin_block

Lines = Sequence[bytes]
Cipher = Callable[[Lines, Lines], list[bytes]]


def xor(one: bytes, other: bytes) -> bytes:
    both = int.from_bytes(one, "big") ^ int.from_bytes(other, "big")
    return both.to_bytes(len(one), "big")


def xors(these: Lines, others: Lines) -> list[bytes]:
    return list(map(xor, these, others))


# Ciphers


def through(parts: Sequence[tuple[Lines, bool]], blocks: Lines) -> list[bytes]:
    """Blocks of 8 bytes behind DES under one list of keys after the other; with True backwards."""
    if not blocks:
        return []
    state, every = columns(blocks), (1 << len(blocks)) - 1
    for keys, is_back in parts:
        rounds = round_keys(columns(keys))
        state = des(rounds[::-1] if is_back else rounds, state, every)
    return values(state, len(blocks))


def single(keys: Lines, blocks: Lines) -> list[bytes]:
    """Blocks under DES keys of 8 bytes."""
    return through([(keys, False)], blocks)


def thirds(keys: Lines) -> list[list[bytes]]:
    """The three single keys of keys of 16 or 24 bytes."""
    whole = [key + key[:8] for key in keys]
    return [[key[at : at + 8] for key in whole] for at in (0, 8, 16)]


def encrypted(keys: Lines, blocks: Lines) -> list[bytes]:
    """Blocks under TDES keys of 16 or 24 bytes."""
    first, second, third = thirds(keys)
    return through([(first, False), (second, True), (third, False)], blocks)


def decrypted(keys: Lines, blocks: Lines) -> list[bytes]:
    first, second, third = thirds(keys)
    return through([(third, True), (second, False), (first, True)], blocks)


def chained(keys: Lines, befores: Lines, texts: Lines, cipher: Cipher = encrypted) -> list[bytes]:
    """Whole blocks in cipher block chaining, each text of its own length."""
    made, last = [b""] * len(texts), list(befores)
    for at in range(0, max(map(len, texts), default=0), 8):
        here = [case for case, text in enumerate(texts) if len(text) > at]
        mixed = [xor(texts[case][at : at + 8], last[case]) for case in here]
        for case, block in zip(here, cipher([keys[case] for case in here], mixed)):
            made[case] += block
            last[case] = block
    return made


def unchained(keys: Lines, befores: Lines, texts: Lines) -> list[bytes]:
    """The way back: each block is deciphered by itself."""
    pieces = [(key, text[at : at + 8]) for key, text in zip(keys, texts)
              for at in range(0, len(text), 8)]
    clear = iter(decrypted([key for key, _ in pieces], [piece for _, piece in pieces]))
    joined = [b"".join(next(clear) for _ in range(len(text) // 8)) for text in texts]
    return [xor(text, (before + hidden)[: len(text)]) if text else b""
            for text, before, hidden in zip(joined, befores, texts)]


# MACs


def cmacs(keys: Lines, messages: Lines) -> list[bytes]:
    """CMACs of messages of any lengths, under keys of 16 or 24 bytes."""
    zeros = [bytes(8)] * len(keys)
    texts = []
    for first, message in zip(encrypted(keys, zeros), messages):
        mask = doubled(int.from_bytes(first, "big"))
        if not message or len(message) % 8:
            message = (message + b"\x80").ljust(len(message) // 8 * 8 + 8, b"\x00")
            mask = doubled(mask)
        texts.append(message[:-8] + xor(message[-8:], mask.to_bytes(8, "big")))
    return [text[-8:] for text in chained(keys, zeros, texts)]


def retail_macs(keys: Lines, messages: Lines) -> list[bytes]:
    """Retail MACs of messages that are not empty, under keys of 16 bytes."""
    texts = [message + bytes(-len(message) % 8) for message in messages]
    lefts, zeros = [key[:8] for key in keys], [bytes(8)] * len(keys)
    states = chained(lefts, zeros, [text[:-8] for text in texts], single)
    last = [xor(text[-8:], (bytes(8) + state)[-8:]) for text, state in zip(texts, states)]
    return encrypted(keys, last)


# Keys


def initial_keys(bases: Lines, iksns: Sequence[int]) -> list[bytes]:
    firsts = [(iksn >> 16).to_bytes(8, "big") for iksn in iksns]
    lefts = encrypted(bases, firsts)
    rights = encrypted([masked(base, KEY_MASK) for base in bases], firsts)
    return [left + right for left, right in zip(lefts, rights)]


def half_steps(keys: Lines, registers: Lines) -> list[bytes]:
    rights = [key[8:] for key in keys]
    return xors(single([key[:8] for key in keys], xors(registers, rights)), rights)


def steps(keys: Lines, serials: Sequence[int]) -> list[bytes]:
    """The keys of numbers, from those of their parents."""
    registers = [(serial & LOW).to_bytes(8, "big") for serial in serials]
    lefts = half_steps([masked(key, KEY_MASK) for key in keys], registers)
    rights = half_steps(keys, registers)
    return [left + right for left, right in zip(lefts, rights)]


Node = tuple[int, int]


def keys_of(initials: Lines, nodes: Iterable[Node]) -> dict[Node, bytes]:
    """The keys of nodes, each a case and a number of it, and of all between them and the initial
    key of the case."""
    levels: list[set[Node]] = [set() for _ in range(COUNTER_BITS + 1)]
    for case, serial in nodes:
        while counter_of(serial):
            levels[bin(counter_of(serial)).count("1")].add((case, serial))
            # The parent of a number lacks its last one bit.
            serial &= serial - 1
        levels[0].add((case, serial))
    keys = {(case, serial): initials[case] for case, serial in levels[0]}
    for level in levels[1:]:
        here = sorted(level)
        parents = [keys[case, serial & serial - 1] for case, serial in here]
        keys.update(zip(here, steps(parents, [serial for _, serial in here])))
    return keys


def transaction_keys(initials: Lines, serials: Sequence[int]) -> list[bytes]:
    """The keys of numbers, from the initial keys; that of counter zero is the initial key."""
    nodes = list(enumerate(serials))
    keys = keys_of(initials, nodes)
    return [keys[node] for node in nodes]


def registers_at(initials: Lines, serials: Sequence[int]) -> list[Registers]:
    """The registers of terminals whose next numbers these are."""
    places = [[held(counter_of(serial), place) for place in range(COUNTER_BITS)]
              for serial in serials]
    nodes = [(case, iksn_of(serials[case]) + number) for case, numbers in enumerate(places)
             for number in numbers if number is not None]
    keys = keys_of(initials, nodes)
    return [
        Registers(iksn_of(serial), counter_of(serial), tuple(
            NO_KEY if number is None else keys[case, iksn_of(serial) + number]
            for number in numbers))
        for case, (serial, numbers) in enumerate(zip(serials, places))]


def taken(these: Sequence[Registers]) -> list[tuple[bytes, int, Registers]]:
    """The key of the next number of each terminal, that number, and what is kept then."""
    children: list[tuple[bytes, int]] = []
    for it in these:
        children += [(it.keys[own_place(it)], it.iksn + it.counter + (1 << place))
                     for place in filled_places(it)]
    made = iter(steps([key for key, _ in children], [serial for _, serial in children]))
    found = []
    for it in these:
        keys, own = list(it.keys), own_place(it)
        key, keys[own] = keys[own], NO_KEY
        for place in filled_places(it):
            keys[place] = next(made)
        left = Registers(it.iksn, next_counter(it.counter), tuple(keys), it.past)
        found.append((key, it.iksn + it.counter, left))
    return found


def own_place(registers: Registers) -> int:
    """The register of the next number: that of the last one bit of its counter."""
    return (registers.counter & -registers.counter).bit_length() - 1


def filled_places(registers: Registers) -> range:
    """The registers that the children of the next number go into."""
    is_leaf = registers.counter == SPENT or bin(registers.counter).count("1") == 10
    return range(0 if is_leaf else own_place(registers))


def data_keys(keys: Lines, mask: bytes) -> list[bytes]:
    """The keys that encipher data, of transaction keys: each half of a variant, under it."""
    variants = [masked(key, mask) for key in keys]
    halves = [encrypted(variants, [it[at : at + 8] for it in variants]) for at in (0, 8)]
    return [left + right for left, right in zip(*halves)]


# Key blocks and frames


def derived(protections: Lines, usage: int) -> list[bytes]:
    """The keys of a usage, each as long as its protection key."""
    parts = [(case, bytes([1 + at, 0, usage, 0, 0, 0 if len(key) == 16 else 1, 0, 8 * len(key)]))
             for case, key in enumerate(protections) for at in range(len(key) // 8)]
    made = iter(cmacs([protections[case] for case, _ in parts], [about for _, about in parts]))
    return [b"".join(next(made) for _ in range(len(key) // 8)) for key in protections]


def sealed(protections: Lines, fronts: Lines, payloads: Lines) -> list[bytes]:
    """The key blocks of headers with their optional blocks, and of payloads of whole blocks."""
    texts = [front + payload for front, payload in zip(fronts, payloads)]
    macs = cmacs(derived(protections, AUTHENTICATION), texts)
    hidden = chained(derived(protections, ENCRYPTION), macs, payloads)
    return [front + (text + mac).hex().upper().encode()
            for front, text, mac in zip(fronts, hidden, macs)]


def payloads_of(keys: Lines, pads: Lines) -> list[bytes]:
    return [(8 * len(key)).to_bytes(2, "big") + key + pad for key, pad in zip(keys, pads)]


def wraps(protections: Lines, fields: Lines, keys: Lines, pads: Lines) -> list[bytes]:
    """The key blocks of keys, without optional blocks, where padding fills whole blocks."""
    payloads = payloads_of(keys, pads)
    fronts = [header(field, 32 + 2 * len(payload)) for field, payload in zip(fields, payloads)]
    return sealed(protections, fronts, payloads)


def requests(keys: Lines, serials: Sequence[int], pans: Sequence[str], pins: Sequence[str],
             amounts: Sequence[int]) -> list[bytes]:
    """Requests under transaction keys."""
    clear = [pin_block(pin, pan).to_bytes(8, "big") for pin, pan in zip(pins, pans)]
    hidden = encrypted(list(map(pin_key, keys)), clear)
    texts = [b"\x01\x01" + bytes_of(serial) + bytes([len(pan)]) + pan.encode()
             + amount.to_bytes(4, "big") + block
             for serial, pan, amount, block in zip(serials, pans, amounts, hidden)]
    macs = retail_macs(list(map(request_key, keys)), texts)
    return [framed(text + mac) for text, mac in zip(texts, macs)]


def replies(keys: Lines, serials: Sequence[int], codes: Sequence[str]) -> list[bytes]:
    """Accepted replies under transaction keys."""
    texts = [b"\x01\x02" + bytes_of(serial) + code.encode() for serial, code in zip(serials, codes)]
    macs = retail_macs(list(map(response_key, keys)), texts)
    return [framed(text + mac) for text, mac in zip(texts, macs)]


def reversals(keys: Lines, serials: Sequence[int], others: Sequence[int]) -> list[bytes]:
    """Reversals of other numbers under transaction keys."""
    texts = [b"\x01\x04" + bytes_of(serial) + bytes_of(other)
             for serial, other in zip(serials, others)]
    macs = retail_macs(list(map(request_key, keys)), texts)
    return [framed(text + mac) for text, mac in zip(texts, macs)]


def reversal_replies(keys: Lines, serials: Sequence[int], others: Sequence[int],
                     states: Sequence[int]) -> list[bytes]:
    """The replies to such reversals under transaction keys."""
    texts = [b"\x01\x05" + bytes_of(serial) + bytes_of(other) + bytes([state])
             for serial, other, state in zip(serials, others, states)]
    macs = retail_macs(list(map(response_key, keys)), texts)
    return [framed(text + mac) for text, mac in zip(texts, macs)]
