"""Payments of many terminals, made by the library before anything is timed."""
from __future__ import annotations

import os
import random
import sys
from concurrent.futures import ProcessPoolExecutor
from itertools import count, islice
from typing import Iterator

from timing import ROOT

# Keys, key set and card of tests/data/commands/bank.toml.
CONFIG = os.path.join(ROOT, "tests", "data", "commands", "bank.toml")
BDK = bytes.fromhex("0123456789ABCDEFFEDCBA9876543210")
PREFIX, COUNTER_BITS = bytes.fromhex("FFFF987654"), 21
PAN, PIN, LIMIT = b"4012345678909", b"1234", 10000
REQUEST, REPLY = 48, 24
TERMINALS = 10_000


def counters() -> Iterator[int]:
    """Those that number a transaction, in their order."""
    return (it for it in count(1) if it.bit_count() <= 10)


def payments(number: int) -> bytes:
    """So many requests, all of which are approved: in each round every terminal pays once, in another
    order."""
    rounds = -(-number // TERMINALS)
    with ProcessPoolExecutor() as pool:
        return b"".join(pool.map(a_round, islice(counters(), rounds)))[: REQUEST * number]


def a_round(counter: int) -> bytes:
    sys.path.insert(0, os.path.join(ROOT, "library", "python"))
    from dukpt import derive_many, payment_request
    chance = random.Random(counter)
    terminals = chance.sample(range(TERMINALS), TERMINALS)
    numbers = [PREFIX + (it << COUNTER_BITS | counter).to_bytes(5, "big") for it in terminals]
    return b"".join(payment_request(key, number, PAN, PIN, chance.randint(1, LIMIT))
                    for key, number in zip(derive_many(BDK, numbers), numbers))
