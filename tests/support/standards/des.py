"""DES and triple DES (NIST SP 800-67).

Blocks are integers of 64 bits, the most significant bit first, or 8 bytes. Permutations, key
schedules and boxes are looked up in tables, which are made here of those of the standard.
"""
from __future__ import annotations

import struct
from functools import lru_cache
from typing import Callable, Sequence

# The tables of the standard. In a permutation, entry i is the number of the bit that comes to
# place i; bits are counted from 1 at the most significant.
INITIAL_PERMUTATION = """
58 50 42 34 26 18 10 2 60 52 44 36 28 20 12 4 62 54 46 38 30 22 14 6 64 56 48 40 32 24 16 8
57 49 41 33 25 17 9 1 59 51 43 35 27 19 11 3 61 53 45 37 29 21 13 5 63 55 47 39 31 23 15 7"""
FINAL_PERMUTATION = """
40 8 48 16 56 24 64 32 39 7 47 15 55 23 63 31 38 6 46 14 54 22 62 30 37 5 45 13 53 21 61 29
36 4 44 12 52 20 60 28 35 3 43 11 51 19 59 27 34 2 42 10 50 18 58 26 33 1 41 9 49 17 57 25"""
EXPANSION = """
32 1 2 3 4 5 4 5 6 7 8 9 8 9 10 11 12 13 12 13 14 15 16 17
16 17 18 19 20 21 20 21 22 23 24 25 24 25 26 27 28 29 28 29 30 31 32 1"""
PERMUTATION = """
16 7 20 21 29 12 28 17 1 15 23 26 5 18 31 10 2 8 24 14 32 27 3 9 19 13 30 6 22 11 4 25"""
CHOICE_1 = """
57 49 41 33 25 17 9 1 58 50 42 34 26 18 10 2 59 51 43 35 27 19 11 3 60 52 44 36
63 55 47 39 31 23 15 7 62 54 46 38 30 22 14 6 61 53 45 37 29 21 13 5 28 20 12 4"""
CHOICE_2 = """
14 17 11 24 1 5 3 28 15 6 21 10 23 19 12 4 26 8 16 7 27 20 13 2
41 52 31 37 47 55 30 40 51 45 33 48 44 49 39 56 34 53 46 42 50 36 29 32"""
ROTATIONS = "1 1 2 2 2 2 2 2 1 2 2 2 2 2 2 1"
# A box is four rows of sixteen.
BOXES = """
14 4 13 1 2 15 11 8 3 10 6 12 5 9 0 7 0 15 7 4 14 2 13 1 10 6 12 11 9 5 3 8
4 1 14 8 13 6 2 11 15 12 9 7 3 10 5 0 15 12 8 2 4 9 1 7 5 11 3 14 10 0 6 13
15 1 8 14 6 11 3 4 9 7 2 13 12 0 5 10 3 13 4 7 15 2 8 14 12 0 1 10 6 9 11 5
0 14 7 11 10 4 13 1 5 8 12 6 9 3 2 15 13 8 10 1 3 15 4 2 11 6 7 12 0 5 14 9
10 0 9 14 6 3 15 5 1 13 12 7 11 4 2 8 13 7 0 9 3 4 6 10 2 8 5 14 12 11 15 1
13 6 4 9 8 15 3 0 11 1 2 12 5 10 14 7 1 10 13 0 6 9 8 7 4 15 14 3 11 5 2 12
7 13 14 3 0 6 9 10 1 2 8 5 11 12 4 15 13 8 11 5 6 15 0 3 4 7 2 12 1 10 14 9
10 6 9 0 12 11 7 13 15 1 3 14 5 2 8 4 3 15 0 6 10 1 13 8 9 4 5 11 12 7 2 14
2 12 4 1 7 10 11 6 8 5 3 15 13 0 14 9 14 11 2 12 4 7 13 1 5 0 15 10 3 9 8 6
4 2 1 11 10 13 7 8 15 9 12 5 6 3 0 14 11 8 12 7 1 14 2 13 6 15 0 9 10 4 5 3
12 1 10 15 9 2 6 8 0 13 3 4 14 7 5 11 10 15 4 2 7 12 9 5 6 1 13 14 0 11 3 8
9 14 15 5 2 8 12 3 7 0 4 10 1 13 11 6 4 3 2 12 9 5 15 10 11 14 1 7 6 0 8 13
4 11 2 14 15 0 8 13 3 12 9 7 5 10 6 1 13 0 11 7 4 9 1 10 14 3 5 12 2 15 8 6
1 4 11 13 12 3 7 14 10 15 6 8 0 5 9 2 6 11 13 8 1 4 10 7 9 5 0 15 14 2 3 12
13 2 8 4 6 15 11 1 10 9 3 14 5 0 12 7 1 15 13 8 10 3 7 4 12 5 6 11 0 14 9 2
7 11 4 1 9 12 14 2 0 6 10 13 15 3 5 8 2 1 14 7 4 10 8 13 15 12 9 0 3 5 6 11"""


def numbers(text: str) -> list[int]:
    return [int(word) for word in text.split()]


FIRST, LAST, SPREAD, MIXED = map(
    numbers, (INITIAL_PERMUTATION, FINAL_PERMUTATION, EXPANSION, PERMUTATION))
KEY_BITS, ROUND_BITS, TURNS = map(numbers, (CHOICE_1, CHOICE_2, ROTATIONS))
BOX = numbers(BOXES)
# Where the expansion has each bit of a half first.
GATHERED = [SPREAD.index(place) + 1 for place in range(1, 33)]


def picked(value: int, width: int, places: Sequence[int]) -> int:
    """The bits at these places of a value of so many bits."""
    made = 0
    for place in places:
        made = made << 1 | value >> width - place & 1
    return made


def looked_up(function: Callable[[int], int], width: int, piece: int) -> list[list[int]]:
    """Tables of a function of so many bits that keeps the exclusive or: one for each piece, from
    the left. The function of a value is the exclusive or of what they have for its pieces."""
    tables = []
    for low in range(width - piece, -1, -piece):
        table = [0]
        for bit in range(piece):
            of_bit = function(1 << low + bit)
            table += [entry ^ of_bit for entry in table]
        tables.append(table)
    return tables


# A half goes through the rounds expanded, as 48 bits: what a round adds to it is looked up so.


def entered(block: int) -> int:
    """Both halves of a block behind the initial permutation, each expanded."""
    state = picked(block, 64, FIRST)
    return picked(state >> 32, 32, SPREAD) << 48 | picked(state & 0xFFFFFFFF, 32, SPREAD)


def left_behind(halves: int) -> int:
    """The block whose halves before the final permutation are these, each expanded."""
    left, right = (picked(half, 48, GATHERED) for half in (halves >> 48, halves & (1 << 48) - 1))
    return picked(left << 32 | right, 64, LAST)


def box_of(box: int, six: int) -> int:
    """What a box adds to a half for its six bits, expanded."""
    row, column = six >> 4 & 2 | six & 1, six >> 1 & 15
    four = BOX[64 * box + 16 * row + column] << 28 - 4 * box
    return picked(picked(four, 32, MIXED), 32, SPREAD)


def all_round_keys(key: int) -> int:
    """The sixteen round keys of a key, one in each 64 bits."""
    halves = picked(key, 64, KEY_BITS)
    left, right, rounds = halves >> 28, halves & (1 << 28) - 1, 0
    for count in TURNS:
        left, right = ((half << count | half >> 28 - count) & (1 << 28) - 1
                       for half in (left, right))
        rounds = rounds << 64 | picked(left << 28 | right, 56, ROUND_BITS)
    return rounds


ENTER = looked_up(entered, 64, 8)
LEAVE = looked_up(left_behind, 96, 12)
SCHEDULE = looked_up(all_round_keys, 64, 8)
SINGLE = [[box_of(box, six) for six in range(64)] for box in range(8)]
# Two boxes next to each other, by their twelve bits.
PAIRS = [[one ^ other for one in SINGLE[box] for other in SINGLE[box + 1]]
         for box in range(0, 8, 2)]

Rounds = tuple[int, ...]


@lru_cache(1 << 15)
def round_keys(key: bytes) -> Rounds:
    """The round keys of a key of 8 bytes, in the order of enciphering."""
    rounds = 0
    for table, byte in zip(SCHEDULE, key):
        rounds ^= table[byte]
    return struct.unpack(">16Q", rounds.to_bytes(128, "big"))


def through(rounds: Rounds, block: int) -> int:
    """A block behind sixteen rounds: those of a key, or the same backwards to decipher."""
    a, b, c, d, e, f, g, h = block.to_bytes(8, "big")
    in_a, in_b, in_c, in_d, in_e, in_f, in_g, in_h = ENTER
    state = (in_a[a] ^ in_b[b] ^ in_c[c] ^ in_d[d] ^ in_e[e] ^ in_f[f] ^ in_g[g] ^ in_h[h])
    left, right = state >> 48, state & 0xFFFFFFFFFFFF
    first, second, third, fourth = PAIRS
    turns = iter(rounds)
    for key, next_key in zip(turns, turns):
        mixed = right ^ key
        left ^= (first[mixed >> 36] ^ second[mixed >> 24 & 4095]
                 ^ third[mixed >> 12 & 4095] ^ fourth[mixed & 4095])
        mixed = left ^ next_key
        right ^= (first[mixed >> 36] ^ second[mixed >> 24 & 4095]
                  ^ third[mixed >> 12 & 4095] ^ fourth[mixed & 4095])
    a, b, c, d, e, f, g, h = LEAVE
    return (a[right >> 36] ^ b[right >> 24 & 4095] ^ c[right >> 12 & 4095] ^ d[right & 4095]
            ^ e[left >> 36] ^ f[left >> 24 & 4095] ^ g[left >> 12 & 4095] ^ h[left & 4095])


def encrypted(key: bytes, block: int) -> int:
    return through(round_keys(key), block)


def decrypted(key: bytes, block: int) -> int:
    return through(round_keys(key)[::-1], block)


def parts(key: bytes) -> tuple[bytes, bytes, bytes]:
    """The three single keys of a key of 16 or 24 bytes; of 16 the first is also the third."""
    return key[:8], key[8:16], key[16:] or key[:8]


def triple_encrypted(key: bytes, block: int) -> int:
    first, second, third = parts(key)
    return encrypted(third, decrypted(second, encrypted(first, block)))


def triple_decrypted(key: bytes, block: int) -> int:
    first, second, third = parts(key)
    return decrypted(first, encrypted(second, decrypted(third, block)))


def blocks(data: bytes) -> list[int]:
    """Bytes of whole blocks, as blocks."""
    return list(struct.unpack(f">{len(data) // 8}Q", data))


def joined(these: Sequence[int]) -> bytes:
    return struct.pack(f">{len(these)}Q", *these)


def encrypt_block(key: bytes, block: bytes) -> bytes:
    """Eight bytes under a key of 8 bytes, or of 16 or 24 for triple DES."""
    cipher = encrypted if len(key) == 8 else triple_encrypted
    return cipher(key, int.from_bytes(block, "big")).to_bytes(8, "big")


def decrypt_block(key: bytes, block: bytes) -> bytes:
    cipher = decrypted if len(key) == 8 else triple_decrypted
    return cipher(key, int.from_bytes(block, "big")).to_bytes(8, "big")


def cbc_encrypt(key: bytes, before: bytes, data: bytes) -> bytes:
    """Whole blocks in cipher block chaining, behind an initial vector."""
    made, last = [], int.from_bytes(before, "big")
    for block in blocks(data):
        last = triple_encrypted(key, block ^ last)
        made.append(last)
    return joined(made)


def cbc_decrypt(key: bytes, before: bytes, data: bytes) -> bytes:
    given = blocks(before + data)
    return joined([triple_decrypted(key, block) ^ last for last, block in zip(given, given[1:])])
