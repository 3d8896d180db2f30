"""The bench's own model of the commands of every day, beside OpenSSL and other ways to the same."""
from __future__ import annotations

import subprocess
from typing import Optional

from ..support.case import Case
from ..support.commands.batches import Batch
from ..support.commands.commands import Refused, derive_lines as lines_of_three, shown
from ..support.commands.everyday import (
    NUMBERS, data_lines, derive_lines, kcv_lines, mac_lines, nth_counter, registers_lines,
    translate_lines, unpin_lines)
from ..support.commands.everyday_cases import Case as Words
from ..support.commands.everyday_rows import BASE, IKSN, INITIAL, PAN, PIN, RIGHT, rows
from ..support.commands.everyday_words import expected
from ..support.commands.leaks import leaked, leaks, leaks_of_batch
from ..support.program import Ended
from ..support.standards.dukpt import (
    COUNTER_BITS, KEY_MASK, SPENT, masked, next_counter, registers_at, serial_text)
from ..support.standards.weak_keys import ALL_WEAK, SEMI_WEAK, WEAK, WEAK_BITS, weakness
from .test_everyday_references import secrets_of
from .test_show import NEW_IMAGE


def mixed(one: bytes, other: bytes) -> bytes:
    return bytes(a ^ b for a, b in zip(one, other))


class Model(Case):
    """What the model says, by itself."""

    def test_written_rows(self) -> None:
        """The rows that are written out are what the model says of them."""
        for words, wanted in rows():
            self.assertEqual(expected(words), wanted, words)
        self.tells(f"{len(rows())} rows")

    def test_counters(self) -> None:
        """The usable counters by their places are those that follow one another."""
        counter = 0
        for place in range(5000):
            counter = next_counter(counter)
            self.assertEqual(nth_counter(place), counter)
        for _ in range(200):
            place = self.chance.randrange(NUMBERS - 1)
            self.assertEqual(next_counter(nth_counter(place)), nth_counter(place + 1))
        self.assertEqual(nth_counter(NUMBERS - 1), 0x1FF800)

    def test_registers(self) -> None:
        """Those at a number are those of a terminal that took all numbers before it."""
        held = registers_at(bytes.fromhex(INITIAL), IKSN, 1)
        for _ in range(600):
            lines = registers_lines(BASE, serial_text(IKSN + held.counter))
            for place, (line, key) in enumerate(zip(lines, held.keys)):
                shown = key.hex().upper() if any(key) else "empty"
                self.assertEqual(line.split()[1:3], [str(place), str(21 - place)])
                self.assertEqual(line.split()[-1], shown)
            _, _, held = held.take()

    def test_initial_keys(self) -> None:
        """A terminal's own key stands for the key that it is made of."""
        number = serial_text(IKSN + nth_counter(self.chance.randrange(NUMBERS)))
        self.assertEqual(derive_lines(BASE, number), lines_of_three(BASE, number))
        self.assertEqual(derive_lines(INITIAL, number, initial=True), lines_of_three(BASE, number))

    def test_what_is_translated(self) -> None:
        """The PIN of a block is found again under the zone key, and under no other account."""
        zone, number = self.chance.randbytes(24).hex(), serial_text(IKSN + 1)
        words = ("1B9C1845EB993A7A", "4012345678909", BASE, number, zone)
        block = translate_lines(*words)[0].split()[1]
        with self.assertRaises(Refused):
            translate_lines(words[0], "4012345678919", *words[2:])
        self.assertNotEqual(block, words[0])
        one_length = zone[:32]
        block = translate_lines(*words[:4], one_length)[0].split()[1]
        self.assertEqual(unpin_lines(block, words[1], one_length, show=True), ["pin 1234"])


class Search(Case):
    """The search for secrets finds them."""

    def test_found(self) -> None:
        for secret, text in ((BASE, f"BDK {BASE.lower()} refused"), (BASE, BASE[:16]),
                             (BASE, f"00{BASE[16:]}00"), ("1234", "PIN 1234 refused"),
                             ("\u00e9\u00e9\u00e9\u00e9", "'\u00c9\u00e9\u00e9\u00e9' is no key")):
            for ended in (Ended(1, b"", text.encode()), Ended(0, text.encode(), b"")):
                self.assertEqual(leaked(ended, {secret}), [secret.upper()], text)
                asked = [] if ended.output else [secret.upper()]
                self.assertEqual(leaked(ended, {secret}, {secret}), asked, text)

    def test_by_chance(self) -> None:
        for secret, text in ((BASE, BASE[:15]), ("1234", "12345 01234"), ("123", "123"),
                             ("0" * 32, "0" * 40), (BASE, "")):
            self.assertEqual(leaked(Ended(1, text.encode(), text.encode()), {secret}), [], text)

    def test_of_commands(self) -> None:
        """Each secret of each command, written and read."""
        for command, words in RIGHT.items():
            for at, _ in secrets_of(command):
                ended = Ended(1, b"", f"it is {words[at]}".encode())
                referred = Words([*words[:at], "@it", *words[at + 1 :]], {"it": words[at].encode()})
                for case in (Words(words), referred):
                    self.assertIn(words[at].upper(), leaks(case, ended), words)

    def test_of_items(self) -> None:
        image = NEW_IMAGE.hex()
        for batch, item in ((Batch("kcv", ("-",)), INITIAL), (Batch("pin", ("-", PAN)), "123456"),
                            (Batch("pin", (PIN, "-")), "401234567890"),
                            (Batch("show", ("image", "-")), image[:-1])):
            data = f"x\n{item}\n".encode()
            for ended in (Ended(1, b"", item.encode()), Ended(1, f"x\n{item}\n".encode(), b"")):
                self.assertEqual(leaks_of_batch(batch, data, ended), [item.upper()], item)
        ended = Ended(0, f"register 0 21 {image[28:60]}\n".encode(), b"")
        for flags, found in (((), [image[28:60].upper()]), (("show",), [])):
            batch = Batch("show", ("image", "-"), flags)
            self.assertEqual(leaks_of_batch(batch, image.encode(), ended), found)


# What the masks of ANSI X9.24-1:2009 annex A make of a transaction key.
VARIANTS = {"pin": bytes.fromhex("00000000000000FF" * 2),
            "mac-request": bytes.fromhex("000000000000FF00" * 2),
            "mac-response": bytes.fromhex("00000000FF000000" * 2)}
DATA_VARIANTS = {"data-request": bytes.fromhex("0000000000FF0000" * 2),
                 "data-response": bytes.fromhex("000000FF00000000" * 2)}


class OpenSsl(Case):
    """Values at random, as OpenSSL has them."""

    def ask(self, words: list[str], given: bytes) -> bytes:
        done = subprocess.run(["openssl", *words], input=given, capture_output=True, check=True)
        return done.stdout

    def enciphered(self, key: bytes, clear: bytes, before: Optional[bytes] = None) -> bytes:
        """Blocks under three keys of DES; one is given three times, and of two the first again."""
        whole = (key * 3 if len(key) == 8 else key + key[:8])[:24]
        chained = [] if before is None else ["-iv", before.hex()]
        cipher = "-des-ede3" if before is None else "-des-ede3-cbc"
        return self.ask(["enc", cipher, "-nopad", "-K", whole.hex(), *chained], clear)

    def cmac(self, key: bytes, message: bytes) -> str:
        words = ["mac", "-binary", "-cipher", "DES-EDE3-CBC", "-macopt",
                 f"hexkey:{(key + key[:8])[:24].hex()}", "-in", "-", "CMAC"]
        return self.ask(words, message).hex().upper()

    def retail_mac(self, key: bytes, message: bytes) -> str:
        """All blocks but the last in CBC under the left key alone, the last one under both."""
        text = message + bytes(-len(message) % 8)
        state = self.enciphered(key[:8], text[:-8], bytes(8))[-8:] if text[8:] else bytes(8)
        return self.enciphered(key, mixed(state, text[-8:])).hex().upper()

    def test_check_values(self) -> None:
        for size in (16, 24) * 10:
            keys = [self.chance.randbytes(size) for _ in range(3)]
            both = bytes(a ^ b ^ c for a, b, c in zip(*keys))
            wanted: list[str] = []
            for key, front in (*((key, "component-") for key in keys), (both, "")):
                if not front:
                    wanted.append(f"key {both.hex().upper()}")
                wanted += [f"{front}kcv {self.enciphered(key, bytes(8))[:3].hex().upper()}",
                           f"{front}cmac {self.cmac(key, bytes(8))[:10]}"]
            self.assertEqual(kcv_lines([key.hex() for key in keys], True, True), wanted)

    def test_weak_keys(self) -> None:
        """What is enciphered twice under a weak key is in clear again, and so under one of a pair and
        the other. There are sixteen, whose parity is odd."""
        self.assertEqual(len(WEAK_BITS), 16)
        for one, other in (*((key, key) for key in WEAK), *SEMI_WEAK):
            self.assertTrue(all(byte.bit_count() % 2 for byte in one + other))
            clear = self.chance.randbytes(8)
            self.assertEqual(self.enciphered(other, self.enciphered(one, clear)), clear)

    def test_weakness(self) -> None:
        """Of keys with equal halves one step undoes another, and one enciphering is left."""
        for _ in range(20):
            one, other = self.chance.randbytes(8), self.chance.randbytes(8)
            clear = self.chance.randbytes(8)
            for key, left in ((one + one, one), (one + one + other, other), (other + one + one, other)):
                self.assertEqual(weakness(key), "halves")
                self.assertEqual(self.enciphered(key, clear), self.enciphered(left, clear))
            self.assertIsNone(weakness(one + other + one))
            self.assertEqual(weakness(self.chance.choice(ALL_WEAK) + other), "DES")
            self.assertEqual(weakness(bytes(byte & 1 for byte in one + other)), "zeros")

    def key_below(self, key: bytes, register: bytes) -> bytes:
        """The key of a node of the tree, from that of its parent."""
        halves = []
        for it in (masked(key, KEY_MASK), key):
            made = self.enciphered(it[:8], mixed(register, it[8:]))
            halves.append(mixed(made, it[8:]))
        return b"".join(halves)

    def test_keys_of_numbers(self) -> None:
        """Each step to a number, and the keys of it."""
        for _ in range(6):
            base, place = self.chance.randbytes(16), self.chance.randrange(NUMBERS)
            reached = self.chance.randrange(1 << 59) * SPENT
            number = serial_text(reached + nth_counter(place))
            key = b"".join(self.enciphered(it, (reached >> 16).to_bytes(8, "big"))
                           for it in (base, masked(base, KEY_MASK)))
            wanted, lines = [], [f"initial {shown(key)}"]
            for place in reversed(range(COUNTER_BITS)):
                if int(number, 16) >> place & 1:
                    reached |= 1 << place
                    key = self.key_below(key, reached.to_bytes(10, "big")[2:])
                    wanted.append(f"step {serial_text(reached)} {shown(key)}")
            lines.append(f"key {shown(key)}")
            for name, mask in VARIANTS.items():
                lines.append(f"{name} {shown(masked(key, mask))}")
            for name, mask in DATA_VARIANTS.items():
                # ECB of the variant under itself: each half is a block.
                variant = masked(key, mask)
                lines.append(f"{name} {shown(self.enciphered(variant, variant))}")
            found = derive_lines(base.hex(), number, trace=True, all_=True)
            self.assertEqual(found, wanted + lines)

    def test_macs(self) -> None:
        for size in (0, 1, 7, 8, 9, 15, 16, 17, 40, 600):
            message = self.chance.randbytes(size)
            for length in (16, 24):
                key = self.chance.randbytes(length)
                self.assertEqual(mac_lines(key.hex(), message.hex(), True, True),
                                 [f"mac {self.cmac(key, message)}"])
            if message:
                key = self.chance.randbytes(16)
                self.assertEqual(mac_lines(key.hex(), message.hex(), hex_=True),
                                 [f"mac {self.retail_mac(key, message)}"])

    def test_data(self) -> None:
        for blocks in (1, 2, 3, 255):
            for length in (16, 24):
                key, before = self.chance.randbytes(length), self.chance.randbytes(8)
                clear = self.chance.randbytes(blocks * 8)
                for iv in (None, before):
                    hidden = self.enciphered(key, clear, iv or bytes(8))
                    word = None if iv is None else iv.hex()
                    self.assertEqual(data_lines(key.hex(), clear.hex(), word, hex_=True),
                                     [f"data {shown(hidden)}"])
                    self.assertEqual(data_lines(key.hex(), hidden.hex(), word, decipher=True),
                                     [f"data {shown(clear)}"])
