"""The bench's own ciphers, against values of the standards, and OpenSSL where it is there."""
from __future__ import annotations

import shutil
import subprocess
from typing import Iterator, Optional

from ..support.case import Case
from ..support.formats.frames import read_answer, read_request, write_reply, write_request
from ..support.formats.images import body_of, image_of, read_body, read_image
from ..support.program import ROOT
from ..support.service import client
from ..support.standards.des import (
    blocks, cbc_decrypt, cbc_encrypt, decrypt_block, encrypt_block, joined, triple_decrypted,
    triple_encrypted)
from ..support.standards.dukpt import SPENT, derive, initial_key, next_counter, registers_at, usable
from ..support.standards.key_blocks import derived, sealed, unwrap
from ..support.standards.macs import cmac, retail_mac
from ..support.standards.pin_blocks import pin_block, pin_in

VECTORS = ROOT / "tests" / "data" / "vectors"
# The base derivation key and the initial key serial number of the samples of ANSI X9.24-1.
BASE = bytes.fromhex("0123456789ABCDEFFEDCBA9876543210")
IKSN = 0xFFFF9876543210E00000


def vectors(name: str) -> Iterator[list[str]]:
    """The words of each line of a file that is no comment."""
    for line in (VECTORS / name).read_text().splitlines():
        if not line.startswith("#"):
            yield line.split(" ")


def data(words: list[str]) -> list[bytes]:
    """Words in hexadecimal; a hyphen is nothing."""
    return [bytes.fromhex(word.replace("-", "")) for word in words]


class TestFacts(Case):
    """Values from outside."""

    def test_des(self) -> None:
        for key, block, ciphertext in map(data, vectors("des.txt")):
            self.assertEqual(encrypt_block(key, block), ciphertext)
            self.assertEqual(decrypt_block(key, ciphertext), block)

    def test_triple_des(self) -> None:
        for key, clear, ciphertext in map(data, vectors("triple_des.txt")):
            made = joined([triple_encrypted(key, block) for block in blocks(clear)])
            self.assertEqual(made, ciphertext)
            back = joined([triple_decrypted(key, block) for block in blocks(ciphertext)])
            self.assertEqual(back, clear)

    def test_macs(self) -> None:
        for name, function in (("cmac.txt", cmac), ("retail.txt", retail_mac)):
            for key, message, mac in map(data, vectors(name)):
                self.assertEqual(function(key, message), mac)

    def test_transaction_keys(self) -> None:
        for number, key in vectors("dukpt.txt"):
            self.assertEqual(derive(BASE, int(number, 16)).hex().upper(), key, number)

    def test_pin_blocks(self) -> None:
        for pin, pan, block in vectors("pin_blocks.txt"):
            self.assertEqual(pin_block(pin, pan), int(block, 16))
            self.assertEqual(pin_in(int(block, 16), pan), pin)

    def test_key_blocks(self) -> None:
        for protection, block, fields, key in vectors("key_blocks.txt"):
            found = unwrap(bytes.fromhex(protection), block.encode())
            self.assertEqual(found, (fields.encode(), bytes.fromhex(key)))

    def test_client(self) -> None:
        """The client, whose ciphers take all payments at once."""
        des_vectors = list(map(data, vectors("des.txt")))
        keys, clear, ciphertexts = (client.columns(column) for column in zip(*des_vectors))
        every = (1 << len(des_vectors)) - 1
        self.assertEqual(client.des(client.round_keys(keys), clear, every), ciphertexts)
        for key, message, mac in map(data, vectors("retail.txt")):
            made = client.retail_mac(client.columns([key]), client.columns([message]), 1)
            self.assertEqual(client.values(made, 1), [mac])
        numbers = [(int(number, 16) % SPENT, key) for number, key in vectors("dukpt.txt")]
        made_keys = client.keys_of([counter for counter, _ in numbers])
        for counter, key in numbers:
            self.assertEqual(made_keys[counter].hex().upper(), key)


class TestEachOther(Case):
    """The ciphers of whole blocks and those of the client, on values at random; and ways back."""

    def test_ciphers(self) -> None:
        count = 300
        keys, clear = ([self.chance.randbytes(size) for _ in range(count)] for size in (16, 8))
        texts = [self.chance.randbytes(44) for _ in range(count)]
        every, columns = (1 << count) - 1, client.columns(keys)
        ciphertexts = client.values(client.triple_des(columns, client.columns(clear), every), count)
        self.assertEqual(ciphertexts, [encrypt_block(*pair) for pair in zip(keys, clear)])
        macs = client.values(client.retail_mac(columns, client.columns(texts), every), count)
        self.assertEqual(macs, [retail_mac(*pair) for pair in zip(keys, texts)])

    def test_keys(self) -> None:
        counters = [next_counter(self.chance.randrange(SPENT // 2)) for _ in range(200)]
        made = client.keys_of(counters)
        for counter in counters:
            self.assertEqual(made[counter], derive(BASE, IKSN + counter))

    def test_frames(self) -> None:
        for number, it in enumerate(client.payments(60), 1):
            request = read_request(it.frame)
            key = derive(BASE, request.serial)
            self.assertEqual(retail_mac(client_request_key(key), request.text), request.mac)
            reply = read_answer(it.answer)
            self.assertEqual(write_reply(key, request.serial, reply.code), it.answer, number)

    def test_chaining(self) -> None:
        for size in (16, 24):
            key, before = self.chance.randbytes(size), self.chance.randbytes(8)
            clear = self.chance.randbytes(64)
            self.assertEqual(cbc_decrypt(key, before, cbc_encrypt(key, before, clear)), clear)

    def test_registers(self) -> None:
        """What a terminal has behind a number is what the rules of an image say of the next one."""
        initial = initial_key(BASE, IKSN)
        starts = [1, 0x7FE, 0x1FF000, *(self.chance.randrange(1, SPENT // 2) for _ in range(40))]
        for start in starts:
            registers = registers_at(initial, IKSN, next_counter(start - 1))
            while registers.counter < min(start + 20, SPENT):
                key, serial, registers = registers.take()
                self.assertEqual(key, derive(BASE, serial))
                self.assertEqual(registers, registers_at(initial, IKSN, registers.counter))
            self.assertEqual(read_body(body_of(registers)), registers)
            self.assertEqual(read_image(image_of(registers, 1)), registers)
        self.assertEqual(registers_at(initial, IKSN, 0x1FF800).take()[2].counter, SPENT)

    def test_counters(self) -> None:
        self.assertEqual(sum(map(usable, range(-1, SPENT + 1))), 1_048_575)

    def test_documented_frames(self) -> None:
        """The frames that docs/FORMATS.md has byte by byte."""
        key = derive(BASE, IKSN + 1)
        request = write_request(key, IKSN + 1, "4012345678909", "1234", 1)
        wanted = ("002E0101FFFF9876543210E000010D34303132333435363738393039000000011B9C1845EB993A7A"
                  "A05619896B683F13")
        self.assertEqual(request.hex().upper(), wanted)
        reply = write_reply(key, IKSN + 1, "00")
        self.assertEqual(reply.hex().upper(), "00160102FFFF9876543210E000013030591B50E0CA98FE70")


def client_request_key(key: bytes) -> bytes:
    """A request key, by the client's own mask."""
    bits = client.masked(client.columns([key]), client.REQUEST_VARIANT, 1)
    return client.values(bits, 1)[0]


class TestOpenSsl(Case):
    """Values at random, against OpenSSL where it is there."""

    def enciphered(self, cipher: str, key: bytes, clear: bytes, before: Optional[bytes]) -> bytes:
        words = ["openssl", "enc", f"-{cipher}", "-nopad", "-K", key.hex()]
        words += ["-iv", before.hex()] if before is not None else []
        return subprocess.run(words, input=clear, capture_output=True, check=True).stdout

    def of_openssl(self, key: bytes, clear: bytes, before: Optional[bytes] = None) -> bytes:
        """Blocks under a key of 8, 16 or 24 bytes: a single one is given three times."""
        cipher = "des-ede" if len(key) == 16 else "des-ede3"
        chained = "-cbc" if before is not None else ""
        return self.enciphered(cipher + chained, key * 3 if len(key) == 8 else key, clear, before)

    def mac_of_openssl(self, key: bytes, message: bytes) -> bytes:
        words = ["openssl", "mac", "-binary", "-cipher", "DES-EDE3-CBC", "-macopt",
                 f"hexkey:{(key + key[:8])[:24].hex()}", "-in", "-", "CMAC"]
        return subprocess.run(words, input=message, capture_output=True, check=True).stdout

    def test_values(self) -> None:
        if shutil.which("openssl") is None:
            self.tells("no OpenSSL here: the values of the standards alone")
            return
        for size in (8, 8, 16, 16, 24, 24):
            key, before = self.chance.randbytes(size), self.chance.randbytes(8)
            clear = self.chance.randbytes(8 * 40)
            pieces = (clear[at : at + 8] for at in range(0, len(clear), 8))
            made = b"".join(encrypt_block(key, piece) for piece in pieces)
            self.assertEqual(made, self.of_openssl(key, clear))
            if size > 8:
                chained = self.of_openssl(key, clear, before)
                self.assertEqual(cbc_encrypt(key, before, clear), chained)
                message = self.chance.randbytes(self.chance.choice((0, 5, 8, 21, 64)))
                self.assertEqual(cmac(key, message), self.mac_of_openssl(key, message))
        self.tells("as OpenSSL has them")

    def test_key_blocks(self) -> None:
        """Key blocks under protection keys of both lengths, read by their own functions."""
        for size in (16, 24):
            protection, key = self.chance.randbytes(size), self.chance.randbytes(24)
            payload = b"\x00\xc0" + key + self.chance.randbytes(6)
            text = sealed(protection, b"B0096P0TB00N0000", payload)
            self.assertEqual(len(text), 96)
            self.assertEqual(unwrap(protection, text), (b"P0TB00N", key))
            self.assertEqual([len(derived(protection, usage)) for usage in (0, 1)], [size, size])
