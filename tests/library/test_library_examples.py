"""The examples of library/examples in C, Python and Rust: what they print is what the bench's own
ciphers make. Those of the terminal have a file of their own."""
from __future__ import annotations

from typing import Optional

from ..support.formats.frames import (
    request_of_block, write_refusal, write_reply, write_request, write_reversal,
    write_reversal_reply)
from ..support.library.example_programs import ExampleCase, InC, InPython, InRust
from ..support.service.client import PURCHASES
from ..support.standards.dukpt import derive, initial_key
from ..support.standards.key_blocks import unwrap
from ..vectors.test_ciphers import BASE, IKSN

PAN, PIN = "4012345678909", "1234"
LOADING = bytes.fromhex("4CF15134A2850DD58A3D10BA80570D38")
INITIAL = initial_key(BASE, IKSN)


def upper(data: bytes) -> str:
    return data.hex().upper()


def made_request(counter: int, pan: str, pin: Optional[str], amount: int) -> bytes:
    """A request; without a PIN its block is eight zero bytes before it is enciphered."""
    key, serial = derive(BASE, IKSN + counter), IKSN + counter
    if pin is not None:
        return write_request(key, serial, pan, pin, amount)
    return request_of_block(key, serial, pan, amount, 0)


class Examples:
    """What holds of the examples in each language."""

    def lines(self: ExampleCase, name: str, *words: str) -> list[str]:
        done = self.run_example(name, *words)
        self.assertEqual((done.returncode, done.stderr), (0, b""), f"{name} {' '.join(words)}")
        return done.stdout.decode().splitlines()

    def test_first_key(self: ExampleCase) -> None:
        self.assertEqual(self.lines("first_key"), ["042666B49184CFA368DE9628D0397BC9"])

    def test_host(self: ExampleCase) -> None:
        counter = self.chance.randrange(1, 1 << 10)
        for it in PURCHASES:
            frame = made_request(counter, it.pan, it.pin, it.amount)
            key, code = derive(BASE, IKSN + counter), "30" if it.pin is None else "00"
            wanted = [f"number {IKSN + counter:020X}", f"pan {it.pan}", f"amount {it.amount}"]
            wanted += [] if it.pin is None else [f"pin {it.pin}"]
            wanted.append(f"reply {upper(write_reply(key, IKSN + counter, code))}")
            self.assertEqual(self.lines("host", upper(frame)), wanted)

    def test_host_of_reversals(self: ExampleCase) -> None:
        """A payment that stands is undone; else none stands."""
        counter, other = self.chance.sample(range(1, 1 << 10), 2)
        key, number, reversed_ = derive(BASE, IKSN + counter), IKSN + counter, IKSN + other
        frame = upper(write_reversal(key, number, reversed_))
        of_others = [f"{IKSN + it:020X}" for it in (counter, 0x7FF)]
        for standing, state in (([], 0), (of_others, 0), ([*of_others, f"{reversed_:020x}"], 1)):
            wanted = [f"number {number:020X}", f"reversed {reversed_:020X}",
                      f"reply {upper(write_reversal_reply(key, number, reversed_, state))}"]
            self.assertEqual(self.lines("host", frame, *standing), wanted)

    def test_host_that_refuses(self: ExampleCase) -> None:
        frame = made_request(1, PAN, PIN, 1)
        reversal = write_reversal(derive(BASE, IKSN + 2), IKSN + 2, IKSN + 1)
        of_bad_number = write_reversal(derive(BASE, IKSN + 0x7FF), IKSN + 0x7FF, IKSN + 1)
        for reason, number, given in (
            (1, 0, ""), (1, 0, "no digits"), (1, 0, upper(frame[:-1])), (1, 0, upper(bytes(99))),
            (1, 0, upper(reversal[:-1])),
            (1, 0, upper(write_reversal_reply(derive(BASE, IKSN + 2), IKSN + 2, IKSN + 1, 1))),
            (3, IKSN + 0x7FF, upper(made_request(0x7FF, PAN, PIN, 1))),
            (3, IKSN + 0x7FF, upper(of_bad_number)),
            (4, IKSN + 1, upper(frame[:31] + b"\x02" + frame[32:])),
            (4, IKSN + 2, upper(reversal[:-1] + bytes([reversal[-1] ^ 1]))),
        ):
            wanted = [f"refusal {upper(write_refusal(number, reason))}"]
            self.assertEqual(self.lines("host", given), wanted)

    def test_host_without_words(self: ExampleCase) -> None:
        frame = upper(write_reversal(derive(BASE, IKSN + 2), IKSN + 2, IKSN + 1))
        for words in ((), (frame, "1"), (frame, "G" * 20), (frame, f"{IKSN:020X}00")):
            done = self.run_example("host", *words)
            self.assertEqual((done.returncode, done.stdout), (1, b""))
            self.assertIn(b"usage: ", done.stderr)

    def test_key_block(self: ExampleCase) -> None:
        """The block is that of the initial key under the loading key, and never the same."""
        made = set()
        for _ in range(2):
            block, *rest = self.lines("key_block")
            self.assertEqual(rest, [f"key {upper(INITIAL)}", "other OtherUsage", "forged BlockMac"])
            made.add(block)
            text = block.removeprefix("block ").encode()
            self.assertEqual(unwrap(LOADING, text), (b"B1TX00N", INITIAL))
        self.assertEqual(len(made), 2)


class TestC(Examples, InC):
    pass


class TestPython(Examples, InPython):
    pass


class TestRust(Examples, InRust):
    pass
