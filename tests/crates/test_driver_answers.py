"""What terminals make of answers and of key blocks that are right, wrong or changed."""
from __future__ import annotations

from ..support.case import DriverCase
from ..support.crates.driver import Drive, DrivenTerminal, Habit
from ..support.crates.driver_keys import FIELDS, Keys, random_purchase, terminal_at
from ..support.formats.frames import CODES, REASONS, bytes_of, framed, write_refusal, write_reply
from ..support.standards.dukpt import SPENT, iksn_of, key_of, next_counter, response_key
from ..support.standards.key_blocks import header, sealed, wrap

HEADER = 16
BLOCK_FAULTS = ("Length", "Version", "HeaderField", "OptionalBlock", "Hex", "Mac", "Payload")


class TestAnswers(DriverCase):
    weight = 6

    def test_answers(self) -> None:
        """Answers that are cut, changed, of another number or under another key end nothing; a
        refusal leaves what is pending; the right reply ends it, once."""
        drive = Drive()
        for _ in range(60 * self.times):
            keys = Keys(self.chance)
            terminal = terminal_at(drive, keys, next_counter(self.chance.randrange(1 << 20)))
            serial = terminal.model.registers.next
            terminal.begin(random_purchase(self.chance))
            key = key_of(keys.initial(serial), serial)
            reply = write_reply(key, serial, self.chance.choice(CODES))
            for frame in self.wrong(keys, key, serial, reply):
                terminal.reply(frame)
            terminal.reply(write_refusal(serial, self.chance.choice(REASONS)))
            terminal.reply(reply)
            terminal.reply(reply)
            terminal.reply(write_refusal(serial, 5))
        drive.demand(self)
        drive.demand_all(self, *(f"fault {name}" for name in ("Malformed", "NotMine", "BadMac",
                                                              "NotPending")))
        drive.demand_all(self, *(f"done {code}" for code in CODES),
                         *(f"refused {reason}" for reason in REASONS))

    def wrong(self, keys: Keys, key: bytes, serial: int, reply: bytes) -> list[bytes]:
        """Answers that do not end a transaction."""
        changed = bytearray(reply)
        changed[self.chance.randrange(len(reply))] ^= 1 << self.chance.randrange(8)
        other = self.chance.choice((serial ^ 1, serial ^ SPENT, iksn_of(serial)))
        return [
            b"", reply[: self.chance.randrange(len(reply))], reply + b"\x00", bytes(changed),
            write_reply(key, other, "00"), write_refusal(other, 5),
            write_reply(keys.chance.randbytes(16), serial, "00"),
            framed(b"\x01\x03" + bytes_of(serial) + bytes([self.chance.choice((0, 7, 255))])),
            framed(b"\x01\x02" + bytes_of(serial) + b"99" + response_key(key)[:8]),
        ]


class TestKeyBlocks(DriverCase):
    """Each key block is for a new terminal, which is loaded or keeps as it was."""

    weight = 6

    def load_all(self, drive: Drive, keys: Keys, blocks: list[bytes]) -> None:
        for block in blocks:
            terminal = DrivenTerminal(drive, Habit())
            terminal.restart()
            terminal.load(keys.loading, block, keys.iksn())
            terminal.next()

    def test_fields(self) -> None:
        """Blocks of any use and padding, with optional blocks, of a key of another length, under
        another key, or with a payload that is none."""
        drive = Drive()
        for _ in range(20 * self.times):
            keys = Keys(self.chance)
            self.load_all(drive, keys, [self.of_any_use(keys) for _ in range(4)])
            self.load_all(drive, keys, self.of_other_payloads(keys))
            self.load_all(drive, keys, [self.with_optional_blocks(keys)])
        drive.demand(self)
        drive.demand_all(self, "fault WrongUse", "loaded", "empty", "next", "fault Block Mac",
                         "fault Block Payload", "fault Block OptionalBlock")

    def of_any_use(self, keys: Keys) -> bytes:
        usage, algorithm = self.chance.choice((b"B1", b"B1", b"B0", b"P0", b"~ ")), b"TTTA"
        fields = usage + bytes((self.chance.choice(algorithm), *self.chance.choices(b"XXNEB")))
        pad = self.chance.randbytes(6 + 8 * self.chance.randrange(5))
        return wrap(keys.loading, fields + b"00" + self.chance.choice((b"N", b"E", b" ")),
                    self.chance.randbytes(16), pad)

    def of_other_payloads(self, keys: Keys) -> list[bytes]:
        key = self.chance.randbytes(16)
        bits = self.chance.choice((0, 64, 127, 192, 256)).to_bytes(2, "big")
        return [sealed(keys.loading, header(FIELDS, 80), bits + key + bytes(6)),
                wrap(keys.loading, FIELDS, key + bytes(8), bytes(6)),
                wrap(key, FIELDS, key, bytes(6))]

    def with_optional_blocks(self, keys: Keys) -> bytes:
        """A block with one optional block, whose length may be wrong."""
        payload = (128).to_bytes(2, "big") + self.chance.randbytes(16) + bytes(6)
        length = self.chance.choice((b"10", b"10", b"0F", b"03", b"FF", b"1G"))
        front = header(FIELDS, 96, 1) + b"KS" + length + self.chance.randbytes(12)
        return sealed(keys.loading, front, payload)

    def test_changed(self) -> None:
        """A block with each of its characters changed, that is cut, or that has a part more."""
        drive, keys = Drive(), Keys(self.chance)
        block = keys.block(keys.iksn())
        changed = [b"", block[:-8], block[:-1], block + b"0", block + bytes(8)]
        for at in range(len(block)):
            places = {48 + self.chance.randrange(10), block[at] ^ 1 << self.chance.randrange(8),
                      self.chance.randrange(256)}
            changed += [block[:at] + bytes([char]) + block[at + 1 :] for char in sorted(places)]
        changed.append(block[:HEADER] + block[HEADER:].lower())
        self.load_all(drive, keys, changed)
        drive.demand(self)
        drive.demand_all(self, "loaded", *(f"fault Block {name}" for name in BLOCK_FAULTS
                                           if name != "Payload"))
