"""Arguments of the commands of every day at random, right ones and wrong ones, with files and standard
input that hold secrets. `everyday_words` says how each case has to end."""
from __future__ import annotations

import random
from dataclasses import dataclass, field
from typing import Callable, Optional, Sequence

from ..formats.frames import (
    CODES, NO_NUMBER, REASONS, STATES, write_refusal, write_reply, write_request, write_reversal,
    write_reversal_reply)
from ..standards.des import encrypt_block
from ..standards.dukpt import (
    COUNTER_BITS, SPENT, counter_of, derive, iksn_of, key_of, pin_key, serial_text)
from ..standards.key_blocks import wrap
from ..standards.macs import cmac, retail_mac
from ..standards.pin_blocks import pin_block
from ..standards.weak_keys import weak_key
from ..worlds.worlds import digits
from .everyday import NUMBERS, check_value, nth_counter
from .everyday_words import COMMANDS, MOST_BYTES, MOST_KEYS, may_refer
from .finding import keys_of_number

# Counters that are not usable, and the last ones that are.
COUNTERS = (0, 0x7FF, 0x1FFFFF, 0x1FFC00, 1, 0x7FE, 0x1FF800, 1 << COUNTER_BITS - 1)
NO_COUNTS = ("", "x", "1x", "-", "0x1", "1048577", "99999999999999999999", " 1", "\u0661", "1.0")
# Words that are neither keys nor numbers, frames or texts of digits.
NOTHINGS = ("", "g", "zz", "0", "00", "\u00e9" * 8, "12 34", "0x" + "1" * 30, "nothing")
TEXTS = ("", "a", "4012345678909D987", "\u20ac 5,00", " ", "@", "@-", "@missing", "@@", "@@-", "@@@it",
         "00", "0g", "0a0")


@dataclass
class Case:
    """The arguments of a run, and what the files that they name and its standard input hold."""

    words: list[str]
    files: dict[str, bytes] = field(default_factory=dict)
    given: bytes = b""


class Draw:
    """Draws cases. Files stand in a folder; those that a case names are the caller's to write."""

    def __init__(self, chance: random.Random, folder: str) -> None:
        self.chance = chance
        self.folder = folder

    def one_in(self, count: int) -> bool:
        return self.chance.randrange(count) == 0

    # Words

    def written(self, word: str) -> str:
        """Digits in either case, now and then one too few or too many, or with another character."""
        chance = self.chance
        if self.one_in(16):
            at = chance.randrange(len(word))
            return chance.choice((*NOTHINGS, word[1:], word + "0", word[2:], word * 2, word + " ",
                                  word[:at] + chance.choice("gG/:@`\u00e9 ") + word[at + 1 :]))
        return chance.choice((word.upper(), word.lower()))

    def key(self, *sizes: int) -> tuple[bytes, str]:
        """A key, and a word for it."""
        key = self.chance.randbytes(self.chance.choice(sizes))
        if self.one_in(40):
            # Keys with equal halves, of zeros alone, and the like are keys too.
            key = self.chance.choice((bytes(len(key)), b"\xff" * len(key), key[:8] * (len(key) // 8)))
        return key, self.written(key.hex())

    def serial(self) -> int:
        """A number, most of which have a usable counter."""
        counter = nth_counter(self.chance.randrange(NUMBERS))
        if self.one_in(8):
            counter = self.chance.choice(COUNTERS)
        return self.iksn() + counter

    def iksn(self) -> int:
        return self.chance.randrange(1 << 80) // SPENT * SPENT

    def number(self) -> tuple[int, str]:
        serial = self.serial()
        return serial, self.written(serial_text(serial))

    def digits(self, least: int, most: int) -> tuple[str, str]:
        """Digits, and a word for them."""
        text = digits(self.chance, *self.chance.choice(((least, most), (least,) * 2, (most,) * 2)))
        if self.one_in(10):
            at = self.chance.randrange(len(text))
            wrong = text[:at] + self.chance.choice("/:aA +\u0661") + text[at + 1 :]
            return text, self.chance.choice(("", text[0] * (least - 1), text[0] * (most + 1), wrong))
        return text, text

    def pin(self) -> tuple[str, str]:
        return self.digits(4, 12)

    def pan(self) -> tuple[str, str]:
        return self.digits(12, 19)

    def count(self, most: int, above: int) -> str:
        """A count, with zeros before it or none, or what is above the greatest one."""
        if self.one_in(12):
            return self.chance.choice((*NO_COUNTS, str(above)))
        return "0" * self.chance.choice((0, 0, 0, 1, 30)) + str(self.chance.randrange(most))

    # Cases

    def case(self, command: str, *words: str, flags: Optional[Sequence[str]] = None,
             **valued: Optional[str]) -> Case:
        """A command with these values, with options at random or these, and secrets by reference."""
        made, about = Case([]), COMMANDS[command]
        names = about.values * len(words) if about.is_many else about.values
        parts = [(False, [self.referred(made, command, name, word)])
                 for name, word in zip(names, words)]
        given = [it for it in about.flags if self.one_in(2)] if flags is None else flags
        options = [[f"--{it}"] for it in given]
        for name, value in valued.items():
            if value is not None:
                word = self.referred(made, command, about.valued[name], value)
                options.append(self.chance.choice(([f"--{name}", word], [f"--{name}={word}"])))
        for option in options:
            # Keys of which there may be many stand together.
            ends = (0, len(parts))
            at = self.chance.choice(ends) if about.is_many else self.chance.randint(*ends)
            parts.insert(at, (True, option))
        made.words = [command, *self.joined(parts, about.is_many)]
        return self.refused_words(made)

    def joined(self, parts: list[tuple[bool, list[str]]], is_together: bool) -> list[str]:
        """The words of options and values. From the first value with a hyphen on, or now and then
        from any, all options stand before `--`."""
        at = next((at for at, (is_option, it) in enumerate(parts)
                   if not is_option and it[0].startswith("-")), None)
        if at is None and not self.one_in(10):
            return [word for _, it in parts for word in it]
        at = self.chance.randint(0, len(parts)) if at is None else at
        if is_together and any(is_option for is_option, _ in parts[at:]):
            at = 0
        before = [word for _, it in parts[:at] for word in it]
        moved = [word for is_option, it in parts[at:] for word in it if is_option]
        return [*before, *moved, "--", *(it[0] for is_option, it in parts[at:] if not is_option)]

    def refused_words(self, case: Case) -> Case:
        """Now and then a word is missing, or there is one more."""
        if self.one_in(60):
            case.words.append(self.chance.choice(("extra", self.chance.randbytes(16).hex())))
        elif self.one_in(60):
            case.words = case.words[:1]
        return case

    def referred(self, case: Case, command: str, name: str, word: str) -> str:
        """A secret in a file or on standard input, now and then."""
        if name == "TEXT" and not word.startswith(("@", "-")) and self.one_in(3):
            return self.referred_text(case, word)
        if not may_refer(name) or not self.one_in(4):
            return word
        data = self.file_of(word.encode())
        if self.one_in(4):
            case.given = case.given or data
            return "@-"
        path = f"{self.folder}/{len(case.files)}"
        if self.one_in(8):
            return f"@{path}.missing"
        case.files[path] = data
        return f"@{path}"

    def referred_text(self, case: Case, word: str) -> str:
        """A TEXT in a file or on standard input, behind the line of another argument if one is there."""
        data = word.encode() if not self.one_in(4) else self.chance.randbytes(self.chance.choice((0, 8, 24)))
        if self.one_in(3):
            front = case.given if case.given.endswith(b"\n") else b""
            case.given = front + data if front or not case.given else case.given
            return "@-"
        path = f"{self.folder}/{len(case.files)}"
        if self.one_in(8):
            return f"@{path}.missing"
        case.files[path] = data
        return f"@{path}"

    def file_of(self, line: bytes) -> bytes:
        """A file whose first line this is, or now and then another one, or none that is read."""
        if self.one_in(8):
            return self.chance.choice((
                line + b"\xff\n", b"\xed\xa0\x80\n", b"0" * (MOST_BYTES + 1), b"0" * MOST_BYTES + b"\r",
                b"\xff" * (MOST_BYTES + 1)))
        if self.one_in(12):
            return self.chance.choice((
                b"", b"\n", b"\r\n", line + b"\r", b"\n" + line, b" " + line, line + b" \n",
                b"\xef\xbb\xbf" + line, line + b"\x00\n", b"0" * MOST_BYTES + b"\n",
                b"0" * MOST_BYTES + b"\r\n"))
        return line + self.chance.choice((b"\n", b"\n", b"\r\n", b"", b"\nmore\n", b"\n\xff\xfe",
                                          b"\r\n" + b"x" * 5000, b"\n\n"))

    # Each command

    def derive(self) -> Case:
        return self.case("derive", self.key(16)[1], self.number()[1])

    def walk(self) -> Case:
        counter = 0 if not self.one_in(10) else self.chance.choice((1, 0x100000))
        skip = None if self.one_in(2) else self.count(200, 1_048_577)
        return self.case("walk", self.key(16)[1], self.written(serial_text(self.iksn() + counter)),
                         self.count(20, 1_048_577), skip=skip)

    def initial(self) -> Case:
        serial = self.iksn() if not self.one_in(10) else self.serial()
        return self.case("initial", self.key(16)[1], self.written(serial_text(serial)))

    def registers(self) -> Case:
        return self.case("registers", self.key(16)[1], self.number()[1])

    def kcv(self) -> Case:
        count = self.chance.choice((1, 1, 2, 3, MOST_KEYS, self.chance.randint(1, MOST_KEYS)))
        sizes = self.chance.choice(((16,), (24,), (16, 24)))
        return self.case("kcv", *(self.checked_key(*sizes) for _ in range(count)))

    def lmk(self) -> Case:
        count = self.chance.choice((1, 2, 2, 3, self.chance.randint(2, 9), 9, 10))
        sizes = self.chance.choice(((16,), (16,), (24,), (24,), (16, 24)))
        words = [self.component(*sizes) for _ in range(count)]
        if self.one_in(6):
            # Of two equal ones there is nothing left.
            words[1:] = words[:1]
        if not self.one_in(3):
            return self.case("lmk", *words, flags=[])
        fields = self.chance.choice(("P0TB00N", "B0TX00N", "P0TB00", "P0TB0\x7fN"))
        case = self.case("lmk", *words, flags=[] if not self.one_in(24) else ["new"], key=self.key(16, 24)[1],
                         fields=fields, pad=self.written(self.padding()))
        if self.one_in(24):
            case.words = [it for it in case.words if not it.startswith("--pad=")]
        return case

    def padding(self) -> str:
        """Padding that fills whole blocks, or does not."""
        return self.chance.randbytes(self.chance.choice((6, 6, 6, 14, 5))).hex()

    def new_component(self) -> Case:
        """`lmk --new`, mostly of one text."""
        count = 1 if not self.one_in(12) else self.chance.choice((2, 10))
        return self.case("lmk", *(self.checked_key(16, 24) for _ in range(count)), flags=["new"])

    def component(self, *sizes: int) -> str:
        """A word for a component, the value of which may be another one's."""
        key, word = self.key(*sizes)
        value = check_value(key)
        if self.one_in(20):
            value = self.chance.choice((value.lower(), value[:-1], value + "0", "", "000000"))
        return f"{word}{' ' if not self.one_in(40) else self.chance.choice(('', '  '))}{value}"

    def checked_key(self, *sizes: int) -> str:
        """A word for a key, which is often weak."""
        if self.one_in(3):
            return self.written(weak_key(self.chance, self.chance.choice(sizes)).hex())
        return self.key(*sizes)[1]

    def mac(self) -> Case:
        data = self.chance.randbytes(self.chance.choice((0, 1, 7, 8, 9, 16, 23, 64, 600)))
        text = self.chance.choice((self.written(data.hex() or "00"), data.hex(), data.hex(),
                                   self.chance.choice(TEXTS), "--cmac", "-"))
        return self.case("mac", self.key(16, 16, 24)[1], text)

    def data(self) -> Case:
        """Whole blocks, one at the least and 255 at most, or now and then no whole ones."""
        blocks = self.chance.choice((1, 1, 2, 3, 7, 254, 255))
        size = blocks * 8 if not self.one_in(6) else self.chance.choice((0, 7, 9, 2041, 2047, 2048, 2056))
        data = self.chance.randbytes(size)
        # A text with characters of two bytes, as one of the same number of bytes.
        text = "\u00e9" * (size // 4) + "x" * (size - size // 4 * 2)
        word = self.chance.choice((self.written(data.hex() or "00"), data.hex(), text, text,
                                   self.chance.choice(TEXTS), "--decipher", "-"))
        iv = None if self.one_in(2) else self.written(self.chance.randbytes(8).hex())
        return self.case("data", self.key(16, 16, 24)[1], word, iv=iv)

    def block(self, pin: str, pan: str, key: Optional[bytes]) -> str:
        """A PIN block, or now and then almost one."""
        clear = pin_block(pin, pan)
        if self.one_in(8):
            clear ^= self.chance.choice((1, 15, 1 << 63, 1 << 56, 10 << self.chance.randrange(0, 60, 4),
                                         self.chance.randrange(1 << 64)))
        block = clear.to_bytes(8, "big")
        return self.written((block if key is None else encrypt_block(key, block)).hex())

    def unpin(self) -> Case:
        (pin, _), (pan, pan_word) = self.pin(), self.pan()
        key, word = (None, None) if self.one_in(3) else self.key(16)
        return self.case("unpin", self.block(pin, pan, key), pan_word, key=word)

    def translate(self) -> Case:
        (pin, _), (pan, pan_word) = self.pin(), self.pan()
        (base, base_word), (serial, number) = self.key(16), self.number()
        flags, key = self.under(base, serial)
        return self.case("translate", self.block(pin, pan, pin_key(key)), pan_word, base_word, number,
                         self.key(16, 24)[1], flags=flags)

    def under(self, base: bytes, serial: int) -> tuple[list[str], bytes]:
        """Whether a key is that of the terminal, as options say it, and the key of a number."""
        is_own = self.one_in(2)
        return ["initial"] if is_own else [], (key_of if is_own else derive)(base, serial)

    def request(self) -> Case:
        return self.case("request", self.key(16)[1], self.number()[1], self.pan()[1], self.pin()[1],
                         self.count(1 << 32, 1 << 32))

    def reversal(self) -> Case:
        """`request` with a number to reverse."""
        base, (serial, number) = self.key(16)[1], self.number()
        payment = (self.pan()[1], self.pin()[1], "1") if self.one_in(40) else ()
        return self.case("request", base, number, *payment,
                         reverse=self.written(serial_text(self.reversed_by(serial))))

    def reversed_by(self, serial: int) -> int:
        """A number that a reversal under this one may reverse, or now and then another one."""
        if self.one_in(6):
            return self.chance.choice((serial, self.serial(), serial ^ 1 << self.chance.randrange(21),
                                       iksn_of(serial) + self.chance.choice(COUNTERS)))
        return iksn_of(serial) + nth_counter(self.chance.randrange(NUMBERS))

    def reply(self) -> Case:
        (base, word), serial = self.key(16), self.serial()
        flags, key = self.under(base, serial)
        pan, pin, amount = self.pan()[0], self.pin()[0], self.chance.randrange(1 << 32)
        other = self.reversed_by(serial)
        sent, back = self.chance.choice((
            (write_request(key, serial, pan, pin, amount), self.answer(key, serial)),
            (write_reversal(key, serial, other), self.undoing(key, serial, other))))
        if self.one_in(12):
            # What answers a payment, to a reversal, or the other way round.
            back = self.chance.choice((self.answer, lambda *it: self.undoing(*it, other)))(key, serial)
        return self.case("reply", word, self.frame_word(sent), self.frame_word(back), flags=flags)

    def answer(self, key: bytes, serial: int) -> bytes:
        """An answer to a number, to another one, or to none."""
        other = self.chance.choice((serial, serial, serial, serial, self.serial()))
        if self.one_in(2):
            return self.forged(write_reply(key, other, self.chance.choice(CODES)))
        return write_refusal(self.chance.choice((other, NO_NUMBER)), self.chance.choice(REASONS))

    def undoing(self, key: bytes, serial: int, other: int) -> bytes:
        """A reply to the reversal of a number, or of another one, or a refusal."""
        if self.one_in(5):
            return self.answer(key, serial)
        if self.one_in(6):
            other = self.reversed_by(serial)
        return self.forged(write_reversal_reply(key, serial, other, self.chance.choice(STATES)))

    def forged(self, made: bytes) -> bytes:
        """Now and then with another MAC."""
        wrong = made[:-1] + bytes([made[-1] ^ 1 << self.chance.randrange(8)])
        return wrong if self.one_in(5) else made

    def frame_word(self, frame: bytes) -> str:
        if self.one_in(10):
            at = self.chance.randrange(len(frame))
            frame = self.chance.choice((
                frame[1:], frame[:-1], frame + b"\x00", frame[2:], bytes(2), frame[:1],
                frame[:at] + bytes([frame[at] ^ 1 << self.chance.randrange(8)]) + frame[at + 1 :]))
        return self.written(frame.hex() or "00")

    # What a key of a number made

    def find(self) -> Case:
        """A search for what a key of a number made, or now and then for what none did."""
        (base, word), serial = self.key(16), self.serial()
        flags, own = self.under(base, serial)
        under = self.chance.choice(keys_of_number(own))[1]
        what, valued = self.chance.choice((self.sent_frame, self.mac_of_text, self.hidden_pin,
                                           self.hidden_block))(own, under, serial)
        first = None if not valued and self.one_in(2) else self.begun(serial)
        options = {"from": first, "window": self.window(), **valued}
        if "text" in valued and self.one_in(2):
            # As bytes in hexadecimal, or now and then as no such text.
            options["text"] = self.written((valued["text"] or "").encode().hex() or "00")
            flags = [*flags, "hex"]
        return self.unfit(self.case("find", word, what, flags=flags, **options))

    def begun(self, serial: int) -> str:
        """A number from which a search comes upon this one, or now and then not."""
        counter = counter_of(serial)
        first = self.chance.choice((serial, serial, iksn_of(serial) + max(0, counter - self.chance.randrange(12)),
                                    iksn_of(serial) + self.chance.choice(COUNTERS)))
        return self.written(serial_text(self.serial() if self.one_in(20) else first))

    def window(self) -> str:
        """How many numbers are tried at most: few, so that a model may try them too."""
        if self.one_in(12):
            return self.chance.choice((*NO_COUNTS, "0", "00", "100001", "100000x"))
        return "0" * self.chance.choice((0, 0, 0, 1, 30)) + str(self.chance.choice((1, 2, 3, 20)))

    def sent_frame(self, own: bytes, _under: bytes, serial: int) -> tuple[str, dict[str, str]]:
        frame = self.chance.choice((
            write_request(own, serial, self.pan()[0], self.pin()[0], self.chance.randrange(1 << 32)),
            write_reversal(own, serial, self.reversed_by(serial)), self.answer(own, serial),
            self.undoing(own, serial, self.reversed_by(serial))))
        return self.frame_word(self.forged(frame)), {}

    def mac_of_text(self, _own: bytes, under: bytes, _serial: int) -> tuple[str, dict[str, str]]:
        text = self.chance.choice((*TEXTS, digits(self.chance, 1, 40)))
        data = text.encode() or b"\x00"
        mac = self.chance.choice((retail_mac, cmac))(under, data)
        return self.written(self.changed(mac).hex()), {"text": text}

    def hidden_pin(self, _own: bytes, under: bytes, _serial: int) -> tuple[str, dict[str, str]]:
        (pin, _), (pan, pan_word) = self.pin(), self.pan()
        return self.block(pin, pan, under), {"pan": pan_word}

    def hidden_block(self, _own: bytes, under: bytes, _serial: int) -> tuple[str, dict[str, str]]:
        clear = self.chance.randbytes(8)
        return (self.written(self.changed(encrypt_block(under, clear)).hex()),
                {"clear": self.written(clear.hex())})

    def changed(self, block: bytes) -> bytes:
        """Now and then another one."""
        return self.chance.randbytes(8) if self.one_in(8) else block

    def unfit(self, case: Case) -> Case:
        """Now and then an option is missing that another one requires, or there is one too many."""
        if self.one_in(24):
            case.words = [it for it in case.words if not it.startswith("--from=")]
        elif self.one_in(24):
            case.words.insert(1, self.chance.choice(("--hex", "--text=a", "--pan=1", "--clear=x")))
        return case

    def shown_frame(self) -> Case:
        """`show` of a frame whose MAC is tested."""
        (base, word), serial = self.key(16), self.serial()
        flags, own = self.under(base, serial)
        frame = self.sent_frame(own, own, serial)[0]
        kind = self.chance.choice(("frame", "block", "x", "")) if self.one_in(40) else "frame"
        key = None if self.one_in(40) else word
        return self.case("show", kind, frame, flags=[*flags, *(["show"] if self.one_in(2) else [])],
                         key=key)

    def others(self) -> Case:
        """`wrap` or `unwrap`."""
        return self.chance.choice((self.wrap_case, self.unwrap_case))()

    def pin_case(self) -> Case:
        return self.case("pin", self.pin()[1], self.pan()[1],
                         key=None if self.one_in(3) else self.key(16)[1])

    def wrap_case(self) -> Case:
        return self.case("wrap", self.key(16, 24)[1], "P0TE00E", self.key(16, 24)[1],
                         self.written(self.chance.randbytes(6).hex()))

    def key_block(self, protection: bytes) -> str:
        """A key block under this key, or now and then under another one, or almost a key block."""
        chance = self.chance
        if self.one_in(12):
            protection = chance.randbytes(chance.choice((16, 24)))
        fields, key = bytes(chance.choices(range(0x20, 0x7F), k=7)), chance.randbytes(chance.choice((16, 24)))
        text = wrap(protection, fields, key, chance.randbytes(6)).decode()
        if self.one_in(8):
            at = chance.randrange(len(text))
            text = chance.choice((text[:at], text[:at] + chance.choice("0Ag ~") + text[at + 1 :],
                                  text[:at] + text[at + 1 :], text + text[at:]))
        return text

    def unwrap_case(self) -> Case:
        (protection, word), (key, _) = self.key(16, 24), self.key(16, 24)
        text = wrap(protection, b"P0TE00E", key, self.chance.randbytes(6)).decode()
        return self.case("unwrap", word, self.chance.choice((text, text, text[:-1] + "g", "@block")))


DRAWS: dict[str, Callable[[Draw], Case]] = {
    "pin": Draw.pin_case,
    **{name: getattr(Draw, name) for name in (
        "derive", "walk", "initial", "registers", "kcv", "lmk", "new_component", "mac", "data", "unpin", "translate", "request",
        "reversal", "reply", "find", "shown_frame", "others")}}
