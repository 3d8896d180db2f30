"""The panels of the page, by what is typed: the standards' values, and values at random."""
from __future__ import annotations

from ..support.library.call_cases import Chance
from ..support.library.call_cases_of_blocks import unwrap as unwrap_cases
from ..support.page.page_case import PageCase
from ..support.page.page_values import (
    BASE, DERIVED, IKSN, INITIAL, KINDS, check_values, derived, upper)
from ..support.standards import many
from ..support.standards.dukpt import counter_of, derive, iksn_of, serial_text
from ..support.standards.key_blocks import header, sealed, wrap
from ..support.standards.macs import retail_mac
from ..support.standards.pin_blocks import account_field, pin_block
from ..vectors.test_ciphers import data, vectors

# How many cases at random a panel is given.
CASES = 150


class TestDerive(PageCase):
    """The keys of a key serial number."""

    def test_standard(self) -> None:
        """The sample keys of ANSI X9.24-1: one typed key by key, and all."""
        self.type("derive-bdk", BASE.lower())
        self.type("derive-ksn", serial_text(IKSN + 1).lower())
        self.assert_shown(dict(zip(DERIVED, derived([bytes.fromhex(INITIAL)], [IKSN + 1])[0])))
        samples = list(vectors("dukpt.txt"))
        self.assert_tried(["derive-bdk", "derive-ksn"], [[BASE, number] for number, _ in samples],
                          ["derive-initial-key", "derive-transaction-key"],
                          [[INITIAL, key] for _, key in samples])
        self.assert_quiet()

    def test_random(self) -> None:
        """From a base derivation key, from an initial key and from a transaction key; in either case
        of letters."""
        chance, count = Chance(self.chance), CASES * self.times
        serials, keys = chance.usables(count), chance.keys(count)
        cases = [[key.hex(), serial_text(serial)] for key, serial in zip(keys, serials)]
        initials = many.initial_keys(keys, list(map(iksn_of, serials)))
        wanted = derived(initials, serials)
        self.assert_tried(["derive-bdk", "derive-ksn"], cases, DERIVED, wanted)
        self.set(derive_from_initial="chosen")
        cases = [[upper(key), serial_text(serial)] for key, serial in zip(initials, serials)]
        self.assert_tried(["derive-initial", "derive-ksn"], cases, DERIVED, wanted)
        self.set(derive_from_transaction="chosen")
        given = [[texts[KINDS.index("transaction") * 3]] for texts in wanted]
        self.assert_tried(["derive-transaction"], given, DERIVED,
                          [[""] * 3 + texts[3:] for texts in wanted])

    def test_steps(self) -> None:
        """Each step, from the initial key down; and of a counter of zero that key alone."""
        chance = Chance(self.chance)
        for serial in (IKSN + 1, IKSN + 0x155555 - 5, *chance.usables(20)):
            key = self.chance.randbytes(16)
            self.set(derive_bdk=upper(key), derive_ksn=serial_text(serial))
            counter, reached = counter_of(serial), [0]
            for place in reversed(range(21)):
                if counter >> place & 1:
                    reached.append(reached[-1] | 1 << place)
            wanted = [[f"{at:06X}", serial_text(iksn_of(serial) + at),
                       upper(derive(key, iksn_of(serial) + at))] for at in reached]
            self.assertEqual(
                self.rows("#derive-steps tr", ["data-counter"], ["number", "key"]), wanted)
        self.set(derive_bdk=BASE, derive_ksn=serial_text(IKSN))
        values = check_values([bytes.fromhex(INITIAL)])[0] + [""] * 12
        self.assert_shown(dict(zip(DERIVED, values)))
        self.assertIn("zero", self.text("derive-note"))
        self.assertEqual(self.rows("#derive-steps tr", ["data-counter"], ["key"]),
                         [["000000", INITIAL]])


class TestPins(PageCase):
    """PIN blocks: encoded, decoded and translated."""

    panel = "pin"

    def test_vectors(self) -> None:
        for pin, pan, block in vectors("pin_blocks.txt"):
            self.type("pin-pin", pin)
            self.type("pin-pan", pan)
            account = account_field(pan)
            self.assert_shown({
                "pin-block": block, "pin-account-field": f"{account:016X}",
                "pin-pin-field": f"{int(block, 16) ^ account:016X}"})
            self.set(open_key="")
            self.type("open-block", block)
            self.type("open-pan", pan)
            self.assert_shown({"open-clear": block, "open-pin": pin})
        self.assert_quiet()

    def test_random(self) -> None:
        chance, count = Chance(self.chance), CASES * self.times
        pins, pans = chance.pins(count), chance.pans(count)
        keys, zones = chance.tdes_keys(count), chance.tdes_keys(count)
        clear = [pin_block(pin, pan).to_bytes(8, "big") for pin, pan in zip(pins, pans)]
        hidden, translated = many.encrypted(keys, clear), many.encrypted(zones, clear)
        fields = [upper(many.xor(block, account_field(pan).to_bytes(8, "big")))
                  for block, pan in zip(clear, pans)]
        accounts = [f"{account_field(pan):016X}" for pan in pans]
        texts = list(map(upper, keys))
        self.assert_tried(
            ["pin-pin", "pin-pan", "pin-key"], list(zip(pins, pans, texts)),
            ["pin-pin-field", "pin-account-field", "pin-block", "pin-enciphered"],
            list(zip(fields, accounts, map(upper, clear), map(upper, hidden))))
        self.assert_tried(
            ["open-block", "open-key", "open-pan"], list(zip(map(upper, hidden), texts, pans)),
            ["open-clear", "open-pin"], list(zip(map(upper, clear), pins)))
        self.assert_tried(
            ["translate-block", "translate-from", "translate-to"],
            list(zip(map(upper, hidden), texts, map(upper, zones))),
            ["translate-result"], [[upper(it)] for it in translated])


class TestMacs(PageCase):
    """MACs of a message, and check values of a key."""

    panel = "mac"

    def test_vectors(self) -> None:
        self.set(mac_as_hexadecimal="chosen")
        for name, result in (("cmac.txt", "mac-cmac"), ("retail.txt", "mac-retail")):
            for key, message, mac in map(data, vectors(name)):
                self.set(mac_key=upper(key), mac_message=upper(message))
                self.assert_shown({result: upper(mac)})
        self.set(mac_as_text="chosen")
        self.type("mac-key", BASE)
        for key, message, mac in map(data, vectors("retail.txt")):
            self.type("mac-message", message.decode())
            self.assert_shown({"mac-retail": upper(mac)})
        self.assert_quiet()

    def test_random(self) -> None:
        """Messages as text, with letters beyond ASCII; as hexadecimal, with lines and spaces."""
        chance, count = Chance(self.chance), CASES * self.times
        keys = chance.tdes_keys(count)
        values = [it[1:] for it in check_values(keys)]
        letters = "abc XYZ.09äßλ€\U0001F511"
        texts = ["".join(self.chance.choices(letters, k=self.chance.randrange(30)))
                 for _ in range(count)]
        messages = [text.encode() for text in texts]
        self.check(keys, texts, messages, values)
        self.set(mac_as_hexadecimal="chosen")
        messages = chance.bytes(count, *range(60))
        texts = [message.hex(self.chance.choice(" \n"), 4) for message in messages]
        self.check(keys, texts, messages, values)

    def check(self, keys: list[bytes], texts: list[str], messages: list[bytes],
              values: list[list[str]]) -> None:
        macs = many.cmacs(keys, messages)
        retail = [upper(retail_mac(key, message)) if len(key) == 16 and message else ""
                  for key, message in zip(keys, messages)]
        self.assert_tried(
            ["mac-key", "mac-message"], list(zip(map(upper, keys), texts)),
            ["mac-kcv", "mac-key-cmac", "mac-cmac", "mac-retail"],
            [[*value, upper(mac), it] for value, mac, it in zip(values, macs, retail)])


class TestBlocks(PageCase):
    """Key blocks: unwrapped, taken apart, and wrapped."""

    panel = "block"

    def test_vectors(self) -> None:
        """The example of ANSI X9.143, and its parts."""
        for protection, block, fields, key in vectors("key_blocks.txt"):
            self.set(unwrap_text="")
            self.type("unwrap-kbpk", protection)
            self.type("unwrap-text", block)
            _, *values = check_values([bytes.fromhex(key)])[0]
            results = "unwrap-key", "unwrap-kcv", "unwrap-cmac"
            self.assert_shown(dict(zip(results, (key, *values))))
            parts = self.rows("#unwrap-parts tr", ["data-part", "class"], ["characters", "text"])
            self.assertEqual([(name, text) for name, _, _, text in parts], [
                ("version", "B"), ("length", f"{len(block):04}"), ("usage", fields[:2]),
                ("algorithm", fields[2]), ("mode", fields[3]), ("key-version", fields[4:6]),
                ("exportability", fields[6]), ("count", "00"), ("reserved", "00"),
                ("ciphertext", block[16:-16]), ("mac", block[-16:])])
            last = len(block) - 1
            self.assertEqual([it[1:3] for it in parts][-2:], [
                [None, f"16 to {last - 16}"], [None, f"{last - 15} to {last}"]])
        self.assert_quiet()

    def test_unwrap(self) -> None:
        """At random, with optional blocks."""
        chance, count = Chance(self.chance), CASES * self.times
        drawn = list(unwrap_cases(chance, count))
        cases = [[upper(given[0]), given[1].decode()] for given, _, _ in drawn]
        keys = [written[1] for _, _, written in drawn]
        wanted = [[*values, text[-16:]] for values, (_, text) in zip(check_values(keys), cases)]
        self.assert_tried(["unwrap-kbpk", "unwrap-text"], cases,
                          ["unwrap-key", "unwrap-kcv", "unwrap-cmac", "unwrap-mac"], wanted)

    def test_optional_parts(self) -> None:
        """A block with two optional blocks: each is a part, with its characters."""
        protection = self.chance.randbytes(16)
        optional = b"KS18FFFF9876543210E0AAAA" + b"PB08ABCD"
        payload = b"\x00\x80" + self.chance.randbytes(22)
        front = header(b"B0TX00N", 32 + len(optional) + 48, 2) + optional
        text = sealed(protection, front, payload)
        self.set(unwrap_kbpk=upper(protection), unwrap_text=text.decode())
        self.assert_shown({"unwrap-key": upper(payload[2:18]), "unwrap-text-fault": ""})
        meanings = dict(self.rows("#unwrap-parts tr", ["data-part"], ["meaning"]))
        self.assertEqual(meanings["count"], "2 optional blocks")
        self.assertEqual(meanings["optional-1"], "optional block KS: key serial number")
        parts = self.rows("#unwrap-parts tr", ["data-part"], ["characters", "text"])
        self.assertEqual(parts[9:], [
            ["optional-1", "16 to 39", optional[:24].decode()],
            ["optional-2", "40 to 47", optional[24:].decode()],
            ["ciphertext", "48 to 95", text[48:96].decode()],
            ["mac", "96 to 111", text[96:].decode()]])

    def test_words(self) -> None:
        """Fields in the words of the glossary; what the standard lacks is said to be so."""
        for field, text, words in (
                ("usage", "B0", "base derivation key (BDK)"), ("usage", "B1", "initial key (IPEK)"),
                ("usage", "K1", "key block protection key (KBPK)"), ("usage", "P0", "PIN encryption"),
                ("usage", "10", "for proprietary use (numeric)"),
                ("usage", "ZZ", "no value of the standard"), ("algorithm", "T", "TDES"),
                ("mode", "X", "to derive other keys"), ("mode", "N", "no special restrictions"),
                ("version", "00", "key versions are not used"),
                ("version", "c2", "component 2 of a key"), ("version", "07", "version 07 of the key"),
                ("exportability", "N", "not exportable")):
            self.set(**{f"wrap-{field}": text})
            self.assert_shown({f"wrap-{field}-words": words})

    def test_wrap(self) -> None:
        chance, count = Chance(self.chance), CASES * self.times
        protections, keys = chance.tdes_keys(count), chance.tdes_keys(count)
        fields, pads = chance.fields(count), chance.bytes(count, 6, 14, 30)
        texts = many.wraps(protections, fields, keys, pads)
        names = ["wrap-kbpk", "wrap-usage", "wrap-algorithm", "wrap-mode", "wrap-version",
                 "wrap-exportability", "wrap-key", "wrap-padding"]
        cases = [
            [upper(protection), field[:2], field[2:3], field[3:4], field[4:6], field[6:],
             upper(key), upper(pad)]
            for protection, field, key, pad in zip(
                protections, [it.decode() for it in fields], keys, pads)]
        self.assert_tried(names, cases, ["wrap-text"], [[it.decode()] for it in texts])
        self.check_random_padding()

    def check_random_padding(self) -> None:
        """The button puts other padding in its field each time, and the block is that with it."""
        seen = set()
        for _ in range(8):
            self.click("wrap-random")
            given = [self.value(f"wrap-{name}") for name in (
                "kbpk", "usage", "algorithm", "mode", "version", "exportability", "key", "padding")]
            protection, key, pad = (bytes.fromhex(given[at]) for at in (0, 6, 7))
            wanted = wrap(protection, "".join(given[1:6]).encode(), key, pad)
            self.assert_shown({"wrap-text": wanted.decode(), "wrap-padding-fault": ""})
            seen.add(pad)
        self.assertEqual(len(seen), 8)
