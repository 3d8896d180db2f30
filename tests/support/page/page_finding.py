"""Searches of the panel "Find the key": what is sought, and the lines of `find`."""
from __future__ import annotations

import random
from dataclasses import dataclass
from typing import Any, Optional, Sequence

from ..commands.commands import Refused
from ..commands.finding import find_lines
from ..formats.frames import (
    CODES, STATES, write_reply, write_request, write_reversal, write_reversal_reply)
from ..standards.des import encrypt_block
from ..standards.dukpt import counter_of, iksn_of, serial_text
from ..standards.macs import cmac, retail_mac
from ..standards.pin_blocks import pin_block
from .page_case import PageCase
from .page_values import upper

PAN = "4012345678909"
# The ways that the page names, as the program writes them.
WAYS = {"retail MAC": " retail", "CMAC": " cmac", "TDES": ""}
# The words of each key, and its name in the program.
USES = {
    "transaction key": "key", "PIN key": "pin", "request key (MAC)": "request-mac",
    "response key (MAC)": "response-mac", "request key (data)": "request-data",
    "response key (data)": "response-data"}
# What is done behind each set of fields: the search, to its end.
SEARCH = """
const text = (name) => document.getElementById(name).textContent;
const found = [];
for (const fields of arguments[0]) {
  for (const [name, value] of Object.entries(fields)) {
    const field = document.getElementById(name);
    if (field.type === "radio") { field.click(); continue; }
    field.value = value;
    field.dispatchEvent(new Event("input", { bubbles: true }));
  }
  document.getElementById("find-start").click();
  while (!text("find-said")) await new Promise((done) => setTimeout(done, 1));
  found.push(["find-number", "find-key-name", "find-way", "find-key", "find-said", "find-tried"]
    .map(text));
}
return found;"""


@dataclass(frozen=True)
class Sought:
    """What is sought, as the fields of the page and as the words of `find` have it."""

    fields: dict[str, str]
    what: str
    words: dict[str, Any]


def of_frame(frame: bytes) -> Sought:
    return Sought({"find-kind": "frame", "find-frame": frame.hex(" ")}, frame.hex(), {})


def of_mac(mac: bytes, text: str, is_hex: bool) -> Sought:
    written = text.encode().hex() if is_hex else text
    kind = "find-as-hexadecimal" if is_hex else "find-as-text"
    return Sought({"find-kind": "mac", kind: "chosen", "find-mac": upper(mac),
                   "find-message": written}, mac.hex(), {"text": written, "hex_": is_hex})


def of_pin_block(block: bytes, pan: str) -> Sought:
    return Sought({"find-kind": "pin", "find-block": upper(block), "find-pan": pan}, block.hex(),
                  {"pan": pan})


def of_ciphertext(block: bytes, clear: bytes) -> Sought:
    return Sought({"find-kind": "cipher", "find-hidden": block.hex(), "find-clear": upper(clear)},
                  block.hex(), {"clear": clear.hex()})


def with_mac_under(frame: bytes, key: bytes) -> bytes:
    return frame[:-8] + retail_mac(key, frame[2:-8])


def frames_of(chance: random.Random, own: bytes, serial: int) -> list[bytes]:
    """A frame with a MAC of each kind."""
    other = iksn_of(serial) + (1 if counter_of(serial) != 1 else 2)
    return [
        write_request(own, serial, PAN, "1234", chance.getrandbits(32)),
        write_reply(own, serial, chance.choice(CODES)), write_reversal(own, serial, other),
        write_reversal_reply(own, serial, other, chance.choice(STATES))]


def made_by(chance: random.Random, key: bytes, own: bytes, serial: int) -> list[Sought]:
    """What a key of a number made, of each kind."""
    text = "".join(chance.choices("abc XYZ.09äß€", k=chance.randrange(1, 30)))
    clear = chance.randbytes(8)
    pin = "".join(chance.choices("0123456789", k=chance.randrange(4, 13)))
    return [
        of_frame(with_mac_under(chance.choice(frames_of(chance, own, serial)), key)),
        of_mac(retail_mac(key, text.encode()), text, chance.random() < 0.5),
        of_mac(cmac(key, text.encode()), text, chance.random() < 0.5),
        of_pin_block(encrypt_block(key, pin_block(pin, PAN).to_bytes(8, "big")), PAN),
        of_ciphertext(encrypt_block(key, clear), clear)]


class FindCase(PageCase):
    panel = "find"

    def searched(self, *cases: dict[str, str]) -> list[list[str]]:
        return self.browser.run_async(SEARCH, cases)

    def line_of(self, found: Sequence[str]) -> Optional[str]:
        """What the page shows, as the line of `find`; nothing where it found nothing."""
        number, name, way, key, said, _ = found
        if not number:
            self.assertEqual([name, way, key], [""] * 3, said)
            self.assertTrue(said.startswith(("Not found: ", "The terminal has no number")), said)
            return None
        return f"found {number} {USES[name]}{WAYS[way]}"


def line_by_model(key: str, sought: Sought, first: Optional[int], window: str, is_initial: bool
                  ) -> Optional[str]:
    from_ = None if first is None else serial_text(first)
    try:
        return find_lines(key, sought.what, from_=from_, window=window, initial=is_initial,
                          **sought.words)[0]
    except Refused as why:
        assert str(why) == "not found", why
        return None
