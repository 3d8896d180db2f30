"""The base of the tests of the page's working set: sets, what fields and panels show of each, and a
model of which fields follow it."""
from __future__ import annotations

from dataclasses import dataclass
from typing import Sequence

from ..formats.frames import write_request
from ..library.call_cases import Chance
from ..standards import many
from ..standards.dukpt import (
    COUNTER_BITS, counter_of, held, initial_key, iksn_of, key_of, pin_key, request_data_key,
    request_key, response_data_key, serial_text)
from ..standards.pin_blocks import pin_block
from .page_case import PageCase
from .page_values import BASE, DERIVED, IKSN, derived, upper

# The kinds of keys that a set may have, and the name of such a key in it.
KINDS = {"bdk": "bdk", "initial": "initial-key", "transaction": "transaction-key"}
# The hooked fields of each name in the set.
HOOKED = {
    "bdk": ("derive-bdk", "tree-bdk", "frame-key"),
    "initial-key": ("derive-initial", "tree-initial"),
    "ksn": ("derive-ksn", "tree-ksn", "make-ksn"), "pan": ("pin-pan", "open-pan", "make-pan"),
    "pin": ("pin-pin", "make-pin"), "transaction-key": ("make-key", "derive-transaction"),
    "pin-key": ("pin-key", "open-key", "translate-from"),
    "request-data-key": ("data-request",), "response-data-key": ("data-response",),
}
SOURCES = ("bdk", "ksn", "pan", "pin")
# The panels of fields, by the front of their names, where that is not the panel's.
PANEL_OF = {"data": "cipher", "make": "frame", "open": "pin", "translate": "pin"}
HOOKS = """
return Object.fromEntries([...document.querySelectorAll(".hook")].map(
  (it) => [it.id.replace("-hook", ""), it.getAttribute("aria-pressed") === "true"]));"""
# Of fields their values and faults.
FIELDS = """
return Object.fromEntries(arguments[0].map((name) => [name, [document.getElementById(name).value,
  document.getElementById(name + "-fault").textContent]]));"""


@dataclass(frozen=True)
class Set:
    """A working set with a base derivation key, and the keys that follow from it."""

    base: bytes
    serial: int
    pan: str
    pin: str

    @property
    def initial(self) -> bytes:
        return initial_key(self.base, iksn_of(self.serial))

    @property
    def transaction(self) -> bytes:
        return key_of(self.initial, self.serial)

    @property
    def texts(self) -> dict[str, str]:
        """What the set has of each name."""
        key = self.transaction
        return {"bdk": upper(self.base), "initial-key": upper(self.initial),
                "ksn": serial_text(self.serial), "pan": self.pan, "pin": self.pin,
                "transaction-key": upper(key), "pin-key": upper(pin_key(key)),
                "request-key": upper(request_key(key)),
                "request-data-key": upper(request_data_key(key)),
                "response-data-key": upper(response_data_key(key))}

    def key(self, kind: str) -> bytes:
        return {"bdk": self.base, "initial": self.initial, "transaction": self.transaction}[kind]

    @property
    def shown(self) -> dict[str, dict[str, str]]:
        """What the panels have of it."""
        block = pin_block(self.pin, self.pan)
        hidden = many.encrypted([pin_key(self.transaction)], [block.to_bytes(8, "big")])[0]
        request = write_request(self.transaction, self.serial, self.pan, self.pin, 1)
        return {
            "derive": dict(zip(DERIVED, derived([self.initial], [self.serial])[0])),
            "pin": {"pin-block": f"{block:016X}", "pin-enciphered": upper(hidden)},
            "frame": {"make-frame": upper(request)},
        }


STANDARD = Set(bytes.fromhex(BASE), IKSN + 1, "4012345678909", "1234")


class Model:
    """What fields have that follow a set or do not: `names` has what each asks the set for."""

    def __init__(self, names: dict[str, str], it: Set) -> None:
        self.names = names
        self.kind = "bdk"
        self.keys = {"bdk": upper(it.base)}
        self.is_typed = False
        self.card = {"ksn": serial_text(it.serial), "pan": it.pan, "pin": it.pin}
        self.hooked = dict.fromkeys(names, True)
        self.own: dict[str, str] = {}
        self.done: list[str] = []

    @property
    def set(self) -> dict[str, str]:
        """What the set has of each name; "" where it has nothing."""
        serial, key = int(self.card["ksn"], 16), bytes.fromhex(self.keys[self.kind])
        texts = {name: "" for name in HOOKED} | self.card
        if self.kind == "bdk":
            texts["bdk"], key = upper(key), initial_key(key, iksn_of(serial))
        if self.kind != "transaction":
            texts["initial-key"], key = upper(key), key_of(key, serial)
        return texts | {"transaction-key": upper(key), "pin-key": upper(pin_key(key)),
                        "request-data-key": upper(request_data_key(key)),
                        "response-data-key": upper(response_data_key(key))}

    @property
    def values(self) -> dict[str, str]:
        texts = self.set
        return {field: texts[name] if self.hooked[field] else self.own[field]
                for field, name in self.names.items()}

    def press(self, field: str) -> None:
        """Its button is pressed."""
        self.done.append(f"press {field}")
        self.own[field] = self.values[field]
        self.hooked[field] = not self.hooked[field]

    def type(self, field: str, text: str) -> None:
        """A text is typed into a field."""
        self.done.append(f"type {field}")
        name = self.names[field]
        if self.hooked[field] and name in (*self.card, KINDS[self.kind]):
            self.give(name if name in self.card else "key", text)
            return
        self.hooked[field], self.own[field] = False, text

    def give(self, name: str, text: str) -> None:
        """A value comes into the set."""
        self.done.append(f"give {name}")
        if name == "key":
            self.keys[self.kind], self.is_typed = text, True
        else:
            self.card[name] = text

    def choose(self, kind: str) -> None:
        """The set has another kind of key: the same one, where it was typed."""
        self.done.append(f"choose {kind}")
        if self.is_typed:
            self.keys[kind] = self.keys[self.kind]
            self.kind = kind
            return
        texts = self.set
        self.keys |= {it: texts[name] for it, name in KINDS.items() if texts[name]}
        self.kind = kind


class SetCase(PageCase):
    def drawn(self) -> Set:
        chance = Chance(self.chance)
        return Set(chance.keys(1)[0], chance.usables(1)[0], chance.pans(1)[0], chance.pins(1)[0])

    def give(self, it: Set, kind: str = "bdk") -> None:
        """Puts a set into the fields at the top."""
        self.set(set_kind=kind)
        self.set(set_key=upper(it.key(kind)), set_ksn=serial_text(it.serial), set_pan=it.pan,
                 set_pin=it.pin)

    def fields(self, names: Sequence[str]) -> dict[str, list[str]]:
        """The value and the fault of each field."""
        return self.browser.run(FIELDS, list(names))

    def show_field(self, field: str) -> None:
        """Shows the panel of a field."""
        front = field.split("-")[0]
        self.show(PANEL_OF.get(front, front))

    def click_hook(self, field: str) -> None:
        self.show_field(field)
        self.click(f"{field}-hook")

    def hooks(self) -> dict[str, bool]:
        return self.browser.run(HOOKS)

    def assert_follows(self, it: Set, names: Sequence[str] = tuple(HOOKED), but: Sequence[str] = ()
                       ) -> None:
        """That each field of these names has what the set has, and no fault, but some of them."""
        for name in names:
            fields = [field for field in HOOKED[name] if field not in but]
            self.assertEqual(self.fields(fields), {field: [it.texts[name], ""] for field in fields})

    def assert_panels(self, it: Set) -> None:
        """That the panels show what comes of the set, each as it is shown."""
        for panel, shown in it.shown.items():
            self.show(panel)
            self.assert_shown(shown, panel)
        self.show("tree")
        rows = self.rows("#tree-registers tr[data-chooses]", ["data-chooses"], ["number"])
        counter = counter_of(it.serial)
        numbers = [held(counter, place) for place in reversed(range(COUNTER_BITS))]
        wanted = [serial_text(iksn_of(it.serial) + number) for number in numbers if number is not None]
        self.assertEqual(rows, [[text, text] for text in wanted])
