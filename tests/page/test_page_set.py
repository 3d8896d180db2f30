"""The working set at the page's top: each hooked field follows it, and changes it where it is a
source; a field that is unhooked has a value of its own."""
from __future__ import annotations

from ..support.page.browser import ENTER, SPACE, TAB
from ..support.page.page_set import HOOKED, KINDS, SOURCES, STANDARD, Model, Set, SetCase
from ..support.page.page_values import BASE, IKSN, upper
from ..support.standards.dukpt import serial_text


class TestFollow(SetCase):
    def test_opened(self) -> None:
        """The page begins with the standard's sample in all panels; the key of the panel for MACs
        is that of the sample of ANSI X9.19, unhooked."""
        self.assert_follows(STANDARD)
        self.assert_panels(STANDARD)
        unhooked = [name for name, is_hooked in self.hooks().items() if not is_hooked]
        self.assertEqual(unhooked, ["mac-key"])
        self.assertEqual(self.value("mac-key"), BASE)
        self.click_hook("mac-key")
        self.assertEqual(self.value("mac-key"), STANDARD.texts["request-key"])
        self.assert_quiet()

    def test_typed(self) -> None:
        """A set that is typed at the top serves all panels."""
        for _ in range(2 * self.times):
            it = self.drawn()
            for name, text in (("key", upper(it.base)), ("ksn", serial_text(it.serial)),
                               ("pan", it.pan), ("pin", it.pin)):
                self.type(f"set-{name}", text)
            self.assert_follows(it)
            self.assert_panels(it)
        self.assert_quiet()

    def test_kinds(self) -> None:
        """From an initial key no base derivation key follows, and from a transaction key no other:
        these fields are empty and say so."""
        it = self.drawn()
        for kind, names in zip(KINDS, ((), ("bdk",), ("bdk", "initial-key"))):
            self.give(it, kind)
            lacking = [field for name in names for field in HOOKED[name] if field != "frame-key"]
            self.assert_follows(it, [name for name in HOOKED if name not in names], ["frame-key"])
            self.assertEqual(self.value("frame-key"), upper(it.key(kind)))
            self.assertEqual(self.value("frame-key-kind"), kind)
            texts = [text for text, _ in self.fields(lacking).values()]
            self.assertEqual(texts, [""] * len(lacking))
            self.show("frame")
            self.assert_shown(it.shown["frame"])
        self.show("tree")
        words = ("The working set has a transaction key, from which this does not follow. What is"
                 " wanted here is a base derivation key or an initial key of its own.")
        self.assert_shown({"tree-initial-fault": words, "tree-taken-key": ""})
        self.show("find")
        self.assert_shown({"find-initial-fault": words})

    def test_choices(self) -> None:
        """The panels' choices of a kind of key are made with that of the set."""
        it = self.drawn()
        self.give(it)
        self.give(it, "initial")
        for panel in ("derive", "tree", "find"):
            self.assertTrue(self.browser.element(f"#{panel}-from-initial").property("checked"))
        self.assert_shown(it.shown["derive"])
        self.assert_panels(it)
        self.show("derive")
        self.give(it, "transaction")
        shown = it.shown["derive"]
        self.assert_shown({name: "" if "initial" in name else text for name, text in shown.items()})
        self.give(it)
        self.assertTrue(self.browser.element("#derive-from-bdk").property("checked"))
        self.assert_shown(shown)

    def test_other_kind(self) -> None:
        """With the key that the page begins with, another kind has the key that follows; back again,
        the key that was there."""
        it = Set(STANDARD.base, self.drawn().serial, STANDARD.pan, STANDARD.pin)
        self.set(set_ksn=serial_text(it.serial))
        for kind in (*KINDS, *KINDS):
            self.set(set_kind=kind)
            self.assertEqual(self.value("set-key"), upper(it.key(kind)))
            self.assert_shown({"set-key-fault": ""})
        self.set(set_kind="bdk")
        self.assert_panels(it)

    def test_typed_key(self) -> None:
        """A key that was typed, at the top or in a panel, is the same whatever kind is chosen."""
        for field in ("set-key", "derive-bdk"):
            it = self.drawn()
            self.open()
            self.type(field, upper(it.initial))
            for kind in (*KINDS, "initial"):
                self.set(set_kind=kind)
                self.assertEqual(self.value("set-key"), upper(it.initial))
            self.set(set_ksn=serial_text(it.serial))
            self.assert_shown({"derive-transaction-key": upper(it.transaction)})
        self.set(set_key="12")
        self.set(set_kind="transaction")
        self.assertEqual(self.value("set-key"), "12")

    def test_key_of_a_number(self) -> None:
        """Where the number is changed beside a transaction key, the key is said to stay."""
        it, other = self.drawn(), self.drawn()
        self.set(set_ksn=serial_text(it.serial))
        self.set(set_kind="transaction")
        self.set(set_key=upper(it.transaction))
        self.assert_shown({"set-key-note": ""})
        self.set(set_ksn=serial_text(other.serial))
        self.assertEqual(self.value("set-key"), upper(it.transaction))
        words = ("A transaction key belongs to one number. This one stays as it is: it was given beside"
                 f" {serial_text(it.serial)}.")
        self.assert_shown({"set-key-note": words})
        self.set(set_pin="4321")
        self.assert_shown({"set-key-note": words})
        self.set(set_ksn=serial_text(it.serial))
        self.assert_shown({"set-key-note": ""})
        self.set(set_ksn=serial_text(other.serial))
        self.set(set_key=upper(other.transaction))
        self.assert_shown({"set-key-note": ""})
        self.give(it, "initial")
        self.set(set_ksn=serial_text(other.serial))
        self.assert_shown({"set-key-note": ""})

    def test_sources(self) -> None:
        """What is typed into any hooked field of a source changes the set, and all that follows."""
        for name in SOURCES:
            for field in HOOKED[name]:
                if field == "frame-key":
                    continue
                it = self.drawn()
                self.give(it)
                text = self.drawn().texts[name]
                changed = Set(bytes.fromhex(text) if name == "bdk" else it.base,
                              int(text, 16) if name == "ksn" else it.serial,
                              text if name == "pan" else it.pan,
                              text if name == "pin" else it.pin)
                self.show_field(field)
                self.type(field, text)
                self.assertEqual(self.value("set-key" if name == "bdk" else f"set-{name}"), text)
                self.assert_follows(changed)
            self.assert_panels(changed)

    def test_derived(self) -> None:
        """What is typed into a field that only follows from the set unhooks it; the set stays."""
        it, own = self.drawn(), upper(self.chance.randbytes(16))
        self.give(it)
        kept = ("pin-key", "open-key", "translate-from", "make-key", "derive-initial",
                "derive-transaction")
        for field in kept:
            self.set(**{field: own})
            self.assertFalse(self.hooks()[field])
        self.assert_follows(it, but=kept)
        other = self.drawn()
        self.give(other)
        self.assert_follows(other, but=kept)
        self.assertEqual({it[0] for it in self.fields(kept).values()}, {own})
        for field in ("make-key", "pin-key"):
            self.click_hook(field)
        self.assert_follows(other, but=[it for it in kept if it not in ("make-key", "pin-key")])
        self.show("frame")
        self.assert_shown(other.shown["frame"])

    def test_faults(self) -> None:
        """A fault of the set stands beside its field and in the panels; what follows from it is
        empty, and says why."""
        self.show("frame")
        self.type("set-ksn", "FFFF98")
        self.assertEqual(self.fields(["make-ksn", "make-key"]), {
            "make-ksn": ["FFFF98", "A key serial number has 20 digits, or 16 without an FFFF at the front,"
                         " and here are 6."],
            "make-key": ["", "The key serial number of the working set has a fault."]})
        self.assertEqual(self.text("set-ksn-fault"), self.text("make-ksn-fault"))
        self.type("set-ksn", serial_text(IKSN))
        self.assertRegex(self.text("make-key-fault"), "^No transaction has this number")
        self.type("set-ksn", serial_text(IKSN + 1))
        self.type("set-key", "01")
        self.assert_shown({"make-key-fault": "The key of the working set has a fault.",
                           "make-frame": ""})
        self.set(set_key=BASE, set_pin="12")
        self.assert_shown({"set-pin-fault": "A PIN has 4 to 12 digits.", "make-frame": ""})
        self.set(set_pin="1234", set_pan="1")
        self.assert_shown({"set-pan-fault": "A PAN has 12 to 19 digits.", "set-pin-fault": ""})
        self.set(set_pan="4012345678909")
        self.assert_shown({**STANDARD.shown["frame"], "set-pan-fault": ""})


class TestUnhooked(SetCase):
    def test_button(self) -> None:
        """A press of its button unhooks a field, which keeps its value, and hooks it again."""
        self.give(STANDARD)
        for field, value in (("derive-ksn", serial_text(IKSN + 1)), ("derive-bdk", BASE)):
            self.click(f"{field}-hook")
            self.assertFalse(self.hooks()[field])
            self.assertEqual(self.value(field), value)
        it = self.drawn()
        self.give(it)
        self.assert_follows(it, but=("derive-ksn", "derive-bdk"))
        self.assert_shown(STANDARD.shown["derive"])
        own = serial_text(IKSN + 2)
        self.type("derive-ksn", own)
        self.assertEqual(self.value("set-ksn"), serial_text(it.serial))
        for field in ("derive-ksn", "derive-bdk"):
            self.click(f"{field}-hook")
        self.assert_follows(it)
        self.assert_shown(it.shown["derive"])

    def test_keyboard(self) -> None:
        """The Tab key leads from a field to its button; Enter and a space press it."""
        for keys, is_hooked in ((ENTER, False), (SPACE, True), (SPACE, False), (ENTER, True)):
            self.browser.run("document.getElementById('derive-ksn').focus();")
            self.browser.press(TAB, keys)
            self.assertEqual(self.hooks()["derive-ksn"], is_hooked)
        button = self.browser.element("#derive-ksn-hook")
        self.assertEqual(button.attribute("aria-label"),
                         "Key serial number (KSN): follow the working set")

    def test_lacking(self) -> None:
        """A field that the set cannot serve has a value of its own once it is typed."""
        it = self.drawn()
        self.give(it, "transaction")
        self.set(derive_from_bdk="chosen")
        self.assertNotEqual(self.text("derive-bdk-fault"), "")
        self.set(derive_bdk=upper(it.base))
        self.assertFalse(self.hooks()["derive-bdk"])
        self.assertEqual(self.value("set-key"), upper(it.transaction))
        self.assert_shown(it.shown["derive"])


class TestWalk(SetCase):
    """Steps at random, beside a model that says what each field has."""

    def test_steps(self) -> None:
        begun = self.hooks()
        names = {field: name for name, fields in HOOKED.items() for field in fields
                 if field != "frame-key"}
        model = Model(names, STANDARD)
        for _ in range(60 * self.times):
            self.step(model)
            self.assertEqual({field: text for field, (text, _) in self.fields(list(names)).items()},
                             model.values, model.done)
            self.assertEqual(self.hooks(), begun | model.hooked, model.done)
        self.assert_quiet()

    def step(self, model: Model) -> None:
        """One step of the page and of the model."""
        chance, other = self.chance, self.drawn()
        field = chance.choice(list(model.names))
        kind = chance.choice(list(KINDS))
        step = chance.randrange(5)
        if step == 0:
            model.press(field)
            self.browser.run("document.getElementById(arguments[0] + '-hook').click();", field)
        elif step == 1:
            model.type(field, other.texts[model.names[field]])
            self.set(**{field: other.texts[model.names[field]]})
        elif step == 2:
            name = chance.choice(("ksn", "pan", "pin"))
            model.give(name, other.texts[name])
            self.set(**{f"set-{name}": other.texts[name]})
        elif step == 3:
            model.give("key", upper(other.base))
            self.set(set_key=upper(other.base))
        else:
            model.choose(kind)
            self.set(set_kind=kind)


class TestSmall(SetCase):
    def test_folded(self) -> None:
        """The set folds away by a key, and serves the panels still."""
        self.browser.run("document.querySelector('#set summary').focus();")
        self.browser.press(ENTER)
        self.assertFalse(self.browser.run(
            "return document.getElementById('set-key').checkVisibility();"))
        self.type("derive-ksn", serial_text(IKSN + 2))
        self.assert_follows(Set(bytes.fromhex(BASE), IKSN + 2, STANDARD.pan, STANDARD.pin))
