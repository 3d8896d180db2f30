"""The working set in the address of the page: its number and what follows it, and no secret."""
from __future__ import annotations

from urllib.parse import parse_qs

from ..support.page.page_set import STANDARD, SetCase
from ..support.page.page_values import BASE, IKSN, INITIAL, upper
from ..support.standards.dukpt import iksn_of, serial_text


class TestLinks(SetCase):
    def words(self) -> dict[str, list[str]]:
        self.click("link")
        return parse_qs(self.browser.address.partition("#")[2])

    def test_set(self) -> None:
        """The link has the set's number and the kind of its key, and which fields have values of
        their own."""
        it = self.drawn()
        self.give(it, "initial")
        shared = {"set-kind": ["initial"], "set-ksn": [serial_text(it.serial)]}
        self.assertEqual(self.words(), {"panel": ["derive"], **shared})
        self.show("tree")
        self.click("tree-ksn-hook")
        own = serial_text(iksn_of(self.drawn().serial) + 5)
        self.type("tree-ksn", own)
        self.show("pin")
        self.set(pin_key=upper(it.base))
        self.show("mac")
        self.click("mac-key-hook")
        words = {"panel": ["mac"], **shared, "tree-ksn": [own],
                 "unhooked": ["tree-ksn.pin-key"], "hooked": ["mac-key"]}
        self.assertEqual(self.words(), words)
        fragment = self.browser.address.partition("#")[2]
        self.open(fragment)
        self.assertEqual(self.words(), words)
        fields = "set-ksn", "derive-ksn", "make-ksn", "tree-ksn"
        self.assertEqual([self.value(name) for name in fields], [serial_text(it.serial)] * 3 + [own])
        self.assertEqual(self.value("set-key"), INITIAL)
        self.browser.run("location.hash = 'panel=derive';")
        self.browser.wait_until("return !document.getElementById('panel-derive').hidden;")
        self.assertTrue(self.hooks()["tree-ksn"])
        self.assert_quiet()

    def test_older_link(self) -> None:
        """The number of a panel in a link without a set is the set's."""
        self.open(f"panel=tree&tree-ksn={serial_text(IKSN + 3)}")
        self.assertEqual(self.value("set-ksn"), serial_text(IKSN + 3))

    def test_wrong_names(self) -> None:
        """Names that are no hooked fields change nothing."""
        self.open("panel=derive&unhooked=set-key.link.constructor...&hooked=work&set-key=00&set-pin=1"
                  "&set-kind=nothing")
        self.assert_follows(STANDARD)
        self.assertEqual(self.value("set-key"), BASE)
        self.assert_quiet()

    def test_card_number(self) -> None:
        """A PAN in the place of a key serial number is read as such of 16 digits; no link has it."""
        for field in ("set-ksn", "derive-ksn"):
            pan = "4" + "".join(self.chance.choices("0123456789", k=15))
            self.type(field, pan)
            self.assertEqual(self.text(f"{field}-note"), "16 digits: filled with FFFF at the front")
            self.assertEqual(self.words(), {"panel": ["derive"], "set-kind": ["bdk"]})
            self.assertNotIn(pan, self.browser.address)
