"""Clicks in the key tree and the registers, and keys there: each sets the working set's number."""
from __future__ import annotations

from ..support.page.browser import ENTER, LEFT, RIGHT, SPACE, TAB
from ..support.page.page_set import STANDARD, Set, SetCase
from ..support.page.page_values import BASE, IKSN
from ..support.standards.dukpt import serial_text


class TestClicks(SetCase):
    """A click at a node, or at a register's row, and Enter there, set the number everywhere."""

    panel = "tree"

    def setUp(self) -> None:
        super().setUp()
        self.type("set-ksn", serial_text(IKSN + 8))

    def assert_number(self, serial: int) -> None:
        self.assertEqual(self.value("set-ksn"), serial_text(serial))
        it = Set(bytes.fromhex(BASE), serial, STANDARD.pan, STANDARD.pin)
        self.assert_follows(it)
        self.assert_panels(it)

    def test_nodes(self) -> None:
        """Future ones, and used ones; the initial key's node has no number of a transaction."""
        for counter, other in ((0x10, "future"), (0x10000, "future"), (0x10000, "next")):
            node = self.browser.element(f"#tree-picture g[data-counter='{counter:06X}']")
            self.assertEqual(node.attribute("data-kind"), other)
            node.click()
            self.assert_number(IKSN + counter)
        self.type("set-ksn", serial_text(IKSN + 0b1110))
        self.browser.element("#tree-picture g.used[data-counter='00000C']").click()
        self.assert_number(IKSN + 0b1100)
        self.browser.element("#tree-picture g.root").click()
        self.assert_number(IKSN + 0b1100)
        self.assert_quiet()

    def test_rows(self) -> None:
        self.set(set_ksn=serial_text(IKSN + 0x11))
        for place, counter in ((3, 0x18), (14, 0x4000), (19, 0x80000)):
            self.browser.element(f"#tree-registers tr[data-place='{place}'] .key").click()
            self.assert_number(IKSN + counter)
            self.show("tree")
        self.browser.element("#tree-registers tr[data-state=empty] .key").click()
        self.assert_number(IKSN + 0x80000)

    def focused(self) -> list[str]:
        return self.browser.run(
            "const it = document.activeElement; return [it.dataset.counter || '', it.textContent];")

    def test_keys_in_the_tree(self) -> None:
        """The picture is one stop of the Tab key; arrows move in it, Enter and a space choose."""
        self.browser.run("document.querySelector('#tree-picture').parentNode.focus();")
        self.browser.press(TAB)
        self.assertEqual(self.focused()[0], "000008")
        self.browser.press(LEFT, LEFT)
        self.assertEqual(self.focused()[0], "000020")
        self.browser.press(RIGHT, ENTER)
        self.assertEqual(self.value("set-ksn"), serial_text(IKSN + 0x10))
        self.assertEqual(self.focused()[0], "000010")
        self.browser.press(LEFT, SPACE)
        self.assertEqual(self.focused()[0], "000020")
        self.assert_number(IKSN + 0x20)
        self.browser.run("document.querySelector('#tree-picture').parentNode.focus();")
        self.browser.press(TAB, TAB)
        self.assertEqual(self.focused(), ["", serial_text(IKSN + 0x100000)])

    def test_keys_in_the_registers(self) -> None:
        """The Tab key reaches each row; Enter and a space choose."""
        for keys, counter in (((TAB, SPACE), 0x80000), ((ENTER,), 0x100000)):
            self.browser.run("document.querySelector('#tree-registers button').focus();")
            self.browser.press(*keys)
            self.assert_number(IKSN + counter)
            self.show("tree")

    def test_taken(self) -> None:
        """The next number that the terminal takes, and the place of its slider, are the set's."""
        self.click("tree-take")
        self.assertEqual(self.value("set-ksn"), serial_text(IKSN + 9))
        self.set(tree_place="16")
        self.assert_number(IKSN + 16)

    def test_unhooked(self) -> None:
        """The terminal that is unhooked stays, and the other panels have the number."""
        self.click("tree-ksn-hook")
        self.browser.element("#tree-picture g[data-counter='000010']").click()
        self.assertEqual(self.value("tree-ksn"), serial_text(IKSN + 8))
        self.assertEqual(self.value("derive-ksn"), serial_text(IKSN + 0x10))
        self.click("tree-take")
        self.assertEqual(self.value("set-ksn"), serial_text(IKSN + 0x10))
