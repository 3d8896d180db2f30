"""Faults that are put into copies of the page: the tests of the page find each of them."""
from __future__ import annotations

import base64
import hashlib
import re
import unittest
from dataclasses import dataclass
from pathlib import Path
from typing import Sequence

from ..support.case import Case
from ..support.page.page_case import PageCase
from ..support.page.page_file_case import FileCase
from . import test_page_clicks, test_page_faults, test_page_files, test_page_frames
from . import test_page_journals, test_page_links, test_page_manners, test_page_panels
from . import test_page_paste, test_page_pasted_files, test_page_policy, test_page_registers
from . import test_page_set, test_page_speed

# A text of the page's, and what stands in its place.
Change = tuple[str, str]
# What the policy names by its bytes.
NAMED = re.compile(r'<(style)>(.*?)</style>|<(script) type="module">(.*?)</script>', re.S)


@dataclass(frozen=True)
class Plant:
    """A fault by what it does, its changes, and the test that has to fail."""

    what: str
    changes: Sequence[Change]
    case: type[PageCase]
    test: str


# A loop of 20 ms.
BUSY = "for (const until = performance.now() + 20; performance.now() < until;);\n"
PLANTS = (
    Plant("the response key stands as the request key",
          [('"request", calls.requestKey(key)', '"request", calls.responseKey(key)')],
          test_page_panels.TestDerive, "test_random"),
    Plant("the two check values are swapped",
          [("show(`derive-${kind}-kcv`, hex(calls.checkValue(key)))",
            "show(`derive-${kind}-kcv`, hex(calls.cmacCheckValue(key)))")],
          test_page_panels.TestDerive, "test_standard"),
    Plant("a field does not follow the working set",
          [("  if (field.value !== text) field.value = text;\n", "")],
          test_page_set.TestFollow, "test_typed"),
    Plant("a panel that was hidden is not told of the working set",
          [("    element(`panel-${panelOf(tab)}`).hidden = !isShown;\n  }\n  deliver();\n",
            "    element(`panel-${panelOf(tab)}`).hidden = !isShown;\n  }\n")],
          test_page_set.TestFollow, "test_typed"),
    Plant("what is typed into a field does not come into the working set",
          [("  element(source).value = field.value;\n", "")],
          test_page_set.TestFollow, "test_sources"),
    Plant("a field that follows takes a typed value, and loses it with the next set",
          [("  if (!source) {\n    unhook(field);\n", "  if (!source) {\n")],
          test_page_set.TestFollow, "test_derived"),
    Plant("the request key stands as the PIN key of the working set",
          [('"pin-key": variant(calls.pinKey)', '"pin-key": variant(calls.requestKey)')],
          test_page_set.TestFollow, "test_opened"),
    Plant("from a transaction key of no transaction keys follow",
          [("    calls.checkUsable(known(ksn));\n    return calls.deriveFromInitial(known(initial), ksn);",
            "    return calls.deriveFromInitial(known(initial), known(ksn));")],
          test_page_set.TestFollow, "test_faults"),
    Plant("a field that is unhooked loses its value",
          [("  hooks.get(field).isHooked = false;\n",
            '  hooks.get(field).isHooked = false;\n  field.value = "";\n')],
          test_page_set.TestUnhooked, "test_button"),
    Plant("a press of Enter at a node does nothing",
          [('if (event.key === "Enter" || event.key === " ")', 'if (event.key === " ")')],
          test_page_clicks.TestClicks, "test_keys_in_the_tree"),
    Plant("a click at a row sets the number that it had before",
          [("  if (text) cell.parentNode.dataset.chooses = text;\n",
            "  if (text) cell.parentNode.dataset.chooses ??= text;\n")],
          test_page_clicks.TestClicks, "test_rows"),
    Plant("the next number of the terminal does not come into the working set",
          [('  if (next !== SPENT) offer("tree-ksn");\n', "")],
          test_page_clicks.TestClicks, "test_taken"),
    Plant("a link has the number that a PAN is read as",
          [("ksn: (text) => hex(fullNumber(text))",
            "ksn: (text) => hex($hexadecimal.serialNumber(text))")],
          test_page_links.TestLinks, "test_card_number"),
    Plant("a link does not bring back which fields are unhooked",
          [('restoreHooks({ unhooked: names("unhooked"),', "restoreHooks({ unhooked: [],")],
          test_page_links.TestLinks, "test_set"),
    Plant("0x goes within a number", [("(?<![^${BETWEEN}])0[xX]", "0[xX]")],
          test_page_paste.TestWrong, "test_prefix"),
    Plant("the place of a wrong character is counted from 0",
          [("[...text.slice(0, wrong.index)].length + 1", "[...text.slice(0, wrong.index)].length")],
          test_page_paste.TestWrong, "test_decimal"),
    Plant("characters beyond the first plane count twice",
          [("[...text.slice(0, wrong.index)].length + 1", "wrong.index + 1")],
          test_page_paste.TestWrong, "test_hexadecimal"),
    Plant("a number is filled at its other end",
          [("return bytesOf(`FFFF${digits}`);", "return bytesOf(`${digits}FFFF`);")],
          test_page_paste.TestDirt, "test_filled"),
    Plant("a text stays beside a file that is chosen",
          [('  element("file-text").value = "";\n', "")], test_page_pasted_files.TestFiles, "test_either"),
    Plant("a button is small", [("button { min-width: 24px; min-height: 24px;", "button {")],
          test_page_manners.TestLooks, "test_widths"),
    Plant("a table has no name", [('made("table", "", { "aria-label": name })', 'made("table")')],
          test_page_manners.TestLooks, "test_tables"),
    Plant("the bytes of a counter are swapped",
          [("counter >> 8 & 255, counter & 255]", "counter & 255, counter >> 8 & 255]")],
          test_page_panels.TestDerive, "test_steps"),
    Plant("a length is read from its other end",
          [("getUint32(at, true)", "getUint32(at, false)")],
          test_page_panels.TestPins, "test_vectors"),
    Plant("an amount is read from its other end",
          [("bytes.reduce((sum", "bytes.reduceRight((sum")],
          test_page_frames.TestFrames, "test_random"),
    Plant("a key is shown a register too low",
          [("FIRST_KEY + 16 * place", "FIRST_KEY + 16 * ((place + 1) % BITS)")],
          test_page_registers.TestTakes, "test_from_the_first"),
    Plant("a register has the number of the next one",
          [("const front = [BITS - place,", "const front = [BITS - place - 1,")],
          test_page_registers.TestPlaces, "test_slider"),
    Plant("the payments of a terminal and the approved ones are swapped",
          [("iksn, payments, approved,", "iksn, payments: approved, approved: payments,")],
          test_page_journals.TestJournals, "test_random"),
    Plant("a sum has the refused amounts too",
          [("    if (!isApproved(journal, record)) continue;\n", "")],
          test_page_journals.TestJournals, "test_random"),
    Plant("a sum has the amounts that are undone too",
          [("else total.undone += 1;",
            "else { total.undone += 1; total.sum += BigInt(figureOf(journal, record)); }")],
          test_page_journals.TestJournals, "test_reversals_by_hand"),
    Plant("a reversal is counted as a payment",
          [("if (!isReversal(journal, record)) total.payments += 1;", "total.payments += 1;")],
          test_page_journals.TestJournals, "test_random"),
    Plant("a reversal of none is an approved payment",
          [("journal[RECORD * record + OUTCOME] === 0", "(journal[RECORD * record + OUTCOME] & 127) === 0")],
          test_page_journals.TestJournals, "test_reversals_by_hand"),
    Plant("states are kept as in frames",
          [("{ 128: `00 ${STATES[0]}`, 129: `01 ${STATES[1]}` }",
            "{ 0: `00 ${STATES[0]}`, 1: `01 ${STATES[1]}` }")],
          test_page_journals.TestJournals, "test_reversals_by_hand"),
    Plant("the kept states are swapped",
          [("{ 128: `00 ${STATES[0]}`, 129: `01 ${STATES[1]}` }",
            "{ 129: `00 ${STATES[0]}`, 128: `01 ${STATES[1]}` }")],
          test_page_journals.TestJournals, "test_reversals_by_hand"),
    Plant("a reversal's own number is shown as the one that it reverses",
          [("{ reversed: withCounter(number, figure) }", "{ reversed: number }")],
          test_page_journals.TestJournals, "test_reversals_by_hand"),
    Plant("a reversal undoes the payment of another terminal",
          [("reversed.set(record, exact(owner, figureOf(journal, record)));",
            "reversed.set(record, exact(0, figureOf(journal, record)));")],
          test_page_journals.TestJournals, "test_random"),
    Plant("a payment that was approved and undone is not counted as approved",
          [("else total.undone += 1;", "else { total.undone += 1; total.approved -= 1; }")],
          test_page_journals.TestJournals, "test_reversals_by_hand"),
    Plant("the last reversal of a number is named, and not the first",
          [("if (!first.has(number)) first.set(number, record);", "first.set(number, record);")],
          test_page_journals.TestJournals, "test_reversals_by_hand"),
    Plant("a declined payment is undone",
          [("isApproved(journal, record) ? reversals.get(numbers[record]) : undefined",
            "reversals.get(numbers[record])")],
          test_page_journals.TestJournals, "test_reversals_by_hand"),
    Plant("a reversed number is not used",
          [("if (other !== undefined && !used.has(other)) used.set(other, record);", "")],
          test_page_journals.TestJournals, "test_used_numbers_by_hand"),
    Plant("a number is used by reversals alone",
          [("if (others.has(number)) used.set(number, record);", "")],
          test_page_journals.TestJournals, "test_used_numbers_by_hand"),
    Plant("a payment that is reversed behind it has a used number",
          [("if (used.has(number)) return [record, used.get(number)];",
            "if (others.has(number)) return [record, used.get(number) ?? 0];")],
          test_page_journals.TestJournals, "test_reversals_by_hand"),
    Plant("the last record that used a number is named, and not the first",
          [("if (other !== undefined && !used.has(other))", "if (other !== undefined)")],
          test_page_journals.TestJournals, "test_used_numbers_by_hand"),
    Plant("damage is named before a used number in front of it",
          [("return repeatIn(journal, count) ?? damage ??",
            "return damage ?? repeatIn(journal, count) ??")],
          test_page_journals.TestDamage, "test_first"),
    Plant("a size is named before the records in front of it",
          [("return repeatIn(journal, count) ?? damage ??",
            "return damageOfSize(journal) ?? repeatIn(journal, count) ?? damage ??")],
          test_page_journals.TestDamage, "test_first"),
    Plant("a record that is missing is read",
          [("if (at === wholeOf(journal)) {", "if (at === journal.length) {")],
          test_page_journals.TestDamage, "test_each_size"),
    Plant("a record may reverse its own number",
          [('counter === counterOf(journal, at + NUMBER) ? "it is its own" : undefined', "undefined")],
          test_page_journals.TestDamage, "test_each"),
    Plant("a record may reverse the number of no transaction",
          [('if (!isUsable(counter)) return "its counter', 'if (!counter) return "its counter')],
          test_page_journals.TestDamage, "test_each"),
    Plant("a state is read as a code",
          [('outcome: "state", texts: STATE_TEXTS', 'outcome: "state", texts: CODE_TEXTS')],
          test_page_journals.TestDamage, "test_each_byte"),
    Plant("a journal that begins with a reversal is none",
          [("(it[1] <= 2 || it[1] === 0xd5)", "(it[1] <= 1 || it[1] === 0xd5)")],
          test_page_journals.TestJournals, "test_reversals_by_hand"),
    Plant("a frame may reverse a number of another terminal",
          [("if (hex(withCounter(own, 0)) !== hex(withCounter(other, 0))) {", "if (!own) {")],
          test_page_frames.TestFrames, "test_each_reversed"),
    Plant("a frame may reverse its own number",
          [('if (counterOf(own) === counterOf(other)) return "it is the first one";', "")],
          test_page_frames.TestFrames, "test_each_reversed"),
    Plant("a reversal is judged as a request",
          [('else if (kind === "reversal") calls.checkReversal(key, frame);',
            'else if (kind === "reversal") calls.checkRequest(key, frame);')],
          test_page_frames.TestFrames, "test_reversals_by_hand"),
    Plant("the key of a reversal is that of the number that it reverses",
          [('const [ksn, reversed, mac] = call("read_reversal", frame);',
            'const [reversed, ksn, mac] = call("read_reversal", frame);')],
          test_page_frames.TestFrames, "test_reversals_by_hand"),
    Plant("a state that is kept in a journal stands in a frame",
          [("if (kind === \"reversal-reply\" && !STATES[frame[STATE]]) {",
            "if (kind === \"reversal-reply\" && !STATES[frame[STATE] & 127]) {")],
          test_page_frames.TestFrames, "test_damage"),
    Plant("the MAC of a reversal is not compared",
          [('else if (kind === "reversal") calls.checkReversal(key, frame);',
            'else if (kind === "reversal") calls.readReversal(frame);')],
          test_page_frames.TestFrames, "test_each_bit_of_a_mac"),
    Plant("the MAC of a reversal's reply is not compared",
          [("else calls.checkReversalReply(key, ksn, calls.readReversalReply(frame).reversed, frame);",
            "else calls.readReversalReply(frame);")],
          test_page_frames.TestFrames, "test_random_reversals"),
    Plant("the states are swapped",
          [('{ 0: "none stands", 1: "undone" }', '{ 1: "none stands", 0: "undone" }')],
          test_page_frames.TestFrames, "test_random_reversals"),
    Plant("the figure of a record is read from its other end",
          [("getUint32(RECORD * record + FIGURE)", "getUint32(RECORD * record + FIGURE, true)")],
          test_page_journals.TestJournals, "test_random"),
    Plant("the followers of a group are read from their other end",
          [("journal[at + FOLLOWERS] << 8 | journal[at + FOLLOWERS + 1]",
            "journal[at + FOLLOWERS + 1] << 8 | journal[at + FOLLOWERS]")],
          test_page_journals.TestJournals, "test_by_hand"),
    Plant("a payment stands one record too low",
          [("entries.push({ record,", "entries.push({ record: record + 1,")],
          test_page_journals.TestJournals, "test_random"),
    Plant("damage of a record is named one byte too low",
          [("at + first, at + last]", "at + first + 1, at + last + 1]")],
          test_page_journals.TestDamage, "test_each"),
    Plant("a follower may say anything",
          [("if (followers === 0) return", "if (followers >= 0) return")],
          test_page_journals.TestDamage, "test_each"),
    Plant("a group may have one record too many", [("_FOLLOWERS = 4095", "_FOLLOWERS = 4096")],
          test_page_journals.TestDamage, "test_each"),
    Plant("a closed record ends no groups", [("?? damageBehind(journal, end)", "")],
          test_page_journals.TestDamage, "test_each"),
    Plant("a number that stands twice in a log is not said",
          [("if (earlier !== undefined) notes.push(`also in record ${earlier}`);", "")],
          test_page_files.TestKinds, "test_repeats_in_logs"),
    Plant("the payments of a file stay behind the damage of another one",
          [("  found.replaceChildren();\n  delete found.dataset.kind;\n", "")],
          test_page_files.TestStale, "test_after_damage"),
    Plant("a file stays behind one that cannot be read",
          [('  file = undefined;\n  element("file-text").value = "";\n  renewed();\n', "")],
          test_page_files.TestStale, "test_unreadable"),
    Plant("a file that is read late takes the place of another one",
          [("if (own !== asked) return;", "")], test_page_files.TestStale, "test_overtaken"),
    Plant("a log and a journal are not told apart",
          [("(it[1] <= 2 || it[1] === 0xd5)", "(it[2] <= 2 || it[1] === 0xd5)")],
          test_page_files.TestKinds, "test_guesses"),
    Plant("a step of the slider takes 20 ms more",
          [("      moved(Number(slider.value));", BUSY + "      moved(Number(slider.value));")],
          test_page_speed.TestSpeed, "test_slider"),
    Plant("a derivation takes 20 ms more",
          [('  renew(element("panel-derive"));', BUSY + '  renew(element("panel-derive"));')],
          test_page_speed.TestSpeed, "test_derivation"),
    Plant("a result stays behind a fault",
          [('for (const output of part.querySelectorAll("output")) show(output.id, "");', "")],
          test_page_faults.TestFields, "test_each"),
    Plant("a MAC is said to be right without a look",
          [("    checkMac(key, frame, kind, ksn);\n    return [good(", "    return [good(")], test_page_frames.TestFrames, "test_random"),
    Plant("the address has a key",
          [('<input id="derive-bdk"', '<input id="derive-bdk" data-link="ksn"'),
           ("ksn: (text) => hex(fullNumber(text))", "ksn: (text) => text")],
          test_page_policy.TestAddress, "test_fragment"),
    Plant("a text is faint", [("--soft: #525b66", "--soft: #8f98a3")],
          test_page_manners.TestLooks, "test_contrast"),
    Plant("a field has no label",
          [('<label for="set-ksn">Key serial number (KSN)</label>', "Key serial number (KSN)")],
          test_page_manners.TestLooks, "test_labels"),
)


class PlantedCase(Case):
    weight = 10

    def try_each(self, plants: Sequence[Plant]) -> None:
        page = PageCase.path.read_text(encoding="utf-8")
        home = self.folder()
        for plant in plants:
            with self.subTest(plant.what):
                copy = home / "dukpt.html"
                copy.write_text(self.planted(page, plant), encoding="utf-8")
                self.check_found(plant, copy)
        self.tells(f"{len(plants)} faults")

    def planted(self, page: str, plant: Plant) -> str:
        """The page with a fault, and with a policy that knows its bytes."""
        for old, new in plant.changes:
            self.assertEqual(page.count(old), 1, f"{plant.what}: the page has not once {old}")
            page = page.replace(old, new)
        made = page
        for it in NAMED.finditer(page):
            kind, text = it[1] or it[3], it[2] or it[4] or ""
            made = re.sub(rf"{kind}-src 'sha256-[^']*'", f"{kind}-src '{name_of(text)}'", made, 1)
        return made

    def check_found(self, plant: Plant, page: Path) -> None:
        case = plant.case(plant.test)
        case.path = page
        result = unittest.TestResult()
        case.run(result)
        said = [text for _, text in result.failures + result.errors]
        name = f"{plant.case.__name__}.{plant.test}"
        self.assertEqual(len(said), 1, f"{name} does not find: {plant.what}")
        self.assertNotIn("BrowserFault", said[0], plant.what)
        self.assertEqual(result.errors, [], plant.what)


def name_of(text: str) -> str:
    return f"sha256-{base64.b64encode(hashlib.sha256(text.encode()).digest()).decode()}"


class TestPlanted(PlantedCase):
    def test_files(self) -> None:
        self.try_each([it for it in PLANTS if issubclass(it.case, FileCase)])

    def test_panels(self) -> None:
        self.try_each([it for it in PLANTS if not issubclass(it.case, FileCase)])
