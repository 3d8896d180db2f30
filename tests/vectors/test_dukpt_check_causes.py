"""What the report of vectors/dukpt_check says of a mistake leads to it: mistakes that implementers
make are planted in this bench's own ciphers and formats."""
from __future__ import annotations

import re
from dataclasses import dataclass

from ..support.vectors.planted_model import planted
from ..support.vectors.vectors_check import CheckCase, Report

DERIVING = ("--operation", "initial_key", "--operation", "derive", "--operation",
            "derive_from_initial")
STEPS = "of the 106 cases with one one bit in the counter: in each wrong value "
RETAIL = "return encrypted(left, decrypted(right, state)).to_bytes(8, \"big\")"
TRIPLE = "encrypted(third, decrypted(second, encrypted(first, block)))"
EEE = "encrypted(third, encrypted(second, encrypted(first, block)))"
PADDED = "message + bytes(-len(message) % 8)"
TRIPLE_STEP = "return half_step(masked(key, KEY_MASK), register) + half_step(key, register)"


@dataclass(frozen=True)
class Mistake:
    """A mistake, the cases that are run, and what is said of it of an operation."""

    module: str
    old: str
    new: str
    cases: tuple[str, ...]
    operation: str
    told: tuple[str, ...]


def in_step(new: str, *told: str) -> Mistake:
    """A mistake in each step of the key tree."""
    return Mistake("dukpt", TRIPLE_STEP, new, DERIVING, "derive_from_initial",
                   ("all 232 valid cases: another value", *told))


MISTAKES = (
    # What one step shows, which ten of them hide.
    in_step("return half_step(key, register) + half_step(masked(key, KEY_MASK), register)",
            STEPS + "the two halves are exchanged"),
    in_step("return (half_step(masked(key, KEY_MASK), register)"
            " + half_step(masked(key, KEY_MASK), register))",
            STEPS + "the first half is right, and the second one is not"),
    in_step("made = half_step(masked(key, KEY_MASK), register) + half_step(key, register)\n"
            "    return bytes(it & 254 | (bin(it >> 1).count('1') + 1) % 2 for it in made)",
            STEPS + "the parity bits are adjusted"),
    Mistake("dukpt", "(encrypted(key[:8], register ^ right) ^ right)",
            "encrypted(key[:8], register ^ right)", DERIVING, "derive_from_initial",
            (STEPS + "the second half is the right one xored with the second half of initial_key:"
             " the last xor of a step is missing",)),
    # A rule that tells wrong cases from right ones.
    Mistake("dukpt", "in reversed(range(COUNTER_BITS))", "in range(COUNTER_BITS)", DERIVING,
            "derive", ("all 317 valid cases whose counter has 2 or more one bits, and none of the"
                       " 139 others", "the first step from the initial key is right, and the next"
                       " ones are not: each takes the number with the one bits of the counter so"
                       " far")),
    Mistake("dukpt", "in reversed(range(COUNTER_BITS))", "in reversed(range(20))", DERIVING,
            "derive", (r"all 132 valid cases whose counter has the bit 100000 \(the highest of"
                       r" 21\), and none of the 324 others",)),
    Mistake("", 'keys(initial(bdk, ksn), ksn)',
            'keys(dukpt.initial_key(sized(bdk, 16), int.from_bytes(ksn, "big")), ksn)', DERIVING,
            "derive", ("whose counter has one of the bits 1F0000, and none of the",)),
    Mistake("macs", RETAIL, 'return state.to_bytes(8, "big")', ("--operation", "retail_mac"),
            "retail_mac", ("all 189 valid cases whose key has another second part than its first,"
                           " and none of the 12 others", "the triple DES of the last block alone",
                           "it is single DES")),
    Mistake("macs", "state = encrypted(left, state ^ block)\n    " + RETAIL,
            'state = triple_encrypted(key, state ^ block)\n    return state.to_bytes(8, "big")',
            ("--operation", "retail_mac"), "retail_mac",
            ("whose input message has 9 or more bytes, and whose key has another second part than"
             " its first, and none of the",)),
    Mistake("dukpt", "return next(filter(usable, above), SPENT)", "return counter + 1",
            ("--operation", "next_number"), "next_number",
            ("all 97 valid cases whose counter has one behind it with more than ten one bits",
             "only the counter, the last 21 bits, differs")),
    Mistake("pin_blocks", 'f"0{len(pin):X}{pin}".ljust', 'f"0{len(pin)}{pin}"[:16].ljust',
            ("--operation", "pin_block"), "pin_block",
            ("valid cases whose input pin has 10 or more characters, and none of the",)),
    # Values that are right elsewhere, and inputs that have to have no effect.
    Mistake("macs", PADDED, 'message + b"\\x80" + bytes(-(len(message) + 1) % 8)',
            ("--operation", "retail_mac"), "retail_mac",
            ("all 201 valid cases", "in 13 of the cases the found mac is the right one of the"
             " message with 80, and perhaps zeros, behind it: the padding is another one")),
    Mistake("", '"request_mac_key": dukpt.request_key(key)',
            '"request_mac_key": dukpt.response_key(key)', DERIVING, "derive",
            ("found request_mac_key is what response_mac_key should be", "never key, pin_key")),
    Mistake("pin_blocks", "int(pan[:-1][-12:], 16)", "int(pan[-12:], 16)",
            ("--operation", "pin_block"), "pin_block",
            ("10 cases, 9073 to 9082, have one right answer, and were given several: The last digit"
             " of the PAN is not in the block",)),
    Mistake("dukpt", "register = serial & LOW", "register = serial >> 16", DERIVING,
            "derive_from_initial", ("16 cases, 1593 to 1608, have one right answer, and were given"
                                    " several: .* its first 16 change nothing",)),
    Mistake("pin_blocks", '.ljust(16, "F"), 16) ^', '.ljust(16, "0"), 16) ^',
            ("--operation", "pin_block"), "pin_block",
            ("each digit that is not right is the right one xored with F, as by another filler",)),
    # Lists, and what is right of a chain.
    Mistake("dukpt", "return number if usable(number) and number >= counter else None",
            "return number if usable(number) else None", ("--operation", "registers"), "registers",
            ("in each wrong list only empty places differ: a value where none is expected",
             r"place \d+ null(; place \d+ null)* \(differs at \d+ of 21\)")),
    Mistake("des", "^ last for last, block in zip(given, given[1:])])",
            "^ given[0] for block in given[1:]])", ("--operation", "cbc_decrypt"), "cbc_decrypt",
            ("the first block is right, and one behind it is not", "right: 5 cases, ")),
)


class TestCauses(CheckCase):
    weight = 30

    def test_right(self) -> None:
        """Without a mistake the adapter has no deviation."""
        report = self.report("--skip-flag", "ManyNumbers", *planted(self.folder()))
        self.assertEqual(report.ended.status, 0, report.text)
        self.assertGreater(sum(it.right for it in report.grades.values()), 2000)

    def test_mistakes(self) -> None:
        for it in MISTAKES:
            with self.subTest(it.new):
                words = planted(self.folder(), it.module, it.old, it.new)
                report = self.report(*it.cases, *words)
                said = " ".join(cause.text for cause in report.causes
                                if cause.operation == it.operation)
                for pattern in it.told:
                    self.assertRegex(said, pattern)
        self.tells(f"{len(MISTAKES)} mistakes")

    def first_lines(self, report: Report) -> str:
        """What stands between the grades and the first cause, in one line."""
        text, _, _ = report.text.partition("\n\n1. ")
        return " ".join(text[text.index("area ") :].split())

    def test_begin(self) -> None:
        """What others rest on is named first, and what is right is named too."""
        words = planted(self.folder(), "des", TRIPLE, EEE)
        report = self.report("--area", "CIPHERS", "--area", "derivation", *words)
        self.assertIn("begin with tdes_encrypt: initial_key, derive rest on it right in each valid"
                      " case: tdes_decrypt,", self.first_lines(report))
        self.assertRegex(self.first_lines(report), "right in each.*: .*derive_from_initial")
        page = self.check("--area", "ciphers", "--area", "derivation", "--report", "html", *words)
        self.assertIn(b"<p>begin with tdes_encrypt: initial_key, derive rest on it</p>",
                      page.output)
        found = [it.operation for it in report.causes]
        self.assertEqual(list(dict.fromkeys(found)), ["tdes_encrypt", "initial_key", "derive"])

    def test_flags_of_no_cause(self) -> None:
        """A flag that tells how a case was chosen heads no cause; what most cases have wrong is one
        cause, with those that are right."""
        words = planted(self.folder(), "des", TRIPLE, EEE)
        report = self.report("--operation", "tdes_encrypt", *words)
        [cause] = report.causes
        self.assertRegex(cause.text, "173 of the 327 valid cases: another value")
        self.assertRegex(cause.text, r"right: 154 cases, KeyOrBlockBit \(136\)")
        self.assertFalse(re.search("cases with the flag", cause.text))

    def test_little_in_common(self) -> None:
        """What few cases have in common is said, and that they have nothing only if it is so."""
        valid = {"result": "valid", "outputs": {"usable": True}}
        for flags, told in (
                (["TenOneBits"], "3 of the 12 cases with the flag TenOneBits: another value"),
                (["Random"], "3 of the 12 cases, in no flag, length or group of which most fail")):
            tests = [{"tcId": number, "flags": flags, "inputs": {"ksn": f"{number:020X}"}, **valid}
                     for number in range(1, 13)]
            words = self.script("import json, sys\nfor line in sys.stdin:\n"
                                "    case = json.loads(line)\n"
                                "    usable = case['tcId'] not in (1, 6, 12)\n"
                                "    print(json.dumps({'tcId': case['tcId'], 'usable': usable}),"
                                " flush=True)\n")
            [cause] = self.report("--vectors", self.small_vectors(*tests), *words).causes
            self.assertIn(told, cause.text)
