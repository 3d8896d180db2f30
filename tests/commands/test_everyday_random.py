"""The commands of every day with arguments at random, right ones and wrong ones: each line to the
letter, and no secret where it does not belong."""
from __future__ import annotations

from collections import Counter
from pathlib import Path

from ..support.case import ProgramCase
from ..support.commands.everyday_cases import DRAWS, Case, Draw
from ..support.commands.everyday_words import expected
from ..support.commands.leaks import leaks
from ..support.program import Ended, spoken
from ..support.quick import QuickRuns

NUMBER_FAULTS = ("KSN refused", "counter refused")
BASE_FAULTS = ("BDK refused", "initial refused")
PAN_FAULTS = ("PanLength", "PanDigit")
READS = ("cannot read", "too long", "not UTF-8")
# So many of each command, on all programs that are tried.
CASES = 10_000


def kind_of(ended: Ended) -> str:
    """What came of a run, without the values of it."""
    if ended.status == 0:
        return "done"
    return ended.faults.decode().splitlines()[0] if ended.status == 1 else "arguments refused"


class TestEveryday(ProgramCase):
    """A command is tried by thousands, and a tally counts what came of it."""

    weight = 30

    def play(self, command: str, *kinds: str, count: int = CASES) -> None:
        """Cases of a command, of which each of these kinds has to come."""
        home, tally = self.folder(), Counter[str]()
        draw = Draw(self.own_chance(), str(home))
        with QuickRuns(self.program) as runs:
            for _ in range(self.share_of(count)):
                case = DRAWS[command](draw)
                tally[kind_of(self.check(runs, case))] += 1
        missing = [it for it in ("done", "arguments refused", *kinds) if not tally[it]]
        self.assertFalse(missing, f"this never came: {missing}, but {dict(tally)}")
        self.tells(f"{sum(tally.values())} runs, {tally['done']} done")

    def check(self, runs: QuickRuns, case: Case) -> Ended:
        for path, data in case.files.items():
            Path(path).write_bytes(data)
        wanted = expected(case.words, case.files, case.given)
        ended = runs.run([word.encode() for word in case.words], case.given)
        what = f"{spoken(case.words)} with {case.files} and {case.given!r}"
        if wanted.status == 2:
            self.assertTrue(ended.faults.startswith(wanted.faults), f"{what}: {ended}, no {wanted}")
            self.assert_ended(ended, 2, b"", ended.faults, what)
        else:
            self.assert_ended(ended, wanted.status, wanted.output, wanted.faults, what)
        self.assertEqual(leaks(case, ended), [], what)
        return ended

    def test_derive(self) -> None:
        self.play("derive", *BASE_FAULTS, *NUMBER_FAULTS, *(f"BDK: {it}" for it in READS))

    def test_walk(self) -> None:
        self.play("walk", *BASE_FAULTS, "IKSN refused", "count refused")

    def test_initial(self) -> None:
        self.play("initial", "BDK refused", "IKSN refused")

    def test_registers(self) -> None:
        self.play("registers", *BASE_FAULTS, *NUMBER_FAULTS)

    def test_kcv(self) -> None:
        self.play("kcv", "key refused", *(f"KEY: {it}" for it in READS))

    def test_lmk(self) -> None:
        self.play("lmk", "components refused", "component 1 refused", "component 2 refused", "LMK weak",
                  "fields refused", "key refused", "pad refused", "HeaderField", "PadLength",
                  "KEY: cannot read", *(f"COMPONENT: {it}" for it in READS))

    def test_new_components(self) -> None:
        self.play("new_component", "random refused", *(f"COMPONENT: {it}" for it in READS))

    def test_mac(self) -> None:
        self.play("mac", "key refused", "text refused", "TEXT: cannot read", *(f"KEY: {it}" for it in READS))

    def test_data(self) -> None:
        self.play("data", "block refused", "key refused", "text refused", "TEXT: cannot read",
                  *(f"KEY: {it}" for it in READS))

    def test_pin(self) -> None:
        self.play("pin", "PinLength", "PinDigit", *PAN_FAULTS, "key refused", "PIN: cannot read",
                  *(f"{it}: {why}" for why in READS for it in ("PIN", "PAN")))

    def test_unpin(self) -> None:
        self.play("unpin", "block refused", *PAN_FAULTS, "key refused", "NotAPinBlock",
                  "KEY: cannot read", *(f"{it}: {why}" for why in READS for it in ("BLOCK", "PAN")))

    def test_translate(self) -> None:
        self.play("translate", "block refused", *PAN_FAULTS, *BASE_FAULTS, *NUMBER_FAULTS,
                  "zone refused", "NotAPinBlock", "ZONE: cannot read", "BLOCK: cannot read")

    def test_request(self) -> None:
        self.play("request", *BASE_FAULTS, *NUMBER_FAULTS, *PAN_FAULTS, "PinLength",
                  "PinDigit", "amount refused", "PIN: cannot read")

    def test_reversal(self) -> None:
        self.play("reversal", *BASE_FAULTS, *NUMBER_FAULTS, "number refused", "OtherIksn",
                  "SameNumber", "NotUsable", "BDK: cannot read")

    def test_reply(self) -> None:
        self.play("reply", *BASE_FAULTS, "request refused", "answer refused", "NotMine",
                  "BadMac")

    def test_find(self) -> None:
        self.play("find", *BASE_FAULTS, "WHAT refused", "TEXT refused", "PAN refused", "BLOCK refused",
                  "KSN refused", "window refused", "not found", "WHAT: cannot read", "TEXT: cannot read",
                  *(f"{it}: {why}" for why in READS for it in ("BDK", "PAN", "BLOCK")))

    def test_frames_under_keys(self) -> None:
        """`show frame` with a key."""
        self.play("shown_frame", *BASE_FAULTS, "KSN refused", "WHAT: cannot read", "BDK: cannot read")

    def test_others(self) -> None:
        """`wrap` and `unwrap`, whose secrets may be references too."""
        self.play("others", "KBPK refused", "Hex", count=2000)
