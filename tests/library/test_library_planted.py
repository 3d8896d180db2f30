"""The tests of the library find faults that are planted in its calls."""
from __future__ import annotations

from ..support.case import Case
from ..support.library.library import PROGRAMS, STRICT, compiler, program, ran
from ..support.program import ROOT
from .test_library_c import Random, heard

# What is planted, the program that finds it, and how its report begins.
SHIMS = (
    ("untested", "lengths", "dukpt_derive: status 0, and not 1"),
    ("untested", "random", "dukpt_derive: status 0, and not 1"),
    ("exact", "lengths", "dukpt_derive: status 1, and not 0"),
    ("refusing", "lengths", "dukpt_derive: status 1, and not 0"),
    ("refusing", "random", "dukpt_derive: status 1, and not 0"),
    ("same", "random", "dukpt_next_number: status 0, argument 1 is another"),
    ("all", "random", "dukpt_next_number: status 0, argument 1 is another"),
    ("on fault", "random", "dukpt_pin_block: status "),
    ("on fault", "lengths", "dukpt_pin_block: status "),
    ("rest", "random", "dukpt_pin_of_block: status 0, argument 2 is another"),
    ("order", "random", "dukpt_pin_of_block: status 12, and not 1"),
    ("exchanged", "random", "dukpt_check_reply: status 2"),
    ("before", "random", "argument 2 is written before its begin"),
    ("input", "random", "argument 0 is changed"),
    ("behind", "random", "random: status -11"),
    ("read behind", "random", "random: status -11"),
)
WRAPPED = ("derive", "next_number", "cmac", "pin_block", "pin_of_block", "check_reply")


class Calls(Case):
    """Faults between the header and the library."""

    def test_planted(self) -> None:
        folder = self.folder()
        wraps = [f"-Wl,--wrap=dukpt_{name}" for name in WRAPPED]
        compiler("-std=c99", *STRICT, "-O2", "-I", ROOT / "library" / "c", "-c",
                 PROGRAMS / "planted" / "shims.c", "-o", folder / "shims.o")
        tried = {main: program(main, folder, shim=[folder / "shims.o", *wraps])
                 for main in ("random", "lengths")}
        # Of 1,000 rounds one seed in sixty has none that tells the order.
        words = {"random": ("4000", "0"), "lengths": ("1",)}
        seed = str(self.chance.randrange(1 << 63))
        for main, made in tried.items():
            ran("env", "PLANTED=none", made, seed, *words[main])
        for planted, main, said in SHIMS:
            missed = f"{planted} is not found by {main}"
            with self.assertRaises(AssertionError, msg=missed) as found:
                ran("env", f"PLANTED={planted}", tried[main], seed, *words[main])
            self.assertIn(said, str(found.exception).replace("env: ", f"{main}: "), planted)
        self.tells(f"{len(SHIMS)} found")


class ByClient(Case):
    """What library and peer have alike, and the bench's own ciphers have not."""

    def test_planted(self) -> None:
        tried = program("random", self.folder())
        lines = ran(tried, str(self.chance.randrange(1 << 63)), "20", "20").splitlines()
        judge = Random("test_cases")
        for line in lines:
            if line.startswith("case "):
                judge.check_case(line)
                with self.assertRaises(AssertionError, msg=line):
                    judge.check_case(changed(line))


def changed(case: str) -> str:
    """A case with the last character of an argument afterwards changed, or with another status."""
    before, after = case.split(" -> ")
    status, *words = after.split(" ")
    if words[-1] == "-" or heard(before.split(" ")[1], before.split(" ")[2:])[-1:] == ():
        return f"{before} -> {int(status) + 1} {' '.join(words)}"
    last = "1" if words[-1][-1] != "1" else "2"
    return f"{before} -> {status} {' '.join([*words[:-1], words[-1][:-1] + last])}"
