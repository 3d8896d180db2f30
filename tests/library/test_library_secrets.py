"""What the calls of C leave of keys and PINs on the stack, and whether their time may tell of keys."""
from __future__ import annotations

import re
import subprocess
from pathlib import Path
from typing import Sequence

from ..support.library.library import demand, program, ran
from ..support.library.library_calls import CALLS
from ..support.program import Word
from .test_library_c import LENGTHS, STACK_BYTES, LibraryCase

STACK_CASES, SECRET_CASES = 100, 4
# How deep the calls go at most that are not over many terminals, and the two steps of a host.
ALONE_BYTES, HOST_STACK_BYTES = 16384, LENGTHS["HOST_STACK_BYTES"]
HOSTS = ("host_judge", "host_answer")
# Calls of which the stack has keys or PINs behind some case, where nothing wipes it.
LEAVING = ("derive", "derive_many", "check_value", "registers_load", "registers_next",
           "cbc_encrypt", "cmac", "retail_mac", "pin_block", "wrap", "wrap_with", "unwrap",
           "unwrap_for", "payment_request", "module_load_bdk", "module_load_zone", *HOSTS)
# Calls over many terminals at once, which use no table.
IN_LANES = ("derive_many", "check_requests")
# Calls that compare what they make of a key, as a MAC: the answer is no secret. `check_requests`
# compares too, but without a branch.
COMPARING = ("pin_of_block", "unwrap", "unwrap_for", "unwrap_optional", "check_request",
             "request_pin", "check_reply", "check_reversal", "check_reversal_reply",
             "module_load_bdk", "module_load_zone", *HOSTS)
BRANCH, ADDRESS = "Conditional jump or move depends on uninitialised", "Use of uninitialised value"
MEMCHECK = ("--error-limit=no", "--leak-check=no", "--num-callers=1")
# Lines of callgrind's report that tell which run it is of.
OF_A_RUN = re.compile(r"^(?:cmd|pid|desc|part|creator):.*\n", re.MULTILINE)
# What stands in the place of each wipe of the library: nothing, and what is not deep enough.
WIPES = ("wipe_stack", "wipe_host_stack")
NONE = "(void)0;"
SHALLOW = """volatile char few[256];
    for (unsigned at = 0; at < sizeof few; at++)
        few[at] = 0;
    (void)few[0];"""


def shim_of(body: str) -> str:
    """The wipes with this body, in C."""
    heads = (f"void __wrap_dukpt_{it}(void)" for it in WIPES)
    return "".join(f"{it};\n{it}\n{{\n    {body}\n}}\n" for it in heads)


class Stack(LibraryCase):
    """On a stack that is painted before each call."""

    weight = 10

    def run_stack(
        self, *options: Word, is_shared: bool = False,
    ) -> tuple[dict[str, Sequence[int]], dict[str, int]]:
        """Of each call how deep it goes, and how often it leaves a secret without and with the wipe;
        and how many bytes each wipe does not overwrite."""
        tried = program("stack", self.folder(), is_shared=is_shared, shim=options)
        lines = ran(tried, self.seed_word(), str(STACK_CASES)).splitlines()
        words = [line.split(" ") for line in lines]
        found = {word[1]: [int(it) for it in word[2:]] for word in words if word[0] == "done"}
        self.assertEqual(list(found), list(CALLS))
        return found, {word[1]: int(word[2]) for word in words if word[0] == "wipe"}

    def test_wiped(self) -> None:
        """With the archive and with the shared library."""
        for is_shared in (False, True):
            found, unwiped = self.run_stack(is_shared=is_shared)
            depths = {name.removeprefix("dukpt_"): depth for name, (depth, _, _) in found.items()}
            deepest = [max(depths[name] for name in names) for names in (
                set(depths) - {*IN_LANES, *HOSTS}, IN_LANES, HOSTS)]
            for depth, most in zip(deepest, (ALONE_BYTES, STACK_BYTES, HOST_STACK_BYTES)):
                self.assertLessEqual(depth, most)
                self.assertGreater(2 * depth, most)
            self.assertEqual({name for name, (_, _, left) in found.items() if left > 0}, set())
            self.assertEqual(unwiped, {it.removeprefix("wipe_"): 0 for it in WIPES})
            leaving = {name.removeprefix("dukpt_") for name, it in found.items() if it[1] > 0}
            self.assertLessEqual(set(LEAVING), leaving)
            self.tells(" and ".join(f"{it:,}" for it in deepest) + " bytes at most")

    def test_planted(self) -> None:
        """Wipes that do nothing, and such that are not deep enough."""
        for name, body in (("none.c", NONE), ("shallow.c", SHALLOW)):
            shim = self.folder() / name
            shim.write_text(shim_of(body))
            found, unwiped = self.run_stack(*(f"-Wl,--wrap=dukpt_{it}" for it in WIPES), shim)
            self.assertGreater(unwiped["stack"], STACK_BYTES // 2)
            self.assertGreater(unwiped["host_stack"], HOST_STACK_BYTES // 2)
            left = {name.removeprefix("dukpt_") for name, it in found.items() if it[2] > 0}
            self.assertLessEqual({"derive", *HOSTS}, left)


class Time(LibraryCase):
    """Under valgrind, which sees branches and addresses that depend on keys."""

    weight = 20

    def setUp(self) -> None:
        super().setUp()
        demand("valgrind")
        self.tried, self.seed = program("secrets", self.folder()), self.seed_word()

    def run_secrets(self, options: Sequence[Word], *words: str, only: str = "") -> str:
        """What valgrind says while the program runs, with all calls or with one alone."""
        words = (*words, f"dukpt_{only}") if only else words
        done = subprocess.run(
            ["valgrind", "--quiet", *map(str, options), str(self.tried), self.seed,
             str(SECRET_CASES), *words], capture_output=True, text=True, check=False)
        self.assertEqual(done.returncode, 0, done.stderr[-2000:])
        called = [line.removeprefix("done dukpt_") for line in done.stdout.splitlines()]
        every = [name.removeprefix("dukpt_") for name in CALLS]
        self.assertEqual(called, [only] if only else [it for it in every if it not in COMPARING])
        return done.stderr

    def test_branches(self) -> None:
        """No branch depends on a key; addresses do."""
        said = self.run_secrets(MEMCHECK, self.seed_word())
        self.assertNotIn(BRANCH, said)
        self.assertIn(ADDRESS, said)
        self.assertIn(BRANCH, self.run_secrets(MEMCHECK, self.seed_word(), "branch"))

    def test_in_lanes(self) -> None:
        """No branch and no address of the calls over many terminals depends on a key, or on what is
        made of one; of a call with tables addresses do."""
        for name in IN_LANES:
            self.assertEqual(self.run_secrets(MEMCHECK, self.seed_word(), only=name), "", name)
        for name in ("derive", "retail_mac"):
            said = self.run_secrets(MEMCHECK, self.seed_word(), only=name)
            self.assertNotIn(BRANCH, said)
            self.assertIn(ADDRESS, said, name)

    def test_instructions(self) -> None:
        """Whatever the keys are, each instruction runs as often."""
        one, other = self.profile("1"), self.profile("2")
        self.assertIn("fn=", one)
        self.assertTrue(one == other, "the profiles of two runs differ")
        planted = self.profile("1", "branch") == self.profile("2", "branch")
        self.assertFalse(planted, "a branch is not seen")

    def test_pins(self) -> None:
        """At whichever digit a PIN is another than the card's, each instruction runs as often; not so
        where it is the same."""
        wrong = {self.profile_of_pin(place, "55") for place in range(6)}
        self.assertEqual(len(wrong), 1, "the profiles of two places differ")
        self.assertNotIn(self.profile_of_pin(6, "00"), wrong)

    def profile_of_pin(self, place: int, code: str) -> str:
        made = self.folder() / "profile"
        # Where callgrind writes a function, and under which number, is another thing in each run.
        said = ran("valgrind", "--quiet", *self.counting(made), "--compress-strings=no",
                   "--compress-pos=no", self.tried, self.seed, "1", "1", "pin", str(place))
        self.assertIn(f"code {code}\n", said)
        return "\n".join(sorted(OF_A_RUN.sub("", made.read_text()).splitlines()))

    def profile(self, *words: str) -> str:
        """How often each instruction runs."""
        made = self.folder() / "profile"
        self.run_secrets(self.counting(made), *words)
        return OF_A_RUN.sub("", made.read_text())

    @staticmethod
    def counting(made: Path) -> list[Word]:
        return ["--tool=callgrind", "--dump-instr=yes", f"--callgrind-out-file={made}"]
