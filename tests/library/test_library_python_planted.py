"""The tests of the Python package and of its terminal find faults that are planted in copies."""
from __future__ import annotations

import os
import shutil
import subprocess
import sys
from pathlib import Path
from typing import Sequence

from ..support.case import Case
from ..support.library.example_programs import EXAMPLES
from ..support.library.library import built_library
from ..support.library.python_library import PACKAGE
from ..support.program import ROOT

SECONDS = 600
CALLS, TERMINAL = "test_library_python.TestCases", "test_library_python_terminal"
VERSIONS = "test_library_python_package.TestWrongLibraries"
EXAMPLE = "test_library_terminal.TestPython"

# A file, a text that stands there once, what it becomes, and the test that finds it.
Planted = tuple[str, str, str, str]

IN_PACKAGE: Sequence[Planted] = (
    # Lengths.
    ("_registers.py", "IMAGE_LENGTH = 431", "IMAGE_LENGTH = 432", f"{CALLS}.test_registers"),
    ("_registers.py", "IMAGE_LENGTH = 431", "IMAGE_LENGTH = 430", f"{CALLS}.test_registers"),
    ("_blocks.py", "Secret(key.raw[:wanted])", "Secret(key.raw)", f"{CALLS}.test_key_blocks"),
    ("_blocks.py", "content, count = room(251)", "content, count = room(250)",
     f"{CALLS}.test_key_blocks"),
    ("_reversals.py", "return Reversal(ksn.raw, other.raw, mac.raw)",
     "return Reversal(ksn.raw, other.raw, mac.raw[:4])", f"{CALLS}.test_reversals"),
    ("_library.py", "return buffer.raw[: count.value]", "return buffer.raw",
     f"{CALLS}.test_reversals"),
    ("_library.py", "return held, len(held)", "return held, len(held) or 1",
     f"{CALLS}.test_numbers_and_macs"),
    # The order of arguments.
    ("_reversals.py",
     'call("dukpt_check_reversal_reply", key=key, ksn=ksn, reversed=reversed, frame=frame)',
     'call("dukpt_check_reversal_reply", key=key, ksn=reversed, reversed=ksn, frame=frame)',
     f"{CALLS}.test_reversals"),
    ("_reversals.py", "return ReversalReply(ksn.raw, other.raw, state.value)",
     "return ReversalReply(other.raw, ksn.raw, state.value)", f"{CALLS}.test_reversals"),
    ("_exports.py", '"dukpt_derive": {"bdk": "bytes", "ksn": "bytes",',
     '"dukpt_derive": {"ksn": "bytes", "bdk": "bytes",', f"{CALLS}.test_keys"),
    # A status is ignored; another fault is raised.
    ("_library.py", "    if status:\n", "    if status > 100:\n", f"{CALLS}.test_reversals"),
    ("_library.py", "    if status in FAULTS:\n", "    if True:\n",
     "test_library_python.TestFaults.test_a_status_without_a_class"),
    ("_library.py", "    if status == Length.number:\n        raise Length(lengths(name, given))\n",
     "    if status == Length.number:\n        return\n", f"{CALLS}.test_keys"),
    ("faults.py", "class NotMine(DukptError, number=26)", "class NotMine(DukptError, number=99)",
     "test_library_python.TestFaults"),
    # Bits of a number are cut.
    ("_library.py", "    if not 0 <= value <= LARGEST_NUMBER:\n", "    if value < 0:\n",
     "test_library_python.TestNumbers"),
    # A copied terminal gives numbers.
    ("_terminal.py", "        self._demand_own_process()\n        with self._lock:\n"
     "            taken", "        with self._lock:\n            taken",
     f"{TERMINAL}.TestProcesses"),
    ("_terminal.py", "        # A store that forks returns in both processes.\n"
     "        self._demand_own_process()\n", "", f"{TERMINAL}.TestProcesses"),
    ("_terminal.py", "if os.getpid() != self._process:", "if os.getppid() == self._process + 1:",
     f"{TERMINAL}.TestProcesses"),
    ("_terminal.py", "    def __reduce__(self)", "    def _reduce(self)",
     f"{TERMINAL}.TestSecrets"),
    # The key is there before the image is stored.
    ("_terminal.py", "        self._image = image\n", "        pass\n", f"{TERMINAL}.TestLife"),
    ("_terminal.py", "            kept = store(image)\n",
     "            self._image = image\n            kept = store(image)\n",
     f"{TERMINAL}.TestStores"),
    # A secret is shown.
    ("_values.py", '        return f"<{len(self)} secret bytes>"', "        return self.hex()",
     f"{TERMINAL}.TestSecrets"),
    ("_values.py", "    __str__ = __repr__\n", "", f"{TERMINAL}.TestSecrets"),
    ("_keys.py", '    call("dukpt_derive", bdk=bdk, ksn=ksn, key=key)\n    return Secret(key.raw)',
     '    call("dukpt_derive", bdk=bdk, ksn=ksn, key=key)\n    return key.raw  # type: ignore',
     f"{TERMINAL}.TestSecrets"),
    # A library of another version is taken, or one of the same is not.
    ("_version.py", 'if text.split(".")[:2] != __version__.split(".")[:2]:',
     'if text.split(".")[:1] != __version__.split(".")[:1]:', VERSIONS),
    ("_version.py", 'if text.split(".")[:2] != __version__.split(".")[:2]:',
     "if text != __version__:", VERSIONS),
)

IN_TERMINAL: Sequence[Planted] = (
    # A status is ignored: whatever comes is taken for the reply.
    ("terminal.py", "            dukpt.check_reply(key, ksn, answer)\n", "            pass\n",
     f"{EXAMPLE}.test_answers_to_a_request"),
    ("terminal.py", "            dukpt.check_reversal_reply(key, ksn, reversed_ksn, answer)\n",
     "            pass\n", f"{EXAMPLE}.test_answers_to_a_reversal"),
    ("terminal.py", "    if sent != len(frame) or len(answer) != length:\n", "    if False:\n",
     f"{EXAMPLE}.test_answers_to_a_request"),
    # The purchase is not kept, is kept too late, or is not reversed.
    ("terminal.py", "        self.keep(Last(OPEN, ksn, amount))\n", "",
     f"{EXAMPLE}.test_a_lost_reply"),
    ("terminal.py", "            if self.last.state == OPEN:\n", "            if False:\n",
     f"{EXAMPLE}.test_a_lost_reply"),
    ("terminal.py", "        self.keep(outcome)\n        tell(str(outcome))\n",
     "        tell(str(outcome))\n        self.keep(outcome)\n", f"{EXAMPLE}.test_the_order"),
    ("terminal.py", "        dukpt.next_number(dukpt.next_number(self.terminal.number))\n", "",
     f"{EXAMPLE}.test_no_purchase_under_the_last_numbers"),
    # Files are not synced, not whole or not locked.
    ("terminal.py", "        os.fsync(file.fileno())\n", "", f"{EXAMPLE}.test_the_order"),
    ("terminal.py", "        os.fsync(folder)\n", "        pass\n", f"{EXAMPLE}.test_the_order"),
    ("terminal.py", "        fcntl.flock(lock, fcntl.LOCK_EX)\n", "",
     f"{EXAMPLE}.test_the_order"),
    ("terminal.py", "        elif self.last is None:\n", "        elif True:\n",
     f"{EXAMPLE}.test_a_lost_image"),
    # A second name is taken; what a stop left stays.
    ("terminal.py", "    if not stat.S_ISREG(known.st_mode) or known.st_nlink > 1:\n",
     "    if known.st_nlink > 1:\n", f"{EXAMPLE}.test_an_image_with_a_second_name"),
    ("terminal.py", "    if not stat.S_ISREG(known.st_mode) or known.st_nlink > 1:\n",
     "    if not stat.S_ISREG(known.st_mode):\n", f"{EXAMPLE}.test_an_image_with_a_second_name"),
    ("terminal.py", "    following.unlink(missing_ok=True)\n    with open(following, \"xb\",",
     "    with open(following, \"wb\",", f"{EXAMPLE}.test_what_a_stop_left"),
)


class PlantedCase(Case):
    weight = 8

    def setUp(self) -> None:
        super().setUp()
        built_library()
        self.copy = self.folder()
        self.package, self.examples = self.copy / "library" / "python", self.copy / "examples"
        shutil.copytree(PACKAGE, self.package, ignore=shutil.ignore_patterns("__pycache__"))
        shutil.copytree(EXAMPLES, self.examples)

    def run_tests(self, *tests: str) -> subprocess.CompletedProcess[str]:
        """Runs tests on the copies."""
        return subprocess.run(
            [sys.executable, "-B", "-m", "tests.support.library.copied_package", self.package,
             self.examples, str(self.chance.randrange(1 << 32)), *tests],
            cwd=ROOT, capture_output=True, text=True, env={**os.environ}, timeout=SECONDS,
            check=False)

    def try_planted(self, folder: Path, planted: Sequence[Planted]) -> None:
        done = self.run_tests(*sorted({test for *_, test in planted}))
        self.assertEqual(done.returncode, 0, f"nothing is planted\n{done.stderr}")
        for name, old, new, test in planted:
            file = folder / name
            before = file.read_text(encoding="utf-8")
            self.assertEqual(before.count(old), 1, f"{name}: {old}")
            file.write_text(before.replace(old, new), encoding="utf-8")
            done = self.run_tests(test)
            self.assertEqual(done.returncode, 1, f"{name}: {new} is not found by {test}")
            self.assertRegex(done.stderr, r"FAILED \((failures|errors)=")
            file.write_text(before, encoding="utf-8")
        self.tells(f"{len(planted)} found")


class TestPackage(PlantedCase):
    def test_planted(self) -> None:
        self.try_planted(self.package / "dukpt", IN_PACKAGE)


class TestTerminal(PlantedCase):
    def test_planted(self) -> None:
        self.try_planted(self.examples, IN_TERMINAL)
