"""The examples in Python of docs/LIBRARY.md: pasted one after the other, as a program and at the
prompt, they print what stands beside them, which the bench's own ciphers have made."""
from __future__ import annotations

import re
import subprocess
import sys

from ..support.formats.frames import write_reply
from ..support.library.example_programs import ExampleCase, known
from ..support.library.python_library import PACKAGE
from ..support.program import ROOT
from ..support.standards.des import cbc_encrypt, encrypt_block, triple_encrypted
from ..support.standards.dukpt import derive, pin_key, request_data_key
from ..support.standards.pin_blocks import pin_block
from ..vectors.test_ciphers import BASE, IKSN

EXAMPLES = re.compile(r"^```python\n(.*?)^```$", re.MULTILINE | re.DOTALL)
PRINTED = re.compile(r"^ *print\(.*\)  # (.*)$", re.MULTILINE)
FAULT = "OtherUsage (34): the key in the key block has another usage, or is no TDES key"
OTHER_MAC = "BadMac (27): the MAC is not that of the frame"
SECONDS = 60


def wanted() -> list[str]:
    """What all examples print."""
    key, number = derive(BASE, IKSN + 1), f"{IKSN + 1:020X}"
    hidden = triple_encrypted(pin_key(key), pin_block("1234", "4012345678909"))
    data = cbc_encrypt(request_data_key(key), bytes(8), b"16 bytes of data")
    return [
        "<16 secret bytes>", key.hex().upper(), encrypt_block(key, bytes(8))[:3].hex().upper(),
        f"{hidden:016X}", data.hex().upper(), "15 True", f"14 {OTHER_MAC}",
        f"<dukpt.Terminal, next {number}>", f"{number} 500",
        write_reply(key, IKSN + 1, "00").hex().upper(), f"Reply(ksn={number}, code=00)", "True",
        "True", f"{IKSN:020X}", FAULT]


class TestPasted(ExampleCase):
    def setUp(self) -> None:
        super().setUp()
        text = (ROOT / "docs" / "LIBRARY.md").read_text(encoding="utf-8")
        self.examples = EXAMPLES.findall(text)

    def said(self, *words: str, given: str) -> list[str]:
        done = subprocess.run([sys.executable, *words], input=given, cwd=self.home, text=True,
                              capture_output=True, env=known(), timeout=SECONDS, check=False)
        self.assertEqual(done.returncode, 0, done.stderr)
        self.assertNotIn("Error", done.stderr)
        return done.stdout.splitlines()

    def test_what_is_printed(self) -> None:
        """What stands beside a print is what has to be printed; and none lacks it."""
        code = "".join(self.examples)
        self.assertEqual(PRINTED.findall(code), wanted())
        self.assertEqual(code.count("print("), len(wanted()))
        self.assertGreater(len(self.examples), 3)

    def test_readme(self) -> None:
        """The example of the package's README.md asserts what it says."""
        examples = EXAMPLES.findall((PACKAGE / "README.md").read_text(encoding="utf-8"))
        self.assertEqual(len(examples), 1)
        self.assertIn(f'== "{derive(BASE, IKSN + 1).hex().upper()}"', examples[0])
        self.assertEqual(self.said("-", given=examples[0]), [])

    def test_as_a_program(self) -> None:
        self.assertEqual(self.said("-", given="".join(self.examples)), wanted())
        self.assertEqual((self.home / "image").stat().st_size, 431)

    def test_at_the_prompt(self) -> None:
        """Pasted line by line, where an empty line ends a function."""
        given = "\n".join(self.examples)
        said = [line for line in self.said("-i", "-q", given=given)
                if not re.fullmatch(r"\d+", line)]
        self.assertEqual(said, wanted())
