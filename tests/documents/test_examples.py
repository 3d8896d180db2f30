"""The examples: what the program writes on each script of `examples` stands beside it."""
from __future__ import annotations

from ..support.case import ProgramCase
from ..support.program import ROOT

EXAMPLES = ROOT / "examples"


class Examples(ProgramCase):
    """Each `NAME.script`, played under `bank.toml`, writes `NAME.out`."""

    def test_each_script_writes_what_stands_beside_it(self) -> None:
        scripts = sorted(EXAMPLES.glob("*.script"))
        self.assertEqual(
            [it.with_suffix(".out") for it in scripts],
            sorted(EXAMPLES.glob("*.out")),
            "a script and what it writes stand side by side",
        )
        self.assertGreaterEqual(len(scripts), 4)
        for script in scripts:
            ended = self.program.run("run", "bank.toml", script.name, folder=EXAMPLES)
            written = script.with_suffix(".out").read_bytes()
            self.assert_ended(ended, 0, written, b"", script.name)
        self.tells(f"{len(scripts)} scripts")
