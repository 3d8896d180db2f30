"""Configurations and scripts that are spoiled at random: their first fault, or what they say."""
from __future__ import annotations

import random

from ..support.formats import configuration
from ..support.formats.configuration import KEYS
from ..support.formats.script import first_bad_line
from ..support.models.model import played
from ..support.worlds.scenes import Play, payment, script_of, strays
from ..support.worlds.spoiled import spoiled_configuration, spoiled_script
from ..support.worlds.worlds import random_bank
from .test_worlds import WorldsCase

FILES = 300
FAULTS = ("config: not TOML", "config: unknown", "config: bad bdk 1", "config: bad card 1",
          *(f"config: bad {key}" for key in KEYS))


class Spoiled(WorldsCase):
    weight = 6

    def test_configurations(self) -> None:
        self.write("empty.script", b"")
        for _ in range(FILES * self.times):
            text = spoiled_configuration(self.chance)
            self.write("bank.toml", text)
            fault = ""
            try:
                configuration.read(text)
            except configuration.Refused as why:
                fault = str(why)
            run, serve = ("run", "bank.toml", "empty.script"), ("serve", "bank.toml")
            words = self.chance.choice((run, serve))
            ended = self.program.run(*words, folder=self.home)
            faults = f"{fault}\n".encode() if fault else b""
            self.assert_ended(ended, 1 if fault else 0, b"", faults, repr(text))
            kind = "config: unknown" if fault.startswith("config: unknown") else fault
            self.tally[kind or "a configuration"] += 1
        right = self.tally["a configuration"]
        self.tells(f"{FILES * self.times} configurations, {right} of them right")
        self.assert_all_came((*FAULTS, "a configuration"))

    def test_scripts(self) -> None:
        for _ in range(FILES * self.times):
            self.try_script(random.Random(self.chance.getrandbits(64)))
        self.tells(f"{FILES * self.times} scripts, {self.tally['a script']} of them right")
        self.assert_all_came(("no event", "a script"))

    def try_script(self, chance: random.Random) -> None:
        bank = random_bank(chance, chance.choice(("memory", "disk")), 20)
        play = Play(chance, bank.says)
        for scene in (payment, strays):
            scene(play)
        script = spoiled_script(chance, script_of(chance, play.events))
        self.write("bank.toml", bank.text)
        self.write("all.script", script)
        bad = first_bad_line(script)
        ended = self.program.run("run", "bank.toml", "all.script", folder=self.home)
        self.tally["a script" if bad is None else "no event"] += 1
        if bad is None:
            self.assert_ended(ended, 0, played(bank.says, script), b"", repr(script))
        else:
            fault = f"line {bad}: not an event\n".encode()
            self.assert_ended(ended, 1, b"", fault, repr(script))
