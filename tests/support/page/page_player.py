"""The page's player in a browser: `page/player.js` over the module that the page carries.

The page calls it from a panel. Here it is called as that does, with many scripts at once.
"""
from __future__ import annotations

import base64
import re
import zlib
from dataclasses import dataclass
from typing import Any, Optional, Sequence

from ..program import ROOT
from .browser import Browser
from .page_case import PAGE

SOURCE = ROOT / "page" / "player.js"
UNPACKED = ROOT / "page" / "unpacked.js"
HELD = re.compile(r'<script\b[^>]* id="player">([^<]*)</script>')

# The source, with its memory and that of a new player.
LOAD = """
window.tried = (() => {
  %s
  const memoryOf = (it) => new Uint8Array(it.memory.buffer);
  return { loadPlayer, play, memory: () => memoryOf(player),
           memoryOfNew: () => memoryOf(new WebAssembly.Instance(compiled).exports) };
})();
await window.tried.loadPlayer(arguments[0]);
"""
PLAY = "return arguments[0].map((it) => window.tried.play(...it));"
PLAY_LONG = """
const [config, line, count, isJournal] = arguments;
return window.tried.play(config, line.repeat(count), isJournal);
"""
# How many bytes of the memory are not as they are in a new player.
CHANGED = """
const now = window.tried.memory();
const then = window.tried.memoryOfNew();
let count = 0;
for (let at = 0; at < then.length; at++) count += now[at] !== then[at];
return count;
"""
# A configuration, a script, and whether it is played over a journal.
Given = tuple[bytes, bytes, bool]


@dataclass(frozen=True)
class Fault:
    kind: str
    line: int
    words: str


@dataclass(frozen=True)
class Played:
    """What the player gives of a script."""

    lines: list[str]
    fault: Optional[Fault]


def source() -> str:
    return SOURCE.read_text(encoding="utf-8")


def module() -> bytes:
    """The player's module, as the page carries it."""
    held = HELD.search(PAGE.read_text(encoding="utf-8"))
    assert held, f"{PAGE} has no player"
    return zlib.decompress(base64.b64decode(held[1]), -zlib.MAX_WBITS)


def text_of(code: bytes) -> str:
    """A module as the page has it."""
    packer = zlib.compressobj(1, zlib.DEFLATED, -zlib.MAX_WBITS)
    return base64.b64encode(packer.compress(code) + packer.flush()).decode()


def load_player(browser: Browser, script: Optional[str] = None, code: Optional[bytes] = None) -> None:
    """Loads a player into the page: the page's own, or that of another script or module."""
    body = UNPACKED.read_text(encoding="utf-8") + (script or source())
    body = re.sub(r"^import .*\n|^export ", "", body, flags=re.M)
    text = text_of(code) if code else browser.run(
        'return document.getElementById("player").textContent;')
    browser.run_async(LOAD % body, text)


def play_all(browser: Browser, given: Sequence[Given]) -> list[Played]:
    cases = [(config.decode(), script.decode(), journal) for config, script, journal in given]
    return [played(it) for it in browser.run(PLAY, cases)]


def play_long(browser: Browser, config: bytes, line: bytes, count: int, is_journal: bool) -> Played:
    """Plays a script that is one line so many times."""
    return played(browser.run(PLAY_LONG, config.decode(), line.decode(), count, is_journal))


def played(found: dict[str, Any]) -> Played:
    return Played(found["lines"], Fault(**found["fault"]) if found["fault"] else None)


def changed_in_memory(browser: Browser) -> int:
    """How many bytes of the player's memory are not as they are in a new one."""
    return browser.run(CHANGED)
