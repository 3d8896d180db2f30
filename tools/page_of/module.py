"""The modules: the crates dukpt_c and dukpt_player, built for 64-bit WebAssembly."""
from __future__ import annotations

import base64
import re
import zlib
from dataclasses import dataclass
from pathlib import Path
from typing import Optional

from library_of import kit

from .player import player

MAGIC = b"\0asm\1\0\0\0"
# Where a page has a module, and the kit that compiled it.
HELD = r'<script\b[^>]* id="{name}">([^<]*)</script>'
MADE_WITH = re.compile(r'<meta name="generator" content="([^"]*)">')
CALLS, PLAYER = "module", "player"


class NoModule(Exception):
    """Why there is no module, as a sentence."""


@dataclass(frozen=True)
class Modules:
    """The modules of a page, as it has them, and the kit that compiled them, as `rt version` names it.

    A module stands in the page as raw deflate: so it has half of its size.
    """

    calls: bytes
    player: bytes
    kit: str


def built(page: Path) -> Modules:
    """The modules of the crates as they are, which the kit proves first where they changed."""
    try:
        calls, play = kit.module().read_bytes(), player().read_bytes()
        return Modules(packed(calls, page, CALLS), packed(play, page, PLAYER), kit.Kit.version())
    except kit.NotBuilt as why:
        raise NoModule(f"{why}; with --kept none is wanted") from why


def packed(module: bytes, page: Path, name: str) -> bytes:
    """A module as raw deflate. Versions of zlib pack differently: where a page has what unpacks to the
    same, that stays."""
    checked(module, "what the kit built")
    before = held_in(page.read_text(encoding="utf-8"), name) if page.exists() else None
    if before is not None and unpacked(before) == module:
        return before
    packer = zlib.compressobj(9, zlib.DEFLATED, -zlib.MAX_WBITS)
    return packer.compress(module) + packer.flush()


def unpacked(text: bytes) -> Optional[bytes]:
    try:
        return zlib.decompress(text, -zlib.MAX_WBITS)
    except zlib.error:
        return None


def kept(page: Path) -> Modules:
    """The modules that a page has."""
    text = page.read_text(encoding="utf-8")
    calls, play, made_with = held_in(text, CALLS), held_in(text, PLAYER), MADE_WITH.search(text)
    if calls is None or play is None or made_with is None:
        raise NoModule(f"{page} lacks a module, or does not name its kit")
    for it in (calls, play):
        checked(unpacked(it) or b"", str(page))
    return Modules(calls, play, made_with[1])


def held_in(text: str, name: str) -> Optional[bytes]:
    """What a page holds under a name, where it does."""
    held = re.search(HELD.format(name=name), text)
    return base64.b64decode(held[1]) if held else None


def checked(code: bytes, place: str) -> bytes:
    if not code.startswith(MAGIC):
        raise NoModule(f"{place} is no WebAssembly module")
    return code
