"""The document: page/index.html with the style, the script, the modules and the policy in it."""
from __future__ import annotations

import base64
import hashlib
import html
import textwrap
from pathlib import Path

from .module import Modules
from .script import bundled

# What the page may do beside what it holds itself: nothing. Its modules are compiled, and no text is.
POLICY = ("default-src 'none'; script-src '{script}' 'wasm-unsafe-eval'; style-src '{style}';"
          " connect-src 'none'; form-action 'none'; base-uri 'none'; img-src 'none'; object-src 'none'")
# The columns of a module's text.
WIDTH = 120


def document(folder: Path, modules: Modules) -> str:
    """The page of the sources in a folder, and of modules that a kit compiled."""
    style = (folder / "style.css").read_text(encoding="utf-8")
    script = f"\n{bundled(folder, 'main')}"
    parts = {
        "POLICY": POLICY.format(script=source_of(script), style=source_of(style)),
        "KIT": html.escape(modules.kit),
        "STYLE": style,
        "MODULE": held(modules.calls),
        "PLAYER": held(modules.player),
        "SCRIPT": script,
    }
    text = (folder / "index.html").read_text(encoding="utf-8")
    for name, part in parts.items():
        if text.count(f"@{name}@") != 1:
            raise ValueError(f"index.html has no place, or several, for @{name}@")
        text = text.replace(f"@{name}@", part)
    return text


def held(module: bytes) -> str:
    """The text that a module has in the page."""
    return "\n".join(["", *textwrap.wrap(base64.b64encode(module).decode(), WIDTH), ""])


def source_of(text: str) -> str:
    """How a content security policy names a script or a style by its bytes."""
    return f"sha256-{base64.b64encode(hashlib.sha256(text.encode()).digest()).decode()}"
