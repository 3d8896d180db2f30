"""The scripts of the page as one: page/*.js, each behind those that it imports.

Each module becomes a function that is called once, in place, and gives what the module exports. So a
module's other names stay its own, as they do where a browser loads it by itself.
"""
from __future__ import annotations

import re
from pathlib import Path

IMPORT = re.compile(r'^import (?:\{([^}]*)\}|\* as (\w+)) from "\./(\w+)\.js";\n', re.M)
EXPORT = re.compile(r"^export (?=(?:async )?(?:const|let|class|function) (\w+))", re.M)
# A comment that has lines of its own. The sources have them, and the page needs none.
COMMENT = re.compile(r"^[ \t]*(?://.*|/\*\*(?:[^*]|\*(?!/))*\*/)\n", re.M)
OTHERS = re.compile(r"^(?:import|export)\b.*", re.M)


class NotBundled(Exception):
    """What of the sources the bundle cannot carry, as a sentence."""


def bundled(folder: Path, start: str) -> str:
    """The script of a module and of all that it imports, each once."""
    texts: dict[str, str] = {}
    collect(folder, start, texts, ())
    return "\n".join(scoped(name, text) for name, text in texts.items())


def collect(folder: Path, name: str, texts: dict[str, str], above: tuple[str, ...]) -> None:
    """Puts the text of a module behind those of the modules that it imports."""
    if name in texts:
        return
    if name in above:
        raise NotBundled(f"{name}.js imports itself, by way of {', '.join(above)}")
    text = (folder / f"{name}.js").read_text(encoding="utf-8")
    for words, _, imported in IMPORT.findall(text):
        collect(folder, imported, texts, (*above, name))
        for word in sorted(names_in(words) - set(EXPORT.findall(texts[imported]))):
            raise NotBundled(f"{name}.js imports {word}, which {imported}.js does not export")
    texts[name] = text


def names_in(words: str) -> set[str]:
    """The names between the braces of an import; one that is given another name stays as it is."""
    return {" ".join(word.split()) for word in words.split(",")} - {""}


def scoped(name: str, text: str) -> str:
    """A module as a function that is called at once."""
    exported = EXPORT.findall(text)
    body = COMMENT.sub("", EXPORT.sub("", IMPORT.sub(taken, text))).strip()
    for line in OTHERS.findall(body):
        raise NotBundled(f"{name}.js: this line is not understood: {line}")
    return f"const ${name} = (() => {{\n{body}\nreturn {{ {', '.join(exported)} }};\n}})();\n"


def taken(match: re.Match[str]) -> str:
    """An import as what it takes out of a module that stands above."""
    words, whole, imported = match.groups()
    return f"const {whole or '{' + words + '}'} = ${imported};\n"
