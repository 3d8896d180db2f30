"""`.gitattributes`: it names each file that a tool makes whole, and each of its patterns is of a file."""
from __future__ import annotations

import json
import re
import subprocess
import sys
from pathlib import Path
from typing import Iterable

from tests.support.case import Case
from tests.support.program import ROOT

ATTRIBUTES = ".gitattributes"
# What stands in the first lines of a made file. That of a part of a file names the part before it.
HEAD = re.compile(r"(?:^|[.*] |\* )Made (?:of|by) [^\n]*tools/", re.M)
LINES = 15
# What the tools say of what they make, in a process that has them on its path.
ASKED = """
import json, sys
from pathlib import Path
sys.dont_write_bytecode = True
sys.path.insert(0, "tools")
from circuits_of.making import LIST, made, read_list
from definitions_of.faults import GENERATED
from library_of.making import FILES
from page_of.main import MADE
from vectors_of.files import FILES as VECTORS
from vectors_of.form import SCHEMA
root = Path.cwd()
print(json.dumps([LIST, *made(read_list(root)), "/".join(GENERATED), *FILES,
                  str(MADE.relative_to(root)), *(f"vectors/{it.name}" for it in VECTORS),
                  f"vectors/{SCHEMA}", "share/man/dukpt.1",
                  *(str(it.relative_to(root)) for it in root.glob("docs/pictures/*.svg"))]))
"""


def git(root: Path, *words: str, given: str = "") -> list[str]:
    """What git says of a repository, in parts between bytes of zero."""
    done = subprocess.run(["git", "-c", "safe.directory=*", *words], cwd=root, input=given,
                          capture_output=True, text=True, check=True)
    return [it for it in done.stdout.split("\0") if it]


def generated(root: Path, files: Iterable[str]) -> set[str]:
    """Those of the files that the attributes name as made."""
    words = git(root, "check-attr", "-z", "--stdin", "linguist-generated", given="\0".join(files))
    return {path for path, value in zip(words[::3], words[2::3]) if value == "set"}


def of_nothing(root: Path) -> list[str]:
    """The patterns that match no file of the repository."""
    lines = (root / ATTRIBUTES).read_text().splitlines()
    patterns = [it.split()[0] for it in lines if it and not it.startswith("#")]
    return [it for it in patterns
            if not git(root, "ls-files", "-z", "--cached", "--ignored", f"--exclude={it}")]


def says_so(path: Path) -> bool:
    """Whether the first lines of a file say that a tool makes it."""
    try:
        lines = path.read_text(encoding="utf-8").split("\n", LINES)[:LINES]
    except UnicodeDecodeError:
        return False
    return HEAD.search("\n".join(lines)) is not None


class TestAttributes(Case):
    def test_made(self) -> None:
        """What the tools say that they make, and what says of itself that it is made."""
        done = subprocess.run([sys.executable, "-c", ASKED], cwd=ROOT, capture_output=True,
                              text=True, check=False)
        self.assertEqual(done.returncode, 0, done.stderr)
        told = json.loads(done.stdout)
        files = git(ROOT, "ls-files", "-z")
        heads = [it for it in files if (ROOT / it).is_file() and says_so(ROOT / it)]
        self.assertGreater(len(told), 50)
        self.assertGreater(len(heads), 10)
        made = {*told, *heads}
        self.assertEqual(sorted(made - {*files}), [], "files that are made, and not there")
        named = generated(ROOT, files)
        self.assertEqual(sorted(made - named), [], f"made files that {ATTRIBUTES} does not name")
        self.assertEqual(sorted(named - made), [], f"files of {ATTRIBUTES} that no tool makes")

    def test_patterns(self) -> None:
        self.assertEqual(of_nothing(ROOT), [])

    def test_bytes(self) -> None:
        """No end of line is changed: what git keeps is what stands there."""
        rows = [it.split("\t")[0].split() for it in git(ROOT, "ls-files", "-z", "--eol")]
        self.assertGreater(len(rows), 1000)
        self.assertEqual({row[0].partition("/")[2] for row in rows} - {"lf", "none", "-text"}, set())

    def test_planted(self) -> None:
        """A pattern of nothing and a made file that is not named are found."""
        home = self.folder()
        git(home, "init", "--quiet")
        (home / ATTRIBUTES).write_text("# Words.\n*.c diff=cpp\n*.h linguist-generated\n*.x binary\n")
        (home / "one.c").write_text("/* The words.\n * Made of it by `tools/it`. */\n")
        (home / "two.h").write_text("int two;\n/* Made of it by tools/it. */\n")
        (home / "three.c").write_text("\n" * 15 + "/* Made of it by tools/it. */\n")
        git(home, "add", "--all")
        self.assertEqual(of_nothing(home), ["*.x"])
        self.assertEqual(generated(home, ["one.c", "two.h"]), {"two.h"})
        self.assertEqual([says_so(home / f"{it}") for it in ("one.c", "two.h", "three.c")],
                         [True, True, False])
