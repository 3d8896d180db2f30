"""What the packages say of themselves: every link of their documents leads somewhere, and each BUILD
has the revision, the kit, the proof and the sums of what the package was made of."""
from __future__ import annotations

import hashlib
import os
import re
import shutil
import subprocess
from pathlib import Path
from typing import Iterator, Mapping
from urllib.parse import unquote

from ..support.documents.documents import LINK, anchors
from ..support.packages.packages import (
    UNPROVED, VERSION, Package, PackageCase, copy_of_repository, demand, make, packages_in)
from ..support.program import ROOT

IN_HTML = re.compile(r"""(?:href|src)\s*=\s*["']([^"'#]+)["']""")
CODE = re.compile(r"^```.*?^```$|`[^`\n]*`|^    [^\n]*$", re.M | re.S)
# A document that is named as a text.
NAMED = re.compile(r"`(docs/\w+\.\w+)`( in the repository)?")
# What is left of a link to what the package has not.
AWAY = re.compile(r" \(`[^`]+` in the repository\)| in the repository")


# The files of library/c that the library is made of.
OF_C = ("support.c", "status_texts.inc", "dukpt.map", "dukpt.pc.in", "dukpt.h")


class Documents(PackageCase):
    weight = 10

    def test_documents(self) -> None:
        packages, count = self.made(program=self.small_program()), 0
        for name, package in packages.items():
            for path in documents_of(package):
                count += len(LINK.findall(text_of(package, path)))
                self.assertEqual(list(dead_links(package, path)), [], f"{name}: {path}")
                self.check_text(package, path, path.removeprefix(f"usr/share/doc/{name}/"))
        self.assertGreater(count, 40)
        self.check_first_step(packages["dukpt"])
        self.tells(f"{count} links")

    def check_text(self, package: Package, path: str, source: str) -> None:
        """A document has the words of the repository's, whatever its links are."""
        if source.endswith(".md"):
            text = (ROOT / source).read_text(encoding="utf-8")
            self.assertEqual(words_of(text_of(package, path)), words_of(text), path)
            self.assertNotRegex(text, AWAY)

    def check_first_step(self, package: Package) -> None:
        """The page and its picture stand where README.md has them."""
        readme = text_of(package, "usr/share/doc/dukpt/README.md")
        for name in ("page/dukpt.html", "docs/page.png"):
            self.assertIn(f"]({name})", readme)
            self.assertEqual(package.content(f"usr/share/doc/dukpt/{name}"),
                             (ROOT / name).read_bytes())

    def test_links_that_are_left_as_they_are(self) -> None:
        """Without its change of links the tool leaves dead ones, and they are found."""
        root = self.folder()
        copy_of_repository(root)
        links = root / "tools/package_of/links.py"
        text = links.read_text()
        links.write_text(text.replace("if target in self.held:", "if target:"))
        self.assertNotEqual(links.read_text(), text)
        package = self.made(root, self.small_program())["dukpt"]
        dead = {target for path in documents_of(package) for target in dead_links(package, path)}
        self.assertLessEqual({"docs/ARCHITECTURE.md", "CONTRIBUTING.md", "vectors/README.md"}, dead)

    def test_a_link_that_leads_nowhere(self) -> None:
        """Code that looks like one is none."""
        root = self.folder()
        copy_of_repository(root)
        document = root / "docs" / self.chance.choice(["DEPLOYMENT.md", "LIBRARY.md"])
        with open(document, "a", encoding="utf-8") as file:
            file.write("\n```python\nx[0](y)\n```\n\n    x[1](z)\n\nSee [there](pictures/none.svg).\n")
        words = [word for pair in self.inputs().items() for word in pair]
        ended = make(root, *words, "--unproved", "--out", root / "made")
        self.assertEqual((ended.status, ended.faults), (
            1, f"package: {document}: its link to pictures/none.svg leads nowhere\n".encode()))


class Records(PackageCase):
    """The file BUILD of each package."""

    weight = 10

    def setUp(self) -> None:
        super().setUp()
        demand(git="git", rt="the Rattle kit")
        self.root, self.program = self.folder(), self.small_program()
        copy_of_repository(self.root)
        self.library = self.root / "library of another folder"
        shutil.copytree(self.inputs()["--library"], self.library, symlinks=True)

    def git(self, *words: str) -> str:
        owner = ["-c", "user.name=A Name", "-c", "user.email=name@example.org"]
        done = subprocess.run(["git", *owner, *words], cwd=self.root, capture_output=True, text=True,
                              check=True)
        return done.stdout.strip()

    def commit(self) -> str:
        (self.root / ".gitignore").write_text("out/\n__pycache__/\n")
        self.git("init", "--quiet")
        self.git("add", "--all")
        self.git("commit", "--quiet", "--message", "All")
        return self.git("rev-parse", "HEAD")

    def records(self, version: str, program: Path, *words: str) -> dict[str, dict[str, str]]:
        """The fields of each package's record."""
        out = self.folder()
        ended = make(self.root, "--program", program, "--library", self.library, "--out", out,
                     *words)
        self.assertEqual((ended.status, ended.faults), (0, b""), ended)
        return {name: fields_of(text_of(package, f"usr/share/doc/{name}/BUILD"))
                for name, package in packages_in(out, version).items()}

    def test_fields(self) -> None:
        kit = subprocess.run(["rt", "version"], capture_output=True, text=True, check=True,
                             cwd=self.root).stdout.strip()
        commit = self.commit()
        record = self.library / "BUILD"
        record.write_text(record.read_text().replace("Proof: none", "Proof: proved"))
        self.git("add", "--all")
        self.git("commit", "--quiet", "--amend", "--no-edit")
        commit = self.git("rev-parse", "HEAD")
        for name, found in self.records(UNPROVED, self.program, "--unproved").items():
            self.assertEqual(
                {it: found[it] for it in ("Package", "Version", "Revision", "Tree", "Kit")},
                {"Package": name, "Version": UNPROVED, "Revision": commit, "Tree": "clean",
                 "Kit": kit})
            logic = kit.rpartition(" ")[2]
            self.assertEqual(found["Proof"], "none" if name == "dukpt" else {
                "python3-dukpt": f"none of its modules; of the library that they call: proved, logic {logic}",
                "dukpt-host": "none of its modules; of the program that they start: none"
            }.get(name, f"proved, logic {logic}"))

    def test_tree(self) -> None:
        """A changed and a new file are told, and that there is no repository."""
        for name in ("README.md", "docs/new.txt"):
            commit = self.commit()
            path = self.root / name
            path.write_text((path.read_text() if path.exists() else "") + "\n")
            found = self.records(UNPROVED, self.program, "--unproved")["libdukpt0"]
            self.assertEqual((found["Revision"], found["Tree"]), (commit, "modified"), name)
        shutil.rmtree(self.root / ".git")
        found = self.records(UNPROVED, self.program, "--unproved")["libdukpt0"]
        self.assertEqual((found["Revision"], found["Tree"]), ("none", "none"))

    def test_sums(self) -> None:
        """Those of the files that a package is made of; of the library also its archive's."""
        of_library = {name: self.library / name for name in (
            "libdukpt.a", "libdukpt.so.0", "dukpt.h", "dukpt.pc")}
        given = fields_of((self.library / "BUILD").read_text())["Made-Of"]
        modules = {f"library/python/dukpt/{it.name}": it
                   for it in (self.root / "library/python/dukpt").iterdir()
                   if it.suffix == ".py" or it.name == "py.typed"}
        wanted: dict[str, Mapping[str, Path]] = {
            "dukpt": {"dukpt": self.program, "page/dukpt.html": ROOT / "page/dukpt.html"},
            "dukpt-host": {str(it.relative_to(self.root)): it
                           for it in (self.root / "share/host/dukpt_host").rglob("*.*")
                           if it.suffix in (".py", ".sql")},
            "libdukpt0": {"libdukpt.so.0": of_library["libdukpt.so.0"]},
            "libdukpt-dev": {name: path for name, path in of_library.items()
                             if name != "libdukpt.so.0"},
            "python3-dukpt": {**modules, "libdukpt.so.0": of_library["libdukpt.so.0"]},
        }
        for name, found in self.records(UNPROVED, self.program, "--unproved").items():
            sums = dict(reversed(line.split()) for line in found["Made-Of"].splitlines())
            if name.startswith("libdukpt"):
                self.assertIn(f" {sums.pop('libdukpt_c.a')} libdukpt_c.a\n", given, name)
                for it in ("calls.toml", *(f"c/{it}" for it in OF_C)):
                    self.assertEqual(sums.pop(f"library/{it}"), sum_of(ROOT / "library" / it), it)
            self.assertEqual(sums, {it: sum_of(path) for it, path in wanted[name].items()}, name)

    def test_proved(self) -> None:
        """The program that a proof left is named so, and its packages as the version alone."""
        made = self.root / "crates/dukpt/out/dukpt"
        made.parent.mkdir(parents=True)
        shutil.copy(self.program, made)
        record = self.library / "BUILD"
        record.write_text(record.read_text().replace("Proof: none", "Proof: proved"))
        found = self.records(VERSION, made)
        for name in ("dukpt", "libdukpt0", "libdukpt-dev"):
            self.assertRegex(found[name]["Proof"], r"\Aproved, logic [0-9a-f]{16}\Z")


def documents_of(package: Package) -> list[str]:
    return [path for path, (head, _) in package.files.items()
            if head.isfile() and path.startswith("usr/share/doc/")
            and path.endswith((".md", ".html", "calls.txt"))]


def text_of(package: Package, path: str) -> str:
    return package.content(path).decode()


def dead_links(package: Package, path: str) -> Iterator[str]:
    """The links of a document that lead to no file of the package, or to no heading of one; and the
    documents that it names as if the package had them."""
    text = text_of(package, path)
    if path.endswith(".html"):
        yield from (it for it in IN_HTML.findall(text)
                    if ":" not in it and place(path, it) not in package.files)
        return
    links = LINK.findall(text if path.endswith("README.md") else CODE.sub("", text))
    for link in links:
        file, _, anchor = link.partition("#")
        if ":" in file:
            continue
        target = place(path, file) if file else path
        if target not in package.files:
            yield link
        elif anchor and anchor not in anchors(text_of(package, target)):
            yield link
    top = "/".join(path.split("/")[:4])
    yield from (name for name, away in NAMED.findall(text)
                if not away and f"{top}/{name}" not in package.files)


def place(path: str, link: str) -> str:
    return os.path.normpath(Path(path).parent / unquote(link))


def words_of(text: str) -> list[str]:
    """The words of a document, each link as its text alone."""
    bare = AWAY.sub("", text)
    for _ in range(2):
        bare = re.sub(r"\[([^\[\]]*)\]\([^()\s]+\)", r"\1", bare)
    # A link whose text is its target is left as the path.
    return re.findall(r"[\w.]+", bare)


def fields_of(text: str) -> dict[str, str]:
    """The fields of a record; one with sums has a line for each."""
    found = re.findall(r"^([\w-]+):(?: (.*)\n|\n((?: .*\n)+))", text, re.M)
    return {name: value or sums for name, value, sums in found}


def sum_of(path: Path) -> str:
    return hashlib.sha256(path.read_bytes()).hexdigest()
