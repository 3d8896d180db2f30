"""The documents: how long their lines are, where their links lead, how a page of docs/ begins, and the
size of README.md. Each kind of fault is planted, and found."""
from __future__ import annotations

import shutil
from pathlib import Path

from ..support.case import Case
from ..support.documents.documents import AT_TOP, LINK, PROSE, README_BYTES, ROW, document_faults
from ..support.program import ROOT


class Documents(Case):
    def copy(self) -> Path:
        """A copy of the documents, and of what they link to."""
        root = self.folder()
        shutil.copytree(ROOT / "docs", root / "docs")
        for name in (*AT_TOP, "page/dukpt.html", "vectors/README.md", "examples", "crates.txt"):
            (root / name).parent.mkdir(exist_ok=True)
            copy = shutil.copytree if (ROOT / name).is_dir() else shutil.copy
            copy(ROOT / name, root / name)
        for name in ("crates", "share"):
            (root / name).symlink_to(ROOT / name)
        return root

    def append(self, root: Path, name: str, text: str) -> str:
        """The name of a document and the number of the line that is appended to it."""
        document = root / name
        lines = document.read_text(encoding="utf-8").splitlines()
        document.write_text("\n".join([*lines, "", text, ""]), encoding="utf-8")
        return f"{name}, line {len(lines) + 2}"

    def change(self, root: Path, name: str, old: str, new: str) -> None:
        document = root / name
        text = document.read_text(encoding="utf-8")
        self.assertIn(old, text)
        document.write_text(text.replace(old, new, 1), encoding="utf-8")

    def test_no_faults(self) -> None:
        self.assertEqual(document_faults(ROOT), [])
        texts = [it.read_text(encoding="utf-8") for it in ROOT.glob("docs/*.md")]
        self.tells(f"{len(texts)} pages, {sum(len(LINK.findall(it)) for it in texts)} links")

    def test_planted_lines(self) -> None:
        """A row and a line of prose of one character too many, and links that lead nowhere. What is
        code or a picture, or has the right length, is no fault."""
        root = self.copy()
        page = f"docs/{self.chance.choice(['SECURITY', 'OPERATION', 'PROVED'])}.md"
        self.append(root, page, f"| {'x' * (ROW - 4)} |")
        self.append(root, page, "y" * PROSE)
        self.append(root, page, f"    {'z' * PROSE} [no](link.md)\n\n![{'a' * PROSE}](page.png)")
        wanted = [
            f"{self.append(root, page, f'| {chr(120) * (ROW - 3)} |')}: a row of {ROW + 1} characters",
            f"{self.append(root, page, 'y' * (PROSE + 1))}: {PROSE + 1} characters of prose",
            f"{self.append(root, page, 'See [it](NONE.md).')}: a link to NONE.md, which is not there",
            f"{self.append(root, page, 'See [it](FORMATS.md#none).')}: a link to FORMATS.md#none, "
            "which has no such heading",
            f"{self.append(root, page, 'See [it](#none).')}: a link to #none, which has no such heading"]
        self.assertEqual(document_faults(root), wanted)

    def test_planted_openings(self) -> None:
        root = self.copy()
        self.change(root, "docs/FORMATS.md", "\n\nFor ", "\n\nTo ")
        self.change(root, "docs/LIBRARY.md", "For ", "It is in C.\n\nFor ")
        self.change(root, "docs/COMMANDS.md", "\n\nFor ", "\nFor ")
        self.change(root, "docs/SECURITY.md", ".\n\n## ", ". It is so.\n\n## ")
        self.assertEqual(document_faults(root), [
            "docs/COMMANDS.md: it does not begin with its title alone",
            "docs/FORMATS.md: no line below the title says for whom it is",
            "docs/LIBRARY.md: no line below the title says for whom it is",
            "docs/SECURITY.md: its answer has 4 sentences"])

    def test_planted_size(self) -> None:
        root = self.copy()
        readme = root / "README.md"
        size = readme.stat().st_size
        readme.write_bytes(readme.read_bytes() + b"\n" * (README_BYTES - size))
        self.assertEqual(document_faults(root), [])
        readme.write_bytes(readme.read_bytes() + b"\n")
        self.assertEqual(document_faults(root), [f"README.md has {README_BYTES + 1} bytes"])
