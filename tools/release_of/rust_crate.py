"""The Rust crate, as cargo packs it, with its examples in it."""
from __future__ import annotations

import os
import shutil
import subprocess
import tempfile
from pathlib import Path

from package_of.items import Refused, read
from package_of.sources import Sources, lay_out

# Where the examples of all languages stand, from the crate.
EXAMPLES = "../examples"
OPTIONS = ("--offline", "--no-verify", "--allow-dirty", "--quiet")


def crate(sources: Sources) -> tuple[str, bytes]:
    """The name of the file, and its bytes."""
    with tempfile.TemporaryDirectory() as folder:
        staged, target = Path(folder) / "dukpt", Path(folder) / "target"
        lay_out_crate(sources, staged)
        done = packed(staged, target)
        made = sorted((target / "package").glob("*.crate"))
        if done.returncode or len(made) != 1:
            raise Refused(f"the Rust crate: cargo package: {done.stderr.strip()}")
        return made[0].name, read(made[0])


def lay_out_crate(sources: Sources, staged: Path) -> None:
    """Copies the crate, and into it the examples."""
    lay_out(sources, "library/rust", staged)
    (staged / "examples").mkdir(exist_ok=True)
    for path in sources.below("library/examples"):
        if path.suffix == ".rs":
            shutil.copyfile(path, staged / "examples" / path.name)
    manifest = staged / "Cargo.toml"
    text = read(manifest).decode()
    manifest.write_text(text.replace(f'"{EXAMPLES}/', '"examples/'), encoding="utf-8")


def packed(staged: Path, target: Path) -> subprocess.CompletedProcess[str]:
    words = ["cargo", "package", *OPTIONS, "--target-dir", str(target)]
    try:
        return subprocess.run(words, cwd=staged, env={**os.environ, "CARGO_TERM_COLOR": "never"},
                              capture_output=True, text=True, check=False)
    except FileNotFoundError:
        raise Refused("there is no cargo: it is in the Debian package cargo") from None
