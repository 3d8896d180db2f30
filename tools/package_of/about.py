"""The file BUILD of a package: its revision, its kit, its proof, and the sums of what it was made of."""
from __future__ import annotations

import hashlib
from typing import Mapping

from library_of.record import NAME, written

from .items import Item
from .sources import Sources

NONE = "none"


def build_file(package: str, proof: str, made_of: Mapping[str, bytes], sources: Sources) -> Item:
    """The file, of inputs by their names."""
    return Item(f"usr/share/doc/{package}/{NAME}", record_of(
        package, proof, {**of_archive(package, sources), **sums(made_of)}, sources))


def record_of(name: str, proof: str, made_of: Mapping[str, str], sources: Sources) -> bytes:
    """What is told of something that is packed, with the sums of what it was made of."""
    return written({
        "Package": name,
        "Version": sources.packed,
        "Revision": sources.revision.commit,
        "Tree": sources.revision.tree,
        "Kit": sources.proofs.kit,
        "Proof": proof,
        "Made-Of": made_of,
    }).encode()


def sums(made_of: Mapping[str, bytes]) -> dict[str, str]:
    return {name: hashlib.sha256(data).hexdigest() for name, data in made_of.items()}


def of_archive(package: str, sources: Sources) -> dict[str, str]:
    """What the library itself was made of, where the package has it."""
    return sources.record.made_of if package.startswith("libdukpt") else {}


def proof_line(is_proved: bool, sources: Sources) -> str:
    """The proof of what is compiled in a package."""
    return f"proved, logic {sources.proofs.logic}" if is_proved else NONE
