"""What a package says of itself, and its file of control data."""
from __future__ import annotations

from dataclasses import dataclass, field
from typing import Mapping, Sequence

from .archive import installed_size, plain
from .items import Item


@dataclass(frozen=True)
class Package:
    """A package: its fields, its files, and its scripts and further files for dpkg."""

    name: str
    architecture: str
    section: str
    # The first line of the description, and its paragraphs.
    summary: str
    description: str
    items: Sequence[Item]
    control: Sequence[Item] = ()
    depends: Sequence[str] = ()
    # Further fields, as Suggests and Multi-Arch.
    fields: dict[str, str] = field(default_factory=dict)
    # Whether what is compiled in it is proved, and the inputs that it is made of, by their names.
    proof: str = "none"
    made_of: Mapping[str, bytes] = field(default_factory=dict)

    def file_name(self, version: str) -> str:
        return f"{self.name}_{version}_{self.architecture}.deb"


def control_file(package: Package, version: str, maintainer: str) -> Item:
    """The fields, in the order of Debian's own packages."""
    fields = {
        "Package": package.name,
        "Version": version,
        "Architecture": package.architecture,
        "Maintainer": maintainer,
        "Installed-Size": str(installed_size(package.items)),
        "Depends": ", ".join(package.depends),
        **package.fields,
        "Section": package.section,
        "Priority": "optional",
        "Description": package.summary,
    }
    lines = [f"{name}: {value}\n" for name, value in fields.items() if value]
    lines += [f" {line or '.'}\n" for line in package.description.strip().splitlines()]
    return plain("control", "".join(lines))
