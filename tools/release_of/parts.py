"""The list of parts (SPDX 2.3): the files of a release, what is linked into them, and the licences of
both."""
from __future__ import annotations

import hashlib
import re
import uuid
from dataclasses import dataclass
from datetime import datetime
from pathlib import Path
from typing import Iterable, Mapping, Union

from package_of.items import read
from package_of.sources import Sources

from .kit_parts import NOT_KNOWN, KitPart

Json = Union[str, bool, int, list["Json"], dict[str, "Json"]]

PLACE = "https://project.invalid/dukpt"
LICENCE = "LicenseRef-dukpt"
WHOLE, KIT = "SPDXRef-dukpt", "SPDXRef-kit"
COPYRIGHT = re.compile(r"^Copyright: (.*)$", re.M)
GRANTED = re.compile(r"^License: none\n((?: .*\n?)+)", re.M)


@dataclass(frozen=True)
class Component:
    """What is linked of crates: its name, what it is, and the libraries of the kit in it."""

    name: str
    about: str
    linked: tuple[KitPart, ...]

    @property
    def id(self) -> str:
        return f"SPDXRef-{self.name}"


def parts(sources: Sources, files: Iterable[Path], components: Iterable[Component],
          date: datetime) -> dict[str, Json]:
    """The list, of the files of a release and of the components in them."""
    of_owner = owner(sources)
    held, made_of = list(files), list(components)
    listed: list[Json] = [file_part(it, of_owner) for it in held]
    sums = "".join(hashlib.sha256(read(it)).hexdigest() for it in held)
    return {
        "spdxVersion": "SPDX-2.3",
        "dataLicense": "CC0-1.0",
        "SPDXID": "SPDXRef-DOCUMENT",
        "name": f"dukpt-{sources.packed}",
        "documentNamespace": f"{PLACE}/spdx/dukpt-{sources.packed}-{uuid.uuid5(uuid.NAMESPACE_URL, sums)}",
        "creationInfo": {"created": date.strftime("%Y-%m-%dT%H:%M:%SZ"),
                         "creators": ["Tool: tools/release"]},
        "packages": [whole(sources, of_owner), *(component_part(it, sources, of_owner)
                                                 for it in made_of),
                     kit_itself(sources), *kit_list(made_of)],
        "files": listed,
        "hasExtractedLicensingInfos": [{
            "licenseId": LICENCE, "name": "Terms of dukpt", "extractedText": of_owner["terms"]}],
        "relationships": [*relations(held, made_of)],
    }


def owner(sources: Sources) -> Mapping[str, str]:
    """What share/debian/copyright says."""
    text = sources.share("debian", "copyright").decode()
    held, granted = COPYRIGHT.search(text), GRANTED.search(text)
    terms = " ".join(granted[1].split()) if granted else NOT_KNOWN
    return {"copyright": f"Copyright {held[1]}" if held else NOT_KNOWN, "terms": terms}


def file_part(path: Path, of_owner: Mapping[str, str]) -> dict[str, Json]:
    data = read(path)
    return {
        "SPDXID": file_id(path),
        "fileName": f"./{path.name}",
        "checksums": [{"algorithm": "SHA1", "checksumValue": hashlib.sha1(
            data, usedforsecurity=False).hexdigest()},
            {"algorithm": "SHA256", "checksumValue": hashlib.sha256(data).hexdigest()}],
        "licenseConcluded": LICENCE,
        "copyrightText": of_owner["copyright"],
    }


def file_id(path: Path) -> str:
    return "SPDXRef-file-" + re.sub(r"[^A-Za-z0-9.-]", "-", path.name)


def package_part(id_: str, name: str, version: str, licence: str, copyright_: str,
                 **more: Json) -> dict[str, Json]:
    return {
        "SPDXID": id_, "name": name, "versionInfo": version, "supplier": NOT_KNOWN,
        "downloadLocation": NOT_KNOWN, "filesAnalyzed": False, "licenseConcluded": licence,
        "licenseDeclared": licence, "copyrightText": copyright_, **more}


def whole(sources: Sources, of_owner: Mapping[str, str]) -> dict[str, Json]:
    return package_part(WHOLE, "dukpt", sources.packed, LICENCE, of_owner["copyright"],
                        sourceInfo=f"commit {sources.revision.commit}, {sources.revision.tree}")


def component_part(it: Component, sources: Sources, of_owner: Mapping[str, str]) -> dict[str, Json]:
    return package_part(it.id, it.name, sources.packed, LICENCE, of_owner["copyright"],
                        summary=it.about)


def kit_itself(sources: Sources) -> dict[str, Json]:
    """The kit, which proves and compiles."""
    name, _, logic = sources.proofs.kit.partition(" logic ")
    return package_part(KIT, "Rattle kit", name, NOT_KNOWN, NOT_KNOWN,
                        comment=f"its logic has the sum {logic}")


def kit_list(components: Iterable[Component]) -> list[Json]:
    """The libraries of the kit, each once, with the terms that go with a copy."""
    found = {it.name: it for component in components for it in component.linked}
    return [kit_part(found[name]) for name in sorted(found)]


def kit_part(it: KitPart) -> dict[str, Json]:
    told: dict[str, Json] = {}
    if it.port_of:
        told["sourceInfo"] = f"a port of the Rust crate {it.port_of}"
    if it.notice:
        told["attributionTexts"] = [it.notice]
    return package_part(kit_id(it), it.name, NOT_KNOWN, it.licence, NOT_KNOWN, **told)


def kit_id(it: KitPart) -> str:
    return "SPDXRef-kit-" + it.name.replace("_", "-")


def relations(files: Iterable[Path], components: Iterable[Component]) -> Iterable[Json]:
    yield relation("SPDXRef-DOCUMENT", "DESCRIBES", WHOLE)
    for path in files:
        yield relation(WHOLE, "CONTAINS", file_id(path))
    for it in components:
        yield relation(WHOLE, "CONTAINS", it.id)
        yield relation(KIT, "BUILD_TOOL_OF", it.id)
        for part in it.linked:
            yield relation(it.id, "STATIC_LINK", kit_id(part))


def relation(one: str, kind: str, other: str) -> dict[str, Json]:
    return {"spdxElementId": one, "relationshipType": kind, "relatedSpdxElement": other}
