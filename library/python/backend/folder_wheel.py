"""Makes wheels, editable ones too, and the source archive of this folder, for pip, with Python's
standard library alone (PEP 517, PEP 660, PEP 427).

libdukpt goes into a wheel, which is one for this system. It is the file that DUKPT_LIBRARY names,
else the one beside the package's modules or in out/library of the repository. Without it no wheel
is made.
"""
from __future__ import annotations

import ast
import base64
import gzip
import hashlib
import io
import os
import re
import sysconfig
import tarfile
import zipfile
from pathlib import Path
from typing import Any, Dict, Iterator, Optional, Tuple

FOLDER = Path(__file__).resolve().parent.parent
LIBRARY = "libdukpt.so.0"
VARIABLE = "DUKPT_LIBRARY"
# The oldest date that a wheel can have: equal files give equal archives.
DATE = (1980, 1, 1, 0, 0, 0)
# A line of pyproject.toml that names a table, and a value that is a text or a list of texts.
PARTS = re.compile(r'^\[([\w.-]+)\]$|^([\w-]+) = ("[^"\n]*"|\[[^\]]*\])$', re.MULTILINE)

Settings = Optional[Dict[str, object]]
File = Tuple[str, bytes]


# What pip calls


def build_wheel(
    wheel_directory: str, config_settings: Settings = None, metadata_directory: Optional[str] = None
) -> str:
    """Writes the wheel into a directory, and gives its name."""
    library = built_library()
    tag = "py3-none-" + sysconfig.get_platform().replace("-", "_").replace(".", "_")
    files = [*modules(), (f"dukpt/{LIBRARY}", library.read_bytes())]
    return write_wheel(Path(wheel_directory), tag, files)


def build_editable(
    wheel_directory: str, config_settings: Settings = None, metadata_directory: Optional[str] = None
) -> str:
    """The same of a wheel that has the path of this folder alone. The library stays where it is."""
    built_library()
    return write_wheel(Path(wheel_directory), "py3-none-any",
                       [("dukpt-editable.pth", f"{FOLDER}\n".encode())])


def build_sdist(sdist_directory: str, config_settings: Settings = None) -> str:
    """Writes the source archive into a directory, and gives its name. It has no library."""
    about = project()
    title = f"{about['name']}-{about['version']}"
    sources = [(it, (FOLDER / it).read_bytes())
               for it in ("README.md", "backend/folder_wheel.py", "pyproject.toml")]
    packed = io.BytesIO()
    with tarfile.open(fileobj=packed, mode="w", format=tarfile.USTAR_FORMAT) as archive:
        for path, content in [("PKG-INFO", metadata(about)), *sources, *modules()]:
            entry = tarfile.TarInfo(f"{title}/{path}")
            entry.size, entry.mode = len(content), 0o644
            archive.addfile(entry, io.BytesIO(content))
    name = f"{title}.tar.gz"
    (Path(sdist_directory) / name).write_bytes(gzip.compress(packed.getvalue(), mtime=0))
    return name


# What they are made of


def built_library() -> Path:
    """The library's file. Without it the build stops."""
    named = os.environ.get(VARIABLE)
    places = [Path(named)] if named else [FOLDER / "dukpt" / LIBRARY, *in_repository()]
    for place in places:
        if place.is_file():
            return place
    raise SystemExit(
        f"dukpt: {LIBRARY} is not built: there is no {' and no '.join(map(str, places))}. In the "
        f"repository tools/library builds it. {VARIABLE} may name its file.")


def in_repository() -> Iterator[Path]:
    """Where tools/library leaves the library, if this folder is library/python of a repository."""
    if FOLDER.parts[-2:] == ("library", "python"):
        yield FOLDER.parent.parent / "out" / "library" / LIBRARY


def project() -> Dict[str, Any]:
    """The table `project` of pyproject.toml. Python reads TOML from 3.11 on; of that the file has
    texts and lists of texts, which Python reads as its own."""
    table, found = "", {}
    for opened, name, value in PARTS.findall((FOLDER / "pyproject.toml").read_text("utf-8")):
        if opened:
            table = opened
        elif table == "project" or table.startswith("project."):
            found[".".join([*table.split(".")[1:], name])] = ast.literal_eval(value)
    return found


def metadata(about: Dict[str, Any]) -> bytes:
    """The package's metadata, with README.md behind its fields."""
    fields = [
        ("Metadata-Version", "2.1"), ("Name", about["name"]), ("Version", about["version"]),
        ("Summary", about["description"]), ("Keywords", ",".join(about["keywords"])),
        ("License", about["license.text"]), *(("Classifier", it) for it in about["classifiers"]),
        ("Requires-Python", about["requires-python"]),
        ("Description-Content-Type", "text/markdown; charset=UTF-8"),
    ]
    text = (FOLDER / about["readme"]).read_text("utf-8")
    return ("".join(f"{name}: {value}\n" for name, value in fields) + f"\n{text}").encode()


def modules() -> Iterator[File]:
    """The files of the package but the library, each with its path."""
    for path in sorted((FOLDER / "dukpt").iterdir()):
        if path.suffix == ".py" or path.name == "py.typed":
            yield f"dukpt/{path.name}", path.read_bytes()


def write_wheel(folder: Path, tag: str, files: list[File]) -> str:
    """Writes a wheel of these files, with what describes it, and gives its name."""
    about = project()
    title = f"{about['name']}-{about['version']}"
    name, information = f"{title}-{tag}.whl", f"{title}.dist-info"
    is_pure = str(tag.endswith("-any")).lower()
    description = (f"Wheel-Version: 1.0\nGenerator: folder_wheel\nRoot-Is-Purelib: {is_pure}\n"
                   f"Tag: {tag}\n")
    described = [*files, (f"{information}/METADATA", metadata(about)),
                 (f"{information}/WHEEL", description.encode())]
    record = f"{information}/RECORD"
    listed = "".join(f"{path},sha256={digest(it)},{len(it)}\n" for path, it in described)
    with zipfile.ZipFile(folder / name, "w", zipfile.ZIP_DEFLATED) as wheel:
        for path, content in [*described, (record, f"{listed}{record},,\n".encode())]:
            entry = zipfile.ZipInfo(path, DATE)
            entry.compress_type, entry.external_attr = zipfile.ZIP_DEFLATED, 0o644 << 16
            wheel.writestr(entry, content)
    return name


def digest(content: bytes) -> str:
    """A file's digest as a record has it."""
    return base64.urlsafe_b64encode(hashlib.sha256(content).digest()).rstrip(b"=").decode()
