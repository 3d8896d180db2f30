"""The packages, each with its files: what a user of Debian expects, where Debian has it."""
from __future__ import annotations

import re
import tomllib
from typing import Iterator, Sequence

from .about import proof_line
from .archive import plain
from .binaries import ARCHITECTURE, PROGRAM, SHARED, STATIC, TRIPLET, needed, stripped
from .built import MADE_BY_LIBRARY
from .control import Package
from .documents import OF_LIBRARY, OF_PROGRAM, PAGE, SHOWN, compressed, documents
from .items import EXECUTABLE, Item, Refused, read
from .manual import library_pages
from .sources import Sources, scripts
from .symbols import symbols

LIBRARIES = f"usr/lib/{TRIPLET}"
MODULES = "usr/lib/python3/dist-packages"
SHARED_NAME = "libdukpt.so.0"


def packages(sources: Sources) -> list[Package]:
    return [program(sources), host(sources), runtime(sources), development(sources), python(sources)]


# The program


def program(sources: Sources) -> Package:
    return Package(
        "dukpt", ARCHITECTURE, "utils",
        "payment host, HSM and PIN terminals keyed by TDES DUKPT",
        """\
A set of tools to compare other implementations of ANSI X9.24-1:2009 annex A
with: keys, PIN blocks, key blocks, a simulator of terminals, network and
host, and a service that answers request frames and accepts each key serial
number at most once.

Use test keys alone: it is no certified payment host and no certified HSM.""",
        [*program_files(sources), *service_files(sources), *examples(sources),
         *documents(sources, "dukpt", OF_PROGRAM, SHOWN)],
        scripts(sources, "dukpt"),
        [*needed(sources.program), "python3:any (>= 3.9)",
         "systemd | systemd-standalone-sysusers | systemd-sysusers",
         "systemd | systemd-standalone-tmpfiles | systemd-tmpfiles"],
        {"Suggests": "haproxy, socat"},
        proof_line(sources.proofs.is_program_proved, sources),
        {"dukpt": read(sources.program), PAGE: sources.read(PAGE)})


def program_files(sources: Sources) -> Iterator[Item]:
    yield Item("usr/bin/dukpt", stripped(sources.program, PROGRAM), EXECUTABLE)
    completions = (("dukpt.bash", "bash-completion/completions/dukpt"),
                   ("_dukpt", "zsh/vendor-completions/_dukpt"),
                   ("dukpt.fish", "fish/vendor_completions.d/dukpt.fish"))
    for name, place in completions:
        yield Item(f"usr/share/{place}", sources.share("completions", name))


def service_files(sources: Sources) -> Iterator[Item]:
    for name in ("dukpt-serve", "dukpt-copy-log"):
        yield Item(f"usr/bin/{name}", sources.share("deploy", name), EXECUTABLE)
    for name in ("dukpt", "dukpt-serve", "dukpt-copy-log"):
        yield Item(f"usr/share/man/man1/{name}.1.gz",
                   compressed(sources.share("man", f"{name}.1")))
    for name in ("dukpt.socket", "dukpt@.service"):
        yield Item(f"usr/lib/systemd/system/{name}", sources.share("deploy", name))
    for kind in ("sysusers", "tmpfiles"):
        yield Item(f"usr/lib/{kind}.d/dukpt.conf", sources.share("debian", f"dukpt.{kind}"))


def examples(sources: Sources) -> Iterator[Item]:
    folder = "usr/share/doc/dukpt/examples"
    for name in ("haproxy.cfg", "prometheus-rules.yml"):
        yield Item(f"{folder}/{name}", sources.share("deploy", name))
    for path in sources.below("examples"):
        yield Item(f"{folder}/{path.name}", read(path))


# The host for many connections


def host(sources: Sources) -> Package:
    # By their places below share/host, which they keep.
    modules = {str(it.relative_to(sources.root / "share/host")): read(it)
               for it in sources.below("share/host/dukpt_host") if it.suffix in (".py", ".sql")}
    return Package(
        "dukpt-host", "all", "net",
        "payment host keyed by TDES DUKPT: any number of connections",
        """\
Answers payments and reversals over any number of connections at once, also
behind TLS, and has metrics and health. Over a journal it does so by the
service of the package dukpt: it starts that, and starts it again where it
ended and nothing was lost. Over PostgreSQL any number of hosts share one book.

Use test keys alone: it is no certified payment host and no certified HSM.""",
        [Item("usr/bin/dukpt-host", read(sources.root / "share/host/dukpt-host"), EXECUTABLE),
         *(Item(f"{MODULES}/{name}", data) for name, data in modules.items()),
         *(Item(f"usr/lib/systemd/system/dukpt-host.{it}",
                sources.share("deploy", f"dukpt-host.{it}")) for it in ("service", "socket")),
         Item("usr/share/man/man1/dukpt-host.1.gz",
              compressed(sources.share("man", "dukpt-host.1")))],
        scripts(sources, "dukpt-host"),
        [f"dukpt (>= {sources.version})", "python3:any (>= 3.11)", "python3-asyncpg",
         f"python3-dukpt (>= {sources.version})", "python3-prometheus-client", "python3-systemd",
         "python3-uvloop"],
        proof="none of its modules; of the program that they start: "
        + proof_line(sources.proofs.is_program_proved, sources),
        made_of={f"share/host/{name}": data for name, data in modules.items()})


# The library


def runtime(sources: Sources) -> Package:
    path = sources.library / SHARED_NAME
    return Package(
        "libdukpt0", ARCHITECTURE, "libs",
        "proved library of TDES DUKPT",
        """\
Keys, registers, ciphers, MACs, PIN blocks, key blocks and frames of TDES
DUKPT (ANSI X9.24-1:2009 annex A). Each call is proved against its contract.

This package has the shared library.""",
        [Item(f"{LIBRARIES}/{SHARED_NAME}", stripped(path, SHARED))],
        [plain("shlibs", f"libdukpt 0 libdukpt0 (>= {sources.version})\n"),
         symbols(sources, path), plain("triggers", "activate-noawait ldconfig\n")],
        needed(path), {"Multi-Arch": "same"},
        proof_line(sources.proofs.is_library_proved, sources), inputs(sources, SHARED_NAME))


def development(sources: Sources) -> Package:
    archive = stripped(sources.library / "libdukpt.a", STATIC)
    return Package(
        "libdukpt-dev", ARCHITECTURE, "libdevel",
        "proved library of TDES DUKPT: files to compile with",
        """\
Keys, registers, ciphers, MACs, PIN blocks, key blocks and frames of TDES
DUKPT (ANSI X9.24-1:2009 annex A). Each call is proved against its contract.

This package has the header, the static library, and what pkg-config reads.""",
        [Item("usr/include/dukpt.h", read(sources.library / "dukpt.h", MADE_BY_LIBRARY)),
         Item(f"{LIBRARIES}/libdukpt.a", archive),
         Item(f"{LIBRARIES}/libdukpt.so", target=SHARED_NAME),
         Item(f"{LIBRARIES}/pkgconfig/dukpt.pc", module_file(sources)),
         *manual(sources), *documents(sources, "libdukpt-dev", OF_LIBRARY),
         *library_examples(sources, "libdukpt-dev", (".c", ".h"))],
        depends=[f"libdukpt0 (= {sources.packed})"],
        fields={"Suggests": "pkg-config", "Multi-Arch": "same"},
        proof=proof_line(sources.proofs.is_library_proved, sources),
        made_of=inputs(sources, "libdukpt.a", "dukpt.h", "dukpt.pc"))


def inputs(sources: Sources, *names: str) -> dict[str, bytes]:
    """Files of the library's folder, by their names."""
    return {name: read(sources.library / name, MADE_BY_LIBRARY) for name in names}


def manual(sources: Sources) -> Iterator[Item]:
    """The manual pages of the calls."""
    for name, data in library_pages(sources.root).items():
        yield Item(f"usr/share/man/man3/{name}.gz", compressed(data))


def module_file(sources: Sources) -> bytes:
    """What pkg-config reads, with the folders of Debian."""
    path = sources.library / "dukpt.pc"
    text = read(path, MADE_BY_LIBRARY).decode()
    for name, value in (("prefix", "/usr"), ("libdir", f"${{prefix}}/lib/{TRIPLET}"),
                        ("includedir", "${prefix}/include")):
        text, count = re.subn(rf"^{name}=.*$", f"{name}={value}", text, flags=re.M)
        if count != 1:
            raise Refused(f"{path}: it has {count} lines {name}=, and not one")
    return text.encode()


def library_examples(sources: Sources, package: str, suffixes: Sequence[str]) -> Iterator[Item]:
    """The whole examples of one language."""
    for path in sources.below("library/examples"):
        if path.suffix in suffixes:
            yield Item(f"usr/share/doc/{package}/examples/{path.name}", read(path))


def python(sources: Sources) -> Package:
    project = tomllib.loads(sources.read("library/python/pyproject.toml").decode())["project"]
    about = (f"Metadata-Version: 2.1\nName: dukpt\nVersion: {sources.version}\n"
             f"Summary: {project['description']}\nRequires-Python: {project['requires-python']}\n")
    oldest = project["requires-python"].removeprefix(">=")
    modules = [it for it in sources.below("library/python/dukpt")
               if it.suffix == ".py" or it.name == "py.typed"]
    return Package(
        "python3-dukpt", "all", "python",
        "proved library of TDES DUKPT: Python package",
        """\
Keys, registers, ciphers, MACs, PIN blocks, key blocks and frames of TDES
DUKPT (ANSI X9.24-1:2009 annex A). Each call is proved against its contract.

This package has the Python package dukpt, which calls the shared library.""",
        [*(Item(f"{MODULES}/dukpt/{it.name}", read(it)) for it in modules),
         plain(f"{MODULES}/dukpt-{sources.version}.dist-info/METADATA", about),
         *documents(sources, "python3-dukpt", OF_LIBRARY),
         *library_examples(sources, "python3-dukpt", (".py",))],
        scripts(sources, "python3-dukpt"),
        [*same_minor(sources.version), f"python3:any (>= {oldest})"],
        proof="none of its modules; of the library that they call: "
        + proof_line(sources.proofs.is_library_proved, sources),
        made_of={**{f"library/python/dukpt/{it.name}": read(it) for it in modules},
                 **inputs(sources, SHARED_NAME)})


def same_minor(version: str) -> tuple[str, str]:
    """The versions of the library that the modules call: those with their major and minor version."""
    major, minor, _ = version.split(".")
    return f"libdukpt0 (>= {major}.{minor})", f"libdukpt0 (<< {major}.{int(minor) + 1}~)"
