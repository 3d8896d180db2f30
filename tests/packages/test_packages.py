"""The Debian packages: what is in them, and that equal inputs give equal bytes."""
from __future__ import annotations

import gzip
import hashlib
import os
import re
import subprocess
import time
from pathlib import Path
from typing import Iterator, Sequence

from ..support.packages.packages import (
    NAMES, UNPROVED, VERSION, Package, PackageCase, copy_of_repository, demand)
from ..support.program import ROOT

LIBRARIES = "usr/lib/x86_64-linux-gnu"
MODULES = "usr/lib/python3/dist-packages"
OF_LIBRARY = ("DEFINITIONS.md", "FORMATS.md", "LIBRARY.md", "calls.txt")
DOCUMENTS = {
    "dukpt": ("COMMANDS.md", "DECISIONS.md", "DEFINITIONS.md", "DEPLOYMENT.md", "FORMATS.md",
              "LIBRARY.md", "OPERATION.md", "PERFORMANCE.md", "PROVED.md", "SECURITY.md",
              "calls.txt"),
    "dukpt-host": (), "libdukpt0": (), "libdukpt-dev": OF_LIBRARY, "python3-dukpt": OF_LIBRARY,
}
# The mode, the path, and the file of the repository whose bytes it has, where it has those of one.
FILES = {
    "dukpt": """
755 usr/bin/dukpt
755 usr/bin/dukpt-copy-log share/deploy/dukpt-copy-log
755 usr/bin/dukpt-serve share/deploy/dukpt-serve
644 usr/lib/systemd/system/dukpt.socket share/deploy/dukpt.socket
644 usr/lib/systemd/system/dukpt@.service share/deploy/dukpt@.service
644 usr/lib/sysusers.d/dukpt.conf share/debian/dukpt.sysusers
644 usr/lib/tmpfiles.d/dukpt.conf share/debian/dukpt.tmpfiles
644 usr/share/bash-completion/completions/dukpt share/completions/dukpt.bash
644 usr/share/fish/vendor_completions.d/dukpt.fish share/completions/dukpt.fish
644 usr/share/zsh/vendor-completions/_dukpt share/completions/_dukpt
644 usr/share/man/man1/dukpt.1.gz share/man/dukpt.1
644 usr/share/man/man1/dukpt-copy-log.1.gz share/man/dukpt-copy-log.1
644 usr/share/man/man1/dukpt-serve.1.gz share/man/dukpt-serve.1
644 usr/share/doc/dukpt/README.md
644 usr/share/doc/dukpt/docs/page.png docs/page.png
644 usr/share/doc/dukpt/page/dukpt.html page/dukpt.html
644 usr/share/doc/dukpt/docs/pictures/hosts.svg docs/pictures/hosts.svg
644 usr/share/doc/dukpt/docs/pictures/journal.svg docs/pictures/journal.svg
644 usr/share/doc/dukpt/docs/pictures/keys.svg docs/pictures/keys.svg
644 usr/share/doc/dukpt/docs/pictures/latency.svg docs/pictures/latency.svg
644 usr/share/doc/dukpt/docs/pictures/lost_reply.svg docs/pictures/lost_reply.svg
644 usr/share/doc/dukpt/docs/pictures/power_failure.svg docs/pictures/power_failure.svg
644 usr/share/doc/dukpt/docs/pictures/reversal.svg docs/pictures/reversal.svg
644 usr/share/doc/dukpt/examples/haproxy.cfg share/deploy/haproxy.cfg
644 usr/share/doc/dukpt/examples/prometheus-rules.yml share/deploy/prometheus-rules.yml
""",
    "dukpt-host": """
755 usr/bin/dukpt-host share/host/dukpt-host
644 usr/lib/systemd/system/dukpt-host.service share/deploy/dukpt-host.service
644 usr/lib/systemd/system/dukpt-host.socket share/deploy/dukpt-host.socket
644 usr/share/man/man1/dukpt-host.1.gz share/man/dukpt-host.1
""",
    "libdukpt0": f"""
644 {LIBRARIES}/libdukpt.so.0
""",
    "libdukpt-dev": f"""
644 usr/include/dukpt.h library/c/dukpt.h
644 {LIBRARIES}/libdukpt.a
777 {LIBRARIES}/libdukpt.so
644 {LIBRARIES}/pkgconfig/dukpt.pc
""",
    "python3-dukpt": f"""
644 {MODULES}/dukpt-{VERSION}.dist-info/METADATA
""",
}
# The scripts of dpkg, and its other files of control.
CONTROL = {
    "dukpt": {"control": 0o644, "md5sums": 0o644, "postinst": 0o755, "prerm": 0o755,
              "postrm": 0o755},
    "dukpt-host": {"control": 0o644, "md5sums": 0o644, "postinst": 0o755, "prerm": 0o755,
                   "postrm": 0o755},
    "libdukpt0": {"control": 0o644, "md5sums": 0o644, "shlibs": 0o644, "symbols": 0o644,
                  "triggers": 0o644},
    "libdukpt-dev": {"control": 0o644, "md5sums": 0o644},
    "python3-dukpt": {"control": 0o644, "md5sums": 0o644, "postinst": 0o755, "prerm": 0o755},
}
FIELD = re.compile(r"\A(?:[A-Z][\w-]*: \S.*|  ?\S.*| \.)\Z")


def of_folder(place: str, folder: str, suffixes: Sequence[str]) -> Iterator[tuple[int, str, str]]:
    """The files of a folder of the repository, which stand at a place of a package."""
    for it in sorted((ROOT / folder).iterdir()):
        if it.suffix in suffixes:
            yield 0o644, f"{place}/{it.name}", f"{folder}/{it.name}"


def wanted_files(package: str) -> Iterator[tuple[int, str, str]]:
    for line in FILES[package].split("\n"):
        if line:
            mode, path, *source = line.split()
            yield int(mode, 8), path, *(source or [""])
    doc = f"usr/share/doc/{package}"
    yield 0o644, f"{doc}/copyright", "share/debian/copyright"
    yield from ((0o644, f"{doc}/{it}", "") for it in ("BUILD", "changelog.gz"))
    # Their links may be written otherwise: test_packages_documents compares their texts.
    yield from ((0o644, f"{doc}/docs/{it}", "") for it in DOCUMENTS[package])
    if package == "dukpt":
        yield from of_folder(f"{doc}/examples", "examples", (".toml", ".script", ".out"))
    elif package == "dukpt-host":
        for it in ("dukpt_host", "dukpt_host/book"):
            yield from of_folder(f"{MODULES}/{it}", f"share/host/{it}", (".py", ".sql"))
    elif package == "libdukpt-dev":
        # Which pages there are, and what is in them, is seen elsewhere.
        calls = re.findall(r"^    (dukpt_\w+);$", (ROOT / "library/c/dukpt.map").read_text(), re.M)
        yield from ((0o644, f"usr/share/man/man3/{it}.3.gz", "") for it in ("dukpt", *calls))
        yield from of_folder(f"{doc}/examples", "library/examples", (".c", ".h"))
    elif package == "python3-dukpt":
        yield from of_folder(f"{MODULES}/dukpt", "library/python/dukpt", (".py",))
        yield 0o644, f"{MODULES}/dukpt/py.typed", "library/python/dukpt/py.typed"
        yield from of_folder(f"{doc}/examples", "library/examples", (".py",))


class Contents(PackageCase):
    weight = 20

    def test_contents(self) -> None:
        """Each file with its mode, owner, date and bytes, and nothing else."""
        # In the years to come: dpkg-deb itself sets a later date back.
        seconds = self.chance.randrange(int(time.time()) + 10**7, 1 << 31)
        packages = self.made(SOURCE_DATE_EPOCH=str(seconds))
        for name, package in packages.items():
            with self.subTest(name):
                self.check_files(name, package)
                self.check_control(name, package)
                self.assertEqual(package.dates(), {seconds})
                for path, (head, data) in package.files.items():
                    if path.endswith(".gz"):
                        self.assertEqual(data[4:8], bytes(4), f"{path} has a date in it")
        self.check_dependencies(packages)
        self.tells(f"{sum(len(it.files) for it in packages.values())} files and folders")

    def check_files(self, name: str, package: Package) -> None:
        wanted = {path: (mode, source) for mode, path, source in wanted_files(name)}
        folders = {str(it) for path in wanted for it in Path(path).parents}
        self.assertEqual(sorted(package.files), sorted({*wanted, *folders}))
        for path, (head, data) in package.files.items():
            mode, source = (0o755, "") if path in folders else wanted[path]
            self.assertEqual((head.mode, head.uid, head.gid), (mode, 0, 0), path)
            self.assertEqual(head.isdir(), path in folders, path)
            if source:
                held = gzip.decompress(data) if path.endswith(".gz") else data
                self.assertEqual(held, (ROOT / source).read_bytes(), path)
        if name == "libdukpt-dev":
            self.assertEqual(package.files[f"{LIBRARIES}/libdukpt.so"][0].linkname, "libdukpt.so.0")

    def check_control(self, name: str, package: Package) -> None:
        modes = {path: head.mode for path, (head, _) in package.control.items() if head.isfile()}
        self.assertEqual(modes, CONTROL[name])
        fields = package.fields()
        self.assertEqual((fields["Package"], fields["Version"], fields["Architecture"]),
                         (name, VERSION, NAMES[name]))
        for line in package.control["control"][1].decode().splitlines():
            self.assertRegex(line, FIELD)
        files = {path: data for path, (head, data) in package.files.items() if head.isfile()}
        sums = "".join(f"{hashlib.md5(files[path], usedforsecurity=False).hexdigest()}  {path}\n"
                       for path in sorted(files))
        self.assertEqual(package.control["md5sums"][1].decode(), sums)
        # Policy: a file takes whole KiB, and all else one.
        size = sum(-(-len(files[it]) // 1024) if it in files else 1 for it in package.files)
        self.assertEqual(fields["Installed-Size"], str(size))

    def check_dependencies(self, packages: dict[str, Package]) -> None:
        """The packages that Debian's own tool finds for the compiled files, and a C library that is
        no older than it says."""
        demand(dpkg_shlibdeps="dpkg-dev")
        for name, path in (("dukpt", "usr/bin/dukpt"), ("libdukpt0", f"{LIBRARIES}/libdukpt.so.0")):
            folder = self.folder()
            (folder / "debian").mkdir()
            (folder / "debian/control").write_text("Source: it\n\nPackage: it\nArchitecture: any\n")
            (folder / "it").write_bytes(packages[name].content(path))
            done = subprocess.run(["dpkg-shlibdeps", "-O", "it"], cwd=folder, capture_output=True,
                                  text=True, check=True)
            wanted = versions_of(done.stdout.partition("=")[2])
            found = versions_of(packages[name].fields().get("Depends", ""))
            self.assertLessEqual(wanted.keys(), found.keys(), name)
            if "libc6" in wanted:
                words = ("dpkg", "--compare-versions", found["libc6"], "ge", wanted["libc6"])
                self.assertEqual(subprocess.run(words, check=False).returncode, 0, words)
        self.check_library_of_python(packages["python3-dukpt"].fields()["Depends"])

    def check_library_of_python(self, field: str) -> None:
        """The Python package goes with each library of its minor version, and with no other."""
        wanted = re.findall(r"libdukpt0 \((\S+) (\S+)\)", field)
        self.assertEqual(len(wanted), 2, field)
        for version, fits in (("0.1.0", True), ("0.1.1", True), ("0.1.9+unproved", True),
                              ("0.0.9", False), ("0.2.0", False), ("1.1.0", False)):
            compared = (("dpkg", "--compare-versions", version, *it) for it in wanted)
            ended = [subprocess.run(it, check=False).returncode == 0 for it in compared]
            self.assertEqual(all(ended), fits, version)

    def test_lintian(self) -> None:
        """Debian's own checker finds neither an error nor a warning, and passes over none."""
        demand(lintian="lintian")
        paths = [it.path for it in self.made().values()]
        done = subprocess.run(["lintian", "--allow-root", "--no-cfg", "--profile", "debian",
                               "--no-override", "--fail-on", "error,warning", *paths],
                              capture_output=True, text=True, timeout=900, check=False)
        self.assertEqual((done.returncode, done.stdout), (0, ""), done)

    def test_copyright(self) -> None:
        """It says of the licence what README.md says."""
        says = "No licence is granted until the owner chooses one."
        for path in ("README.md", "share/debian/copyright"):
            self.assertIn(says, (ROOT / path).read_text(), path)


class Bytes(PackageCase):
    weight = 5

    def test_two_runs(self) -> None:
        """Equal inputs give equal bytes, whatever their dates and modes, the folder, the time zone
        and the mask of new files are."""
        root, copy, small = self.folder(), self.folder(), self.small_program()
        copy_of_repository(root)
        copy_of_repository(copy)
        for it in copy.rglob("*"):
            os.utime(it, (self.chance.randrange(1 << 31),) * 2)
            it.chmod(0o700 if it.is_dir() else 0o600)
        seconds = str(self.chance.randrange(1 << 30, 1 << 31))
        ones = self.made(root, small, SOURCE_DATE_EPOCH=seconds)
        before = os.umask(0o077)
        try:
            others = self.made(copy, small, SOURCE_DATE_EPOCH=seconds, TZ="Asia/Tokyo",
                               LC_ALL="C")
        finally:
            os.umask(before)
        for name, one in ones.items():
            self.assertEqual(one.path.read_bytes(), others[name].path.read_bytes(), name)

    def test_default_date(self) -> None:
        """Without SOURCE_DATE_EPOCH it is the newest date of CHANGELOG.md, or in a repository the
        date of the last commit."""
        copy, small = self.folder(), self.small_program()
        copy_of_repository(copy)
        (copy / "CHANGELOG.md").write_text(
            f"# Changes\n\nAll are {VERSION}.\n\n## 2 March 2024\n\n- Later.\n\n## 1 May 2023\n")
        made = self.made(copy, small, SOURCE_DATE_EPOCH=None)["dukpt"]
        # 2 March 2024, 00:00 UTC.
        self.assertEqual(made.dates(), {1709337600})
        if not (ROOT / ".git").exists():
            return
        done = subprocess.run(["git", "-c", "safe.directory=*", "-C", ROOT, "log", "-1",
                               "--format=%ct"], capture_output=True, text=True, check=True)
        made = self.made(ROOT, small, SOURCE_DATE_EPOCH=None)["dukpt"]
        self.assertEqual(made.dates(), {int(done.stdout)})

    def test_changelog(self) -> None:
        """It has the headings and points of CHANGELOG.md, in the form of Debian's."""
        demand(dpkg_parsechangelog="dpkg-dev")
        made = self.made(program=self.small_program())
        for name, package in made.items():
            text = gzip.decompress(package.content(f"usr/share/doc/{name}/changelog.gz"))
            done = subprocess.run(["dpkg-parsechangelog", "-l-"], input=text, capture_output=True,
                                  check=True)
            self.assertEqual(done.stderr, b"")
            fields = dict(re.findall(r"^(\w+): (.*)$", done.stdout.decode(), re.M))
            self.assertEqual((fields["Source"], fields["Version"]), (name, UNPROVED))
            points = re.findall(r"^(?:- |## )(.*)$", (ROOT / "CHANGELOG.md").read_text(), re.M)
            self.assertEqual(re.sub(r"\s+", " ", changes_of(text.decode())), " ".join(points))


def versions_of(field: str) -> dict[str, str]:
    """The packages of a field of dependencies, with the oldest version of each."""
    return dict(re.findall(r"([\w:.+-]+)(?: \([>=]+ ([^)]+)\))?", field))


def changes_of(text: str) -> str:
    """The headings and points of a changelog of Debian's form."""
    lines = text.split("\n -- ")[0].splitlines()[2:]
    return re.sub(r"^  (?:\* |\[ (.*) \]$|  )", r"\1", "\n".join(lines), flags=re.M).strip()
