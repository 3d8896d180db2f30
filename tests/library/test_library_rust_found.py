"""How the Rust crate finds the library: what its build script says, and what cargo links then."""
from __future__ import annotations

import os
import shutil
import subprocess
from pathlib import Path
from typing import Optional

from ..support.case import Case
from ..support.library.library import built_library, demand
from ..support.library.rust_library import CRATE, VARIABLE, cargo, copied_crate

ARCHIVE, SHARED, LINK = "libdukpt.a", "libdukpt.so.0", "libdukpt.so"
BUILT = (ARCHIVE, SHARED, LINK, "dukpt.pc")
FIRST_KEY = "042666B49184CFA368DE9628D0397BC9\n"
WAYS = ("libdukpt is not found: install libdukpt-dev, or build it by tools/library of the"
        " repository, or set DUKPT_LIBRARY_DIR to the folder that has libdukpt.a or libdukpt.so\n")
# What an empty PATH of pkg-config hides of the machine that runs this.
CLEARED = ("PKG_CONFIG", "PKG_CONFIG_PATH", "PKG_CONFIG_SYSROOT_DIR", VARIABLE, "DUKPT_STATIC",
           "CARGO_FEATURE_STATIC")


class FoundCase(Case):
    """A repository whose library is not built, and a system in which it may be installed."""

    def setUp(self) -> None:
        super().setUp()
        demand("rustc", "gcc", "pkg-config")
        self.home = self.folder()
        self.system = self.home / "system"
        self.crate = copied_crate(self.home / "repository")
        (self.home / "repository" / "crates.txt").touch()

    def put(self, folder: Path, *names: str) -> Path:
        """Puts some of the library's files into a folder."""
        folder.mkdir(parents=True, exist_ok=True)
        for name in names:
            shutil.copy2(built_library() / name, folder / name, follow_symlinks=False)
        return folder

    def install(self, *names: str, version: str = "0.1.0") -> Path:
        """Has some of the library's files as the system's, with a description of them."""
        folder = self.put(self.system, *names)
        (folder / "dukpt.pc").write_text(
            f"libdir={folder}\nName: dukpt\nDescription: dukpt\nVersion: {version}\n"
            "Libs: -L${libdir} -ldukpt\n")
        return folder

    def variables(self, **given: str) -> dict[str, str]:
        known = {name: value for name, value in os.environ.items() if name not in CLEARED}
        self.system.mkdir(exist_ok=True)
        return {**known, "PKG_CONFIG_LIBDIR": str(self.system), **given}


class TestScript(FoundCase):
    """The build script alone."""

    def setUp(self) -> None:
        super().setUp()
        self.script = self.home / "script"
        subprocess.run(["rustc", "--edition", "2021", "-D", "warnings", "-o", self.script,
                        CRATE / "build.rs"], check=True)

    def said(self, **given: str) -> tuple[int, str, str]:
        done = subprocess.run(
            [self.script], capture_output=True, text=True, check=False,
            env=self.variables(CARGO_MANIFEST_DIR=str(self.crate), CARGO_PKG_VERSION="0.1.7",
                               **given))
        return done.returncode, done.stdout, done.stderr

    def assert_links(self, folder: Path, kind: str, **given: str) -> None:
        status, output, faults = self.said(**given)
        self.assertEqual((status, faults), (0, ""), given)
        lines = [it for it in output.splitlines() if "rerun-if-env" not in it]
        file = folder / (ARCHIVE if kind == "static" else LINK)
        self.assertEqual(lines, [f"cargo:rustc-link-search=native={folder}",
                                 f"cargo:rustc-link-lib={kind}=dukpt",
                                 f"cargo:rerun-if-changed={file}"], given)

    def assert_refused(self, line: str, **given: str) -> None:
        status, output, faults = self.said(**given)
        self.assertNotIn("rustc-link", output)
        self.assertEqual(status, 1)
        self.assertEqual(faults[:len(line)], line)
        self.assertNotIn("panicked", faults)

    def test_order(self) -> None:
        """The folder that is named, then that of the repository, then the system's."""
        system = self.install(ARCHIVE, SHARED, LINK)
        self.assert_links(system, "dylib")
        built = self.put(self.home / "repository" / "out" / "library", *BUILT)
        self.assert_links(self.crate / ".." / ".." / "out" / "library", "static")
        named = self.put(self.home / "named", ARCHIVE)
        self.assert_links(named, "static", DUKPT_LIBRARY_DIR=str(named))
        (built / ARCHIVE).unlink()
        self.assert_links(self.crate / ".." / ".." / "out" / "library", "dylib")
        self.assert_links(system, "static", DUKPT_STATIC="1")

    def test_a_crate_elsewhere(self) -> None:
        """Where the crate is no part of the repository, a folder out/library is not its library."""
        system = self.install(ARCHIVE, SHARED, LINK)
        self.put(self.home / "repository" / "out" / "library", *BUILT)
        (self.home / "repository" / "crates.txt").unlink()
        self.assert_links(system, "dylib")
        (self.home / "repository" / "crates.txt").touch()
        self.crate = self.crate.rename(self.crate.with_name("dukpt"))
        self.assert_links(system, "dylib")

    def test_a_built_library_of_another_version(self) -> None:
        """It is refused, as one that says no version is."""
        self.install(ARCHIVE, SHARED, LINK)
        built = self.put(self.home / "repository" / "out" / "library", *BUILT)
        where = self.crate / ".." / ".." / "out" / "library"
        description = built / "dukpt.pc"
        for version in ("0.2.0", "1.1.0", "0.11.0"):
            description.write_text(f"Name: dukpt\nVersion: {version}\n")
            self.assert_refused(
                f"libdukpt {version} is in {where}, and this crate is of 0.1.7\n")
        description.write_text("Name: dukpt\nVersion: 0.1.9\n")
        self.assert_links(where, "static")
        description.write_text("Name: dukpt\n")
        self.assert_refused(f"{where / 'dukpt.pc'}: no version\n")
        description.unlink()
        self.assert_refused(f"{where / 'dukpt.pc'}: ")

    def test_kinds(self) -> None:
        """What is installed is linked as the shared library; the archive is asked for, or alone."""
        system = self.install(ARCHIVE, SHARED, LINK)
        for given in ({"DUKPT_STATIC": "1"}, {"CARGO_FEATURE_STATIC": "1"},
                      {"DUKPT_STATIC": "1", "CARGO_FEATURE_STATIC": "1"}):
            self.assert_links(system, "static", **given)
        for given in ({"DUKPT_STATIC": "0"}, {"DUKPT_STATIC": ""},
                      {"DUKPT_STATIC": "0", "CARGO_FEATURE_STATIC": "1"}):
            self.assert_links(system, "dylib", **given)
        (system / LINK).unlink()
        self.assert_links(system, "static")
        self.assert_refused(f"dukpt is installed in {system}, where no {LINK} is\n",
                            DUKPT_STATIC="0")
        (system / ARCHIVE).unlink()
        self.assert_refused(f"dukpt is installed in {system}, where no {LINK} is\n")
        self.assert_refused(f"dukpt is installed in {system}, where no {ARCHIVE} is\n",
                            CARGO_FEATURE_STATIC="1")

    def test_named_folder(self) -> None:
        """What is named is taken, or refused: no other place is looked at."""
        self.install(ARCHIVE, SHARED, LINK)
        named = self.put(self.home / "named")
        self.assert_refused(f"{VARIABLE} is {named}, where no {ARCHIVE} and no {LINK} is\n",
                            DUKPT_LIBRARY_DIR=str(named))
        self.put(named, SHARED, LINK)
        self.assert_links(named, "dylib", DUKPT_LIBRARY_DIR=str(named))
        self.assert_refused(f"{VARIABLE} is {named}, where no {ARCHIVE} is\n",
                            DUKPT_LIBRARY_DIR=str(named), DUKPT_STATIC="1")

    def test_nothing_found(self) -> None:
        """What helps is said: where pkg-config knows no library, is missing, or knows another."""
        self.assert_refused(f"{WAYS}Package dukpt was not found")
        self.assert_refused(f"{WAYS}/nowhere/pkg-config does not run: ",
                            PKG_CONFIG="/nowhere/pkg-config")
        self.install(ARCHIVE, SHARED, LINK)
        for version in ("0.2.0", "1.1.0", "0.11.0"):
            self.install(version=version)
            self.assert_refused(
                f"{WAYS}libdukpt {version} is installed, and this crate is of 0.1.7")
        self.assert_links(self.install(version="0.1.9"), "dylib")


def needed(program: Path) -> str:
    """What a program needs when it starts."""
    demand("readelf")
    return subprocess.run(["readelf", "-d", program], capture_output=True, text=True,
                          check=True).stdout


class TestLinked(FoundCase):
    """A program that cargo builds over an installed library."""

    weight = 2

    def build(self, *words: str) -> Path:
        built = self.home / "built"
        done = cargo("build", "--quiet", "--example", "first_key", *words, crate=self.crate,
                     built=built, unset=CLEARED, PKG_CONFIG_LIBDIR=str(self.system))
        self.assertEqual((done.returncode, done.stdout, done.stderr), (0, "", ""))
        return built / "debug" / "examples" / "first_key"

    def run_it(self, made: Path, library: Optional[Path] = None) -> str:
        path = {} if library is None else {"LD_LIBRARY_PATH": str(library)}
        return subprocess.run([made], capture_output=True, text=True, check=True,
                              env={**os.environ, **path}).stdout

    def test_shared(self) -> None:
        system = self.install(ARCHIVE, SHARED, LINK)
        made = self.build()
        self.assertIn(f"[{SHARED}]", needed(made))
        self.assertEqual(self.run_it(made, system), FIRST_KEY)

    def test_archive(self) -> None:
        self.install(ARCHIVE, SHARED, LINK)
        made = self.build("--features", "static")
        self.assertNotIn("libdukpt", needed(made))
        self.assertEqual(self.run_it(made), FIRST_KEY)

    def test_nothing_found(self) -> None:
        """cargo shows what the script says."""
        self.system.mkdir()
        done = cargo("build", "--quiet", crate=self.crate, built=self.home / "built", unset=CLEARED,
                     PKG_CONFIG_LIBDIR=str(self.system))
        self.assertNotEqual(done.returncode, 0)
        self.assertIn(WAYS, done.stderr.replace("\n  ", "\n"))
