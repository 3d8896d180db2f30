"""A release: its files, which two runs make with the same bytes; their sums; what the list of parts
and the statement of provenance say; and when there is none."""
from __future__ import annotations

import hashlib
import io
import os
import re
import shlex
import shutil
import subprocess
import tarfile
import time
from pathlib import Path
from typing import Any

from ..support.packages.packages import VERSION
from ..support.packages.releases import (
    DAY_SECONDS, UNRELEASED, ReleaseCase, differing, read_json)
from ..support.program import ROOT

# The ports of crates of Rust that README.md names are linked into the program, but for one that an
# example alone uses; and what the kit has the terms of.
PORTS = {"arrayvec", "byteorder", "circular_buffer", "clap", "hex", "indexmap", "itoa", "json",
         "thiserror", "toml"}
LICENCES = {"arrayvec": "MIT OR Apache-2.0", "byteorder": "MIT", "circular_buffer": "BSD-3-Clause",
            "clap": "MIT OR Apache-2.0", "hex": "MIT OR Apache-2.0", "std": "NOASSERTION"}
# Files in the folders that are packed, in folders and with names that git ignores.
IGNORED = ("vectors/out/notes.txt", "vectors/mine.txt", "examples/mine.toml",
           "library/examples/mine.c", "library/examples/mine.py", "library/examples/mine.rs",
           "library/python/dukpt/mine.py", "library/python/out/notes.txt",
           "library/rust/src/mine.rs", "library/rust/out/notes.txt", "share/debian/mine.txt")
ID = re.compile(r"\ASPDXRef-[A-Za-z0-9.-]+\Z")


class Bytes(ReleaseCase):
    weight = 20

    def test_two_runs(self) -> None:
        """In another folder, at another time, under another mask, zone and language."""
        small = self.small_program()
        one = self.made(self.repository(small))
        repository = self.repository(small)
        for it in repository.root.rglob("*"):
            if it.is_file() and ".git" not in it.parts and "out" not in it.parts:
                os.utime(it, (self.chance.randrange(1 << 30),) * 2)
        before = os.umask(0o077)
        try:
            other = self.made(repository, TZ="Asia/Tokyo", LC_ALL="C")
        finally:
            os.umask(before)
        self.assertEqual(differing(one, other), [])

    def test_a_time_stamp(self) -> None:
        """One that gets into a file is found."""
        small = self.small_program()
        repository = self.repository(small)
        path = repository.root / "tools/release_of/tar.py"
        text = path.read_text()
        path.write_text(text.replace("mtime=0", "mtime=__import__('time').time()"))
        self.assertNotEqual(path.read_text(), text)
        one = self.made(repository, "--dirty")
        time.sleep(1.1)
        stamped = {f"dukpt-vectors-{VERSION}.tar.gz", f"libdukpt-{VERSION}-x86_64-linux.tar.gz"}
        self.assertLessEqual(stamped, set(differing(one, self.made(repository, "--dirty"))))

    def test_ignored_files(self) -> None:
        """What git ignores is in no commit, and in no file of a release."""
        repository = self.repository(self.small_program())
        one = self.made(repository)
        for name in IGNORED:
            path = repository.root / name
            path.parent.mkdir(parents=True, exist_ok=True)
            path.write_text("of nobody\n")
        (repository.root / ".git/info/exclude").write_text("mine.*\n")
        self.assertEqual(differing(one, self.made(repository)), [])

    def test_archives(self) -> None:
        """What is in them belongs to root and has the date of the commit."""
        folder = self.made(self.repository(self.small_program()))
        for name in (f"dukpt-vectors-{VERSION}", f"libdukpt-{VERSION}-x86_64-linux"):
            with tarfile.open(fileobj=io.BytesIO((folder / f"{name}.tar.gz").read_bytes())) as held:
                heads = held.getmembers()
            self.assertEqual({(it.uid, it.gid, it.mtime) for it in heads}, {(0, 0, DAY_SECONDS)})
            self.assertEqual({it.name.split("/")[0] for it in heads}, {name})
        self.assertEqual((folder / "dukpt.html").read_bytes(),
                         (ROOT / "page/dukpt.html").read_bytes())


class Papers(ReleaseCase):
    """What a release says of itself."""

    weight = 10

    def setUp(self) -> None:
        super().setUp()
        self.repository_ = self.repository()
        self.release = self.made(self.repository_)
        self.sums = {it.name: sum_of(it) for it in self.release.iterdir()}

    def test_papers(self) -> None:
        self.check_sums()
        self.check_statement(read_json(self.release, "provenance"))
        self.check_parts(read_json(self.release, "spdx"))

    def check_sums(self) -> None:
        text = (self.release / "SHA256SUMS").read_text()
        listed = dict(reversed(line.split("  ")) for line in text.splitlines())
        self.assertEqual(listed, without(self.sums, "SHA256SUMS"))
        done = subprocess.run(["sha256sum", "--check", "--quiet", "--strict", "SHA256SUMS"],
                              cwd=self.release, capture_output=True, check=False)
        self.assertEqual((done.returncode, done.stdout), (0, b""), done)

    def check_statement(self, statement: Any) -> None:
        self.assertEqual((statement["_type"], statement["predicateType"]), (
            "https://in-toto.io/Statement/v1", "https://slsa.dev/provenance/v1"))
        subjects = {it["name"]: it["digest"]["sha256"] for it in statement["subject"]}
        self.assertEqual(subjects, without(self.sums, "SHA256SUMS",
                                           f"dukpt-{VERSION}.provenance.json"))
        definition = statement["predicate"]["buildDefinition"]
        told, found = definition["externalParameters"], definition["internalParameters"]
        self.assertEqual((told["version"], told["revision"], told["tree"]),
                         (VERSION, self.repository_.commit, "clean"))
        for name in ("uncommitted", "environment", "commands"):
            self.assertNotIn(name, told)
        self.assertEqual(told["commandLine"], ["tools/release", UNRELEASED])
        self.assertEqual(found["howToMakeItAgain"], [
            f"git checkout {self.repository_.commit}", "./dukpt --prove", "tools/library",
            f"SOURCE_DATE_EPOCH={DAY_SECONDS} tools/release --out FOLDER {UNRELEASED}"])
        self.check_tools(found["tools"])
        kit = subprocess.run(["rt", "version"], capture_output=True, text=True, check=True,
                             cwd=self.repository_.root).stdout.strip()
        self.assertEqual((found["SOURCE_DATE_EPOCH"], found["kit"], found["logic"], found["proof"]),
                         (str(DAY_SECONDS), kit, kit.split()[-1], "proved"))
        materials = {it["name"]: it["digest"] for it in definition["resolvedDependencies"]}
        self.assertEqual(materials["repository"], {"gitCommit": self.repository_.commit})
        library = self.repository_.root / "out/library"
        for name, path in (
            ("crates/dukpt/out/dukpt", self.repository_.root / "crates/dukpt/out/dukpt"),
            ("libdukpt.a", library / "libdukpt.a"), ("dukpt.h", library / "dukpt.h"),
        ):
            self.assertEqual(materials[name], {"sha256": sum_of(path)}, name)
        self.assertRegex((library / "BUILD").read_text(),
                         f"(?m)^ {materials['libdukpt_c.a']['sha256']} libdukpt_c.a$")

    def check_tools(self, tools: Any) -> None:
        """What compresses is named too: its bytes depend on its version."""
        installed = {name: subprocess.run(
            ["dpkg-query", "--show", "--showformat=${Version}", name], capture_output=True,
            text=True, check=True).stdout for name in ("zlib1g", "liblzma5", "dpkg")}
        self.assertIn(tools["zlib"], installed["zlib1g"])
        self.assertEqual(tools["liblzma"], installed["liblzma5"])
        for name in ("dpkg", "dpkg-deb"):
            self.assertIn(f"version {installed['dpkg']} ", tools[name])

    def test_options(self) -> None:
        """The command line stands in the statement as it was given, but for the folder of the
        release; and so does a date that was given."""
        program = self.folder() / "dukpt"
        shutil.copy2(self.repository_.root / "crates/dukpt/out/dukpt", program)
        words = ["--program", str(program), f"--library={self.repository_.root / 'out/library'}",
                 "--builder", "https://a.invalid/it", "--maintainer", "A Name <a@example.org>"]
        release = self.made(self.repository_, *words, SOURCE_DATE_EPOCH=str(DAY_SECONDS + 60))
        definition = read_json(release, "provenance")["predicate"]["buildDefinition"]
        told = definition["externalParameters"]
        self.assertEqual(told["commandLine"], ["tools/release", UNRELEASED, *words])
        self.assertEqual(told["environment"], {"SOURCE_DATE_EPOCH": str(DAY_SECONDS + 60)})
        self.assertEqual(
            definition["internalParameters"]["howToMakeItAgain"][-1],
            f"SOURCE_DATE_EPOCH={DAY_SECONDS + 60} tools/release --out FOLDER {UNRELEASED}"
            f" {shlex.join(words)}")

    def check_parts(self, found: Any) -> None:
        """Each file with its sums; what is linked in, with its terms; and no reference to nothing."""
        self.assertEqual((found["spdxVersion"], found["dataLicense"], found["SPDXID"]),
                         ("SPDX-2.3", "CC0-1.0", "SPDXRef-DOCUMENT"))
        self.assertEqual(found["creationInfo"]["created"], "2026-03-01T12:00:00Z")
        papers = ("SHA256SUMS", f"dukpt-{VERSION}.provenance.json", f"dukpt-{VERSION}.spdx.json")
        for kind, digest in (("SHA256", hashlib.sha256), ("SHA1", hashlib.sha1)):
            sums = {it["fileName"].removeprefix("./"): value["checksumValue"]
                    for it in found["files"] for value in it["checksums"]
                    if value["algorithm"] == kind}
            wanted = {it.name: digest(it.read_bytes()).hexdigest() for it in self.release.iterdir()}
            self.assertEqual(sums, without(wanted, *papers), kind)
        ids = [it["SPDXID"] for it in (*found["packages"], *found["files"])]
        self.assertEqual(len(ids), len(set(ids)))
        for it in ids:
            self.assertRegex(it, ID)
        known = {*ids, "SPDXRef-DOCUMENT"}
        relations = [(it["spdxElementId"], it["relationshipType"], it["relatedSpdxElement"])
                     for it in found["relationships"]]
        self.assertEqual({it for one, _, other in relations for it in (one, other)}, known)
        names = {it["SPDXID"]: it["name"] for it in found["packages"]}
        linked = {names[other] for one, kind, other in relations
                  if (one, kind) == ("SPDXRef-program", "STATIC_LINK")}
        self.assertLessEqual({*PORTS, "std"}, linked)
        self.check_terms(found)

    def check_terms(self, found: Any) -> None:
        packages = {it["name"]: it for it in found["packages"]}
        for name, licence in LICENCES.items():
            self.assertEqual(packages[name]["licenseDeclared"], licence, name)
        self.assertIn("Permission is hereby granted", packages["clap"]["attributionTexts"][0])
        terms, = found["hasExtractedLicensingInfos"]
        self.assertEqual(packages["dukpt"]["licenseDeclared"], terms["licenseId"])
        self.assertIn(terms["extractedText"], (ROOT / "share/debian/copyright").read_text())


class Refusals(ReleaseCase):
    """When there is no release, and a line says why."""

    weight = 10

    def setUp(self) -> None:
        super().setUp()
        self.repository_ = self.repository(self.small_program())
        self.out = self.folder() / "release"

    def refuse(self, *texts: str, **changes: str) -> None:
        ended = self.repository_.release(self.out, **changes)
        self.assertEqual((ended.status, ended.output), (1, b""), texts)
        self.assertRegex(ended.faults, rb"\Arelease: .+\n\Z", texts)
        for text in texts:
            self.assertIn(text, ended.faults.decode())
        self.assertFalse((self.out / "SHA256SUMS").exists(), texts)

    def test_changes(self) -> None:
        """A changed and a new file are refused, and with --dirty they are named."""
        changed, new = "docs/LIBRARY.md", "library/examples/another.c"
        with open(self.repository_.root / changed, "a", encoding="utf-8") as file:
            file.write("\nMore.\n")
        (self.repository_.root / new).write_text("int another;\n")
        self.refuse("2 files differ from the commit", changed, "--dirty")
        told = read_json(self.made(self.repository_, "--dirty"), "provenance")[
            "predicate"]["buildDefinition"]["externalParameters"]
        self.assertEqual((told["tree"], told["uncommitted"]), ("modified", [changed, new]))
        self.assertEqual(told["commandLine"], ["tools/release", UNRELEASED, "--dirty"])

    def test_new_files_that_a_setting_hides(self) -> None:
        """Of git's own user, who lets it pass over new files, or over some names."""
        new = "library/examples/mine.c"
        (self.repository_.root / new).write_text("int mine;\n")
        self.repository_.git("config", "status.showUntrackedFiles", "no")
        self.refuse("1 files differ from the commit", new)
        excluded = self.folder() / "excluded"
        excluded.write_text("*.c\n")
        self.repository_.git("config", "--unset", "status.showUntrackedFiles")
        self.repository_.git("config", "core.excludesFile", str(excluded))
        self.refuse("1 files differ from the commit", new)

    def test_a_change_that_git_is_told_to_pass_over(self) -> None:
        changed = "docs/LIBRARY.md"
        for way in ("--assume-unchanged", "--skip-worktree"):
            self.repository_.git("update-index", way, changed)
            with open(self.repository_.root / changed, "a", encoding="utf-8") as file:
                file.write("\nMore.\n")
            self.refuse("1 files differ from the commit", changed)
            self.repository_.git("update-index", way.replace("--", "--no-"), changed)

    def test_a_git_that_fails(self) -> None:
        """Of a tree of which it says nothing, nothing is known."""
        index = self.repository_.root / ".git/index"
        index.write_bytes(b"no index")
        self.refuse("git ls-files fails", "index file")
        tools = self.folder()
        (tools / "git").write_text('#!/bin/sh\ncase "$*" in *" status "*) exit 1; esac\n'
                                   f'exec {shutil.which("git")} "$@"\n')
        (tools / "git").chmod(0o755)
        index.unlink()
        self.repository_.git("reset", "--quiet")
        self.refuse("git status fails", PATH=f"{tools}:{os.environ['PATH']}")

    def test_no_repository(self) -> None:
        (self.repository_.root / ".git").rename(self.repository_.root / "out/away")
        self.refuse("no repository with a commit")

    def test_a_program_that_is_not_proved(self) -> None:
        source = self.repository_.root / "crates/duk_program/src/command_line.rt"
        os.utime(source, (4e9, 4e9))
        self.refuse("not known as proved", "./dukpt --prove")
        record = self.repository_.root / "out/library/BUILD"
        os.utime(source, (0, 0))
        record.write_text(record.read_text().replace("Proof: proved", "Proof: none"))
        self.refuse("out/library: it is not known as proved", "tools/library")

    def test_a_version_that_is_not_released(self) -> None:
        """Its own section says so. What that of another version says does not matter."""
        for says, is_refused in (
            (f"## {VERSION}, 1 May 2026\n\nThe first. It is not released yet.\n", True),
            (f"## {VERSION}, unreleased, 1 May 2026\n\nThe first.\n", True),
            (f"## {VERSION}, 1 May 2026\n\nIt is not\nreleased.\n\n## 0.0.9, 2 May 2026\n", True),
            (f"## {VERSION}, 1 May 2026\n\nAn error.\n\n## 1{VERSION}, 2 May 2026\n\n"
             "It is not released yet.\n", False),
        ):
            (self.repository_.root / "CHANGELOG.md").write_text(f"# Changes\n\n{says}")
            self.repository_.git("commit", "--quiet", "--all", "--amend", "--message", says)
            ended = self.repository_.release_by(self.out)
            if is_refused:
                self.assertEqual((ended.status, ended.output), (1, b""), says)
                for text in (f"CHANGELOG.md: its section of {VERSION}", UNRELEASED):
                    self.assertIn(text, ended.faults.decode(), says)
            else:
                self.assertEqual((ended.status, ended.faults), (0, b""), says)

    def test_a_folder_in_use(self) -> None:
        self.out.mkdir()
        (self.out / "another").write_text("of an older release\n")
        self.refuse(str(self.out), "not empty")


def sum_of(path: Path) -> str:
    return hashlib.sha256(path.read_bytes()).hexdigest()


def without(sums: dict[str, str], *names: str) -> dict[str, str]:
    return {name: sum_ for name, sum_ in sums.items() if name not in names}
