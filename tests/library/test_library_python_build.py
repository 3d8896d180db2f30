"""How the Python package is built and installed by pip, without a network: as a wheel, as a source
archive, and so that it works where it stands."""
from __future__ import annotations

import ast
import email
import shutil
import subprocess
import sys
import tarfile
import tomllib
import zipfile
from email.message import Message
from pathlib import Path

from ..support.library.library import LibraryMissing
from ..support.library.python_library import PACKAGE, SHARED, VARIABLE
from .test_library_python_package import SECONDS, PackageCase

# A hook of the backend, called as pip calls it: in the package's folder.
HOOK = "import sys; sys.path.insert(0, 'backend'); import folder_wheel as it; print(it.{}({!r}))"
NOT_BUILT = r"dukpt: libdukpt\.so\.0 is not built: there is no .*tools/library builds it"
TITLE = "dukpt-0.1.0"
# What an archive has beside the modules.
SOURCES = {"PKG-INFO", "README.md", "backend/folder_wheel.py", "pyproject.toml"}
PRINTS_PLACE = "import dukpt; print(dukpt.__file__)"


class BuildCase(PackageCase):
    def setUp(self) -> None:
        super().setUp()
        self.out = self.home / "out-of-build"
        self.out.mkdir()

    def copied_whole(self, *parts: str) -> Path:
        """A copy of the whole folder library/python, without a library."""
        where = self.copied(*parts)
        for name in ("pyproject.toml", "README.md"):
            shutil.copy(PACKAGE / name, where)
        shutil.copytree(PACKAGE / "backend", where / "backend",
                        ignore=shutil.ignore_patterns("__pycache__"))
        return where

    def hook(self, where: Path, name: str, **variables: str) -> subprocess.CompletedProcess[str]:
        return subprocess.run(
            [sys.executable, "-B", "-c", HOOK.format(name, str(self.out))], cwd=where, text=True,
            capture_output=True, env=self.environment(**variables), timeout=SECONDS, check=False)

    def built(self, where: Path, name: str, **variables: str) -> Path:
        """What a hook leaves."""
        done = self.hook(where, name, **variables)
        self.assertEqual((done.returncode, done.stderr), (0, ""))
        return self.out / done.stdout.strip()

    def pip(self, *words: object, **variables: str) -> subprocess.CompletedProcess[str]:
        pip = [sys.executable, "-m", "pip"]
        if subprocess.run([*pip, "--version"], capture_output=True, check=False).returncode:
            raise LibraryMissing("pip is not installed: apt-get install python3-pip")
        return subprocess.run(
            [*pip, *map(str, words)], cwd=self.home, capture_output=True, text=True,
            env=self.environment(PIP_DISABLE_PIP_VERSION_CHECK="1", PIP_BREAK_SYSTEM_PACKAGES="1",
                                 **variables),
            timeout=SECONDS, check=False)

    def installed(self, *words: object, **variables: str) -> Path:
        """The folder into which pip installs something."""
        target = self.home / "installed"
        done = self.pip("install", "--quiet", "--no-index", "--target", target, *words, **variables)
        self.assertEqual(done.returncode, 0, done.stderr)
        return target

    def assert_whole(self, package: Path) -> None:
        """That a package has each of its files."""
        has = {it.name for it in package.iterdir()} - {"__pycache__", SHARED}
        should = {it.name for it in (PACKAGE / "dukpt").iterdir()} - {"__pycache__", SHARED}
        self.assertEqual(has, should)
        self.assertIn("py.typed", has)


class TestWheel(BuildCase):
    def test_pip(self) -> None:
        """pip installs the folder, and the library with it."""
        where = self.copied_whole("library", "python")
        self.place("out", "library", SHARED)
        target = self.installed(where)
        shutil.rmtree(where)
        self.assert_loads(target, str(target / "dukpt" / SHARED))
        self.assert_whole(target / "dukpt")

    def test_places(self) -> None:
        """The library is that which is named; else that beside the modules; else the built one."""
        where = self.copied_whole("library", "python")
        contents = {}
        for place in ("out/library/" + SHARED, f"library/python/dukpt/{SHARED}", "named.so"):
            path = self.home / place
            path.parent.mkdir(parents=True, exist_ok=True)
            path.write_bytes(place.encode())
            contents[place] = self.packed(self.built(where, "build_wheel", **(
                {VARIABLE: str(path)} if place == "named.so" else {})))
        self.assertEqual(list(contents.values()), [it.encode() for it in contents])

    def packed(self, wheel: Path) -> bytes:
        """The library of a wheel."""
        with zipfile.ZipFile(wheel) as files:
            return files.read(f"dukpt/{SHARED}")

    def test_without_the_library(self) -> None:
        """No wheel is made, and the sentence says what to do; to pip too. A file that is named by
        mistake is not replaced by another one."""
        where = self.copied_whole("library", "python")
        for hook in ("build_wheel", "build_editable"):
            done = self.hook(where, hook)
            self.assertEqual((done.returncode, done.stdout), (1, ""))
            self.assertRegex(done.stderr, f"^{NOT_BUILT}")
            self.assertEqual(done.stderr.count("\n"), 1, done.stderr)
        for word in ([], ["--editable"]):
            done = self.pip("install", "--no-index", "--target", self.home / "to", *word, where)
            self.assertNotEqual(done.returncode, 0)
            self.assertRegex(done.stdout + done.stderr, NOT_BUILT)
        self.place("out", "library", SHARED)
        done = self.hook(where, "build_wheel", **{VARIABLE: "missing.so"})
        self.assertRegex(done.stderr, r"^dukpt: .* there is no missing\.so\. ")
        self.assertEqual(list(self.out.iterdir()), [])

    def test_beyond_a_repository(self) -> None:
        """out/library means nothing there."""
        where = self.copied_whole("a", "package")
        self.place("out", "library", SHARED)
        self.assertRegex(self.hook(where, "build_wheel").stderr, f"^{NOT_BUILT}")

    def test_twice(self) -> None:
        """Equal files make equal archives, whenever they were written."""
        self.place("out", "library", SHARED)
        where = self.copied_whole("library", "python")
        made = {it: self.built(where, it).read_bytes() for it in ("build_wheel", "build_sdist")}
        shutil.rmtree(where)
        where = self.copied_whole("library", "python")
        for name, content in made.items():
            self.assertEqual(self.built(where, name).read_bytes(), content, name)


class TestSources(BuildCase):
    def test_sdist(self) -> None:
        """It has what the wheel is made of, but not the library; and pip makes the wheel of it."""
        where = self.copied_whole("library", "python")
        archive = self.built(where, "build_sdist")
        self.assertEqual(archive.name, f"{TITLE}.tar.gz")
        modules = {f"dukpt/{it.name}" for it in (PACKAGE / "dukpt").iterdir()
                   if it.suffix == ".py" or it.name == "py.typed"}
        with tarfile.open(archive) as files:
            entries = {it.name: it for it in files.getmembers()}
            self.assertEqual(set(entries), {f"{TITLE}/{it}" for it in modules | SOURCES})
            for name in modules | SOURCES - {"PKG-INFO"}:
                packed = files.extractfile(entries[f"{TITLE}/{name}"])
                assert packed is not None
                self.assertEqual(packed.read(), (where / name).read_bytes(), name)
        self.assertEqual({(it.mode, it.uid, it.mtime) for it in entries.values()}, {(0o644, 0, 0)})
        shutil.rmtree(where)
        done = self.pip("install", "--no-index", "--target", self.home / "to", archive)
        self.assertRegex(done.stdout + done.stderr, NOT_BUILT)
        target = self.installed(archive, **{VARIABLE: str(self.library)})
        self.assert_loads(target, str(target / "dukpt" / SHARED))
        self.assert_whole(target / "dukpt")

    def test_editable(self) -> None:
        """The package stands where it stood, and what is changed there is changed."""
        where = self.copied_whole("library", "python")
        self.place("out", "library", SHARED)
        environment = self.home / "environment"
        subprocess.run([sys.executable, "-m", "venv", "--without-pip", environment], check=True)
        python = environment / "bin" / "python"
        done = self.pip("--python", python, "install", "--quiet", "--no-index", "--editable", where)
        self.assertEqual(done.returncode, 0, done.stderr)
        self.assertEqual(self.said(python, PRINTS_PLACE), str(where / "dukpt" / "__init__.py"))
        with open(where / "dukpt" / "__init__.py", "a", encoding="utf-8") as file:
            file.write("CHANGED = 7\n")
        self.assertEqual(self.said(python, "import dukpt; print(dukpt.CHANGED)"), "7")
        about = "from importlib.metadata import version; print(version('dukpt'))"
        self.assertEqual(self.said(python, about), "0.1.0")
        done = self.pip("--python", python, "uninstall", "--quiet", "--yes", "dukpt")
        self.assertEqual(done.returncode, 0, done.stderr)
        self.assertEqual(self.said(python, "import importlib.util as it; "
                                           "print(it.find_spec('dukpt'))"), "None")

    def said(self, python: Path, code: str) -> str:
        done = subprocess.run([python, "-B", "-c", code], cwd=self.home, capture_output=True,
                              text=True, env=self.environment(), timeout=SECONDS, check=False)
        self.assertEqual((done.returncode, done.stderr), (0, ""))
        return done.stdout.strip()


class TestMetadata(BuildCase):
    def setUp(self) -> None:
        super().setUp()
        self.project = tomllib.loads((PACKAGE / "pyproject.toml").read_text("utf-8"))["project"]

    def metadata(self, archive: Path) -> Message:
        if archive.suffix == ".whl":
            with zipfile.ZipFile(archive) as wheel:
                return email.message_from_bytes(wheel.read(f"{TITLE}.dist-info/METADATA"))
        with tarfile.open(archive) as files:
            packed = files.extractfile(f"{TITLE}/PKG-INFO")
            assert packed is not None
            return email.message_from_bytes(packed.read())

    def test_fields(self) -> None:
        """They are those of pyproject.toml, in wheel, editable wheel and source archive."""
        it = self.project
        for hook in ("build_wheel", "build_editable", "build_sdist"):
            found = self.metadata(self.built(PACKAGE, hook, **{VARIABLE: str(self.library)}))
            for name, value in (
                ("Metadata-Version", "2.1"), ("Name", "dukpt"), ("Version", it["version"]),
                ("Summary", it["description"]), ("Keywords", ",".join(it["keywords"])),
                ("License", it["license"]["text"]), ("Requires-Python", ">=3.9"),
                ("Description-Content-Type", "text/markdown; charset=UTF-8"),
            ):
                self.assertEqual(found.get_all(name), [value], hook)
            self.assertEqual(found.get_all("Classifier"), it["classifiers"])
            self.assertEqual(found.get_payload(), (PACKAGE / "README.md").read_text("utf-8"))
            self.assertEqual(set(found) - {"Metadata-Version", "Name", "Version", "Summary",
                                           "Keywords", "License", "Requires-Python", "Classifier",
                                           "Description-Content-Type"}, set())
        self.assertEqual(set(it), {"name", "version", "description", "readme", "requires-python",
                                   "keywords", "classifiers", "license"})

    def test_one_version(self) -> None:
        code = "import dukpt; print(dukpt.__version__)"
        done = self.run_python(PACKAGE, code, **{VARIABLE: str(self.library)})
        self.assertEqual(done.stdout.strip(), self.project["version"])

    def test_python_3_9(self) -> None:
        """Package, backend and examples have no syntax of a later Python. What they use of its
        standard library is tried with the types of 3.9."""
        self.assertEqual(self.project["requires-python"], ">=3.9")
        files = [*PACKAGE.glob("*/*.py"), *PACKAGE.parent.glob("examples/*.py")]
        self.assertGreater(len(files), 20)
        for file in files:
            ast.parse(file.read_text("utf-8"), str(file), feature_version=(3, 9))


class TestTypes(PackageCase):
    def test_types(self) -> None:
        """mypy has nothing to say of package, backend and examples, with its strictest rules and
        for Python 3.9."""
        if (mypy := shutil.which("mypy")) is None:
            raise LibraryMissing("mypy is not installed: apt-get install mypy")
        files = [PACKAGE / "dukpt", PACKAGE / "backend" / "folder_wheel.py",
                 *sorted(PACKAGE.parent.glob("examples/*.py"))]
        done = subprocess.run(
            [mypy, "--strict", "--python-version", "3.9", "--cache-dir", self.home, *files],
            cwd=self.home, capture_output=True, text=True,
            env={**self.environment(), "MYPYPATH": str(PACKAGE)}, timeout=SECONDS, check=False)
        self.assertEqual(done.returncode, 0, done.stdout + done.stderr)
