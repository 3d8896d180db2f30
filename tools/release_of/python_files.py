"""The Python package: the wheel, which has the library with it, and the sources. The backend of the
package makes them, as pip has it do."""
from __future__ import annotations

import os
import subprocess
import sys
import tempfile
from pathlib import Path

from package_of.binaries import SHARED, stripped
from package_of.contents import SHARED_NAME
from package_of.items import Refused
from package_of.sources import Sources, lay_out

# What the backend is asked, in the folder of the package.
CODE = """\
import sys
sys.dont_write_bytecode = True
sys.path.insert(0, "backend")
import folder_wheel
getattr(folder_wheel, sys.argv[1])(sys.argv[2])
"""


def python_files(sources: Sources, out: Path, seconds: int) -> None:
    with tempfile.TemporaryDirectory() as folder:
        package = Path(folder) / "library/python"
        lay_out(sources, "library/python", package)
        built_by("build_sdist", package, out, seconds)
        (package / "dukpt" / SHARED_NAME).write_bytes(
            stripped(sources.library / SHARED_NAME, SHARED))
        built_by("build_wheel", package, out, seconds)


def built_by(hook: str, package: Path, out: Path, seconds: int) -> None:
    environment = {"PATH": os.environ["PATH"], "LC_ALL": "C.UTF-8",
                   "SOURCE_DATE_EPOCH": str(seconds)}
    done = subprocess.run([sys.executable, "-c", CODE, hook, out], cwd=package, env=environment,
                          capture_output=True, text=True, check=False)
    if done.returncode:
        raise Refused(f"the Python package: {hook}: {done.stderr.strip().splitlines()[-1]}")
