"""The Python package of library/python, over the library that is built."""
from __future__ import annotations

import importlib
import os
import sys
from types import ModuleType
from typing import Any
from unittest.mock import patch

from ..case import Case
from ..program import ROOT
from .binding_cases import BindingCase
from .library import built_library
from .library_calls import FAULTS
from .library_values import KSN, ROOM, number, parts

PACKAGE = ROOT / "library" / "python"
SHARED = "libdukpt.so.0"
VARIABLE = "DUKPT_LIBRARY"


def package() -> ModuleType:
    """The package `dukpt`. A process has one."""
    if "dukpt" not in sys.modules:
        sys.path.insert(0, str(PACKAGE))
        try:
            with patch.dict(os.environ, {VARIABLE: str(built_library() / SHARED)}):
                importlib.import_module("dukpt")
        finally:
            sys.path.remove(str(PACKAGE))
    return sys.modules["dukpt"]


class PythonLibraryCase(Case):
    """A test of the package."""

    dukpt: ModuleType

    def setUp(self) -> None:
        super().setUp()
        self.dukpt = package()

    def check(self, case: BindingCase) -> None:
        """That the package gives what a case says, or refuses it so."""
        if case.name == "check_requests" and len(list_in(case)) % ROOM != 0:
            # No list of frames is that.
            self.assertEqual(FAULTS[case.status], "Length", str(case))
            return
        try:
            found = self.given_by(case)
        except self.dukpt.DukptError as fault:
            is_ = (fault.number, fault.name, type(fault).__name__)
            name = FAULTS[case.status]
            self.assertEqual(is_, (case.status, name, name), str(case))
            return
        given = [] if found is None else list(found) if isinstance(found, tuple) else [found]
        # Most cases are right: of those no text is made.
        if case.status or given != case.gives:
            self.assertEqual((0, given), (case.status, case.gives), str(case))

    def given_by(self, case: BindingCase) -> object:
        """What the function of a call gives. Lists are given and taken as bytes."""
        function = getattr(self.dukpt, case.name)
        if case.name == "derive_many":
            return b"".join(function(case.given[0], parts(list_in(case), KSN)))
        if case.name == "check_requests":
            told = function(case.given[0], map(front_frame, parts(list_in(case), ROOM)))
            return bytes(0 if fault is None else fault.number for fault in told)
        return function(*case.given)


def list_in(case: BindingCase) -> Any:
    """What a call over a list has in its second argument: bytes, or what is like them."""
    return case.given[1]


def front_frame(place: bytes) -> bytes:
    """The frame at the begin of 64 bytes, or all of them where it would be longer."""
    return place[: 2 + number(place[:2])]
