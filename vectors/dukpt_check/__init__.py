"""Judges an implementation of TDES DUKPT by test vectors: `python3 -m dukpt_check --help`."""
from __future__ import annotations

__version__ = "0.1.0"
