"""The version of this package, and that of the library beside which it works."""
from __future__ import annotations

from typing import Final

__version__: Final = "0.1.0"


def version_text(packed: int) -> str:
    """A version as the library has it, a byte for each part.

    >>> version_text(0x010203)
    '1.2.3'
    """
    return ".".join(str(packed >> shift & 0xFF) for shift in (16, 8, 0))


def demand_version(library: str, packed: int) -> None:
    """Raises ImportError where a library has another major or minor version than the package."""
    text = version_text(packed)
    if text.split(".")[:2] != __version__.split(".")[:2]:
        raise ImportError(
            f"dukpt is {__version__}, and its library {library} is {text}: install both of one "
            "major and minor version")
