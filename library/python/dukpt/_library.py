"""The library: found, loaded, and called by the table of its exports."""
from __future__ import annotations

import ctypes
import os
from pathlib import Path
from typing import Any, Final, Iterable, Iterator, Union

from ._exports import EXPORTS, Kind
from ._version import demand_version, version_text
from .faults import FAULTS, DukptError, Length

NAME: Final = "libdukpt.so.0"
VARIABLE: Final = "DUKPT_LIBRARY"
HERE: Final = Path(__file__).resolve().parent
# What C has alone, and answers no status.
WIPE: Final = "dukpt_wipe_host_stack"
LARGEST_NUMBER: Final = (1 << 32) - 1

# Whatever has bytes is copied before a call, so that nothing changes them meanwhile.
Data = Union[bytes, bytearray, memoryview]
Buffer = ctypes.Array[ctypes.c_char]
Given = Union[Data, Buffer, ctypes.c_uint32, int]

TYPES: Final[dict[Kind, list[type]]] = {
    "bytes": [ctypes.c_char_p, ctypes.c_size_t],
    "buffer": [ctypes.POINTER(ctypes.c_char), ctypes.c_size_t],
    "count": [ctypes.POINTER(ctypes.c_uint32)],
    "number": [ctypes.c_uint32],
}


def places() -> Iterator[str]:
    """Where the library may be, in the order in which it is looked for."""
    named = os.environ.get(VARIABLE)
    if named:
        yield named
        return
    yield from map(str, filter(Path.exists, files_nearby()))
    yield NAME


def files_nearby() -> Iterator[Path]:
    yield HERE / NAME
    # In a repository the package stands in library/python.
    if HERE.parts[-3:-1] == ("library", "python"):
        yield HERE.parents[2] / "out" / "library" / NAME


def loaded() -> ctypes.CDLL:
    """The first library that is there. It raises ImportError where none is."""
    faults = []
    for place in places():
        try:
            return ctypes.CDLL(place)
        except OSError as why:
            faults.append(str(why))
    raise ImportError(
        f"{NAME} cannot be loaded ({'; '.join(faults)}): in a repository tools/library builds it, "
        f"and {VARIABLE} may name its file")


def typed(library: ctypes.CDLL) -> ctypes.CDLL:
    """The library with the types of its exports, if it has this version."""
    give_types(library, "dukpt_version")
    demand_version(library._name, library.dukpt_version())
    for name in EXPORTS:
        give_types(library, name)
    wipe = export_of(library, WIPE)
    wipe.argtypes, wipe.restype = [], None
    return library


def give_types(library: ctypes.CDLL, name: str) -> None:
    """Sets the types of an export."""
    export = export_of(library, name)
    export.argtypes = [it for kind in EXPORTS[name].values() for it in TYPES[kind]]
    export.restype = ctypes.c_uint32


def export_of(library: ctypes.CDLL, name: str) -> Any:
    """A function of the library. It raises ImportError where the library has none."""
    try:
        return getattr(library, name)
    except AttributeError as why:
        raise ImportError(f"{library._name} has no {name}: it is no {NAME}") from why


LIBRARY: Final = typed(loaded())


def version() -> str:
    """The version of the library. It works with a package of the same major and minor version.

    >>> version().split(".")[:2]
    ['0', '1']
    """
    return version_text(LIBRARY.dukpt_version())


def room(size: int) -> Buffer:
    """A buffer of so many bytes, for what a call writes."""
    return (ctypes.c_char * size)()


def room_with(name: str, value: Data) -> Buffer:
    """A buffer with these bytes, which a call replaces."""
    held = as_bytes(name, value)
    return (ctypes.c_char * len(held)).from_buffer_copy(held)


def as_bytes(name: str, value: object) -> bytes:
    """The bytes of an argument, as they are at this time."""
    if type(value) is bytes:
        return value
    try:
        return memoryview(value).tobytes()  # type: ignore[arg-type]
    except TypeError:
        raise TypeError(f"{name} is to be bytes, and not {type(value).__name__}") from None


def joined(name: str, values: Iterable[Data], size: int) -> bytes:
    """Values of one size, one after the other. It raises Length where one has another."""
    held = [as_bytes(f"{name}[{at}]", value) for at, value in enumerate(values)]
    for at, value in enumerate(held):
        if len(value) != size:
            raise Length(f"{name}[{at}] has {len(value)}")
    return b"".join(held)


def parts(buffer: Buffer, size: int) -> list[bytes]:
    """What a call wrote, in parts of one size."""
    return [buffer.raw[at : at + size] for at in range(0, len(buffer), size)]


def as_number(name: str, value: object) -> int:
    """A number of 32 bits. A number that has more of them would lose some in the call."""
    if not isinstance(value, int) or isinstance(value, bool):
        raise TypeError(f"{name} is to be an int, and not {type(value).__name__}")
    if not 0 <= value <= LARGEST_NUMBER:
        raise ValueError(f"{name} is to be from 0 to {LARGEST_NUMBER}")
    return value


def spread(kind: Kind, name: str, value: object) -> tuple[object, ...]:
    """An argument as the words of the call."""
    if kind == "bytes":
        # Keys in a buffer are not copied: the copy could not be wiped.
        if isinstance(value, ctypes.Array):
            return value, len(value)
        held = as_bytes(name, value)
        return held, len(held)
    if kind == "buffer":
        assert isinstance(value, ctypes.Array)
        return value, len(value)
    if kind == "count":
        assert isinstance(value, ctypes.c_uint32)
        return (ctypes.byref(value),)
    return (as_number(name, value),)


def call(name: str, **given: Given) -> None:
    """Calls an export with its arguments, by name. It raises the fault with which the call is
    refused."""
    words: list[object] = []
    for argument, kind in EXPORTS[name].items():
        words += spread(kind, argument, given[argument])
    status = getattr(LIBRARY, name)(*words)
    if status == Length.number:
        raise Length(lengths(name, given))
    if status:
        raise fault_of(status)


def wipe_host_stack() -> None:
    """Overwrites what the two steps of a host left on this thread's stack. It is called in the way of
    `call`, so that it begins no deeper than they did."""
    words: list[object] = []
    getattr(LIBRARY, WIPE)(*words)


def fault_of(status: int) -> DukptError:
    """The fault of a status. One that this package does not know has its number alone."""
    if status in FAULTS:
        return FAULTS[status]()
    fault = DukptError()
    fault.number, fault.name = status, "Unknown"
    return fault


def lengths(name: str, given: dict[str, Given]) -> str:
    """How many bytes each argument has that is bytes."""
    return ", ".join(
        f"{argument} has {spread(kind, argument, given[argument])[1]}"
        for argument, kind in EXPORTS[name].items() if kind in ("bytes", "buffer"))


def filled(buffer: Buffer, count: ctypes.c_uint32) -> bytes:
    """What a call wrote in the front of a buffer."""
    return buffer.raw[: count.value]
