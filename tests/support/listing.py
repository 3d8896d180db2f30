"""What a run leaves in its folder: all as it was, but the files that are its command's own."""
from __future__ import annotations

import os
import stat
from contextlib import contextmanager
from tempfile import TemporaryDirectory
from typing import Iterator, Optional, Sequence, Union

Word = Union[str, bytes, os.PathLike]
# Of a file that is larger its length, its node and the time of its last write stand for its bytes.
LARGE = 1 << 20
# The options that name a file of their command's own, behind them; `-o` and `-f` are those of strace. And
# the commands that do, as which word behind them.
OPTIONS = {"--log": "serve", "--journal": "serve", "--ledger": "issue", "--out": "issue", "-o": "-f"}
COMMANDS = {"new-journal": 1, "new-ledger": 1, "new-log": 1, "grow-journal": 1, "copy-journal": 2,
            "copy-ledger": 2}


class Strayed(AssertionError):
    """That a run changed a file that is not its own."""


def own_files(words: Sequence[Word]) -> list[str]:
    """The files that a command may make or change, by its words."""
    texts = [os.fsdecode(it) for it in words]
    options = [option for option, command in OPTIONS.items() if command in texts]
    found = [value for option, value in zip(texts, texts[1:]) if option in options]
    found += [it.partition("=")[2] for it in texts if it.partition("=")[0] in options and "=" in it]
    plain = [it for it in texts if not it.startswith("--")]
    for name, place in COMMANDS.items():
        if name in plain:
            found += plain[plain.index(name) + place :][:1]
    return found


def listing(folder: Word) -> dict[str, tuple]:
    """What there is below a folder, by its path from there: its kind, and of a file its bytes."""
    found = {}
    for place, folders, files in os.walk(folder):
        for name in (*folders, *files):
            path = os.path.join(place, name)
            try:
                found[os.path.relpath(path, folder)] = seen_at(path)
            except FileNotFoundError:
                pass
    return found


def seen_at(path: Word) -> tuple:
    about = os.lstat(path)
    if stat.S_ISLNK(about.st_mode):
        return ("link", os.readlink(path))
    if not stat.S_ISREG(about.st_mode):
        return (stat.S_IFMT(about.st_mode),)
    if about.st_size > LARGE:
        return ("file", about.st_size, about.st_ino, about.st_mtime_ns)
    with open(path, "rb") as file:
        return ("file", file.read())


@contextmanager
def only_own_files(
    folder: Optional[Word], words: Sequence[Word], streams: Sequence[int]
) -> Iterator[Word]:
    """The folder of a run, which is a new one where none is given. Behind the run, that all in it is as
    before, but the files that are its own, and those that are its streams."""
    if folder is None:
        with TemporaryDirectory(prefix="dukpt-run-") as made, only_own_files(made, words, streams) as it:
            yield it
        return
    before = listing(folder)
    yield folder
    after = listing(folder)
    if after == before:
        return
    own = {os.path.realpath(os.path.join(os.fspath(folder), it)) for it in own_files(words)}
    own |= {os.path.realpath(f"/proc/self/fd/{it}") for it in streams if it >= 0}
    strayed = [name for name in sorted({*before, *after}) if before.get(name) != after.get(name)
               and os.path.realpath(os.path.join(os.fspath(folder), name)) not in own]
    if strayed:
        raise Strayed(f"`{' '.join(map(os.fsdecode, words))}` made, changed or removed {strayed}")
