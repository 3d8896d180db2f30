"""A file system in user space that has one file, by the kernel's protocol of /dev/fuse.

Its requests and answers are those of the kernel's header linux/fuse.h, in version 7.31 of it.
Reads and writes go past the cache of the system, so each of them is a call here. A call in which
the power is lost kills the process that made it, before it is answered.
"""
from __future__ import annotations

import ctypes
import errno
import os
import signal
import stat
import struct
from typing import Callable

from .cut_disk import PlannedDisk, PowerLost

NAME = b"log"
ROOT, FILE = 1, 2
VERSION = (7, 31)
# A request has at most so many bytes, and a write a part of them.
LONGEST, LONGEST_WRITE = 1 << 14, 1 << 12
FILE_MODE, FOLDER_MODE = stat.S_IFREG | 0o600, stat.S_IFDIR | 0o700
DIRECT_IO = 1
WITH_SIZE = 1 << 3
# For how many seconds the kernel keeps a name. It keeps no size.
KEEPS_NAME = 3600

HEADER = struct.Struct("=IIQQIIII")
ANSWER = struct.Struct("=IiQ")
INIT = struct.Struct("=IIII")
INIT_ANSWER = struct.Struct("=IIIIHHIIHHI28x")
# A file handle, a place, a length and five further fields.
RANGE = struct.Struct("=QQIIQII")
ATTRIBUTES = struct.Struct("=QQQ3Q3IIIIIIII")
ENTRY = struct.Struct("=QQQQII")
KEPT_FOR = struct.Struct("=QII")
OPENED = struct.Struct("=QII")
WRITTEN = struct.Struct("=II")
STATISTICS = struct.Struct("=5Q4I24x")

MS_NOSUID, MS_NODEV, MS_REC, MS_PRIVATE = 2, 4, 1 << 14, 1 << 18
CLONE_NEWNS, CLONE_NEWUSER = 1 << 17, 1 << 28


class UserFiles:
    """Answers what the kernel asks of the file system."""

    def __init__(self, device: int, file: PlannedDisk) -> None:
        self.device = device
        self.file = file
        self.calls: dict[int, Callable[[int, bytes], bytes]] = {
            1: self.look_up, 3: self.attributes, 4: self.set_attributes, 14: self.open,
            15: self.read, 16: self.write, 17: self.statistics, 18: self.nothing, 20: self.sync,
            26: self.begin, 27: self.open, 29: self.nothing,
        }
        # What has no answer: what the kernel forgets, and what it interrupts.
        self.unanswered = (2, 36, 42)

    def serve(self) -> bool:
        """Serves one request. It answers whether there may be more."""
        try:
            request = os.read(self.device, LONGEST)
        except OSError as why:
            # The request went with its caller; or nothing is mounted any more.
            return why.errno in (errno.ENOENT, errno.EINTR, errno.EAGAIN)
        _, code, unique, node, _, _, caller, _ = HEADER.unpack_from(request)
        if code not in self.unanswered:
            self.answer(unique, *self.result(code, node, caller, request[HEADER.size :]))
        return True

    def answer(self, unique: int, fault: int, body: bytes) -> None:
        try:
            os.write(self.device, ANSWER.pack(ANSWER.size + len(body), -fault, unique) + body)
        except OSError as why:
            if why.errno != errno.ENOENT:
                raise

    def result(self, code: int, node: int, caller: int, body: bytes) -> tuple[int, bytes]:
        """The number of the fault, or 0, and what is answered."""
        call = self.calls.get(code)
        if call is None:
            return errno.ENOSYS, b""
        try:
            return 0, call(node, body)
        except OSError as why:
            return why.errno or errno.EIO, b""
        except PowerLost:
            os.kill(caller, signal.SIGKILL)
            return errno.EIO, b""

    # The calls

    def begin(self, node: int, body: bytes) -> bytes:
        _, _, ahead, _ = INIT.unpack_from(body)
        return INIT_ANSWER.pack(*VERSION, ahead, 0, 0, 0, LONGEST_WRITE, 1, 0, 0, 0)

    def nothing(self, node: int, body: bytes) -> bytes:
        return b""

    def look_up(self, node: int, body: bytes) -> bytes:
        if node != ROOT or body.rstrip(b"\x00") != NAME:
            raise OSError(errno.ENOENT, "no such file")
        return ENTRY.pack(FILE, 0, KEEPS_NAME, 0, 0, 0) + self.about(FILE)

    def attributes(self, node: int, body: bytes) -> bytes:
        return KEPT_FOR.pack(0, 0, 0) + self.about(node)

    def set_attributes(self, node: int, body: bytes) -> bytes:
        if struct.unpack_from("=I", body)[0] & WITH_SIZE:
            raise OSError(errno.EPERM, "the file keeps its size")
        return self.attributes(node, body)

    def about(self, node: int) -> bytes:
        is_file = node == FILE
        size, mode = self.file.size if is_file else 0, FILE_MODE if is_file else FOLDER_MODE
        return ATTRIBUTES.pack(node, size, 1, 0, 0, 0, 0, 0, 0, mode, 1, 0, 0, 0, LONGEST_WRITE, 0)

    def open(self, node: int, body: bytes) -> bytes:
        return OPENED.pack(0, DIRECT_IO if node == FILE else 0, 0)

    def read(self, node: int, body: bytes) -> bytes:
        _, at, count, *_ = RANGE.unpack_from(body)
        return self.file.read(at, count)

    def write(self, node: int, body: bytes) -> bytes:
        _, at, count, *_ = RANGE.unpack_from(body)
        return WRITTEN.pack(self.file.write(at, body[RANGE.size : RANGE.size + count]), 0)

    def sync(self, node: int, body: bytes) -> bytes:
        self.file.sync()
        return b""

    def statistics(self, node: int, body: bytes) -> bytes:
        return STATISTICS.pack(1, 0, 0, 1, 0, LONGEST_WRITE, 255, LONGEST_WRITE, 0)


# Mounting

LIBC = ctypes.CDLL(None, use_errno=True)


def demand(result: int, what: str) -> None:
    if result != 0:
        number = ctypes.get_errno()
        raise OSError(number, f"{what}: {os.strerror(number)}")


def leave_namespace() -> None:
    """From here on this process sees mounts of its own, which go with it. Without rights it has
    them as the root of a namespace of users."""
    user, group = os.geteuid(), os.getegid()
    own = CLONE_NEWNS | (CLONE_NEWUSER if user else 0)
    demand(LIBC.unshare(own), "a namespace of mounts")
    if user:
        maps = {"setgroups": "deny", "uid_map": f"0 {user} 1", "gid_map": f"0 {group} 1"}
        for name, text in maps.items():
            with open(f"/proc/self/{name}", "w", encoding="ascii") as it:
                it.write(text)
    demand(LIBC.mount(None, b"/", None, MS_REC | MS_PRIVATE, None), "mounts of its own")


def mount(folder: str) -> int:
    """Mounts such a file system over a folder, and answers its device."""
    # A request may go before it is read, with whoever made it: then a read must not wait.
    device = os.open("/dev/fuse", os.O_RDWR | os.O_CLOEXEC | os.O_NONBLOCK)
    words = f"fd={device},rootmode=40000,user_id=0,group_id=0".encode()
    mounted = LIBC.mount(b"dukpt-test", os.fsencode(folder), b"fuse", MS_NOSUID | MS_NODEV, words)
    demand(mounted, "mounting /dev/fuse")
    return device
