"""The heap of the page's player, `tools/page_of/arena.c`, compiled for this machine: blocks at random.

Faults that are put into copies of it are found.
"""
from __future__ import annotations

import subprocess

from ..support.case import Case
from ..support.library.library import compiler
from ..support.program import ROOT

HEAP = ROOT / "tools" / "page_of" / "arena.c"
TRIES = ROOT / "tests" / "data" / "arena" / "tries.c"
# Of each planted fault what it does, the text in its place and what stands there instead.
PLANTS = (
    ("a freed block is given for any size", "*block = freed[kind];", "*block = freed[kind - 1];"),
    ("a block overlaps its neighbour by a head", "end += sizeof(Block) + room_of(kind);",
     "end += room_of(kind);"),
    ("a block is a byte too short", "__builtin_clzl(count - 1);", "__builtin_clzl(count - 2);"),
    ("a block grows in its place", "if (count <= room_of(block->kind)) {",
     "if (count <= 2 * room_of(block->kind)) {"),
    ("a block loses its last byte as it moves", "__builtin_memcpy(tried.at, at, kept);",
     "__builtin_memcpy(tried.at, at, kept - 1);"),
    ("a block is given while it is lent", "freed[kind] = block->next;", "freed[kind] = block;"),
    ("the arena begins at any address", "at + (-(size)at & (ALIGNED - 1))", "at"),
    ("the last block leaves the memory", "< room_of(kind)) {", "< room_of(kind) / 2) {"),
    ("the last byte stays behind the end", "end - front);", "end - front - 1);"),
    ("a freed block is lost", "    freed[block->kind] = block;\n", ""),
)


class TestArena(Case):
    def tried(self, heap: str) -> subprocess.CompletedProcess[str]:
        """How the tries of a heap end."""
        folder = self.folder()
        (folder / "arena.c").write_text(heap, encoding="utf-8")
        made = folder / "tries"
        compiler("-O1", "-Wall", "-Werror", "-Wno-attributes", f'-DARENA="{folder / "arena.c"}"', TRIES,
                 "-o", made)
        seed = str(self.chance.randrange(1, 1 << 31))
        return subprocess.run([made, seed], capture_output=True, text=True, timeout=300, check=False)

    def test_blocks(self) -> None:
        for _ in range(3 * self.times):
            ended = self.tried(HEAP.read_text(encoding="utf-8"))
            self.assertEqual(ended.returncode, 0, ended.stdout)
        self.tells(ended.stdout.strip())

    def test_planted(self) -> None:
        heap = HEAP.read_text(encoding="utf-8")
        for what, old, new in PLANTS:
            self.assertEqual(heap.count(old), 1, what)
            self.assertNotEqual(self.tried(heap.replace(old, new)).returncode, 0, what)
