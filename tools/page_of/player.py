"""The player's module: the crate dukpt_player, built for 64-bit WebAssembly with a heap of its own.

The kit builds no crate for WebAssembly that takes memory, since it has no heap there. So its build for
this machine is followed up to LLVM bitcode: the compiler of the toolchain that it is given keeps a copy
of that. The kit's own compiler compiles the copy for WebAssembly, beside the heap in `arena.c`, and the
kit links both.
"""
from __future__ import annotations

import re
import subprocess
import tempfile
from pathlib import Path

from library_of import kit

CRATE = "dukpt_player"
HEAP = Path(__file__).resolve().parent / "arena.c"
# What the module's memory has, in bytes: its stack, its data, what a run is given, and its heap.
MEMORY = 67_108_864
# How the kit compiles for WebAssembly, but for the size: the page is to be small.
WEB = ["--target=wasm64-unknown-unknown", "-mcpu=lime1", "-mllvm", "-expand-div-rem-bits=64",
       "-mllvm", "-expand-fp-convert-bits=64", "-ffunction-sections", "-fdata-sections", "-mllvm",
       "-trap-unreachable", "--no-default-config", "-no-canonical-prefixes", "-fintegrated-cc1",
       "-fno-crash-diagnostics", "-Werror", "-Oz", "-c"]
# What LLVM has to know of WebAssembly where the kit told it of this machine.
LAYOUT = "e-m:e-p:64:64-p10:8:8-p20:8:8-i64:64-i128:128-n32:64-S128-ni:1:10:20"
TARGETS = [
    (r'^target datalayout = "e-m:e-p270:32:32-p271:32:32-p272:64:64-i64:64-i128:128-[^"]*"$',
     f'target datalayout = "{LAYOUT}"'),
    (r'^target triple = "x86_64-unknown-linux-gnu"$', 'target triple = "wasm64-unknown-unknown"'),
    (r' "probe-stack"="inline-asm" "stack-probe-size"="\d+" "target-cpu"="x86-64-v2" ',
     ' minsize optsize "no-builtin-bcmp" "no-builtin-memcmp" "no-builtin-strlen"'
     ' "target-cpu"="lime1" '),
]
# A function that the crate exports.
EXPORT = re.compile(r"^(define (?!internal\b)[^@\n]*@(\w+)\([^\n]*\) #\d+) \{$", re.M)
# A compiler that keeps the bitcode that it is given.
KEEPER = '#!/bin/sh\n[ -f module.bc ] && cp module.bc "{kept}"\nexec "{compiler}" "$@"\n'


def player() -> Path:
    """The player's module, built where it is missing or a source is newer."""
    made = kit.CRATES / CRATE / "out" / f"{CRATE}.wasm"
    below = crates_below(CRATE)
    newest = max(it.stat().st_mtime for it in (HEAP, Path(__file__)))
    if not kit.is_newest(made, [*below, CRATE]) or newest > made.stat().st_mtime:
        if not all(map(kit.is_current, below)):
            run("rt", "lib", folder=kit.CRATES / CRATE)
        made.parent.mkdir(exist_ok=True)
        with tempfile.TemporaryDirectory(prefix="dukpt-player-") as room:
            link(compiled(kept_bitcode(Path(room)), Path(room)), made)
    return made


def crates_below(crate: str) -> list[str]:
    """The repository's crates that a crate stands on."""
    uses = dict(kit.uses_of_crates())
    found: list[str] = []
    waiting = [*uses[crate]]
    while waiting:
        name = waiting.pop()
        if name in uses and name not in found:
            found.append(name)
            waiting += uses[name]
    return sorted(found)


def kept_bitcode(room: Path) -> Path:
    """What the kit compiles of the crate, which it proves first."""
    found, uses = kit.Kit.found(), dict(kit.uses_of_crates())
    kept = room / "kept.bc"
    words = ["build", "--crate-name", CRATE, "src/lib.rt", "--crate-type", "staticlib"]
    words += ["--target", kit.LINUX, "-L", f"dependency={found.folder / 'rlibs'}"]
    for name in ["std", *uses[CRATE]]:
        words += ["--extern", f"{name}={found.library(name, uses)}"]
    for name in crates_below(CRATE):
        words += ["-L", f"dependency={kit.built(name).parent}"]
    words += ["--antt-project", str(found.folder / "rattle/logic/antt-project.json")]
    words += ["--logic-built", str(found.folder / "logic_built"), "--jobs", "2"]
    words += ["--toolchain", str(keeping_toolchain(room / "toolchain", kept)), "--backend", "llvm"]
    run(str(found.folder / "bin/rattle"), *words, "-o", str(room / "library.a"),
        folder=kit.CRATES / CRATE)
    if not kept.exists():
        raise kit.NotBuilt("the kit's compiler was given no bitcode")
    return kept


def keeping_toolchain(folder: Path, kept: Path) -> Path:
    """The kit's toolchain, but that its compiler keeps the bitcode that it is given."""
    own = toolchain()
    (folder / "bin").mkdir(parents=True)
    (folder / "lib").symlink_to(own / "lib")
    for it in (own / "bin").iterdir():
        if it.name != "clang":
            (folder / "bin" / it.name).symlink_to(it)
    keeper = folder / "bin" / "clang"
    keeper.write_text(KEEPER.format(kept=kept, compiler=own / "bin" / "clang"), encoding="utf-8")
    keeper.chmod(0o755)
    return folder


def compiled(bitcode: Path, room: Path) -> Path:
    """The player and its heap, compiled for WebAssembly, in an archive."""
    clang = str(toolchain() / "bin" / "clang")
    run(clang, f"--target={kit.LINUX}", "--no-default-config", "-S", "-emit-llvm", "-x", "ir",
        bitcode.name, "-o", "machine.ll", folder=room)
    text = (room / "machine.ll").read_text(encoding="utf-8")
    (room / "web.ll").write_text(for_web(text), encoding="utf-8")
    (room / "arena.c").write_bytes(HEAP.read_bytes())
    run(clang, *WEB, "-x", "ir", "web.ll", "-o", "player.o", folder=room)
    run(clang, *WEB, "-ffreestanding", "-nostdinc", "-Wall", "-x", "c", "arena.c", "-o",
        "arena.o", folder=room)
    run(str(toolchain() / "bin" / "llvm-ar"), "rcsD", "player.a", "player.o", "arena.o", folder=room)
    return room / "player.a"


def for_web(text: str) -> str:
    """LLVM's text of a crate for this machine as one for WebAssembly."""
    for pattern, target in TARGETS:
        text, count = re.subn(pattern, lambda _: target, text, flags=re.M)
        if not count:
            raise kit.NotBuilt(f"the kit's bitcode has no line like {pattern}")
    text, count = EXPORT.subn(r'\1 "wasm-export-name"="\2" {', text)
    if not count:
        raise kit.NotBuilt(f"{CRATE} exports nothing")
    return text


def link(archive: Path, made: Path) -> None:
    """Links an archive to a module."""
    run(str(kit.Kit.found().folder / "bin" / "rattle-link"), "--target", kit.WEB, "--toolchain",
        str(toolchain()), "--memory", str(MEMORY), "-o", str(made), str(archive),
        folder=archive.parent)


def toolchain() -> Path:
    return kit.Kit.found().folder / "toolchain"


def run(*words: str, folder: Path) -> None:
    """Runs a command of the kit in a folder. What it says is shown where it fails."""
    ended = subprocess.run(
        words, cwd=folder, stdin=subprocess.DEVNULL, stdout=subprocess.PIPE,
        stderr=subprocess.STDOUT, text=True, errors="replace", check=False)
    if ended.returncode:
        said = ended.stdout[-2000:].rstrip()
        raise kit.NotBuilt(f"{Path(words[0]).name} did not build {CRATE}\n{said}")
