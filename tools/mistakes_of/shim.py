"""A shared library in the place of libdukpt.so.0, whose calls are made in a copy of the library.

So an adapter of the true library is one of a copy with a mistake too. The environment names the
program that has the copy, and the copy's number there. A process that loads the library starts the
program at its first call, and ends with it.
"""
from __future__ import annotations

from pathlib import Path
from typing import Sequence

from library_of.build import SHARED, run
from library_of.calls import BUFFER, BYTES, COUNT, Call, Parameter

PROGRAM, COPY = "DUKPT_MUTANT_PROGRAM", "DUKPT_MUTANT_COPY"

FRONT = r"""/* Calls of libdukpt.so.0 that are made in a copy of it, by another process. */
#include <spawn.h>
#include <stdint.h>
#include <stdio.h>
#include <stdlib.h>
#include <string.h>
#include <unistd.h>

extern char **environ;

/* An argument: its bytes, and where it goes if it is written. */
struct part { const void *read; void *written; size_t size; };

static FILE *calls, *answers;

static void fail(const char *why)
{
    fprintf(stderr, "the copy of the library ended: %s\n", why);
    _exit(70);
}

static void start(void)
{
    char *program = getenv("@PROGRAM@"), *words[] = {program, NULL};
    int to[2], from[2];
    pid_t child;
    posix_spawn_file_actions_t actions;
    if (program == NULL || pipe(to) != 0 || pipe(from) != 0)
        fail("it cannot be started");
    posix_spawn_file_actions_init(&actions);
    posix_spawn_file_actions_adddup2(&actions, to[0], 0);
    posix_spawn_file_actions_adddup2(&actions, from[1], 1);
    posix_spawn_file_actions_addclose(&actions, to[1]);
    posix_spawn_file_actions_addclose(&actions, from[0]);
    if (posix_spawn(&child, program, &actions, NULL, words, environ) != 0)
        fail("it cannot be started");
    close(to[0]);
    close(from[1]);
    calls = fdopen(to[1], "wb");
    answers = fdopen(from[0], "rb");
}

static uint32_t call(unsigned number, const struct part *parts, unsigned count)
{
    static unsigned char dropped[65536];
    unsigned char head[3], answer[4];
    if (calls == NULL)
        start();
    head[0] = (unsigned char)atoi(getenv("@COPY@"));
    head[1] = (unsigned char)number;
    head[2] = (unsigned char)count;
    fwrite(head, 1, 3, calls);
    for (unsigned i = 0; i < count; i++) {
        unsigned char size[2] = {(unsigned char)(parts[i].size >> 8), (unsigned char)parts[i].size};
        if (parts[i].size > 65535)
            fail("an argument is too long for it");
        fwrite(size, 1, 2, calls);
        fwrite(parts[i].read, 1, parts[i].size, calls);
    }
    if (fflush(calls) != 0 || fread(answer, 1, 4, answers) != 4)
        fail("it does not answer");
    for (unsigned i = 0; i < count; i++) {
        void *to = parts[i].written ? parts[i].written : dropped;
        if (fread(to, 1, parts[i].size, answers) != parts[i].size)
            fail("it does not answer");
    }
    return answer[0] | (uint32_t)answer[1] << 8 | (uint32_t)answer[2] << 16
        | (uint32_t)answer[3] << 24;
}

/* The copy is another process: nothing of its calls is on this stack. */
void dukpt_wipe_host_stack(void)
{
}
"""

CALL = """
uint32_t {name}({parameters})
{{
    const struct part parts[] = {{{parts}}};
    return call({number}, parts, {count});
}}
"""

# As C has each kind of argument, and as a part.
FORMS = {
    BYTES: ("const uint8_t *{0}, size_t {0}_size", "{{{0}, NULL, {0}_size}}"),
    BUFFER: ("uint8_t *{0}, size_t {0}_size", "{{{0}, {0}, {0}_size}}"),
    COUNT: ("uint32_t *{0}", "{{{0}, {0}, 4}}"),
}
OF_NUMBER = ("uint32_t {0}", "{{&{0}, NULL, 4}}")


def build_shim(calls: Sequence[Call], folder: Path) -> Path:
    """Builds the library in a folder."""
    source, made = folder / "shim.c", folder / SHARED
    front = FRONT.replace("@PROGRAM@", PROGRAM).replace("@COPY@", COPY)
    source.write_text(front + "".join(spoken(at, it) for at, it in enumerate(calls)),
                      encoding="utf-8")
    run("gcc", "-O2", "-std=gnu11", "-shared", "-fPIC", f"-Wl,-soname,{SHARED}", source, "-o", made)
    return made


def spoken(number: int, call: Call) -> str:
    """A call in C."""
    forms = [form(it) for it in call.parameters]
    parts = ", ".join(part for _, part in forms) or "{NULL, NULL, 0}"
    return CALL.format(name=call.export, number=number, count=len(forms), parts=parts,
                       parameters=", ".join(words for words, _ in forms) or "void")


def form(parameter: Parameter) -> tuple[str, str]:
    """A parameter as C has it, and as a part."""
    words, part = FORMS.get(parameter.kind, OF_NUMBER)
    return words.format(parameter.name), part.format(parameter.name)
