#define _DEFAULT_SOURCE
#include "trial.h"

#include "text.h"

#include <stdio.h>
#include <stdlib.h>
#include <string.h>
#include <sys/mman.h>

/* The bytes of the pages of a slice, those before it there, and what these hold. */
enum { PAGES = 3 * 4096, GUARD = 32, GUARD_BYTE = 0xA5 };

static uint8_t *new_bytes(size_t size)
{
    uint8_t *bytes = malloc(size);
    if (bytes == NULL)
        abort();
    return bytes;
}

/* The end of pages behind which no memory is. */
static uint8_t *new_end(void)
{
    int way = MAP_PRIVATE | MAP_ANONYMOUS;
    uint8_t *pages = mmap(NULL, 2 * PAGES, PROT_READ | PROT_WRITE, way, -1, 0);
    if (pages == MAP_FAILED || mprotect(pages + PAGES, PAGES, PROT_NONE) != 0)
        abort();
    return pages + PAGES;
}

static uint8_t *ends[MOST_ARGUMENTS];

void open_trial(struct trial *trial, int has_pages)
{
    memset(trial, 0, sizeof *trial);
    trial->has_pages = has_pages;
    for (size_t i = 0; i < MOST_ARGUMENTS; i++) {
        trial->given[i].bytes = new_bytes(MOST_BYTES);
        trial->wanted[i].bytes = new_bytes(MOST_BYTES);
        ends[i] = new_end();
    }
}

void close_trial(struct trial *trial)
{
    for (size_t i = 0; i < MOST_ARGUMENTS; i++) {
        free(trial->given[i].bytes);
        free(trial->wanted[i].bytes);
        munmap(ends[i] - PAGES, 2 * PAGES);
    }
}

static void place(struct trial *trial, size_t at)
{
    const struct argument *given = &trial->given[at];
    struct argument *placed = &trial->placed[at];
    *placed = *given;
    if (trial->has_pages) {
        placed->bytes = ends[at] - given->size;
        memset(placed->bytes - GUARD, GUARD_BYTE, GUARD);
    } else {
        placed->bytes = new_bytes(given->size);
    }
    memcpy(placed->bytes, given->bytes, given->size);
}

static void prepare(struct trial *trial, size_t count)
{
    for (size_t i = 0; i < count; i++) {
        uint8_t *bytes = trial->wanted[i].bytes;
        trial->wanted[i] = trial->given[i];
        trial->wanted[i].bytes = bytes;
        memcpy(bytes, trial->given[i].bytes, trial->given[i].size);
        place(trial, i);
    }
}

static int is_guarded(const struct argument *placed)
{
    for (int i = 1; i <= GUARD; i++)
        if (placed->bytes[-i] != GUARD_BYTE)
            return 0;
    return 1;
}

static int is_same(const struct argument *one, const struct argument *other)
{
    return memcmp(one->bytes, other->bytes, other->size) == 0;
}

static void compare(struct trial *trial, const struct call *call, uint32_t status, uint32_t wanted)
{
    char what[80];
    if (status != wanted) {
        snprintf(what, sizeof what, "status %u, and not %u", (unsigned)status, (unsigned)wanted);
        report(trial, call, what);
    }
    for (size_t i = 0; i < argument_count(call); i++) {
        const struct argument *placed = &trial->placed[i];
        int is_read = call->parameters[i].kind == BYTES;
        if (call->parameters[i].kind == NUMBER)
            continue;
        snprintf(what, sizeof what, "status %u, argument %u ", (unsigned)status, (unsigned)i);
        if ((is_read || status != 0) && !is_same(placed, &trial->given[i]))
            report(trial, call, strcat(what, "is changed"));
        if (!is_same(placed, &trial->wanted[i]))
            report(trial, call, strcat(what, "is another"));
        if (trial->has_pages && !is_guarded(placed))
            report(trial, call, strcat(what, "is written before its begin"));
    }
}

uint32_t try_case(struct trial *trial, const struct call *call)
{
    size_t count = argument_count(call);
    uint32_t status, wanted;
    prepare(trial, count);
    status = call->library(trial->placed);
    wanted = call->peer(trial->wanted);
    compare(trial, call, status, wanted);
    if ((call->statuses >> status & 1) == 0)
        report(trial, call, "a status that the call has not");
    for (size_t i = 0; i < count && !trial->has_pages; i++)
        free(trial->placed[i].bytes);
    return status;
}

void report(const struct trial *trial, const struct call *call, const char *what)
{
    size_t count = argument_count(call);
    printf("%s: %s\n", call->name, what);
    print_arguments("given ", trial->given, call->parameters, count);
    print_arguments("\nanswered ", trial->placed, call->parameters, count);
    print_arguments("\nwanted ", trial->wanted, call->parameters, count);
    printf("\n");
    exit(1);
}
