/* How deep the calls go on the stack, and what they leave there:

       stack SEED CASES

   CASES cases of each call are drawn. Each runs on a stack that is painted before, once without and
   once with the call's wipe behind it: dukpt_wipe_host_stack for the two steps of a host, and
   dukpt_wipe_stack for all others. A line for each call has how many bytes below its caller it used
   at most, and in how many cases a key or a PIN of its arguments was there afterwards, without and
   with the wipe: `done NAME BYTES FOUND LEFT`. The last lines have how many bytes each wipe itself
   leaves as they were, of those that it is to overwrite: `wipe NAME BYTES`. */
#define _GNU_SOURCE
#include "calls.h"
#include "draw.h"
#include "peer_parts.h"

#include <dukpt.h>
#include <stdio.h>
#include <stdlib.h>
#include <string.h>
#include <ucontext.h>

enum { STACK_BYTES = 1 << 19, PAINTS = 2, KEY_PART = 8, LEAST_PIN_SOUGHT = 6, CARD_PIN_AT = 21 };

struct wipe {
    const char *name;
    void (*wipe)(void);
    /* How deep it is to reach. */
    size_t bytes;
};

static const struct wipe wipes[] = {
    {"stack", dukpt_wipe_stack, DUKPT_STACK_BYTES},
    {"host_stack", dukpt_wipe_host_stack, DUKPT_HOST_STACK_BYTES},
};

static const uint8_t paints[PAINTS] = {0xA5, 0x5A};
/* What a case leaves on the stack, for each paint. */
static uint8_t stack[PAINTS][STACK_BYTES] __attribute__((aligned(4096)));

/* What runs on the painted stack: a call, or none, and perhaps the wipe. Its frame ends at the place
   `bottom`, below which all is of the call and of the wipe. */
static struct {
    const struct call *call;
    struct argument arguments[MOST_ARGUMENTS];
    const struct wipe *wipe;
    uint8_t *bottom;
    ucontext_t main, painted;
} run;

static void run_case(void)
{
    __asm__ volatile("mov %%rsp, %0" : "=r"(run.bottom));
    if (run.call != NULL)
        run.call->library(run.arguments);
    if (run.wipe != NULL)
        run.wipe->wipe();
}

/* Runs a case on a stack that is painted before. */
static void run_painted(int paint)
{
    memset(stack[paint], paints[paint], STACK_BYTES);
    if (getcontext(&run.painted) != 0)
        abort();
    run.painted.uc_stack.ss_sp = stack[paint];
    run.painted.uc_stack.ss_size = STACK_BYTES;
    run.painted.uc_link = &run.main;
    makecontext(&run.painted, run_case, 0);
    if (swapcontext(&run.main, &run.painted) != 0)
        abort();
}

/* Runs a case once for each paint, with arguments of its own each time. */
static void run_all(const struct call *call, const struct argument *given, const struct wipe *wipe)
{
    static uint8_t bytes[MOST_ARGUMENTS][MOST_BYTES];
    for (int paint = 0; paint < PAINTS; paint++) {
        for (size_t at = 0; call != NULL && at < argument_count(call); at++) {
            run.arguments[at] = given[at];
            run.arguments[at].bytes = bytes[at];
            memcpy(bytes[at], given[at].bytes, given[at].size);
        }
        run.call = call;
        run.wipe = wipe;
        run_painted(paint);
    }
}

/* Whether a byte has its paint on each stack: by chance something else looks like one of them. */
static int is_painted(size_t place)
{
    return stack[0][place] == paints[0] && stack[1][place] == paints[1];
}

/* Where the frame of what ran ends, from the begin of a stack. */
static size_t bottom(void)
{
    return (size_t)(run.bottom - stack[PAINTS - 1]);
}

/* How many bytes of the stack below its caller were used. */
static size_t depth(void)
{
    size_t place = 0;
    while (place < bottom() && is_painted(place))
        place++;
    return bottom() - place;
}

/* Whether bytes stand on a stack. Zeros do anywhere: an image may have them for a key. */
static int is_there(const uint8_t *bytes, size_t size)
{
    static const uint8_t zeros[MOST_BYTES];
    if (memcmp(bytes, zeros, size) == 0)
        return 0;
    for (int paint = 0; paint < PAINTS; paint++)
        if (memmem(stack[paint], STACK_BYTES, bytes, size) != NULL)
            return 1;
    return 0;
}

/* Whether an argument is a key, or keys one after the other. */
static int is_key(const struct parameter *parameter)
{
    return is_slice(parameter)
           && (parameter->most == 16 || parameter->most == 24
               || (parameter->sizes == FOR_EACH && parameter->least == 16));
}

/* Whether an argument is a PIN that does not stand anywhere by chance. */
static int is_pin(const struct parameter *parameter, const struct argument *given)
{
    return parameter->sizes == FROM_TO && parameter->most == 12 && given->size >= LEAST_PIN_SOUGHT
           && given->size <= parameter->most;
}

/* Whether a key, or a half or a third of it, is on the stack. */
static int is_key_there(const uint8_t *key, size_t size)
{
    for (size_t part = 0; part + KEY_PART <= size; part += KEY_PART)
        if (is_there(key + part, KEY_PART))
            return 1;
    return 0;
}

/* Whether a key is on the stack that a security module holds, if these are the bytes of one. */
static int has_key_of_module(const struct argument *image)
{
    struct module module;
    if (image->size != MODULE_BYTES || !read_module(image->bytes, &module))
        return 0;
    for (size_t at = 0; at < module.key_sets; at++)
        if (is_key_there(module.bases[at], KEY_BYTES))
            return 1;
    return is_key_there(module.lmk, module.lmk_size) || is_key_there(module.zone, module.zone_size);
}

/* Whether the PIN of a card is on the stack. */
static int has_pin_of_card(const struct argument *cards)
{
    for (size_t at = 0; at + CARD_BYTES <= cards->size; at += CARD_BYTES) {
        const uint8_t *pin = cards->bytes + at + CARD_PIN_AT;
        if (pin[-1] >= LEAST_PIN_SOUGHT && pin[-1] <= 12 && is_there(pin, pin[-1]))
            return 1;
    }
    return 0;
}

/* Whether a PIN or a key among arguments, or a half or a third of a key, is on the stack. */
static int has_secret(const struct call *call, const struct argument *arguments)
{
    for (size_t at = 0; at < argument_count(call); at++) {
        const struct parameter *parameter = &call->parameters[at];
        const struct argument *it = &arguments[at];
        if (is_pin(parameter, it) && is_there(it->bytes, it->size))
            return 1;
        if (is_key(parameter) && is_key_there(it->bytes, it->size))
            return 1;
        if (parameter->most == MODULE_BYTES && has_key_of_module(it))
            return 1;
        if (parameter->sizes == PARTS && parameter->least == CARD_BYTES && has_pin_of_card(it))
            return 1;
    }
    return 0;
}

/* The same of the arguments as they are given, and as the call leaves them. */
static int leaves_secret(const struct call *call, const struct argument *given)
{
    return has_secret(call, given) || has_secret(call, run.arguments);
}

static const struct wipe *wipe_of(const struct call *call)
{
    return &wipes[strncmp(call->name, "dukpt_host_", strlen("dukpt_host_")) == 0];
}

static void try_call(struct chance *chance, const struct call *call, long cases)
{
    static uint8_t bytes[MOST_ARGUMENTS][MOST_BYTES];
    struct argument given[MOST_ARGUMENTS] = {{0}};
    size_t deepest = 0;
    long found = 0, left = 0;
    for (size_t at = 0; at < MOST_ARGUMENTS; at++)
        given[at].bytes = bytes[at];
    for (; cases > 0; cases--) {
        draw_arguments(chance, call, given);
        run_all(call, given, NULL);
        deepest = depth() > deepest ? depth() : deepest;
        found += leaves_secret(call, given);
        run_all(call, given, wipe_of(call));
        left += leaves_secret(call, given);
    }
    printf("done %s %lu %ld %ld\n", call->name, (unsigned long)deepest, found, left);
}

static void try_wipe(const struct wipe *wipe)
{
    long left = 0;
    run_all(NULL, NULL, wipe);
    for (size_t place = bottom() - wipe->bytes; place < bottom(); place++)
        left += is_painted(place);
    printf("wipe %s %ld\n", wipe->name, left);
}

int main(int words, char **word)
{
    struct chance chance;
    if (words != 3)
        return 2;
    chance.state = strtoull(word[1], NULL, 10);
    for (size_t at = 0; at < call_count; at++)
        try_call(&chance, &calls[at], atol(word[2]));
    for (size_t at = 0; at < sizeof wipes / sizeof *wipes; at++)
        try_wipe(&wipes[at]);
    return 0;
}
