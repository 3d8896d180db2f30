/* Every size of each slice of each call, from 0 to twice the right one:

       lengths SEED CASES [exact]

   CASES cases that are done are drawn of each call. In each of them one slice after the other is
   given every size. Where the size is wrong the call has to answer with the fault of the slice, and
   in any case what the peer answers. A line for each call has how many slices and wrong sizes there
   were. */
#include "calls.h"
#include "draw.h"
#include "trial.h"

#include <stdio.h>
#include <stdlib.h>
#include <string.h>

static void draw_done(struct trial *trial, struct chance *chance, const struct call *call)
{
    do
        draw_arguments(chance, call, trial->given);
    while (try_case(trial, call) != 0);
}

/* Whether a key block has whole blocks, and not too many of them, with this padding behind its key
   and perhaps optional blocks before that. */
static int is_filling(const struct call *call, const struct argument *given, size_t at,
                      size_t padding)
{
    size_t payload = 2 + given[at - 1].size + padding;
    size_t optional = call->parameters[at - 2].sizes == OPTIONAL_BLOCKS ? given[at - 2].size : 0;
    return payload % 8 == 0 && 32 + optional + 2 * payload <= 512;
}

static int is_right(const struct call *call, const struct argument *given, size_t at, size_t size,
                    size_t drawn)
{
    const struct parameter *parameter = &call->parameters[at];
    switch (parameter->sizes) {
    case EXACTLY:
        return size == parameter->most;
    case ROOM:
        return size >= parameter->most;
    case DOUBLE_OR_TRIPLE:
        return size == 16 || size == 24;
    case FROM_TO:
        return size >= parameter->least && size <= parameter->most;
    case AT_LEAST:
        return size >= parameter->least;
    case WHOLE_BLOCKS:
        return size % 8 == 0;
    case PARTS:
        return size % parameter->least == 0
               && (parameter[1].sizes != FOR_EACH
                   || given[at + 1].size >= size_for_each(call, given, at + 1));
    case FOR_EACH:
        return size >= size_for_each(call, given, at);
    case AS_DRAWN:
        return size == drawn;
    default:
        return is_filling(call, given, at, size);
    }
}

static void report_size(const struct trial *trial, const struct call *call, size_t at,
                        uint32_t status)
{
    char what[80];
    snprintf(what, sizeof what, "status %u with argument %u of %u bytes", (unsigned)status,
             (unsigned)at, (unsigned)trial->given[at].size);
    report(trial, call, what);
}

/* Whether the size alone says that a slice is right. Of optional blocks that are cut, or have bytes
   behind them, the peer alone tells. */
static int is_judged(const struct parameter *parameter)
{
    return parameter->sizes != OPTIONAL_BLOCKS;
}

/* Tries every size of one slice, and gives how many of them were wrong. */
static long try_sizes(struct trial *trial, struct chance *chance, const struct call *call,
                      size_t at)
{
    struct argument *slice = &trial->given[at];
    uint8_t drawn[MOST_BYTES];
    size_t size = slice->size;
    long wrong = 0;
    memcpy(drawn, slice->bytes, size);
    for (size_t tried = 0; tried <= 2 * call->parameters[at].most; tried++) {
        uint32_t status;
        slice->size = size;
        resize(chance, slice, tried);
        status = try_case(trial, call);
        if (!is_judged(&call->parameters[at]))
            continue;
        if ((status == call->parameters[at].fault) == is_right(call, trial->given, at, tried, size))
            report_size(trial, call, at, status);
        wrong += status == call->parameters[at].fault;
    }
    memcpy(slice->bytes, drawn, size);
    slice->size = size;
    return wrong;
}

static void try_call(struct trial *trial, struct chance *chance, const struct call *call,
                     long cases)
{
    long wrong = 0, slices = 0;
    for (; cases > 0; cases--) {
        draw_done(trial, chance, call);
        for (size_t at = 0; at < argument_count(call); at++) {
            if (!is_slice(&call->parameters[at]))
                continue;
            slices++;
            wrong += try_sizes(trial, chance, call, at);
        }
    }
    printf("done %s %ld slices, %ld wrong sizes\n", call->name, slices, wrong);
}

int main(int words, char **word)
{
    struct trial trial;
    struct chance chance;
    int is_exact = words == 4 && strcmp(word[3], "exact") == 0;
    if (words != 3 && !is_exact)
        return 2;
    open_trial(&trial, !is_exact);
    chance.state = strtoull(word[1], NULL, 10);
    for (size_t i = 0; i < call_count; i++)
        try_call(&trial, &chance, &calls[i], atol(word[2]));
    close_trial(&trial);
    return 0;
}
