/* Random cases of each call, by the library and by the peer:

       random SEED CASES PRINTED [exact]

   Of a call over a security module, which takes longer, there are a tenth of the CASES.
   The first PRINTED cases of each call are printed: `case NAME`, the arguments before, `->`, the
   status, and the arguments after. At the end comes a line for each call, with how many cases had
   each status: `done NAME STATUS:CASES ..`. With `exact` each slice has memory of its own. Else,
   where CASES are 10,000 at least, each status of a call has to come. */
#include "calls.h"
#include "draw.h"
#include "text.h"
#include "trial.h"

#include <dukpt.h>
#include <stdio.h>
#include <stdlib.h>
#include <string.h>

enum { STATUSES = 46, ENOUGH = 10000, TENTH = 10 };

/* Gives one slice of a case another size, up to twice as long. */
static void spoil_size(struct chance *chance, const struct call *call, struct argument *given)
{
    size_t at = below(chance, (uint32_t)argument_count(call));
    size_t most = 2 * call->parameters[at].most;
    if (is_slice(&call->parameters[at]))
        resize(chance, &given[at], below(chance, (uint32_t)most + 1));
}

static void print_case(const struct trial *trial, const struct call *call, uint32_t status)
{
    char word[16];
    size_t count = argument_count(call);
    printf("case %s ", call->name);
    print_arguments("", trial->given, call->parameters, count);
    snprintf(word, sizeof word, " -> %u ", (unsigned)status);
    print_arguments(word, trial->wanted, call->parameters, count);
    printf("\n");
}

static void report_statuses(const struct call *call, const long found[STATUSES], int all)
{
    printf("done %s", call->name);
    for (int status = 0; status < STATUSES; status++) {
        if (found[status] > 0)
            printf(" %d:%ld", status, found[status]);
        if (all && found[status] == 0 && (call->statuses >> status & 1) != 0) {
            printf("\n%s: status %d did not come\n", call->name, status);
            exit(1);
        }
    }
    printf("\n");
}

/* How many cases a call has: a tenth where each unwraps the key blocks of a module. */
static long cases_of(const struct call *call, long cases)
{
    int unwraps = call->statuses >> DUKPT_FAULT_NOT_A_MODULE & 1;
    return unwraps ? (cases + TENTH - 1) / TENTH : cases;
}

static void try_call(struct trial *trial, struct chance *chance, const struct call *call,
                     long cases, long printed)
{
    long found[STATUSES] = {0};
    for (long i = 0; i < cases; i++) {
        uint32_t status;
        draw_arguments(chance, call, trial->given);
        if (one_in(chance, 16))
            spoil_size(chance, call, trial->given);
        status = try_case(trial, call);
        found[status]++;
        if (i < printed)
            print_case(trial, call, status);
    }
    report_statuses(call, found, trial->has_pages && cases >= ENOUGH);
}

int main(int words, char **word)
{
    struct trial trial;
    struct chance chance;
    int is_exact = words == 5 && strcmp(word[4], "exact") == 0;
    if (words != 4 && !is_exact)
        return 2;
    if (dukpt_version() != DUKPT_VERSION) {
        printf("dukpt_version: %u\n", (unsigned)dukpt_version());
        return 1;
    }
    open_trial(&trial, !is_exact);
    chance.state = strtoull(word[1], NULL, 10);
    for (size_t i = 0; i < call_count; i++)
        try_call(&trial, &chance, &calls[i], cases_of(&calls[i], atol(word[2])), atol(word[3]));
    close_trial(&trial);
    return 0;
}
