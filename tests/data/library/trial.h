/* Runs a case of a call, by the library and by the peer, and compares. */
#ifndef TRIAL_H
#define TRIAL_H

#include "calls.h"

struct trial {
    /* The case, the same as the peer leaves it, and the same as the library does. */
    struct argument given[MOST_ARGUMENTS], wanted[MOST_ARGUMENTS], placed[MOST_ARGUMENTS];
    /* With pages each slice ends where memory ends that can be read; else it has as much memory of
       its own as it is long, so that tools that watch memory see each other access. */
    int has_pages;
};

void open_trial(struct trial *trial, int has_pages);
void close_trial(struct trial *trial);

/* Gives the status. The program ends with a report where library and peer differ, and where the
   library changes what it must not: an input, an output on a fault, bytes beside a slice. */
uint32_t try_case(struct trial *trial, const struct call *call);

/* Ends the program, with the case as it is. */
void report(const struct trial *trial, const struct call *call, const char *what);

#endif
