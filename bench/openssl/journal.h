/* A host over a journal: requests in, answers out, and payments kept in a file (docs/FORMATS.md). */
#ifndef JOURNAL_H
#define JOURNAL_H

#include "work.h"

enum { LONGEST = 62, GROUP = 1024, NONE = 0xFF };

/* What is kept of a request that was accepted. */
struct payment {
    uint8_t ksn[SERIAL], mac[BLOCK], code;
    uint32_t amount;
};

/* numbers.c: the payments that were accepted, by their numbers. */
struct numbers *new_numbers(size_t room);
const struct payment *payment_with(const struct numbers *numbers, const uint8_t ksn[SERIAL]);
void add_payment(struct numbers *numbers, const struct payment *payment);

/* journal.c: a file of payments, which ends the program where it is none or a call over it fails. It has
   room for so many payments behind its header, and keeps so many. */
struct journal {
    int file;
    uint8_t identity[8];
    size_t room, kept;
};
struct journal open_journal(const char *path, struct numbers **numbers);
void append(struct journal *journal, const struct payment *group, size_t count);

/* host.c: the answer to the contents of a frame, with its length in front, and how many bytes that
   are. A payment that it makes is added to the group. */
struct group {
    struct payment payments[GROUP];
    size_t count;
};
void set_up_host(void);
size_t answer_to(const uint8_t *contents, size_t length, struct numbers *numbers, size_t room,
                 struct group *group, uint8_t answer[LONGEST]);

#endif
