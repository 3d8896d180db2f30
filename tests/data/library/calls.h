/* The calls of the library, with the sizes of their slices, and the statuses that they answer. */
#ifndef CALLS_H
#define CALLS_H

#include "chance.h"

#include <stddef.h>
#include <stdint.h>

enum { MOST_ARGUMENTS = 7, MOST_BYTES = 9472 };

/* What an argument is: bytes that are read, bytes that are written, a number that is written, a
   number that is read. */
enum kind { NONE, BYTES, BUFFER, COUNT, NUMBER };

/* Which sizes a slice may have. */
enum sizes {
    ANY_SIZE,
    EXACTLY,          /* `most` */
    ROOM,             /* `most`, or more */
    DOUBLE_OR_TRIPLE, /* 16 or 24 */
    FROM_TO,          /* `least` to `most` */
    AT_LEAST,         /* `least`, or more: up to `most` are drawn */
    WHOLE_BLOCKS,     /* a multiple of 8 */
    PARTS,            /* a multiple of `least` */
    FOR_EACH,         /* `least` for each part of the slice before it, or more */
    AS_DRAWN,         /* that of the drawn case alone */
    OPTIONAL_BLOCKS,  /* optional blocks as they are drawn, or none */
    FILLING_BLOCKS,   /* padding: with the length of the key and the key it makes whole blocks */
};

struct parameter {
    enum kind kind;
    enum sizes sizes;
    size_t least, most;
    /* What the call answers where only this slice has another size. */
    uint32_t fault;
};

/* An argument: a slice, or a number. */
struct argument {
    uint8_t *bytes;
    size_t size;
    uint32_t number;
};

struct call {
    const char *name;
    /* The library's function, and the same by the peer, over the same arguments. */
    uint32_t (*library)(const struct argument *);
    uint32_t (*peer)(struct argument *);
    /* Draws arguments anew, most of which the call takes; those of the parameters are there. */
    void (*draw)(struct chance *, struct argument *);
    /* A one at the place of each status that the call can answer. */
    uint64_t statuses;
    struct parameter parameters[MOST_ARGUMENTS];
};

extern const struct call calls[];
extern const size_t call_count;

/* How many arguments a call has. */
size_t argument_count(const struct call *call);

/* Whether an argument is a slice. */
int is_slice(const struct parameter *parameter);

/* How many bytes a slice with so many for each part of the slice before it has to have at least. */
size_t size_for_each(const struct call *call, const struct argument *given, size_t at);

#endif
