/* What the examples in C have in common. */
#ifndef EXAMPLE_H
#define EXAMPLE_H

#include <dukpt.h>
#include <stdio.h>
#include <stdlib.h>

/* Prints a name, and bytes in hexadecimal. */
static inline void show(const char *name, const uint8_t *bytes, size_t size)
{
    printf("%s ", name);
    for (size_t at = 0; at < size; at++)
        printf("%02X", bytes[at]);
    putchar('\n');
}

/* Ends the program where a call is refused. */
static inline void demand(const char *call, uint32_t status)
{
    if (status != DUKPT_OK) {
        fprintf(stderr, "%s: %s\n", call, dukpt_status_text(status));
        exit(1);
    }
}

#endif
