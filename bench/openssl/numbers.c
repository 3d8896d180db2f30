/* The payments that a host over a journal can answer again, in a table by their numbers. */
#include "journal.h"

#include <stdlib.h>
#include <string.h>

/* Open places have a code of NONE. There are a power of two of them, and at most half are taken. */
struct numbers {
    struct payment *places;
    size_t mask;
};

struct numbers *new_numbers(size_t room)
{
    struct numbers *made = malloc(sizeof *made);
    size_t count = 2;
    while (count < 2 * room)
        count *= 2;
    if (made == NULL || (made->places = malloc(count * sizeof *made->places)) == NULL)
        abort();
    for (size_t i = 0; i < count; i++)
        made->places[i].code = NONE;
    made->mask = count - 1;
    return made;
}

/* The place of a number: that of its payment, or the one where it is to stand. */
static struct payment *place_of(const struct numbers *numbers, const uint8_t ksn[SERIAL])
{
    uint64_t low = 0;
    for (int i = 2; i < SERIAL; i++)
        low = low << 8 | ksn[i];
    size_t at = (size_t)((low * 0x9E3779B97F4A7C15u) >> 32);
    for (;; at++) {
        struct payment *place = &numbers->places[at & numbers->mask];
        if (place->code == NONE || memcmp(place->ksn, ksn, SERIAL) == 0)
            return place;
    }
}

const struct payment *payment_with(const struct numbers *numbers, const uint8_t ksn[SERIAL])
{
    const struct payment *place = place_of(numbers, ksn);
    return place->code == NONE ? NULL : place;
}

void add_payment(struct numbers *numbers, const struct payment *payment)
{
    *place_of(numbers, payment->ksn) = *payment;
}
