/* Key serial numbers at random, as crates/duk_bench/src/random.rt has them, and their keys. */
#include "work.h"

#include <stdio.h>

enum { LAST_COUNTER = 0x1FFFFF, MOST_ONES = 10 };

/* Marsaglia's generator xorshift64: the numbers need only differ, and be the same in each program. */
static uint64_t next_random(uint64_t *state)
{
    *state ^= *state << 13;
    *state ^= *state >> 7;
    *state ^= *state << 17;
    return *state;
}

/* The low bits of a number as a counter. Where they have more than ten ones, the others are at most
   ten. */
static uint32_t counter_of(uint64_t number)
{
    uint32_t counter = number & LAST_COUNTER;
    int ones = __builtin_popcount(counter);
    return 1 <= ones && ones <= MOST_ONES ? counter : LAST_COUNTER - counter;
}

/* A key serial number with a usable counter. */
static void next_serial(uint64_t *state, uint8_t ksn[SERIAL])
{
    uint64_t number = next_random(state);
    number = (number & ~(uint64_t)LAST_COUNTER) | counter_of(number);
    ksn[0] = ksn[1] = 0xFF;
    for (int i = 0; i < BLOCK; i++)
        ksn[2 + i] = (uint8_t)(number >> (56 - 8 * i));
}

void draw_serials(uint64_t *state, uint8_t *ksns, long count)
{
    for (; count > 0; count--, ksns += SERIAL)
        next_serial(state, ksns);
}

void derive_at_random(long count)
{
    uint8_t bdk[KEY], ksn[SERIAL], key[KEY];
    uint64_t state = RANDOM;
    read_hex("0123456789ABCDEFFEDCBA9876543210", bdk, KEY);
    while (count-- > 0) {
        next_serial(&state, ksn);
        derive(bdk, ksn, key);
        fwrite(key, 1, KEY, stdout);
    }
}
