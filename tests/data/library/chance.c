#include "chance.h"

#include <string.h>

/* The generator splitmix64. */
static uint64_t next_number(struct chance *chance)
{
    uint64_t number = chance->state += 0x9E3779B97F4A7C15u;
    number = (number ^ number >> 30) * 0xBF58476D1CE4E5B9u;
    number = (number ^ number >> 27) * 0x94D049BB133111EBu;
    return number ^ number >> 31;
}

uint32_t below(struct chance *chance, uint32_t end)
{
    return (uint32_t)((next_number(chance) >> 32) * end >> 32);
}

int one_in(struct chance *chance, uint32_t many)
{
    return below(chance, many) == 0;
}

void draw_bytes(struct chance *chance, uint8_t *bytes, size_t length)
{
    while (length > 0) {
        uint64_t number = next_number(chance);
        size_t count = length < sizeof number ? length : sizeof number;
        memcpy(bytes, &number, count);
        bytes += count;
        length -= count;
    }
}
