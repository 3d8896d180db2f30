/* Key serial numbers: in argument 1, or in the first where there is no key. */
#include "draw.h"
#include "peer_parts.h"

/* Counters with few one bits and with many, small ones, great ones and zero. */
uint32_t draw_counter(struct chance *chance)
{
    uint32_t counter = below(chance, SPENT_COUNTER);
    switch (below(chance, 8)) {
    case 0:
        return 0;
    case 1:
        return counter;
    case 2:
        return counter % 64;
    case 3:
        return SPENT_COUNTER - 1 - counter % 0x1000;
    default:
        return counter & below(chance, SPENT_COUNTER);
    }
}

void draw_only_number(struct chance *chance, struct argument *given)
{
    number_with(given[0].bytes, draw_counter(chance), given[0].bytes);
}

void draw_number(struct chance *chance, struct argument *given)
{
    draw_only_number(chance, given + 1);
}

void draw_numbers(struct chance *chance, struct argument *given)
{
    for (size_t at = 0; at < given[1].size; at += KSN_BYTES)
        number_with(given[1].bytes + at, draw_counter(chance), given[1].bytes + at);
}

void draw_initial_number(struct chance *chance, struct argument *given)
{
    uint32_t counter = one_in(chance, 8) ? draw_counter(chance) : 0;
    number_with(given[1].bytes, counter, given[1].bytes);
}

void draw_reversed(struct chance *chance, const uint8_t *ksn, uint8_t *reversed)
{
    uint32_t counter = counter_after(draw_counter(chance));
    if (one_in(chance, 12))
        counter = draw_counter(chance);
    if (one_in(chance, 24))
        counter = counter_in(ksn);
    number_with(ksn, counter % SPENT_COUNTER, reversed);
    if (one_in(chance, 16))
        reversed[below(chance, 8)] ^= (uint8_t)(1u << below(chance, 8));
}

void draw_reversing(struct chance *chance, struct argument *given)
{
    draw_number(chance, given);
    draw_reversed(chance, given[1].bytes, given[2].bytes);
}

/* Some states are such that their low byte alone would be right. */
void draw_reversing_state(struct chance *chance, struct argument *given)
{
    draw_reversing(chance, given);
    if (!one_in(chance, 16))
        given[3].number = below(chance, 3) + (one_in(chance, 8) ? 256 * below(chance, 300) : 0);
}
