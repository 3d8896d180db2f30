/* Numbers at random: the same seed draws the same ones. */
#ifndef CHANCE_H
#define CHANCE_H

#include <stddef.h>
#include <stdint.h>

struct chance {
    uint64_t state;
};

/* A number below another one, which is not 0. */
uint32_t below(struct chance *chance, uint32_t end);

/* Whether a chance of one in so many came. */
int one_in(struct chance *chance, uint32_t many);

void draw_bytes(struct chance *chance, uint8_t *bytes, size_t length);

#endif
