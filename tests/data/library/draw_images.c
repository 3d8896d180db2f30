/* Images of terminals, in argument 0. The keys in them are random bytes: an image may have any. */
#include "draw.h"
#include "peer_parts.h"

#include <string.h>

static void draw_iksn(struct chance *chance, uint8_t *iksn)
{
    draw_bytes(chance, iksn, KSN_BYTES);
    number_with(iksn, 0, iksn);
}

static void draw_registers(struct chance *chance, struct registers *registers)
{
    memset(registers, 0, sizeof *registers);
    draw_iksn(chance, registers->iksn);
    do
        registers->counter = draw_counter(chance);
    while (!is_usable(registers->counter));
    if (one_in(chance, 8))
        registers->counter = SPENT_COUNTER;
    for (int place = 0; place < PLACES; place++)
        if (is_held(registers->counter, place))
            draw_bytes(chance, registers->keys[place], KEY_BYTES);
    registers->past_count = one_in(chance, 4) ? MOST_PAST : below(chance, MOST_PAST);
    for (size_t i = 0; i < registers->past_count; i++)
        draw_iksn(chance, registers->past[i]);
}

/* Breaks one of the rules of registers, or none by chance. */
static void spoil_registers(struct chance *chance, struct registers *registers)
{
    int place = (int)below(chance, PLACES);
    switch (below(chance, 5)) {
    case 0:
        registers->counter = below(chance, 2 * SPENT_COUNTER);
        break;
    case 1:
        registers->keys[place][below(chance, KEY_BYTES)] = 1;
        break;
    case 2:
        registers->iksn[9] |= 1;
        break;
    case 3:
        memcpy(registers->past[below(chance, MOST_PAST)], registers->iksn, KSN_BYTES);
        break;
    default:
        memcpy(registers->past[0], registers->past[below(chance, MOST_PAST)], KSN_BYTES);
    }
}

/* Changes bytes of an image, anywhere, in its version or in the number of its past ones. */
static void spoil_image(struct chance *chance, struct argument *image)
{
    static const size_t telling[] = {0, 7, 8, 9, 11, 350, 430};
    size_t at = below(chance, (uint32_t)image->size);
    if (one_in(chance, 2))
        at = telling[below(chance, sizeof telling / sizeof *telling)];
    if (at < image->size)
        draw_bytes(chance, image->bytes + at, 1);
}

static void put_registers(struct chance *chance, const struct registers *registers,
                          struct argument *image)
{
    image->size = IMAGE_BYTES;
    write_image(registers, image->bytes);
    if (one_in(chance, 6)) {
        image->bytes[0] = 1;
        image->size = IMAGE_1_BYTES;
    }
    if (one_in(chance, 10))
        spoil_image(chance, image);
    if (one_in(chance, 20))
        resize(chance, image, below(chance, 2 * IMAGE_BYTES));
}

void draw_image(struct chance *chance, struct argument *given)
{
    struct registers registers;
    draw_registers(chance, &registers);
    if (one_in(chance, 8))
        spoil_registers(chance, &registers);
    put_registers(chance, &registers, &given[0]);
}

void draw_reload(struct chance *chance, struct argument *given)
{
    struct registers registers;
    draw_registers(chance, &registers);
    number_with(given[2].bytes, one_in(chance, 16) ? draw_counter(chance) : 0, given[2].bytes);
    if (one_in(chance, 12))
        memcpy(given[2].bytes, registers.iksn, KSN_BYTES);
    else if (one_in(chance, 12))
        memcpy(given[2].bytes, registers.past[below(chance, MOST_PAST)], KSN_BYTES);
    if (one_in(chance, 12))
        spoil_registers(chance, &registers);
    put_registers(chance, &registers, &given[0]);
}
