/* PINs, PANs and PIN blocks. */
#include "draw.h"
#include "peer_parts.h"

void draw_digits(struct chance *chance, uint8_t *digits, size_t count)
{
    for (size_t i = 0; i < count; i++)
        digits[i] = (uint8_t)('0' + below(chance, 10));
}

/* Makes a text of digits, rarely of another length or with another byte. */
static void draw_text(struct chance *chance, struct argument *text)
{
    if (one_in(chance, 16))
        resize(chance, text, below(chance, 40));
    draw_digits(chance, text->bytes, text->size);
    if (text->size > 0 && one_in(chance, 12)) {
        static const uint8_t next_to_digits[] = {'0' - 1, '9' + 1, 0, 0xB0, ' '};
        uint8_t *byte = &text->bytes[below(chance, (uint32_t)text->size)];
        draw_bytes(chance, byte, 1);
        if (one_in(chance, 2))
            *byte = next_to_digits[below(chance, sizeof next_to_digits)];
    }
}

void draw_pin_and_pan(struct chance *chance, struct argument *given)
{
    draw_text(chance, &given[0]);
    draw_text(chance, &given[1]);
}

void draw_payment(struct chance *chance, struct argument *given)
{
    draw_pin_and_pan(chance, given + 2);
    if (one_in(chance, 8))
        given[4].number = one_in(chance, 2) ? 0 : UINT32_MAX;
}

/* The block of a PIN under the PAN, or one that has a byte or a nibble of it changed. */
void draw_pin_block(struct chance *chance, struct argument *given)
{
    uint8_t pin[15], pan[MOST_DIGITS];
    size_t digits = 4 + below(chance, 9);
    draw_text(chance, &given[1]);
    draw_digits(chance, pin, sizeof pin);
    draw_digits(chance, pan, sizeof pan);
    if (one_in(chance, 10))
        digits = below(chance, sizeof pin);
    if (are_digits(given[1].bytes, given[1].size) && given[1].size > 0)
        block_of_pin(pin, digits, given[1].bytes, given[1].size, given[0].bytes);
    else
        block_of_pin(pin, digits, pan, sizeof pan, given[0].bytes);
    if (one_in(chance, 4))
        given[0].bytes[below(chance, BLOCK_BYTES)] ^= (uint8_t)(1u << below(chance, 8));
}
