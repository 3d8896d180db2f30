/* Key blocks: fields and padding of those that are written, texts of those that are read. */
#include "draw.h"
#include "peer_parts.h"

#include <stdio.h>
#include <string.h>

enum {
    FRONT_BYTES = 16,
    FIELDS_AT = 5,
    ALGORITHM = 2, /* where it stands in the fields */
    MOST_FRONT = 1024,
    MOST_COUNT = 3,
    LONGEST_BLOCK = 255
};

static const uint8_t NEXT_TO_PRINTED[] = {0x1F, 0x7F, 0x80, 0};

static void draw_printed(struct chance *chance, uint8_t *text, size_t size)
{
    for (size_t i = 0; i < size; i++)
        text[i] = (uint8_t)(0x20 + below(chance, 0x7F - 0x20));
}

static void draw_fields(struct chance *chance, struct argument *fields)
{
    draw_printed(chance, fields->bytes, HEADER_BYTES);
    if (one_in(chance, 12))
        fields->bytes[below(chance, HEADER_BYTES)] = NEXT_TO_PRINTED[below(chance, 4)];
}

static void draw_padding(struct chance *chance, struct argument *padding)
{
    if (one_in(chance, 8))
        resize(chance, padding, below(chance, 40));
    /* The longest texts, and padding that makes them too long. */
    if (one_in(chance, 12))
        resize(chance, padding, 6 + 8 * (24 + below(chance, 6)));
}

void draw_wrapping(struct chance *chance, struct argument *given)
{
    draw_fields(chance, &given[1]);
    draw_padding(chance, &given[3]);
}

/* An optional block of this length. Half of the ids are of a few, so that some come twice. */
static void put_optional_block(struct chance *chance, uint8_t *block, size_t length)
{
    char digits[3];
    snprintf(digits, sizeof digits, one_in(chance, 2) ? "%02X" : "%02x", (unsigned)length);
    draw_printed(chance, block, length);
    memcpy(block + 2, digits, 2);
    if (one_in(chance, 2))
        memcpy(block, one_in(chance, 2) ? "KS" : "KC", 2);
}

/* Puts optional blocks behind a size of whole blocks, the last of which makes whole blocks of 8
   characters, and gives how long all is then. */
static size_t put_optional_blocks(struct chance *chance, uint8_t *front, size_t size,
                                  uint32_t count)
{
    for (; count > 0; count--) {
        size_t length = one_in(chance, 24) ? LONGEST_BLOCK : 4 + below(chance, 60);
        if (count == 1)
            length = 4 + (4 - size) % 8 + 8 * below(chance, 4);
        put_optional_block(chance, front + size, length);
        size += length;
    }
    return size;
}

/* So many optional blocks without content that they are the most, or too many. */
static void draw_many_optional(struct chance *chance, struct argument *optional)
{
    uint32_t count = 96 + 2 * below(chance, 4);
    optional->size = 4 * count;
    for (uint32_t at = 0; at < count; at++)
        put_optional_block(chance, optional->bytes + 4 * at, 4);
}

void draw_wrapping_with(struct chance *chance, struct argument *given)
{
    struct argument *optional = &given[2];
    draw_fields(chance, &given[1]);
    draw_padding(chance, &given[4]);
    optional->size = put_optional_blocks(chance, optional->bytes, 0, below(chance, MOST_COUNT + 1));
    if (one_in(chance, 24))
        draw_many_optional(chance, optional);
    if (one_in(chance, 8) && optional->size > 0)
        optional->bytes[below(chance, (uint32_t)optional->size)] ^= (uint8_t)below(chance, 256);
    if (one_in(chance, 12) && optional->size > 0)
        optional->bytes[optional->size - 1] = NEXT_TO_PRINTED[below(chance, 4)];
    if (one_in(chance, 12))
        resize(chance, optional, below(chance, (uint32_t)optional->size + 12));
}

/* Draws a payload of whole blocks. Rarely it says another length of the key, or has not the key. */
static size_t draw_payload(struct chance *chance, uint8_t *payload)
{
    size_t key = one_in(chance, 2) ? KEY_BYTES : TRIPLE_BYTES;
    size_t size = 2 + key + 6 + 8 * below(chance, one_in(chance, 8) ? 28 : 4);
    draw_bytes(chance, payload, size);
    payload[0] = 0;
    payload[1] = (uint8_t)(8 * key);
    if (one_in(chance, 16))
        payload[1] = TRIPLE_BYTES * 8;
    if (one_in(chance, 32))
        payload[below(chance, 2)] ^= (uint8_t)(1u << below(chance, 8));
    return one_in(chance, 64) ? 16 : size;
}

/* Changes what stands before the ciphertext: a character of it all, or one that says something. */
static void spoil_front(struct chance *chance, uint8_t *front, size_t size)
{
    static const uint8_t characters[] = {'B', 'C', '0', '1', '9', ':', '/', 'g', 0x1F, 0x7F};
    size_t at = below(chance, (uint32_t)(one_in(chance, 2) ? size : 20));
    if (one_in(chance, 2))
        draw_bytes(chance, front + at, 1);
    else
        front[at] = characters[below(chance, sizeof characters)];
}

/* Changes a character of the digits, or writes them in the other case. */
static void spoil_digits(struct chance *chance, uint8_t *digits, size_t size)
{
    static const uint8_t characters[] = {'0', 'f', 'F', 'g', 'G', '/', ':', '@', '`', 0};
    if (one_in(chance, 2)) {
        digits[below(chance, (uint32_t)size)] = characters[below(chance, sizeof characters)];
        return;
    }
    for (size_t i = 0; i < size; i++)
        if (digits[i] >= 'A' && digits[i] <= 'F')
            digits[i] |= 0x20;
}

/* Another length, which the text may say or not. */
static void spoil_length(struct chance *chance, struct argument *text)
{
    char said[5];
    resize(chance, text, 8 * below(chance, MOST_TEXT / 8 + 10) + (one_in(chance, 8) ? 4 : 0));
    snprintf(said, sizeof said, "%04u", (unsigned)text->size % 10000);
    if (text->size > 5 && !one_in(chance, 4))
        memcpy(text->bytes + 1, said, 4);
}

/* The text of a key block with so many optional blocks under a protection key, or what is none. */
static void draw_text_of(struct chance *chance, const struct argument *kbpk, const uint8_t *fields,
                         uint32_t count, struct argument *text)
{
    uint8_t front[MOST_FRONT], payload[MOST_PAYLOAD];
    size_t front_size = put_optional_blocks(chance, front, FRONT_BYTES, count);
    size_t size = draw_payload(chance, payload);
    char head[FRONT_BYTES + 1];
    snprintf(head, sizeof head, "B%04u%.7s%02u00", (unsigned)(front_size + 2 * size + 16) % 10000,
             (const char *)fields, (unsigned)count);
    memcpy(front, head, FRONT_BYTES);
    if (one_in(chance, 8))
        spoil_front(chance, front, front_size);
    text->size = sealed(kbpk->bytes, kbpk->size, front, front_size, payload, size, text->bytes);
    if (one_in(chance, 12))
        spoil_front(chance, text->bytes, front_size);
    if (one_in(chance, 8))
        spoil_digits(chance, text->bytes + front_size, text->size - front_size);
    if (one_in(chance, 12))
        spoil_length(chance, text);
}

/* The same with fields at random. Mostly its key is of algorithm T. */
static void draw_text(struct chance *chance, const struct argument *kbpk, uint32_t count,
                      struct argument *text)
{
    uint8_t fields[HEADER_BYTES];
    draw_printed(chance, fields, HEADER_BYTES);
    if (!one_in(chance, 6))
        fields[ALGORITHM] = 'T';
    draw_text_of(chance, kbpk, fields, count, text);
}

static uint32_t draw_count(struct chance *chance)
{
    return one_in(chance, 2) ? 0 : below(chance, MOST_COUNT + 1);
}

void draw_key_block(struct chance *chance, struct argument *given)
{
    draw_text(chance, &given[0], draw_count(chance), &given[1]);
}

/* Mostly the usage of the block, and one of the two lengths. */
void draw_wanted(struct chance *chance, struct argument *given)
{
    draw_text(chance, &given[0], draw_count(chance), &given[3]);
    if (!one_in(chance, 8) && given[3].size > FIELDS_AT + 2)
        memcpy(given[1].bytes, given[3].bytes + FIELDS_AT, 2);
    if (one_in(chance, 16))
        given[1].bytes[below(chance, 2)] ^= (uint8_t)(1u << below(chance, 8));
    if (!one_in(chance, 12))
        given[2].number = one_in(chance, 2) ? KEY_BYTES : TRIPLE_BYTES;
    else if (one_in(chance, 2))
        given[2].number = below(chance, 64);
}

/* Mostly the id of an optional block that is there. */
void draw_optional(struct chance *chance, struct argument *given)
{
    const struct argument *text = &given[1];
    size_t at = FRONT_BYTES, length = 4;
    draw_text(chance, &given[0], 1 + below(chance, MOST_COUNT), &given[1]);
    for (uint32_t passed = below(chance, 3); passed > 0 && length > 0; passed--) {
        length = at < text->size ? optional_length(text->bytes, at, text->size) : 0;
        at += length;
    }
    if (at + 2 <= text->size && !one_in(chance, 12))
        memcpy(given[2].bytes, text->bytes + at, 2);
}

void draw_text_with(struct chance *chance, const struct argument *kbpk, const uint8_t *fields,
                    struct argument *text)
{
    draw_text_of(chance, kbpk, fields, draw_count(chance), text);
}

void put_text(struct chance *chance, const struct argument *kbpk, const char *fields,
              const uint8_t *key, size_t size, struct argument *text)
{
    uint8_t payload[MOST_PAYLOAD] = {0, (uint8_t)(8 * size)};
    char front[FRONT_BYTES + 1];
    memcpy(payload + 2, key, size);
    draw_bytes(chance, payload + 2 + size, 6);
    snprintf(front, sizeof front, "B%04u%.7s0000", (unsigned)(FRONT_BYTES + 2 * (size + 16)),
             fields);
    text->size = sealed(kbpk->bytes, kbpk->size, (const uint8_t *)front, FRONT_BYTES, payload,
                        size + 8, text->bytes);
}
