/* Security modules, and what a host judges and answers by their keys. */
#include "draw.h"
#include "peer_parts.h"

#include <string.h>

enum { COUNT_AT = 4680, LMK_SIZE_AT, LMK_AT, ENTRY_PREFIX_AT = 3 };
enum { PIN_SIZE_AT = 20, LIMIT_AT = 33, NUMBER_AT = 2, OTHER_AT = 12, CODE_AT = 16, STATE_AT = 30 };

static void flip_bit(struct chance *chance, uint8_t *byte)
{
    *byte ^= (uint8_t)(1u << below(chance, 8));
}

/* The local master key of an image, as an argument. */
static struct argument lmk_in(uint8_t *image)
{
    struct argument lmk = {image + LMK_AT, image[LMK_SIZE_AT], 0};
    return lmk;
}

static void put_key(struct chance *chance, uint8_t *image, enum kind_of_key kind)
{
    static const char *const fields[] = {"B0TX00N", "P0TB00N"};
    uint8_t key[TRIPLE_BYTES], prefix[PREFIX_BYTES] = {0}, bytes[MOST_TEXT];
    struct argument lmk = lmk_in(image), text = {bytes, 0, 0};
    size_t size = kind == ZONE_KEY && one_in(chance, 2) ? TRIPLE_BYTES : KEY_BYTES;
    draw_bytes(chance, key, size);
    if (kind == BASE_KEY)
        draw_bytes(chance, prefix, sizeof prefix);
    put_text(chance, &lmk, fields[kind], key, size, &text);
    append_entry(image, kind, prefix, &text);
}

/* An image with so many base derivation keys, and perhaps a zone key somewhere among them. */
static void put_module(struct chance *chance, size_t key_sets, int has_zone, struct argument *image)
{
    uint8_t lmk[TRIPLE_BYTES];
    size_t zone_at = has_zone ? below(chance, (uint32_t)key_sets + 1) : key_sets + 1;
    draw_bytes(chance, lmk, sizeof lmk);
    begin_module(lmk, one_in(chance, 2) ? KEY_BYTES : TRIPLE_BYTES, image->bytes);
    image->size = MODULE_BYTES;
    for (size_t at = 0; at <= key_sets; at++) {
        if (at == zone_at)
            put_key(chance, image->bytes, ZONE_KEY);
        if (at < key_sets)
            put_key(chance, image->bytes, BASE_KEY);
    }
}

/* Changes an image: anywhere, or a byte that tells something. */
static void spoil_module(struct chance *chance, struct argument *image)
{
    static const size_t telling[] = {0, 1, 2, 3, 8, 20, COUNT_AT, LMK_SIZE_AT, LMK_AT};
    size_t at = telling[below(chance, sizeof telling / sizeof *telling)];
    if (one_in(chance, 3))
        at = below(chance, MODULE_BYTES);
    if (one_in(chance, 4))
        draw_bytes(chance, image->bytes + at, 1);
    else
        flip_bit(chance, image->bytes + at);
}

/* A key block that is mostly one for a key of a kind, under the local master key of an image. */
static void draw_block_for(struct chance *chance, enum kind_of_key kind, uint8_t *image,
                           struct argument *text)
{
    static const char *const right[][3] = {{"B0TX00N", "B0TN00N", "B0TX00S"},
                                           {"P0TB00N", "P0TE00N", "P0TN00S"}};
    static const char *const wrong[] = {"B0TE00N", "P0TX00N", "P0TD00N", "B1TX00N",
                                        "B0AX00N", "P0DB00N", "K0TB00N", "B0TB00N"};
    const char *fields = one_in(chance, 8) ? wrong[below(chance, 8)]
                                           : right[kind][below(chance, 3)];
    struct argument lmk = lmk_in(image);
    uint8_t key[TRIPLE_BYTES], other[TRIPLE_BYTES];
    size_t size = one_in(chance, kind == ZONE_KEY ? 2 : 8) ? TRIPLE_BYTES : KEY_BYTES;
    draw_bytes(chance, key, sizeof key);
    draw_bytes(chance, other, sizeof other);
    if (one_in(chance, 16))
        lmk.bytes = other;
    if (one_in(chance, 2))
        draw_text_with(chance, &lmk, (const uint8_t *)fields, text);
    else
        put_text(chance, &lmk, fields, key, size, text);
}

void draw_loading_base(struct chance *chance, struct argument *given)
{
    struct argument *image = &given[2];
    size_t key_sets = one_in(chance, 24) ? MOST_KEY_SETS : below(chance, 3);
    put_module(chance, key_sets, one_in(chance, 2), image);
    draw_block_for(chance, BASE_KEY, image->bytes, &given[1]);
    /* Of a zone key the prefix is zeros, which no base derivation key has then. */
    if (image->bytes[COUNT_AT] > 0 && one_in(chance, 6))
        memcpy(given[0].bytes, image->bytes + ENTRY_PREFIX_AT, PREFIX_BYTES);
    if (one_in(chance, 12))
        spoil_module(chance, image);
}

void draw_loading_zone(struct chance *chance, struct argument *given)
{
    struct argument *image = &given[1];
    put_module(chance, below(chance, 3), one_in(chance, 6), image);
    draw_block_for(chance, ZONE_KEY, image->bytes, &given[0]);
    if (one_in(chance, 12))
        spoil_module(chance, image);
}

/* A card; some have the PAN of the first one. */
static void put_card(struct chance *chance, const struct argument *cards, uint8_t *card)
{
    memset(card, 0, CARD_BYTES);
    card[0] = (uint8_t)(12 + below(chance, 8));
    draw_digits(chance, card + 1, card[0]);
    if (one_in(chance, 6))
        memcpy(card, cards->bytes, PIN_SIZE_AT);
    card[PIN_SIZE_AT] = (uint8_t)(4 + below(chance, 9));
    draw_digits(chance, card + PIN_SIZE_AT + 1, card[PIN_SIZE_AT]);
    card[LIMIT_AT + 2] = (uint8_t)below(chance, 4);
    draw_bytes(chance, card + LIMIT_AT + 3, 1);
    if (one_in(chance, 64))
        flip_bit(chance, card + below(chance, LIMIT_AT));
}

/* A number, mostly of a key set and usable, and its transaction key, or any where it has none. */
static void draw_number_of(struct chance *chance, const struct module *module, uint8_t *ksn,
                           uint8_t *key)
{
    const uint8_t *base;
    draw_bytes(chance, ksn, KSN_BYTES);
    draw_bytes(chance, key, KEY_BYTES);
    if (module->key_sets > 0 && !one_in(chance, 12))
        memcpy(ksn, module->prefixes[below(chance, (uint32_t)module->key_sets)], PREFIX_BYTES);
    number_with(ksn, counter_after(draw_counter(chance) % (SPENT_COUNTER / 2)), ksn);
    if (one_in(chance, 12))
        number_with(ksn, draw_counter(chance), ksn);
    base = base_key(module, ksn);
    if (base != NULL)
        tree_derived_key(base, ksn, key);
}

/* A request, mostly with a card's PAN and PIN, and an amount about its limit. */
static size_t put_request_of(struct chance *chance, const struct argument *cards,
                             const uint8_t *ksn, const uint8_t *key, uint8_t *place)
{
    struct request request = {.pan_digits = 12 + below(chance, 8), .amount = below(chance, 1024)};
    uint8_t pin[12];
    size_t digits = 4 + below(chance, 9);
    memcpy(request.ksn, ksn, KSN_BYTES);
    draw_digits(chance, request.pan, request.pan_digits);
    draw_digits(chance, pin, digits);
    if (cards->size > 0 && !one_in(chance, 8)) {
        const uint8_t *card = cards->bytes
                              + CARD_BYTES * below(chance, (uint32_t)cards->size / CARD_BYTES);
        if (card[0] >= 12 && card[0] <= MOST_DIGITS)
            memcpy(request.pan, card + 1, request.pan_digits = card[0]);
        if (card[PIN_SIZE_AT] >= 4 && card[PIN_SIZE_AT] <= 12 && !one_in(chance, 6))
            memcpy(pin, card + PIN_SIZE_AT + 1, digits = card[PIN_SIZE_AT]);
    }
    block_of_pin(pin, digits, request.pan, request.pan_digits, request.block);
    if (one_in(chance, 12))
        flip_bit(chance, request.block + below(chance, BLOCK_BYTES));
    return write_request(key, &request, place);
}

static void put_frame(struct chance *chance, const struct module *module,
                      const struct argument *cards, uint8_t *place)
{
    uint8_t ksn[KSN_BYTES], key[KEY_BYTES], reversed[KSN_BYTES];
    size_t size;
    draw_number_of(chance, module, ksn, key);
    if (one_in(chance, 4)) {
        draw_reversed(chance, ksn, reversed);
        size = write_reversal(key, ksn, reversed, place);
    } else {
        size = put_request_of(chance, cards, ksn, key, place);
    }
    if (one_in(chance, 12))
        flip_bit(chance, place + size - 1 - below(chance, BLOCK_BYTES));
    if (one_in(chance, 12))
        flip_bit(chance, place + below(chance, (uint32_t)size));
}

/* Draws an image, and gives what it holds. */
static struct module draw_module(struct chance *chance, struct argument *image)
{
    struct module module;
    put_module(chance, one_in(chance, 16) ? 0 : 1 + below(chance, 2), !one_in(chance, 16), image);
    read_module(image->bytes, &module);
    if (one_in(chance, 16))
        spoil_module(chance, image);
    return module;
}

void draw_judging(struct chance *chance, struct argument *given)
{
    const struct argument *cards = &given[1];
    struct module module = draw_module(chance, &given[0]);
    for (size_t at = 0; at < cards->size; at += CARD_BYTES)
        put_card(chance, cards, cards->bytes + at);
    for (size_t at = 0; at < given[2].size; at += FRAME_BYTES)
        if (!one_in(chance, 16))
            put_frame(chance, &module, cards, given[2].bytes + at);
}

void draw_answering(struct chance *chance, struct argument *given)
{
    static const size_t telling[] = {0, 1, 2, 11, 16, 21, 30};
    struct module module = draw_module(chance, &given[0]);
    uint8_t key[KEY_BYTES];
    for (size_t at = 0; at < given[1].size; at += FRAME_BYTES) {
        uint8_t *said = given[1].bytes + at;
        said[0] = (uint8_t)(1 + below(chance, 2));
        said[1] = (uint8_t)(1 + below(chance, 4));
        draw_number_of(chance, &module, said + NUMBER_AT, key);
        if (said[0] == 2)
            draw_reversed(chance, said + NUMBER_AT, said + OTHER_AT);
        else
            memcpy(said + CODE_AT, draw_code_of_five(chance), 2);
        said[STATE_AT] = (uint8_t)below(chance, 2);
        if (one_in(chance, 8))
            flip_bit(chance, said + telling[below(chance, sizeof telling / sizeof *telling)]);
    }
}
