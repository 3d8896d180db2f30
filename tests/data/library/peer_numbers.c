/* Key serial numbers, keys of them, and their variants (ANSI X9.24-1:2009 annex A). */
#include "peer.h"
#include "peer_parts.h"

#include <dukpt.h>
#include <string.h>

uint32_t counter_in(const uint8_t *ksn)
{
    return (uint32_t)(ksn[7] & 0x1F) << 16 | (uint32_t)ksn[8] << 8 | ksn[9];
}

void number_with(const uint8_t *iksn, uint32_t counter, uint8_t *ksn)
{
    memmove(ksn, iksn, KSN_BYTES);
    ksn[7] = (uint8_t)((ksn[7] & 0xE0) | counter >> 16);
    ksn[8] = (uint8_t)(counter >> 8);
    ksn[9] = (uint8_t)counter;
}

static int ones_of(uint32_t number)
{
    int ones = 0;
    for (; number != 0; number &= number - 1)
        ones++;
    return ones;
}

int is_usable(uint32_t counter)
{
    return counter != 0 && counter < SPENT_COUNTER && ones_of(counter) <= 10;
}

/* The least usable counter above one, or that of a spent terminal. */
uint32_t counter_after(uint32_t counter)
{
    do
        counter++;
    while (counter < SPENT_COUNTER && !is_usable(counter));
    return counter;
}

/* A variant has the byte at its place turned, in both halves. */
void variant_of(const uint8_t *key, enum variant variant, uint8_t *out)
{
    memmove(out, key, KEY_BYTES);
    out[variant] ^= 0xFF;
    out[BLOCK_BYTES + variant] ^= 0xFF;
}

static int are_key_and_number(const struct argument *given)
{
    return given[0].size == KEY_BYTES && given[1].size == KSN_BYTES
           && has_room(&given[2], KEY_BYTES);
}

uint32_t peer_initial_key(struct argument *given)
{
    uint8_t key[KEY_BYTES];
    if (!are_key_and_number(given))
        return DUKPT_FAULT_LENGTH;
    if (counter_in(given[1].bytes) != 0)
        return DUKPT_FAULT_NOT_INITIAL;
    tree_initial_key(given[0].bytes, given[1].bytes, key);
    write_bytes(&given[2], key, sizeof key);
    return DUKPT_OK;
}

uint32_t peer_derive_from_initial(struct argument *given)
{
    uint8_t key[KEY_BYTES];
    if (!are_key_and_number(given))
        return DUKPT_FAULT_LENGTH;
    tree_derive(given[0].bytes, given[1].bytes, key);
    write_bytes(&given[2], key, sizeof key);
    return DUKPT_OK;
}

uint32_t peer_derive(struct argument *given)
{
    uint8_t key[KEY_BYTES];
    if (!are_key_and_number(given))
        return DUKPT_FAULT_LENGTH;
    tree_derived_key(given[0].bytes, given[1].bytes, key);
    write_bytes(&given[2], key, sizeof key);
    return DUKPT_OK;
}

uint32_t peer_derive_many(struct argument *given)
{
    size_t count = given[1].size / KSN_BYTES;
    if (given[0].size != KEY_BYTES || given[1].size % KSN_BYTES != 0
        || !has_room(&given[2], KEY_BYTES * count))
        return DUKPT_FAULT_LENGTH;
    for (size_t at = 0; at < count; at++)
        tree_derived_key(given[0].bytes, given[1].bytes + KSN_BYTES * at,
                         given[2].bytes + KEY_BYTES * at);
    return DUKPT_OK;
}

static uint32_t answer_variant(struct argument *given, enum variant variant)
{
    uint8_t key[KEY_BYTES];
    if (given[0].size != KEY_BYTES || !has_room(&given[1], KEY_BYTES))
        return DUKPT_FAULT_LENGTH;
    variant_of(given[0].bytes, variant, key);
    write_bytes(&given[1], key, sizeof key);
    return DUKPT_OK;
}

uint32_t peer_pin_key(struct argument *given)
{
    return answer_variant(given, PIN_VARIANT);
}

uint32_t peer_request_key(struct argument *given)
{
    return answer_variant(given, REQUEST_VARIANT);
}

uint32_t peer_response_key(struct argument *given)
{
    return answer_variant(given, RESPONSE_VARIANT);
}

/* A key for data is a variant, each half of which is enciphered under that variant itself. */
static uint32_t answer_data_key(struct argument *given, enum variant variant)
{
    uint8_t mask[KEY_BYTES], key[KEY_BYTES];
    if (given[0].size != KEY_BYTES || !has_room(&given[1], KEY_BYTES))
        return DUKPT_FAULT_LENGTH;
    variant_of(given[0].bytes, variant, mask);
    for (size_t at = 0; at < KEY_BYTES; at += BLOCK_BYTES)
        tdes_block(mask, sizeof mask, mask + at, 1, key + at);
    write_bytes(&given[1], key, sizeof key);
    return DUKPT_OK;
}

uint32_t peer_request_data_key(struct argument *given)
{
    return answer_data_key(given, REQUEST_DATA_VARIANT);
}

uint32_t peer_response_data_key(struct argument *given)
{
    return answer_data_key(given, RESPONSE_DATA_VARIANT);
}

uint32_t peer_check_usable(struct argument *given)
{
    if (given[0].size != KSN_BYTES)
        return DUKPT_FAULT_LENGTH;
    return is_usable(counter_in(given[0].bytes)) ? DUKPT_OK : DUKPT_FAULT_NOT_USABLE;
}

uint32_t peer_next_number(struct argument *given)
{
    uint32_t counter;
    if (given[0].size != KSN_BYTES || !has_room(&given[1], KSN_BYTES))
        return DUKPT_FAULT_LENGTH;
    counter = counter_after(counter_in(given[0].bytes));
    if (counter == SPENT_COUNTER)
        return DUKPT_FAULT_SPENT;
    number_with(given[0].bytes, counter, given[1].bytes);
    return DUKPT_OK;
}
