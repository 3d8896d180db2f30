/* The key tree of ANSI X9.24-1:2009 annex A. Each block is enciphered under a schedule of its own,
   as the standard's equations read. */
#include "work.h"

#include <openssl/des.h>
#include <string.h>

enum { COUNTER_BITS = 21, MOST_ONES = 10 };

static const uint8_t mask[KEY] = {
    0xC0, 0xC0, 0xC0, 0xC0, 0, 0, 0, 0, 0xC0, 0xC0, 0xC0, 0xC0, 0, 0, 0, 0,
};

static void masked(const uint8_t key[KEY], uint8_t out[KEY])
{
    for (int i = 0; i < KEY; i++)
        out[i] = key[i] ^ mask[i];
}

void tdes_encrypt(const uint8_t key[KEY], const uint8_t in[BLOCK], uint8_t out[BLOCK])
{
    DES_key_schedule first, second;
    DES_set_key_unchecked((const_DES_cblock *)key, &first);
    DES_set_key_unchecked((const_DES_cblock *)(key + BLOCK), &second);
    DES_ecb2_encrypt((const_DES_cblock *)in, (DES_cblock *)out, &first, &second, DES_ENCRYPT);
}

void tdes_decrypt(const uint8_t key[KEY], const uint8_t in[BLOCK], uint8_t out[BLOCK])
{
    DES_key_schedule first, second;
    DES_set_key_unchecked((const_DES_cblock *)key, &first);
    DES_set_key_unchecked((const_DES_cblock *)(key + BLOCK), &second);
    DES_ecb2_encrypt((const_DES_cblock *)in, (DES_cblock *)out, &first, &second, DES_DECRYPT);
}

static void initial_key(const uint8_t bdk[KEY], const uint8_t iksn[SERIAL], uint8_t out[KEY])
{
    uint8_t other[KEY];
    tdes_encrypt(bdk, iksn, out);
    masked(bdk, other);
    tdes_encrypt(other, iksn, out + BLOCK);
}

static void half_step(const uint8_t key[KEY], const uint8_t number[BLOCK], uint8_t out[BLOCK])
{
    DES_key_schedule schedule;
    const uint8_t *right = key + BLOCK;
    uint8_t block[BLOCK];
    for (int i = 0; i < BLOCK; i++)
        block[i] = right[i] ^ number[i];
    DES_set_key_unchecked((const_DES_cblock *)key, &schedule);
    DES_ecb_encrypt((const_DES_cblock *)block, (DES_cblock *)block, &schedule, DES_ENCRYPT);
    for (int i = 0; i < BLOCK; i++)
        out[i] = right[i] ^ block[i];
}

/* A child's key, of its parent's key and the low 64 bits of its key serial number. */
static void step(const uint8_t key[KEY], const uint8_t number[BLOCK], uint8_t out[KEY])
{
    uint8_t other[KEY];
    masked(key, other);
    half_step(other, number, out);
    half_step(key, number, out + BLOCK);
}

/* The key serial number of a counter. */
void with_counter(const uint8_t iksn[SERIAL], uint32_t counter, uint8_t out[SERIAL])
{
    memcpy(out, iksn, SERIAL);
    out[7] |= (uint8_t)(counter >> 16);
    out[8] = (uint8_t)(counter >> 8);
    out[9] = (uint8_t)counter;
}

/* The keys of a number's children, each in the register of its last place. */
void fill_below(uint8_t registers[][KEY], int places, const uint8_t key[KEY],
                const uint8_t iksn[SERIAL], uint32_t counter)
{
    uint8_t ksn[SERIAL];
    for (int place = 0; place < places; place++) {
        with_counter(iksn, counter | 1u << place, ksn);
        step(key, ksn + 2, registers[place]);
    }
}

void walk(const uint8_t bdk[KEY], const uint8_t iksn[SERIAL], long count)
{
    uint8_t registers[COUNTER_BITS][KEY], key[KEY], ksn[SERIAL];
    uint32_t counter = 1;
    initial_key(bdk, iksn, key);
    fill_below(registers, COUNTER_BITS, key, iksn, 0);
    while (count-- > 0 && counter >> COUNTER_BITS == 0) {
        int last_place = __builtin_ctz(counter);
        memcpy(key, registers[last_place], KEY);
        with_counter(iksn, counter, ksn);
        print_hex(ksn, SERIAL, ' ');
        print_hex(key, KEY, '\n');
        if (__builtin_popcount(counter) < MOST_ONES) {
            fill_below(registers, last_place, key, iksn, counter);
            counter += 1;
        } else {
            counter += 1u << last_place;
        }
    }
}

static uint32_t counter_of(const uint8_t ksn[SERIAL])
{
    return (uint32_t)(ksn[7] & 0x1F) << 16 | (uint32_t)ksn[8] << 8 | ksn[9];
}

/* Whether a number is one of a transaction. */
int has_usable_counter(const uint8_t ksn[SERIAL])
{
    int ones = __builtin_popcount(counter_of(ksn));
    return 1 <= ones && ones <= MOST_ONES;
}

/* One step for each one bit of the counter, from the highest down. */
void derive(const uint8_t bdk[KEY], const uint8_t ksn[SERIAL], uint8_t key[KEY])
{
    uint8_t iksn[SERIAL], number[SERIAL], child[KEY];
    uint32_t counter = counter_of(ksn), reached = 0;
    memcpy(iksn, ksn, SERIAL);
    iksn[7] &= 0xE0;
    iksn[8] = iksn[9] = 0;
    initial_key(bdk, iksn, key);
    for (int place = COUNTER_BITS - 1; place >= 0; place--) {
        if ((counter >> place & 1) == 0)
            continue;
        reached |= 1u << place;
        with_counter(iksn, reached, number);
        step(key, number + 2, child);
        memcpy(key, child, KEY);
    }
}
