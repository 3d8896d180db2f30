/* The calls through libdukpt. A fault ends the program. */
#include "../openssl/work.h"

#include <dukpt.h>
#include <stdio.h>
#include <stdlib.h>
#include <string.h>

enum { LONGEST_KEY = 24 };

static void demand(uint32_t status)
{
    if (status != 0) {
        fprintf(stderr, "libdukpt: fault %u\n", (unsigned)status);
        exit(1);
    }
}

void derive(const uint8_t bdk[KEY], const uint8_t ksn[SERIAL], uint8_t key[KEY])
{
    demand(dukpt_derive(bdk, KEY, ksn, SERIAL, key, KEY));
}

void derive_many(const uint8_t bdk[KEY], const uint8_t *ksns, long count, uint8_t *keys)
{
    size_t numbers = (size_t)count;
    demand(dukpt_derive_many(bdk, KEY, ksns, SERIAL * numbers, keys, KEY * numbers));
}

void check_requests(const uint8_t bdk[KEY], const uint8_t *frames, long count, uint8_t *results)
{
    demand(dukpt_check_requests(bdk, KEY, frames, PLACE * (size_t)count, results, (size_t)count));
}

void encipher_pin(const uint8_t key[KEY], const char *pin, const char *pan, uint8_t block[BLOCK])
{
    uint8_t pin_key[KEY];
    demand(dukpt_pin_key(key, KEY, pin_key, KEY));
    demand(dukpt_pin_block((const uint8_t *)pin, strlen(pin), (const uint8_t *)pan, strlen(pan),
                           block, BLOCK));
    demand(dukpt_tdes_encrypt(pin_key, KEY, block, BLOCK));
}

void retail(const uint8_t key[KEY], const uint8_t *message, long length, uint8_t mac[BLOCK])
{
    demand(dukpt_retail_mac(key, KEY, message, (size_t)length, mac, BLOCK));
}

void unwrap(const uint8_t kbpk[KEY], const char *text, uint8_t fields[FIELDS], uint8_t key[KEY])
{
    uint8_t room[LONGEST_KEY];
    uint32_t length;
    demand(dukpt_unwrap(kbpk, KEY, (const uint8_t *)text, strlen(text), fields, FIELDS, room,
                        sizeof room, &length));
    memcpy(key, room, KEY);
}

void load(const uint8_t initial[KEY], const uint8_t iksn[SERIAL], uint8_t image[IMAGE])
{
    demand(dukpt_registers_load(initial, KEY, iksn, SERIAL, image, IMAGE));
}

void take(const uint8_t image[IMAGE], uint8_t next_image[IMAGE], uint8_t key[KEY],
          uint8_t ksn[SERIAL])
{
    demand(dukpt_registers_next(image, IMAGE, next_image, IMAGE, key, KEY, ksn, SERIAL));
}
