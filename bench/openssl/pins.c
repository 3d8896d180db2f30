/* PIN blocks of ISO 9564-1 format 0, and the variants of a transaction key. */
#include "work.h"

#include <string.h>

enum { FEWEST = 4 };

/* The twelve rightmost digits of the PAN without its check digit, xored into nibbles. */
static void add_account(const char *pan, uint8_t nibbles[2 * BLOCK])
{
    size_t rest = strlen(pan) - 1;
    for (size_t i = 0; i < 12 && i < rest; i++)
        nibbles[15 - i] ^= (uint8_t)(pan[rest - 1 - i] - '0');
}

/* The PIN field, and with it the account field. */
void pin_block(const char *pin, const char *pan, uint8_t block[BLOCK])
{
    size_t length = strlen(pin);
    uint8_t nibbles[2 * BLOCK];
    memset(nibbles, 15, sizeof nibbles);
    nibbles[0] = 0;
    nibbles[1] = (uint8_t)length;
    for (size_t i = 0; i < length; i++)
        nibbles[2 + i] = (uint8_t)(pin[i] - '0');
    add_account(pan, nibbles);
    for (int i = 0; i < BLOCK; i++)
        block[i] = (uint8_t)(nibbles[2 * i] << 4 | nibbles[2 * i + 1]);
}

/* Whether a block has a PIN under this PAN, which it gives as a text. */
int read_pin(const uint8_t block[BLOCK], const char *pan, char pin[MOST_PIN + 1])
{
    uint8_t nibbles[2 * BLOCK];
    for (int i = 0; i < BLOCK; i++) {
        nibbles[2 * i] = block[i] >> 4;
        nibbles[2 * i + 1] = block[i] & 15;
    }
    add_account(pan, nibbles);
    size_t length = nibbles[1];
    if (nibbles[0] != 0 || length < FEWEST || length > MOST_PIN)
        return 0;
    for (size_t i = 2; i < 2 * BLOCK; i++)
        if (i < 2 + length ? nibbles[i] > 9 : nibbles[i] != 15)
            return 0;
    for (size_t i = 0; i < length; i++)
        pin[i] = (char)('0' + nibbles[2 + i]);
    pin[length] = 0;
    return 1;
}

/* The key with both halves xored with FF at a byte: 7 is for PINs, 6 for requests, 4 for replies. */
void variant(const uint8_t key[KEY], int byte, uint8_t out[KEY])
{
    memcpy(out, key, KEY);
    out[byte] ^= 0xFF;
    out[BLOCK + byte] ^= 0xFF;
}

void encipher_pin(const uint8_t key[KEY], const char *pin, const char *pan, uint8_t block[BLOCK])
{
    uint8_t pin_key[KEY];
    variant(key, 7, pin_key);
    pin_block(pin, pan, block);
    tdes_encrypt(pin_key, block, block);
}
