/* MACs and enciphered bytes, over libcrypto's own chaining. A key's schedules are made anew for each
   message, and once for all its blocks. */
#include "work.h"

#include <openssl/des.h>
#include <stdio.h>
#include <stdlib.h>
#include <string.h>

static const uint8_t repeated_key[KEY] = {
    0x4C, 0xF1, 0x51, 0x34, 0xA2, 0x85, 0x0D, 0xD5, 0x8A, 0x3D, 0x10, 0xBA, 0x80, 0x57, 0x0D, 0x38,
};

struct schedules {
    DES_key_schedule first, second;
};

static struct schedules schedules_of(const uint8_t bytes[KEY])
{
    struct schedules made;
    DES_set_key_unchecked((const_DES_cblock *)bytes, &made.first);
    DES_set_key_unchecked((const_DES_cblock *)(bytes + BLOCK), &made.second);
    return made;
}

/* The block shifted left by one bit, with the constant R64 of NIST SP 800-38B section 5.3. */
static void double_block(uint8_t block[BLOCK])
{
    uint8_t carry = block[0] >> 7;
    for (int i = 0; i < BLOCK - 1; i++)
        block[i] = (uint8_t)(block[i] << 1 | block[i + 1] >> 7);
    block[BLOCK - 1] = (uint8_t)(block[BLOCK - 1] << 1 ^ (carry ? 0x1B : 0));
}

/* CMAC of a message that is not empty; `scratch` has its length. */
void cmac(const uint8_t key[KEY], const uint8_t *message, long length, uint8_t *scratch,
          uint8_t mac[BLOCK])
{
    struct schedules made = schedules_of(key);
    uint8_t subkey[BLOCK] = {0}, chain[BLOCK] = {0}, last[BLOCK] = {0};
    long before = (length - 1) / BLOCK * BLOCK;
    DES_ecb2_encrypt(&subkey, &subkey, &made.first, &made.second, DES_ENCRYPT);
    double_block(subkey);
    memcpy(last, message + before, (size_t)(length - before));
    if (length - before < BLOCK) {
        last[length - before] = 0x80;
        double_block(subkey);
    }
    DES_ede2_cbc_encrypt(message, scratch, before, &made.first, &made.second, &chain, DES_ENCRYPT);
    for (int i = 0; i < BLOCK; i++)
        last[i] ^= subkey[i] ^ chain[i];
    DES_ecb2_encrypt(&last, (DES_cblock *)mac, &made.first, &made.second, DES_ENCRYPT);
}

/* The retail MAC of ANSI X9.19. */
void retail(const uint8_t key[KEY], const uint8_t *message, long length, uint8_t mac[BLOCK])
{
    struct schedules made = schedules_of(key);
    DES_cblock zero = {0}, chain;
    DES_cbc_cksum(message, &chain, length, &made.first, &zero);
    DES_ecb_encrypt(&chain, &chain, &made.second, DES_DECRYPT);
    DES_ecb_encrypt(&chain, (DES_cblock *)mac, &made.first, DES_ENCRYPT);
}

void cbc_decrypt(const uint8_t key[KEY], const uint8_t iv[BLOCK], const uint8_t *in, uint8_t *out,
                 long length)
{
    struct schedules made = schedules_of(key);
    DES_cblock chain;
    memcpy(&chain, iv, BLOCK);
    DES_ede2_cbc_encrypt(in, out, length, &made.first, &made.second, &chain, DES_DECRYPT);
}

/* Bytes that count from 0 up. */
static uint8_t *new_message(long length)
{
    uint8_t *message = malloc((size_t)length);
    if (message == NULL)
        abort();
    for (long i = 0; i < length; i++)
        message[i] = (uint8_t)i;
    return message;
}

/* Each MAC takes the place of the next message's first block, so that none can be left out. */
void repeat_cmac(long length, long count)
{
    uint8_t *message = new_message(length), *scratch = new_message(length);
    while (count-- > 0)
        cmac(repeated_key, message, length, scratch, message);
    fwrite(message, 1, (size_t)length, stdout);
    free(scratch);
    free(message);
}

void repeat_retail(long length, long count)
{
    uint8_t *message = new_message(length);
    while (count-- > 0)
        retail(repeated_key, message, length, message);
    fwrite(message, 1, (size_t)length, stdout);
    free(message);
}

/* Works on the bytes in place, so many times. */
static void repeat_cbc(long length, long count, int direction)
{
    uint8_t *message = new_message(length);
    while (count-- > 0) {
        struct schedules made = schedules_of(repeated_key);
        DES_cblock chain = {0};
        DES_ede2_cbc_encrypt(message, message, length, &made.first, &made.second, &chain,
                             direction);
    }
    fwrite(message, 1, (size_t)length, stdout);
    free(message);
}

void repeat_cbc_encrypt(long length, long count)
{
    repeat_cbc(length, count, DES_ENCRYPT);
}

void repeat_cbc_decrypt(long length, long count)
{
    repeat_cbc(length, count, DES_DECRYPT);
}
