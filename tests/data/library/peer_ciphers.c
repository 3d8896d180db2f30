/* TDES and MACs, over libcrypto: its triple DES, its chaining and its CMAC. */
#include "peer.h"
#include "peer_parts.h"

#include <dukpt.h>
#include <openssl/cmac.h>
#include <openssl/des.h>
#include <openssl/evp.h>
#include <stdlib.h>
#include <string.h>

struct schedules {
    DES_key_schedule first, second, third;
};

/* Of a key of 16 bytes the first half is also the third key. */
static struct schedules schedules_of(const uint8_t *key, size_t size)
{
    struct schedules made;
    DES_set_key_unchecked((const_DES_cblock *)key, &made.first);
    DES_set_key_unchecked((const_DES_cblock *)(key + BLOCK_BYTES), &made.second);
    DES_set_key_unchecked((const_DES_cblock *)(size == TRIPLE_BYTES ? key + KEY_BYTES : key),
                          &made.third);
    return made;
}

void tdes_block(const uint8_t *key, size_t size, const uint8_t *block, int enciphers, uint8_t *out)
{
    struct schedules made = schedules_of(key, size);
    DES_cblock in, result;
    memcpy(in, block, BLOCK_BYTES);
    DES_ecb3_encrypt(&in, &result, &made.first, &made.second, &made.third, enciphers);
    memcpy(out, result, BLOCK_BYTES);
}

void cbc(const uint8_t *key, size_t size, const uint8_t *iv, uint8_t *bytes, size_t length,
         int enciphers)
{
    struct schedules made = schedules_of(key, size);
    DES_cblock chain;
    memcpy(chain, iv, BLOCK_BYTES);
    DES_ede3_cbc_encrypt(bytes, bytes, (long)length, &made.first, &made.second, &made.third, &chain,
                         enciphers);
}

static void demand(int is_so)
{
    if (!is_so)
        abort();
}

void cmac_of(const uint8_t *key, size_t size, const uint8_t *message, size_t length, uint8_t *mac)
{
    static EVP_CIPHER *cipher;
    static CMAC_CTX *context;
    uint8_t whole[TRIPLE_BYTES];
    size_t written;
    if (context == NULL) {
        demand((cipher = EVP_CIPHER_fetch(NULL, "DES-EDE3-CBC", NULL)) != NULL);
        demand((context = CMAC_CTX_new()) != NULL);
    }
    memcpy(whole, key, size);
    if (size == KEY_BYTES)
        memcpy(whole + KEY_BYTES, key, BLOCK_BYTES);
    demand(CMAC_Init(context, whole, sizeof whole, cipher, NULL));
    demand(CMAC_Update(context, message, length));
    demand(CMAC_Final(context, mac, &written) && written == BLOCK_BYTES);
}

void retail_mac_of(const uint8_t *key, const uint8_t *message, size_t length, uint8_t *mac)
{
    struct schedules made = schedules_of(key, KEY_BYTES);
    DES_cblock zero = {0}, chain;
    DES_cbc_cksum(message, &chain, (long)length, &made.first, &zero);
    DES_ecb_encrypt(&chain, &chain, &made.second, DES_DECRYPT);
    DES_ecb_encrypt(&chain, &chain, &made.first, DES_ENCRYPT);
    memcpy(mac, chain, BLOCK_BYTES);
}

static uint32_t answer_block(struct argument *given, int enciphers)
{
    if (!is_tdes_size(given[0].size) || given[1].size != BLOCK_BYTES)
        return DUKPT_FAULT_LENGTH;
    tdes_block(given[0].bytes, given[0].size, given[1].bytes, enciphers, given[1].bytes);
    return DUKPT_OK;
}

uint32_t peer_tdes_encrypt(struct argument *given)
{
    return answer_block(given, DES_ENCRYPT);
}

uint32_t peer_tdes_decrypt(struct argument *given)
{
    return answer_block(given, DES_DECRYPT);
}

static uint32_t answer_chain(struct argument *given, int enciphers)
{
    if (!is_tdes_size(given[0].size) || given[1].size != BLOCK_BYTES
        || given[2].size % BLOCK_BYTES != 0)
        return DUKPT_FAULT_LENGTH;
    cbc(given[0].bytes, given[0].size, given[1].bytes, given[2].bytes, given[2].size, enciphers);
    return DUKPT_OK;
}

uint32_t peer_cbc_encrypt(struct argument *given)
{
    return answer_chain(given, DES_ENCRYPT);
}

uint32_t peer_cbc_decrypt(struct argument *given)
{
    return answer_chain(given, DES_DECRYPT);
}

uint32_t peer_cmac(struct argument *given)
{
    if (!is_tdes_size(given[0].size) || !has_room(&given[2], BLOCK_BYTES))
        return DUKPT_FAULT_LENGTH;
    cmac_of(given[0].bytes, given[0].size, given[1].bytes, given[1].size, given[2].bytes);
    return DUKPT_OK;
}

uint32_t peer_retail_mac(struct argument *given)
{
    if (given[0].size != KEY_BYTES || given[1].size == 0 || !has_room(&given[2], BLOCK_BYTES))
        return DUKPT_FAULT_LENGTH;
    retail_mac_of(given[0].bytes, given[1].bytes, given[1].size, given[2].bytes);
    return DUKPT_OK;
}

uint32_t peer_check_value(struct argument *given)
{
    uint8_t block[BLOCK_BYTES] = {0};
    if (!is_tdes_size(given[0].size) || !has_room(&given[1], 3))
        return DUKPT_FAULT_LENGTH;
    tdes_block(given[0].bytes, given[0].size, block, DES_ENCRYPT, block);
    write_bytes(&given[1], block, 3);
    return DUKPT_OK;
}

uint32_t peer_cmac_check_value(struct argument *given)
{
    uint8_t zeros[BLOCK_BYTES] = {0}, mac[BLOCK_BYTES];
    if (!is_tdes_size(given[0].size) || !has_room(&given[1], 5))
        return DUKPT_FAULT_LENGTH;
    cmac_of(given[0].bytes, given[0].size, zeros, sizeof zeros, mac);
    write_bytes(&given[1], mac, 5);
    return DUKPT_OK;
}
