/* Key blocks of version B (ANSI X9.143), by docs/FORMATS.md. */
#include "peer.h"
#include "peer_parts.h"

#include <dukpt.h>
#include <stdio.h>
#include <string.h>

enum {
    FRONT_BYTES = 16,
    FIELDS_AT = 5,
    ALGORITHM_AT = 7,
    LEAST_TEXT = 80,
    MOST_CONTENT = 251,
    ENCRYPTION = 0,
    AUTHENTICATION = 1
};

/* The key of a usage, as long as the protection key. */
static void derived(const uint8_t *kbpk, size_t size, uint8_t usage, uint8_t *key)
{
    uint8_t about[BLOCK_BYTES] = {0};
    about[2] = usage;
    about[5] = size == TRIPLE_BYTES;
    about[7] = (uint8_t)(8 * size);
    for (size_t at = 0; at < size; at += BLOCK_BYTES) {
        about[0]++;
        cmac_of(kbpk, size, about, sizeof about, key + at);
    }
}

/* The MAC over what stands before the ciphertext and over the payload. */
static void mac_of(const uint8_t *kbpk, size_t size, const uint8_t *front, size_t front_size,
                   const uint8_t *payload, size_t payload_size, uint8_t *mac)
{
    /* What is drawn may be longer than a text is. */
    uint8_t key[TRIPLE_BYTES] = {0}, whole[2 * MOST_TEXT + MOST_PAYLOAD];
    derived(kbpk, size, AUTHENTICATION, key);
    memcpy(whole, front, front_size);
    memcpy(whole + front_size, payload, payload_size);
    cmac_of(key, size, whole, front_size + payload_size, mac);
}

static size_t put_hex(const uint8_t *bytes, size_t size, uint8_t *text)
{
    for (size_t i = 0; i < size; i++) {
        text[2 * i] = (uint8_t)"0123456789ABCDEF"[bytes[i] >> 4];
        text[2 * i + 1] = (uint8_t)"0123456789ABCDEF"[bytes[i] & 15];
    }
    return 2 * size;
}

size_t sealed(const uint8_t *kbpk, size_t kbpk_size, const uint8_t *front, size_t front_size,
              const uint8_t *payload, size_t payload_size, uint8_t *text)
{
    uint8_t key[TRIPLE_BYTES], mac[BLOCK_BYTES], hidden[MOST_PAYLOAD];
    size_t at = front_size;
    mac_of(kbpk, kbpk_size, front, front_size, payload, payload_size, mac);
    derived(kbpk, kbpk_size, ENCRYPTION, key);
    memcpy(hidden, payload, payload_size);
    cbc(key, kbpk_size, mac, hidden, payload_size, 1);
    memcpy(text, front, front_size);
    at += put_hex(hidden, payload_size, text + at);
    return at + put_hex(mac, sizeof mac, text + at);
}

static int are_printed(const uint8_t *text, size_t size)
{
    for (size_t i = 0; i < size; i++)
        if (text[i] < 0x20 || text[i] > 0x7E)
            return 0;
    return 1;
}

static int hex_value(uint8_t digit)
{
    static const char digits[] = "0123456789ABCDEF0123456789abcdef";
    const char *found = digit == 0 ? NULL : strchr(digits, digit);
    return found == NULL ? -1 : (int)((found - digits) % 16);
}

size_t optional_length(const uint8_t *text, size_t at, size_t end)
{
    int high, low;
    size_t length;
    if (end - at < 4)
        return 0;
    high = hex_value(text[at + 2]);
    low = hex_value(text[at + 3]);
    if (high < 0 || low < 0)
        return 0;
    length = (size_t)(16 * high + low);
    return length < 4 || length > end - at ? 0 : length;
}

/* What a key block is made of. */
struct wrapping {
    const struct argument *kbpk, *fields, *optional, *key, *padding;
};

/* How many optional blocks these are, one after another, as they are written, or -1. */
static int optional_count(const uint8_t *blocks, size_t size)
{
    size_t at = 0;
    int count = 0;
    for (; at < size; count++) {
        size_t length = optional_length(blocks, at, size);
        if (length == 0)
            return -1;
        at += length;
    }
    return size % BLOCK_BYTES != 0 || count > 99 || !are_printed(blocks, size) ? -1 : count;
}

static size_t put_payload(const struct wrapping *asked, uint8_t *payload)
{
    payload[0] = 0;
    payload[1] = (uint8_t)(8 * asked->key->size);
    memcpy(payload + 2, asked->key->bytes, asked->key->size);
    memcpy(payload + 2 + asked->key->size, asked->padding->bytes, asked->padding->size);
    return 2 + asked->key->size + asked->padding->size;
}

/* Writes the key block of a key. */
static uint32_t wrap(const struct wrapping *asked, struct argument *out, struct argument *out_count)
{
    uint8_t payload[MOST_PAYLOAD], text[MOST_TEXT];
    char front[MOST_TEXT + 1];
    size_t front_size = FRONT_BYTES + asked->optional->size;
    size_t size = 2 + asked->key->size + asked->padding->size;
    size_t length = front_size + 2 * size + 2 * BLOCK_BYTES;
    int count = optional_count(asked->optional->bytes, asked->optional->size);
    if (!is_tdes_size(asked->kbpk->size) || !is_tdes_size(asked->key->size)
        || asked->fields->size != HEADER_BYTES || !has_room(out, MOST_TEXT))
        return DUKPT_FAULT_LENGTH;
    if (!are_printed(asked->fields->bytes, HEADER_BYTES))
        return DUKPT_FAULT_BLOCK_HEADER_FIELD;
    if (count < 0)
        return DUKPT_FAULT_BLOCK_OPTIONAL_BLOCK;
    if (size % BLOCK_BYTES != 0 || length > MOST_TEXT)
        return DUKPT_FAULT_BLOCK_PAD_LENGTH;
    snprintf(front, sizeof front, "B%04u%.7s%02u00", (unsigned)length,
             (const char *)asked->fields->bytes, (unsigned)count);
    memcpy(front + FRONT_BYTES, asked->optional->bytes, asked->optional->size);
    sealed(asked->kbpk->bytes, asked->kbpk->size, (const uint8_t *)front, front_size, payload,
           put_payload(asked, payload), text);
    write_front(out, out_count, text, length);
    return DUKPT_OK;
}

uint32_t peer_wrap(struct argument *given)
{
    struct argument none = {given[0].bytes, 0, 0};
    struct wrapping asked = {&given[0], &given[1], &none, &given[2], &given[3]};
    return wrap(&asked, &given[4], &given[5]);
}

uint32_t peer_wrap_with(struct argument *given)
{
    struct wrapping asked = {&given[0], &given[1], &given[2], &given[3], &given[4]};
    return wrap(&asked, &given[5], &given[6]);
}

/* Whether a text says its own length, in characters 1 to 4. */
static int has_length(const struct argument *text)
{
    char said[6];
    if (text->size < LEAST_TEXT || text->size > MOST_TEXT || text->size % 8 != 0)
        return 0;
    snprintf(said, sizeof said, "%04u", (unsigned)text->size);
    return memcmp(said, text->bytes + 1, 4) == 0;
}

/* How many optional blocks a text says that it has. */
static int said_count(const struct argument *text)
{
    return 10 * (text->bytes[12] - '0') + text->bytes[13] - '0';
}

/* Where the ciphertext begins, after the optional blocks, or 0. */
static size_t ciphertext_in(const struct argument *text)
{
    size_t at = FRONT_BYTES;
    for (int count = said_count(text); count > 0; count--) {
        size_t length = optional_length(text->bytes, at, text->size);
        if (length == 0)
            return 0;
        at += length;
    }
    return text->size - at < 64 || (text->size - at) % 16 != 0 ? 0 : at;
}

static int read_hex_bytes(const uint8_t *text, size_t size, uint8_t *bytes)
{
    for (size_t i = 0; i < size; i++) {
        int high = hex_value(text[2 * i]), low = hex_value(text[2 * i + 1]);
        if (high < 0 || low < 0)
            return 0;
        bytes[i] = (uint8_t)(high << 4 | low);
    }
    return 1;
}

/* Reads the payload of a text whose ciphertext begins at a place. */
static uint32_t read_payload(const struct argument *kbpk, const struct argument *text, size_t at,
                             uint8_t *payload, size_t *size)
{
    uint8_t key[TRIPLE_BYTES], mac[BLOCK_BYTES];
    *size = (text->size - at) / 2 - BLOCK_BYTES;
    if (!read_hex_bytes(text->bytes + at, *size + BLOCK_BYTES, payload))
        return DUKPT_FAULT_BLOCK_HEX;
    derived(kbpk->bytes, kbpk->size, ENCRYPTION, key);
    cbc(key, kbpk->size, payload + *size, payload, *size, 0);
    mac_of(kbpk->bytes, kbpk->size, text->bytes, at, payload, *size, mac);
    if (memcmp(mac, payload + *size, BLOCK_BYTES) != 0)
        return DUKPT_FAULT_BLOCK_MAC;
    return DUKPT_OK;
}

/* The first fault of a text before its ciphertext, or where that begins. */
static uint32_t read_front(const struct argument *text, size_t *at)
{
    if (!has_length(text))
        return DUKPT_FAULT_BLOCK_LENGTH;
    if (text->bytes[0] != 'B')
        return DUKPT_FAULT_BLOCK_VERSION;
    if (!are_printed(text->bytes + FIELDS_AT, HEADER_BYTES) || !are_digits(text->bytes + 12, 2))
        return DUKPT_FAULT_BLOCK_HEADER_FIELD;
    *at = ciphertext_in(text);
    return *at == 0 ? DUKPT_FAULT_BLOCK_OPTIONAL_BLOCK : DUKPT_OK;
}

uint32_t unwrap_text(const struct argument *kbpk, const struct argument *text,
                     struct wrapped *found)
{
    uint8_t payload[MOST_PAYLOAD];
    size_t at, size;
    uint32_t status = read_front(text, &at);
    if (status == DUKPT_OK)
        status = read_payload(kbpk, text, at, payload, &size);
    if (status != DUKPT_OK)
        return status;
    found->size = payload[1] / 8u;
    if (payload[0] != 0 || (payload[1] != 0x80 && payload[1] != 0xC0) || size < 2 + found->size)
        return DUKPT_FAULT_BLOCK_PAYLOAD;
    memcpy(found->key, payload + 2, found->size);
    return DUKPT_OK;
}

uint32_t peer_unwrap(struct argument *given)
{
    struct wrapped found;
    uint32_t status = DUKPT_FAULT_LENGTH;
    if (is_tdes_size(given[0].size) && has_room(&given[2], HEADER_BYTES)
        && has_room(&given[3], TRIPLE_BYTES))
        status = unwrap_text(&given[0], &given[1], &found);
    if (status != DUKPT_OK)
        return status;
    write_bytes(&given[2], given[1].bytes + FIELDS_AT, HEADER_BYTES);
    write_front(&given[3], &given[4], found.key, found.size);
    return DUKPT_OK;
}

uint32_t peer_unwrap_for(struct argument *given)
{
    const struct argument *text = &given[3];
    struct wrapped found;
    uint32_t status = DUKPT_FAULT_LENGTH;
    if (is_tdes_size(given[0].size) && given[1].size == 2 && is_tdes_size(given[2].number)
        && has_room(&given[4], TRIPLE_BYTES))
        status = unwrap_text(&given[0], text, &found);
    if (status != DUKPT_OK)
        return status;
    if (memcmp(text->bytes + FIELDS_AT, given[1].bytes, 2) != 0
        || text->bytes[ALGORITHM_AT] != 'T')
        return DUKPT_FAULT_OTHER_USAGE;
    if (found.size != given[2].number)
        return DUKPT_FAULT_OTHER_KEY_LENGTH;
    write_bytes(&given[4], found.key, found.size);
    return DUKPT_OK;
}

uint32_t peer_unwrap_optional(struct argument *given)
{
    const struct argument *text = &given[1];
    struct wrapped found;
    size_t at = FRONT_BYTES;
    uint32_t status = DUKPT_FAULT_LENGTH;
    if (is_tdes_size(given[0].size) && given[2].size == 2 && has_room(&given[3], MOST_CONTENT))
        status = unwrap_text(&given[0], text, &found);
    if (status != DUKPT_OK)
        return status;
    for (int count = said_count(text); count > 0; count--) {
        size_t length = optional_length(text->bytes, at, text->size);
        if (memcmp(text->bytes + at, given[2].bytes, 2) == 0) {
            write_front(&given[3], &given[4], text->bytes + at + 4, length - 4);
            return DUKPT_OK;
        }
        at += length;
    }
    return DUKPT_FAULT_NO_OPTIONAL_BLOCK;
}
