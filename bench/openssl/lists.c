/* The same of many terminals, one after the other (docs/FORMATS.md). */
#include "work.h"

#include <openssl/crypto.h>
#include <string.h>

enum {
    NOT_A_REQUEST = 21,
    NOT_USABLE = 3,
    BAD_MAC = 27,
    LENGTH = 2,
    AT_KSN = LENGTH + 2,
    AT_DIGITS = AT_KSN + SERIAL,
    LEAST_PAN = 12,
    MOST_PAN = 19,
    WITHOUT_PAN = 33
};

void derive_many(const uint8_t bdk[KEY], const uint8_t *ksns, long count, uint8_t *keys)
{
    for (; count > 0; count--, ksns += SERIAL, keys += KEY)
        derive(bdk, ksns, keys);
}

/* How many bytes the contents of the request has with which these begin, or 0 where it is none. */
static long length_of_request(const uint8_t frame[PLACE])
{
    long length = frame[0] << 8 | frame[1], digits = frame[AT_DIGITS];
    if (frame[2] != 1 || frame[3] != 1 || digits < LEAST_PAN || digits > MOST_PAN
        || length != WITHOUT_PAN + digits)
        return 0;
    for (long i = 0; i < digits; i++)
        if (frame[AT_DIGITS + 1 + i] < '0' || frame[AT_DIGITS + 1 + i] > '9')
            return 0;
    return length;
}

static uint8_t check_request(const uint8_t bdk[KEY], const uint8_t frame[PLACE])
{
    uint8_t key[KEY], request_key[KEY], mac[BLOCK];
    long length = length_of_request(frame);
    if (length == 0)
        return NOT_A_REQUEST;
    if (!has_usable_counter(frame + AT_KSN))
        return NOT_USABLE;
    derive(bdk, frame + AT_KSN, key);
    variant(key, 6, request_key);
    retail(request_key, frame + LENGTH, length - BLOCK, mac);
    return CRYPTO_memcmp(mac, frame + LENGTH + length - BLOCK, BLOCK) == 0 ? 0 : BAD_MAC;
}

void check_requests(const uint8_t bdk[KEY], const uint8_t *frames, long count, uint8_t *results)
{
    for (; count > 0; count--, frames += PLACE)
        *results++ = check_request(bdk, frames);
}
