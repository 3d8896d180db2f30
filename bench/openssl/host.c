/* What a host answers to a request, with the keys and the card that bench/measure gives `dukpt`. */
#include "journal.h"

#include <string.h>

enum { PREFIX = 5, FEWEST_DIGITS = 12, MOST_DIGITS = 19 };
enum { APPROVED = 0, NO_CARD = 14, UNREADABLE = 30, OVER_LIMIT = 51, WRONG_PIN = 55 };
enum { MALFORMED = 1, UNKNOWN_KEY_SET, BAD_COUNTER, BAD_MAC, USED, FULL };
enum { AT_KSN = 2, AT_DIGITS = 12, AT_PAN = 13 };

static const char card_pan[] = "4012345678909", card_pin[] = "1234";
static const uint32_t card_limit = 10000;
static const uint8_t prefix[PREFIX] = {0xFF, 0xFF, 0x98, 0x76, 0x54};
static uint8_t bdk[KEY], zone[KEY];

struct request {
    const uint8_t *ksn, *block, *mac;
    char pan[MOST_DIGITS + 1];
    uint32_t amount;
};

void set_up_host(void)
{
    read_hex("0123456789ABCDEFFEDCBA9876543210", bdk, KEY);
    read_hex("3F419E1CB7079442AA37474C2EFBF8B8", zone, KEY);
}

static int read_request(const uint8_t *contents, size_t length, struct request *request)
{
    if (length < AT_PAN || contents[0] != 1 || contents[1] != 1)
        return 0;
    size_t digits = contents[AT_DIGITS];
    if (digits < FEWEST_DIGITS || digits > MOST_DIGITS || length != 33 + digits)
        return 0;
    for (size_t i = 0; i < digits; i++)
        if (contents[AT_PAN + i] < '0' || contents[AT_PAN + i] > '9')
            return 0;
    const uint8_t *amount = contents + AT_PAN + digits;
    memcpy(request->pan, contents + AT_PAN, digits);
    request->pan[digits] = 0;
    request->amount = (uint32_t)amount[0] << 24 | (uint32_t)amount[1] << 16
                    | (uint32_t)amount[2] << 8 | amount[3];
    request->ksn = contents + AT_KSN;
    request->block = amount + 4;
    request->mac = amount + 4 + BLOCK;
    return 1;
}

/* What the issuer says of a PIN block under the zone key: the card comes first, then the PIN. */
static uint8_t decide(const struct request *request, const uint8_t block[BLOCK])
{
    char pin[MOST_PIN + 1];
    uint8_t clear[BLOCK];
    if (strcmp(request->pan, card_pan) != 0)
        return NO_CARD;
    tdes_decrypt(zone, block, clear);
    if (!read_pin(clear, request->pan, pin))
        return UNREADABLE;
    if (strcmp(pin, card_pin) != 0)
        return WRONG_PIN;
    return request->amount > card_limit ? OVER_LIMIT : APPROVED;
}

/* The PIN goes to the issuer under the zone key. */
static uint8_t code_for(const struct request *request, const uint8_t key[KEY])
{
    char pin[MOST_PIN + 1];
    uint8_t pin_key[KEY], block[BLOCK];
    variant(key, 7, pin_key);
    tdes_decrypt(pin_key, request->block, block);
    if (!read_pin(block, request->pan, pin))
        return UNREADABLE;
    pin_block(pin, request->pan, block);
    tdes_encrypt(zone, block, block);
    return decide(request, block);
}

static size_t begin(uint8_t kind, size_t length, const uint8_t ksn[SERIAL], uint8_t *answer)
{
    const uint8_t front[] = {0, (uint8_t)length, 1, kind};
    memcpy(answer, front, sizeof front);
    memcpy(answer + sizeof front, ksn, SERIAL);
    return 2 + length;
}

static size_t refuse(uint8_t reason, const uint8_t ksn[SERIAL], uint8_t *answer)
{
    answer[14] = reason;
    return begin(3, 13, ksn, answer);
}

static size_t reply(uint8_t code, const uint8_t key[KEY], const uint8_t ksn[SERIAL], uint8_t *answer)
{
    uint8_t mac_key[KEY];
    size_t count = begin(2, 22, ksn, answer);
    answer[14] = (uint8_t)('0' + code / 10);
    answer[15] = (uint8_t)('0' + code % 10);
    variant(key, 4, mac_key);
    retail(mac_key, answer + 2, 14, answer + 16);
    return count;
}

/* The payment of a request that is decided. */
static void accept_as(uint8_t code, const struct request *request, struct numbers *numbers,
                      struct group *group)
{
    struct payment *payment = &group->payments[group->count++];
    memcpy(payment->ksn, request->ksn, SERIAL);
    memcpy(payment->mac, request->mac, BLOCK);
    payment->code = code;
    payment->amount = request->amount;
    add_payment(numbers, payment);
}

size_t answer_to(const uint8_t *contents, size_t length, struct numbers *numbers, size_t room,
                 struct group *group, uint8_t answer[LONGEST])
{
    static const uint8_t no_serial[SERIAL];
    struct request request;
    uint8_t key[KEY], mac_key[KEY], mac[BLOCK];
    if (!read_request(contents, length, &request))
        return refuse(MALFORMED, no_serial, answer);
    if (memcmp(request.ksn, prefix, PREFIX) != 0)
        return refuse(UNKNOWN_KEY_SET, request.ksn, answer);
    if (!has_usable_counter(request.ksn))
        return refuse(BAD_COUNTER, request.ksn, answer);
    derive(bdk, request.ksn, key);
    variant(key, 6, mac_key);
    retail(mac_key, contents, (long)length - BLOCK, mac);
    if (memcmp(mac, request.mac, BLOCK) != 0)
        return refuse(BAD_MAC, request.ksn, answer);
    const struct payment *before = payment_with(numbers, request.ksn);
    if (before != NULL && memcmp(before->mac, request.mac, BLOCK) == 0)
        return reply(before->code, key, request.ksn, answer);
    if (before != NULL)
        return refuse(USED, request.ksn, answer);
    if (group->count == room)
        return refuse(FULL, request.ksn, answer);
    uint8_t code = code_for(&request, key);
    accept_as(code, &request, numbers, group);
    return reply(code, key, request.ksn, answer);
}
