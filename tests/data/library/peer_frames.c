/* Frames, by docs/FORMATS.md: two bytes of length, and the contents. */
#include "peer_parts.h"

#include <string.h>

enum { LENGTH_BYTES = 2, BODY_AT = 4, PAN_AT = 15, CODE_AT = 14, REVERSED_AT = 14, STATE_AT = 24 };

/* Writes length, version and kind, and gives the number of the frame's bytes. */
static size_t begin_frame(uint8_t *frame, uint8_t kind, size_t contents)
{
    frame[0] = 0;
    frame[1] = (uint8_t)contents;
    frame[2] = 1;
    frame[3] = kind;
    return LENGTH_BYTES + contents;
}

/* Whether bytes have the length that stands before them, and this kind. */
static int is_frame(const uint8_t *frame, size_t size, uint8_t kind)
{
    return size >= BODY_AT && size <= LENGTH_BYTES + LONGEST_CONTENTS && frame[0] == 0
           && frame[1] == size - LENGTH_BYTES && frame[2] == 1 && frame[3] == kind;
}

/* Writes the retail MAC under a variant of a key, after what it is made of. */
static void put_mac(const uint8_t *key, enum variant variant, uint8_t *frame, size_t size)
{
    uint8_t mac_key[KEY_BYTES];
    variant_of(key, variant, mac_key);
    retail_mac_of(mac_key, frame + LENGTH_BYTES, size - LENGTH_BYTES - BLOCK_BYTES,
                  frame + size - BLOCK_BYTES);
}

size_t write_request(const uint8_t *key, const struct request *request, uint8_t *frame)
{
    uint8_t pin_key[KEY_BYTES], *at = frame + PAN_AT;
    size_t size = begin_frame(frame, 1, 33 + request->pan_digits);
    memcpy(frame + BODY_AT, request->ksn, KSN_BYTES);
    frame[PAN_AT - 1] = (uint8_t)request->pan_digits;
    memcpy(at, request->pan, request->pan_digits);
    at += request->pan_digits;
    for (int i = 0; i < 4; i++)
        *at++ = (uint8_t)(request->amount >> (24 - 8 * i));
    variant_of(key, PIN_VARIANT, pin_key);
    tdes_block(pin_key, KEY_BYTES, request->block, 1, at);
    put_mac(key, REQUEST_VARIANT, frame, size);
    return size;
}

int read_request(const uint8_t *frame, size_t size, struct request *request)
{
    const uint8_t *at = frame + PAN_AT;
    if (!is_frame(frame, size, 1) || size < PAN_AT)
        return 0;
    request->pan_digits = frame[PAN_AT - 1];
    if (request->pan_digits < 12 || request->pan_digits > MOST_DIGITS
        || size != LENGTH_BYTES + 33 + request->pan_digits || !are_digits(at, request->pan_digits))
        return 0;
    memcpy(request->ksn, frame + BODY_AT, KSN_BYTES);
    memcpy(request->pan, at, request->pan_digits);
    at += request->pan_digits;
    request->amount = (uint32_t)at[0] << 24 | (uint32_t)at[1] << 16 | (uint32_t)at[2] << 8 | at[3];
    memcpy(request->block, at + 4, BLOCK_BYTES);
    memcpy(request->mac, at + 4 + BLOCK_BYTES, BLOCK_BYTES);
    return 1;
}

int is_code(const uint8_t *code)
{
    static const char codes[][3] = {"00", "14", "30", "51", "55"};
    for (size_t i = 0; i < sizeof codes / sizeof *codes; i++)
        if (memcmp(codes[i], code, 2) == 0)
            return 1;
    return 0;
}

size_t write_reply(const uint8_t *key, const uint8_t *ksn, const uint8_t *code, uint8_t *frame)
{
    size_t size = begin_frame(frame, 2, 22);
    memcpy(frame + BODY_AT, ksn, KSN_BYTES);
    memcpy(frame + CODE_AT, code, 2);
    put_mac(key, RESPONSE_VARIANT, frame, size);
    return size;
}

int read_reply(const uint8_t *frame, size_t size, struct reply *reply)
{
    if (!is_frame(frame, size, 2) || size != LENGTH_BYTES + 22 || !is_code(frame + CODE_AT))
        return 0;
    memcpy(reply->ksn, frame + BODY_AT, KSN_BYTES);
    memcpy(reply->code, frame + CODE_AT, 2);
    memcpy(reply->mac, frame + CODE_AT + 2, BLOCK_BYTES);
    return 1;
}

size_t write_refusal(const uint8_t *ksn, uint32_t reason, uint8_t *frame)
{
    size_t size = begin_frame(frame, 3, 13);
    memcpy(frame + BODY_AT, ksn, KSN_BYTES);
    frame[CODE_AT] = (uint8_t)reason;
    return size;
}

uint32_t read_refusal(const uint8_t *frame, size_t size, uint8_t *ksn)
{
    if (!is_frame(frame, size, 3) || size != LENGTH_BYTES + 13 || frame[CODE_AT] > 6)
        return 0;
    memcpy(ksn, frame + BODY_AT, KSN_BYTES);
    return frame[CODE_AT];
}

int reverses(const uint8_t *ksn, const uint8_t *reversed)
{
    uint8_t iksn[KSN_BYTES], other[KSN_BYTES];
    number_with(ksn, 0, iksn);
    number_with(reversed, 0, other);
    return memcmp(iksn, other, KSN_BYTES) == 0 && counter_in(ksn) != counter_in(reversed)
           && is_usable(counter_in(reversed));
}

size_t write_reversal(const uint8_t *key, const uint8_t *ksn, const uint8_t *reversed,
                      uint8_t *frame)
{
    size_t size = begin_frame(frame, 4, 30);
    memcpy(frame + BODY_AT, ksn, KSN_BYTES);
    memcpy(frame + REVERSED_AT, reversed, KSN_BYTES);
    put_mac(key, REQUEST_VARIANT, frame, size);
    return size;
}

size_t write_reversal_reply(const uint8_t *key, const uint8_t *ksn, const uint8_t *reversed,
                            uint8_t state, uint8_t *frame)
{
    size_t size = begin_frame(frame, 5, 31);
    memcpy(frame + BODY_AT, ksn, KSN_BYTES);
    memcpy(frame + REVERSED_AT, reversed, KSN_BYTES);
    frame[STATE_AT] = state;
    put_mac(key, RESPONSE_VARIANT, frame, size);
    return size;
}

/* Reads what a reversal and its reply have in common, of a frame that is so long. */
static int read_numbers(const uint8_t *frame, size_t size, struct reversal *found)
{
    memcpy(found->ksn, frame + BODY_AT, KSN_BYTES);
    memcpy(found->reversed, frame + REVERSED_AT, KSN_BYTES);
    memcpy(found->mac, frame + size - BLOCK_BYTES, BLOCK_BYTES);
    return reverses(found->ksn, found->reversed);
}

int read_reversal(const uint8_t *frame, size_t size, struct reversal *reversal)
{
    return is_frame(frame, size, 4) && size == LENGTH_BYTES + 30
           && read_numbers(frame, size, reversal);
}

int read_reversal_reply(const uint8_t *frame, size_t size, struct reversal *reply)
{
    if (!is_frame(frame, size, 5) || size != LENGTH_BYTES + 31 || frame[STATE_AT] > 1)
        return 0;
    reply->state = frame[STATE_AT];
    return read_numbers(frame, size, reply);
}
