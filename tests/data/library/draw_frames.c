/* Frames, and what they are made of. */
#include "draw.h"
#include "peer_parts.h"

#include <string.h>

enum kind_of_frame { REQUEST, REPLY, REFUSAL, REVERSAL, REVERSAL_REPLY, FRAME_KINDS };

/* Makes a frame another one: of another length, or with another byte in it. */
static void spoil_frame(struct chance *chance, struct argument *frame)
{
    if (one_in(chance, 4))
        resize(chance, frame, below(chance, 2 * FRAME_BYTES));
    else if (one_in(chance, 2))
        draw_bytes(chance, frame->bytes + below(chance, 16), 1);
    else
        frame->bytes[below(chance, (uint32_t)frame->size)] ^= (uint8_t)(1u << below(chance, 8));
}

const uint8_t *draw_code_of_five(struct chance *chance)
{
    static const uint8_t codes[][2] = {{'0', '0'}, {'1', '4'}, {'3', '0'}, {'5', '1'}, {'5', '5'}};
    return codes[below(chance, 5)];
}

/* A request under a key, mostly with the PIN block of a PIN. Gives the number of its bytes. */
static size_t put_request(struct chance *chance, const uint8_t *key, const uint8_t *ksn,
                          uint8_t *frame)
{
    struct request request;
    uint8_t pin[12];
    request.pan_digits = 12 + below(chance, 8);
    draw_digits(chance, request.pan, request.pan_digits);
    draw_digits(chance, pin, sizeof pin);
    memcpy(request.ksn, ksn, KSN_BYTES);
    draw_bytes(chance, (uint8_t *)&request.amount, sizeof request.amount);
    block_of_pin(pin, 4 + below(chance, 9), request.pan, request.pan_digits, request.block);
    if (one_in(chance, 6))
        request.block[below(chance, BLOCK_BYTES)] ^= (uint8_t)(1u << below(chance, 8));
    return write_request(key, &request, frame);
}

static void put_reply(struct chance *chance, const uint8_t *key, const uint8_t *ksn,
                      struct argument *frame)
{
    frame->size = write_reply(key, ksn, draw_code_of_five(chance), frame->bytes);
}

/* A reversal or its reply: of two numbers that are mostly such. The state is mostly one. */
static void put_reversal(struct chance *chance, const uint8_t *key, enum kind_of_frame kind,
                         const uint8_t *ksn, const uint8_t *reversed, struct argument *frame)
{
    uint8_t state = (uint8_t)below(chance, one_in(chance, 8) ? 256 : 2);
    frame->size = kind == REVERSAL
                      ? write_reversal(key, ksn, reversed, frame->bytes)
                      : write_reversal_reply(key, ksn, reversed, state, frame->bytes);
}

/* A frame of any kind, of which this one comes most. */
static void draw_frame(struct chance *chance, enum kind_of_frame kind, struct argument *frame)
{
    uint8_t key[KEY_BYTES], ksn[KSN_BYTES], reversed[KSN_BYTES];
    draw_bytes(chance, key, sizeof key);
    draw_bytes(chance, ksn, sizeof ksn);
    if (one_in(chance, 12))
        kind = (enum kind_of_frame)below(chance, FRAME_KINDS);
    switch (kind) {
    case REQUEST:
        frame->size = put_request(chance, key, ksn, frame->bytes);
        break;
    case REPLY:
        put_reply(chance, key, ksn, frame);
        break;
    case REFUSAL:
        frame->size = write_refusal(ksn, 1 + below(chance, 6), frame->bytes);
        break;
    default:
        draw_reversed(chance, ksn, reversed);
        put_reversal(chance, key, kind, ksn, reversed, frame);
    }
    if (one_in(chance, 4))
        spoil_frame(chance, frame);
}

void draw_request(struct chance *chance, struct argument *given)
{
    draw_frame(chance, REQUEST, &given[0]);
}

void draw_reply(struct chance *chance, struct argument *given)
{
    draw_frame(chance, REPLY, &given[0]);
}

void draw_refusal(struct chance *chance, struct argument *given)
{
    draw_frame(chance, REFUSAL, &given[0]);
}

void draw_request_of_key(struct chance *chance, struct argument *given)
{
    uint8_t ksn[KSN_BYTES];
    draw_bytes(chance, ksn, sizeof ksn);
    if (one_in(chance, 12)) {
        draw_frame(chance, REQUEST, &given[1]);
        return;
    }
    given[1].size = put_request(chance, given[0].bytes, ksn, given[1].bytes);
    if (one_in(chance, 4))
        spoil_frame(chance, &given[1]);
}

/* A frame in 64 bytes: mostly the request of a transaction under its key. */
static void put_own_request(struct chance *chance, const uint8_t *bdk, uint8_t *place)
{
    uint8_t ksn[KSN_BYTES], key[KEY_BYTES];
    size_t size;
    draw_bytes(chance, ksn, sizeof ksn);
    number_with(ksn, counter_after(draw_counter(chance) % (SPENT_COUNTER / 2)), ksn);
    if (one_in(chance, 8))
        number_with(ksn, draw_counter(chance), ksn);
    tree_derived_key(bdk, ksn, key);
    size = put_request(chance, key, ksn, place);
    if (one_in(chance, 8))
        place[size - 1 - below(chance, BLOCK_BYTES)] ^= (uint8_t)(1u << below(chance, 8));
    if (one_in(chance, 8))
        place[below(chance, (uint32_t)size)] ^= (uint8_t)(1u << below(chance, 8));
}

void draw_requests(struct chance *chance, struct argument *given)
{
    for (size_t at = 0; at < given[1].size; at += FRAME_BYTES)
        if (!one_in(chance, 16))
            put_own_request(chance, given[0].bytes, given[1].bytes + at);
}

void draw_reply_of_key(struct chance *chance, struct argument *given)
{
    if (one_in(chance, 12)) {
        draw_frame(chance, REPLY, &given[2]);
        return;
    }
    put_reply(chance, given[0].bytes, given[1].bytes, &given[2]);
    if (one_in(chance, 4))
        spoil_frame(chance, &given[2]);
    if (one_in(chance, 16))
        given[1].bytes[below(chance, KSN_BYTES)] ^= (uint8_t)(1u << below(chance, 8));
}

void draw_reversal(struct chance *chance, struct argument *given)
{
    draw_frame(chance, REVERSAL, &given[0]);
}

void draw_reversal_reply(struct chance *chance, struct argument *given)
{
    draw_frame(chance, REVERSAL_REPLY, &given[0]);
}

void draw_reversal_of_key(struct chance *chance, struct argument *given)
{
    uint8_t ksn[KSN_BYTES], reversed[KSN_BYTES];
    draw_bytes(chance, ksn, sizeof ksn);
    draw_reversed(chance, ksn, reversed);
    put_reversal(chance, given[0].bytes, REVERSAL, ksn, reversed, &given[1]);
    if (one_in(chance, 4))
        spoil_frame(chance, &given[1]);
    if (one_in(chance, 12))
        draw_frame(chance, REVERSAL, &given[1]);
}

void draw_reversal_reply_of_key(struct chance *chance, struct argument *given)
{
    draw_reversed(chance, given[1].bytes, given[2].bytes);
    put_reversal(chance, given[0].bytes, REVERSAL_REPLY, given[1].bytes, given[2].bytes, &given[3]);
    if (one_in(chance, 4))
        spoil_frame(chance, &given[3]);
    if (one_in(chance, 12))
        draw_frame(chance, REVERSAL_REPLY, &given[3]);
    if (one_in(chance, 12))
        given[1 + below(chance, 2)].bytes[below(chance, KSN_BYTES)] ^=
            (uint8_t)(1u << below(chance, 8));
}

void draw_code(struct chance *chance, struct argument *given)
{
    memcpy(given[2].bytes, draw_code_of_five(chance), 2);
    if (one_in(chance, 4))
        draw_digits(chance, given[2].bytes, 2);
    if (one_in(chance, 16))
        draw_bytes(chance, given[2].bytes, 2);
}

/* Some reasons are such that their low byte alone would be right. */
void draw_reason(struct chance *chance, struct argument *given)
{
    if (!one_in(chance, 16))
        given[1].number = below(chance, 9) + (one_in(chance, 8) ? 256 * below(chance, 300) : 0);
}

void draw_stream(struct chance *chance, struct argument *given)
{
    if (!one_in(chance, 8))
        given[0].bytes[0] = 0;
    if (!one_in(chance, 8))
        given[0].bytes[1] = (uint8_t)below(chance, 70);
    if (one_in(chance, 8))
        given[0].size = below(chance, 4);
}
