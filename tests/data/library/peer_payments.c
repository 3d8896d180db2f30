/* The calls over frames. */
#include "peer.h"
#include "peer_parts.h"

#include <dukpt.h>
#include <string.h>

uint32_t peer_payment_request(struct argument *given)
{
    const struct argument *pan = &given[2], *pin = &given[3];
    struct request request;
    uint8_t frame[FRAME_BYTES];
    uint32_t status = DUKPT_FAULT_LENGTH;
    if (given[0].size == KEY_BYTES && given[1].size == KSN_BYTES
        && has_room(&given[5], FRAME_BYTES))
        status = fault_of_pan(pan);
    if (status == DUKPT_OK)
        status = fault_of_pin(pin);
    if (status != DUKPT_OK)
        return status;
    memcpy(request.ksn, given[1].bytes, KSN_BYTES);
    memcpy(request.pan, pan->bytes, pan->size);
    request.pan_digits = pan->size;
    request.amount = given[4].number;
    block_of_pin(pin->bytes, pin->size, pan->bytes, pan->size, request.block);
    write_front(&given[5], &given[6], frame, write_request(given[0].bytes, &request, frame));
    return DUKPT_OK;
}

uint32_t peer_read_request(struct argument *given)
{
    struct request request;
    if (!has_room(&given[1], KSN_BYTES) || !has_room(&given[2], MOST_DIGITS)
        || !has_room(&given[5], BLOCK_BYTES) || !has_room(&given[6], BLOCK_BYTES))
        return DUKPT_FAULT_LENGTH;
    if (!read_request(given[0].bytes, given[0].size, &request))
        return DUKPT_FAULT_NOT_A_REQUEST;
    write_bytes(&given[1], request.ksn, KSN_BYTES);
    write_front(&given[2], &given[3], request.pan, request.pan_digits);
    write_count(&given[4], request.amount);
    write_bytes(&given[5], request.block, BLOCK_BYTES);
    write_bytes(&given[6], request.mac, BLOCK_BYTES);
    return DUKPT_OK;
}

uint32_t peer_check_request(struct argument *given)
{
    const struct argument *frame = &given[1];
    struct request request;
    uint8_t key[KEY_BYTES], mac[BLOCK_BYTES];
    if (given[0].size != KEY_BYTES)
        return DUKPT_FAULT_LENGTH;
    if (!read_request(frame->bytes, frame->size, &request))
        return DUKPT_FAULT_NOT_A_REQUEST;
    variant_of(given[0].bytes, REQUEST_VARIANT, key);
    retail_mac_of(key, frame->bytes + 2, frame->size - 2 - BLOCK_BYTES, mac);
    return memcmp(mac, request.mac, BLOCK_BYTES) == 0 ? DUKPT_OK : DUKPT_FAULT_BAD_MAC;
}

/* What is told of a frame at the begin of 64 bytes. */
static uint32_t told_of_frame(const struct argument *bdk, uint8_t *place)
{
    uint8_t key[KEY_BYTES];
    struct request request;
    struct argument given[2] = {{key, KEY_BYTES, 0}, {place, 0, 0}};
    given[1].size = 2 + (size_t)(place[0] << 8 | place[1]);
    if (given[1].size > FRAME_BYTES || !read_request(place, given[1].size, &request))
        return DUKPT_FAULT_NOT_A_REQUEST;
    if (!is_usable(counter_in(request.ksn)))
        return DUKPT_FAULT_NOT_USABLE;
    tree_derived_key(bdk->bytes, request.ksn, key);
    return peer_check_request(given);
}

uint32_t peer_check_requests(struct argument *given)
{
    size_t count = given[1].size / FRAME_BYTES;
    if (given[0].size != KEY_BYTES || given[1].size % FRAME_BYTES != 0
        || !has_room(&given[2], count))
        return DUKPT_FAULT_LENGTH;
    for (size_t at = 0; at < count; at++)
        given[2].bytes[at] = (uint8_t)told_of_frame(&given[0], given[1].bytes + FRAME_BYTES * at);
    return DUKPT_OK;
}

uint32_t peer_request_pin(struct argument *given)
{
    struct request request;
    uint8_t key[KEY_BYTES], block[BLOCK_BYTES], pin[12];
    size_t digits;
    if (given[0].size != KEY_BYTES || !has_room(&given[2], sizeof pin))
        return DUKPT_FAULT_LENGTH;
    if (!read_request(given[1].bytes, given[1].size, &request))
        return DUKPT_FAULT_NOT_A_REQUEST;
    variant_of(given[0].bytes, PIN_VARIANT, key);
    tdes_block(key, KEY_BYTES, request.block, 0, block);
    digits = pin_in_block(block, request.pan, request.pan_digits, pin);
    if (digits == 0)
        return DUKPT_FAULT_NOT_A_PIN_BLOCK;
    write_front(&given[2], &given[3], pin, digits);
    return DUKPT_OK;
}

uint32_t peer_request_reply(struct argument *given)
{
    uint8_t frame[FRAME_BYTES];
    if (given[0].size != KEY_BYTES || given[1].size != KSN_BYTES || given[2].size != 2
        || !has_room(&given[3], FRAME_BYTES))
        return DUKPT_FAULT_LENGTH;
    if (!is_code(given[2].bytes))
        return DUKPT_FAULT_NOT_A_CODE;
    write_front(&given[3], &given[4], frame,
                write_reply(given[0].bytes, given[1].bytes, given[2].bytes, frame));
    return DUKPT_OK;
}

uint32_t peer_request_refusal(struct argument *given)
{
    uint8_t frame[FRAME_BYTES];
    if (given[0].size != KSN_BYTES || !has_room(&given[2], FRAME_BYTES))
        return DUKPT_FAULT_LENGTH;
    if (given[1].number < 1 || given[1].number > 6)
        return DUKPT_FAULT_NOT_A_REASON;
    write_front(&given[2], &given[3], frame,
                write_refusal(given[0].bytes, given[1].number, frame));
    return DUKPT_OK;
}

uint32_t peer_read_reply(struct argument *given)
{
    struct reply reply;
    if (!has_room(&given[1], KSN_BYTES) || !has_room(&given[2], 2))
        return DUKPT_FAULT_LENGTH;
    if (!read_reply(given[0].bytes, given[0].size, &reply))
        return DUKPT_FAULT_NOT_A_REPLY;
    write_bytes(&given[1], reply.ksn, KSN_BYTES);
    write_bytes(&given[2], reply.code, 2);
    return DUKPT_OK;
}

uint32_t peer_read_refusal(struct argument *given)
{
    uint8_t ksn[KSN_BYTES];
    uint32_t reason;
    if (!has_room(&given[1], KSN_BYTES))
        return DUKPT_FAULT_LENGTH;
    reason = read_refusal(given[0].bytes, given[0].size, ksn);
    if (reason == 0)
        return DUKPT_FAULT_NOT_A_REFUSAL;
    write_bytes(&given[1], ksn, KSN_BYTES);
    write_count(&given[2], reason);
    return DUKPT_OK;
}

uint32_t peer_check_reply(struct argument *given)
{
    struct reply reply;
    uint8_t frame[FRAME_BYTES];
    if (given[0].size != KEY_BYTES || given[1].size != KSN_BYTES)
        return DUKPT_FAULT_LENGTH;
    if (!read_reply(given[2].bytes, given[2].size, &reply))
        return DUKPT_FAULT_NOT_A_REPLY;
    if (memcmp(reply.ksn, given[1].bytes, KSN_BYTES) != 0)
        return DUKPT_FAULT_NOT_MINE;
    write_reply(given[0].bytes, reply.ksn, reply.code, frame);
    return memcmp(frame, given[2].bytes, given[2].size) == 0 ? DUKPT_OK : DUKPT_FAULT_BAD_MAC;
}

uint32_t peer_frame_length(struct argument *given)
{
    const uint8_t *bytes = given[0].bytes;
    if (given[0].size < 2)
        return DUKPT_FAULT_PART_OF_FRAME;
    if (256 * bytes[0] + bytes[1] > LONGEST_CONTENTS)
        return DUKPT_FAULT_TOO_LONG;
    write_count(&given[1], 2u + bytes[1]);
    return DUKPT_OK;
}
