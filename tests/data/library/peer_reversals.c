/* The calls over reversals and their replies. */
#include "peer.h"
#include "peer_parts.h"

#include <dukpt.h>
#include <string.h>

/* Whether the first arguments are a key, a number and a number. */
static int are_key_and_numbers(const struct argument *given)
{
    return given[0].size == KEY_BYTES && given[1].size == KSN_BYTES && given[2].size == KSN_BYTES;
}

uint32_t peer_reversal_request(struct argument *given)
{
    uint8_t frame[FRAME_BYTES];
    if (!are_key_and_numbers(given) || !has_room(&given[3], FRAME_BYTES))
        return DUKPT_FAULT_LENGTH;
    if (!reverses(given[1].bytes, given[2].bytes))
        return DUKPT_FAULT_NOT_REVERSED;
    write_front(&given[3], &given[4], frame,
                write_reversal(given[0].bytes, given[1].bytes, given[2].bytes, frame));
    return DUKPT_OK;
}

uint32_t peer_read_reversal(struct argument *given)
{
    struct reversal found;
    if (!has_room(&given[1], KSN_BYTES) || !has_room(&given[2], KSN_BYTES)
        || !has_room(&given[3], BLOCK_BYTES))
        return DUKPT_FAULT_LENGTH;
    if (!read_reversal(given[0].bytes, given[0].size, &found))
        return DUKPT_FAULT_NOT_A_REVERSAL;
    write_bytes(&given[1], found.ksn, KSN_BYTES);
    write_bytes(&given[2], found.reversed, KSN_BYTES);
    write_bytes(&given[3], found.mac, BLOCK_BYTES);
    return DUKPT_OK;
}

uint32_t peer_check_reversal(struct argument *given)
{
    struct reversal found;
    uint8_t frame[FRAME_BYTES];
    if (given[0].size != KEY_BYTES)
        return DUKPT_FAULT_LENGTH;
    if (!read_reversal(given[1].bytes, given[1].size, &found))
        return DUKPT_FAULT_NOT_A_REVERSAL;
    write_reversal(given[0].bytes, found.ksn, found.reversed, frame);
    return memcmp(frame, given[1].bytes, given[1].size) == 0 ? DUKPT_OK : DUKPT_FAULT_BAD_MAC;
}

uint32_t peer_reversal_reply(struct argument *given)
{
    uint8_t frame[FRAME_BYTES];
    uint32_t state = given[3].number;
    if (!are_key_and_numbers(given) || !has_room(&given[4], FRAME_BYTES))
        return DUKPT_FAULT_LENGTH;
    if (!reverses(given[1].bytes, given[2].bytes))
        return DUKPT_FAULT_NOT_REVERSED;
    if (state > 1)
        return DUKPT_FAULT_NOT_A_STATE;
    write_front(&given[4], &given[5], frame,
                write_reversal_reply(given[0].bytes, given[1].bytes, given[2].bytes,
                                     (uint8_t)state, frame));
    return DUKPT_OK;
}

uint32_t peer_read_reversal_reply(struct argument *given)
{
    struct reversal found;
    if (!has_room(&given[1], KSN_BYTES) || !has_room(&given[2], KSN_BYTES))
        return DUKPT_FAULT_LENGTH;
    if (!read_reversal_reply(given[0].bytes, given[0].size, &found))
        return DUKPT_FAULT_NOT_A_REVERSAL_REPLY;
    write_bytes(&given[1], found.ksn, KSN_BYTES);
    write_bytes(&given[2], found.reversed, KSN_BYTES);
    write_count(&given[3], found.state);
    return DUKPT_OK;
}

uint32_t peer_check_reversal_reply(struct argument *given)
{
    struct reversal found;
    uint8_t frame[FRAME_BYTES];
    if (!are_key_and_numbers(given))
        return DUKPT_FAULT_LENGTH;
    if (!read_reversal_reply(given[3].bytes, given[3].size, &found))
        return DUKPT_FAULT_NOT_A_REVERSAL_REPLY;
    if (memcmp(found.ksn, given[1].bytes, KSN_BYTES) != 0
        || memcmp(found.reversed, given[2].bytes, KSN_BYTES) != 0)
        return DUKPT_FAULT_NOT_MINE;
    write_reversal_reply(given[0].bytes, found.ksn, found.reversed, found.state, frame);
    return memcmp(frame, given[3].bytes, given[3].size) == 0 ? DUKPT_OK : DUKPT_FAULT_BAD_MAC;
}
