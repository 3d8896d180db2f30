/* The two steps of a host: frames are judged, and what was settled is answered. */
#include "peer.h"
#include "peer_parts.h"

#include <dukpt.h>
#include <string.h>

enum { MALFORMED = 1, NO_KEY_SET, BAD_COUNTER, BAD_MAC, USED, FULL };

/* Where the fields of a card stand, and those of what is judged or settled. */
enum { PIN_SIZE_AT = 20, LIMIT_AT = 33 };
enum {
    NUMBER_AT = 2,
    AMOUNT_AT = 12,
    REVERSED_AT = 12,
    CODE_AT = 16,
    MAC_AT = 18,
    OWN_MAC_AT = 22,
    STATE_AT = 30
};

static int is_card(const uint8_t *card)
{
    struct argument pan = {NULL, card[0], 0}, pin = {NULL, card[PIN_SIZE_AT], 0};
    uint8_t digits[2][MOST_DIGITS];
    memcpy(pan.bytes = digits[0], card + 1, MOST_DIGITS);
    memcpy(pin.bytes = digits[1], card + PIN_SIZE_AT + 1, LIMIT_AT - PIN_SIZE_AT - 1);
    return fault_of_pan(&pan) == DUKPT_OK && fault_of_pin(&pin) == DUKPT_OK;
}

static int are_cards(const struct argument *cards)
{
    for (size_t at = 0; at < cards->size; at += CARD_BYTES)
        if (!is_card(cards->bytes + at))
            return 0;
    return 1;
}

static uint32_t number_at(const uint8_t *bytes)
{
    return (uint32_t)bytes[0] << 24 | (uint32_t)bytes[1] << 16 | (uint32_t)bytes[2] << 8 | bytes[3];
}

/* The first card with the PAN of a request, or none. */
static const uint8_t *card_of(const struct argument *cards, const struct request *request)
{
    for (size_t at = 0; at < cards->size; at += CARD_BYTES) {
        const uint8_t *card = cards->bytes + at;
        if (card[0] == request->pan_digits && memcmp(card + 1, request->pan, card[0]) == 0)
            return card;
    }
    return NULL;
}

/* The code of an authentic request. */
static const char *code_of(const struct argument *cards, const uint8_t *key,
                           const struct request *request)
{
    uint8_t pin_key[KEY_BYTES], block[BLOCK_BYTES], pin[12];
    const uint8_t *card = card_of(cards, request);
    size_t digits;
    variant_of(key, PIN_VARIANT, pin_key);
    tdes_block(pin_key, KEY_BYTES, request->block, 0, block);
    digits = pin_in_block(block, request->pan, request->pan_digits, pin);
    if (digits == 0)
        return "30";
    if (card == NULL)
        return "14";
    if (card[PIN_SIZE_AT] != digits || memcmp(card + PIN_SIZE_AT + 1, pin, digits) != 0)
        return "55";
    return request->amount > number_at(card + LIMIT_AT) ? "51" : "00";
}

/* Derives the transaction key of a number, or gives the reason against it. */
static uint32_t reason_against(const struct module *module, const uint8_t *ksn, uint8_t *key)
{
    const uint8_t *base = base_key(module, ksn);
    if (base == NULL)
        return NO_KEY_SET;
    if (!is_usable(counter_in(ksn)))
        return BAD_COUNTER;
    tree_derived_key(base, ksn, key);
    return 0;
}

static void judge_reversal(const struct module *module, const struct reversal *reversal,
                           uint8_t *said)
{
    uint8_t key[KEY_BYTES], again[FRAME_BYTES];
    uint32_t reason = reason_against(module, reversal->ksn, key);
    if (reason == 0) {
        size_t size = write_reversal(key, reversal->ksn, reversal->reversed, again);
        if (memcmp(again + size - BLOCK_BYTES, reversal->mac, BLOCK_BYTES) != 0)
            reason = BAD_MAC;
    }
    if (reason != 0) {
        write_refusal(reversal->ksn, reason, said);
        return;
    }
    said[0] = 2;
    memcpy(said + NUMBER_AT, reversal->ksn, KSN_BYTES);
    memcpy(said + REVERSED_AT, reversal->reversed, KSN_BYTES);
    memcpy(said + OWN_MAC_AT, reversal->mac, BLOCK_BYTES);
}

static void judge_request(const struct module *module, const struct argument *cards,
                          const uint8_t *frame, const struct request *request, uint8_t *said)
{
    uint8_t key[KEY_BYTES], mac_key[KEY_BYTES], mac[BLOCK_BYTES];
    uint32_t reason = reason_against(module, request->ksn, key);
    if (reason == 0) {
        variant_of(key, REQUEST_VARIANT, mac_key);
        retail_mac_of(mac_key, frame + 2, (size_t)frame[1] - BLOCK_BYTES, mac);
        if (memcmp(mac, request->mac, BLOCK_BYTES) != 0)
            reason = BAD_MAC;
    }
    if (reason != 0) {
        write_refusal(request->ksn, reason, said);
        return;
    }
    said[0] = 1;
    memcpy(said + NUMBER_AT, request->ksn, KSN_BYTES);
    for (int at = 0; at < 4; at++)
        said[AMOUNT_AT + at] = (uint8_t)(request->amount >> (24 - 8 * at));
    memcpy(said + CODE_AT, code_of(cards, key, request), 2);
    memcpy(said + MAC_AT, request->mac, BLOCK_BYTES);
}

static void judge(const struct module *module, const struct argument *cards, const uint8_t *frame,
                  uint8_t *said)
{
    static const uint8_t no_number[KSN_BYTES];
    size_t size = 2 + (size_t)(frame[0] << 8 | frame[1]);
    struct request request;
    struct reversal reversal;
    memset(said, 0, FRAME_BYTES);
    if (size <= FRAME_BYTES && read_reversal(frame, size, &reversal))
        judge_reversal(module, &reversal, said);
    else if (size <= FRAME_BYTES && read_request(frame, size, &request))
        judge_request(module, cards, frame, &request, said);
    else
        write_refusal(no_number, MALFORMED, said);
}

uint32_t peer_host_judge(struct argument *given)
{
    struct module module;
    if (given[0].size != MODULE_BYTES || given[1].size % CARD_BYTES != 0
        || given[2].size % FRAME_BYTES != 0 || !has_room(&given[3], given[2].size))
        return DUKPT_FAULT_LENGTH;
    if (!read_module(given[0].bytes, &module))
        return DUKPT_FAULT_NOT_A_MODULE;
    if (module.zone_size == 0)
        return DUKPT_FAULT_NO_ZONE;
    if (!are_cards(&given[1]))
        return DUKPT_FAULT_NOT_A_CARD;
    for (size_t at = 0; at < given[2].size; at += FRAME_BYTES)
        judge(&module, &given[1], given[2].bytes + at, given[3].bytes + at);
    return DUKPT_OK;
}

/* Whether bytes say what was settled. */
static int is_settled(const uint8_t *said)
{
    int has_outcome = said[1] == 1 || said[1] == 2;
    if (said[1] < 1 || said[1] > 4)
        return 0;
    if (said[0] == 1)
        return !has_outcome || is_code(said + CODE_AT);
    return said[0] == 2 && reverses(said + NUMBER_AT, said + REVERSED_AT)
           && (!has_outcome || said[STATE_AT] <= 1);
}

static void answer(const struct module *module, const uint8_t *said, uint8_t *answer)
{
    uint8_t key[KEY_BYTES];
    const uint8_t *ksn = said + NUMBER_AT;
    uint32_t reason;
    memset(answer, 0, FRAME_BYTES);
    if (!is_settled(said)) {
        answer[0] = DUKPT_FAULT_NOT_SETTLED;
        return;
    }
    reason = reason_against(module, ksn, key);
    if (reason != 0)
        answer[0] = reason == NO_KEY_SET ? DUKPT_FAULT_NO_KEY_SET : DUKPT_FAULT_NOT_USABLE;
    else if (said[1] > 2)
        write_refusal(ksn, said[1] == 3 ? USED : FULL, answer);
    else if (said[0] == 1)
        write_reply(key, ksn, said + CODE_AT, answer);
    else
        write_reversal_reply(key, ksn, said + REVERSED_AT, said[STATE_AT], answer);
}

uint32_t peer_host_answer(struct argument *given)
{
    struct module module;
    if (given[0].size != MODULE_BYTES || given[1].size % FRAME_BYTES != 0
        || !has_room(&given[2], given[1].size))
        return DUKPT_FAULT_LENGTH;
    if (!read_module(given[0].bytes, &module))
        return DUKPT_FAULT_NOT_A_MODULE;
    for (size_t at = 0; at < given[1].size; at += FRAME_BYTES)
        answer(&module, given[1].bytes + at, given[2].bytes + at);
    return DUKPT_OK;
}
