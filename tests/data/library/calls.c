#include "calls.h"

#include "draw.h"
#include "library.h"
#include "peer.h"

#include <dukpt.h>

#define STATUS(name) (UINT64_C(1) << DUKPT_##name)
#define LENGTHS (STATUS(OK) | STATUS(FAULT_LENGTH))
#define PINS (STATUS(FAULT_PIN_LENGTH) | STATUS(FAULT_PIN_DIGIT))
#define PANS (STATUS(FAULT_PAN_LENGTH) | STATUS(FAULT_PAN_DIGIT))
#define IMAGES (LENGTHS | STATUS(FAULT_NOT_AN_IMAGE))
#define WRAPPINGS (LENGTHS | STATUS(FAULT_BLOCK_HEADER_FIELD) | STATUS(FAULT_BLOCK_PAD_LENGTH))
#define KEY_BLOCKS                                                                                 \
    (LENGTHS | STATUS(FAULT_BLOCK_LENGTH) | STATUS(FAULT_BLOCK_VERSION)                            \
     | STATUS(FAULT_BLOCK_HEADER_FIELD) | STATUS(FAULT_BLOCK_OPTIONAL_BLOCK)                       \
     | STATUS(FAULT_BLOCK_HEX) | STATUS(FAULT_BLOCK_MAC) | STATUS(FAULT_BLOCK_PAYLOAD))

#define LOADS (KEY_BLOCKS | STATUS(FAULT_NOT_A_MODULE) | STATUS(FAULT_WRONG_USE))

#define IN(size) {BYTES, EXACTLY, size, size, DUKPT_FAULT_LENGTH}
#define OUT(size) {BUFFER, ROOM, size, size, DUKPT_FAULT_LENGTH}
#define IN_OUT(size) {BUFFER, EXACTLY, size, size, DUKPT_FAULT_LENGTH}
#define KEY_IN IN(16)
#define KSN_IN IN(10)
#define KEY_OUT OUT(16)
#define KSN_OUT OUT(10)
#define IMAGE_OUT OUT(431)
#define TDES_KEY {BYTES, DOUBLE_OR_TRIPLE, 16, 24, DUKPT_FAULT_LENGTH}
#define MESSAGE(least) {BYTES, AT_LEAST, least, 70, DUKPT_FAULT_LENGTH}
#define BLOCKS {BUFFER, WHOLE_BLOCKS, 0, 72, DUKPT_FAULT_LENGTH}
#define IMAGE_IN {BYTES, AS_DRAWN, 0, 431, DUKPT_FAULT_NOT_AN_IMAGE}
#define PIN_IN {BYTES, FROM_TO, 4, 12, DUKPT_FAULT_PIN_LENGTH}
#define PAN_IN {BYTES, FROM_TO, 12, 19, DUKPT_FAULT_PAN_LENGTH}
#define PADDING {BYTES, FILLING_BLOCKS, 0, 230, DUKPT_FAULT_BLOCK_PAD_LENGTH}
#define BLOCK_IN {BYTES, AS_DRAWN, 0, 512, DUKPT_FAULT_BLOCK_LENGTH}
#define FRAME_IN(fault) {BYTES, AS_DRAWN, 0, 64, fault}
#define COUNT_OUT {COUNT, ANY_SIZE, 0, 0, 0}
#define NUMBER_IN {NUMBER, ANY_SIZE, 0, 0, 0}
/* Up to three parts: more are drawn seldom. */
#define PARTS_IN(size) {BYTES, PARTS, size, 3 * (size), DUKPT_FAULT_LENGTH}
#define FOR_EACH_OUT(size) {BUFFER, FOR_EACH, size, 3 * (size), DUKPT_FAULT_LENGTH}

#define CALL(name) "dukpt_" #name, library_##name, peer_##name

const struct call calls[] = {
    {CALL(initial_key), draw_initial_number, LENGTHS | STATUS(FAULT_NOT_INITIAL),
     {KEY_IN, KSN_IN, KEY_OUT}},
    {CALL(derive), draw_number, LENGTHS, {KEY_IN, KSN_IN, KEY_OUT}},
    {CALL(derive_many), draw_numbers, LENGTHS, {KEY_IN, PARTS_IN(10), FOR_EACH_OUT(16)}},
    {CALL(derive_from_initial), draw_number, LENGTHS, {KEY_IN, KSN_IN, KEY_OUT}},
    {CALL(pin_key), NULL, LENGTHS, {KEY_IN, KEY_OUT}},
    {CALL(request_key), NULL, LENGTHS, {KEY_IN, KEY_OUT}},
    {CALL(response_key), NULL, LENGTHS, {KEY_IN, KEY_OUT}},
    {CALL(request_data_key), NULL, LENGTHS, {KEY_IN, KEY_OUT}},
    {CALL(response_data_key), NULL, LENGTHS, {KEY_IN, KEY_OUT}},
    {CALL(check_usable), draw_only_number, LENGTHS | STATUS(FAULT_NOT_USABLE), {KSN_IN}},
    {CALL(next_number), draw_only_number, LENGTHS | STATUS(FAULT_SPENT), {KSN_IN, KSN_OUT}},
    {CALL(check_value), NULL, LENGTHS, {TDES_KEY, OUT(3)}},
    {CALL(cmac_check_value), NULL, LENGTHS, {TDES_KEY, OUT(5)}},
    {CALL(registers_load), draw_initial_number, LENGTHS | STATUS(FAULT_NOT_INITIAL),
     {KEY_IN, KSN_IN, IMAGE_OUT}},
    {CALL(registers_at), draw_number, LENGTHS | STATUS(FAULT_NOT_USABLE),
     {KEY_IN, KSN_IN, IMAGE_OUT}},
    {CALL(registers_number), draw_image, IMAGES | STATUS(FAULT_SPENT), {IMAGE_IN, KSN_OUT}},
    {CALL(registers_next), draw_image, IMAGES | STATUS(FAULT_SPENT),
     {IMAGE_IN, IMAGE_OUT, KEY_OUT, KSN_OUT}},
    {CALL(registers_reload), draw_reload,
     IMAGES | STATUS(FAULT_NOT_INITIAL) | STATUS(FAULT_IKSN_SPENT) | STATUS(FAULT_LOADS_SPENT),
     {IMAGE_IN, KEY_IN, KSN_IN, IMAGE_OUT}},
    {CALL(tdes_encrypt), NULL, LENGTHS, {TDES_KEY, IN_OUT(8)}},
    {CALL(tdes_decrypt), NULL, LENGTHS, {TDES_KEY, IN_OUT(8)}},
    {CALL(cbc_encrypt), NULL, LENGTHS, {TDES_KEY, IN(8), BLOCKS}},
    {CALL(cbc_decrypt), NULL, LENGTHS, {TDES_KEY, IN(8), BLOCKS}},
    {CALL(cmac), NULL, LENGTHS, {TDES_KEY, MESSAGE(0), OUT(8)}},
    {CALL(retail_mac), NULL, LENGTHS, {KEY_IN, MESSAGE(1), OUT(8)}},
    {CALL(pin_block), draw_pin_and_pan, LENGTHS | PINS | PANS, {PIN_IN, PAN_IN, OUT(8)}},
    {CALL(pin_of_block), draw_pin_block, LENGTHS | PANS | STATUS(FAULT_NOT_A_PIN_BLOCK),
     {IN(8), PAN_IN, OUT(12), COUNT_OUT}},
    {CALL(wrap), draw_wrapping, WRAPPINGS,
     {TDES_KEY, IN(7), TDES_KEY, PADDING, OUT(512), COUNT_OUT}},
    {CALL(wrap_with), draw_wrapping_with, WRAPPINGS | STATUS(FAULT_BLOCK_OPTIONAL_BLOCK),
     {TDES_KEY, IN(7), {BYTES, OPTIONAL_BLOCKS, 0, 100, DUKPT_FAULT_BLOCK_OPTIONAL_BLOCK}, TDES_KEY,
      PADDING, OUT(512), COUNT_OUT}},
    {CALL(unwrap), draw_key_block, KEY_BLOCKS, {TDES_KEY, BLOCK_IN, OUT(7), OUT(24), COUNT_OUT}},
    {CALL(unwrap_for), draw_wanted,
     KEY_BLOCKS | STATUS(FAULT_OTHER_USAGE) | STATUS(FAULT_OTHER_KEY_LENGTH),
     {TDES_KEY, IN(2), NUMBER_IN, BLOCK_IN, OUT(24)}},
    {CALL(unwrap_optional), draw_optional, KEY_BLOCKS | STATUS(FAULT_NO_OPTIONAL_BLOCK),
     {TDES_KEY, BLOCK_IN, IN(2), OUT(251), COUNT_OUT}},
    {CALL(payment_request), draw_payment, LENGTHS | PINS | PANS,
     {KEY_IN, KSN_IN, PAN_IN, PIN_IN, NUMBER_IN, OUT(64), COUNT_OUT}},
    {CALL(read_request), draw_request, LENGTHS | STATUS(FAULT_NOT_A_REQUEST),
     {FRAME_IN(DUKPT_FAULT_NOT_A_REQUEST), KSN_OUT, OUT(19), COUNT_OUT, COUNT_OUT, OUT(8), OUT(8)}},
    {CALL(check_request), draw_request_of_key,
     LENGTHS | STATUS(FAULT_NOT_A_REQUEST) | STATUS(FAULT_BAD_MAC),
     {KEY_IN, FRAME_IN(DUKPT_FAULT_NOT_A_REQUEST)}},
    {CALL(check_requests), draw_requests, LENGTHS, {KEY_IN, PARTS_IN(64), FOR_EACH_OUT(1)}},
    {CALL(request_pin), draw_request_of_key,
     LENGTHS | STATUS(FAULT_NOT_A_REQUEST) | STATUS(FAULT_NOT_A_PIN_BLOCK),
     {KEY_IN, FRAME_IN(DUKPT_FAULT_NOT_A_REQUEST), OUT(12), COUNT_OUT}},
    {CALL(request_reply), draw_code, LENGTHS | STATUS(FAULT_NOT_A_CODE),
     {KEY_IN, KSN_IN, IN(2), OUT(64), COUNT_OUT}},
    {CALL(request_refusal), draw_reason, LENGTHS | STATUS(FAULT_NOT_A_REASON),
     {KSN_IN, NUMBER_IN, OUT(64), COUNT_OUT}},
    {CALL(read_reply), draw_reply, LENGTHS | STATUS(FAULT_NOT_A_REPLY),
     {FRAME_IN(DUKPT_FAULT_NOT_A_REPLY), KSN_OUT, OUT(2)}},
    {CALL(read_refusal), draw_refusal, LENGTHS | STATUS(FAULT_NOT_A_REFUSAL),
     {FRAME_IN(DUKPT_FAULT_NOT_A_REFUSAL), KSN_OUT, COUNT_OUT}},
    {CALL(check_reply), draw_reply_of_key,
     LENGTHS | STATUS(FAULT_NOT_A_REPLY) | STATUS(FAULT_NOT_MINE) | STATUS(FAULT_BAD_MAC),
     {KEY_IN, KSN_IN, FRAME_IN(DUKPT_FAULT_NOT_A_REPLY)}},
    {CALL(reversal_request), draw_reversing, LENGTHS | STATUS(FAULT_NOT_REVERSED),
     {KEY_IN, KSN_IN, KSN_IN, OUT(64), COUNT_OUT}},
    {CALL(read_reversal), draw_reversal, LENGTHS | STATUS(FAULT_NOT_A_REVERSAL),
     {FRAME_IN(DUKPT_FAULT_NOT_A_REVERSAL), KSN_OUT, KSN_OUT, OUT(8)}},
    {CALL(check_reversal), draw_reversal_of_key,
     LENGTHS | STATUS(FAULT_NOT_A_REVERSAL) | STATUS(FAULT_BAD_MAC),
     {KEY_IN, FRAME_IN(DUKPT_FAULT_NOT_A_REVERSAL)}},
    {CALL(reversal_reply), draw_reversing_state,
     LENGTHS | STATUS(FAULT_NOT_REVERSED) | STATUS(FAULT_NOT_A_STATE),
     {KEY_IN, KSN_IN, KSN_IN, NUMBER_IN, OUT(64), COUNT_OUT}},
    {CALL(read_reversal_reply), draw_reversal_reply, LENGTHS | STATUS(FAULT_NOT_A_REVERSAL_REPLY),
     {FRAME_IN(DUKPT_FAULT_NOT_A_REVERSAL_REPLY), KSN_OUT, KSN_OUT, COUNT_OUT}},
    {CALL(check_reversal_reply), draw_reversal_reply_of_key,
     LENGTHS | STATUS(FAULT_NOT_A_REVERSAL_REPLY) | STATUS(FAULT_NOT_MINE) | STATUS(FAULT_BAD_MAC),
     {KEY_IN, KSN_IN, KSN_IN, FRAME_IN(DUKPT_FAULT_NOT_A_REVERSAL_REPLY)}},
    {CALL(module_new), NULL, LENGTHS, {TDES_KEY, OUT(4706)}},
    {CALL(module_load_bdk), draw_loading_base,
     LOADS | STATUS(FAULT_PREFIX_TAKEN) | STATUS(FAULT_SLOTS_FULL),
     {IN(5), BLOCK_IN, IN_OUT(4706)}},
    {CALL(module_load_zone), draw_loading_zone, LOADS | STATUS(FAULT_ZONE_TAKEN),
     {BLOCK_IN, IN_OUT(4706)}},
    {CALL(host_judge), draw_judging,
     LENGTHS | STATUS(FAULT_NOT_A_MODULE) | STATUS(FAULT_NO_ZONE) | STATUS(FAULT_NOT_A_CARD),
     {IN(4706), PARTS_IN(37), PARTS_IN(64), FOR_EACH_OUT(64)}},
    {CALL(host_answer), draw_answering, LENGTHS | STATUS(FAULT_NOT_A_MODULE),
     {IN(4706), PARTS_IN(64), FOR_EACH_OUT(64)}},
    {CALL(frame_length), draw_stream,
     STATUS(OK) | STATUS(FAULT_PART_OF_FRAME) | STATUS(FAULT_TOO_LONG),
     {{BYTES, AT_LEAST, 2, 70, DUKPT_FAULT_PART_OF_FRAME}, COUNT_OUT}},
};

const size_t call_count = sizeof calls / sizeof *calls;

size_t argument_count(const struct call *call)
{
    size_t count = 0;
    while (count < MOST_ARGUMENTS && call->parameters[count].kind != NONE)
        count++;
    return count;
}

int is_slice(const struct parameter *parameter)
{
    return parameter->kind == BYTES || parameter->kind == BUFFER;
}

size_t size_for_each(const struct call *call, const struct argument *given, size_t at)
{
    return call->parameters[at].least * (given[at - 1].size / call->parameters[at - 1].least);
}
