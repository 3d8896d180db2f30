#include "library.h"

#include <dukpt.h>

/* A slice, as the two words of a call. */
#define SLICE_AT(at) given[at].bytes, given[at].size

/* A number that a call writes stands in four bytes of its own, wherever they are. */
#define COUNT_AT(at) (uint32_t *)(void *)given[at].bytes

#define NUMBER_AT(at) given[at].number

uint32_t library_initial_key(const struct argument *given)
{
    return dukpt_initial_key(SLICE_AT(0), SLICE_AT(1), SLICE_AT(2));
}

uint32_t library_derive(const struct argument *given)
{
    return dukpt_derive(SLICE_AT(0), SLICE_AT(1), SLICE_AT(2));
}

uint32_t library_derive_many(const struct argument *given)
{
    return dukpt_derive_many(SLICE_AT(0), SLICE_AT(1), SLICE_AT(2));
}

uint32_t library_derive_from_initial(const struct argument *given)
{
    return dukpt_derive_from_initial(SLICE_AT(0), SLICE_AT(1), SLICE_AT(2));
}

uint32_t library_pin_key(const struct argument *given)
{
    return dukpt_pin_key(SLICE_AT(0), SLICE_AT(1));
}

uint32_t library_request_key(const struct argument *given)
{
    return dukpt_request_key(SLICE_AT(0), SLICE_AT(1));
}

uint32_t library_response_key(const struct argument *given)
{
    return dukpt_response_key(SLICE_AT(0), SLICE_AT(1));
}

uint32_t library_request_data_key(const struct argument *given)
{
    return dukpt_request_data_key(SLICE_AT(0), SLICE_AT(1));
}

uint32_t library_response_data_key(const struct argument *given)
{
    return dukpt_response_data_key(SLICE_AT(0), SLICE_AT(1));
}

uint32_t library_check_usable(const struct argument *given)
{
    return dukpt_check_usable(SLICE_AT(0));
}

uint32_t library_next_number(const struct argument *given)
{
    return dukpt_next_number(SLICE_AT(0), SLICE_AT(1));
}

uint32_t library_check_value(const struct argument *given)
{
    return dukpt_check_value(SLICE_AT(0), SLICE_AT(1));
}

uint32_t library_cmac_check_value(const struct argument *given)
{
    return dukpt_cmac_check_value(SLICE_AT(0), SLICE_AT(1));
}

uint32_t library_registers_load(const struct argument *given)
{
    return dukpt_registers_load(SLICE_AT(0), SLICE_AT(1), SLICE_AT(2));
}

uint32_t library_registers_at(const struct argument *given)
{
    return dukpt_registers_at(SLICE_AT(0), SLICE_AT(1), SLICE_AT(2));
}

uint32_t library_registers_number(const struct argument *given)
{
    return dukpt_registers_number(SLICE_AT(0), SLICE_AT(1));
}

uint32_t library_registers_next(const struct argument *given)
{
    return dukpt_registers_next(SLICE_AT(0), SLICE_AT(1), SLICE_AT(2), SLICE_AT(3));
}

uint32_t library_registers_reload(const struct argument *given)
{
    return dukpt_registers_reload(SLICE_AT(0), SLICE_AT(1), SLICE_AT(2), SLICE_AT(3));
}

uint32_t library_tdes_encrypt(const struct argument *given)
{
    return dukpt_tdes_encrypt(SLICE_AT(0), SLICE_AT(1));
}

uint32_t library_tdes_decrypt(const struct argument *given)
{
    return dukpt_tdes_decrypt(SLICE_AT(0), SLICE_AT(1));
}

uint32_t library_cbc_encrypt(const struct argument *given)
{
    return dukpt_cbc_encrypt(SLICE_AT(0), SLICE_AT(1), SLICE_AT(2));
}

uint32_t library_cbc_decrypt(const struct argument *given)
{
    return dukpt_cbc_decrypt(SLICE_AT(0), SLICE_AT(1), SLICE_AT(2));
}

uint32_t library_cmac(const struct argument *given)
{
    return dukpt_cmac(SLICE_AT(0), SLICE_AT(1), SLICE_AT(2));
}

uint32_t library_retail_mac(const struct argument *given)
{
    return dukpt_retail_mac(SLICE_AT(0), SLICE_AT(1), SLICE_AT(2));
}

uint32_t library_pin_block(const struct argument *given)
{
    return dukpt_pin_block(SLICE_AT(0), SLICE_AT(1), SLICE_AT(2));
}

uint32_t library_pin_of_block(const struct argument *given)
{
    return dukpt_pin_of_block(SLICE_AT(0), SLICE_AT(1), SLICE_AT(2), COUNT_AT(3));
}

uint32_t library_wrap(const struct argument *given)
{
    return dukpt_wrap(SLICE_AT(0), SLICE_AT(1), SLICE_AT(2), SLICE_AT(3), SLICE_AT(4), COUNT_AT(5));
}

uint32_t library_wrap_with(const struct argument *given)
{
    return dukpt_wrap_with(SLICE_AT(0), SLICE_AT(1), SLICE_AT(2), SLICE_AT(3), SLICE_AT(4),
                           SLICE_AT(5), COUNT_AT(6));
}

uint32_t library_unwrap(const struct argument *given)
{
    return dukpt_unwrap(SLICE_AT(0), SLICE_AT(1), SLICE_AT(2), SLICE_AT(3), COUNT_AT(4));
}

uint32_t library_unwrap_for(const struct argument *given)
{
    return dukpt_unwrap_for(SLICE_AT(0), SLICE_AT(1), NUMBER_AT(2), SLICE_AT(3), SLICE_AT(4));
}

uint32_t library_unwrap_optional(const struct argument *given)
{
    return dukpt_unwrap_optional(SLICE_AT(0), SLICE_AT(1), SLICE_AT(2), SLICE_AT(3), COUNT_AT(4));
}

uint32_t library_payment_request(const struct argument *given)
{
    return dukpt_payment_request(SLICE_AT(0), SLICE_AT(1), SLICE_AT(2), SLICE_AT(3), NUMBER_AT(4),
                                 SLICE_AT(5), COUNT_AT(6));
}

uint32_t library_read_request(const struct argument *given)
{
    return dukpt_read_request(SLICE_AT(0), SLICE_AT(1), SLICE_AT(2), COUNT_AT(3), COUNT_AT(4),
                              SLICE_AT(5), SLICE_AT(6));
}

uint32_t library_check_request(const struct argument *given)
{
    return dukpt_check_request(SLICE_AT(0), SLICE_AT(1));
}

uint32_t library_check_requests(const struct argument *given)
{
    return dukpt_check_requests(SLICE_AT(0), SLICE_AT(1), SLICE_AT(2));
}

uint32_t library_request_pin(const struct argument *given)
{
    return dukpt_request_pin(SLICE_AT(0), SLICE_AT(1), SLICE_AT(2), COUNT_AT(3));
}

uint32_t library_request_reply(const struct argument *given)
{
    return dukpt_request_reply(SLICE_AT(0), SLICE_AT(1), SLICE_AT(2), SLICE_AT(3), COUNT_AT(4));
}

uint32_t library_request_refusal(const struct argument *given)
{
    return dukpt_request_refusal(SLICE_AT(0), NUMBER_AT(1), SLICE_AT(2), COUNT_AT(3));
}

uint32_t library_read_reply(const struct argument *given)
{
    return dukpt_read_reply(SLICE_AT(0), SLICE_AT(1), SLICE_AT(2));
}

uint32_t library_read_refusal(const struct argument *given)
{
    return dukpt_read_refusal(SLICE_AT(0), SLICE_AT(1), COUNT_AT(2));
}

uint32_t library_check_reply(const struct argument *given)
{
    return dukpt_check_reply(SLICE_AT(0), SLICE_AT(1), SLICE_AT(2));
}

uint32_t library_reversal_request(const struct argument *given)
{
    return dukpt_reversal_request(SLICE_AT(0), SLICE_AT(1), SLICE_AT(2), SLICE_AT(3), COUNT_AT(4));
}

uint32_t library_read_reversal(const struct argument *given)
{
    return dukpt_read_reversal(SLICE_AT(0), SLICE_AT(1), SLICE_AT(2), SLICE_AT(3));
}

uint32_t library_check_reversal(const struct argument *given)
{
    return dukpt_check_reversal(SLICE_AT(0), SLICE_AT(1));
}

uint32_t library_reversal_reply(const struct argument *given)
{
    return dukpt_reversal_reply(SLICE_AT(0), SLICE_AT(1), SLICE_AT(2), NUMBER_AT(3), SLICE_AT(4),
                                COUNT_AT(5));
}

uint32_t library_read_reversal_reply(const struct argument *given)
{
    return dukpt_read_reversal_reply(SLICE_AT(0), SLICE_AT(1), SLICE_AT(2), COUNT_AT(3));
}

uint32_t library_check_reversal_reply(const struct argument *given)
{
    return dukpt_check_reversal_reply(SLICE_AT(0), SLICE_AT(1), SLICE_AT(2), SLICE_AT(3));
}

uint32_t library_module_new(const struct argument *given)
{
    return dukpt_module_new(SLICE_AT(0), SLICE_AT(1));
}

uint32_t library_module_load_bdk(const struct argument *given)
{
    return dukpt_module_load_bdk(SLICE_AT(0), SLICE_AT(1), SLICE_AT(2));
}

uint32_t library_module_load_zone(const struct argument *given)
{
    return dukpt_module_load_zone(SLICE_AT(0), SLICE_AT(1));
}

uint32_t library_host_judge(const struct argument *given)
{
    return dukpt_host_judge(SLICE_AT(0), SLICE_AT(1), SLICE_AT(2), SLICE_AT(3));
}

uint32_t library_host_answer(const struct argument *given)
{
    return dukpt_host_answer(SLICE_AT(0), SLICE_AT(1), SLICE_AT(2));
}

uint32_t library_frame_length(const struct argument *given)
{
    return dukpt_frame_length(SLICE_AT(0), COUNT_AT(1));
}
