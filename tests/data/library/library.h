/* The functions of the library, each over an array of its arguments. */
#ifndef LIBRARY_H
#define LIBRARY_H

#include "calls.h"

uint32_t library_initial_key(const struct argument *given);
uint32_t library_derive(const struct argument *given);
uint32_t library_derive_many(const struct argument *given);
uint32_t library_derive_from_initial(const struct argument *given);
uint32_t library_pin_key(const struct argument *given);
uint32_t library_request_key(const struct argument *given);
uint32_t library_response_key(const struct argument *given);
uint32_t library_request_data_key(const struct argument *given);
uint32_t library_response_data_key(const struct argument *given);
uint32_t library_check_usable(const struct argument *given);
uint32_t library_next_number(const struct argument *given);
uint32_t library_check_value(const struct argument *given);
uint32_t library_cmac_check_value(const struct argument *given);
uint32_t library_registers_load(const struct argument *given);
uint32_t library_registers_at(const struct argument *given);
uint32_t library_registers_number(const struct argument *given);
uint32_t library_registers_next(const struct argument *given);
uint32_t library_registers_reload(const struct argument *given);
uint32_t library_tdes_encrypt(const struct argument *given);
uint32_t library_tdes_decrypt(const struct argument *given);
uint32_t library_cbc_encrypt(const struct argument *given);
uint32_t library_cbc_decrypt(const struct argument *given);
uint32_t library_cmac(const struct argument *given);
uint32_t library_retail_mac(const struct argument *given);
uint32_t library_pin_block(const struct argument *given);
uint32_t library_pin_of_block(const struct argument *given);
uint32_t library_wrap(const struct argument *given);
uint32_t library_wrap_with(const struct argument *given);
uint32_t library_unwrap(const struct argument *given);
uint32_t library_unwrap_for(const struct argument *given);
uint32_t library_unwrap_optional(const struct argument *given);
uint32_t library_payment_request(const struct argument *given);
uint32_t library_read_request(const struct argument *given);
uint32_t library_check_request(const struct argument *given);
uint32_t library_check_requests(const struct argument *given);
uint32_t library_request_pin(const struct argument *given);
uint32_t library_request_reply(const struct argument *given);
uint32_t library_request_refusal(const struct argument *given);
uint32_t library_read_reply(const struct argument *given);
uint32_t library_read_refusal(const struct argument *given);
uint32_t library_check_reply(const struct argument *given);
uint32_t library_reversal_request(const struct argument *given);
uint32_t library_read_reversal(const struct argument *given);
uint32_t library_check_reversal(const struct argument *given);
uint32_t library_reversal_reply(const struct argument *given);
uint32_t library_read_reversal_reply(const struct argument *given);
uint32_t library_check_reversal_reply(const struct argument *given);
uint32_t library_module_new(const struct argument *given);
uint32_t library_module_load_bdk(const struct argument *given);
uint32_t library_module_load_zone(const struct argument *given);
uint32_t library_host_judge(const struct argument *given);
uint32_t library_host_answer(const struct argument *given);
uint32_t library_frame_length(const struct argument *given);

#endif
