/* The peer: the calls again, over OpenSSL's libcrypto and by the documents of the formats. Each has
   the arguments and the statuses of the library's. */
#ifndef PEER_H
#define PEER_H

#include "calls.h"

uint32_t peer_initial_key(struct argument *given);
uint32_t peer_derive(struct argument *given);
uint32_t peer_derive_many(struct argument *given);
uint32_t peer_derive_from_initial(struct argument *given);
uint32_t peer_pin_key(struct argument *given);
uint32_t peer_request_key(struct argument *given);
uint32_t peer_response_key(struct argument *given);
uint32_t peer_request_data_key(struct argument *given);
uint32_t peer_response_data_key(struct argument *given);
uint32_t peer_check_usable(struct argument *given);
uint32_t peer_next_number(struct argument *given);
uint32_t peer_check_value(struct argument *given);
uint32_t peer_cmac_check_value(struct argument *given);
uint32_t peer_registers_load(struct argument *given);
uint32_t peer_registers_at(struct argument *given);
uint32_t peer_registers_number(struct argument *given);
uint32_t peer_registers_next(struct argument *given);
uint32_t peer_registers_reload(struct argument *given);
uint32_t peer_tdes_encrypt(struct argument *given);
uint32_t peer_tdes_decrypt(struct argument *given);
uint32_t peer_cbc_encrypt(struct argument *given);
uint32_t peer_cbc_decrypt(struct argument *given);
uint32_t peer_cmac(struct argument *given);
uint32_t peer_retail_mac(struct argument *given);
uint32_t peer_pin_block(struct argument *given);
uint32_t peer_pin_of_block(struct argument *given);
uint32_t peer_wrap(struct argument *given);
uint32_t peer_wrap_with(struct argument *given);
uint32_t peer_unwrap(struct argument *given);
uint32_t peer_unwrap_for(struct argument *given);
uint32_t peer_unwrap_optional(struct argument *given);
uint32_t peer_payment_request(struct argument *given);
uint32_t peer_read_request(struct argument *given);
uint32_t peer_check_request(struct argument *given);
uint32_t peer_check_requests(struct argument *given);
uint32_t peer_request_pin(struct argument *given);
uint32_t peer_request_reply(struct argument *given);
uint32_t peer_request_refusal(struct argument *given);
uint32_t peer_read_reply(struct argument *given);
uint32_t peer_read_refusal(struct argument *given);
uint32_t peer_check_reply(struct argument *given);
uint32_t peer_reversal_request(struct argument *given);
uint32_t peer_read_reversal(struct argument *given);
uint32_t peer_check_reversal(struct argument *given);
uint32_t peer_reversal_reply(struct argument *given);
uint32_t peer_read_reversal_reply(struct argument *given);
uint32_t peer_check_reversal_reply(struct argument *given);
uint32_t peer_module_new(struct argument *given);
uint32_t peer_module_load_bdk(struct argument *given);
uint32_t peer_module_load_zone(struct argument *given);
uint32_t peer_host_judge(struct argument *given);
uint32_t peer_host_answer(struct argument *given);
uint32_t peer_frame_length(struct argument *given);

#endif
