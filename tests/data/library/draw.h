/* Draws the arguments of a call: in most cases the call is done, the others have a fault. */
#ifndef DRAW_H
#define DRAW_H

#include "calls.h"

/* draw.c: arguments by the sizes of their parameters, with random bytes. */
void draw_arguments(struct chance *chance, const struct call *call, struct argument *given);
/* Gives a slice another size: bytes that are new in it are random. */
void resize(struct chance *chance, struct argument *slice, size_t size);

/* draw_numbers.c */
uint32_t draw_counter(struct chance *chance);
void draw_number(struct chance *chance, struct argument *given);
void draw_numbers(struct chance *chance, struct argument *given);
void draw_initial_number(struct chance *chance, struct argument *given);
void draw_only_number(struct chance *chance, struct argument *given);
/* A number that the first one mostly may reverse. */
void draw_reversed(struct chance *chance, const uint8_t *ksn, uint8_t *reversed);
void draw_reversing(struct chance *chance, struct argument *given);
void draw_reversing_state(struct chance *chance, struct argument *given);

/* draw_images.c */
void draw_image(struct chance *chance, struct argument *given);
void draw_reload(struct chance *chance, struct argument *given);

/* draw_pins.c */
void draw_digits(struct chance *chance, uint8_t *digits, size_t count);
void draw_pin_and_pan(struct chance *chance, struct argument *given);
void draw_pin_block(struct chance *chance, struct argument *given);
void draw_payment(struct chance *chance, struct argument *given);

/* draw_blocks.c */
void draw_wrapping(struct chance *chance, struct argument *given);
void draw_wrapping_with(struct chance *chance, struct argument *given);
void draw_key_block(struct chance *chance, struct argument *given);
void draw_wanted(struct chance *chance, struct argument *given);
void draw_optional(struct chance *chance, struct argument *given);
/* The text of a key block with these fields of its header under a protection key, or what is none. */
void draw_text_with(struct chance *chance, const struct argument *kbpk, const uint8_t *fields,
                    struct argument *text);
/* The text of a key block with these fields and this key. */
void put_text(struct chance *chance, const struct argument *kbpk, const char *fields,
              const uint8_t *key, size_t size, struct argument *text);

/* draw_frames.c */
const uint8_t *draw_code_of_five(struct chance *chance);
void draw_request(struct chance *chance, struct argument *given);
void draw_request_of_key(struct chance *chance, struct argument *given);
void draw_requests(struct chance *chance, struct argument *given);
void draw_code(struct chance *chance, struct argument *given);
void draw_reason(struct chance *chance, struct argument *given);
void draw_reply(struct chance *chance, struct argument *given);
void draw_refusal(struct chance *chance, struct argument *given);
void draw_reply_of_key(struct chance *chance, struct argument *given);
void draw_reversal(struct chance *chance, struct argument *given);
void draw_reversal_of_key(struct chance *chance, struct argument *given);
void draw_reversal_reply(struct chance *chance, struct argument *given);
void draw_reversal_reply_of_key(struct chance *chance, struct argument *given);
void draw_stream(struct chance *chance, struct argument *given);

/* draw_hosts.c */
void draw_loading_base(struct chance *chance, struct argument *given);
void draw_loading_zone(struct chance *chance, struct argument *given);
void draw_judging(struct chance *chance, struct argument *given);
void draw_answering(struct chance *chance, struct argument *given);

#endif
