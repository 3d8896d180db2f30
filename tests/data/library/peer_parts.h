/* What the calls of the peer, and the drawing of cases, are made of. */
#ifndef PEER_PARTS_H
#define PEER_PARTS_H

#include "calls.h"

#include <stddef.h>
#include <stdint.h>

enum {
    BLOCK_BYTES = 8,
    KEY_BYTES = 16,
    TRIPLE_BYTES = 24,
    KSN_BYTES = 10,
    PLACES = 21,
    SPENT_COUNTER = 0x200000,
    MOST_PAST = 8,
    IMAGE_BYTES = 431,
    IMAGE_1_BYTES = 350,
    MOST_DIGITS = 19,
    HEADER_BYTES = 7,
    MOST_TEXT = 512,
    MOST_PAYLOAD = 256,
    FRAME_BYTES = 64,
    LONGEST_CONTENTS = 62,
    MODULE_BYTES = 4706,
    PREFIX_BYTES = 5,
    MOST_KEY_SETS = 8,
    CARD_BYTES = 37
};

/* peer_arguments.c: what is asked of arguments, and written into them. */
int is_tdes_size(size_t size);
int has_room(const struct argument *given, size_t size);
void write_bytes(struct argument *given, const uint8_t *bytes, size_t size);
void write_count(struct argument *given, size_t count);
void write_front(struct argument *room, struct argument *count, const uint8_t *bytes, size_t size);

/* peer_tree.c: the key tree. A step gives the key of a number from that of its parent. */
void tree_initial_key(const uint8_t *bdk, const uint8_t *iksn, uint8_t *key);
void tree_derive(const uint8_t *initial, const uint8_t *ksn, uint8_t *key);
void tree_derived_key(const uint8_t *bdk, const uint8_t *ksn, uint8_t *key);
void tree_step(const uint8_t *parent, const uint8_t *ksn, uint8_t *key);

/* peer_numbers.c: key serial numbers, and the variants of keys. */
uint32_t counter_in(const uint8_t *ksn);
void number_with(const uint8_t *iksn, uint32_t counter, uint8_t *ksn);
int is_usable(uint32_t counter);
uint32_t counter_after(uint32_t counter);
/* By the place of the byte that a variant turns in each half: its mask is 00000000000000FF,
   000000000000FF00, 00000000FF000000, 0000000000FF0000 or 000000FF00000000. */
enum variant {
    PIN_VARIANT = 7,
    REQUEST_VARIANT = 6,
    RESPONSE_VARIANT = 4,
    REQUEST_DATA_VARIANT = 5,
    RESPONSE_DATA_VARIANT = 3
};
void variant_of(const uint8_t *key, enum variant variant, uint8_t *out);

/* peer_ciphers.c: TDES and MACs. A key has 16 or 24 bytes, a retail MAC's has 16. */
void tdes_block(const uint8_t *key, size_t size, const uint8_t *block, int enciphers, uint8_t *out);
void cbc(const uint8_t *key, size_t size, const uint8_t *iv, uint8_t *bytes, size_t length,
         int enciphers);
void cmac_of(const uint8_t *key, size_t size, const uint8_t *message, size_t length, uint8_t *mac);
void retail_mac_of(const uint8_t *key, const uint8_t *message, size_t length, uint8_t *mac);

/* peer_images.c: registers, and their bytes. */
struct registers {
    uint8_t iksn[KSN_BYTES];
    uint32_t counter;
    uint8_t keys[PLACES][KEY_BYTES];
    size_t past_count;
    uint8_t past[MOST_PAST][KSN_BYTES];
};
int is_held(uint32_t counter, int place);
void write_image(const struct registers *registers, uint8_t *image);
int read_image(const uint8_t *image, size_t size, struct registers *registers);

/* peer_pins.c: PIN blocks. Digits are ASCII, and a length is that of a PIN or of a PAN. */
int are_digits(const uint8_t *text, size_t size);
void block_of_pin(const uint8_t *pin, size_t digits, const uint8_t *pan, size_t pan_digits,
                  uint8_t *block);
/* Gives the number of the PIN's digits, or 0. */
size_t pin_in_block(const uint8_t *block, const uint8_t *pan, size_t pan_digits, uint8_t *pin);
/* Gives the first fault of a text as a PIN or a PAN, or 0. */
uint32_t fault_of_pin(const struct argument *pin);
uint32_t fault_of_pan(const struct argument *pan);

/* peer_blocks.c: the text of a header with its optional blocks, and of a payload of whole blocks,
   which is not enciphered yet; gives its length. An optional block that ends before a place has this
   length, with id and length, or 0 where it is none. */
size_t optional_length(const uint8_t *text, size_t at, size_t end);
size_t sealed(const uint8_t *kbpk, size_t kbpk_size, const uint8_t *front, size_t front_size,
              const uint8_t *payload, size_t payload_size, uint8_t *text);
/* Gives the first fault of a text, or the key in it. */
struct wrapped {
    uint8_t key[TRIPLE_BYTES];
    size_t size;
};
uint32_t unwrap_text(const struct argument *kbpk, const struct argument *text,
                     struct wrapped *found);

/* peer_modules.c: the security module of a host, and its bytes. */
enum kind_of_key { BASE_KEY, ZONE_KEY };
struct module {
    uint8_t lmk[TRIPLE_BYTES], zone[TRIPLE_BYTES];
    size_t lmk_size, zone_size, key_sets;
    uint8_t prefixes[MOST_KEY_SETS][PREFIX_BYTES], bases[MOST_KEY_SETS][KEY_BYTES];
};
/* Reads the bytes of a module, if they are one. */
int read_module(uint8_t *image, struct module *module);
/* Writes the bytes of a module that has its local master key alone. */
void begin_module(const uint8_t *lmk, size_t size, uint8_t *image);
void append_entry(uint8_t *image, enum kind_of_key kind, const uint8_t *prefix,
                  const struct argument *text);
/* The base derivation key for a number, or none. */
const uint8_t *base_key(const struct module *module, const uint8_t *ksn);

/* peer_frames.c: frames. Each that writes gives the number of the frame's bytes. */
struct request {
    uint8_t ksn[KSN_BYTES], pan[MOST_DIGITS], block[BLOCK_BYTES], mac[BLOCK_BYTES];
    size_t pan_digits;
    uint32_t amount;
};
struct reply {
    uint8_t ksn[KSN_BYTES], code[2], mac[BLOCK_BYTES];
};
/* A reversal, or its reply, which has a state. */
struct reversal {
    uint8_t ksn[KSN_BYTES], reversed[KSN_BYTES], mac[BLOCK_BYTES], state;
};
int is_code(const uint8_t *code);
/* The PIN block is given in clear, and the MAC left out. */
size_t write_request(const uint8_t *key, const struct request *request, uint8_t *frame);
size_t write_reply(const uint8_t *key, const uint8_t *ksn, const uint8_t *code, uint8_t *frame);
size_t write_refusal(const uint8_t *ksn, uint32_t reason, uint8_t *frame);
int read_request(const uint8_t *frame, size_t size, struct request *request);
int read_reply(const uint8_t *frame, size_t size, struct reply *reply);
/* Gives the reason, or 0. */
uint32_t read_refusal(const uint8_t *frame, size_t size, uint8_t *ksn);
/* Whether a number reverses another. */
int reverses(const uint8_t *ksn, const uint8_t *reversed);
size_t write_reversal(const uint8_t *key, const uint8_t *ksn, const uint8_t *reversed,
                      uint8_t *frame);
size_t write_reversal_reply(const uint8_t *key, const uint8_t *ksn, const uint8_t *reversed,
                            uint8_t state, uint8_t *frame);
int read_reversal(const uint8_t *frame, size_t size, struct reversal *reversal);
int read_reversal_reply(const uint8_t *frame, size_t size, struct reversal *reply);

#endif
