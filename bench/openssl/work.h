/* What the programs do, one function for each of their commands, and the calls of bench/calls. Each
   works as a plain program over libcrypto's DES would. */
#ifndef WORK_H
#define WORK_H

#include <stddef.h>
#include <stdint.h>

enum { BLOCK = 8, KEY = 16, SERIAL = 10, IMAGE = 431, FIELDS = 7, MOST_PIN = 12, PLACE = 64 };

/* tree.c: keys of the key tree. */
void walk(const uint8_t bdk[KEY], const uint8_t iksn[SERIAL], long count);
void derive(const uint8_t bdk[KEY], const uint8_t ksn[SERIAL], uint8_t key[KEY]);
int has_usable_counter(const uint8_t ksn[SERIAL]);
void tdes_encrypt(const uint8_t key[KEY], const uint8_t in[BLOCK], uint8_t out[BLOCK]);
void tdes_decrypt(const uint8_t key[KEY], const uint8_t in[BLOCK], uint8_t out[BLOCK]);
void with_counter(const uint8_t iksn[SERIAL], uint32_t counter, uint8_t out[SERIAL]);
void fill_below(uint8_t registers[][KEY], int places, const uint8_t key[KEY],
                const uint8_t iksn[SERIAL], uint32_t counter);

/* registers.c: a terminal, from image to image. */
void load(const uint8_t initial[KEY], const uint8_t iksn[SERIAL], uint8_t image[IMAGE]);
void take(const uint8_t image[IMAGE], uint8_t next_image[IMAGE], uint8_t key[KEY],
          uint8_t ksn[SERIAL]);

/* messages.c: MACs and enciphered bytes. What is repeated takes each message of the answer before. */
void repeat_cmac(long length, long count);
void repeat_retail(long length, long count);
void repeat_cbc_encrypt(long length, long count);
void repeat_cbc_decrypt(long length, long count);
void retail(const uint8_t key[KEY], const uint8_t *message, long length, uint8_t mac[BLOCK]);
void cmac(const uint8_t key[KEY], const uint8_t *message, long length, uint8_t *scratch,
          uint8_t mac[BLOCK]);
void cbc_decrypt(const uint8_t key[KEY], const uint8_t iv[BLOCK], const uint8_t *in, uint8_t *out,
                 long length);

/* pins.c: the PIN block of a PIN and a PAN, in clear, and enciphered under the PIN key of a
   transaction key; the PIN of a block; and the variant of a key by its byte. */
void pin_block(const char *pin, const char *pan, uint8_t block[BLOCK]);
int read_pin(const uint8_t block[BLOCK], const char *pan, char pin[MOST_PIN + 1]);
void variant(const uint8_t key[KEY], int byte, uint8_t out[KEY]);
void encipher_pin(const uint8_t key[KEY], const char *pin, const char *pan, uint8_t block[BLOCK]);

/* blocks.c: fields and key of a key block whose key has 16 bytes. Another text ends the program. */
void unwrap(const uint8_t kbpk[KEY], const char *text, uint8_t fields[FIELDS], uint8_t key[KEY]);

/* random.c: transaction keys of key serial numbers at random, the same ones in each run, and such
   numbers, after a state that begins as RANDOM. */
#define RANDOM UINT64_C(88172645463325252)
void derive_at_random(long count);
void draw_serials(uint64_t *state, uint8_t *ksns, long count);

/* lists.c: the keys of numbers that stand one after the other, and for each frame at the begin of 64
   bytes 0 where it is a request with its MAC, and else 21, 3 or 27: it is none, its number numbers no
   transaction, it has another MAC. */
void derive_many(const uint8_t bdk[KEY], const uint8_t *ksns, long count, uint8_t *keys);
void check_requests(const uint8_t bdk[KEY], const uint8_t *frames, long count, uint8_t *results);

/* serve.c: answers the requests of standard input over the journal in a file, and gives a status. */
int serve(const char *path);

/* text.c: hexadecimal in and out. */
int read_hex(const char *text, uint8_t *bytes, size_t length);
int read_digits(const char *digits, uint8_t *bytes, size_t length);
void print_hex(const uint8_t *bytes, int length, char end);

#endif
