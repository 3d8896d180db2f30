/* Repeats one call so many times, and writes what each gave. It is built once over libdukpt
   (over_library.c) and once over libcrypto (bench/openssl), and the output is the same. */
#include "../openssl/work.h"

#include <stdio.h>
#include <stdlib.h>
#include <string.h>

/* The sample keys of ANSI X9.24-1, and the sample key block of ANSI X9.143 with its protection key. */
static const char BASE_KEY[] = "0123456789ABCDEFFEDCBA9876543210";
static const char INITIAL_KEY[] = "6AC292FAA1315B4D858AB3A3D7D5933A";
static const char IKSN[] = "FFFF9876543210E00000";
static const char TRANSACTION_KEY[] = "042666B49184CFA368DE9628D0397BC9";
static const char REQUEST_KEY[] = "042666B4918430A368DE9628D03984C9";
static const char KBPK[] = "DD7515F2BFC17F85CE48F3CA25CB21F6";
static const char KEY_BLOCK[] =
    "B0080P0TE00E000094B420079CC80BA3461F86FE26EFC4A3B8E4FA4C5F5341176EED7B727B8A248E";
/* A request of docs/FORMATS.md from its version to its PIN block: what its MAC is made of. */
static const char REQUEST[] =
    "0101FFFF9876543210E000010D34303132333435363738393039000000011B9C1845EB993A7A";
enum { REQUEST_BYTES = (sizeof REQUEST - 1) / 2 };
/* How many keys are derived in a call, and how many requests are checked in one. */
enum { DERIVED = 10000, CHECKED = 1000 };

/* Each enciphered block is the right half of the next key. */
static void repeat_pin(long count)
{
    uint8_t key[KEY], block[BLOCK];
    read_hex(TRANSACTION_KEY, key, KEY);
    while (count-- > 0) {
        encipher_pin(key, "1234", "4012345678909", block);
        memcpy(key + BLOCK, block, BLOCK);
        fwrite(block, 1, BLOCK, stdout);
    }
}

/* Each MAC is the PIN block of the next request. */
static void repeat_mac(long count)
{
    uint8_t key[KEY], request[REQUEST_BYTES], mac[BLOCK];
    read_hex(REQUEST_KEY, key, KEY);
    read_hex(REQUEST, request, REQUEST_BYTES);
    while (count-- > 0) {
        retail(key, request, REQUEST_BYTES, mac);
        memcpy(request + REQUEST_BYTES - BLOCK, mac, BLOCK);
        fwrite(mac, 1, BLOCK, stdout);
    }
}

static void repeat_unwrap(long count)
{
    uint8_t kbpk[KEY], fields[FIELDS], key[KEY];
    read_hex(KBPK, kbpk, KEY);
    while (count-- > 0) {
        unwrap(kbpk, KEY_BLOCK, fields, key);
        fwrite(fields, 1, FIELDS, stdout);
        fwrite(key, 1, KEY, stdout);
    }
}

/* The first numbers of a terminal's life, and its image after them. */
static void repeat_take(long count)
{
    uint8_t initial[KEY], iksn[SERIAL], image[IMAGE], next_image[IMAGE], key[KEY], ksn[SERIAL];
    read_hex(INITIAL_KEY, initial, KEY);
    read_hex(IKSN, iksn, SERIAL);
    load(initial, iksn, image);
    while (count-- > 0) {
        take(image, next_image, key, ksn);
        memcpy(image, next_image, IMAGE);
        fwrite(ksn, 1, SERIAL, stdout);
        fwrite(key, 1, KEY, stdout);
    }
    fwrite(image, 1, IMAGE, stdout);
}

/* Keys of numbers at random, many in a call. */
static void repeat_derive_many(long count)
{
    static uint8_t ksns[DERIVED * SERIAL], keys[DERIVED * KEY];
    uint64_t state = RANDOM;
    uint8_t bdk[KEY];
    read_hex(BASE_KEY, bdk, KEY);
    for (; count > 0; count -= DERIVED) {
        long numbers = count < DERIVED ? count : DERIVED;
        draw_serials(&state, ksns, numbers);
        derive_many(bdk, ksns, numbers, keys);
        fwrite(keys, KEY, (size_t)numbers, stdout);
    }
}

/* Puts the request of a number in its place, with the MAC under its transaction key. */
static void put_request(const uint8_t bdk[KEY], const uint8_t ksn[SERIAL], uint8_t frame[PLACE])
{
    uint8_t key[KEY];
    frame[0] = 0;
    frame[1] = REQUEST_BYTES + BLOCK;
    read_hex(REQUEST, frame + 2, REQUEST_BYTES);
    memcpy(frame + 4, ksn, SERIAL);
    derive(bdk, ksn, key);
    key[6] ^= 0xFF;
    key[BLOCK + 6] ^= 0xFF;
    retail(key, frame + 2, REQUEST_BYTES, frame + 2 + REQUEST_BYTES);
}

/* Requests of numbers at random, many in a call. Before each call one more gets another MAC. */
static void repeat_check(long count)
{
    static uint8_t ksns[CHECKED * SERIAL], frames[CHECKED * PLACE], results[CHECKED];
    uint64_t state = RANDOM;
    uint8_t bdk[KEY];
    read_hex(BASE_KEY, bdk, KEY);
    draw_serials(&state, ksns, CHECKED);
    for (long i = 0; i < CHECKED; i++)
        put_request(bdk, ksns + SERIAL * i, frames + PLACE * i);
    for (long at = 0; count > 0; count -= CHECKED, at++) {
        long requests = count < CHECKED ? count : CHECKED;
        frames[PLACE * (at % CHECKED) + REQUEST_BYTES + 2] ^= 1;
        check_requests(bdk, frames, requests, results);
        fwrite(results, 1, (size_t)requests, stdout);
    }
}

static const struct {
    const char *name;
    void (*repeat)(long count);
} works[] = {
    {"derive", derive_at_random}, {"pin", repeat_pin},   {"mac", repeat_mac},
    {"unwrap", repeat_unwrap},    {"take", repeat_take},
    {"derive-many", repeat_derive_many}, {"check", repeat_check},
};

int main(int words, char **word)
{
    for (size_t i = 0; words == 3 && i < sizeof works / sizeof *works; i++) {
        if (strcmp(word[1], works[i].name) == 0) {
            works[i].repeat(atol(word[2]));
            return fflush(stdout) == 0 ? 0 : 1;
        }
    }
    fputs("usage: derive|pin|mac|unwrap|take|derive-many|check COUNT\n", stderr);
    return 2;
}
