/* Key blocks of ANSI X9.143, version B, without optional blocks and under a protection key of 16
   bytes (docs/FORMATS.md). */
#include "work.h"

#include <stdio.h>
#include <stdlib.h>
#include <string.h>

enum { HEADER = 16, LONGEST = 512 };
enum usage { ENCRYPTION, AUTHENTICATION };

static void demand(int is_so)
{
    if (!is_so) {
        fputs("no key block of a key of 16 bytes\n", stderr);
        exit(1);
    }
}

/* The key of a usage: the CMAC of a block for each eight bytes of it. */
static void derived(const uint8_t kbpk[KEY], enum usage usage, uint8_t key[KEY])
{
    uint8_t scratch[BLOCK];
    for (uint8_t i = 0; i < KEY / BLOCK; i++) {
        const uint8_t about[BLOCK] = {(uint8_t)(i + 1), 0, (uint8_t)usage, 0, 0, 0, 0, 8 * KEY};
        cmac(kbpk, about, BLOCK, scratch, key + BLOCK * i);
    }
}

/* How many characters a text has, which its header has to say. */
static size_t length_of(const char *text)
{
    char digits[5] = {0};
    size_t length = strlen(text);
    demand(length >= 80 && length <= LONGEST && length % 8 == 0 && text[0] == 'B');
    memcpy(digits, text + 1, 4);
    demand(strtoul(digits, NULL, 10) == length && memcmp(text + 12, "00", 2) == 0);
    return length;
}

void unwrap(const uint8_t kbpk[KEY], const char *text, uint8_t fields[FIELDS], uint8_t key[KEY])
{
    uint8_t hidden[LONGEST / 2], clear[LONGEST], scratch[LONGEST], made[KEY], mac[BLOCK];
    size_t length = length_of(text), count = (length - HEADER) / 2 - BLOCK;
    demand(read_digits(text + HEADER, hidden, count + BLOCK));
    memcpy(clear, text, HEADER);
    derived(kbpk, ENCRYPTION, made);
    cbc_decrypt(made, hidden + count, hidden, clear + HEADER, (long)count);
    derived(kbpk, AUTHENTICATION, made);
    cmac(made, clear, (long)(HEADER + count), scratch, mac);
    demand(memcmp(mac, hidden + count, BLOCK) == 0);
    demand(clear[HEADER] == 0 && clear[HEADER + 1] == 8 * KEY && count >= 2 + KEY);
    memcpy(fields, text + 5, FIELDS);
    memcpy(key, clear + HEADER + 2, KEY);
}
