/* The work of duk_bench, and of `dukpt walk` and `dukpt serve`, over OpenSSL's libcrypto: the same
   output, and the same words but for a configuration. */
#include "work.h"

#include <stdio.h>
#include <stdlib.h>
#include <string.h>

struct message_work {
    const char *name;
    void (*repeat)(long length, long count);
};

static const struct message_work message_works[] = {
    {"cmac", repeat_cmac},
    {"retail", repeat_retail},
    {"cbc-encrypt", repeat_cbc_encrypt},
    {"cbc-decrypt", repeat_cbc_decrypt},
};

static int refuse(void)
{
    fputs("usage: walk BDK IKSN COUNT | derive COUNT | serve JOURNAL |"
          " cmac|retail|cbc-encrypt|cbc-decrypt LENGTH COUNT\n", stderr);
    return 2;
}

int main(int words, char **word)
{
    uint8_t bdk[KEY], iksn[SERIAL];
    if (words == 5 && strcmp(word[1], "walk") == 0 && read_hex(word[2], bdk, KEY)
        && read_hex(word[3], iksn, SERIAL)) {
        walk(bdk, iksn, atol(word[4]));
        return 0;
    }
    if (words == 3 && (strcmp(word[1], "derive") == 0 || strcmp(word[1], "derive-groups") == 0)) {
        derive_at_random(atol(word[2]));
        return 0;
    }
    if (words == 3 && strcmp(word[1], "serve") == 0)
        return serve(word[2]);
    for (size_t i = 0; i < sizeof message_works / sizeof *message_works; i++) {
        if (words == 4 && strcmp(word[1], message_works[i].name) == 0) {
            message_works[i].repeat(atol(word[2]), atol(word[3]));
            return 0;
        }
    }
    return refuse();
}
