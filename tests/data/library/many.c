/* Random keys in groups of any length, by the library and by the key tree over libcrypto:

       many SEED KEYS [planted]

   Each group has a base derivation key of its own, and each key serial number is one of another
   terminal. KEYS keys, or a group more, are compared one by one. The line has how many these were,
   and how many were others: `done KEYS OTHERS`. With `planted` a bit of the last key is turned
   before. */
#include "draw.h"
#include "peer_parts.h"

#include <dukpt.h>
#include <stdio.h>
#include <stdlib.h>
#include <string.h>

/* More than two groups of terminals that the library works on at once. */
enum { MOST_NUMBERS = 300 };

struct group {
    size_t count;
    uint8_t bdk[KEY_BYTES], ksns[MOST_NUMBERS * KSN_BYTES], keys[MOST_NUMBERS * KEY_BYTES];
};

static void draw_group(struct chance *chance, struct group *group)
{
    group->count = 1 + below(chance, MOST_NUMBERS);
    draw_bytes(chance, group->bdk, sizeof group->bdk);
    draw_bytes(chance, group->ksns, KSN_BYTES * group->count);
    for (size_t at = 0; at < group->count; at++) {
        uint8_t *ksn = group->ksns + KSN_BYTES * at;
        number_with(ksn, draw_counter(chance), ksn);
    }
}

static void derive_group(struct group *group)
{
    uint32_t status = dukpt_derive_many(group->bdk, sizeof group->bdk, group->ksns,
                                        KSN_BYTES * group->count, group->keys,
                                        KEY_BYTES * group->count);
    if (status != DUKPT_OK) {
        printf("status %u\n", (unsigned)status);
        exit(1);
    }
}

/* How many keys of a group are others by libcrypto. */
static long count_others(const struct group *group)
{
    long others = 0;
    for (size_t at = 0; at < group->count; at++) {
        uint8_t key[KEY_BYTES];
        tree_derived_key(group->bdk, group->ksns + KSN_BYTES * at, key);
        others += memcmp(key, group->keys + KEY_BYTES * at, sizeof key) != 0;
    }
    return others;
}

int main(int words, char **word)
{
    static struct group group;
    struct chance chance;
    long tried = 0, others = 0, wanted;
    int is_planted = words == 4 && strcmp(word[3], "planted") == 0;
    if (words != 3 && !is_planted)
        return 2;
    chance.state = strtoull(word[1], NULL, 10);
    wanted = atol(word[2]);
    while (tried < wanted) {
        draw_group(&chance, &group);
        derive_group(&group);
        tried += (long)group.count;
        if (is_planted && tried >= wanted)
            group.keys[KEY_BYTES * group.count - 1 - below(&chance, KEY_BYTES)] ^=
                (uint8_t)(1u << below(&chance, 8));
        others += count_others(&group);
    }
    printf("done %ld %ld\n", tried, others);
    return 0;
}
