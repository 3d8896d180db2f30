/* The key tree, as the program of bench/openssl has it. Its functions are its own, so its text is
   taken whole. */
#include "../../bench/openssl/tree.c"

#include "peer_parts.h"

void tree_initial_key(const uint8_t *bdk, const uint8_t *iksn, uint8_t *key)
{
    initial_key(bdk, iksn, key);
}

void tree_step(const uint8_t *parent, const uint8_t *ksn, uint8_t *key)
{
    step(parent, ksn + 2, key);
}

void tree_derive(const uint8_t *initial, const uint8_t *ksn, uint8_t *key)
{
    uint32_t counter = counter_in(ksn), reached = 0;
    uint8_t number[SERIAL], parent[KEY];
    memcpy(key, initial, KEY);
    for (int place = COUNTER_BITS - 1; place >= 0; place--) {
        if ((counter >> place & 1) == 0)
            continue;
        reached |= 1u << place;
        number_with(ksn, reached, number);
        memcpy(parent, key, KEY);
        tree_step(parent, number, key);
    }
}

void tree_derived_key(const uint8_t *bdk, const uint8_t *ksn, uint8_t *key)
{
    uint8_t iksn[SERIAL], initial[KEY];
    number_with(ksn, 0, iksn);
    tree_initial_key(bdk, iksn, initial);
    tree_derive(initial, ksn, key);
}
