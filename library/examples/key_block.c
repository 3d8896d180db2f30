/* A key block (TR-31): a facility wraps a terminal's initial key, and the terminal unwraps it. */
#define _DEFAULT_SOURCE
#include <dukpt.h>
#include <string.h>
#include <unistd.h>

#include "example.h"

static const uint8_t LOADING[16] = {0x4C, 0xF1, 0x51, 0x34, 0xA2, 0x85, 0x0D, 0xD5,
                                    0x8A, 0x3D, 0x10, 0xBA, 0x80, 0x57, 0x0D, 0x38};
static const uint8_t INITIAL[16] = {0x6A, 0xC2, 0x92, 0xFA, 0xA1, 0x31, 0x5B, 0x4D,
                                    0x85, 0x8A, 0xB3, 0xA3, 0xD7, 0xD5, 0x93, 0x3A};
/* An initial key for TDES, from which others are derived, and which is not exported. */
static const uint8_t HEADER[] = "B1TX00N";

/* Makes a key block of the initial key, and prints it. Gives its length. */
static uint32_t wrap(uint8_t text[DUKPT_KEY_BLOCK_ROOM])
{
    /* Two bytes of length, the key and six bytes of padding are whole blocks of 8. The library has no
     * source of random bytes: the system's is taken. */
    uint8_t padding[6];
    uint32_t length;
    if (getentropy(padding, sizeof padding) != 0) {
        perror("getentropy");
        exit(1);
    }
    demand("wrap", dukpt_wrap(LOADING, sizeof LOADING, HEADER, sizeof HEADER - 1, INITIAL,
                              sizeof INITIAL, padding, sizeof padding, text,
                              DUKPT_KEY_BLOCK_ROOM, &length));
    printf("block %.*s\n", (int)length, (const char *)text);
    return length;
}

/* Has the key of a block that is for this use, and of this length. */
static uint32_t unwrap(const uint8_t *text, size_t size, const char *usage, uint8_t key[24])
{
    return dukpt_unwrap_for(LOADING, sizeof LOADING, (const uint8_t *)usage, DUKPT_USAGE_BYTES,
                            sizeof INITIAL, text, size, key, DUKPT_TRIPLE_KEY_BYTES);
}

int main(void)
{
    uint8_t text[DUKPT_KEY_BLOCK_ROOM], key[DUKPT_TRIPLE_KEY_BYTES];
    uint32_t length = wrap(text);
    demand("unwrap_for", unwrap(text, length, "B1", key));
    show("key", key, sizeof INITIAL);
    explicit_bzero(key, sizeof key);

    /* A terminal that wants a PIN encryption key does not take an initial key for one. */
    uint32_t status = unwrap(text, length, "P0", key);
    printf("other %s\n", status == DUKPT_FAULT_OTHER_USAGE ? "OtherUsage" : "?");

    /* Of a block that another one made, the MAC is wrong, and nothing is written. */
    text[length - 1] = text[length - 1] == '0' ? '1' : '0';
    status = unwrap(text, length, "B1", key);
    printf("forged %s\n", status == DUKPT_FAULT_BLOCK_MAC ? "BlockMac" : "?");
    dukpt_wipe_stack();
    return 0;
}
