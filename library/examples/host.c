/* A host's check of a frame: host FRAME [STANDS..]
 *
 * The frame is a request or a reversal, in hexadecimal. It derives the key of the frame's number,
 * checks the MAC, and of a request has the PIN. A real host does that in its security module. It
 * also keeps a journal of used numbers, refuses those in it, and knows from it which payments stand:
 * here those are the numbers STANDS. */
#define _DEFAULT_SOURCE
#include <dukpt.h>
#include <string.h>

#include "example.h"

enum { MALFORMED = 1, BAD_COUNTER = 3, BAD_MAC = 4 };

static const uint8_t BDK[16] = {0x01, 0x23, 0x45, 0x67, 0x89, 0xAB, 0xCD, 0xEF,
                                0xFE, 0xDC, 0xBA, 0x98, 0x76, 0x54, 0x32, 0x10};

/* The key of the frame's number. */
static uint8_t key[DUKPT_KEY_BYTES];

/* Leaves no key in memory, and none on the stack, where calls had it. */
static void wipe(void)
{
    explicit_bzero(key, sizeof key);
    dukpt_wipe_stack();
}

/* The fields of a request. */
struct request {
    uint8_t ksn[DUKPT_KSN_BYTES], pan[DUKPT_PAN_ROOM], block[8], mac[8];
    uint32_t pan_length, amount;
};

/* Reads hexadecimal digits. Gives how many bytes they are, or 0 where they are none or too many. */
static size_t read_hexadecimal(const char *text, uint8_t *bytes, size_t room)
{
    size_t digits = strlen(text);
    if (digits % 2 != 0 || digits / 2 > room || strspn(text, "0123456789ABCDEFabcdef") != digits)
        return 0;
    for (size_t at = 0; at < digits / 2; at++) {
        char byte[3] = {text[2 * at], text[2 * at + 1], 0};
        bytes[at] = (uint8_t)strtoul(byte, NULL, 16);
    }
    return digits / 2;
}

static void refuse(const uint8_t ksn[DUKPT_KSN_BYTES], uint32_t reason)
{
    uint8_t frame[DUKPT_FRAME_ROOM];
    uint32_t size;
    demand("request_refusal", dukpt_request_refusal(ksn, DUKPT_KSN_BYTES, reason, frame,
                                                    sizeof frame, &size));
    show("refusal", frame, size);
}

/* Derives the key of a number. Gives whether it numbers a transaction: else it is refused. */
static int has_key(const uint8_t ksn[DUKPT_KSN_BYTES])
{
    if (dukpt_check_usable(ksn, DUKPT_KSN_BYTES) != DUKPT_OK) {
        refuse(ksn, BAD_COUNTER);
        return 0;
    }
    demand("derive", dukpt_derive(BDK, sizeof BDK, ksn, DUKPT_KSN_BYTES, key, sizeof key));
    return 1;
}

/* Shows the PIN of a request, where its block holds one. Gives the code of the reply. */
static const char *decide(const uint8_t *frame, size_t size)
{
    uint8_t pin[DUKPT_PIN_ROOM];
    uint32_t length;
    if (dukpt_request_pin(key, sizeof key, frame, size, pin, sizeof pin, &length) != DUKPT_OK)
        return "30";
    printf("pin %.*s\n", (int)length, (const char *)pin);
    explicit_bzero(pin, sizeof pin);
    return "00";
}

/* Answers a request. */
static void judge_request(const struct request *it, const uint8_t *frame, size_t size)
{
    uint8_t reply[DUKPT_FRAME_ROOM];
    uint32_t reply_size;
    if (!has_key(it->ksn))
        return;
    if (dukpt_check_request(key, sizeof key, frame, size) != DUKPT_OK) {
        refuse(it->ksn, BAD_MAC);
        return;
    }
    show("number", it->ksn, sizeof it->ksn);
    printf("pan %.*s\namount %u\n", (int)it->pan_length, (const char *)it->pan,
           (unsigned)it->amount);
    demand("request_reply",
           dukpt_request_reply(key, sizeof key, it->ksn, sizeof it->ksn,
                               (const uint8_t *)decide(frame, size), 2, reply, sizeof reply,
                               &reply_size));
    show("reply", reply, reply_size);
}

/* Whether an approved payment of a number stands, by the journal. */
static uint32_t stands(const uint8_t ksn[DUKPT_KSN_BYTES], char **numbers)
{
    uint8_t number[DUKPT_KSN_BYTES];
    for (; *numbers != NULL; numbers++) {
        read_hexadecimal(*numbers, number, sizeof number);
        if (memcmp(number, ksn, sizeof number) == 0)
            return 1;
    }
    return 0;
}

/* Answers a reversal. */
static void judge_reversal(const uint8_t ksn[DUKPT_KSN_BYTES],
                           const uint8_t reversed[DUKPT_KSN_BYTES], const uint8_t *frame,
                           size_t size, char **numbers)
{
    uint8_t reply[DUKPT_FRAME_ROOM];
    uint32_t reply_size;
    if (!has_key(ksn))
        return;
    if (dukpt_check_reversal(key, sizeof key, frame, size) != DUKPT_OK) {
        refuse(ksn, BAD_MAC);
        return;
    }
    show("number", ksn, DUKPT_KSN_BYTES);
    show("reversed", reversed, DUKPT_KSN_BYTES);
    demand("reversal_reply",
           dukpt_reversal_reply(key, sizeof key, ksn, DUKPT_KSN_BYTES, reversed, DUKPT_KSN_BYTES,
                                stands(reversed, numbers), reply, sizeof reply, &reply_size));
    show("reply", reply, reply_size);
}

/* Judges a frame, and answers it. */
static void judge(const uint8_t *frame, size_t size, char **numbers)
{
    static const uint8_t no_ksn[DUKPT_KSN_BYTES] = {0};
    struct request it;
    uint8_t ksn[DUKPT_KSN_BYTES], reversed[DUKPT_KSN_BYTES], mac[DUKPT_MAC_BYTES];
    if (dukpt_read_request(frame, size, it.ksn, sizeof it.ksn, it.pan, sizeof it.pan,
                           &it.pan_length, &it.amount, it.block, sizeof it.block, it.mac,
                           sizeof it.mac) == DUKPT_OK)
        judge_request(&it, frame, size);
    else if (dukpt_read_reversal(frame, size, ksn, sizeof ksn, reversed, sizeof reversed, mac,
                                 sizeof mac) == DUKPT_OK)
        judge_reversal(ksn, reversed, frame, size, numbers);
    else
        refuse(no_ksn, MALFORMED);
}

int main(int count, char **arguments)
{
    uint8_t frame[DUKPT_FRAME_ROOM], number[DUKPT_KSN_BYTES];
    int is_usage = count < 2;
    for (int at = 2; at < count; at++)
        is_usage |= read_hexadecimal(arguments[at], number, sizeof number) != sizeof number;
    if (is_usage) {
        fprintf(stderr, "usage: host FRAME [STANDS..]\n");
        return 1;
    }
    atexit(wipe);
    judge(frame, read_hexadecimal(arguments[1], frame, sizeof frame), arguments + 2);
    return 0;
}
