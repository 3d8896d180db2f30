/* The calls with keys that are secret:

       valgrind secrets SEED CASES KEYS [branch | CALL | pin PLACE]

   CASES cases of each call are drawn. Each key among the arguments, those in an image too, is drawn
   anew of the seed KEYS alone, and marked as undefined. So memcheck reports each branch and each
   address that depends on a key itself; and callgrind counts the same instructions whatever KEYS is,
   if no branch depends on a key or on what is made of it. Of calls that compare what they make of a
   key, as a MAC, the answer is no secret: they are left out, but for `dukpt_check_requests`, which
   compares without a branch. With `branch` the program itself branches on a key, which has to be
   seen. With a call's name it is the only one. With `pin` a request is judged alone, against a card
   whose PIN of six digits is another at PLACE, or the same behind its end: the code is printed. */
#include "calls.h"
#include "draw.h"
#include "peer_parts.h"

#include <dukpt.h>
#include <stdio.h>
#include <stdlib.h>
#include <string.h>
#include <valgrind/memcheck.h>

enum { REGISTERS_AT = 14 };

/* Whether a call compares something that it makes of a key. */
static int compares(const struct call *call)
{
    static const uint64_t told = UINT64_C(1) << DUKPT_FAULT_BAD_MAC
                                 | UINT64_C(1) << DUKPT_FAULT_BLOCK_MAC
                                 | UINT64_C(1) << DUKPT_FAULT_NOT_A_PIN_BLOCK
                                 | UINT64_C(1) << DUKPT_FAULT_NOT_A_MODULE;
    return (call->statuses & told) != 0;
}

/* Whether a call is to be tried: this one alone, or each that compares nothing. */
static int is_wanted(const struct call *call, const char *only)
{
    return only == NULL ? !compares(call) : strcmp(call->name, only) == 0;
}

/* Whether a call reads a key. */
static int is_key(const struct parameter *parameter)
{
    return parameter->kind == BYTES && (parameter->most == 16 || parameter->most == 24);
}

static int is_image(const struct parameter *parameter)
{
    return parameter->kind == BYTES && parameter->most == IMAGE_BYTES;
}

/* Draws a key, and hides it. */
static void hide(struct chance *keys, uint8_t *key, size_t size)
{
    draw_bytes(keys, key, size);
    (void)VALGRIND_MAKE_MEM_UNDEFINED(key, size);
}

/* Hides the keys in an image: registers without a key have zeros, which are looked at. */
static void hide_registers(struct chance *keys, const struct argument *image)
{
    struct registers registers;
    if (!read_image(image->bytes, image->size, &registers))
        return;
    for (int place = 0; place < PLACES; place++)
        if (is_held(registers.counter, place))
            hide(keys, image->bytes + REGISTERS_AT + KEY_BYTES * place, KEY_BYTES);
}

static void hide_keys(struct chance *keys, const struct call *call, const struct argument *given)
{
    for (size_t at = 0; at < argument_count(call); at++) {
        if (is_key(&call->parameters[at]))
            hide(keys, given[at].bytes, given[at].size);
        if (is_image(&call->parameters[at]))
            hide_registers(keys, &given[at]);
    }
}

static void show_all(const struct call *call, const struct argument *given)
{
    for (size_t at = 0; at < argument_count(call); at++)
        (void)VALGRIND_MAKE_MEM_DEFINED(given[at].bytes, MOST_BYTES);
}

static void try_call(struct chance *chance, struct chance *keys, const struct call *call,
                     struct argument *given, long cases)
{
    for (; cases > 0; cases--) {
        draw_arguments(chance, call, given);
        hide_keys(keys, call, given);
        call->library(given);
        show_all(call, given);
    }
    printf("done %s\n", call->name);
}

/* What has to be seen: it counts to a number in a key. */
static void branch_on_key(struct chance *keys)
{
    uint8_t key[KEY_BYTES];
    volatile int count = 0;
    hide(keys, key, sizeof key);
    while (count < 256 * key[0] + key[1])
        count++;
}

/* Judges a request. The digits of PINs are looked at, and so are the same ones at each place. */
static void judge_pin(struct chance *chance, size_t place)
{
    static const uint8_t pan[] = "4012345678909", pin[] = "123456";
    static const uint8_t ksn[KSN_BYTES] = {1, 2, 3, 4, 5, 0, 0, 0, 0, 1};
    enum { PAN_DIGITS = sizeof pan - 1, PIN_DIGITS = sizeof pin - 1, PIN_AT = 21 };
    uint8_t keys[3][KEY_BYTES], key[KEY_BYTES], bytes[MOST_TEXT], image[MODULE_BYTES];
    uint8_t card[CARD_BYTES] = {PAN_DIGITS}, frame[FRAME_BYTES] = {0}, judged[FRAME_BYTES];
    struct argument lmk = {keys[0], KEY_BYTES, 0}, text = {bytes, 0, 0};
    struct request request = {.pan_digits = PAN_DIGITS};
    draw_bytes(chance, keys[0], sizeof keys);
    begin_module(keys[0], KEY_BYTES, image);
    put_text(chance, &lmk, "B0TX00N", keys[1], KEY_BYTES, &text);
    append_entry(image, BASE_KEY, ksn, &text);
    put_text(chance, &lmk, "P0TB00N", keys[2], KEY_BYTES, &text);
    append_entry(image, ZONE_KEY, ksn, &text);
    memcpy(request.ksn, ksn, sizeof ksn);
    memcpy(request.pan, pan, PAN_DIGITS);
    block_of_pin(pin, PIN_DIGITS, pan, PAN_DIGITS, request.block);
    tree_derived_key(keys[1], ksn, key);
    write_request(key, &request, frame);
    memcpy(card + 1, pan, PAN_DIGITS);
    card[PIN_AT - 1] = PIN_DIGITS;
    memcpy(card + PIN_AT, pin, PIN_DIGITS);
    if (place < PIN_DIGITS)
        card[PIN_AT + place] ^= 1;
    if (dukpt_host_judge(image, sizeof image, card, sizeof card, frame, sizeof frame, judged,
                         sizeof judged)
        != DUKPT_OK)
        exit(1);
    printf("code %.2s\n", (const char *)judged + 16);
}

int main(int words, char **word)
{
    struct chance chance, keys;
    struct argument given[MOST_ARGUMENTS] = {{0}};
    int is_branching;
    if (words < 4 || words > 6)
        return 2;
    chance.state = strtoull(word[1], NULL, 10);
    keys.state = strtoull(word[3], NULL, 10);
    if (words == 6) {
        judge_pin(&chance, word[5][0] - '0');
        return 0;
    }
    for (size_t at = 0; at < MOST_ARGUMENTS; at++)
        if ((given[at].bytes = calloc(1, MOST_BYTES)) == NULL)
            return 1;
    is_branching = words == 5 && strcmp(word[4], "branch") == 0;
    for (size_t at = 0; at < call_count; at++)
        if (is_wanted(&calls[at], words == 5 && !is_branching ? word[4] : NULL))
            try_call(&chance, &keys, &calls[at], given, atol(word[2]));
    if (is_branching)
        branch_on_key(&keys);
    for (size_t at = 0; at < MOST_ARGUMENTS; at++)
        free(given[at].bytes);
    return 0;
}
