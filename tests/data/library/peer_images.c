/* The registers of a terminal, from image to image, by docs/FORMATS.md. */
#include "peer.h"
#include "peer_parts.h"

#include <dukpt.h>
#include <string.h>

enum { KEYS_AT = 14, PAST_AT = KEYS_AT + PLACES * KEY_BYTES };

/* The number whose key the register of a place may have, where this counter comes next. */
static uint32_t number_of_place(uint32_t counter, int place)
{
    uint32_t parent = (counter - 1) >> (place + 1) << (place + 1);
    return parent | (uint32_t)1 << place;
}

int is_held(uint32_t counter, int place)
{
    uint32_t number = number_of_place(counter, place);
    return is_usable(number) && number >= counter;
}

void write_image(const struct registers *registers, uint8_t *image)
{
    memset(image, 0, IMAGE_BYTES);
    image[0] = 2;
    memcpy(image + 1, registers->iksn, KSN_BYTES);
    image[11] = (uint8_t)(registers->counter >> 16);
    image[12] = (uint8_t)(registers->counter >> 8);
    image[13] = (uint8_t)registers->counter;
    memcpy(image + KEYS_AT, registers->keys, sizeof registers->keys);
    image[PAST_AT] = (uint8_t)registers->past_count;
    memcpy(image + PAST_AT + 1, registers->past, registers->past_count * KSN_BYTES);
}

static int is_zero(const uint8_t *bytes, size_t length)
{
    for (size_t i = 0; i < length; i++)
        if (bytes[i] != 0)
            return 0;
    return 1;
}

static int has_iksn(const struct registers *registers, const uint8_t *iksn)
{
    if (memcmp(registers->iksn, iksn, KSN_BYTES) == 0)
        return 1;
    for (size_t i = 0; i < registers->past_count; i++)
        if (memcmp(registers->past[i], iksn, KSN_BYTES) == 0)
            return 1;
    return 0;
}

/* Reads what the terminal had before, after its own number is read. */
static int read_past(const uint8_t *bytes, struct registers *registers)
{
    size_t count = bytes[0];
    if (count > MOST_PAST
        || !is_zero(bytes + 1 + count * KSN_BYTES, (MOST_PAST - count) * KSN_BYTES))
        return 0;
    for (registers->past_count = 0; registers->past_count < count; registers->past_count++) {
        const uint8_t *iksn = bytes + 1 + registers->past_count * KSN_BYTES;
        if (counter_in(iksn) != 0 || has_iksn(registers, iksn))
            return 0;
        memcpy(registers->past[registers->past_count], iksn, KSN_BYTES);
    }
    return 1;
}

int read_image(const uint8_t *image, size_t size, struct registers *registers)
{
    if (!(size == IMAGE_BYTES && image[0] == 2) && !(size == IMAGE_1_BYTES && image[0] == 1))
        return 0;
    memcpy(registers->iksn, image + 1, KSN_BYTES);
    registers->counter = (uint32_t)image[11] << 16 | (uint32_t)image[12] << 8 | image[13];
    memcpy(registers->keys, image + KEYS_AT, sizeof registers->keys);
    registers->past_count = 0;
    if (counter_in(registers->iksn) != 0
        || !(is_usable(registers->counter) || registers->counter == SPENT_COUNTER))
        return 0;
    for (int place = 0; place < PLACES; place++)
        if (!is_held(registers->counter, place) && !is_zero(registers->keys[place], KEY_BYTES))
            return 0;
    return size == IMAGE_1_BYTES || read_past(image + PAST_AT, registers);
}

/* Fills the registers of a terminal whose next number has a counter: a step for each place, either
   down to the parent of the lower places or into the register. */
static void fill(struct registers *registers, const uint8_t *initial, const uint8_t *ksn)
{
    uint8_t parent[KEY_BYTES], child[KEY_BYTES], number[KSN_BYTES];
    uint32_t used = counter_in(ksn) - 1;
    memset(registers, 0, sizeof *registers);
    registers->counter = counter_in(ksn);
    number_with(ksn, 0, registers->iksn);
    memcpy(parent, initial, KEY_BYTES);
    for (int place = PLACES - 1; place >= 0; place--) {
        number_with(ksn, number_of_place(registers->counter, place), number);
        tree_step(parent, number, child);
        if (used >> place & 1)
            memcpy(parent, child, KEY_BYTES);
        else if (is_held(registers->counter, place))
            memcpy(registers->keys[place], child, KEY_BYTES);
    }
}

static int are_key_number_and_image(const struct argument *given)
{
    return given[0].size == KEY_BYTES && given[1].size == KSN_BYTES && has_room(&given[2], IMAGE_BYTES);
}

uint32_t peer_registers_load(struct argument *given)
{
    uint8_t first[KSN_BYTES];
    struct registers registers;
    if (!are_key_number_and_image(given))
        return DUKPT_FAULT_LENGTH;
    if (counter_in(given[1].bytes) != 0)
        return DUKPT_FAULT_NOT_INITIAL;
    number_with(given[1].bytes, 1, first);
    fill(&registers, given[0].bytes, first);
    write_image(&registers, given[2].bytes);
    return DUKPT_OK;
}

uint32_t peer_registers_at(struct argument *given)
{
    struct registers registers;
    if (!are_key_number_and_image(given))
        return DUKPT_FAULT_LENGTH;
    if (!is_usable(counter_in(given[1].bytes)))
        return DUKPT_FAULT_NOT_USABLE;
    fill(&registers, given[0].bytes, given[1].bytes);
    write_image(&registers, given[2].bytes);
    return DUKPT_OK;
}

/* Reads an image with a number left. */
static uint32_t read_unspent(const struct argument *image, struct registers *registers)
{
    if (!read_image(image->bytes, image->size, registers))
        return DUKPT_FAULT_NOT_AN_IMAGE;
    return registers->counter == SPENT_COUNTER ? DUKPT_FAULT_SPENT : DUKPT_OK;
}

uint32_t peer_registers_number(struct argument *given)
{
    struct registers registers;
    uint32_t status = DUKPT_FAULT_LENGTH;
    if (has_room(&given[1], KSN_BYTES))
        status = read_unspent(&given[0], &registers);
    if (status == DUKPT_OK)
        number_with(registers.iksn, registers.counter, given[1].bytes);
    return status;
}

/* Empties the register of the next number, and fills those of its children. */
static void use_next(struct registers *registers, uint8_t *key, uint8_t *ksn)
{
    uint32_t counter = registers->counter;
    int own = 0;
    while ((counter >> own & 1) == 0)
        own++;
    memcpy(key, registers->keys[own], KEY_BYTES);
    memset(registers->keys[own], 0, KEY_BYTES);
    number_with(registers->iksn, counter, ksn);
    registers->counter = counter_after(counter);
    for (int place = 0; place < own; place++) {
        uint8_t child[KSN_BYTES];
        if (!is_usable(counter | (uint32_t)1 << place))
            continue;
        number_with(registers->iksn, counter | (uint32_t)1 << place, child);
        tree_step(key, child, registers->keys[place]);
    }
}

uint32_t peer_registers_next(struct argument *given)
{
    struct registers registers;
    uint32_t status = DUKPT_FAULT_LENGTH;
    if (has_room(&given[1], IMAGE_BYTES) && has_room(&given[2], KEY_BYTES)
        && has_room(&given[3], KSN_BYTES))
        status = read_unspent(&given[0], &registers);
    if (status == DUKPT_OK) {
        use_next(&registers, given[2].bytes, given[3].bytes);
        write_image(&registers, given[1].bytes);
    }
    return status;
}

uint32_t peer_registers_reload(struct argument *given)
{
    uint8_t first[KSN_BYTES];
    struct registers before, after;
    const uint8_t *iksn = given[2].bytes;
    if (!are_key_number_and_image(given + 1))
        return DUKPT_FAULT_LENGTH;
    if (counter_in(iksn) != 0)
        return DUKPT_FAULT_NOT_INITIAL;
    if (!read_image(given[0].bytes, given[0].size, &before))
        return DUKPT_FAULT_NOT_AN_IMAGE;
    if (has_iksn(&before, iksn))
        return DUKPT_FAULT_IKSN_SPENT;
    if (before.past_count == MOST_PAST)
        return DUKPT_FAULT_LOADS_SPENT;
    number_with(iksn, 1, first);
    fill(&after, given[1].bytes, first);
    memcpy(after.past, before.past, sizeof before.past);
    memcpy(after.past[before.past_count], before.iksn, KSN_BYTES);
    after.past_count = before.past_count + 1;
    write_image(&after, given[3].bytes);
    return DUKPT_OK;
}
