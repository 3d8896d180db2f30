/* PIN blocks (ISO 9564-1 format 0). */
#include "peer.h"
#include "peer_parts.h"

#include <dukpt.h>
#include <string.h>

enum { LEAST_PIN = 4, MOST_PIN = 12, LEAST_PAN = 12, NIBBLES = 16 };

int are_digits(const uint8_t *text, size_t size)
{
    for (size_t i = 0; i < size; i++)
        if (text[i] < '0' || text[i] > '9')
            return 0;
    return 1;
}

uint32_t fault_of_pin(const struct argument *pin)
{
    if (pin->size < LEAST_PIN || pin->size > MOST_PIN)
        return DUKPT_FAULT_PIN_LENGTH;
    return are_digits(pin->bytes, pin->size) ? DUKPT_OK : DUKPT_FAULT_PIN_DIGIT;
}

uint32_t fault_of_pan(const struct argument *pan)
{
    if (pan->size < LEAST_PAN || pan->size > MOST_DIGITS)
        return DUKPT_FAULT_PAN_LENGTH;
    return are_digits(pan->bytes, pan->size) ? DUKPT_OK : DUKPT_FAULT_PAN_DIGIT;
}

/* The nibbles of the account field: four zeros, and the twelve digits before the check digit. */
static void account_field(const uint8_t *pan, size_t digits, uint8_t field[NIBBLES])
{
    memset(field, 0, NIBBLES);
    for (size_t i = 0; i < 12 && i + 1 < digits; i++)
        field[NIBBLES - 1 - i] = (uint8_t)(pan[digits - 2 - i] - '0');
}

void block_of_pin(const uint8_t *pin, size_t digits, const uint8_t *pan, size_t pan_digits,
                  uint8_t *block)
{
    uint8_t field[NIBBLES], account[NIBBLES];
    memset(field, 0xF, NIBBLES);
    field[0] = 0;
    field[1] = (uint8_t)digits;
    for (size_t i = 0; i < digits; i++)
        field[2 + i] = (uint8_t)(pin[i] - '0');
    account_field(pan, pan_digits, account);
    for (size_t i = 0; i < BLOCK_BYTES; i++)
        block[i] = (uint8_t)((field[2 * i] ^ account[2 * i]) << 4
                             | (field[2 * i + 1] ^ account[2 * i + 1]));
}

size_t pin_in_block(const uint8_t *block, const uint8_t *pan, size_t pan_digits, uint8_t *pin)
{
    uint8_t again[BLOCK_BYTES], account[NIBBLES];
    size_t digits = block[0];
    if (digits < LEAST_PIN || digits > MOST_PIN)
        return 0;
    account_field(pan, pan_digits, account);
    for (size_t i = 0; i < digits; i++) {
        size_t at = 2 + i;
        pin[i] = (uint8_t)('0' + ((block[at / 2] >> (at % 2 == 0 ? 4 : 0) & 15) ^ account[at]));
    }
    if (!are_digits(pin, digits))
        return 0;
    block_of_pin(pin, digits, pan, pan_digits, again);
    return memcmp(again, block, BLOCK_BYTES) == 0 ? digits : 0;
}

uint32_t peer_pin_block(struct argument *given)
{
    uint32_t status = DUKPT_FAULT_LENGTH;
    if (has_room(&given[2], BLOCK_BYTES))
        status = fault_of_pin(&given[0]);
    if (status == DUKPT_OK)
        status = fault_of_pan(&given[1]);
    if (status == DUKPT_OK)
        block_of_pin(given[0].bytes, given[0].size, given[1].bytes, given[1].size, given[2].bytes);
    return status;
}

uint32_t peer_pin_of_block(struct argument *given)
{
    uint8_t pin[MOST_PIN];
    size_t digits;
    uint32_t status = DUKPT_FAULT_LENGTH;
    if (given[0].size == BLOCK_BYTES && has_room(&given[2], MOST_PIN))
        status = fault_of_pan(&given[1]);
    if (status != DUKPT_OK)
        return status;
    digits = pin_in_block(given[0].bytes, given[1].bytes, given[1].size, pin);
    if (digits == 0)
        return DUKPT_FAULT_NOT_A_PIN_BLOCK;
    write_front(&given[2], &given[3], pin, digits);
    return DUKPT_OK;
}
