/* Faults between header and library, which the programs have to find: the environment's PLANTED
   names the one that is there. The linker hands each of these calls to its shim (`--wrap`). */
#include <dukpt.h>

#include <stdlib.h>
#include <string.h>

static int is_planted(const char *name)
{
    const char *planted = getenv("PLANTED");
    return planted != NULL && strcmp(planted, name) == 0;
}

/* The names that the linker gives to the library's calls and to those of the programs. */
#define REAL(name) __real_dukpt_##name
#define SHIM(name) __wrap_dukpt_##name
#define SLICE_IN(name) const uint8_t *name, size_t name##_size
#define SLICE_OUT(name) uint8_t *name, size_t name##_size

uint32_t REAL(derive)(SLICE_IN(bdk), SLICE_IN(ksn), SLICE_OUT(key));
uint32_t SHIM(derive)(SLICE_IN(bdk), SLICE_IN(ksn), SLICE_OUT(key));
uint32_t REAL(next_number)(SLICE_IN(ksn), SLICE_OUT(next));
uint32_t SHIM(next_number)(SLICE_IN(ksn), SLICE_OUT(next));
uint32_t REAL(cmac)(SLICE_IN(key), SLICE_IN(message), SLICE_OUT(mac));
uint32_t SHIM(cmac)(SLICE_IN(key), SLICE_IN(message), SLICE_OUT(mac));
uint32_t REAL(pin_block)(SLICE_IN(pin), SLICE_IN(pan), SLICE_OUT(block));
uint32_t SHIM(pin_block)(SLICE_IN(pin), SLICE_IN(pan), SLICE_OUT(block));
uint32_t REAL(pin_of_block)(SLICE_IN(block), SLICE_IN(pan), SLICE_OUT(pin), uint32_t *pin_length);
uint32_t SHIM(pin_of_block)(SLICE_IN(block), SLICE_IN(pan), SLICE_OUT(pin), uint32_t *pin_length);
uint32_t REAL(check_reply)(SLICE_IN(key), SLICE_IN(ksn), SLICE_IN(frame));
uint32_t SHIM(check_reply)(SLICE_IN(key), SLICE_IN(ksn), SLICE_IN(frame));

/* `untested`: the key may be longer than it should. `exact`: the room may not. `refusing`: each
   length is refused, so that no call succeeds. */
uint32_t SHIM(derive)(SLICE_IN(bdk), SLICE_IN(ksn), SLICE_OUT(key))
{
    if (is_planted("untested") && bdk_size > 16)
        bdk_size = 16;
    if (is_planted("refusing") || (is_planted("exact") && key_size > 16))
        return DUKPT_FAULT_LENGTH;
    return REAL(derive)(bdk, bdk_size, ksn, ksn_size, key, key_size);
}

/* `same`: the number that is written is that which is read. `all`: it fills a longer slice. */
uint32_t SHIM(next_number)(SLICE_IN(ksn), SLICE_OUT(next))
{
    uint32_t status = REAL(next_number)(ksn, ksn_size, next, next_size);
    if (is_planted("same") && status == DUKPT_OK)
        memcpy(next, ksn, ksn_size);
    if (is_planted("all") && status == DUKPT_OK)
        memset(next + ksn_size, 0, next_size - ksn_size);
    return status;
}

/* `before`, `behind`, `read behind`: access beside a slice. `input`: an input is changed. */
uint32_t SHIM(cmac)(SLICE_IN(key), SLICE_IN(message), SLICE_OUT(mac))
{
    uint32_t status = REAL(cmac)(key, key_size, message, message_size, mac, mac_size);
    if (is_planted("before"))
        mac[-1] ^= 1;
    if (is_planted("behind"))
        mac[mac_size] ^= 1;
    if (is_planted("read behind") && ((const volatile uint8_t *)message)[message_size] == 1)
        return status;
    if (is_planted("input") && key_size > 0)
        ((uint8_t *)(uintptr_t)key)[0] ^= 1;
    return status;
}

/* `on fault`: the block is cleared before anything is tested. */
uint32_t SHIM(pin_block)(SLICE_IN(pin), SLICE_IN(pan), SLICE_OUT(block))
{
    if (is_planted("on fault"))
        memset(block, 0, block_size);
    return REAL(pin_block)(pin, pin_size, pan, pan_size, block, block_size);
}

/* `rest`: what is behind the PIN is cleared. `order`: the block is looked at before the PAN. */
uint32_t SHIM(pin_of_block)(SLICE_IN(block), SLICE_IN(pan), SLICE_OUT(pin), uint32_t *pin_length)
{
    uint32_t status;
    if (is_planted("order") && block_size == 8 && pin_size >= 12 && block[0] > 12)
        return DUKPT_FAULT_NOT_A_PIN_BLOCK;
    status = REAL(pin_of_block)(block, block_size, pan, pan_size, pin, pin_size, pin_length);
    if (is_planted("rest") && status == DUKPT_OK)
        memset(pin + *pin_length, 0, pin_size - *pin_length);
    return status;
}

/* `exchanged`: two statuses are each other's. */
uint32_t SHIM(check_reply)(SLICE_IN(key), SLICE_IN(ksn), SLICE_IN(frame))
{
    uint32_t status = REAL(check_reply)(key, key_size, ksn, ksn_size, frame, frame_size);
    int is_one = status == DUKPT_FAULT_NOT_MINE || status == DUKPT_FAULT_BAD_MAC;
    if (is_planted("exchanged") && is_one)
        return DUKPT_FAULT_NOT_MINE + DUKPT_FAULT_BAD_MAC - status;
    return status;
}
