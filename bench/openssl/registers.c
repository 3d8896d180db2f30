/* The registers of a terminal, each call from image to image (docs/FORMATS.md). An image is taken as
   it is: nothing tests it. */
#include "work.h"

#include <string.h>

enum { COUNTER_BITS = 21, MOST_ONES = 10 };
enum { AT_IKSN = 1, AT_COUNTER = 11, AT_REGISTERS = 14 };

static uint8_t (*registers_of(uint8_t image[IMAGE]))[KEY]
{
    return (uint8_t(*)[KEY])(image + AT_REGISTERS);
}

static void put_counter(uint8_t image[IMAGE], uint32_t counter)
{
    image[AT_COUNTER] = (uint8_t)(counter >> 16);
    image[AT_COUNTER + 1] = (uint8_t)(counter >> 8);
    image[AT_COUNTER + 2] = (uint8_t)counter;
}

static uint32_t counter_in(const uint8_t image[IMAGE])
{
    return (uint32_t)image[AT_COUNTER] << 16 | (uint32_t)image[AT_COUNTER + 1] << 8
         | image[AT_COUNTER + 2];
}

void load(const uint8_t initial[KEY], const uint8_t iksn[SERIAL], uint8_t image[IMAGE])
{
    memset(image, 0, IMAGE);
    image[0] = 2;
    memcpy(image + AT_IKSN, iksn, SERIAL);
    put_counter(image, 1);
    fill_below(registers_of(image), COUNTER_BITS, initial, iksn, 0);
}

/* The key leaves its register, and those of its children come into the registers below. */
void take(const uint8_t image[IMAGE], uint8_t next_image[IMAGE], uint8_t key[KEY],
          uint8_t ksn[SERIAL])
{
    const uint8_t *iksn = image + AT_IKSN;
    uint32_t counter = counter_in(image);
    int last_place = __builtin_ctz(counter);
    uint8_t(*registers)[KEY] = registers_of(next_image);
    memcpy(next_image, image, IMAGE);
    memcpy(key, registers[last_place], KEY);
    memset(registers[last_place], 0, KEY);
    with_counter(iksn, counter, ksn);
    if (__builtin_popcount(counter) < MOST_ONES) {
        fill_below(registers, last_place, key, iksn, counter);
        counter += 1;
    } else {
        counter += 1u << last_place;
    }
    put_counter(next_image, counter);
}
