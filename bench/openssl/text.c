/* Hexadecimal in and out. */
#include "work.h"

#include <stdio.h>
#include <string.h>

static int digit_value(char digit)
{
    if (digit >= '0' && digit <= '9')
        return digit - '0';
    if (digit >= 'A' && digit <= 'F')
        return digit - 'A' + 10;
    return -1;
}

/* Whether digits are the hexadecimal of so many bytes, which it gives. */
int read_digits(const char *digits, uint8_t *bytes, size_t length)
{
    for (size_t i = 0; i < length; i++) {
        int high = digit_value(digits[2 * i]);
        int low = digit_value(digits[2 * i + 1]);
        if (high < 0 || low < 0)
            return 0;
        bytes[i] = (uint8_t)(high << 4 | low);
    }
    return 1;
}

/* Whether the whole text is that. */
int read_hex(const char *text, uint8_t *bytes, size_t length)
{
    return strlen(text) == 2 * length && read_digits(text, bytes, length);
}

void print_hex(const uint8_t *bytes, int length, char end)
{
    static const char digits[] = "0123456789ABCDEF";
    char text[64];
    for (int i = 0; i < length; i++) {
        text[2 * i] = digits[bytes[i] >> 4];
        text[2 * i + 1] = digits[bytes[i] & 15];
    }
    text[2 * length] = end;
    fwrite(text, 1, 2 * (size_t)length + 1, stdout);
}
