#include "text.h"

#include <stdio.h>
#include <stdlib.h>
#include <string.h>

static void print_bytes(const uint8_t *bytes, size_t size)
{
    static const char digits[] = "0123456789ABCDEF";
    char text[2 * MOST_BYTES];
    for (size_t i = 0; i < size; i++) {
        text[2 * i] = digits[bytes[i] >> 4];
        text[2 * i + 1] = digits[bytes[i] & 15];
    }
    fwrite(text, 1, 2 * size, stdout);
}

static void print_argument(const struct argument *given, enum kind kind)
{
    uint32_t number = given->number;
    if (kind == COUNT)
        memcpy(&number, given->bytes, sizeof number);
    if (kind == COUNT || kind == NUMBER)
        printf("%u", (unsigned)number);
    else if (given->size == 0)
        printf("-");
    else
        print_bytes(given->bytes, given->size);
}

void print_arguments(const char *word, const struct argument *given,
                     const struct parameter *parameters, size_t count)
{
    printf("%s", word);
    for (size_t i = 0; i < count; i++) {
        printf("%s", i == 0 ? "" : " ");
        print_argument(&given[i], parameters[i].kind);
    }
}

static int read_bytes(const char *text, struct argument *given)
{
    size_t length = strlen(text);
    given->size = strcmp(text, "-") == 0 ? 0 : length / 2;
    if (given->size > 0 && (length % 2 != 0 || given->size > MOST_BYTES))
        return 0;
    for (size_t i = 0; i < given->size; i++) {
        unsigned byte;
        if (sscanf(text + 2 * i, "%2x", &byte) != 1)
            return 0;
        given->bytes[i] = (uint8_t)byte;
    }
    return 1;
}

int read_argument(const char *text, const struct parameter *parameter, struct argument *given)
{
    if (parameter->kind == BYTES || parameter->kind == BUFFER)
        return read_bytes(text, given);
    given->number = (uint32_t)strtoul(text, NULL, 10);
    if (parameter->kind == COUNT) {
        given->size = sizeof given->number;
        memcpy(given->bytes, &given->number, sizeof given->number);
    }
    return 1;
}
