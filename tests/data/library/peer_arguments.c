#include "peer_parts.h"

#include <string.h>

int is_tdes_size(size_t size)
{
    return size == KEY_BYTES || size == TRIPLE_BYTES;
}

int has_room(const struct argument *given, size_t size)
{
    return given->size >= size;
}

void write_bytes(struct argument *given, const uint8_t *bytes, size_t size)
{
    memcpy(given->bytes, bytes, size);
}

/* A number of four bytes, as the processor has it. */
void write_count(struct argument *given, size_t count)
{
    uint32_t number = (uint32_t)count;
    memcpy(given->bytes, &number, sizeof number);
}

void write_front(struct argument *room, struct argument *count, const uint8_t *bytes, size_t size)
{
    write_bytes(room, bytes, size);
    write_count(count, size);
}
