/* The last purchase of the example terminal, as it is kept beside the image: 17 bytes, as they stand
 * in front of the zeros in a till's book (docs/FORMATS.md, "Cell"). */
#ifndef TERMINAL_BOOK_H
#define TERMINAL_BOOK_H

#include <dukpt.h>
#include <string.h>

enum { BOOK_BYTES = 17, BOOK_MARK = 0x81 };

enum outcome { OPEN = 1, APPROVED, DECLINED, UNDONE };

struct purchase {
    enum outcome outcome;
    uint8_t ksn[DUKPT_KSN_BYTES];
    uint32_t amount; /* where it is open or approved */
    uint8_t code;    /* where it is declined */
};

static inline void write_book(const struct purchase *last, uint8_t book[BOOK_BYTES])
{
    int has_amount = last->outcome == OPEN || last->outcome == APPROVED;
    uint32_t amount = has_amount ? last->amount : 0;
    book[0] = BOOK_MARK;
    book[1] = (uint8_t)last->outcome;
    memcpy(book + 2, last->ksn, DUKPT_KSN_BYTES);
    for (int at = 0; at < 4; at++)
        book[12 + at] = (uint8_t)(amount >> (24 - 8 * at));
    book[16] = last->outcome == DECLINED ? last->code : 0;
}

static inline int is_declining(uint8_t code)
{
    return code == 14 || code == 30 || code == 51 || code == 55;
}

/* Gives whether the bytes are a book: those that would be written of the purchase in them, whose
 * number is one of a transaction. */
static inline int read_book(const uint8_t *book, size_t size, struct purchase *last)
{
    uint8_t again[BOOK_BYTES];
    if (size != BOOK_BYTES || book[1] < OPEN || book[1] > UNDONE)
        return 0;
    last->outcome = (enum outcome)book[1];
    memcpy(last->ksn, book + 2, DUKPT_KSN_BYTES);
    last->amount = 0;
    for (int at = 0; at < 4; at++)
        last->amount = last->amount << 8 | book[12 + at];
    last->code = book[16];
    write_book(last, again);
    return memcmp(again, book, BOOK_BYTES) == 0
           && (last->outcome != DECLINED || is_declining(last->code))
           && dukpt_check_usable(last->ksn, sizeof last->ksn) == DUKPT_OK;
}

#endif
