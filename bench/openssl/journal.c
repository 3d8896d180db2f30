/* The file of a journal, version 2: a header, and records of 32 bytes in groups, with check sums
   (docs/FORMATS.md). */
#include "journal.h"

#include <fcntl.h>
#include <stdio.h>
#include <stdlib.h>
#include <string.h>
#include <sys/file.h>
#include <sys/stat.h>
#include <unistd.h>

enum { RECORD = 32, BODY = RECORD - 1, PIECE = 2048, MOST_FOLLOWERS = 4095 };
/* In a header: what stands before the identity, that, and what the check sum is of. In a body: what the
   check sum is of. */
enum { FRONT = 16, IDENTITY = 8, HEADED = 28, SAID = 26, WORD = 8, CHECK = 4 };

static const uint8_t codes[] = {0, 14, 30, 51, 55};
static const uint8_t front[FRONT] = {0x01, 0xD5, 0x44, 0x55, 0x4B, 0x0D, 0x0A, 0x1A, 1, 2, [15] = RECORD};

static uint32_t remainders[256];

static void demand(int is_so)
{
    if (!is_so) {
        fputs("journal: failed\n", stderr);
        exit(1);
    }
}

/* CRC-32, a byte at a time. */
static void fill_remainders(void)
{
    for (uint32_t byte = 0; byte < 256; byte++) {
        uint32_t remainder = byte;
        for (int i = 0; i < 8; i++)
            remainder = remainder >> 1 ^ (remainder & 1 ? 0xEDB88320 : 0);
        remainders[byte] = remainder;
    }
}

static uint32_t crc32(const uint8_t *bytes, size_t length)
{
    uint32_t remainder = 0xFFFFFFFF;
    for (size_t i = 0; i < length; i++)
        remainder = remainder >> 8 ^ remainders[(remainder ^ bytes[i]) & 0xFF];
    return ~remainder;
}

static void write_number(uint64_t number, size_t length, uint8_t *bytes)
{
    for (size_t i = length; i-- > 0; number >>= 8)
        bytes[i] = (uint8_t)number;
}

/* The lowest byte of a check sum stands first. */
static void write_check(uint32_t check, uint8_t bytes[CHECK])
{
    for (int i = 0; i < CHECK; i++, check >>= 8)
        bytes[i] = (uint8_t)check;
}

/* Whether a record is the header of a journal. */
static int is_header(const uint8_t record[RECORD])
{
    uint8_t written[RECORD] = {0};
    memcpy(written, front, FRONT);
    memcpy(written + FRONT, record + FRONT, IDENTITY);
    write_check(crc32(written, HEADED), written + HEADED);
    return memcmp(written, record, RECORD) == 0;
}

/* The check sum of what the record of a place says. */
static uint32_t check_of(const struct journal *journal, size_t place, const uint8_t said[SAID])
{
    uint8_t checked[IDENTITY + WORD + SAID];
    memcpy(checked, journal->identity, IDENTITY);
    write_number(place, WORD, checked + IDENTITY);
    memcpy(checked + IDENTITY + WORD, said, SAID);
    return crc32(checked, sizeof checked);
}

/* The record behind so many entries, behind its gate. */
static void write_body(const struct journal *journal, size_t entries, const struct payment *payment,
                       size_t followers, uint8_t body[BODY])
{
    memset(body, 0, BODY);
    body[0] = 1;
    body[1] = (uint8_t)(followers >> 8);
    body[2] = (uint8_t)followers;
    memcpy(body + 3, payment->ksn, SERIAL);
    write_number(payment->amount, 4, body + 13);
    body[17] = payment->code;
    memcpy(body + 18, payment->mac, BLOCK);
    write_check(check_of(journal, 1 + entries, body), body + SAID);
}

/* The payment of the next record, of which so many follow in its group. */
static struct payment read_body(const struct journal *journal, const uint8_t body[BODY], size_t followers)
{
    struct payment payment = {.code = body[17]};
    uint8_t written[BODY];
    memcpy(payment.ksn, body + 3, SERIAL);
    memcpy(payment.mac, body + 18, BLOCK);
    for (int i = 0; i < 4; i++)
        payment.amount = payment.amount << 8 | body[13 + i];
    write_body(journal, journal->kept, &payment, followers, written);
    demand(memcmp(written, body, BODY) == 0 && memchr(codes, payment.code, sizeof codes) != NULL);
    return payment;
}

/* How many records of the group follow a record, of which so many were to follow the one before. */
static size_t take_record(const uint8_t record[RECORD], size_t following, struct journal *journal,
                          struct numbers *numbers, int *is_over)
{
    int is_open = record[0] == 1;
    demand(!(is_open && (following > 0 || *is_over)));
    *is_over = !is_open && following == 0;
    if (*is_over)
        return 0;
    size_t followers = is_open ? (size_t)record[2] << 8 | record[3] : 0;
    struct payment payment = read_body(journal, record + 1, followers);
    demand(followers <= MOST_FOLLOWERS && has_usable_counter(payment.ksn)
           && payment_with(numbers, payment.ksn) == NULL);
    add_payment(numbers, &payment);
    journal->kept++;
    return is_open ? followers : following - 1;
}

/* Reads the header, and then all records, in pieces of 64 KiB. */
struct journal open_journal(const char *path, struct numbers **numbers)
{
    static uint8_t piece[PIECE * RECORD];
    uint8_t header[RECORD];
    struct journal journal = {.file = open(path, O_RDWR | O_CLOEXEC)};
    struct stat stat;
    size_t following = 0;
    int is_over = 0;
    demand(journal.file >= 0 && flock(journal.file, LOCK_EX | LOCK_NB) == 0
           && fstat(journal.file, &stat) == 0 && stat.st_size > 0 && stat.st_size % RECORD == 0
           && fdatasync(journal.file) == 0);
    fill_remainders();
    demand(pread(journal.file, header, RECORD, 0) == RECORD && is_header(header));
    memcpy(journal.identity, header + FRONT, IDENTITY);
    journal.room = (size_t)stat.st_size / RECORD - 1;
    *numbers = new_numbers(journal.room);
    for (size_t at = 0; at < journal.room; at++) {
        size_t left = journal.room - at, in_piece = left < PIECE ? left : PIECE;
        if (at % PIECE == 0)
            demand(pread(journal.file, piece, in_piece * RECORD, (off_t)((1 + at) * RECORD))
                   == (ssize_t)(in_piece * RECORD));
        following = take_record(piece + at % PIECE * RECORD, following, &journal, *numbers, &is_over);
    }
    demand(following == 0);
    return journal;
}

/* Writes the records of a group behind their gates, one by one, and then opens the first. */
void append(struct journal *journal, const struct payment *group, size_t count)
{
    const uint8_t open_gate = 1;
    off_t first = (off_t)((1 + journal->kept) * RECORD);
    uint8_t body[BODY];
    for (size_t i = 0; i < count; i++) {
        write_body(journal, journal->kept + i, &group[i], i == 0 ? count - 1 : 0, body);
        demand(pwrite(journal->file, body, BODY, first + (off_t)(i * RECORD) + 1) == BODY);
    }
    demand(fdatasync(journal->file) == 0 && pwrite(journal->file, &open_gate, 1, first) == 1
           && fdatasync(journal->file) == 0);
    journal->kept += count;
}
