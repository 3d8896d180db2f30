/* libdukpt: TDES DUKPT (ANSI X9.24-1:2009 annex A), PIN blocks, MACs, key blocks and frames.
 *
 * Slices. A slice of bytes is a pointer and then its length in bytes, whose name ends with `_size`.
 * Beside each slice below stands its length. A slice that is read, or changed in place, has that
 * length exactly. A slice that is written has it at least.
 *
 * Room. A call writes the front of a slice, and the bytes behind that stay as they were. Where a
 * call writes as many bytes as it finds, the slice has room for the most that there may be, and a
 * number says how many were written.
 *
 * Pointers. No pointer is null, not even where the length is 0. What a call writes overlaps none of
 * its other arguments, not even in part: the compiled calls rely on it. What a call only reads may
 * overlap. GCC and clang warn of a null pointer, and GCC of an overlap, where they see it.
 *
 * Statuses. A call answers a number of `enum dukpt_status`: DUKPT_OK, or the first fault in the
 * order that stands beside the call. On a fault nothing is written. GCC and clang warn where a
 * status is not looked at. dukpt_version, dukpt_status_text, dukpt_wipe_stack and
 * dukpt_wipe_host_stack answer no status.
 *
 * Threads. No call has state of its own, takes memory, or calls the operating system. Calls may run
 * at once in any number of threads, as long as none writes what another one uses.
 *
 * Keys. Parity bits are neither checked nor adjusted. A call leaves keys and PINs on the stack:
 * dukpt_wipe_stack overwrites them, and dukpt_wipe_host_stack those of the two steps of a host. The
 * image of a security module and the cards of an issuer are the caller's, who overwrites them when
 * they are done with, with explicit_bzero or memset_s.
 *
 * Time. It is not proved, and not promised, that time tells nothing of a key. MACs are compared as
 * one number in every call, so that none ends early at a byte that differs. dukpt_derive_many and
 * dukpt_check_requests take no branch and no address that depends on a key: that is tested. The
 * other calls read tables at addresses that depend on keys. Where they compare no MAC and no PIN
 * block, they take no branch that depends on a key: that is tested too.
 *
 * Bits are numbered from the most significant. Numbers in bytes are big-endian.
 *
 * Example: the key of a key serial number, and its check value.
 *
 *     #include <dukpt.h>
 *     #include <stdio.h>
 *
 *     int main(void)
 *     {
 *         static const uint8_t bdk[DUKPT_KEY_BYTES] = {
 *             0x01, 0x23, 0x45, 0x67, 0x89, 0xAB, 0xCD, 0xEF,
 *             0xFE, 0xDC, 0xBA, 0x98, 0x76, 0x54, 0x32, 0x10,
 *         };
 *         static const uint8_t ksn[DUKPT_KSN_BYTES] = {
 *             0xFF, 0xFF, 0x98, 0x76, 0x54, 0x32, 0x10, 0xE0, 0x00, 0x01,
 *         };
 *         uint8_t key[DUKPT_KEY_BYTES], value[DUKPT_CHECK_VALUE_BYTES];
 *         if (dukpt_derive(bdk, sizeof bdk, ksn, sizeof ksn, key, sizeof key) != DUKPT_OK)
 *             return 1;
 *         if (dukpt_check_value(key, sizeof key, value, sizeof value) != DUKPT_OK)
 *             return 1;
 *         for (size_t i = 0; i < sizeof key; i++)
 *             printf("%02X", (unsigned)key[i]);
 *         printf(" %02X%02X%02X\n", (unsigned)value[0], (unsigned)value[1], (unsigned)value[2]);
 *         return 0;
 *     }
 *
 * It prints:
 *
 *     042666B49184CFA368DE9628D0397BC9 646E6C
 */
/* Frames. A request is a frame of this project's own, two bytes of length and the contents.
 *
 * Example: a terminal makes a request, and the host reads its PIN.
 *
 *     #include <dukpt.h>
 *     #include <stdio.h>
 *
 *     int main(void)
 *     {
 *         static const uint8_t key[DUKPT_KEY_BYTES] = {
 *             0x04, 0x26, 0x66, 0xB4, 0x91, 0x84, 0xCF, 0xA3,
 *             0x68, 0xDE, 0x96, 0x28, 0xD0, 0x39, 0x7B, 0xC9,
 *         };
 *         static const uint8_t ksn[DUKPT_KSN_BYTES] = {
 *             0xFF, 0xFF, 0x98, 0x76, 0x54, 0x32, 0x10, 0xE0, 0x00, 0x01,
 *         };
 *         static const uint8_t pan[] = {
 *             '4', '0', '1', '2', '3', '4', '5', '6', '7', '8', '9', '0', '9',
 *         };
 *         static const uint8_t pin[] = {'1', '2', '3', '4'};
 *         uint8_t frame[DUKPT_FRAME_ROOM], found[DUKPT_PIN_ROOM];
 *         uint32_t length, digits, status;
 *         status = dukpt_payment_request(key, sizeof key, ksn, sizeof ksn, pan, sizeof pan,
 *                                        pin, sizeof pin, 1, frame, sizeof frame, &length);
 *         if (status != DUKPT_OK)
 *             return 1;
 *         if (dukpt_check_request(key, sizeof key, frame, length) != DUKPT_OK)
 *             return 1;
 *         if (dukpt_request_pin(key, sizeof key, frame, length, found, sizeof found, &digits)
 *             != DUKPT_OK)
 *             return 1;
 *         printf("%u bytes, PIN %.*s\n", (unsigned)length, (int)digits, (const char *)found);
 *         frame[31] ^= 1;
 *         status = dukpt_check_request(key, sizeof key, frame, length);
 *         printf("%d\n", status == DUKPT_FAULT_BAD_MAC);
 *         return 0;
 *     }
 *
 * It prints:
 *
 *     48 bytes, PIN 1234
 *     1
 */
/* A reversal is a frame too, under a number of its own.
 *
 * Example: a terminal reverses the payment above, and the host says that it is undone.
 *
 *     #include <dukpt.h>
 *     #include <stdio.h>
 *
 *     int main(void)
 *     {
 *         static const uint8_t key[DUKPT_KEY_BYTES] = {
 *             0xC4, 0x65, 0x51, 0xCE, 0xF9, 0xFD, 0x24, 0xB0,
 *             0xAA, 0x9A, 0xD8, 0x34, 0x13, 0x0D, 0x3B, 0xC7,
 *         };
 *         static const uint8_t ksn[DUKPT_KSN_BYTES] = {
 *             0xFF, 0xFF, 0x98, 0x76, 0x54, 0x32, 0x10, 0xE0, 0x00, 0x02,
 *         };
 *         static const uint8_t paid[DUKPT_KSN_BYTES] = {
 *             0xFF, 0xFF, 0x98, 0x76, 0x54, 0x32, 0x10, 0xE0, 0x00, 0x01,
 *         };
 *         uint8_t frame[DUKPT_FRAME_ROOM], reply[DUKPT_FRAME_ROOM];
 *         uint32_t length, reply_length, status;
 *         status = dukpt_reversal_request(key, sizeof key, ksn, sizeof ksn, paid, sizeof paid,
 *                                         frame, sizeof frame, &length);
 *         if (status != DUKPT_OK)
 *             return 1;
 *         if (dukpt_check_reversal(key, sizeof key, frame, length) != DUKPT_OK)
 *             return 1;
 *         status = dukpt_reversal_reply(key, sizeof key, ksn, sizeof ksn, paid, sizeof paid, 1,
 *                                       reply, sizeof reply, &reply_length);
 *         if (status != DUKPT_OK)
 *             return 1;
 *         status = dukpt_check_reversal_reply(key, sizeof key, ksn, sizeof ksn, paid, sizeof paid,
 *                                             reply, reply_length);
 *         printf("%u and %u bytes: %s\n", (unsigned)length, (unsigned)reply_length,
 *                dukpt_status_text(status));
 *         status = dukpt_reversal_request(key, sizeof key, ksn, sizeof ksn, ksn, sizeof ksn,
 *                                         frame, sizeof frame, &length);
 *         printf("%s\n", dukpt_status_text(status));
 *         return 0;
 *     }
 *
 * It prints:
 *
 *     32 and 33 bytes: the call is done
 *     the key serial number cannot reverse the other one
 */
#ifndef DUKPT_H
#define DUKPT_H

#include <stddef.h>
#include <stdint.h>

/* The version of this header. DUKPT_VERSION is what dukpt_version gives for it. */
#define DUKPT_VERSION_MAJOR 0
#define DUKPT_VERSION_MINOR 1
#define DUKPT_VERSION_PATCH 0
#define DUKPT_VERSION_TEXT "0.1.0"
#define DUKPT_VERSION \
    (DUKPT_VERSION_MAJOR * 0x10000 + DUKPT_VERSION_MINOR * 0x100 + DUKPT_VERSION_PATCH)

/* Lengths in bytes. A ROOM is the most that a call writes or reads. */
#define DUKPT_KEY_BYTES 16             /* a key of the key tree, a TDES key of two DES keys */
#define DUKPT_TRIPLE_KEY_BYTES 24      /* a TDES key of three DES keys */
#define DUKPT_KSN_BYTES 10             /* a key serial number */
#define DUKPT_BLOCK_BYTES 8            /* a block of TDES, a PIN block, an initial vector */
#define DUKPT_MAC_BYTES 8              /* a CMAC, a retail MAC */
#define DUKPT_CHECK_VALUE_BYTES 3      /* a check value */
#define DUKPT_CMAC_CHECK_VALUE_BYTES 5 /* a check value by CMAC */
#define DUKPT_IMAGE_BYTES 431          /* the image of a terminal, version 2 */
#define DUKPT_IMAGE_1_BYTES 350        /* an image of version 1, which is read and not written */
#define DUKPT_PIN_LEAST 4              /* the digits of a PIN, from .. */
#define DUKPT_PIN_ROOM 12              /* .. to */
#define DUKPT_PAN_LEAST 12             /* the digits of a PAN, from .. */
#define DUKPT_PAN_ROOM 19              /* .. to */
#define DUKPT_HEADER_BYTES 7           /* the fields of a key block's header */
#define DUKPT_USAGE_BYTES 2            /* the usage in a key block's header */
#define DUKPT_KEY_BLOCK_LEAST 80       /* the characters of a key block, from .. */
#define DUKPT_KEY_BLOCK_ROOM 512       /* .. to */
#define DUKPT_OPTIONAL_ID_BYTES 2      /* the id of an optional block */
#define DUKPT_OPTIONAL_ROOM 251        /* the content of an optional block */
#define DUKPT_CODE_BYTES 2             /* the code of a reply */
#define DUKPT_FRAME_ROOM 64            /* a frame with the two bytes of its length */
#define DUKPT_MODULE_BYTES 4706        /* the image of a security module */
#define DUKPT_PREFIX_BYTES 5           /* the bytes with which the numbers of a key set begin */
#define DUKPT_CARD_BYTES 37            /* a card for dukpt_host_judge */
#define DUKPT_JUDGED_BYTES 64          /* what is judged, settled or answered of a frame */

/* How many bytes of the stack below its caller a call uses at most. It is measured, not proved.
 * dukpt_host_judge and dukpt_host_answer use the second number at most, and all others the first:
 * dukpt_derive_many and dukpt_check_requests most of it, and the rest 16384. */
#define DUKPT_STACK_BYTES 81920
#define DUKPT_HOST_STACK_BYTES 409600

/* What GCC and clang are told of a call: that its status is to be looked at, that no pointer is
 * null, and that no other argument reaches what it writes. */
#if defined(__GNUC__)
#define DUKPT_STATUS __attribute__((warn_unused_result))
#define DUKPT_NONNULL __attribute__((nonnull))
#define DUKPT_OUT __restrict
#else
#define DUKPT_STATUS
#define DUKPT_NONNULL
#define DUKPT_OUT
#endif

/* What a call answers. A number does not change any more. */
enum dukpt_status {
    DUKPT_OK = 0,                          /* the call is done */
    DUKPT_FAULT_LENGTH = 1,                /* a value has another length than the call takes */
    DUKPT_FAULT_NOT_INITIAL = 2,           /* the counter of an initial key serial number is not
                                              zero */
    DUKPT_FAULT_NOT_USABLE = 3,            /* the counter numbers no transaction: it is zero or has
                                              more than ten one bits */
    DUKPT_FAULT_SPENT = 4,                 /* no number is left */
    DUKPT_FAULT_NOT_AN_IMAGE = 5,          /* the bytes are no image of a terminal */
    DUKPT_FAULT_IKSN_SPENT = 6,            /* the initial key serial number is the terminal's own,
                                              or one that it had before */
    DUKPT_FAULT_LOADS_SPENT = 7,           /* the terminal had eight initial key serial numbers
                                              before its own */
    DUKPT_FAULT_PIN_LENGTH = 8,            /* the PIN has fewer than 4 or more than 12 bytes */
    DUKPT_FAULT_PIN_DIGIT = 9,             /* a byte of the PIN is no ASCII digit */
    DUKPT_FAULT_PAN_LENGTH = 10,           /* the PAN has fewer than 12 or more than 19 bytes */
    DUKPT_FAULT_PAN_DIGIT = 11,            /* a byte of the PAN is no ASCII digit */
    DUKPT_FAULT_NOT_A_PIN_BLOCK = 12,      /* the block is no PIN block of this PAN */
    DUKPT_FAULT_BLOCK_LENGTH = 13,         /* the key block has not 80 to 512 characters, a multiple
                                              of 8, or says another length */
    DUKPT_FAULT_BLOCK_VERSION = 14,        /* the first character of a key block is not B */
    DUKPT_FAULT_BLOCK_HEADER_FIELD = 15,   /* a header field cannot be printed, or the number of
                                              optional blocks is not two digits */
    DUKPT_FAULT_BLOCK_OPTIONAL_BLOCK = 16, /* optional blocks do not fit, are over 99 or
                                              unprintable, or no key and MAC follow */
    DUKPT_FAULT_BLOCK_HEX = 17,            /* a character after the optional blocks is no
                                              hexadecimal digit */
    DUKPT_FAULT_BLOCK_MAC = 18,            /* the MAC is not that of the key block */
    DUKPT_FAULT_BLOCK_PAYLOAD = 19,        /* the key's length is neither 128 nor 192 bits, or the
                                              payload is too short for it */
    DUKPT_FAULT_BLOCK_PAD_LENGTH = 20,     /* the payload would be no whole blocks, or the text
                                              longer than 512 characters */
    DUKPT_FAULT_NOT_A_REQUEST = 21,        /* the bytes are no request's frame */
    DUKPT_FAULT_NOT_A_REPLY = 22,          /* the bytes are no accepted reply's frame */
    DUKPT_FAULT_NOT_A_REFUSAL = 23,        /* the bytes are no refusal's frame */
    DUKPT_FAULT_NOT_A_CODE = 24,           /* the two bytes are no code of a reply: 00, 14, 30, 51
                                              or 55 */
    DUKPT_FAULT_NOT_A_REASON = 25,         /* the reason of a refusal is none of 1 to 6 */
    DUKPT_FAULT_NOT_MINE = 26,             /* the reply is to another key serial number */
    DUKPT_FAULT_BAD_MAC = 27,              /* the MAC is not that of the frame */
    DUKPT_FAULT_PART_OF_FRAME = 28,        /* fewer than the two bytes of a frame's length are
                                              there */
    DUKPT_FAULT_TOO_LONG = 29,             /* a length above 62 stands where a frame would begin */
    DUKPT_FAULT_NOT_REVERSED = 30,         /* the key serial number cannot reverse the other one */
    DUKPT_FAULT_NOT_A_REVERSAL = 31,       /* the bytes are no reversal's frame */
    DUKPT_FAULT_NOT_A_STATE = 32,          /* the state of a reversal is neither 1 nor 0 */
    DUKPT_FAULT_NOT_A_REVERSAL_REPLY = 33, /* the bytes are no frame of a reversal's reply */
    DUKPT_FAULT_OTHER_USAGE = 34,          /* the key in the key block has another usage, or is no
                                              TDES key */
    DUKPT_FAULT_OTHER_KEY_LENGTH = 35,     /* the key in the key block has another length */
    DUKPT_FAULT_NO_OPTIONAL_BLOCK = 36,    /* the key block has no optional block with this id */
    DUKPT_FAULT_NOT_A_MODULE = 37,         /* the bytes are no image of a security module */
    DUKPT_FAULT_WRONG_USE = 38,            /* the key block's usage, algorithm, mode or key length
                                              is that of another key */
    DUKPT_FAULT_PREFIX_TAKEN = 39,         /* the module has a base derivation key for this
                                              prefix */
    DUKPT_FAULT_SLOTS_FULL = 40,           /* the module has eight base derivation keys */
    DUKPT_FAULT_ZONE_TAKEN = 41,           /* the module has a zone key */
    DUKPT_FAULT_NO_ZONE = 42,              /* the module has no zone key */
    DUKPT_FAULT_NOT_A_CARD = 43,           /* a place among the cards has no PAN or no PIN */
    DUKPT_FAULT_NOT_SETTLED = 44,          /* the bytes are no payment and no reversal with what
                                              became of it */
    DUKPT_FAULT_NO_KEY_SET = 45            /* the module has no base derivation key for the prefix
                                              of the key serial number */
};

#ifdef __cplusplus
extern "C" {
#endif

/* Gives the version of the library: major, minor and patch, a byte each, from the third byte down.
 * It has no faults. */
uint32_t dukpt_version(void);

/* Gives a sentence in English that says what a status means, as `the MAC is not that of the frame`;
 * `unknown status` for a number that is none. The text ends with a zero byte, and stays. */
const char *dukpt_status_text(uint32_t status);

/* Overwrites the stack below its caller, DUKPT_STACK_BYTES deep: what calls may have left of keys
 * and PINs. The function that made the calls calls it, in the same thread. From another one it
 * reaches less deep, by the frames that lie between. It does not overwrite the caller's own
 * arrays, and not all that dukpt_host_judge and dukpt_host_answer leave. */
void dukpt_wipe_stack(void);

/* The same, DUKPT_HOST_STACK_BYTES deep: what dukpt_host_judge and dukpt_host_answer may have left
 * too. It needs as much of the stack as they do. */
void dukpt_wipe_host_stack(void);

/* The calls: made of library/calls.toml by `tools/library --make`. */

/* Keys of the key tree (ANSI X9.24-1:2009 annex A). */

/* Writes the initial key (IPEK) of an initial key serial number.
 *
 *   bdk    in   16  base derivation key
 *   iksn   in   10  initial key serial number: its counter, the last 21 bits, is zero
 *   key    out  16  initial key
 *
 * Answers, in this order: DUKPT_FAULT_LENGTH; DUKPT_FAULT_NOT_INITIAL; DUKPT_OK. */
DUKPT_STATUS uint32_t dukpt_initial_key(const uint8_t *bdk, size_t bdk_size,
                                        const uint8_t *iksn, size_t iksn_size,
                                        uint8_t *DUKPT_OUT key, size_t key_size)
    DUKPT_NONNULL;

/* Writes the transaction key of a key serial number under the base derivation key. The counter may
 * be any: zero gives the initial key. dukpt_check_usable tells whether it numbers a transaction.
 *
 *   bdk   in   16  base derivation key
 *   ksn   in   10  key serial number
 *   key   out  16  transaction key
 *
 * Answers, in this order: DUKPT_FAULT_LENGTH; DUKPT_OK. */
DUKPT_STATUS uint32_t dukpt_derive(const uint8_t *bdk, size_t bdk_size,
                                   const uint8_t *ksn, size_t ksn_size,
                                   uint8_t *DUKPT_OUT key, size_t key_size)
    DUKPT_NONNULL;

/* Writes the transaction keys of key serial numbers under one base derivation key, each at the
 * place of its number. The counters may be any, as those of dukpt_derive: this gives the same keys,
 * and makes many of them in less time.
 *
 *   bdk    in   16                      base derivation key
 *   ksns   in   a multiple of 10        key serial numbers, one after the other
 *   keys   out  16 for each 10 of ksns  transaction keys, in the order of the numbers
 *
 * Answers, in this order: DUKPT_FAULT_LENGTH; DUKPT_OK. */
DUKPT_STATUS uint32_t dukpt_derive_many(const uint8_t *bdk, size_t bdk_size,
                                        const uint8_t *ksns, size_t ksns_size,
                                        uint8_t *DUKPT_OUT keys, size_t keys_size)
    DUKPT_NONNULL;

/* Writes the transaction key of a key serial number under the initial key of its terminal. The
 * counter may be any: zero gives the initial key.
 *
 *   initial   in   16  initial key
 *   ksn       in   10  key serial number
 *   key       out  16  transaction key
 *
 * Answers, in this order: DUKPT_FAULT_LENGTH; DUKPT_OK. */
DUKPT_STATUS uint32_t dukpt_derive_from_initial(const uint8_t *initial, size_t initial_size,
                                                const uint8_t *ksn, size_t ksn_size,
                                                uint8_t *DUKPT_OUT key, size_t key_size)
    DUKPT_NONNULL;

/* Writes the variant of a transaction key that enciphers PIN blocks.
 *
 *   key       in   16  transaction key
 *   variant   out  16  the key, both halves xored with 00000000000000FF
 *
 * Answers, in this order: DUKPT_FAULT_LENGTH; DUKPT_OK. */
DUKPT_STATUS uint32_t dukpt_pin_key(const uint8_t *key, size_t key_size,
                                    uint8_t *DUKPT_OUT variant, size_t variant_size)
    DUKPT_NONNULL;

/* Writes the variant of a transaction key that makes the MACs of requests.
 *
 *   key       in   16  transaction key
 *   variant   out  16  the key, both halves xored with 000000000000FF00
 *
 * Answers, in this order: DUKPT_FAULT_LENGTH; DUKPT_OK. */
DUKPT_STATUS uint32_t dukpt_request_key(const uint8_t *key, size_t key_size,
                                        uint8_t *DUKPT_OUT variant, size_t variant_size)
    DUKPT_NONNULL;

/* Writes the variant of a transaction key that makes the MACs of replies.
 *
 *   key       in   16  transaction key
 *   variant   out  16  the key, both halves xored with 00000000FF000000
 *
 * Answers, in this order: DUKPT_FAULT_LENGTH; DUKPT_OK. */
DUKPT_STATUS uint32_t dukpt_response_key(const uint8_t *key, size_t key_size,
                                         uint8_t *DUKPT_OUT variant, size_t variant_size)
    DUKPT_NONNULL;

/* Writes the key of a transaction that enciphers the data of its request, or of both ways (ANSI
 * X9.24-1:2009 annex A.4.1).
 *
 *   key       in   16  transaction key
 *   variant   out  16  both halves of the key xored with 0000000000FF0000, then each enciphered
 *                      under both
 *
 * Answers, in this order: DUKPT_FAULT_LENGTH; DUKPT_OK. */
DUKPT_STATUS uint32_t dukpt_request_data_key(const uint8_t *key, size_t key_size,
                                             uint8_t *DUKPT_OUT variant, size_t variant_size)
    DUKPT_NONNULL;

/* Writes the key of a transaction that enciphers the data of its reply (ANSI X9.24-1:2009 annex
 * A.4.1).
 *
 *   key       in   16  transaction key
 *   variant   out  16  both halves of the key xored with 000000FF00000000, then each enciphered
 *                      under both
 *
 * Answers, in this order: DUKPT_FAULT_LENGTH; DUKPT_OK. */
DUKPT_STATUS uint32_t dukpt_response_data_key(const uint8_t *key, size_t key_size,
                                              uint8_t *DUKPT_OUT variant, size_t variant_size)
    DUKPT_NONNULL;

/* Key serial numbers, in the order in which a terminal uses them (ANSI X9.24-1:2009 annex A). */

/* Tells whether a key serial number numbers a transaction: its counter has one to ten one bits. It
 * writes nothing.
 *
 *   ksn   in  10  key serial number
 *
 * Answers, in this order: DUKPT_FAULT_LENGTH; DUKPT_FAULT_NOT_USABLE; DUKPT_OK. */
DUKPT_STATUS uint32_t dukpt_check_usable(const uint8_t *ksn, size_t ksn_size)
    DUKPT_NONNULL;

/* Writes the key serial number that a terminal uses after this one: that with the least usable
 * counter above its own. The counter may be any.
 *
 *   ksn    in   10  key serial number
 *   next   out  10  the next one
 *
 * Answers, in this order: DUKPT_FAULT_LENGTH; DUKPT_FAULT_SPENT; DUKPT_OK. */
DUKPT_STATUS uint32_t dukpt_next_number(const uint8_t *ksn, size_t ksn_size,
                                        uint8_t *DUKPT_OUT next, size_t next_size)
    DUKPT_NONNULL;

/* Check values of keys (ANSI X9.24-1:2017 annex A). */

/* Writes the check value (KCV) of a key: the first bytes of a block of zeros, enciphered.
 *
 *   key     in   16 or 24  TDES key
 *   value   out  3         check value
 *
 * Answers, in this order: DUKPT_FAULT_LENGTH; DUKPT_OK. */
DUKPT_STATUS uint32_t dukpt_check_value(const uint8_t *key, size_t key_size,
                                        uint8_t *DUKPT_OUT value, size_t value_size)
    DUKPT_NONNULL;

/* Writes the check value by CMAC of a key: the first bytes of the CMAC of a block of zeros.
 *
 *   key     in   16 or 24  TDES key
 *   value   out  5         check value
 *
 * Answers, in this order: DUKPT_FAULT_LENGTH; DUKPT_OK. */
DUKPT_STATUS uint32_t dukpt_cmac_check_value(const uint8_t *key, size_t key_size,
                                             uint8_t *DUKPT_OUT value, size_t value_size)
    DUKPT_NONNULL;

/* The registers of a terminal, each call from image to image (ANSI X9.24-1:2009 annex A). An image
 * is a format of this project: version 2 has 431 bytes. Version 1, of 350 bytes, is read too, and
 * not written. */

/* Writes the image of a terminal that has used no number yet.
 *
 *   initial   in   16   initial key
 *   iksn      in   10   initial key serial number: its counter, the last 21 bits, is zero
 *   image     out  431  image
 *
 * Answers, in this order: DUKPT_FAULT_LENGTH; DUKPT_FAULT_NOT_INITIAL; DUKPT_OK. */
DUKPT_STATUS uint32_t dukpt_registers_load(const uint8_t *initial, size_t initial_size,
                                           const uint8_t *iksn, size_t iksn_size,
                                           uint8_t *DUKPT_OUT image, size_t image_size)
    DUKPT_NONNULL;

/* Writes the image of a terminal whose next key serial number is this one: what
 * dukpt_registers_load and then dukpt_registers_next for each number before it leave.
 *
 *   initial   in   16   initial key
 *   ksn       in   10   the next key serial number
 *   image     out  431  image
 *
 * Answers, in this order: DUKPT_FAULT_LENGTH; DUKPT_FAULT_NOT_USABLE; DUKPT_OK. */
DUKPT_STATUS uint32_t dukpt_registers_at(const uint8_t *initial, size_t initial_size,
                                         const uint8_t *ksn, size_t ksn_size,
                                         uint8_t *DUKPT_OUT image, size_t image_size)
    DUKPT_NONNULL;

/* Writes the key serial number that a terminal with this image uses next.
 *
 *   image   in   431 or 350  image; another length is DUKPT_FAULT_NOT_AN_IMAGE
 *   ksn     out  10          the next key serial number
 *
 * Answers, in this order: DUKPT_FAULT_LENGTH; DUKPT_FAULT_NOT_AN_IMAGE; DUKPT_FAULT_SPENT;
 * DUKPT_OK. */
DUKPT_STATUS uint32_t dukpt_registers_number(const uint8_t *image, size_t image_size,
                                             uint8_t *DUKPT_OUT ksn, size_t ksn_size)
    DUKPT_NONNULL;

/* Uses the next number of a terminal. The next image is to be stored before the key is used, so
 * that no stop brings the key back. The next image does not overlap the image: copy it afterwards.
 *
 *   image        in   431 or 350  image; another length is DUKPT_FAULT_NOT_AN_IMAGE
 *   next_image   out  431         the image afterwards
 *   key          out  16          transaction key
 *   ksn          out  10          its key serial number
 *
 * Answers, in this order: DUKPT_FAULT_LENGTH; DUKPT_FAULT_NOT_AN_IMAGE; DUKPT_FAULT_SPENT;
 * DUKPT_OK. */
DUKPT_STATUS uint32_t dukpt_registers_next(const uint8_t *image, size_t image_size,
                                           uint8_t *DUKPT_OUT next_image, size_t next_image_size,
                                           uint8_t *DUKPT_OUT key, size_t key_size,
                                           uint8_t *DUKPT_OUT ksn, size_t ksn_size)
    DUKPT_NONNULL;

/* Gives a terminal another initial key under another initial key serial number. The image keeps up
 * to eight earlier ones, and none of them comes again.
 *
 *   image        in   431 or 350  image; another length is DUKPT_FAULT_NOT_AN_IMAGE
 *   initial      in   16          initial key
 *   iksn         in   10          initial key serial number: its counter, the last 21 bits, is zero
 *   next_image   out  431         the image afterwards
 *
 * Answers, in this order: DUKPT_FAULT_LENGTH; DUKPT_FAULT_NOT_INITIAL; DUKPT_FAULT_NOT_AN_IMAGE;
 * DUKPT_FAULT_IKSN_SPENT; DUKPT_FAULT_LOADS_SPENT; DUKPT_OK. */
DUKPT_STATUS uint32_t dukpt_registers_reload(const uint8_t *image, size_t image_size,
                                             const uint8_t *initial, size_t initial_size,
                                             const uint8_t *iksn, size_t iksn_size,
                                             uint8_t *DUKPT_OUT next_image, size_t next_image_size)
    DUKPT_NONNULL;

/* TDES, on a block (NIST SP 800-67 section 3) and in cipher block chaining (NIST SP 800-38A section
 * 6.2). */

/* Enciphers a block in place.
 *
 *   key     in      16 or 24  TDES key
 *   block   in out  8         block
 *
 * Answers, in this order: DUKPT_FAULT_LENGTH; DUKPT_OK. */
DUKPT_STATUS uint32_t dukpt_tdes_encrypt(const uint8_t *key, size_t key_size,
                                         uint8_t *DUKPT_OUT block, size_t block_size)
    DUKPT_NONNULL;

/* Deciphers a block in place.
 *
 *   key     in      16 or 24  TDES key
 *   block   in out  8         block
 *
 * Answers, in this order: DUKPT_FAULT_LENGTH; DUKPT_OK. */
DUKPT_STATUS uint32_t dukpt_tdes_decrypt(const uint8_t *key, size_t key_size,
                                         uint8_t *DUKPT_OUT block, size_t block_size)
    DUKPT_NONNULL;

/* Enciphers whole blocks in place by CBC.
 *
 *   key     in      16 or 24         TDES key
 *   iv      in      8                initial vector
 *   bytes   in out  a multiple of 8  blocks, perhaps none
 *
 * Answers, in this order: DUKPT_FAULT_LENGTH; DUKPT_OK. */
DUKPT_STATUS uint32_t dukpt_cbc_encrypt(const uint8_t *key, size_t key_size,
                                        const uint8_t *iv, size_t iv_size,
                                        uint8_t *DUKPT_OUT bytes, size_t bytes_size)
    DUKPT_NONNULL;

/* Deciphers whole blocks in place by CBC.
 *
 *   key     in      16 or 24         TDES key
 *   iv      in      8                initial vector
 *   bytes   in out  a multiple of 8  blocks, perhaps none
 *
 * Answers, in this order: DUKPT_FAULT_LENGTH; DUKPT_OK. */
DUKPT_STATUS uint32_t dukpt_cbc_decrypt(const uint8_t *key, size_t key_size,
                                        const uint8_t *iv, size_t iv_size,
                                        uint8_t *DUKPT_OUT bytes, size_t bytes_size)
    DUKPT_NONNULL;

/* MACs: CMAC (NIST SP 800-38B) and the retail MAC (ANSI X9.19). */

/* Writes the CMAC of a message.
 *
 *   key       in   16 or 24  TDES key
 *   message   in   any       message, perhaps empty
 *   mac       out  8         CMAC
 *
 * Answers, in this order: DUKPT_FAULT_LENGTH; DUKPT_OK. */
DUKPT_STATUS uint32_t dukpt_cmac(const uint8_t *key, size_t key_size,
                                 const uint8_t *message, size_t message_size,
                                 uint8_t *DUKPT_OUT mac, size_t mac_size)
    DUKPT_NONNULL;

/* Writes the retail MAC of a message, which is filled with zero bytes to whole blocks.
 *
 *   key       in   16         TDES key
 *   message   in   1 or more  message
 *   mac       out  8          retail MAC
 *
 * Answers, in this order: DUKPT_FAULT_LENGTH; DUKPT_OK. */
DUKPT_STATUS uint32_t dukpt_retail_mac(const uint8_t *key, size_t key_size,
                                       const uint8_t *message, size_t message_size,
                                       uint8_t *DUKPT_OUT mac, size_t mac_size)
    DUKPT_NONNULL;

/* PIN blocks (ISO 9564-1 format 0). PIN and PAN are ASCII digits, without a zero byte at their end.
 * The check digit of a PAN is not verified. */

/* Writes the PIN block of a PIN and a PAN, in clear.
 *
 *   pin     in   4 to 12   PIN; another length is DUKPT_FAULT_PIN_LENGTH
 *   pan     in   12 to 19  PAN; another length is DUKPT_FAULT_PAN_LENGTH
 *   block   out  8         PIN block
 *
 * Answers, in this order: DUKPT_FAULT_LENGTH; DUKPT_FAULT_PIN_LENGTH; DUKPT_FAULT_PIN_DIGIT;
 * DUKPT_FAULT_PAN_LENGTH; DUKPT_FAULT_PAN_DIGIT; DUKPT_OK. */
DUKPT_STATUS uint32_t dukpt_pin_block(const uint8_t *pin, size_t pin_size,
                                      const uint8_t *pan, size_t pan_size,
                                      uint8_t *DUKPT_OUT block, size_t block_size)
    DUKPT_NONNULL;

/* Writes the PIN of a PIN block in clear, under a PAN.
 *
 *   block        in   8         PIN block
 *   pan          in   12 to 19  PAN; another length is DUKPT_FAULT_PAN_LENGTH
 *   pin          out  12        room for a PIN
 *   pin_length   out            how many digits the PIN has, 4 to 12
 *
 * Answers, in this order: DUKPT_FAULT_LENGTH; DUKPT_FAULT_PAN_LENGTH; DUKPT_FAULT_PAN_DIGIT;
 * DUKPT_FAULT_NOT_A_PIN_BLOCK; DUKPT_OK. */
DUKPT_STATUS uint32_t dukpt_pin_of_block(const uint8_t *block, size_t block_size,
                                         const uint8_t *pan, size_t pan_size,
                                         uint8_t *DUKPT_OUT pin, size_t pin_size,
                                         uint32_t *DUKPT_OUT pin_length)
    DUKPT_NONNULL;

/* Key blocks (ANSI X9.143, version B). */

/* Writes the key block of a key, without optional blocks. The text does not end with a zero byte.
 * Take random padding, anew each time, of the system's generator: dukpt_wrap has none. With zeros
 * or other fixed bytes equal keys have equal texts, and whoever sees two texts can tell.
 *
 *   kbpk          in   16 or 24  key block protection key
 *   header        in   7         characters: usage (2), algorithm, mode of use, key version (2),
 *                                exportability
 *   key           in   16 or 24  TDES key
 *   padding       in   any       random bytes behind the key: 6 and a multiple of 8 fit
 *   text          out  512       room for a key block
 *   text_length   out            how many characters it has
 *
 * Answers, in this order: DUKPT_FAULT_LENGTH; DUKPT_FAULT_BLOCK_HEADER_FIELD;
 * DUKPT_FAULT_BLOCK_PAD_LENGTH; DUKPT_OK. */
DUKPT_STATUS uint32_t dukpt_wrap(const uint8_t *kbpk, size_t kbpk_size,
                                 const uint8_t *header, size_t header_size,
                                 const uint8_t *key, size_t key_size,
                                 const uint8_t *padding, size_t padding_size,
                                 uint8_t *DUKPT_OUT text, size_t text_size,
                                 uint32_t *DUKPT_OUT text_length)
    DUKPT_NONNULL;

/* Writes the key block of a key, with optional blocks as they stand in the text: an id of two
 * characters, the length in two hexadecimal digits, with these four characters, and the content.
 * Those are DUKPT_FAULT_BLOCK_OPTIONAL_BLOCK that are more than 99, are no multiple of 8 in all, or
 * have a character that cannot be printed. The padding is random, as that of dukpt_wrap. The text
 * does not end with a zero byte.
 *
 *   kbpk          in   16 or 24  key block protection key
 *   header        in   7         characters: usage (2), algorithm, mode of use, key version (2),
 *                                exportability
 *   optional      in   any       at most 99 optional blocks, one behind another: a multiple of 8
 *                                printable characters
 *   key           in   16 or 24  TDES key
 *   padding       in   any       random bytes behind the key: 6 and a multiple of 8 fit
 *   text          out  512       room for a key block
 *   text_length   out            how many characters it has
 *
 * Answers, in this order: DUKPT_FAULT_LENGTH; DUKPT_FAULT_BLOCK_HEADER_FIELD;
 * DUKPT_FAULT_BLOCK_OPTIONAL_BLOCK; DUKPT_FAULT_BLOCK_PAD_LENGTH; DUKPT_OK. */
DUKPT_STATUS uint32_t dukpt_wrap_with(const uint8_t *kbpk, size_t kbpk_size,
                                      const uint8_t *header, size_t header_size,
                                      const uint8_t *optional, size_t optional_size,
                                      const uint8_t *key, size_t key_size,
                                      const uint8_t *padding, size_t padding_size,
                                      uint8_t *DUKPT_OUT text, size_t text_size,
                                      uint32_t *DUKPT_OUT text_length)
    DUKPT_NONNULL;

/* Writes the header and the key of a key block. Optional blocks are passed over.
 *
 *   kbpk         in   16 or 24  key block protection key
 *   text         in   any       key block; a length that none has is DUKPT_FAULT_BLOCK_LENGTH
 *   header       out  7         characters: usage (2), algorithm, mode of use, key version (2),
 *                               exportability
 *   key          out  24        room for a key
 *   key_length   out            how many bytes it has, 16 or 24
 *
 * Answers, in this order: DUKPT_FAULT_LENGTH; DUKPT_FAULT_BLOCK_LENGTH; DUKPT_FAULT_BLOCK_VERSION;
 * DUKPT_FAULT_BLOCK_HEADER_FIELD; DUKPT_FAULT_BLOCK_OPTIONAL_BLOCK; DUKPT_FAULT_BLOCK_HEX;
 * DUKPT_FAULT_BLOCK_MAC; DUKPT_FAULT_BLOCK_PAYLOAD; DUKPT_OK. */
DUKPT_STATUS uint32_t dukpt_unwrap(const uint8_t *kbpk, size_t kbpk_size,
                                   const uint8_t *text, size_t text_size,
                                   uint8_t *DUKPT_OUT header, size_t header_size,
                                   uint8_t *DUKPT_OUT key, size_t key_size,
                                   uint32_t *DUKPT_OUT key_length)
    DUKPT_NONNULL;

/* Writes the key of a key block that is for one usage, is a TDES key (algorithm T), and has one
 * length. The mode of use is not compared: the header tells it, which dukpt_unwrap writes. Optional
 * blocks are passed over.
 *
 *   kbpk     in   16 or 24  key block protection key
 *   usage    in   2         characters: the usage that the key has to have
 *   wanted   in             how many bytes the key has to have: 16 or 24, and else
 *                           DUKPT_FAULT_LENGTH
 *   text     in   any       key block; a length that none has is DUKPT_FAULT_BLOCK_LENGTH
 *   key      out  24        room for a key, of which as many bytes are written as are wanted
 *
 * Answers, in this order: DUKPT_FAULT_LENGTH; DUKPT_FAULT_BLOCK_LENGTH; DUKPT_FAULT_BLOCK_VERSION;
 * DUKPT_FAULT_BLOCK_HEADER_FIELD; DUKPT_FAULT_BLOCK_OPTIONAL_BLOCK; DUKPT_FAULT_BLOCK_HEX;
 * DUKPT_FAULT_BLOCK_MAC; DUKPT_FAULT_BLOCK_PAYLOAD; DUKPT_FAULT_OTHER_USAGE;
 * DUKPT_FAULT_OTHER_KEY_LENGTH; DUKPT_OK. */
DUKPT_STATUS uint32_t dukpt_unwrap_for(const uint8_t *kbpk, size_t kbpk_size,
                                       const uint8_t *usage, size_t usage_size, uint32_t wanted,
                                       const uint8_t *text, size_t text_size,
                                       uint8_t *DUKPT_OUT key, size_t key_size)
    DUKPT_NONNULL;

/* Writes the content of an optional block of a key block whose MAC is right: of the first one with
 * this id.
 *
 *   kbpk             in   16 or 24  key block protection key
 *   text             in   any       key block; a length that none has is DUKPT_FAULT_BLOCK_LENGTH
 *   id               in   2         characters: the id of the optional block, as KS
 *   content          out  251       room for the content of an optional block
 *   content_length   out            how many characters it has
 *
 * Answers, in this order: DUKPT_FAULT_LENGTH; DUKPT_FAULT_BLOCK_LENGTH; DUKPT_FAULT_BLOCK_VERSION;
 * DUKPT_FAULT_BLOCK_HEADER_FIELD; DUKPT_FAULT_BLOCK_OPTIONAL_BLOCK; DUKPT_FAULT_BLOCK_HEX;
 * DUKPT_FAULT_BLOCK_MAC; DUKPT_FAULT_BLOCK_PAYLOAD; DUKPT_FAULT_NO_OPTIONAL_BLOCK; DUKPT_OK. */
DUKPT_STATUS uint32_t dukpt_unwrap_optional(const uint8_t *kbpk, size_t kbpk_size,
                                            const uint8_t *text, size_t text_size,
                                            const uint8_t *id, size_t id_size,
                                            uint8_t *DUKPT_OUT content, size_t content_size,
                                            uint32_t *DUKPT_OUT content_length)
    DUKPT_NONNULL;

/* Requests: frames of this project's own, over ISO 9564-1 and ANSI X9.19. A frame is two bytes of
 * length and the contents. */

/* Writes the request of a payment.
 *
 *   key            in   16        transaction key
 *   ksn            in   10        key serial number
 *   pan            in   12 to 19  PAN; another length is DUKPT_FAULT_PAN_LENGTH
 *   pin            in   4 to 12   PIN; another length is DUKPT_FAULT_PIN_LENGTH
 *   amount         in             in the smallest unit of the currency
 *   frame          out  64        room for a frame
 *   frame_length   out            how many bytes the request has
 *
 * Answers, in this order: DUKPT_FAULT_LENGTH; DUKPT_FAULT_PAN_LENGTH; DUKPT_FAULT_PAN_DIGIT;
 * DUKPT_FAULT_PIN_LENGTH; DUKPT_FAULT_PIN_DIGIT; DUKPT_OK. */
DUKPT_STATUS uint32_t dukpt_payment_request(const uint8_t *key, size_t key_size,
                                            const uint8_t *ksn, size_t ksn_size,
                                            const uint8_t *pan, size_t pan_size,
                                            const uint8_t *pin, size_t pin_size, uint32_t amount,
                                            uint8_t *DUKPT_OUT frame, size_t frame_size,
                                            uint32_t *DUKPT_OUT frame_length)
    DUKPT_NONNULL;

/* Writes the fields of a request. The MAC is not compared: dukpt_check_request does that.
 *
 *   frame        in   any  request; what is none is DUKPT_FAULT_NOT_A_REQUEST
 *   ksn          out  10   key serial number
 *   pan          out  19   room for a PAN
 *   pan_length   out       how many digits it has, 12 to 19
 *   amount       out       in the smallest unit of the currency
 *   block        out  8    enciphered PIN block
 *   mac          out  8    MAC
 *
 * Answers, in this order: DUKPT_FAULT_LENGTH; DUKPT_FAULT_NOT_A_REQUEST; DUKPT_OK. */
DUKPT_STATUS uint32_t dukpt_read_request(const uint8_t *frame, size_t frame_size,
                                         uint8_t *DUKPT_OUT ksn, size_t ksn_size,
                                         uint8_t *DUKPT_OUT pan, size_t pan_size,
                                         uint32_t *DUKPT_OUT pan_length,
                                         uint32_t *DUKPT_OUT amount,
                                         uint8_t *DUKPT_OUT block, size_t block_size,
                                         uint8_t *DUKPT_OUT mac, size_t mac_size)
    DUKPT_NONNULL;

/* Tells whether a request has its MAC under the transaction key. It writes nothing.
 *
 *   key     in  16   transaction key
 *   frame   in  any  request; what is none is DUKPT_FAULT_NOT_A_REQUEST
 *
 * Answers, in this order: DUKPT_FAULT_LENGTH; DUKPT_FAULT_NOT_A_REQUEST; DUKPT_FAULT_BAD_MAC;
 * DUKPT_OK. */
DUKPT_STATUS uint32_t dukpt_check_request(const uint8_t *key, size_t key_size,
                                          const uint8_t *frame, size_t frame_size)
    DUKPT_NONNULL;

/* Writes what is told of frames: 0 for a request with its MAC under the transaction key of its own
 * key serial number, which is derived of the base derivation key, and else the number of its first
 * fault: DUKPT_FAULT_NOT_A_REQUEST; DUKPT_FAULT_NOT_USABLE; DUKPT_FAULT_BAD_MAC. Each frame stands
 * at the begin of 64 bytes, and what is behind it is not looked at. It checks many of them in less
 * time than dukpt_derive and dukpt_check_request.
 *
 *   bdk       in   16                       base derivation key
 *   frames    in   a multiple of 64         frames, 64 bytes for each
 *   results   out  1 for each 64 of frames  what is told of each, in their order
 *
 * Answers, in this order: DUKPT_FAULT_LENGTH; DUKPT_OK. */
DUKPT_STATUS uint32_t dukpt_check_requests(const uint8_t *bdk, size_t bdk_size,
                                           const uint8_t *frames, size_t frames_size,
                                           uint8_t *DUKPT_OUT results, size_t results_size)
    DUKPT_NONNULL;

/* Writes the PIN of a request under the transaction key. The MAC is not compared:
 * dukpt_check_request does that.
 *
 *   key          in   16   transaction key
 *   frame        in   any  request; what is none is DUKPT_FAULT_NOT_A_REQUEST
 *   pin          out  12   room for a PIN
 *   pin_length   out       how many digits the PIN has, 4 to 12
 *
 * Answers, in this order: DUKPT_FAULT_LENGTH; DUKPT_FAULT_NOT_A_REQUEST;
 * DUKPT_FAULT_NOT_A_PIN_BLOCK; DUKPT_OK. */
DUKPT_STATUS uint32_t dukpt_request_pin(const uint8_t *key, size_t key_size,
                                        const uint8_t *frame, size_t frame_size,
                                        uint8_t *DUKPT_OUT pin, size_t pin_size,
                                        uint32_t *DUKPT_OUT pin_length)
    DUKPT_NONNULL;

/* Accepted replies and refusals: frames of this project's own, over ANSI X9.19. */

/* Writes the accepted reply to a request.
 *
 *   key            in   16  transaction key
 *   ksn            in   10  the request's key serial number
 *   code           in   2   ASCII digits: 00, 14, 30, 51 or 55
 *   frame          out  64  room for a frame
 *   frame_length   out      how many bytes the reply has
 *
 * Answers, in this order: DUKPT_FAULT_LENGTH; DUKPT_FAULT_NOT_A_CODE; DUKPT_OK. */
DUKPT_STATUS uint32_t dukpt_request_reply(const uint8_t *key, size_t key_size,
                                          const uint8_t *ksn, size_t ksn_size,
                                          const uint8_t *code, size_t code_size,
                                          uint8_t *DUKPT_OUT frame, size_t frame_size,
                                          uint32_t *DUKPT_OUT frame_length)
    DUKPT_NONNULL;

/* Writes the refusal of a request. It has no MAC.
 *
 *   ksn            in   10  the request's key serial number; zeros where the bytes were no request
 *   reason         in       1 to 6
 *   frame          out  64  room for a frame
 *   frame_length   out      how many bytes the refusal has
 *
 * Answers, in this order: DUKPT_FAULT_LENGTH; DUKPT_FAULT_NOT_A_REASON; DUKPT_OK. */
DUKPT_STATUS uint32_t dukpt_request_refusal(const uint8_t *ksn, size_t ksn_size, uint32_t reason,
                                            uint8_t *DUKPT_OUT frame, size_t frame_size,
                                            uint32_t *DUKPT_OUT frame_length)
    DUKPT_NONNULL;

/* Writes the fields of an accepted reply. The MAC is not compared: dukpt_check_reply does that.
 *
 *   frame   in   any  reply; what is none is DUKPT_FAULT_NOT_A_REPLY
 *   ksn     out  10   key serial number
 *   code    out  2    ASCII digits: 00, 14, 30, 51 or 55
 *
 * Answers, in this order: DUKPT_FAULT_LENGTH; DUKPT_FAULT_NOT_A_REPLY; DUKPT_OK. */
DUKPT_STATUS uint32_t dukpt_read_reply(const uint8_t *frame, size_t frame_size,
                                       uint8_t *DUKPT_OUT ksn, size_t ksn_size,
                                       uint8_t *DUKPT_OUT code, size_t code_size)
    DUKPT_NONNULL;

/* Writes the fields of a refusal.
 *
 *   frame    in   any  refusal; what is none is DUKPT_FAULT_NOT_A_REFUSAL
 *   ksn      out  10   key serial number
 *   reason   out       1 to 6
 *
 * Answers, in this order: DUKPT_FAULT_LENGTH; DUKPT_FAULT_NOT_A_REFUSAL; DUKPT_OK. */
DUKPT_STATUS uint32_t dukpt_read_refusal(const uint8_t *frame, size_t frame_size,
                                         uint8_t *DUKPT_OUT ksn, size_t ksn_size,
                                         uint32_t *DUKPT_OUT reason)
    DUKPT_NONNULL;

/* Tells whether a frame is the accepted reply of the payment with this transaction key and key
 * serial number. It writes nothing.
 *
 *   key     in  16   transaction key
 *   ksn     in  10   the request's key serial number
 *   frame   in  any  reply; what is none is DUKPT_FAULT_NOT_A_REPLY
 *
 * Answers, in this order: DUKPT_FAULT_LENGTH; DUKPT_FAULT_NOT_A_REPLY; DUKPT_FAULT_NOT_MINE;
 * DUKPT_FAULT_BAD_MAC; DUKPT_OK. */
DUKPT_STATUS uint32_t dukpt_check_reply(const uint8_t *key, size_t key_size,
                                        const uint8_t *ksn, size_t ksn_size,
                                        const uint8_t *frame, size_t frame_size)
    DUKPT_NONNULL;

/* Reversals and their replies: frames of this project's own, over ANSI X9.19. A reversal has a key
 * serial number of its own. That of the payment has the same initial key serial number, another
 * counter, and is usable. The reversal's own may be any: dukpt_check_usable tells whether it
 * numbers a transaction, and a host asks it before it answers. */

/* Writes the request that reverses a payment. The reversal's own key serial number may be any:
 * dukpt_check_usable tells whether it numbers a transaction.
 *
 *   key            in   16  transaction key of the reversal's own key serial number
 *   ksn            in   10  the reversal's own key serial number
 *   reversed       in   10  the key serial number of the payment
 *   frame          out  64  room for a frame
 *   frame_length   out      how many bytes the reversal has
 *
 * Answers, in this order: DUKPT_FAULT_LENGTH; DUKPT_FAULT_NOT_REVERSED; DUKPT_OK. */
DUKPT_STATUS uint32_t dukpt_reversal_request(const uint8_t *key, size_t key_size,
                                             const uint8_t *ksn, size_t ksn_size,
                                             const uint8_t *reversed, size_t reversed_size,
                                             uint8_t *DUKPT_OUT frame, size_t frame_size,
                                             uint32_t *DUKPT_OUT frame_length)
    DUKPT_NONNULL;

/* Writes the fields of a reversal. The MAC is not compared: dukpt_check_reversal does that.
 *
 *   frame      in   any  reversal; what is none is DUKPT_FAULT_NOT_A_REVERSAL
 *   ksn        out  10   the reversal's own key serial number
 *   reversed   out  10   the key serial number of the payment
 *   mac        out  8    MAC
 *
 * Answers, in this order: DUKPT_FAULT_LENGTH; DUKPT_FAULT_NOT_A_REVERSAL; DUKPT_OK. */
DUKPT_STATUS uint32_t dukpt_read_reversal(const uint8_t *frame, size_t frame_size,
                                          uint8_t *DUKPT_OUT ksn, size_t ksn_size,
                                          uint8_t *DUKPT_OUT reversed, size_t reversed_size,
                                          uint8_t *DUKPT_OUT mac, size_t mac_size)
    DUKPT_NONNULL;

/* Tells whether a reversal has its MAC under the transaction key. It writes nothing. The reversal's
 * own key serial number may be any: a host asks dukpt_check_usable about it before it answers.
 *
 *   key     in  16   transaction key of the reversal's own key serial number
 *   frame   in  any  reversal; what is none is DUKPT_FAULT_NOT_A_REVERSAL
 *
 * Answers, in this order: DUKPT_FAULT_LENGTH; DUKPT_FAULT_NOT_A_REVERSAL; DUKPT_FAULT_BAD_MAC;
 * DUKPT_OK. */
DUKPT_STATUS uint32_t dukpt_check_reversal(const uint8_t *key, size_t key_size,
                                           const uint8_t *frame, size_t frame_size)
    DUKPT_NONNULL;

/* Writes the reply to a reversal.
 *
 *   key            in   16  transaction key of the reversal's own key serial number
 *   ksn            in   10  the reversal's own key serial number
 *   reversed       in   10  the key serial number of the payment
 *   state          in       1 where the payment is undone, 0 where none stands
 *   frame          out  64  room for a frame
 *   frame_length   out      how many bytes the reply has
 *
 * Answers, in this order: DUKPT_FAULT_LENGTH; DUKPT_FAULT_NOT_REVERSED; DUKPT_FAULT_NOT_A_STATE;
 * DUKPT_OK. */
DUKPT_STATUS uint32_t dukpt_reversal_reply(const uint8_t *key, size_t key_size,
                                           const uint8_t *ksn, size_t ksn_size,
                                           const uint8_t *reversed, size_t reversed_size,
                                           uint32_t state,
                                           uint8_t *DUKPT_OUT frame, size_t frame_size,
                                           uint32_t *DUKPT_OUT frame_length)
    DUKPT_NONNULL;

/* Writes the fields of the reply to a reversal. The MAC is not compared: dukpt_check_reversal_reply
 * does that.
 *
 *   frame      in   any  reply; what is none is DUKPT_FAULT_NOT_A_REVERSAL_REPLY
 *   ksn        out  10   the reversal's own key serial number
 *   reversed   out  10   the key serial number of the payment
 *   state      out       1 where the payment is undone, 0 where none stands
 *
 * Answers, in this order: DUKPT_FAULT_LENGTH; DUKPT_FAULT_NOT_A_REVERSAL_REPLY; DUKPT_OK. */
DUKPT_STATUS uint32_t dukpt_read_reversal_reply(const uint8_t *frame, size_t frame_size,
                                                uint8_t *DUKPT_OUT ksn, size_t ksn_size,
                                                uint8_t *DUKPT_OUT reversed, size_t reversed_size,
                                                uint32_t *DUKPT_OUT state)
    DUKPT_NONNULL;

/* Tells whether a frame is the reply to the reversal with this transaction key and these key serial
 * numbers. It writes nothing.
 *
 *   key        in  16   transaction key of the reversal's own key serial number
 *   ksn        in  10   the reversal's own key serial number
 *   reversed   in  10   the key serial number of the payment
 *   frame      in  any  reply; what is none is DUKPT_FAULT_NOT_A_REVERSAL_REPLY
 *
 * Answers, in this order: DUKPT_FAULT_LENGTH; DUKPT_FAULT_NOT_A_REVERSAL_REPLY;
 * DUKPT_FAULT_NOT_MINE; DUKPT_FAULT_BAD_MAC; DUKPT_OK. */
DUKPT_STATUS uint32_t dukpt_check_reversal_reply(const uint8_t *key, size_t key_size,
                                                 const uint8_t *ksn, size_t ksn_size,
                                                 const uint8_t *reversed, size_t reversed_size,
                                                 const uint8_t *frame, size_t frame_size)
    DUKPT_NONNULL;

/* Security modules of hosts, each in an image that the caller holds: a local master key (LMK), and
 * the key blocks of at most eight base derivation keys and a zone key under it (ANSI X9.143). The
 * image is a format of this project's own. Nothing but the local master key is in the clear in it:
 * wipe it when it is done with. A call reads it and keeps nothing, so that any number of them may
 * read one image at once. */

/* Writes the image of a security module that has its local master key alone.
 *
 *   lmk     in   16 or 24  local master key, under which key blocks are
 *   image   out  4706      image
 *
 * Answers, in this order: DUKPT_FAULT_LENGTH; DUKPT_OK. */
DUKPT_STATUS uint32_t dukpt_module_new(const uint8_t *lmk, size_t lmk_size,
                                       uint8_t *DUKPT_OUT image, size_t image_size)
    DUKPT_NONNULL;

/* Loads a base derivation key, for the key serial numbers that begin with a prefix.
 *
 *   prefix   in      5     the first bytes of the key serial numbers
 *   block    in      any   key block: usage B0, algorithm T, mode X or N, a key of 16 bytes
 *   image    in out  4706  image
 *
 * Answers, in this order: DUKPT_FAULT_LENGTH; DUKPT_FAULT_NOT_A_MODULE; DUKPT_FAULT_BLOCK_LENGTH;
 * DUKPT_FAULT_BLOCK_VERSION; DUKPT_FAULT_BLOCK_HEADER_FIELD; DUKPT_FAULT_BLOCK_OPTIONAL_BLOCK;
 * DUKPT_FAULT_BLOCK_HEX; DUKPT_FAULT_BLOCK_MAC; DUKPT_FAULT_BLOCK_PAYLOAD; DUKPT_FAULT_WRONG_USE;
 * DUKPT_FAULT_PREFIX_TAKEN; DUKPT_FAULT_SLOTS_FULL; DUKPT_OK. */
DUKPT_STATUS uint32_t dukpt_module_load_bdk(const uint8_t *prefix, size_t prefix_size,
                                            const uint8_t *block, size_t block_size,
                                            uint8_t *DUKPT_OUT image, size_t image_size)
    DUKPT_NONNULL;

/* Loads the zone key, under which PIN blocks come to the issuer.
 *
 *   block   in      any   key block: usage P0, algorithm T, mode E, B or N
 *   image   in out  4706  image
 *
 * Answers, in this order: DUKPT_FAULT_LENGTH; DUKPT_FAULT_NOT_A_MODULE; DUKPT_FAULT_BLOCK_LENGTH;
 * DUKPT_FAULT_BLOCK_VERSION; DUKPT_FAULT_BLOCK_HEADER_FIELD; DUKPT_FAULT_BLOCK_OPTIONAL_BLOCK;
 * DUKPT_FAULT_BLOCK_HEX; DUKPT_FAULT_BLOCK_MAC; DUKPT_FAULT_BLOCK_PAYLOAD; DUKPT_FAULT_WRONG_USE;
 * DUKPT_FAULT_ZONE_TAKEN; DUKPT_OK. */
DUKPT_STATUS uint32_t dukpt_module_load_zone(const uint8_t *block, size_t block_size,
                                             uint8_t *DUKPT_OUT image, size_t image_size)
    DUKPT_NONNULL;

/* The two steps of a host that keeps its book elsewhere, as in a database. It judges frames,
 * whatever the book keeps; the book settles those that are authentic, each of which uses its key
 * serial number; and the host answers what was settled. What is judged, settled and answered has 64
 * bytes each, in a form of this project's own. */

/* Writes what frames are judged to be: 64 bytes for each, which end with zeros. They are the frame
 * of a refusal, which begins with a zero, for reason 1 to 4. Or they are a payment: 1, 0, its key
 * serial number (10), amount (4, the highest first), code (2) and MAC (8). Or they are a reversal:
 * 2, 0, its own key serial number (10), that of the payment (10) and its MAC (8). The code of a
 * payment is what the issuer says by a table of cards. Each card has 37 bytes: the number of its
 * PAN's digits, room for 19 of them, the number of its PIN's digits, room for 12, and its limit (4,
 * the highest first). Of two cards with one PAN the first counts. Each frame stands at the begin of
 * 64 bytes.
 *
 *   image    in   4706                      image of a security module
 *   cards    in   a multiple of 37          cards, 37 bytes for each
 *   frames   in   a multiple of 64          frames, 64 bytes for each
 *   judged   out  64 for each 64 of frames  what each is judged to be, in their order
 *
 * Answers, in this order: DUKPT_FAULT_LENGTH; DUKPT_FAULT_NOT_A_MODULE; DUKPT_FAULT_NO_ZONE;
 * DUKPT_FAULT_NOT_A_CARD; DUKPT_OK. */
DUKPT_STATUS uint32_t dukpt_host_judge(const uint8_t *image, size_t image_size,
                                       const uint8_t *cards, size_t cards_size,
                                       const uint8_t *frames, size_t frames_size,
                                       uint8_t *DUKPT_OUT judged, size_t judged_size)
    DUKPT_NONNULL;

/* Writes the answers to what was settled, 64 bytes for each: the frame, which begins with a zero,
 * and zeros behind it; or the number of a fault, and zeros behind it: DUKPT_FAULT_NOT_SETTLED;
 * DUKPT_FAULT_NO_KEY_SET; DUKPT_FAULT_NOT_USABLE. No fault comes of what dukpt_host_judge wrote
 * with what became of it in the second byte: 1 where it is kept from now on, 2 where the same was
 * kept before, 3 where its key serial number is used, and 4 where there is no room. The code of a
 * payment that was kept before is the one that was kept. Behind the fields of a reversal that is
 * kept, or was, stands its state: 1 where the payment is undone, and 0 where none stands.
 *
 *   image     in   4706                       image of a security module
 *   settled   in   a multiple of 64           what was settled, 64 bytes for each
 *   answers   out  64 for each 64 of settled  the answer to each, in their order
 *
 * Answers, in this order: DUKPT_FAULT_LENGTH; DUKPT_FAULT_NOT_A_MODULE; DUKPT_OK. */
DUKPT_STATUS uint32_t dukpt_host_answer(const uint8_t *image, size_t image_size,
                                        const uint8_t *settled, size_t settled_size,
                                        uint8_t *DUKPT_OUT answers, size_t answers_size)
    DUKPT_NONNULL;

/* Streams of frames. */

/* Writes how many bytes the frame has with which these begin, the two of its length counted.
 *
 *   bytes   in   2 or more  what came of a stream; fewer are DUKPT_FAULT_PART_OF_FRAME
 *   count   out             2 to 64
 *
 * Answers, in this order: DUKPT_FAULT_PART_OF_FRAME; DUKPT_FAULT_TOO_LONG; DUKPT_OK. */
DUKPT_STATUS uint32_t dukpt_frame_length(const uint8_t *bytes, size_t bytes_size,
                                         uint32_t *DUKPT_OUT count)
    DUKPT_NONNULL;

#ifdef __cplusplus
}
#endif

#endif
