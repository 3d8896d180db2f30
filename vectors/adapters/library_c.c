/* An adapter for libdukpt in C.
 *
 *     gcc -I out/library -o adapter vectors/adapters/library_c.c out/library/libdukpt.a
 *     cd vectors && python3 -m dukpt_check ../adapter
 *
 * It reads flat objects of JSON: members that are texts or whole numbers. What the library has no
 * call for, as the digest of a walk's keys, is made here.
 */
#include <dukpt.h>
#include <stdio.h>
#include <stdlib.h>
#include <string.h>

enum { MEMBERS = 12, NAME = 32, TEXT = 8192, BYTES = TEXT / 2, REGISTERS = 21 };

/* Why a case is refused that reaches no call: the library's faults begin with 1. */
enum { BAD_INPUT = 1000, UNSUPPORTED = 1001 };

/* A member of a case. A number has its digits as text. */
struct member {
    char name[NAME];
    char text[TEXT];
    size_t length;
};

struct object {
    struct member members[MEMBERS];
    size_t count;
};

/* Bytes of an input. */
struct bytes {
    uint8_t data[BYTES];
    size_t size;
};

/* The members that an answer has so far. */
static char answer[4 * TEXT];
static size_t answered;

/* Reading JSON. Each function gives the place behind what it read, or NULL where it is none. */

static const char *behind_blanks(const char *at)
{
    while (*at == ' ' || *at == '\t' || *at == '\r' || *at == '\n')
        at++;
    return at;
}

static int digit_of(char it)
{
    if (it >= '0' && it <= '9')
        return it - '0';
    if (it >= 'a' && it <= 'f')
        return it - 'a' + 10;
    return it >= 'A' && it <= 'F' ? it - 'A' + 10 : -1;
}

/* Appends a character in UTF-8. */
static size_t put_character(char *text, size_t length, unsigned code)
{
    if (code < 0x80) {
        text[length++] = (char)code;
    } else if (code < 0x800) {
        text[length++] = (char)(0xC0 | code >> 6);
        text[length++] = (char)(0x80 | (code & 0x3F));
    } else {
        text[length++] = (char)(0xE0 | code >> 12);
        text[length++] = (char)(0x80 | (code >> 6 & 0x3F));
        text[length++] = (char)(0x80 | (code & 0x3F));
    }
    return length;
}

/* Reads what follows a backslash. */
static const char *read_escape(const char *at, char *text, size_t *length)
{
    static const char names[] = "\"\\/bfnrt", values[] = "\"\\/\b\f\n\r\t";
    const char *found;
    if (*at == 'u') {
        unsigned code = 0;
        for (int i = 1; i <= 4; i++) {
            if (digit_of(at[i]) < 0)
                return NULL;
            code = code * 16 + (unsigned)digit_of(at[i]);
        }
        *length = put_character(text, *length, code);
        return at + 5;
    }
    found = *at ? strchr(names, *at) : NULL;
    if (!found)
        return NULL;
    text[(*length)++] = values[found - names];
    return at + 1;
}

static const char *read_text(const char *at, char *text, size_t room, size_t *length)
{
    *length = 0;
    if (*at++ != '"')
        return NULL;
    while (*at != '"') {
        if (*at == 0 || *length + 4 > room)
            return NULL;
        if (*at == '\\') {
            at = read_escape(at + 1, text, length);
            if (!at)
                return NULL;
        } else {
            text[(*length)++] = *at++;
        }
    }
    text[*length] = 0;
    return at + 1;
}

static const char *read_member(const char *at, struct member *member)
{
    size_t length;
    at = read_text(at, member->name, sizeof member->name, &length);
    if (!at)
        return NULL;
    at = behind_blanks(at);
    if (*at++ != ':')
        return NULL;
    at = behind_blanks(at);
    if (*at == '"')
        return read_text(at, member->text, sizeof member->text, &member->length);
    length = strspn(at, "-+.eE0123456789");
    if (length == 0 || length >= sizeof member->text)
        return NULL;
    memcpy(member->text, at, length);
    member->text[length] = 0;
    member->length = length;
    return at + length;
}

static int read_object(const char *at, struct object *object)
{
    object->count = 0;
    at = behind_blanks(at);
    if (*at++ != '{')
        return 0;
    do {
        if (object->count == MEMBERS)
            return 0;
        at = read_member(behind_blanks(at), &object->members[object->count++]);
        if (!at)
            return 0;
        at = behind_blanks(at);
    } while (*at++ == ',');
    return at[-1] == '}';
}

/* Inputs of a case. */

static const struct member *member_of(const struct object *it, const char *name)
{
    for (size_t i = 0; i < it->count; i++)
        if (strcmp(it->members[i].name, name) == 0)
            return &it->members[i];
    return NULL;
}

static int hex_of(const struct object *it, const char *name, struct bytes *to)
{
    const struct member *found = member_of(it, name);
    if (!found || found->length % 2 != 0)
        return 0;
    for (size_t i = 0; i < found->length; i += 2) {
        int high = digit_of(found->text[i]), low = digit_of(found->text[i + 1]);
        if (high < 0 || low < 0)
            return 0;
        to->data[i / 2] = (uint8_t)(high << 4 | low);
    }
    to->size = found->length / 2;
    return 1;
}

static int text_of(const struct object *it, const char *name, struct bytes *to)
{
    const struct member *found = member_of(it, name);
    if (!found || found->length > sizeof to->data)
        return 0;
    memcpy(to->data, found->text, found->length);
    to->size = found->length;
    return 1;
}

static int number_of(const struct object *it, const char *name, uint32_t *to)
{
    const struct member *found = member_of(it, name);
    unsigned long long number;
    char *end;
    if (!found || found->text[0] < '0' || found->text[0] > '9')
        return 0;
    number = strtoull(found->text, &end, 10);
    *to = (uint32_t)number;
    return *end == 0 && number <= UINT32_MAX;
}

/* Outputs of an answer. */

static void put(const char *text)
{
    size_t length = strlen(text);
    if (answered + length < sizeof answer) {
        memcpy(answer + answered, text, length + 1);
        answered += length;
    }
}

static void put_hex(const uint8_t *data, size_t size)
{
    char pair[3];
    put("\"");
    for (size_t i = 0; i < size; i++) {
        snprintf(pair, sizeof pair, "%02X", (unsigned)data[i]);
        put(pair);
    }
    put("\"");
}

static void put_name(const char *name)
{
    put(", \"");
    put(name);
    put("\": ");
}

static void out_hex(const char *name, const uint8_t *data, size_t size)
{
    put_name(name);
    put_hex(data, size);
}

/* Text of the library: digits, or characters of a key block. */
static void out_text(const char *name, const uint8_t *text, size_t size)
{
    char one[8];
    put_name(name);
    put("\"");
    for (size_t i = 0; i < size; i++) {
        int is_plain = text[i] >= 0x20 && text[i] < 0x7F && text[i] != '"' && text[i] != '\\';
        snprintf(one, sizeof one, is_plain ? "%c" : "\\u%04X", (unsigned)text[i]);
        put(one);
    }
    put("\"");
}

static void out_number(const char *name, uint32_t number)
{
    char digits[16];
    snprintf(digits, sizeof digits, "%lu", (unsigned long)number);
    put_name(name);
    put(digits);
}

/* SHA-256 (FIPS 180-4), for the digest of a walk. */

struct digest {
    uint32_t state[8];
    uint8_t block[64];
    uint64_t size;
};

static const uint32_t ROUNDS[64] = {
    0x428A2F98, 0x71374491, 0xB5C0FBCF, 0xE9B5DBA5, 0x3956C25B, 0x59F111F1, 0x923F82A4, 0xAB1C5ED5,
    0xD807AA98, 0x12835B01, 0x243185BE, 0x550C7DC3, 0x72BE5D74, 0x80DEB1FE, 0x9BDC06A7, 0xC19BF174,
    0xE49B69C1, 0xEFBE4786, 0x0FC19DC6, 0x240CA1CC, 0x2DE92C6F, 0x4A7484AA, 0x5CB0A9DC, 0x76F988DA,
    0x983E5152, 0xA831C66D, 0xB00327C8, 0xBF597FC7, 0xC6E00BF3, 0xD5A79147, 0x06CA6351, 0x14292967,
    0x27B70A85, 0x2E1B2138, 0x4D2C6DFC, 0x53380D13, 0x650A7354, 0x766A0ABB, 0x81C2C92E, 0x92722C85,
    0xA2BFE8A1, 0xA81A664B, 0xC24B8B70, 0xC76C51A3, 0xD192E819, 0xD6990624, 0xF40E3585, 0x106AA070,
    0x19A4C116, 0x1E376C08, 0x2748774C, 0x34B0BCB5, 0x391C0CB3, 0x4ED8AA4A, 0x5B9CCA4F, 0x682E6FF3,
    0x748F82EE, 0x78A5636F, 0x84C87814, 0x8CC70208, 0x90BEFFFA, 0xA4506CEB, 0xBEF9A3F7, 0xC67178F2,
};

static uint32_t turned(uint32_t it, unsigned by)
{
    return it >> by | it << (32 - by);
}

static void compress(struct digest *it)
{
    uint32_t w[64], s[8];
    for (int i = 0; i < 16; i++)
        w[i] = (uint32_t)it->block[4 * i] << 24 | (uint32_t)it->block[4 * i + 1] << 16
            | (uint32_t)it->block[4 * i + 2] << 8 | it->block[4 * i + 3];
    for (int i = 16; i < 64; i++)
        w[i] = w[i - 16] + w[i - 7]
            + (turned(w[i - 15], 7) ^ turned(w[i - 15], 18) ^ w[i - 15] >> 3)
            + (turned(w[i - 2], 17) ^ turned(w[i - 2], 19) ^ w[i - 2] >> 10);
    memcpy(s, it->state, sizeof s);
    for (int i = 0; i < 64; i++) {
        uint32_t one = s[7] + (turned(s[4], 6) ^ turned(s[4], 11) ^ turned(s[4], 25))
            + ((s[4] & s[5]) ^ (~s[4] & s[6])) + ROUNDS[i] + w[i];
        uint32_t two = (turned(s[0], 2) ^ turned(s[0], 13) ^ turned(s[0], 22))
            + ((s[0] & s[1]) ^ (s[0] & s[2]) ^ (s[1] & s[2]));
        memmove(s + 1, s, 7 * sizeof *s);
        s[4] += one;
        s[0] = one + two;
    }
    for (int i = 0; i < 8; i++)
        it->state[i] += s[i];
}

static void add(struct digest *it, const uint8_t *data, size_t size)
{
    for (size_t i = 0; i < size; i++) {
        it->block[it->size++ % 64] = data[i];
        if (it->size % 64 == 0)
            compress(it);
    }
}

static void finish(struct digest *it, uint8_t *value)
{
    uint64_t bits = it->size * 8;
    uint8_t one = 0x80, zero = 0, length[8];
    add(it, &one, 1);
    while (it->size % 64 != 56)
        add(it, &zero, 1);
    for (int i = 0; i < 8; i++)
        length[i] = (uint8_t)(bits >> (56 - 8 * i));
    add(it, length, sizeof length);
    for (int i = 0; i < 32; i++)
        value[i] = (uint8_t)(it->state[i / 4] >> (24 - i % 4 * 8));
}

/* Operations. Each answers DUKPT_OK, or why the case is refused. */

typedef uint32_t call2(const uint8_t *, size_t, const uint8_t *, size_t, uint8_t *, size_t);
typedef uint32_t call1(const uint8_t *, size_t, uint8_t *, size_t);
typedef uint32_t block_call(const uint8_t *, size_t, uint8_t *, size_t);
typedef uint32_t chain_call(const uint8_t *, size_t, const uint8_t *, size_t, uint8_t *, size_t);

static struct bytes a, b, c, d;

static uint32_t initial_key(const struct object *it)
{
    uint8_t key[DUKPT_KEY_BYTES];
    uint32_t status;
    if (!hex_of(it, "bdk", &a) || !hex_of(it, "iksn", &b))
        return BAD_INPUT;
    status = dukpt_initial_key(a.data, a.size, b.data, b.size, key, sizeof key);
    if (status == DUKPT_OK)
        out_hex("key", key, sizeof key);
    return status;
}

/* A transaction key, and the keys that are made of it. The library derives that of any counter: a
 * host asks first whether it numbers a transaction. */
static uint32_t keys(call2 *call, const char *secret, const struct object *it)
{
    static const struct { const char *name; call1 *call; } variants[] = {
        {"pin_key", dukpt_pin_key},
        {"request_mac_key", dukpt_request_key},
        {"response_mac_key", dukpt_response_key},
    };
    uint8_t key[DUKPT_KEY_BYTES], variant[DUKPT_KEY_BYTES];
    uint32_t status;
    if (!hex_of(it, secret, &a) || !hex_of(it, "ksn", &b))
        return BAD_INPUT;
    status = dukpt_check_usable(b.data, b.size);
    if (status == DUKPT_OK)
        status = call(a.data, a.size, b.data, b.size, key, sizeof key);
    if (status != DUKPT_OK)
        return status;
    out_hex("key", key, sizeof key);
    for (size_t i = 0; i < sizeof variants / sizeof *variants; i++) {
        variants[i].call(key, sizeof key, variant, sizeof variant);
        out_hex(variants[i].name, variant, sizeof variant);
    }
    return DUKPT_OK;
}

static uint32_t derive(const struct object *it)
{
    return keys(dukpt_derive, "bdk", it);
}

static uint32_t derive_from_initial(const struct object *it)
{
    return keys(dukpt_derive_from_initial, "initial_key", it);
}

static uint32_t usable(const struct object *it)
{
    uint32_t status;
    if (!hex_of(it, "ksn", &a))
        return BAD_INPUT;
    status = dukpt_check_usable(a.data, a.size);
    if (status != DUKPT_OK && status != DUKPT_FAULT_NOT_USABLE)
        return status;
    put_name("usable");
    put(status == DUKPT_OK ? "true" : "false");
    return DUKPT_OK;
}

static uint32_t next_number(const struct object *it)
{
    uint8_t next[DUKPT_KSN_BYTES];
    uint32_t status;
    if (!hex_of(it, "ksn", &a))
        return BAD_INPUT;
    status = dukpt_next_number(a.data, a.size, next, sizeof next);
    if (status == DUKPT_OK)
        out_hex("ksn", next, sizeof next);
    return status;
}

/* The registers stand in the image behind its version, the initial key serial number and the
 * counter. One of zeros is empty. */
static uint32_t registers(const struct object *it)
{
    static const uint8_t empty[DUKPT_KEY_BYTES];
    uint8_t image[DUKPT_IMAGE_BYTES];
    uint32_t status;
    if (!hex_of(it, "initial_key", &a) || !hex_of(it, "ksn", &b))
        return BAD_INPUT;
    status = dukpt_registers_at(a.data, a.size, b.data, b.size, image, sizeof image);
    if (status != DUKPT_OK)
        return status;
    put_name("registers");
    for (size_t i = 0; i < REGISTERS; i++) {
        const uint8_t *key = image + 14 + i * DUKPT_KEY_BYTES;
        put(i == 0 ? "[" : ", ");
        if (memcmp(key, empty, sizeof empty) == 0)
            put("null");
        else
            put_hex(key, DUKPT_KEY_BYTES);
    }
    put("]");
    return DUKPT_OK;
}

/* The keys of a terminal's numbers in their order: those behind the first ones. */
static uint32_t walk(const struct object *it)
{
    static struct digest digest;
    static const struct digest fresh = {
        {0x6A09E667, 0xBB67AE85, 0x3C6EF372, 0xA54FF53A, 0x510E527F, 0x9B05688C, 0x1F83D9AB,
         0x5BE0CD19}, {0}, 0};
    uint8_t key[DUKPT_KEY_BYTES] = {0}, ksn[DUKPT_KSN_BYTES] = {0}, value[32];
    uint8_t image[DUKPT_IMAGE_BYTES], next[DUKPT_IMAGE_BYTES];
    uint32_t skip, count, status;
    if (!hex_of(it, "bdk", &a) || !hex_of(it, "iksn", &b) || !number_of(it, "skip", &skip)
        || !number_of(it, "count", &count))
        return BAD_INPUT;
    digest = fresh;
    status = dukpt_initial_key(a.data, a.size, b.data, b.size, key, sizeof key);
    for (uint64_t i = 0; status == DUKPT_OK && i <= skip; i++) {
        status = dukpt_next_number(b.data, b.size, ksn, sizeof ksn);
        memcpy(b.data, ksn, sizeof ksn);
    }
    if (status == DUKPT_OK)
        status = dukpt_registers_at(key, sizeof key, ksn, sizeof ksn, image, sizeof image);
    for (uint32_t i = 0; status == DUKPT_OK && i < count; i++) {
        status = dukpt_registers_next(image, sizeof image, next, sizeof next, key, sizeof key, ksn,
                                      sizeof ksn);
        memcpy(image, next, sizeof image);
        add(&digest, key, sizeof key);
    }
    if (status != DUKPT_OK)
        return status;
    finish(&digest, value);
    out_hex("sha256", value, sizeof value);
    out_hex("last_ksn", ksn, sizeof ksn);
    out_hex("last_key", key, sizeof key);
    return DUKPT_OK;
}

static uint32_t value_of_key(call1 *call, size_t size, const struct object *it)
{
    uint8_t value[DUKPT_CMAC_CHECK_VALUE_BYTES];
    uint32_t status;
    if (!hex_of(it, "key", &a))
        return BAD_INPUT;
    status = call(a.data, a.size, value, size);
    if (status == DUKPT_OK)
        out_hex("kcv", value, size);
    return status;
}

static uint32_t check_value(const struct object *it)
{
    return value_of_key(dukpt_check_value, DUKPT_CHECK_VALUE_BYTES, it);
}

static uint32_t cmac_check_value(const struct object *it)
{
    return value_of_key(dukpt_cmac_check_value, DUKPT_CMAC_CHECK_VALUE_BYTES, it);
}

static uint32_t block_by(block_call *call, const struct object *it)
{
    uint32_t status;
    if (!hex_of(it, "key", &a) || !hex_of(it, "block", &b))
        return BAD_INPUT;
    status = call(a.data, a.size, b.data, b.size);
    if (status == DUKPT_OK)
        out_hex("block", b.data, b.size);
    return status;
}

static uint32_t tdes_encrypt(const struct object *it)
{
    return block_by(dukpt_tdes_encrypt, it);
}

static uint32_t tdes_decrypt(const struct object *it)
{
    return block_by(dukpt_tdes_decrypt, it);
}

static uint32_t chain_by(chain_call *call, const struct object *it)
{
    uint32_t status;
    if (!hex_of(it, "key", &a) || !hex_of(it, "iv", &b) || !hex_of(it, "data", &c))
        return BAD_INPUT;
    status = call(a.data, a.size, b.data, b.size, c.data, c.size);
    if (status == DUKPT_OK)
        out_hex("data", c.data, c.size);
    return status;
}

static uint32_t cbc_encrypt(const struct object *it)
{
    return chain_by(dukpt_cbc_encrypt, it);
}

static uint32_t cbc_decrypt(const struct object *it)
{
    return chain_by(dukpt_cbc_decrypt, it);
}

static uint32_t mac_by(call2 *call, const struct object *it)
{
    uint8_t mac[DUKPT_MAC_BYTES];
    uint32_t status;
    if (!hex_of(it, "key", &a) || !hex_of(it, "message", &b))
        return BAD_INPUT;
    status = call(a.data, a.size, b.data, b.size, mac, sizeof mac);
    if (status == DUKPT_OK)
        out_hex("mac", mac, sizeof mac);
    return status;
}

static uint32_t retail_mac(const struct object *it)
{
    return mac_by(dukpt_retail_mac, it);
}

static uint32_t cmac(const struct object *it)
{
    return mac_by(dukpt_cmac, it);
}

static uint32_t pin_block(const struct object *it)
{
    uint8_t block[DUKPT_BLOCK_BYTES];
    uint32_t status;
    if (!text_of(it, "pin", &a) || !text_of(it, "pan", &b))
        return BAD_INPUT;
    status = dukpt_pin_block(a.data, a.size, b.data, b.size, block, sizeof block);
    if (status == DUKPT_OK)
        out_hex("block", block, sizeof block);
    return status;
}

static uint32_t pin_of_block(const struct object *it)
{
    uint8_t pin[DUKPT_PIN_ROOM];
    uint32_t status, length;
    if (!hex_of(it, "block", &a) || !text_of(it, "pan", &b))
        return BAD_INPUT;
    status = dukpt_pin_of_block(a.data, a.size, b.data, b.size, pin, sizeof pin, &length);
    if (status == DUKPT_OK)
        out_text("pin", pin, length);
    return status;
}

static uint32_t encrypt_pin(const struct object *it)
{
    uint8_t block[DUKPT_BLOCK_BYTES];
    uint32_t status;
    if (!text_of(it, "pin", &a) || !text_of(it, "pan", &b) || !hex_of(it, "key", &c))
        return BAD_INPUT;
    status = dukpt_pin_block(a.data, a.size, b.data, b.size, block, sizeof block);
    if (status == DUKPT_OK)
        status = dukpt_tdes_encrypt(c.data, c.size, block, sizeof block);
    if (status == DUKPT_OK)
        out_hex("block", block, sizeof block);
    return status;
}

static uint32_t decrypt_pin(const struct object *it)
{
    uint8_t pin[DUKPT_PIN_ROOM];
    uint32_t status, length;
    if (!hex_of(it, "key", &a) || !hex_of(it, "block", &b) || !text_of(it, "pan", &c))
        return BAD_INPUT;
    status = dukpt_tdes_decrypt(a.data, a.size, b.data, b.size);
    if (status == DUKPT_OK)
        status = dukpt_pin_of_block(b.data, b.size, c.data, c.size, pin, sizeof pin, &length);
    if (status == DUKPT_OK)
        out_text("pin", pin, length);
    return status;
}

static uint32_t wrap(const struct object *it)
{
    uint8_t text[DUKPT_KEY_BLOCK_ROOM];
    uint32_t status, length;
    if (!hex_of(it, "kbpk", &a) || !text_of(it, "header", &b) || !hex_of(it, "key", &c)
        || !hex_of(it, "padding", &d))
        return BAD_INPUT;
    status = dukpt_wrap(a.data, a.size, b.data, b.size, c.data, c.size, d.data, d.size, text,
                        sizeof text, &length);
    if (status == DUKPT_OK)
        out_text("block", text, length);
    return status;
}

static uint32_t unwrap(const struct object *it)
{
    uint8_t header[DUKPT_HEADER_BYTES], key[DUKPT_TRIPLE_KEY_BYTES];
    uint32_t status, length;
    if (!hex_of(it, "kbpk", &a) || !text_of(it, "block", &b))
        return BAD_INPUT;
    status = dukpt_unwrap(a.data, a.size, b.data, b.size, header, sizeof header, key, sizeof key,
                          &length);
    if (status == DUKPT_OK) {
        out_text("header", header, sizeof header);
        out_hex("key", key, length);
    }
    return status;
}

static uint32_t payment_request(const struct object *it)
{
    static struct bytes key;
    uint8_t frame[DUKPT_FRAME_ROOM];
    uint32_t status, length, amount;
    if (!hex_of(it, "key", &key) || !hex_of(it, "ksn", &a) || !text_of(it, "pan", &b)
        || !text_of(it, "pin", &c) || !number_of(it, "amount", &amount))
        return BAD_INPUT;
    status = dukpt_payment_request(key.data, key.size, a.data, a.size, b.data, b.size, c.data,
                                   c.size, amount, frame, sizeof frame, &length);
    if (status == DUKPT_OK)
        out_hex("frame", frame, length);
    return status;
}

static uint32_t read_request(const struct object *it)
{
    uint8_t ksn[DUKPT_KSN_BYTES], pan[DUKPT_PAN_ROOM], block[DUKPT_BLOCK_BYTES];
    uint8_t mac[DUKPT_MAC_BYTES];
    uint32_t status, length, amount;
    if (!hex_of(it, "frame", &a))
        return BAD_INPUT;
    status = dukpt_read_request(a.data, a.size, ksn, sizeof ksn, pan, sizeof pan, &length, &amount,
                                block, sizeof block, mac, sizeof mac);
    if (status != DUKPT_OK)
        return status;
    out_hex("ksn", ksn, sizeof ksn);
    out_text("pan", pan, length);
    out_number("amount", amount);
    out_hex("block", block, sizeof block);
    out_hex("mac", mac, sizeof mac);
    return DUKPT_OK;
}

static uint32_t check_request(const struct object *it)
{
    if (!hex_of(it, "key", &a) || !hex_of(it, "frame", &b))
        return BAD_INPUT;
    return dukpt_check_request(a.data, a.size, b.data, b.size);
}

static uint32_t request_pin(const struct object *it)
{
    uint8_t pin[DUKPT_PIN_ROOM];
    uint32_t status, length;
    if (!hex_of(it, "key", &a) || !hex_of(it, "frame", &b))
        return BAD_INPUT;
    status = dukpt_request_pin(a.data, a.size, b.data, b.size, pin, sizeof pin, &length);
    if (status == DUKPT_OK)
        out_text("pin", pin, length);
    return status;
}

static uint32_t reply(const struct object *it)
{
    uint8_t frame[DUKPT_FRAME_ROOM];
    uint32_t status, length;
    if (!hex_of(it, "key", &a) || !hex_of(it, "ksn", &b) || !text_of(it, "code", &c))
        return BAD_INPUT;
    status = dukpt_request_reply(a.data, a.size, b.data, b.size, c.data, c.size, frame,
                                 sizeof frame, &length);
    if (status == DUKPT_OK)
        out_hex("frame", frame, length);
    return status;
}

static uint32_t read_reply(const struct object *it)
{
    uint8_t ksn[DUKPT_KSN_BYTES], code[DUKPT_CODE_BYTES];
    uint32_t status;
    if (!hex_of(it, "frame", &a))
        return BAD_INPUT;
    status = dukpt_read_reply(a.data, a.size, ksn, sizeof ksn, code, sizeof code);
    if (status == DUKPT_OK) {
        out_hex("ksn", ksn, sizeof ksn);
        out_text("code", code, sizeof code);
    }
    return status;
}

static uint32_t check_reply(const struct object *it)
{
    if (!hex_of(it, "key", &a) || !hex_of(it, "ksn", &b) || !hex_of(it, "frame", &c))
        return BAD_INPUT;
    return dukpt_check_reply(a.data, a.size, b.data, b.size, c.data, c.size);
}

static uint32_t refusal(const struct object *it)
{
    uint8_t frame[DUKPT_FRAME_ROOM];
    uint32_t status, length, reason;
    if (!hex_of(it, "ksn", &a) || !number_of(it, "reason", &reason))
        return BAD_INPUT;
    status = dukpt_request_refusal(a.data, a.size, reason, frame, sizeof frame, &length);
    if (status == DUKPT_OK)
        out_hex("frame", frame, length);
    return status;
}

static uint32_t read_refusal(const struct object *it)
{
    uint8_t ksn[DUKPT_KSN_BYTES];
    uint32_t status, reason;
    if (!hex_of(it, "frame", &a))
        return BAD_INPUT;
    status = dukpt_read_refusal(a.data, a.size, ksn, sizeof ksn, &reason);
    if (status == DUKPT_OK) {
        out_hex("ksn", ksn, sizeof ksn);
        out_number("reason", reason);
    }
    return status;
}

/* Reversals, under the key of their own number. */

static uint32_t key_under(const struct bytes *bdk, const struct bytes *ksn,
                          uint8_t key[DUKPT_KEY_BYTES])
{
    uint32_t status = dukpt_check_usable(ksn->data, ksn->size);
    if (status != DUKPT_OK)
        return status;
    return dukpt_derive(bdk->data, bdk->size, ksn->data, ksn->size, key, DUKPT_KEY_BYTES);
}

static uint32_t reversal(const struct object *it)
{
    uint8_t key[DUKPT_KEY_BYTES], frame[DUKPT_FRAME_ROOM];
    uint32_t status, length;
    if (!hex_of(it, "bdk", &a) || !hex_of(it, "ksn", &b) || !hex_of(it, "reversed", &c))
        return BAD_INPUT;
    status = key_under(&a, &b, key);
    if (status == DUKPT_OK)
        status = dukpt_reversal_request(key, sizeof key, b.data, b.size, c.data, c.size, frame,
                                        sizeof frame, &length);
    if (status == DUKPT_OK)
        out_hex("frame", frame, length);
    return status;
}

static uint32_t read_reversal(const struct object *it)
{
    uint8_t ksn[DUKPT_KSN_BYTES], reversed[DUKPT_KSN_BYTES], mac[DUKPT_MAC_BYTES];
    uint32_t status;
    if (!hex_of(it, "frame", &a))
        return BAD_INPUT;
    status = dukpt_read_reversal(a.data, a.size, ksn, sizeof ksn, reversed, sizeof reversed, mac,
                                 sizeof mac);
    if (status != DUKPT_OK)
        return status;
    out_hex("ksn", ksn, sizeof ksn);
    out_hex("reversed", reversed, sizeof reversed);
    out_hex("mac", mac, sizeof mac);
    return DUKPT_OK;
}

static uint32_t read_reversal_reply(const struct object *it)
{
    uint8_t ksn[DUKPT_KSN_BYTES], reversed[DUKPT_KSN_BYTES];
    uint32_t status, state;
    if (!hex_of(it, "frame", &a))
        return BAD_INPUT;
    status = dukpt_read_reversal_reply(a.data, a.size, ksn, sizeof ksn, reversed, sizeof reversed,
                                       &state);
    if (status != DUKPT_OK)
        return status;
    out_hex("ksn", ksn, sizeof ksn);
    out_hex("reversed", reversed, sizeof reversed);
    out_number("state", state);
    out_hex("mac", a.data + a.size - DUKPT_MAC_BYTES, DUKPT_MAC_BYTES);
    return DUKPT_OK;
}

static uint32_t check_reversal_reply(const struct object *it)
{
    uint8_t key[DUKPT_KEY_BYTES], ksn[DUKPT_KSN_BYTES], reversed[DUKPT_KSN_BYTES];
    uint32_t status, state;
    if (!hex_of(it, "bdk", &a) || !hex_of(it, "ksn", &b) || !hex_of(it, "reversed", &c)
        || !hex_of(it, "frame", &d))
        return BAD_INPUT;
    status = key_under(&a, &b, key);
    if (status == DUKPT_OK)
        status = dukpt_check_reversal_reply(key, sizeof key, b.data, b.size, c.data, c.size, d.data,
                                            d.size);
    if (status == DUKPT_OK)
        status = dukpt_read_reversal_reply(d.data, d.size, ksn, sizeof ksn, reversed,
                                           sizeof reversed, &state);
    if (status == DUKPT_OK)
        out_number("state", state);
    return status;
}

static uint32_t frame_length(const struct object *it)
{
    uint32_t status, count;
    if (!hex_of(it, "bytes", &a))
        return BAD_INPUT;
    status = dukpt_frame_length(a.data, a.size, &count);
    if (status == DUKPT_OK)
        out_number("count", count);
    return status;
}

/* Images of terminals. */

static uint32_t image_by(call2 *call, const char *number, const struct object *it)
{
    uint8_t image[DUKPT_IMAGE_BYTES];
    uint32_t status;
    if (!hex_of(it, "initial_key", &a) || !hex_of(it, number, &b))
        return BAD_INPUT;
    status = call(a.data, a.size, b.data, b.size, image, sizeof image);
    if (status == DUKPT_OK)
        out_hex("image", image, sizeof image);
    return status;
}

static uint32_t load(const struct object *it)
{
    return image_by(dukpt_registers_load, "iksn", it);
}

static uint32_t image_at(const struct object *it)
{
    return image_by(dukpt_registers_at, "ksn", it);
}

static uint32_t number(const struct object *it)
{
    uint8_t ksn[DUKPT_KSN_BYTES];
    uint32_t status;
    if (!hex_of(it, "image", &a))
        return BAD_INPUT;
    status = dukpt_registers_number(a.data, a.size, ksn, sizeof ksn);
    if (status == DUKPT_OK)
        out_hex("ksn", ksn, sizeof ksn);
    return status;
}

static uint32_t take(const struct object *it)
{
    uint8_t image[DUKPT_IMAGE_BYTES], key[DUKPT_KEY_BYTES], ksn[DUKPT_KSN_BYTES];
    uint32_t status;
    if (!hex_of(it, "image", &a))
        return BAD_INPUT;
    status = dukpt_registers_next(a.data, a.size, image, sizeof image, key, sizeof key, ksn,
                                  sizeof ksn);
    if (status != DUKPT_OK)
        return status;
    out_hex("image", image, sizeof image);
    out_hex("key", key, sizeof key);
    out_hex("ksn", ksn, sizeof ksn);
    return DUKPT_OK;
}

static uint32_t reload(const struct object *it)
{
    uint8_t image[DUKPT_IMAGE_BYTES];
    uint32_t status;
    if (!hex_of(it, "image", &a) || !hex_of(it, "initial_key", &b) || !hex_of(it, "iksn", &c))
        return BAD_INPUT;
    status = dukpt_registers_reload(a.data, a.size, b.data, b.size, c.data, c.size, image,
                                    sizeof image);
    if (status == DUKPT_OK)
        out_hex("image", image, sizeof image);
    return status;
}

static const struct {
    const char *name;
    uint32_t (*run)(const struct object *);
} OPERATIONS[] = {
    {"initial_key", initial_key}, {"derive", derive}, {"derive_from_initial", derive_from_initial},
    {"usable", usable}, {"next_number", next_number}, {"registers", registers}, {"walk", walk},
    {"check_value", check_value}, {"cmac_check_value", cmac_check_value},
    {"tdes_encrypt", tdes_encrypt}, {"tdes_decrypt", tdes_decrypt}, {"cbc_encrypt", cbc_encrypt},
    {"cbc_decrypt", cbc_decrypt}, {"retail_mac", retail_mac}, {"cmac", cmac},
    {"pin_block", pin_block}, {"pin_of_block", pin_of_block}, {"encrypt_pin", encrypt_pin},
    {"decrypt_pin", decrypt_pin}, {"wrap", wrap}, {"unwrap", unwrap},
    {"payment_request", payment_request}, {"read_request", read_request},
    {"check_request", check_request}, {"request_pin", request_pin}, {"reply", reply},
    {"read_reply", read_reply}, {"check_reply", check_reply}, {"refusal", refusal},
    {"read_refusal", read_refusal}, {"reversal", reversal}, {"read_reversal", read_reversal},
    {"read_reversal_reply", read_reversal_reply}, {"check_reversal_reply", check_reversal_reply},
    {"frame_length", frame_length},
    {"load", load}, {"image_at", image_at}, {"number", number}, {"take", take}, {"reload", reload},
};

static uint32_t status_of(const struct object *it)
{
    const struct member *operation = member_of(it, "operation");
    for (size_t i = 0; operation && i < sizeof OPERATIONS / sizeof *OPERATIONS; i++)
        if (strcmp(operation->text, OPERATIONS[i].name) == 0)
            return OPERATIONS[i].run(it);
    return UNSUPPORTED;
}

/* Answers a line. */
static void answer_line(const char *line)
{
    static struct object it;
    const struct member *number;
    uint32_t status;
    answered = 0;
    answer[0] = 0;
    if (!read_object(line, &it) || !(number = member_of(&it, "tcId"))) {
        puts("{\"error\": \"the line is no flat object with a tcId\"}");
        return;
    }
    status = status_of(&it);
    if (status == DUKPT_OK)
        printf("{\"tcId\": %s%s}\n", number->text, answer);
    else if (status == UNSUPPORTED)
        printf("{\"tcId\": %s, \"unsupported\": true}\n", number->text);
    else
        printf("{\"tcId\": %s, \"error\": \"status %lu\"}\n", number->text, (unsigned long)status);
}

int main(void)
{
    static char line[4 * TEXT];
    while (fgets(line, sizeof line, stdin)) {
        answer_line(line);
        fflush(stdout);
    }
    return 0;
}
