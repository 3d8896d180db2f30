/* Security modules of a host, in their bytes: entries with key blocks, their number, and the local
   master key with its length. */
#include "peer.h"
#include "peer_parts.h"

#include <dukpt.h>
#include <string.h>

enum {
    ENTRY_BYTES = 520,
    ENTRIES = 9,
    KIND_AT = 2,
    PREFIX_AT = 3,
    TEXT_AT = 8,
    COUNT_AT = ENTRY_BYTES * ENTRIES,
    LMK_SIZE_AT,
    LMK_AT
};

/* Whether the header of a key block is for a key of a kind. */
static int is_for(enum kind_of_key kind, const uint8_t *text)
{
    static const char *const fields[] = {"B0T", "P0T"}, *const modes[] = {"XN", "EBN"};
    return memcmp(text + 5, fields[kind], 3) == 0
           && memchr(modes[kind], text[8], strlen(modes[kind]));
}

const uint8_t *base_key(const struct module *module, const uint8_t *ksn)
{
    for (size_t at = 0; at < module->key_sets; at++)
        if (memcmp(module->prefixes[at], ksn, PREFIX_BYTES) == 0)
            return module->bases[at];
    return NULL;
}

/* Loads the key of a key block, or gives its first fault. */
static uint32_t load(struct module *module, enum kind_of_key kind, const uint8_t *prefix,
                     const struct argument *text)
{
    const struct argument lmk = {module->lmk, module->lmk_size, 0};
    struct wrapped found;
    uint32_t status = unwrap_text(&lmk, text, &found);
    if (status != DUKPT_OK)
        return status;
    if (!is_for(kind, text->bytes) || (kind == BASE_KEY && found.size != KEY_BYTES))
        return DUKPT_FAULT_WRONG_USE;
    if (kind == ZONE_KEY) {
        if (module->zone_size != 0)
            return DUKPT_FAULT_ZONE_TAKEN;
        memcpy(module->zone, found.key, module->zone_size = found.size);
        return DUKPT_OK;
    }
    if (base_key(module, prefix) != NULL)
        return DUKPT_FAULT_PREFIX_TAKEN;
    if (module->key_sets == MOST_KEY_SETS)
        return DUKPT_FAULT_SLOTS_FULL;
    memcpy(module->prefixes[module->key_sets], prefix, PREFIX_BYTES);
    memcpy(module->bases[module->key_sets++], found.key, KEY_BYTES);
    return DUKPT_OK;
}

/* Loads the key of an entry, and tells whether that is done. */
static int load_entry(struct module *module, uint8_t *entry)
{
    struct argument text = {entry + TEXT_AT, (size_t)(entry[0] << 8 | entry[1]), 0};
    if (text.size > MOST_TEXT)
        text.size = MOST_TEXT;
    return entry[KIND_AT] <= ZONE_KEY
           && load(module, (enum kind_of_key)entry[KIND_AT], entry + PREFIX_AT, &text) == DUKPT_OK;
}

int read_module(uint8_t *image, struct module *module)
{
    memset(module, 0, sizeof *module);
    /* What a length says beyond the image is not there. */
    module->lmk_size = image[LMK_SIZE_AT] > TRIPLE_BYTES ? TRIPLE_BYTES : image[LMK_SIZE_AT];
    memcpy(module->lmk, image + LMK_AT, module->lmk_size);
    if (!is_tdes_size(module->lmk_size) || image[COUNT_AT] > ENTRIES)
        return 0;
    for (size_t at = 0; at < image[COUNT_AT]; at++)
        if (!load_entry(module, image + ENTRY_BYTES * at))
            return 0;
    return 1;
}

void begin_module(const uint8_t *lmk, size_t size, uint8_t *image)
{
    memset(image, 0, MODULE_BYTES);
    image[LMK_SIZE_AT] = (uint8_t)size;
    memcpy(image + LMK_AT, lmk, size);
}

void append_entry(uint8_t *image, enum kind_of_key kind, const uint8_t *prefix,
                  const struct argument *text)
{
    uint8_t *entry = image + ENTRY_BYTES * image[COUNT_AT]++;
    entry[0] = (uint8_t)(text->size >> 8);
    entry[1] = (uint8_t)text->size;
    entry[KIND_AT] = (uint8_t)kind;
    memcpy(entry + PREFIX_AT, prefix, PREFIX_BYTES);
    memcpy(entry + TEXT_AT, text->bytes, text->size);
}

uint32_t peer_module_new(struct argument *given)
{
    if (!is_tdes_size(given[0].size) || !has_room(&given[1], MODULE_BYTES))
        return DUKPT_FAULT_LENGTH;
    begin_module(given[0].bytes, given[0].size, given[1].bytes);
    return DUKPT_OK;
}

/* Loads the key of a key block into an image. */
static uint32_t load_into(uint8_t *image, enum kind_of_key kind, const uint8_t *prefix,
                          const struct argument *text)
{
    struct module module;
    uint32_t status;
    if (!read_module(image, &module))
        return DUKPT_FAULT_NOT_A_MODULE;
    status = load(&module, kind, prefix, text);
    if (status == DUKPT_OK)
        append_entry(image, kind, prefix, text);
    return status;
}

uint32_t peer_module_load_bdk(struct argument *given)
{
    if (given[0].size != PREFIX_BYTES || given[2].size != MODULE_BYTES)
        return DUKPT_FAULT_LENGTH;
    return load_into(given[2].bytes, BASE_KEY, given[0].bytes, &given[1]);
}

uint32_t peer_module_load_zone(struct argument *given)
{
    static const uint8_t no_prefix[PREFIX_BYTES];
    if (given[1].size != MODULE_BYTES)
        return DUKPT_FAULT_LENGTH;
    return load_into(given[1].bytes, ZONE_KEY, no_prefix, &given[0]);
}
