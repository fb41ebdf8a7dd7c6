/* What plurals_catalog_check and plurals_catalog_say return and write: a model of docs/FORMATS.md, Catalogue of messages, which compares a
 * key with each one. */
#include "model.h"
#include <string.h>

static size_t four(struct slice bytes, size_t at) {
    const uint8_t *b = bytes.at + at;
    return b[0] | (size_t)b[1] << 8 | (size_t)b[2] << 16 | (size_t)b[3] << 24;
}

/* Piece k of the data: the key of entry k / 2, or its value. */
static struct slice piece_of(struct slice catalog, size_t k) {
    size_t start = k ? four(catalog, 4 * k) : 0, end = four(catalog, 4 * k + 4);
    return (struct slice){catalog.at + 4 + 8 * four(catalog, 0) + start, end - start};
}

static int order_of(struct slice a, struct slice b) {
    for (size_t k = 0; k < a.length && k < b.length; k++)
        if (a.at[k] != b.at[k]) return a.at[k] < b.at[k] ? -1 : 1;
    return a.length < b.length ? -1 : a.length > b.length;
}

/* Returns 0 if the bytes are a packed catalogue, or the fault. */
static int64_t entries_fault(struct slice catalog) {
    if (catalog.length < 4 || (catalog.length - 4) / 8 < four(catalog, 0)) return PLURALS_CATALOG_HEADER;
    size_t count = four(catalog, 0), data = catalog.length - 4 - 8 * count;
    if ((count ? four(catalog, 8 * count) : 0) != data) return PLURALS_CATALOG_LENGTH;
    for (size_t k = 1; k < 2 * count; k++)
        if (four(catalog, 4 * k + 4) < four(catalog, 4 * k)) return PLURALS_CATALOG_END;
    for (size_t k = 1; k < count; k++)
        if (order_of(piece_of(catalog, 2 * k - 2), piece_of(catalog, 2 * k)) >= 0) return PLURALS_CATALOG_ORDER;
    return 0;
}

int64_t model_catalog_check(struct slice catalog) {
    int64_t fault = entries_fault(catalog);
    for (size_t k = 0; !fault && k < four(catalog, 0); k++) fault = model_pattern_check(piece_of(catalog, 2 * k + 1));
    return fault;
}

int64_t model_catalog_say(struct slice cardinal, struct slice ordinal, struct slice catalog, struct slice key,
                          const struct plurals_argument *arguments, size_t count, uint8_t *out) {
    if (entries_fault(catalog)) return MODEL_UNTOLD;
    for (size_t k = 0; k < four(catalog, 0); k++) {
        struct slice block = piece_of(catalog, 2 * k + 1);
        if (order_of(piece_of(catalog, 2 * k), key)) continue;
        return model_is_told(block) ? model_packed_format(cardinal, ordinal, block, arguments, count, out) : MODEL_UNTOLD;
    }
    return PLURALS_NO_KEY;
}
