/* What plurals_pattern_pack and plurals_pattern_check return and write: a model of docs/FORMATS.md, Packed pattern, which looks for the
 * places of a part among all parts behind it. */
#include "parts.h"
#include <plurals.h>
#include <stdlib.h>
#include <string.h>

enum { MOST_PLACES = 8, MOST_COUNT = 65535 };

static struct parts parts;

static bool is_begin(const struct part *part) { return part->form >= BEGIN && part->form <= BEGIN_SELECT; }
static bool is_selector(const struct part *part) { return part->form == KEYWORD || part->form == EXACTLY; }

/* ---- places */

/* How many parts behind one are in its branch, or before the end of its argument. */
static size_t length_of(size_t k) {
    const struct part *part = &parts.at[k];
    size_t at = k + 1;
    while (at < parts.length && (parts.at[at].depth > part->depth || (is_begin(part) && is_selector(&parts.at[at])))) at++;
    return at - k - 1;
}

/* How many parts on the first selector is that is this keyword, or if there is none a number; 0 if none is. */
static size_t branch_of(size_t k, const char *keyword) {
    for (size_t at = k + 1; at < parts.length; at++) {
        const struct part *part = &parts.at[at];
        if (part->depth > parts.at[k].depth) continue;
        if (!keyword && part->form == EXACTLY) return at - k;
        if (keyword && part->form == KEYWORD && part->own.length == strlen(keyword) && !memcmp(part->own.at, keyword, part->own.length)) return at - k;
        if (!is_selector(part)) return 0;
    }
    return 0;
}

/* The places of a part, and how many they are. */
static size_t places_of(size_t k, size_t *places) {
    static const char *const categories[] = {"zero", "one", "two", "few", "many", "other"};
    const struct part *part = &parts.at[k];
    if (!is_begin(part) && !is_selector(part)) return 0;
    size_t count = 0, other = branch_of(k, "other");
    places[count++] = length_of(k);
    if (part->form == BEGIN_SELECT) places[count++] = other;
    if (part->form == EXACTLY || part->form == BEGIN || part->form == BEGIN_ORDINAL) places[count++] = branch_of(k, NULL);
    if (part->form == BEGIN || part->form == BEGIN_ORDINAL)
        for (size_t c = 0; c < 6; c++) {
            size_t place = branch_of(k, categories[c]);
            places[count++] = place ? place : other;
        }
    return count;
}

/* ---- a block that is made */

static size_t put_two(uint8_t *out, size_t number) {
    out[0] = (uint8_t)number, out[1] = (uint8_t)(number >> 8);
    return 2;
}

static size_t put(uint8_t *out, struct slice bytes) {
    if (bytes.length) memcpy(out, bytes.at, bytes.length);
    return bytes.length;
}

/* Writes the item of a part, and returns how long it is. */
static size_t put_part(size_t k, uint8_t *out) {
    const struct part *part = &parts.at[k];
    size_t places[MOST_PLACES], at = 0;
    out[at++] = (uint8_t)part->form, out[at++] = (uint8_t)part->depth;
    for (size_t count = places_of(k, places), p = 0; p < count; p++) at += put_two(out + at, places[p]);
    if (is_begin(part)) out[at++] = (uint8_t)part->name.length;
    at += put(out + at, part->name);
    return at + put(out + at, part->own);
}

int64_t model_pattern_pack(struct slice pattern, uint8_t *out) {
    int64_t fault = model_read_text(pattern, &parts);
    if (fault || parts.length == 0) return fault;
    if (parts.length > MOST_COUNT) return PLURALS_PACKING_COUNT_LIMIT;
    for (size_t k = 0; k < parts.length; k++)
        if (is_begin(&parts.at[k]) && parts.at[k].name.length > 255) return PLURALS_PACKING_PART;
    size_t data = 2 * parts.length, at = data;
    put_two(out, parts.length);
    for (size_t k = 0; k < parts.length; k++) {
        if (at - data > 65535) return PLURALS_PACKING_START_LIMIT;
        if (k) put_two(out + 2 * k, at - data);
        at += put_part(k, out + at);
    }
    return (int64_t)at;
}

/* ---- a block that is read */

static size_t two(const uint8_t *at) { return at[0] | (size_t)at[1] << 8; }

/* Reads an item as a part, and returns whether it is one but for its places, which it finds. One that is none is read as another, by
 * which the places of those before it are looked for: an end, or the beginning of a select. */
static bool read_part(struct slice item, struct part *part, struct slice *places) {
    static const size_t counts[] = {[BEGIN] = 8, [BEGIN_ORDINAL] = 8, [BEGIN_SELECT] = 2, [KEYWORD] = 1, [EXACTLY] = 2, [END] = 0};
    *places = (struct slice){item.at, 0};
    *part = (struct part){END, 0, {item.at, 0}, {item.at, 0}};
    if (item.length < 2) return false;
    uint8_t form = item.at[0];
    part->depth = item.at[1];
    size_t room = form <= END ? 2 * counts[form] : 0, rest = item.length - 2;
    if (room > rest) room = rest;
    *places = (struct slice){item.at + 2, room};
    struct slice own = {item.at + 2 + room, rest - room};
    bool is_right = part->depth <= 32 && form <= END;
    if ((form >= BEGIN && form <= BEGIN_SELECT) || form > END) {
        if (own.length == 0) return false;
        size_t name = own.at[0], given = own.length - 1;
        part->form = form > END ? BEGIN_SELECT : (enum form)form;
        part->name = (struct slice){own.at + 1, name < given ? name : given};
        part->own = (struct slice){own.at + 1 + part->name.length, given - part->name.length};
        return is_right && name <= given;
    }
    part->form = (enum form)form;
    *(part->form == ARGUMENT ? &part->name : &part->own) = own;
    return is_right && ((part->form != HASH && part->form != END) || own.length == 0);
}

static bool has_places(size_t k, struct slice given) {
    size_t places[MOST_PLACES], count = places_of(k, places);
    if (given.length != 2 * count) return false;
    for (size_t p = 0; p < count; p++)
        if (two(given.at + 2 * p) != places[p]) return false;
    return true;
}

/* How many branches the part behind this one is in, if it ends none. */
static size_t depth_behind(const struct part *part) { return part->depth + (is_begin(part) || is_selector(part)); }

static bool are_in_order(void) {
    static const struct part before = {TEXT, 0, {NULL, 0}, {NULL, 0}};
    const struct part *last = &before;
    for (size_t k = 0; k < parts.length; k++) {
        const struct part *part = &parts.at[k];
        bool ends = is_selector(part) || part->form == END;
        if (ends ? part->depth + 1 != depth_behind(last) : is_begin(last) || part->depth != depth_behind(last)) return false;
        last = part;
    }
    return depth_behind(last) == 0;
}

int64_t model_read_block(struct slice block, struct parts *out) {
    static struct slice places[MOST_PARTS];
    static bool are_parts[MOST_PARTS];
    size_t count = block.length < 2 ? 0 : two(block.at), before = 0;
    out->length = parts.length = 0;
    if (block.length == 0) return 0;
    if (block.length == 1) return PLURALS_PACKED_LIST_HEADER;
    if (count == 0) return PLURALS_PACKED_LIST_ZERO_COUNT;
    if (block.length < 2 * count) return PLURALS_PACKED_LIST_HEADER;
    const uint8_t *data = block.at + 2 * count;
    for (size_t k = 0; k < count; k++) {
        size_t length = block.length - 2 * count, end = k + 1 < count ? two(block.at + 2 * (k + 1)) : length;
        if (end < before || end > length) return PLURALS_PACKED_LIST_START;
        are_parts[k] = read_part((struct slice){data + before, end - before}, &parts.at[k], &places[k]);
        before = end;
    }
    parts.length = count;
    for (size_t k = 0; k < count; k++) {
        if (!are_parts[k]) return PLURALS_PACKED_PART;
        if (!has_places(k, places[k])) return PLURALS_PACKED_PLACE;
    }
    if (!are_in_order()) return PLURALS_PACKED_ORDER;
    memcpy(out->at, parts.at, count * sizeof *parts.at);
    out->length = count;
    return 0;
}

int64_t model_pattern_check(struct slice block) {
    static struct parts read;
    return model_read_block(block, &read);
}
