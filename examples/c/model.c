/* The model of model.h. Each part names the page of docs/ that it is written from. */
#include "model.h"
#include <math.h>
#include <plurals.h>
#include <stdbool.h>
#include <stdio.h>
#include <stdlib.h>
#include <string.h>

static bool equals(struct slice slice, const char *text) {
    return slice.length == strlen(text) && memcmp(slice.at, text, slice.length) == 0;
}

static struct slice part(struct slice slice, size_t start, size_t end) { return (struct slice){slice.at + start, end - start}; }

/* ---- UTF-8 (RFC 3629) */

/* The length of the character at the front, or 0 if there is none. */
static size_t character(struct slice text) {
    const uint8_t *at = text.at;
    if (at[0] < 0x80) return 1;
    size_t length = at[0] < 0xc2 ? 0 : at[0] < 0xe0 ? 2 : at[0] < 0xf0 ? 3 : at[0] < 0xf5 ? 4 : 0;
    if (length == 0 || length > text.length) return 0;
    for (size_t k = 1; k < length; k++)
        if (at[k] >> 6 != 2) return 0;
    uint32_t first_two = (uint32_t)at[0] << 8 | at[1];
    bool is_overlong = (length == 3 && first_two < 0xe0a0) || (length == 4 && first_two < 0xf090);
    bool is_surrogate = first_two >= 0xeda0 && first_two <= 0xedbf;
    bool is_above = first_two > 0xf48f;
    return is_overlong || is_surrogate || is_above ? 0 : length;
}

bool model_is_utf8(struct slice text) {
    while (text.length > 0) {
        size_t length = character(text);
        if (length == 0) return false;
        text = part(text, length, text.length);
    }
    return true;
}

/* ---- docs/CONDITIONS.md: tokens */

enum token { END, OPERAND, MARK_C, MARK_E, EQUAL, NOT_EQUAL, ZERO, NUMBER, DOT, DOT_DOT, COMMA, MODULO, AT, TILDE, AND, OR, INTEGER, DECIMAL,
             ELLIPSIS, JUNK };

/* A text, the place in it behind the token, and the token with its value: an operand's code, or a number. */
struct reader {
    struct slice text;
    size_t place;
    enum token token;
    uint64_t value;
};

static const struct { const char *text; size_t begun; enum token token; } keywords[] = {
    {"and", 1, AND}, {"or", 1, OR}, {"!=", 1, NOT_EQUAL}, {"decimal", 1, DECIMAL}, {"\xe2\x80\xa6", 1, ELLIPSIS}, {"integer", 2, INTEGER},
};

/* The token of a keyword, or of its beginning with the first byte that doesn't fit; END if none is begun. */
static enum token keyword(struct slice text, size_t *length) {
    for (size_t k = 0; k < sizeof keywords / sizeof *keywords; k++) {
        const char *word = keywords[k].text;
        size_t same = 0;
        while (word[same] && same < text.length && text.at[same] == (uint8_t)word[same]) same++;
        if (same < keywords[k].begun) continue;
        bool is_whole = word[same] == 0;
        *length = is_whole || same == text.length ? same : same + 1;
        return is_whole ? keywords[k].token : JUNK;
    }
    return END;
}

static enum token number_token(struct slice text, size_t *length, uint64_t *value) {
    bool is_too_large = false;
    *value = 0;
    for (*length = 0; *length < text.length && text.at[*length] >= '0' && text.at[*length] <= '9'; ++*length) {
        *value = *value * 10 + (uint64_t)(text.at[*length] - '0');
        is_too_large |= *value > 4294967295;
        if (is_too_large) *value = 0;
    }
    return is_too_large ? JUNK : NUMBER;
}

static void advance(struct reader *reader) {
    static const char operands[] = "nivwft", signs[] = "=0,%@~";
    static const enum token sign_tokens[] = {EQUAL, ZERO, COMMA, MODULO, AT, TILDE};
    while (reader->place < reader->text.length && reader->text.at[reader->place] == ' ') reader->place++;
    struct slice rest = part(reader->text, reader->place, reader->text.length);
    size_t length = 1;
    reader->value = 0;
    if (rest.length == 0) {
        reader->token = END;
        return;
    }
    char byte = (char)rest.at[0];
    const char *found;
    if ((reader->token = keyword(rest, &length)) != END) {
    } else if (byte != 0 && (found = strchr(operands, byte))) {
        reader->token = OPERAND, reader->value = (uint64_t)(found - operands);
    } else if (byte == 'c') {
        reader->token = MARK_C, reader->value = 6;
    } else if (byte == 'e') {
        reader->token = MARK_E, reader->value = 7;
    } else if (byte != 0 && (found = strchr(signs, byte))) {
        reader->token = sign_tokens[found - signs];
    } else if (byte >= '1' && byte <= '9') {
        reader->token = number_token(rest, &length, &reader->value);
    } else if (byte == '.') {
        length = rest.length > 1 && rest.at[1] == '.' ? 2 : 1;
        reader->token = length == 2 ? DOT_DOT : DOT;
    } else {
        reader->token = JUNK;
    }
    reader->place += length;
}

/* ---- docs/FORMATS.md: a packed list, made */

enum { MOST_ITEMS = 20000 };

static struct list {
    size_t starts[MOST_ITEMS];
    size_t count, length;
    uint8_t data[MODEL_BYTES];
} relations, items;

static void add_item(struct list *list) {
    if (list->count == MOST_ITEMS) abort();
    list->starts[list->count++] = list->length;
}

static void add_byte(struct list *list, uint64_t byte) {
    if (list->length == MODEL_BYTES) abort();
    list->data[list->length++] = (uint8_t)byte;
}

static void add_four(struct list *list, uint64_t number) {
    for (int shift = 0; shift < 32; shift += 8) add_byte(list, number >> shift);
}

/* Writes a list that isn't empty, and returns how many bytes that is; or -1 if an item starts after 65535. */
static int64_t write_list(const struct list *list, uint8_t *out) {
    if (list->count == 0) return 0;
    size_t at = 0;
    out[at++] = (uint8_t)list->count, out[at++] = (uint8_t)(list->count >> 8);
    for (size_t k = 1; k < list->count; k++) {
        if (list->starts[k] > 65535) return -1;
        out[at++] = (uint8_t)list->starts[k], out[at++] = (uint8_t)(list->starts[k] >> 8);
    }
    memcpy(out + at, list->data, list->length);
    return (int64_t)(at + list->length);
}

/* ---- docs/CONDITIONS.md: grammar and faults; docs/FORMATS.md: a packed rule */

static bool is_value(const struct reader *reader) { return reader->token == NUMBER || reader->token == ZERO; }
static bool is_operand(const struct reader *reader) {
    return reader->token == OPERAND || reader->token == MARK_C || reader->token == MARK_E;
}

/* Reads the values of a relation, from the token after its operator on. */
static int read_values(struct reader *reader) {
    do {
        advance(reader);
        if (!is_value(reader)) return PLURALS_TEXT_EXPECTED_VALUE;
        uint64_t start = reader->value, end = start;
        advance(reader);
        if (reader->token == DOT_DOT) {
            advance(reader);
            if (!is_value(reader)) return PLURALS_TEXT_EXPECTED_VALUE;
            end = reader->value;
            advance(reader);
        }
        add_four(&relations, start), add_four(&relations, end);
    } while (reader->token == COMMA);
    return 0;
}

/* Reads a relation, whose operand is the token. */
static int read_relation(struct reader *reader, bool is_or) {
    uint64_t operand = reader->value, modulus = 0;
    advance(reader);
    if (reader->token == MODULO) {
        advance(reader);
        if (!is_value(reader)) return PLURALS_TEXT_EXPECTED_VALUE;
        modulus = reader->value;
        advance(reader);
    }
    if (reader->token != EQUAL && reader->token != NOT_EQUAL) return PLURALS_TEXT_EXPECTED_OPERATOR;
    add_item(&relations);
    add_byte(&relations, (is_or ? 0 : 128) | (reader->token == EQUAL ? 64 : 0) | operand);
    add_four(&relations, modulus);
    return read_values(reader);
}

static int read_condition(struct reader *reader) {
    int at_end = 0;
    bool is_or = false;
    relations.count = relations.length = 0;
    advance(reader);
    for (;;) {
        if (reader->token == END || reader->token == AT) return at_end;
        if (!is_operand(reader)) return PLURALS_TEXT_EXPECTED_OPERAND;
        int fault = read_relation(reader, is_or);
        if (fault) return fault;
        if (reader->token != AND && reader->token != OR) return 0;
        is_or = reader->token == OR;
        at_end = is_or ? PLURALS_TEXT_EXPECTED_AND_CONDITION : PLURALS_TEXT_EXPECTED_RELATION;
        advance(reader);
    }
}

/* ---- docs/CONDITIONS.md: samples */

static bool skip_digits(struct reader *reader) {
    bool is_any = is_value(reader);
    while (is_value(reader)) advance(reader);
    return is_any;
}

static int read_sample(struct reader *reader) {
    bool is_any = skip_digits(reader);
    if (reader->token == DOT) {
        is_any = true;
        advance(reader);
        skip_digits(reader);
    }
    if (reader->token == MARK_E || reader->token == MARK_C) {
        advance(reader);
        if (!is_value(reader)) return PLURALS_TEXT_EXPECTED_VALUE;
        advance(reader);
        return 0;
    }
    return is_any ? 0 : PLURALS_TEXT_EXPECTED_VALUE;
}

/* Reads a list of samples, from the token after its type on. */
static int read_sample_list(struct reader *reader) {
    advance(reader);
    for (;;) {
        int fault = read_sample(reader);
        if (!fault && reader->token == TILDE) {
            advance(reader);
            fault = read_sample(reader);
        }
        if (fault) return fault;
        if (reader->token != COMMA) return 0;
        advance(reader);
        if (reader->token == ELLIPSIS) {
            advance(reader);
            return 0;
        }
    }
}

static int read_samples(struct reader *reader) {
    while (reader->token == AT) {
        advance(reader);
        if (reader->token != INTEGER && reader->token != DECIMAL) return PLURALS_TEXT_EXPECTED_SAMPLE_TYPE;
        int fault = read_sample_list(reader);
        if (fault) return fault;
    }
    return 0;
}

/* Reads a rule's text into the relations, and returns its fault, or 0. */
static int read_rule(struct slice text) {
    static uint8_t room[MODEL_BYTES];
    struct reader reader = {text, 0, END, 0};
    int fault = read_condition(&reader);
    if (!fault) fault = read_samples(&reader);
    if (!fault && write_list(&relations, room) < 0) fault = PLURALS_TEXT_START_LIMIT;
    return fault;
}

int64_t model_is_read_whole(struct slice text) {
    struct reader reader = {text, 0, END, 0};
    return !read_condition(&reader) && !read_samples(&reader) && reader.token == END;
}

/* ---- docs/FORMATS.md: the rules of a language, made */

/* Reads the texts that aren't null into one block. */
static int64_t write_rules(const struct slice texts[5], uint8_t *out) {
    static uint8_t rule[MODEL_BYTES];
    items.count = items.length = 0;
    for (int key = 0; key < 5; key++) {
        if (!texts[key].at) continue;
        int fault = read_rule(texts[key]);
        if (fault) return fault;
        int64_t length = write_list(&relations, rule);
        add_item(&items);
        add_byte(&items, (uint64_t)key);
        for (int64_t k = 0; k < length; k++) add_byte(&items, rule[k]);
    }
    int64_t length = write_list(&items, out);
    return length < 0 ? PLURALS_RULES_LIMIT : length;
}

int64_t model_rules_from_texts(const struct slice texts[5], uint8_t *out) {
    struct slice given[5];
    for (int k = 0; k < 5; k++)
        if (!model_is_utf8(texts[k])) return PLURALS_UTF8;
    for (int k = 0; k < 5; k++) given[k] = texts[k].length ? texts[k] : (struct slice){NULL, 0};
    return write_rules(given, out);
}

/* ---- docs/FORMATS.md: what bytes are */

static size_t two_bytes(const uint8_t *at) { return (size_t)at[0] | (size_t)at[1] << 8; }
static uint64_t four_bytes(const uint8_t *at) { return two_bytes(at) | (uint64_t)two_bytes(at + 2) << 16; }

/* The three faults of a packed list, in the order of their numbers. */
enum { LIST_HEADER, LIST_ZERO_COUNT, LIST_START, LIST_FINE };

static size_t count_of(struct slice list) { return list.length ? two_bytes(list.at) : 0; }

/* An item of a list that is fine. */
static struct slice item_of(struct slice list, size_t k) {
    size_t count = count_of(list);
    struct slice data = part(list, 2 * count, list.length);
    size_t start = k == 0 ? 0 : two_bytes(list.at + 2 * k);
    size_t end = k + 1 == count ? data.length : two_bytes(list.at + 2 * k + 2);
    return part(data, start, end);
}

static int list_fault(struct slice list) {
    if (list.length == 0) return LIST_FINE;
    if (list.length == 1) return LIST_HEADER;
    size_t count = count_of(list), before = 0;
    if (count == 0) return LIST_ZERO_COUNT;
    if (list.length < 2 * count) return LIST_HEADER;
    for (size_t k = 1; k < count; k++) {
        size_t start = two_bytes(list.at + 2 * k);
        if (start < before || start > list.length - 2 * count) return LIST_START;
        before = start;
    }
    return LIST_FINE;
}

static int rule_fault(struct slice rule) {
    int fault = list_fault(rule);
    if (fault != LIST_FINE) return PLURALS_RULES_RULE_LIST_HEADER - fault;
    for (size_t k = 0; k < count_of(rule); k++) {
        struct slice item = item_of(rule, k);
        if (item.length < 5 || item.length % 8 != 5) return PLURALS_RULES_RULE_ITEM_LENGTH;
        if (item.at[0] % 64 > 7) return PLURALS_RULES_RULE_OPERAND;
    }
    return 0;
}

int64_t model_check_rules(struct slice rules) {
    int fault = list_fault(rules), before = -1;
    if (fault != LIST_FINE) return PLURALS_RULES_LIST_HEADER - fault;
    for (size_t k = 0; k < count_of(rules); k++) {
        struct slice item = item_of(rules, k);
        if (item.length == 0) return PLURALS_RULES_ITEM_EMPTY;
        if (item.at[0] > 4 || item.at[0] <= before) return PLURALS_RULES_KEY;
        before = item.at[0];
        if ((fault = rule_fault(part(item, 1, item.length)))) return fault;
    }
    return 0;
}

/* The list of the items of elements that are fine up to it. */
static struct slice items_of(struct slice elements) {
    bool has_items = elements.at[0] >> 7;
    return part(elements, has_items ? 2 + (size_t)elements.at[1] : elements.length, elements.length);
}

static struct slice default_of(struct slice elements) {
    bool has_items = elements.at[0] >> 7;
    return has_items ? part(elements, 2, 2 + (size_t)elements.at[1]) : part(elements, 1, elements.length);
}

static int elements_fault(struct slice elements) {
    if (elements.length == 0) return PLURALS_ELEMENTS_EMPTY;
    bool has_items = elements.at[0] >> 7;
    if (has_items && (elements.length < 2 || elements.length - 2 < elements.at[1])) return PLURALS_ELEMENTS_SHORT;
    if (elements.at[0] & 0x70) return PLURALS_ELEMENTS_PADDING;
    if (!model_is_utf8(default_of(elements))) return PLURALS_ELEMENTS_DEFAULT_TEXT;
    struct slice list = items_of(elements);
    int fault = list_fault(list);
    if (fault != LIST_FINE) return PLURALS_ELEMENTS_LIST_HEADER - fault;
    for (size_t k = 0; k < count_of(list); k++) {
        struct slice item = item_of(list, k);
        if (item.length == 0) return PLURALS_ELEMENTS_ITEM_EMPTY;
        if (item.at[0] >> 4 > 6) return PLURALS_ELEMENTS_KEY;
        if (!model_is_utf8(part(item, 1, item.length))) return PLURALS_ELEMENTS_ITEM_TEXT;
    }
    return 0;
}

/* ---- docs/NUMBERS.md */

enum { SIDE = 32767, GREATEST_EXPONENT = 255, KEPT = 18 };
static const uint64_t TEN_TO_18 = 1000000000000000000;

/* The digits of a written number, whose point was moved by its exponent. */
static struct places {
    uint8_t integer[SIDE + GREATEST_EXPONENT], fraction[SIDE];
    size_t integers, fractions;
    uint64_t exponent;
} places;

static size_t digits_at(struct slice text, size_t at) {
    size_t end = at;
    while (end < text.length && text.at[end] >= '0' && text.at[end] <= '9') end++;
    return end - at;
}

/* Reads a number into the places, and returns its fault, or 0. */
static int read_number(struct slice text) {
    if (!model_is_utf8(text)) return PLURALS_UTF8;
    size_t at = text.length && (text.at[0] == '+' || text.at[0] == '-'), integer = at, integers = digits_at(text, at), fraction = 0;
    size_t fractions = 0;
    at += integers;
    if (at < text.length && text.at[at] == '.') {
        fraction = ++at, fractions = digits_at(text, at), at += fractions;
        if (fractions == 0) return PLURALS_NUMBER_SYNTAX;
    }
    if (integers + fractions == 0) return PLURALS_NUMBER_SYNTAX;
    uint64_t exponent = 0;
    if (at < text.length && text.at[at] == 'c') {
        size_t digits = digits_at(text, ++at);
        if (digits < 1 || digits > 3) return PLURALS_NUMBER_SYNTAX;
        for (size_t k = 0; k < digits; k++) exponent = exponent * 10 + (uint64_t)(text.at[at + k] - '0');
        at += digits;
    }
    if (at != text.length) return PLURALS_NUMBER_SYNTAX;
    if (integers > SIDE || fractions > SIDE || exponent > GREATEST_EXPONENT) return PLURALS_NUMBER_LIMIT;
    memcpy(places.integer, text.at + integer, integers);
    if (integers == 0) places.integer[integers++] = '0';
    size_t moved = exponent < fractions ? (size_t)exponent : fractions;
    memcpy(places.integer + integers, text.at + fraction, moved);
    memset(places.integer + integers + moved, '0', (size_t)exponent - moved);
    memcpy(places.fraction, text.at + fraction + moved, fractions - moved);
    places.integers = integers + (size_t)exponent, places.fractions = fractions - moved, places.exponent = exponent;
    return 0;
}

struct operands {
    uint64_t i, v, w, f, t, c;
};

static uint64_t value_of(const uint8_t *digits, size_t count) {
    uint64_t value = 0;
    for (size_t k = 0; k < count; k++) value = value * 10 + (uint64_t)(digits[k] - '0');
    return value;
}

static struct operands kept(void) {
    struct operands kept = {0, 0, 0, 0, 0, places.exponent};
    size_t shown = places.fractions < KEPT ? places.fractions : KEPT, left = shown;
    kept.i = places.integers <= KEPT ? value_of(places.integer, places.integers)
                                     : value_of(places.integer + places.integers - KEPT, KEPT) + TEN_TO_18;
    while (left > 0 && places.fraction[left - 1] == '0') left--;
    kept.v = shown, kept.w = left;
    kept.f = value_of(places.fraction, shown), kept.t = value_of(places.fraction, left);
    return kept;
}

/* ---- docs/CONDITIONS.md: truth, of blocks that are fine */

static bool is_true_relation(struct slice relation, struct operands number) {
    const uint64_t values[8] = {number.i, number.i, number.v, number.w, number.f, number.t, number.c, number.c};
    unsigned operand = relation.at[0] % 64;
    uint64_t value = values[operand], modulus = four_bytes(relation.at + 1);
    bool is_in = false, is_equal = relation.at[0] >> 6 & 1, has_value = operand != 0 || number.w == 0;
    if (modulus) value %= modulus;
    for (size_t at = 5; at < relation.length; at += 8)
        is_in |= has_value && four_bytes(relation.at + at) <= value && value <= four_bytes(relation.at + at + 4);
    return is_in == is_equal;
}

static bool is_true(struct slice rule, struct operands number) {
    bool is_group = true;
    for (size_t k = 0; k < count_of(rule); k++) {
        struct slice relation = item_of(rule, k);
        bool begins = !(relation.at[0] >> 7);
        if (begins && is_group) return true;
        is_group = (begins || is_group) && is_true_relation(relation, number);
    }
    return is_group;
}

static int category_of(struct slice rules, struct operands number) {
    for (size_t k = 0; k < count_of(rules); k++) {
        struct slice item = item_of(rules, k);
        if (is_true(part(item, 1, item.length), number)) return item.at[0];
    }
    return PLURALS_OTHER;
}

int64_t model_category_of_integer(struct slice rules, uint64_t number) {
    int64_t fault = model_check_rules(rules);
    return fault ? fault : category_of(rules, (struct operands){number, 0, 0, 0, 0, 0});
}

int64_t model_categories_of_integers(struct slice rules, const uint64_t *numbers, size_t count, uint8_t *out) {
    int64_t fault = model_check_rules(rules);
    if (fault) return fault;
    for (size_t k = 0; k < count; k++) out[k] = (uint8_t)category_of(rules, (struct operands){numbers[k], 0, 0, 0, 0, 0});
    return (int64_t)count;
}

int64_t model_category_by_table(struct slice table, uint64_t number) {
    uint64_t bound = 0;
    if (table.length != 8 + 128 + 100) return PLURALS_TABLE_LENGTH;
    for (int k = 8; k-- > 0;) bound = 256 * bound + table.at[k];
    bool is_low = number < 128;
    if (!is_low && number < bound) return PLURALS_ASK_RULES;
    int entry = table.at[is_low ? 8 + (int)number : 8 + 128 + (int)(number % 100)];
    return entry > PLURALS_OTHER ? PLURALS_ASK_RULES : entry;
}

int64_t model_text_category_by_table(struct slice table, struct slice text) {
    int64_t told = model_category_by_table(table, 0);
    size_t at = text.length && text.at[0] == '+';
    uint64_t number = 0;
    if (told < 0) return told;
    if (!model_is_utf8(text)) return PLURALS_UTF8;
    if (at == text.length) return PLURALS_ASK_RULES;
    for (; at < text.length; at++) {
        if (text.at[at] < '0' || text.at[at] > '9') return PLURALS_ASK_RULES;
        uint64_t digit = text.at[at] - (uint64_t)'0';
        if (number > (UINT64_MAX - digit) / 10) return PLURALS_ASK_RULES;
        number = 10 * number + digit;
    }
    return model_category_by_table(table, number);
}

int64_t model_category_of_operands(struct slice rules, const uint64_t operands[6]) {
    int64_t fault = model_check_rules(rules);
    struct operands number = {operands[0], operands[1], operands[2], operands[3], operands[4], operands[5]};
    return fault ? fault : category_of(rules, number);
}

int64_t model_categories(struct slice rules) {
    int64_t fault = model_check_rules(rules), bits = 1 << PLURALS_OTHER;
    if (fault) return fault;
    for (size_t k = 0; k < count_of(rules); k++) bits |= 1 << item_of(rules, k).at[0];
    return bits;
}

int64_t model_category(struct slice rules, struct slice number) {
    int64_t fault = model_check_rules(rules);
    if (!fault) fault = read_number(number);
    return fault ? fault : category_of(rules, kept());
}

/* ---- docs/NUMBERS.md: what the library keeps of a number */

static bool is_within_bound(struct slice rules) {
    if (places.fractions > KEPT) return false;
    if (places.integers <= KEPT) return true;
    size_t zeros = 0;
    while (zeros < places.integers && places.integer[zeros] == '0') zeros++;
    if (places.integers - zeros <= KEPT) return false;
    for (size_t k = 0; k < count_of(rules); k++) {
        struct slice item = item_of(rules, k), rule = part(item, 1, item.length);
        for (size_t r = 0; r < count_of(rule); r++) {
            struct slice relation = item_of(rule, r);
            uint64_t modulus = four_bytes(relation.at + 1);
            if (relation.at[0] % 64 <= 1 && modulus && TEN_TO_18 % modulus) return false;
        }
    }
    return true;
}

int64_t model_is_exact(struct slice rules, struct slice number) {
    int64_t fault = model_check_rules(rules);
    if (!fault) fault = read_number(number);
    return fault ? fault : is_within_bound(rules);
}

int64_t model_sure_category(struct slice rules, struct slice number) {
    int64_t is_exact = model_is_exact(rules, number);
    if (is_exact < 0) return is_exact;
    return is_exact ? model_category(rules, number) : PLURALS_OUTSIDE_BOUND;
}

/* ---- docs/ELEMENTS.md: elements and messages */

static bool find_item(struct slice elements, unsigned key, struct slice *text) {
    struct slice list = items_of(elements);
    for (size_t k = 0; k < count_of(list); k++) {
        struct slice item = item_of(list, k);
        if (item.at[0] >> 4 != key) continue;
        *text = part(item, 1, item.length);
        return true;
    }
    return false;
}

/* The text of the element of a number, or a fault. */
static int64_t choose(struct slice rules, struct slice elements, struct slice number, struct slice *text) {
    int64_t fault = model_check_rules(rules);
    if (!fault) fault = elements_fault(elements);
    if (!fault) fault = read_number(number);
    if (fault) return fault;
    struct operands operands = kept();
    bool is_exactly = operands.v == 0 && operands.c == 0 && operands.i <= 1;
    if (is_exactly && find_item(elements, 5 + (unsigned)operands.i, text)) return 0;
    int category = category_of(rules, operands);
    if (category == PLURALS_OTHER || !find_item(elements, (unsigned)category, text)) *text = default_of(elements);
    return 0;
}

int64_t model_element(struct slice rules, struct slice elements, struct slice number, uint8_t *out) {
    struct slice text = {NULL, 0};
    int64_t fault = choose(rules, elements, number, &text);
    if (fault) return fault;
    if (text.length) memcpy(out, text.at, text.length);
    return (int64_t)text.length;
}

int64_t model_message(struct slice rules, struct slice elements, struct slice number, uint8_t *out) {
    struct slice text = {NULL, 0};
    size_t length = 0;
    int64_t fault = choose(rules, elements, number, &text);
    if (fault) return fault;
    for (size_t k = 0; k < text.length; k++) {
        if (length + number.length + 1 > MODEL_BYTES) abort();
        if (k + 1 < text.length && text.at[k] == '{' && text.at[k + 1] == '}') {
            memcpy(out + length, number.at, number.length);
            length += number.length, k++;
        } else {
            out[length++] = text.at[k];
        }
    }
    return (int64_t)length;
}

/* ---- JSON (RFC 8259) */

enum kind { NULL_VALUE, BOOLEAN, WHOLE, FLOAT, TEXT, LIST, OBJECT };

enum { MOST_NODES = 40000, GREATEST_DEPTH = 127 };

/* A value; key and place in the object or list that it is in. */
static struct node {
    enum kind kind;
    bool is_replaced; /* its key comes again later in the object */
    int64_t whole;
    struct slice text, key;
    int first, next; /* of what is in it; behind it; -1 for none */
} nodes[MOST_NODES];
static int node_count;

/* The bytes of texts, whose escapes are replaced. */
static uint8_t texts[MODEL_BYTES];
static size_t text_bytes;

struct json {
    struct slice text;
    size_t place;
};

static int peek(const struct json *json) { return json->place < json->text.length ? json->text.at[json->place] : -1; }

static void skip_space(struct json *json) {
    while (peek(json) == ' ' || peek(json) == '\t' || peek(json) == '\n' || peek(json) == '\r') json->place++;
}

static bool take(struct json *json, const char *word) {
    size_t length = strlen(word);
    bool is_here = json->text.length - json->place >= length && memcmp(json->text.at + json->place, word, length) == 0;
    if (is_here) json->place += length;
    return is_here;
}

static void put_character(uint32_t code) {
    static const uint32_t firsts[] = {0, 0, 0xc0, 0xe0, 0xf0};
    int length = code < 0x80 ? 1 : code < 0x800 ? 2 : code < 0x10000 ? 3 : 4;
    if (text_bytes + 4 > MODEL_BYTES) abort();
    for (int k = length - 1; k >= 0; k--)
        texts[text_bytes++] = (uint8_t)(length == 1 ? code : k == length - 1 ? firsts[length] | code >> 6 * k : 0x80 | (code >> 6 * k & 63));
}

static bool read_hex(struct json *json, uint32_t *code) {
    *code = 0;
    for (int k = 0; k < 4; k++, json->place++) {
        static const char digits[] = "0123456789abcdef";
        int byte = peek(json);
        const char *found = byte > 0 ? strchr(digits, byte >= 'A' && byte <= 'F' ? byte + 32 : byte) : NULL;
        if (!found) return false;
        *code = *code << 4 | (uint32_t)(found - digits);
    }
    return true;
}

static bool read_escape(struct json *json) {
    static const char names[] = "\"\\/bfnrt", meant[] = "\"\\/\b\f\n\r\t";
    int byte = peek(json);
    const char *found = byte > 0 ? strchr(names, byte) : NULL;
    json->place++;
    if (found) {
        put_character((uint8_t)meant[found - names]);
        return true;
    }
    uint32_t code, low;
    if (byte != 'u' || !read_hex(json, &code) || code >> 10 == 0x37) return false;
    if (code >> 10 == 0x36) {
        if (!take(json, "\\u") || !read_hex(json, &low) || low >> 10 != 0x37) return false;
        code = 0x10000 + ((code & 0x3ff) << 10 | (low & 0x3ff));
    }
    put_character(code);
    return true;
}

static bool read_text(struct json *json, struct slice *text) {
    size_t start = text_bytes;
    if (!take(json, "\"")) return false;
    while (!take(json, "\"")) {
        int byte = peek(json);
        if (byte < 0x20) return false;
        if (take(json, "\\")) {
            if (!read_escape(json)) return false;
            continue;
        }
        size_t length = character(part(json->text, json->place, json->text.length));
        if (length == 0 || text_bytes + length > MODEL_BYTES) return false;
        memcpy(texts + text_bytes, json->text.at + json->place, length);
        text_bytes += length, json->place += length;
    }
    *text = (struct slice){texts + start, text_bytes - start};
    return true;
}

static bool read_digits(struct json *json) {
    size_t digits = digits_at(json->text, json->place);
    json->place += digits;
    return digits > 0;
}

static bool read_json_number(struct json *json, struct node *node) {
    static char copy[MODEL_BYTES + 1];
    size_t start = json->place;
    bool is_whole = true, is_negative = take(json, "-");
    size_t digits = json->place;
    if (!take(json, "0") && !read_digits(json)) return false;
    struct slice integer = part(json->text, digits, json->place);
    if (take(json, ".")) {
        is_whole = false;
        if (!read_digits(json)) return false;
    }
    if (take(json, "e") || take(json, "E")) {
        is_whole = false;
        if (!take(json, "+")) take(json, "-");
        if (!read_digits(json)) return false;
    }
    size_t length = json->place - start;
    memcpy(copy, json->text.at + start, length);
    copy[length] = 0;
    if (isinf(strtod(copy, NULL))) return false;
    /* 2^64 - 1 and 2^63 have 20 and 19 digits. */
    const char *most = is_negative ? "9223372036854775808" : "18446744073709551615";
    bool is_kept = integer.length < strlen(most) || (integer.length == strlen(most) && memcmp(integer.at, most, integer.length) <= 0);
    bool is_minus_zero = is_negative && equals(integer, "0");
    node->kind = is_whole && is_kept && !is_minus_zero ? WHOLE : FLOAT;
    uint64_t value = node->kind == WHOLE ? value_of(integer.at, integer.length) : 0;
    node->whole = is_negative || value > 15 ? -1 : (int64_t)value;
    return true;
}

static int read_json_value(struct json *json, int depth);

/* Reads what is in a list or an object, whose first byte was read. */
static bool read_members(struct json *json, int index, int depth, const char *end) {
    int last = -1;
    bool is_object = nodes[index].kind == OBJECT;
    skip_space(json);
    if (take(json, end)) return true;
    do {
        struct slice key = {NULL, 0};
        skip_space(json);
        if (is_object) {
            if (!read_text(json, &key)) return false;
            skip_space(json);
            if (!take(json, ":")) return false;
        }
        int member = read_json_value(json, depth);
        if (member < 0) return false;
        nodes[member].key = key;
        for (int before = nodes[index].first; is_object && before >= 0; before = nodes[before].next)
            if (nodes[before].key.length == key.length && memcmp(nodes[before].key.at, key.at, key.length) == 0) nodes[before].is_replaced = true;
        if (last < 0) nodes[index].first = member;
        else nodes[last].next = member;
        last = member;
        skip_space(json);
    } while (take(json, ","));
    return take(json, end);
}

/* The index of the value, or -1. */
static int read_json_value(struct json *json, int depth) {
    skip_space(json);
    if (node_count == MOST_NODES) abort();
    int index = node_count++;
    struct node *node = &nodes[index];
    *node = (struct node){NULL_VALUE, false, -1, {NULL, 0}, {NULL, 0}, -1, -1};
    bool is_fine;
    if (take(json, "null")) {
        is_fine = true;
    } else if (take(json, "true") || take(json, "false")) {
        is_fine = true, node->kind = BOOLEAN;
    } else if (peek(json) == '"') {
        node->kind = TEXT, is_fine = read_text(json, &node->text);
    } else if (take(json, "[")) {
        node->kind = LIST, is_fine = depth < GREATEST_DEPTH && read_members(json, index, depth + 1, "]");
    } else if (take(json, "{")) {
        node->kind = OBJECT, is_fine = depth < GREATEST_DEPTH && read_members(json, index, depth + 1, "}");
    } else {
        is_fine = read_json_number(json, node);
    }
    return is_fine ? index : -1;
}

static bool has_float(int index) {
    if (nodes[index].kind == FLOAT) return true;
    for (int member = nodes[index].first; member >= 0; member = nodes[member].next)
        if (!nodes[member].is_replaced && has_float(member)) return true;
    return false;
}

/* Reads a JSON text as the first node, and returns its fault, or 0. */
static int read_json(struct slice text) {
    struct json json = {text, 0};
    node_count = 0, text_bytes = 0;
    if (read_json_value(&json, 0) < 0) return PLURALS_JSON;
    skip_space(&json);
    if (json.place != text.length) return PLURALS_JSON;
    return has_float(0) ? PLURALS_DOCUMENT_FLOAT : 0;
}

static int find(int object, struct slice key) {
    for (int member = nodes[object].first; member >= 0; member = nodes[member].next)
        if (!nodes[member].is_replaced && nodes[member].key.length == key.length
            && (key.length == 0 || memcmp(nodes[member].key.at, key.at, key.length) == 0))
            return member;
    return -1;
}

static int find_text(int object, const char *key) { return find(object, (struct slice){(const uint8_t *)key, strlen(key)}); }

/* As find_text, but null counts as no key. */
static int find_given(int object, const char *key) {
    int member = find_text(object, key);
    return member >= 0 && nodes[member].kind == NULL_VALUE ? -1 : member;
}

/* The member whose key comes next in the order of bytes, or -1. */
static int next_member(int object, int before) {
    int next = -1;
    for (int member = nodes[object].first; member >= 0; member = nodes[member].next) {
        if (nodes[member].is_replaced) continue;
        struct slice key = nodes[member].key, bounds[2] = {{NULL, 0}, {NULL, 0}};
        int sides[2] = {before, next}, orders[2];
        for (int k = 0; k < 2; k++) {
            if (sides[k] < 0) continue;
            bounds[k] = nodes[sides[k]].key;
            size_t both = key.length < bounds[k].length ? key.length : bounds[k].length;
            int order = both ? memcmp(key.at, bounds[k].at, both) : 0;
            orders[k] = order ? order : (key.length > bounds[k].length) - (key.length < bounds[k].length);
        }
        if ((before < 0 || orders[0] > 0) && (next < 0 || orders[1] < 0)) next = member;
    }
    return next;
}

/* ---- docs/JSON.md: documents */

static const char *const names[] = {"zero", "one", "two", "few", "many", "other"};

/* Finds the texts of five rules, and returns their fault, or 0. */
static int five_texts(int object, struct slice given[5]) {
    if (nodes[object].kind != OBJECT) return PLURALS_DOCUMENT_SHAPE;
    for (int k = 0; k < 5; k++) {
        int rule = find_given(object, names[k]), fault;
        given[k] = (struct slice){NULL, 0};
        if (rule < 0) continue;
        if (nodes[rule].kind != TEXT) return PLURALS_DOCUMENT_SHAPE;
        given[k] = nodes[rule].text;
        if ((fault = read_rule(given[k]))) return fault;
    }
    return 0;
}

/* The length of the category's name at the front of a text, or 0. */
static size_t name_at(struct slice text) {
    for (int k = 0; k < 6; k++) {
        size_t length = strlen(names[k]);
        if (text.length >= length && memcmp(text.at, names[k], length) == 0) return length;
    }
    return 0;
}

static bool is_name(struct slice text) { return text.length > 0 && name_at(text) == text.length; }

static bool is_range(struct slice text) {
    size_t length = name_at(text);
    return length > 0 && text.length > length + 2 && memcmp(text.at + length, "--", 2) == 0 && is_name(part(text, length + 2, text.length));
}

static int ranges_fault(int value) {
    if (nodes[value].kind != OBJECT) return PLURALS_DOCUMENT_SHAPE;
    int inner = find_text(value, "ranges");
    if (inner < 0 || nodes[inner].kind != OBJECT) return PLURALS_DOCUMENT_SHAPE;
    for (int range = next_member(inner, -1); range >= 0; range = next_member(inner, range)) {
        if (!is_range(nodes[range].key)) return PLURALS_DOCUMENT_RANGE_KEY;
        if (nodes[range].kind != TEXT) return PLURALS_DOCUMENT_SHAPE;
        if (!is_name(nodes[range].text)) return PLURALS_DOCUMENT_RANGE_VALUE;
    }
    return 0;
}

static int part_fault(int document, const char *name) {
    struct slice given[5];
    int object = find_given(document, name);
    if (object < 0) return 0;
    if (nodes[object].kind != OBJECT) return PLURALS_DOCUMENT_SHAPE;
    for (int locale = next_member(object, -1); locale >= 0; locale = next_member(object, locale)) {
        int fault = strcmp(name, "ranges") ? five_texts(locale, given) : ranges_fault(locale);
        if (fault) return fault;
    }
    return 0;
}

static const char *const parts[] = {"cardinal", "ordinal", "ranges"};

/* Finds what a document has for a locale in one of its parts, and returns the fault, or 0. */
static int find_locale(struct slice json, struct slice locale, const char *name, int *found) {
    if (!model_is_utf8(locale)) return PLURALS_UTF8;
    int fault = read_json(json);
    if (fault) return fault;
    if (nodes[0].kind != OBJECT) return PLURALS_DOCUMENT_SHAPE;
    for (int k = 0; k < 3; k++)
        if ((fault = part_fault(0, parts[k]))) return fault;
    int object = find_given(0, name);
    *found = object < 0 ? -1 : find(object, locale);
    return *found < 0 ? PLURALS_LOCALE : 0;
}

int64_t model_rules_from_document(struct slice json, struct slice locale, uint8_t rule_type, uint8_t *out) {
    if (rule_type > 1) return PLURALS_TYPE;
    int found, fault = find_locale(json, locale, parts[rule_type], &found);
    if (fault) return fault;
    struct slice given[5];
    five_texts(found, given);
    return write_rules(given, out);
}

/* ---- docs/C.md: the key of a locale */

enum { MOST_LOCALES = 32 };

static bool is_separator(int byte) { return byte == '-' || byte == '_'; }

static int folded(int byte) { return byte == '_' ? '-' : byte >= 'A' && byte <= 'Z' ? byte + 32 : byte; }

static bool is_same(struct slice one, struct slice other) {
    if (one.length != other.length) return false;
    for (size_t k = 0; k < one.length; k++)
        if (folded(one.at[k]) != folded(other.at[k])) return false;
    return true;
}

static struct slice language_of(struct slice locale) {
    size_t length = 0;
    while (length < locale.length && !is_separator(locale.at[length])) length++;
    return part(locale, 0, length);
}

/* The member of a locale: the one with its bytes, else the first, in the order of bytes, that is the same locale; or -1. */
static int member_of(int object, struct slice locale) {
    if (object < 0 || nodes[object].kind != OBJECT) return -1;
    int member = find(object, locale);
    if (member < 0) member = next_member(object, -1);
    else return member;
    while (member >= 0 && !is_same(nodes[member].key, locale)) member = next_member(object, member);
    return member;
}

/* Makes a locale the next one of its chain. Returns whether there is one. */
static bool go_on(struct slice *locale) {
    static const struct slice root = {(const uint8_t *)"root", 4};
    int parent = member_of(find_text(0, "parents"), *locale);
    struct slice named = parent >= 0 && nodes[parent].kind == TEXT ? nodes[parent].text : (struct slice){NULL, 0};
    size_t front = locale->length;
    while (front > 0 && !is_separator(locale->at[front - 1])) front--;
    if (front == 0) {
        if (!named.at && is_same(*locale, root)) return false;
        *locale = named.at ? named : root;
    } else {
        *locale = named.at && is_same(language_of(named), language_of(*locale)) ? named : part(*locale, 0, front - 1);
    }
    return true;
}

int64_t model_find_locale(struct slice json, struct slice locale, uint8_t type, uint8_t *out) {
    if (type > 2) return PLURALS_TYPE;
    if (!model_is_utf8(locale)) return PLURALS_UTF8;
    if (read_json(json) == PLURALS_JSON) return PLURALS_JSON;
    for (int k = 0; k < MOST_LOCALES; k++) {
        int member = member_of(find_text(0, parts[type]), locale);
        if (member >= 0) {
            memcpy(out, nodes[member].key.at, nodes[member].key.length);
            return (int64_t)nodes[member].key.length;
        }
        if (!go_on(&locale)) break;
    }
    return PLURALS_LOCALE;
}

/* ---- docs/ELEMENTS.md: ranges */

int64_t model_ranges_from_document(struct slice json, struct slice locale, uint8_t *out) {
    int found, fault = find_locale(json, locale, "ranges", &found);
    if (fault) return fault;
    int inner = find_text(found, "ranges");
    for (int cell = 0; cell < 36; cell++) {
        char key[32];
        snprintf(key, sizeof key, "%s--%s", names[cell / 6], names[cell % 6]);
        int value = find_text(inner, key);
        out[cell] = (uint8_t)(cell % 6);
        for (int k = 0; k < 6 && value >= 0; k++)
            if (equals(nodes[value].text, names[k])) out[cell] = (uint8_t)k;
    }
    return 36;
}

/* ---- docs/JSON.md, docs/ELEMENTS.md: elements */

/* Finds a value's metadata and text. */
static bool read_element(int value, int64_t *metadata, struct slice *text) {
    if (nodes[value].kind != LIST) return false;
    int first = nodes[value].first, second = first < 0 ? -1 : nodes[first].next;
    if (second < 0 || nodes[second].next >= 0) return false;
    if (nodes[first].kind != WHOLE || nodes[first].whole < 0 || nodes[second].kind != TEXT) return false;
    *metadata = nodes[first].whole, *text = nodes[second].text;
    return true;
}

static void add_element(uint64_t first, struct slice text) {
    add_item(&items);
    add_byte(&items, first);
    for (size_t k = 0; k < text.length; k++) add_byte(&items, text.at[k]);
}

/* Writes the default and the items. */
static int64_t write_elements(int64_t metadata, struct slice other, uint8_t *out) {
    bool has_items = items.count > 0;
    size_t at = 0;
    if (has_items && other.length > 255) return PLURALS_ELEMENTS_DEFAULT_LIMIT;
    out[at++] = (uint8_t)(has_items << 7 | metadata);
    if (has_items) out[at++] = (uint8_t)other.length;
    if (other.length) memcpy(out + at, other.at, other.length);
    at += other.length;
    int64_t length = write_list(&items, out + at);
    return length < 0 ? PLURALS_ELEMENTS_START_LIMIT : (int64_t)at + length;
}

int64_t model_elements_from_json(struct slice json, uint8_t *out) {
    static const char *const keys[] = {"zero", "one", "two", "few", "many", "explicit_zero", "explicit_one"};
    struct slice other, text;
    int64_t other_metadata, metadata;
    int fault = read_json(json);
    if (fault) return fault;
    if (nodes[0].kind != OBJECT) return PLURALS_DOCUMENT_SHAPE;
    int value = find_given(0, "other");
    if (value < 0 || !read_element(value, &other_metadata, &other)) return PLURALS_DOCUMENT_SHAPE;
    items.count = items.length = 0;
    for (int key = 0; key < 7; key++) {
        if ((value = find_given(0, keys[key])) < 0) continue;
        if (!read_element(value, &metadata, &text)) return PLURALS_DOCUMENT_SHAPE;
        bool is_other = metadata == other_metadata && text.length == other.length && memcmp(text.at, other.at, text.length) == 0;
        if (key >= 5 || !is_other) add_element((uint64_t)(key << 4 | metadata), text);
    }
    return write_elements(other_metadata, other, out);
}

int64_t model_elements_from_texts(const struct slice texts[8], uint8_t *out) {
    struct slice other = texts[0];
    for (int k = 0; k < 8; k++)
        if (!model_is_utf8(texts[k])) return PLURALS_UTF8;
    items.count = items.length = 0;
    for (int key = 0; key < 7; key++) {
        struct slice text = texts[key + 1];
        bool is_other = text.length == other.length && memcmp(text.at, other.at, text.length) == 0;
        if (text.length && (key >= 5 || !is_other)) add_element((uint64_t)key << 4, text);
    }
    return write_elements(0, other, out);
}

/* ---- docs/TRANSLATORS.md, docs/FORMATS.md: the catalogue of a document's patterns */

/* Whether a locale has a part that is something else than an object without members. */
static bool has_messages(int locale, const char *name) {
    int messages = nodes[locale].kind == OBJECT ? find_text(locale, name) : -1;
    return messages >= 0 && (nodes[messages].kind != OBJECT || next_member(messages, -1) >= 0);
}

/* Finds the patterns of a locale, and returns the fault, or 0. */
static int find_patterns(struct slice locale, int *patterns) {
    if (nodes[0].kind != OBJECT) return PLURALS_MESSAGES_NO_LOCALE;
    int found = locale.length ? find(0, locale) : next_member(0, -1);
    if (!locale.length && found < 0) return PLURALS_MESSAGES_NO_LOCALE;
    if (!locale.length && next_member(0, found) >= 0) return PLURALS_MESSAGES_SEVERAL_LOCALES;
    if (found < 0) return PLURALS_MESSAGES_ABSENT_LOCALE;
    if (has_messages(found, "cardinal")) return PLURALS_MESSAGES_CARDINAL_FORMS;
    if (has_messages(found, "ordinal")) return PLURALS_MESSAGES_ORDINAL_FORMS;
    *patterns = nodes[found].kind == OBJECT ? find_text(found, "patterns") : -1;
    return *patterns < 0 ? PLURALS_MESSAGES_NO_PATTERNS : 0;
}

static size_t put_four(uint8_t *out, size_t number) {
    for (int k = 0; k < 4; k++) out[k] = (uint8_t)(number >> 8 * k);
    return 4;
}

int64_t model_catalog_pack(struct slice json, struct slice locale, uint8_t *out) {
    int patterns = -1, fault;
    size_t count = 0, end = 0, at = 4;
    if (!model_is_utf8(locale)) return PLURALS_UTF8;
    if (read_json(json) == PLURALS_JSON) return PLURALS_JSON;
    if ((fault = find_patterns(locale, &patterns))) return fault;
    if (nodes[patterns].kind != OBJECT) return PLURALS_DOCUMENT_SHAPE;
    for (int one = next_member(patterns, -1); one >= 0; one = next_member(patterns, one), count++)
        if (nodes[one].kind != TEXT) return PLURALS_DOCUMENT_SHAPE;
    uint8_t *data = out + put_four(out, count) + 8 * count;
    for (int one = next_member(patterns, -1); one >= 0; one = next_member(patterns, one)) {
        struct slice key = nodes[one].key;
        if (key.length) memcpy(data + end, key.at, key.length);
        at += put_four(out + at, end += key.length);
        int64_t length = model_pattern_pack(nodes[one].text, data + end);
        if (length < 0) return length;
        at += put_four(out + at, end += (size_t)length);
    }
    return (int64_t)(at + end);
}
