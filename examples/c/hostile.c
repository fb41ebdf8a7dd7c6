/* Gives each export input whose answer is known: rows that are written by hand, each fault of each export among them, and random
 * ones, which are good, good with mistakes, or mean little. Arguments: how many calls, and a seed.
 *
 * The answer is known by a second way, the model of model.c: a call has to return what the model returns, and to write its bytes.
 *
 * Each slice lies between two pages that can't be touched, at one end of its own, so a read or a write outside of it is seen,
 * also where the library isn't compiled for the address sanitizer. malloc, realloc and free are wrapped at the link: some calls
 * are refused memory, a block that a call keeps is seen, and so is memory that is taken where the header says that none is.
 *
 * A call has to return PLURALS_MEMORY exactly if memory was refused; has to leave its input as it was, and of out all but the
 * result; has to take no memory before a fault of a block, a number, the type or UTF-8; and has to return the same when it is asked
 * again. */
#define _DEFAULT_SOURCE
#include "model.h"
#include <inttypes.h>
#include <plurals.h>
#include <stdbool.h>
#include <stdio.h>
#include <stdlib.h>
#include <string.h>
#include <sys/mman.h>
#include <unistd.h>

enum { MOST_SLICES = 8, MOST_BYTES = 1024, MOST_POOL = 64, RANDOM_BYTES = 64 };

/* ---- random numbers: splitmix64 */

static uint64_t state;

static uint64_t next(void) {
    uint64_t z = state += 0x9e3779b97f4a7c15;
    z = (z ^ (z >> 30)) * 0xbf58476d1ce4e5b9;
    z = (z ^ (z >> 27)) * 0x94d049bb133111eb;
    return z ^ (z >> 31);
}

/* A number below a bound that isn't 0. */
static size_t below(size_t bound) { return (size_t)(next() % bound); }

/* ---- memory */

/* Blocks that aren't freed, blocks that were asked for, and which of these is refused (0: none). */
static int64_t live, asked, refused;

static bool refuses(void) { return ++asked == refused; }

void *__real_malloc(size_t size);
void *__real_realloc(void *block, size_t size);
void __real_free(void *block);

void *__wrap_malloc(size_t size) {
    void *block = refuses() ? NULL : __real_malloc(size);
    live += block != NULL;
    return block;
}

void *__wrap_realloc(void *block, size_t size) {
    void *moved = refuses() ? NULL : __real_realloc(block, size);
    live += block == NULL && moved != NULL;
    return moved;
}

void __wrap_free(void *block) {
    live -= block != NULL;
    __real_free(block);
}

/* ---- texts and blocks */

struct text {
    uint8_t bytes[MOST_BYTES];
    size_t length;
};

enum kind { RULES, ELEMENTS, NUMBER, PATTERN, PACKED, CATALOG, MESSAGE_KEY, NAME, VALUE, DIGITS, RULE, DOCUMENT, ELEMENTS_JSON, KEYS, LOCALE, CHAINED, TEXT_OF_ELEMENT, TEXT_OF_RULE, MESSAGES, NAMED, TABLE,
            KINDS };

/* Of each kind the good ones, which mistakes are made in. */
static struct pool {
    struct text texts[MOST_POOL];
    size_t count;
} pools[KINDS];

/* Of the kinds that are texts the bytes that they are made of. */
static const char *const alphabets[KINDS] = {
    [NUMBER] = "0123456789+-.c",
    [PATTERN] = "{}'#=,: nsm01plural select other",
    [MESSAGE_KEY] = "abk",
    [NAME] = "nsm01",
    [VALUE] = "0123456789+-.cab",
    [DIGITS] = "0123456789+-",
    [RULE] = "nivwftce%=!,.~@ 0123456789andorinteger",
    [DOCUMENT] = "{}[]:,\"0123456789cardinlots ",
    [ELEMENTS_JSON] = "{}[]:,\"0123456789other one ",
    [KEYS] = "{}[]:,\"015cardinlotsparents-_ ",
    [LOCALE] = "aenrupl-",
    [CHAINED] = "aenrtoUPL-_",
    [TEXT_OF_ELEMENT] = "{} item\xc3\xa9",
    [TEXT_OF_RULE] = "nivwftce%=!,.~@ 0123456789andorinteger",
    [MESSAGES] = "{}[]:,\"'#=nsk01enpatternscardinlot ",
    [NAMED] = "enruEN",
};

static void add(enum kind kind, const void *bytes, size_t length) {
    struct pool *pool = &pools[kind];
    if (pool->count == MOST_POOL || length > MOST_BYTES) abort();
    memcpy(pool->texts[pool->count].bytes, bytes, length);
    pool->texts[pool->count++].length = length;
}

static void add_text(enum kind kind, const char *text) { add(kind, text, strlen(text)); }

/* The block of a pattern, if it isn't too long. */
static void pack(struct text *text) {
    static uint8_t block[MODEL_BYTES];
    int64_t length = model_pattern_pack((struct slice){text->bytes, text->length}, block);
    text->length = length < 0 || length > MOST_BYTES ? 0 : (size_t)length;
    memcpy(text->bytes, block, text->length);
}

static struct slice slice_of(const char *text) { return (struct slice){(const uint8_t *)text, strlen(text)}; }

static void add_rules(const char *zero, const char *one, const char *two, const char *few, const char *many) {
    static uint8_t block[MODEL_BYTES];
    const char *texts[] = {zero, one, two, few, many};
    struct slice slices[5];
    for (int k = 0; k < 5; k++) slices[k] = slice_of(texts[k]);
    int64_t length = model_rules_from_texts(slices, block);
    if (length < 0) abort();
    add(RULES, block, (size_t)length);
    for (int k = 0; k < 5; k++) add_text(RULE, texts[k]), add_text(TEXT_OF_RULE, texts[k]);
}

static void add_elements(const char *json) {
    static uint8_t block[MODEL_BYTES];
    int64_t length = model_elements_from_json(slice_of(json), block);
    if (length < 0) abort();
    add(ELEMENTS, block, (size_t)length);
    add_text(ELEMENTS_JSON, json);
}

/* A table that most numbers have a category in, under a bound of one or two bytes. */
static void good_table(struct text *text) {
    text->length = PLURALS_TABLE_BYTES;
    for (size_t k = 0; k < text->length; k++) text->bytes[k] = (uint8_t)(k < 8 ? (below(k + 1) || k > 1 ? 0 : next()) : below(7));
}

static void append_four(struct text *text, size_t number) {
    for (int k = 0; k < 4 && text->length < MOST_BYTES; k++) text->bytes[text->length++] = (uint8_t)(number >> 8 * k);
}

/* The catalogue of blocks under these keys, if it isn't too long. */
static void catalog_of(struct text *text, const char *const *keys, const struct text *blocks, size_t count) {
    size_t end = 0;
    text->length = 0;
    append_four(text, count);
    for (size_t k = 0; k < count; k++) append_four(text, end += strlen(keys[k])), append_four(text, end += blocks[k].length);
    if (text->length + end > MOST_BYTES) {
        text->length = 0;
        return;
    }
    for (size_t k = 0; k < count; k++) {
        memcpy(text->bytes + text->length, keys[k], strlen(keys[k])), text->length += strlen(keys[k]);
        memcpy(text->bytes + text->length, blocks[k].bytes, blocks[k].length), text->length += blocks[k].length;
    }
}

static void fill_pools(void) {
    static struct text table;
    for (int k = 0; k < 8; k++) good_table(&table), add(TABLE, table.bytes, table.length);
    add_rules("", "", "", "", "");
    add_rules("", "i = 1 and v = 0 @integer 1", "", "", "");
    add_rules("", "v = 0 and i % 10 = 1 and i % 100 != 11", "", "v = 0 and i % 10 = 2..4 and i % 100 != 12..14",
              "v = 0 and i % 10 = 0 or v = 0 and i % 10 = 5..9 or v = 0 and i % 100 = 11..14 @integer 0, 5~19, 100, …");
    add_rules("n = 0", "n = 1", "n = 2", "n % 100 = 3..10", "n % 100 = 11..99 @integer 11~26 @decimal 11.0, 1.1c2");
    add_rules("w = 0", "t % 10 = 1", "f = 20", "e = 6 or v != 1, 3..4", " ");
    add_rules("i % 3 = 2", "", "i % 3906250000 = 1", "n % 1000000 = 7", "n != 0..9");
    add_elements("{\"other\":[0,\"{} items\"],\"one\":[0,\"{} item\"]}");
    add_elements("{\"other\":[15,\"\"]}");
    add_elements("{\"zero\":[1,\"none\"],\"one\":[0,\"{}\"],\"two\":[2,\"{} {}\"],\"few\":[3,\"{\"],\"many\":[4,\"{{}}\"],"
                 "\"explicit_zero\":[5,\"\"],\"explicit_one\":[6,\"\\u00e9\"],\"other\":[0,\"}{\"]}");
    add(ELEMENTS, "\x80\0\0\0", 4);
    add(ELEMENTS, "\x80\1a\2\0\2\0\x10" "b\x10" "c", 10);
    add_text(RULE, "i = 1 or");
    add_text(ELEMENTS_JSON, "{\"other\":[0.5,\"x\"]}");
    add_text(ELEMENTS_JSON, "{\"other\":[16,\"x\"]}");
    add_text(ELEMENTS_JSON, "{\"one\":null,\"other\":[0,\"\\ud83d\\ude00\"],\"many\":[0,\"\\ud83d\\ude00\"],\"x\":[[[-1e2]]]}");
    const char *numbers[] = {"0", "1", "1.0", "-1", "+01.50", ".5", "22", "1c6", "1.2c255", "1c256", "0.000000000000000000001",
                             "100000000000000000000000000021", "999999999999999999", "1000000000000000001", "0000000000000000001",
                             "2000000000000000000", "0c17", "0c18", "1.0000000000000000000"};
    for (size_t k = 0; k < sizeof numbers / sizeof *numbers; k++) add_text(NUMBER, numbers[k]);
    add_text(DOCUMENT, "{}");
    add_text(DOCUMENT, "{\"cardinal\":{\"en\":{\"one\":\"i = 1 and v = 0\"},\"ru\":{\"few\":\"i % 10 = 2..4\"}}}");
    add_text(DOCUMENT, "{\"ordinal\":{\"en\":{\"one\":\"n % 10 = 1\",\"two\":\"i 1\"}}}");
    add_text(DOCUMENT, "{\"ranges\":{\"en\":{\"ranges\":{\"other--one\":\"few\"}}},\"ordinal\":{\"en\":{\"one\":\"n = 1\"}}}");
    add_text(DOCUMENT, "{\"ranges\":{\"en\":{\"ranges\":{\"other--none\":\"few\"}}}}");
    add_text(DOCUMENT, "{\"ranges\":{\"en\":{\"ranges\":{\"other--one\":\"fewer\"}}}}");
    add_text(PATTERN, "{s} has {n, plural, =0 {no files} one {# file} other {# files}}.");
    add_text(PATTERN, "{n, selectordinal, one {#st} two {#nd} few {#rd} other {#th}}");
    add_text(PATTERN, "{s, select, a {{n, plural, offset:1 one {#} other {{m}}}} other {'{'#}}");
    add_text(PATTERN, "I don't ''say'' '{it''s}' }#");
    for (size_t k = 0; k < pools[PATTERN].count; k++) {
        struct text text = pools[PATTERN].texts[k];
        pack(&text), add(PACKED, text.bytes, text.length);
        static struct text catalog;
        catalog_of(&catalog, (const char *const[]){"k"}, &text, 1), add(CATALOG, catalog.bytes, catalog.length);
    }
    const char *keys[] = {"", "a", "k", "kk"};
    for (size_t k = 0; k < sizeof keys / sizeof *keys; k++) add_text(MESSAGE_KEY, keys[k]);
    const char *digits[] = {"0", "7", "+12", "00128", "1000000", "18446744073709551615", "18446744073709551616", "1.0", "-1", "+", ""};
    for (size_t k = 0; k < sizeof digits / sizeof *digits; k++) add_text(DIGITS, digits[k]);
    add_text(NAME, "n");
    add_text(NAME, "s");
    add_text(VALUE, "a");
    add_text(VALUE, "");
    add_text(KEYS, "{}");
    add_text(KEYS, "{\"cardinal\":{\"en\":{},\"pt-PT\":{},\"root\":{}},\"ordinal\":{\"root\":{}},\"parents\":{\"pt-AO\":\"pt-PT\",\"sr-Latn\":\"root\"}}");
    add_text(KEYS, "{\"ranges\":{\"PT\":5,\"en_US\":1.5},\"cardinal\":{\"EN\":0,\"en\":0},\"parents\":{\"en\":\"pt\",\"pt\":\"en\"}}");
    add_text(MESSAGES, "{\"en\":{\"patterns\":{\"k\":\"{n, plural, one {# file} other {# files}}\",\"a\":\"\"}}}");
    add_text(MESSAGES, "{\"en\":{\"cardinal\":{},\"patterns\":{\"b\":\"{\",\"a\":5}},\"ru\":{\"cardinal\":{\"k\":{}}}}");
    add_text(MESSAGES, "{\"en\":{\"ordinal\":[],\"patterns\":{}},\"\":{\"patterns\":[1.5]}}");
    add_text(NAMED, "en");
    add_text(NAMED, "");
    add_text(LOCALE, "en");
    add_text(LOCALE, "ru");
    add_text(CHAINED, "pt_AO");
    add_text(CHAINED, "sr-Latn-RS");
    add_text(CHAINED, "En-us-a-b-c-d-e-f-g-h-i-j-k-l-m-n-o-p-q-r-s-t-u-v-w-x-y-z-0-1-2-3");
    add_text(TEXT_OF_ELEMENT, "{} items");
    add_text(TEXT_OF_ELEMENT, "");
}

static void random_text(enum kind kind, struct text *text) {
    const char *alphabet = below(2) ? alphabets[kind] : NULL;
    text->length = below(RANDOM_BYTES + 1);
    for (size_t k = 0; k < text->length; k++)
        text->bytes[k] = alphabet ? (uint8_t)alphabet[below(strlen(alphabet))] : (uint8_t)next();
}

/* Makes one mistake: a byte that is another, one that is missing or one too many, or an end that is cut off. */
static void spoil(enum kind kind, struct text *text) {
    const char *alphabet = below(4) ? alphabets[kind] : NULL;
    uint8_t byte = alphabet ? (uint8_t)alphabet[below(strlen(alphabet))] : below(2) ? (uint8_t)below(8) : (uint8_t)next();
    size_t at = text->length ? below(text->length) : 0;
    switch (text->length ? below(5) : 4) {
    case 0: text->bytes[at] = byte; break;
    case 1: text->bytes[at] ^= (uint8_t)(1u << below(8)); break;
    case 2: memmove(text->bytes + at, text->bytes + at + 1, --text->length - at); break;
    case 3: text->length = at; break;
    default:
        if (text->length == MOST_BYTES) return;
        memmove(text->bytes + at + 1, text->bytes + at, text->length++ - at);
        text->bytes[at] = byte;
    }
}

static void append(struct text *text, const char *piece) {
    size_t length = strlen(piece);
    if (text->length + length > MOST_BYTES) return;
    memcpy(text->bytes + text->length, piece, length);
    text->length += length;
}

static const char *one_of(const char *const *pieces, size_t count) { return pieces[below(count)]; }
#define ONE_OF(...) one_of((const char *const[]){__VA_ARGS__}, sizeof((const char *const[]){__VA_ARGS__}) / sizeof(const char *))

static const char *any_value(void) {
    return ONE_OF("0", "1", "2", "3", "4", "5", "10", "11", "14", "18", "99", "100", "1000000", "4294967295");
}

/* A condition, and samples or none. */
static void good_rule(struct text *text) {
    do {
        append(text, ONE_OF("n", "i", "v", "w", "f", "t", "c", "e", "n", "i"));
        if (below(3) == 0) append(text, "%"), append(text, ONE_OF("0", "2", "3", "7", "10", "60", "100", "1000", "1000000", "3906250000"));
        append(text, ONE_OF(" = ", " != ", "="));
        do {
            append(text, any_value());
            if (below(3) == 0) append(text, ".."), append(text, any_value());
        } while (below(3) == 0 && (append(text, ","), true));
    } while (below(2) && (append(text, ONE_OF(" and ", " or ")), true));
    if (below(4) == 0) append(text, ONE_OF(" @integer 1, 2~4, …", " @decimal 0.0~1.5", " @integer 1c6 @decimal .", " @integer …"));
}

/* A number, often with as many places as one more or less would make inexact. */
static void good_number(struct text *text) {
    const char *digits = ONE_OF("0", "01", "0123456789", "0123456789");
    size_t sides[2] = {below(4) ? below(4) : 16 + below(5), below(2) ? 0 : below(4) ? below(4) : 16 + below(5)};
    append(text, ONE_OF("", "", "-", "+"));
    for (int side = 0; side < 2; side++) {
        if (side == 1 && sides[1] == 0 && text->length > 1) break;
        if (side == 1) append(text, "."), sides[1]++;
        for (size_t k = 0; k < sides[side]; k++) append(text, (char[]){digits[below(strlen(digits))], 0});
    }
    if (below(3) == 0) append(text, ONE_OF("c0", "c1", "c2", "c3", "c6", "c17", "c18", "c255"));
}

static const char *any_name(void) { return ONE_OF("n", "s", "n", "s", "n", "s", "n", "s", "n", "m", " n ", "0", "s\xe2\x80\x8f"); }

/* A pattern, with arguments that are this deep at most. */
static void good_pattern(struct text *text, int depth) {
    while (below(3)) {
        size_t way = depth ? below(8) : 0;
        if (way < 4) append(text, ONE_OF("a ", "''", "'{'", "#", "'#'", "'}{'' '", "\xc3\xa9", "' ", "it's "));
        else append(text, "{"), append(text, way > 5 && below(4) ? "n" : any_name());
        if (way == 4) append(text, "}");
        if (way < 5) continue;
        append(text, way == 5 ? ",select," : ONE_OF(", plural ,", ",selectordinal,", ", Plural, "));
        if (way > 5 && below(2)) append(text, ONE_OF("offset:1 ", " offset: 0", "offset:12 ", "offset:100000000000000000000 "));
        while (below(4)) {
            append(text, ONE_OF("one", "few ", "other ", "many", "two", "zero", "a", way == 5 ? "b" : "=0", way == 5 ? "other" : "=1.50"));
            append(text, "{"), good_pattern(text, depth - 1), append(text, "}");
        }
        append(text, " other{"), good_pattern(text, depth - 1), append(text, "}}");
    }
}

/* The five rules of a locale, as JSON. */
static void good_five(struct text *text) {
    append(text, "{\"other\":\"\"");
    while (below(3)) {
        append(text, ",\""), append(text, ONE_OF("zero", "one", "two", "few", "many", "other", "one"));
        append(text, "\":");
        if (below(8)) append(text, "\""), good_rule(text), append(text, "\"");
        else append(text, ONE_OF("null", "5", "\"\"", "\"i 1\"", "1.0", "[]"));
    }
    append(text, "}");
}

static void good_ranges(struct text *text) {
    append(text, "{\"ranges\":{");
    for (bool is_first = true; below(2); is_first = false) {
        append(text, is_first ? "\"" : ",\""), append(text, ONE_OF("one", "two", "other", "many"));
        append(text, "--"), append(text, ONE_OF("zero", "few", "other", "mony")), append(text, "\":");
        append(text, ONE_OF("\"one\"", "\"other\"", "\"few\"", "\"fw\"", "5"));
    }
    append(text, "}}");
}

static void good_document(struct text *text) {
    append(text, "{");
    for (bool is_first = true; below(3); is_first = false) {
        bool are_ranges = below(4) == 0;
        append(text, is_first ? "" : ","), append(text, are_ranges ? "\"ranges\"" : ONE_OF("\"cardinal\"", "\"ordinal\""));
        append(text, ":{\""), append(text, ONE_OF("en", "ru", "", "z")), append(text, "\":");
        if (are_ranges) good_ranges(text);
        else good_five(text);
        if (below(2)) append(text, ",\"ru\":"), good_five(text);
        append(text, "}");
    }
    append(text, "}");
}

static const char *any_locale(void) {
    return ONE_OF("en", "en", "en-US", "EN_us", "pt_AO", "pt-PT", "pt", "root", "ROOT", "EN", "sr-Latn", "sr", "", "x", "-", "en-US-x");
}

/* A document of keys, whose values don't count, and parents. */
static void good_keys(struct text *text) {
    append(text, "{");
    for (bool is_first = true; below(4); is_first = false) {
        bool are_parents = below(3) == 0;
        append(text, is_first ? "\"" : ",\""), append(text, are_parents ? "parents" : ONE_OF("cardinal", "cardinal", "ordinal", "ranges"));
        append(text, "\":{");
        for (bool is_first_key = true; below(4); is_first_key = false) {
            append(text, is_first_key ? "\"" : ",\""), append(text, any_locale()), append(text, "\":");
            if (are_parents && below(8)) append(text, "\""), append(text, any_locale()), append(text, "\"");
            else append(text, ONE_OF("{}", "null", "1.5", "\"en\"", "[0]"));
        }
        append(text, "}");
    }
    append(text, "}");
}

static void good_elements(struct text *text) {
    append(text, "{\"other\":[0,\"{} x\"]");
    while (below(3)) {
        append(text, ",\""), append(text, ONE_OF("zero", "one", "two", "few", "many", "explicit_zero", "explicit_one", "other"));
        append(text, "\":"), append(text, ONE_OF("[0,\"{} x\"]", "[1,\"{} x\"]", "[15,\"{}{}\"]", "[0,\"\"]", "null", "[ 3 , \"a{}b{\" ]"));
    }
    append(text, "}");
}

static void good_catalog(struct text *text) {
    static const char *const keys[] = {"", "a", "aa", "ab", "b", "k", "ka"};
    enum { MOST = sizeof keys / sizeof *keys };
    static struct text blocks[MOST];
    const char *chosen[MOST];
    size_t count = 0;
    for (size_t k = 0; k < MOST; k++) {
        if (below(2)) continue;
        blocks[count].length = 0, good_pattern(&blocks[count], 1), pack(&blocks[count]);
        chosen[count++] = keys[k];
    }
    catalog_of(text, chosen, blocks, count);
}

/* A document of messages, most of which are patterns. */
static void good_messages(struct text *text) {
    append(text, "{");
    for (bool is_first = true; below(3) || is_first; is_first = false) {
        append(text, is_first ? "\"" : ",\""), append(text, ONE_OF("en", "en", "ru", "", "z")), append(text, "\":{");
        if (below(4) == 0) append(text, ONE_OF("\"cardinal\":{},", "\"cardinal\":{\"k\":{}},", "\"ordinal\":5,", "\"ordinal\":{},", "\"source\":1.5,"));
        append(text, ONE_OF("\"patterns\":{", "\"patterns\":{", "\"pattern\":{"));
        for (bool is_first_key = true; below(3); is_first_key = false) {
            append(text, is_first_key ? "\"" : ",\""), append(text, ONE_OF("k", "a", "aa", "", "\\u00e9", "b")), append(text, "\":");
            if (below(8)) append(text, "\""), good_pattern(text, 2), append(text, "\"");
            else append(text, ONE_OF("null", "5", "{\"one\":\"x\"}"));
        }
        append(text, "}}");
    }
    append(text, "}");
}

/* Makes the input good, if there is a way for its kind. */
static void make_good(enum kind kind, struct text *text) {
    static uint8_t block[MODEL_BYTES];
    text->length = 0;
    if ((kind == RULE || kind == TEXT_OF_RULE) && below(3)) good_rule(text);
    if (kind == NUMBER || (kind == VALUE && below(3))) good_number(text);
    else if (kind == VALUE) append(text, ONE_OF("a", "one", "", "\xc3\xa9"));
    if (kind == PATTERN) good_pattern(text, 3);
    if (kind == PACKED) good_pattern(text, 2), pack(text);
    if (kind == CATALOG) good_catalog(text);
    if (kind == MESSAGE_KEY) append(text, ONE_OF("", "a", "ab", "b", "k", "c"));
    if (kind == NAME) append(text, ONE_OF("n", "s", "m", "0"));
    if (kind == DIGITS) append(text, ONE_OF("", "", "+", "00"));
    while (kind == DIGITS && below(4)) append(text, ONE_OF("0", "1", "2", "5", "9", "28"));
    if (kind == DOCUMENT) good_document(text);
    if (kind == ELEMENTS_JSON) good_elements(text);
    if (kind == TABLE) good_table(text);
    if (kind == KEYS) good_keys(text);
    if (kind == LOCALE) append(text, ONE_OF("en", "ru", "z", ""));
    if (kind == NAMED) append(text, ONE_OF("en", "ru", ""));
    if (kind == MESSAGES) good_messages(text);
    if (kind == CHAINED) append(text, any_locale());
    while (kind == CHAINED && below(2)) append(text, ONE_OF("-x", "_US", "-us", "_Latn"));
    if (kind == TEXT_OF_ELEMENT) append(text, ONE_OF("{} items", "{} item", "", "{}{}", "\xc3\xa9"));
    if (kind == RULES) {
        static struct text rules[5];
        struct slice slices[5];
        for (int k = 0; k < 5; k++) {
            make_good(RULE, &rules[k]);
            slices[k] = (struct slice){rules[k].bytes, rules[k].length};
        }
        int64_t length = model_rules_from_texts(slices, block);
        if (length < 0 || length > MOST_BYTES) return;
        memcpy(text->bytes, block, (size_t)length), text->length = (size_t)length;
    }
    if (kind == ELEMENTS) {
        static struct text json;
        json.length = 0;
        good_elements(&json);
        int64_t length = model_elements_from_json((struct slice){json.bytes, json.length}, block);
        if (length < 0 || length > MOST_BYTES) return;
        memcpy(text->bytes, block, (size_t)length), text->length = (size_t)length;
    }
}

static void make_whole(enum kind kind, struct text *text) {
    if (below(2)) *text = pools[kind].texts[below(pools[kind].count)];
    else make_good(kind, text);
}

static void make_text(enum kind kind, struct text *text) {
    if (below(10) == 0) {
        random_text(kind, text);
        return;
    }
    make_whole(kind, text);
    for (size_t chance = 2; below(chance) == 0; chance++) spoil(kind, text);
    if (kind == PACKED && !model_is_told((struct slice){text->bytes, text->length})) text->length = 0;
}

/* ---- rooms: bytes between two pages that can't be touched */

static uint8_t *rooms[MOST_SLICES + 1];
static size_t room_size;

static void make_rooms(void) {
    size_t page = (size_t)sysconf(_SC_PAGESIZE);
    room_size = (MODEL_BYTES + page - 1) / page * page;
    for (size_t k = 0; k < MOST_SLICES + 1; k++) {
        uint8_t *start = mmap(NULL, room_size + 2 * page, PROT_NONE, MAP_PRIVATE | MAP_ANONYMOUS, -1, 0);
        if (start == MAP_FAILED || mprotect(start + page, room_size, PROT_READ | PROT_WRITE)) abort();
        rooms[k] = start + page;
    }
}

/* The place of that many bytes, at one of the two ends of a room. At the last end a slice without bytes has a pointer that
 * can't be read. */
static uint8_t *place(size_t room, size_t length) { return below(2) ? rooms[room] : rooms[room] + room_size - length; }

/* ---- the exports */

/* What a call gets beside its slices. */
static uint64_t number, operands[6];
enum { MANY = 600 };
static uint8_t type;
/* The kinds of two arguments, and how many there are. */
static uint32_t kinds_of_arguments[2];
static size_t arguments_len;

/* A slice as a call's two arguments. */
#define TEXT(k) (const char *)s[k].at, s[k].length
#define BLOCK(k) s[k].at, s[k].length

static int64_t rules_from_document(const struct slice *s, uint8_t *out, size_t room) {
    return plurals_rules_from_document(TEXT(0), TEXT(1), type, out, room);
}
static int64_t find_locale(const struct slice *s, uint8_t *out, size_t room) {
    return plurals_find_locale(TEXT(0), TEXT(1), type, (char *)out, room);
}
static int64_t rules_from_texts(const struct slice *s, uint8_t *out, size_t room) {
    return plurals_rules_from_texts(TEXT(0), TEXT(1), TEXT(2), TEXT(3), TEXT(4), out, room);
}
static int64_t check_rules(const struct slice *s, uint8_t *out, size_t room) {
    (void)out, (void)room;
    return plurals_check_rules(BLOCK(0));
}
static int64_t category_of_integer(const struct slice *s, uint8_t *out, size_t room) {
    (void)out, (void)room;
    return plurals_category_of_integer(BLOCK(0), number);
}
static int64_t category_of_signed_integer(const struct slice *s, uint8_t *out, size_t room) {
    (void)out, (void)room;
    return plurals_category_of_signed_integer(BLOCK(0), (int64_t)number);
}
static int64_t category_of_operands(const struct slice *s, uint8_t *out, size_t room) {
    (void)out, (void)room;
    return plurals_category_of_operands(BLOCK(0), operands[0], operands[1], operands[2], operands[3], operands[4], operands[5]);
}
/* The category by the table of the rules, or by the rules where it asks. */
static int64_t table_of_rules(const struct slice *s, uint8_t *out, size_t room) {
    static uint8_t table[PLURALS_TABLE_BYTES];
    (void)out, (void)room;
    int64_t length = plurals_table_of_rules(BLOCK(0), table, sizeof table);
    if (length != PLURALS_TABLE_BYTES) return length;
    int32_t told = plurals_category_by_table(table, sizeof table, number);
    return told == PLURALS_ASK_RULES && number >= 128 ? plurals_category_of_integer(BLOCK(0), number) : told;
}
static int64_t category_by_table(const struct slice *s, uint8_t *out, size_t room) {
    (void)out, (void)room;
    return plurals_category_by_table(BLOCK(0), number);
}
static int64_t text_category_by_table(const struct slice *s, uint8_t *out, size_t room) {
    (void)out, (void)room;
    return plurals_text_category_by_table(BLOCK(0), TEXT(1));
}
/* Six integers, or more than the library makes a table for. */
static size_t fill_many(uint64_t many[MANY]) {
    size_t count = number % 8 ? 6 : MANY;
    for (size_t k = 0; k < count; k++) many[k] = operands[k % 6] + k / 6;
    return count;
}
static int64_t categories_of_integers(const struct slice *s, uint8_t *out, size_t room) {
    static uint64_t many[MANY];
    size_t count = fill_many(many);
    return plurals_categories_of_integers(BLOCK(0), many, count, out, room);
}
static int64_t categories(const struct slice *s, uint8_t *out, size_t room) {
    (void)out, (void)room;
    return plurals_categories(BLOCK(0));
}
static int64_t ranges_from_document(const struct slice *s, uint8_t *out, size_t room) {
    return plurals_ranges_from_document(TEXT(0), TEXT(1), out, room);
}
static int64_t elements_from_texts(const struct slice *s, uint8_t *out, size_t room) {
    return plurals_elements_from_texts(TEXT(0), TEXT(1), TEXT(2), TEXT(3), TEXT(4), TEXT(5), TEXT(6), TEXT(7), out, room);
}
static int64_t category(const struct slice *s, uint8_t *out, size_t room) {
    (void)out, (void)room;
    return plurals_category(BLOCK(0), TEXT(1));
}
static int64_t is_exact(const struct slice *s, uint8_t *out, size_t room) {
    (void)out, (void)room;
    return plurals_is_exact(BLOCK(0), TEXT(1));
}
static int64_t sure_category(const struct slice *s, uint8_t *out, size_t room) {
    (void)out, (void)room;
    return plurals_sure_category(BLOCK(0), TEXT(1));
}
static int64_t is_read_whole(const struct slice *s, uint8_t *out, size_t room) {
    (void)out, (void)room;
    return plurals_is_read_whole(TEXT(0));
}
static int64_t elements_from_json(const struct slice *s, uint8_t *out, size_t room) {
    return plurals_elements_from_json(TEXT(0), out, room);
}
static int64_t element(const struct slice *s, uint8_t *out, size_t room) {
    return plurals_element(BLOCK(0), BLOCK(1), TEXT(2), (char *)out, room);
}
static int64_t message(const struct slice *s, uint8_t *out, size_t room) {
    return plurals_message(BLOCK(0), BLOCK(1), TEXT(2), (char *)out, room);
}

/* The arguments, whose names and values are the slices from the fourth on. */
static const struct plurals_argument *arguments_of(const struct slice *s) {
    static struct plurals_argument arguments[2];
    for (size_t k = 0; k < 2; k++) arguments[k] = (struct plurals_argument){TEXT(3 + 2 * k), TEXT(4 + 2 * k), kinds_of_arguments[k]};
    return arguments;
}
static int64_t pattern_format(const struct slice *s, uint8_t *out, size_t room) {
    return plurals_pattern_format(BLOCK(0), BLOCK(1), TEXT(2), arguments_of(s), arguments_len, (char *)out, room);
}

static int64_t pattern_pack(const struct slice *s, uint8_t *out, size_t room) { return plurals_pattern_pack(TEXT(0), out, room); }
static int64_t pattern_check(const struct slice *s, uint8_t *out, size_t room) {
    (void)out, (void)room;
    return plurals_pattern_check(BLOCK(0));
}
static int64_t packed_format(const struct slice *s, uint8_t *out, size_t room) {
    return plurals_packed_format(BLOCK(0), BLOCK(1), BLOCK(2), arguments_of(s), arguments_len, (char *)out, room);
}

static int64_t catalog_pack(const struct slice *s, uint8_t *out, size_t room) { return plurals_catalog_pack(TEXT(0), TEXT(1), out, room); }
static int64_t catalog_check(const struct slice *s, uint8_t *out, size_t room) {
    (void)out, (void)room;
    return plurals_catalog_check(BLOCK(0));
}
static int64_t catalog_say(const struct slice *s, uint8_t *out, size_t room) {
    return plurals_catalog_say(BLOCK(0), BLOCK(1), BLOCK(2), TEXT(7), arguments_of(s), arguments_len, (char *)out, room);
}

/* The same by the model. */

static int64_t model_of_document(const struct slice *s, uint8_t *out) { return model_rules_from_document(s[0], s[1], type, out); }
static int64_t model_of_key(const struct slice *s, uint8_t *out) { return model_find_locale(s[0], s[1], type, out); }
static int64_t model_of_texts(const struct slice *s, uint8_t *out) { return model_rules_from_texts(s, out); }
static int64_t model_of_check(const struct slice *s, uint8_t *out) { return (void)out, model_check_rules(s[0]); }
static int64_t model_of_integer(const struct slice *s, uint8_t *out) { return (void)out, model_category_of_integer(s[0], number); }
static int64_t model_of_signed_integer(const struct slice *s, uint8_t *out) {
    return (void)out, model_category_of_integer(s[0], number >> 63 ? 0 - number : number);
}
static int64_t model_of_operands(const struct slice *s, uint8_t *out) { return (void)out, model_category_of_operands(s[0], operands); }
static int64_t model_of_table(const struct slice *s, uint8_t *out) { return (void)out, model_category_by_table(s[0], number); }
static int64_t model_of_text_by_table(const struct slice *s, uint8_t *out) { return (void)out, model_text_category_by_table(s[0], s[1]); }
static int64_t model_of_many(const struct slice *s, uint8_t *out) {
    static uint64_t many[MANY];
    size_t count = fill_many(many);
    return model_categories_of_integers(s[0], many, count, out);
}
static int64_t model_of_categories(const struct slice *s, uint8_t *out) { return (void)out, model_categories(s[0]); }
static int64_t model_of_ranges(const struct slice *s, uint8_t *out) { return model_ranges_from_document(s[0], s[1], out); }
static int64_t model_of_element_texts(const struct slice *s, uint8_t *out) { return model_elements_from_texts(s, out); }
static int64_t model_of_category(const struct slice *s, uint8_t *out) { return (void)out, model_category(s[0], s[1]); }
static int64_t model_of_exactness(const struct slice *s, uint8_t *out) { return (void)out, model_is_exact(s[0], s[1]); }
static int64_t model_of_sure_category(const struct slice *s, uint8_t *out) { return (void)out, model_sure_category(s[0], s[1]); }
static int64_t model_of_wholeness(const struct slice *s, uint8_t *out) { return (void)out, model_is_read_whole(s[0]); }
static int64_t model_of_json(const struct slice *s, uint8_t *out) { return model_elements_from_json(s[0], out); }
static int64_t model_of_element(const struct slice *s, uint8_t *out) { return model_element(s[0], s[1], s[2], out); }
static int64_t model_of_message(const struct slice *s, uint8_t *out) { return model_message(s[0], s[1], s[2], out); }

static int64_t model_of_pattern(const struct slice *s, uint8_t *out) {
    return model_pattern_format(s[0], s[1], s[2], arguments_of(s), arguments_len, out);
}

static int64_t model_of_pack(const struct slice *s, uint8_t *out) { return model_pattern_pack(s[0], out); }
static int64_t model_of_pattern_check(const struct slice *s, uint8_t *out) { return (void)out, model_pattern_check(s[0]); }
static int64_t model_of_packed(const struct slice *s, uint8_t *out) {
    return model_packed_format(s[0], s[1], s[2], arguments_of(s), arguments_len, out);
}

static int64_t model_of_catalog_pack(const struct slice *s, uint8_t *out) { return model_catalog_pack(s[0], s[1], out); }
static int64_t model_of_catalog_check(const struct slice *s, uint8_t *out) { return (void)out, model_catalog_check(s[0]); }
static int64_t model_of_catalog(const struct slice *s, uint8_t *out) {
    return model_catalog_say(s[0], s[1], s[2], s[7], arguments_of(s), arguments_len, out);
}

/* Groups of faults, as bits. */
enum { OF_MEMORY = 1, OF_UTF8 = 2, OF_TYPE = 4, OF_NUMBER = 8, OF_TEXT = 16, OF_RULES = 32, OF_PACKED_RULES = 64, OF_ELEMENTS = 128,
       OF_PACKED_ELEMENTS = 256, OF_JSON = 512, OF_DOCUMENT = 1024, OF_BOUND = 2048, OF_TABLE = 4096, OF_PATTERN = 8192, OF_ARGUMENT = 16384, OF_KEY = 32768,
       OF_PACKED = 65536, OF_PACKING = 131072, OF_CATALOG = 262144, OF_NO_KEY = 524288, OF_MESSAGES = 1048576, OF_ENTRIES = 2097152 };

static const struct export {
    const char *name;
    int64_t (*ask)(const struct slice *, uint8_t *, size_t);
    int64_t (*model)(const struct slice *, uint8_t *);
    /* The greatest result, or -1 for a length, whose bytes are written. */
    int64_t greatest;
    int faults;
    int slices;
    enum kind kinds[MOST_SLICES];
} exports[] = {
    {"plurals_rules_from_document", rules_from_document, model_of_document, -1,
     OF_MEMORY | OF_UTF8 | OF_TYPE | OF_TEXT | OF_PACKED_RULES | OF_JSON | OF_DOCUMENT, 2, {DOCUMENT, LOCALE}},
    {"plurals_find_locale", find_locale, model_of_key, -1, OF_MEMORY | OF_UTF8 | OF_TYPE | OF_KEY, 2, {KEYS, CHAINED}},
    {"plurals_rules_from_texts", rules_from_texts, model_of_texts, -1, OF_MEMORY | OF_UTF8 | OF_TEXT | OF_PACKED_RULES, 5,
     {RULE, RULE, RULE, RULE, RULE}},
    {"plurals_check_rules", check_rules, model_of_check, 0, OF_RULES, 1, {RULES}},
    {"plurals_category_of_integer", category_of_integer, model_of_integer, PLURALS_OTHER, OF_RULES, 1, {RULES}},
    {"plurals_category_of_signed_integer", category_of_signed_integer, model_of_signed_integer, PLURALS_OTHER, OF_RULES, 1, {RULES}},
    {"plurals_category_of_operands", category_of_operands, model_of_operands, PLURALS_OTHER, OF_RULES, 1, {RULES}},
    {"plurals_categories_of_integers", categories_of_integers, model_of_many, -1, OF_RULES, 1, {RULES}},
    {"plurals_table_of_rules", table_of_rules, model_of_integer, PLURALS_OTHER, OF_RULES, 1, {RULES}},
    {"plurals_category_by_table", category_by_table, model_of_table, PLURALS_ASK_RULES, OF_TABLE, 1, {TABLE}},
    {"plurals_text_category_by_table", text_category_by_table, model_of_text_by_table, PLURALS_ASK_RULES, OF_TABLE | OF_UTF8, 2,
     {TABLE, DIGITS}},
    {"plurals_categories", categories, model_of_categories, 63, OF_RULES, 1, {RULES}},
    {"plurals_ranges_from_document", ranges_from_document, model_of_ranges, -1, OF_MEMORY | OF_UTF8 | OF_TEXT | OF_JSON | OF_DOCUMENT, 2,
     {DOCUMENT, LOCALE}},
    {"plurals_elements_from_texts", elements_from_texts, model_of_element_texts, -1, OF_MEMORY | OF_UTF8 | OF_PACKED_ELEMENTS, 8,
     {TEXT_OF_ELEMENT, TEXT_OF_ELEMENT, TEXT_OF_ELEMENT, TEXT_OF_ELEMENT, TEXT_OF_ELEMENT, TEXT_OF_ELEMENT, TEXT_OF_ELEMENT,
      TEXT_OF_ELEMENT}},
    {"plurals_category", category, model_of_category, PLURALS_OTHER, OF_MEMORY | OF_UTF8 | OF_RULES | OF_NUMBER, 2, {RULES, NUMBER}},
    {"plurals_is_exact", is_exact, model_of_exactness, 1, OF_MEMORY | OF_UTF8 | OF_RULES | OF_NUMBER, 2, {RULES, NUMBER}},
    {"plurals_sure_category", sure_category, model_of_sure_category, PLURALS_OTHER, OF_MEMORY | OF_UTF8 | OF_RULES | OF_NUMBER | OF_BOUND, 2,
     {RULES, NUMBER}},
    {"plurals_is_read_whole", is_read_whole, model_of_wholeness, 1, OF_MEMORY, 1, {TEXT_OF_RULE}},
    {"plurals_elements_from_json", elements_from_json, model_of_json, -1, OF_MEMORY | OF_PACKED_ELEMENTS | OF_JSON, 1, {ELEMENTS_JSON}},
    {"plurals_element", element, model_of_element, -1, OF_MEMORY | OF_UTF8 | OF_RULES | OF_ELEMENTS | OF_NUMBER, 3, {RULES, ELEMENTS, NUMBER}},
    {"plurals_message", message, model_of_message, -1, OF_MEMORY | OF_UTF8 | OF_RULES | OF_ELEMENTS | OF_NUMBER, 3, {RULES, ELEMENTS, NUMBER}},
    {"plurals_pattern_format", pattern_format, model_of_pattern, -1, OF_MEMORY | OF_UTF8 | OF_RULES | OF_PATTERN | OF_ARGUMENT, 7,
     {RULES, RULES, PATTERN, NAME, VALUE, NAME, VALUE}},
    {"plurals_pattern_pack", pattern_pack, model_of_pack, -1, OF_MEMORY | OF_PATTERN | OF_PACKING, 1, {PATTERN}},
    {"plurals_pattern_check", pattern_check, model_of_pattern_check, 0, OF_PACKED, 1, {PACKED}},
    {"plurals_packed_format", packed_format, model_of_packed, -1, OF_MEMORY | OF_UTF8 | OF_RULES | OF_PACKED | OF_ARGUMENT, 7,
     {RULES, RULES, PACKED, NAME, VALUE, NAME, VALUE}},
    {"plurals_catalog_pack", catalog_pack, model_of_catalog_pack, -1, OF_MEMORY | OF_UTF8 | OF_PATTERN | OF_PACKING | OF_MESSAGES | OF_ENTRIES, 2,
     {MESSAGES, NAMED}},
    {"plurals_catalog_check", catalog_check, model_of_catalog_check, 0, OF_PACKED | OF_CATALOG, 1, {CATALOG}},
    {"plurals_catalog_say", catalog_say, model_of_catalog, -1, OF_MEMORY | OF_UTF8 | OF_RULES | OF_PACKED | OF_ARGUMENT | OF_NO_KEY, 8,
     {RULES, RULES, CATALOG, NAME, VALUE, NAME, VALUE, MESSAGE_KEY}},
};
enum { EXPORTS = sizeof exports / sizeof *exports };

/* ---- the faults */

#define FAULT(name, group) {#name, name, group, 0, {0}}

static struct fault {
    const char *name;
    int number;
    int group;
    uint64_t count;
    /* How often a row by hand has it, for each export. */
    uint64_t by_hand[EXPORTS];
} faults[] = {
    FAULT(PLURALS_MEMORY, OF_MEMORY),
    FAULT(PLURALS_UTF8, OF_UTF8),
    FAULT(PLURALS_TYPE, OF_TYPE),
    FAULT(PLURALS_NUMBER_SYNTAX, OF_NUMBER),
    FAULT(PLURALS_NUMBER_LIMIT, OF_NUMBER),
    FAULT(PLURALS_OUTSIDE_BOUND, OF_BOUND),
    FAULT(PLURALS_TEXT_EXPECTED_AND_CONDITION, OF_TEXT),
    FAULT(PLURALS_TEXT_EXPECTED_RELATION, OF_TEXT),
    FAULT(PLURALS_TEXT_EXPECTED_OPERATOR, OF_TEXT),
    FAULT(PLURALS_TEXT_EXPECTED_OPERAND, OF_TEXT),
    FAULT(PLURALS_TEXT_EXPECTED_VALUE, OF_TEXT),
    FAULT(PLURALS_TEXT_EXPECTED_SAMPLE_TYPE, OF_TEXT),
    FAULT(PLURALS_TEXT_VALUE_TOO_LARGE, OF_TEXT),
    FAULT(PLURALS_TEXT_START_LIMIT, OF_TEXT),
    FAULT(PLURALS_RULES_LIST_HEADER, OF_RULES),
    FAULT(PLURALS_RULES_LIST_ZERO_COUNT, OF_RULES),
    FAULT(PLURALS_RULES_LIST_START, OF_RULES),
    FAULT(PLURALS_RULES_ITEM_EMPTY, OF_RULES),
    FAULT(PLURALS_RULES_KEY, OF_RULES),
    FAULT(PLURALS_RULES_RULE_LIST_HEADER, OF_RULES),
    FAULT(PLURALS_RULES_RULE_LIST_ZERO_COUNT, OF_RULES),
    FAULT(PLURALS_RULES_RULE_LIST_START, OF_RULES),
    FAULT(PLURALS_RULES_RULE_ITEM_LENGTH, OF_RULES),
    FAULT(PLURALS_RULES_RULE_OPERAND, OF_RULES),
    FAULT(PLURALS_RULES_LIMIT, OF_PACKED_RULES),
    FAULT(PLURALS_ELEMENTS_EMPTY, OF_ELEMENTS),
    FAULT(PLURALS_ELEMENTS_SHORT, OF_ELEMENTS),
    FAULT(PLURALS_ELEMENTS_PADDING, OF_ELEMENTS),
    FAULT(PLURALS_ELEMENTS_DEFAULT_TEXT, OF_ELEMENTS),
    FAULT(PLURALS_ELEMENTS_LIST_HEADER, OF_ELEMENTS),
    FAULT(PLURALS_ELEMENTS_LIST_ZERO_COUNT, OF_ELEMENTS),
    FAULT(PLURALS_ELEMENTS_LIST_START, OF_ELEMENTS),
    FAULT(PLURALS_ELEMENTS_ITEM_EMPTY, OF_ELEMENTS),
    FAULT(PLURALS_ELEMENTS_KEY, OF_ELEMENTS),
    FAULT(PLURALS_ELEMENTS_ITEM_TEXT, OF_ELEMENTS),
    FAULT(PLURALS_ELEMENTS_DEFAULT_LIMIT, OF_PACKED_ELEMENTS),
    FAULT(PLURALS_ELEMENTS_START_LIMIT, OF_PACKED_ELEMENTS),
    FAULT(PLURALS_JSON, OF_JSON | OF_KEY | OF_MESSAGES),
    FAULT(PLURALS_DOCUMENT_FLOAT, OF_JSON),
    FAULT(PLURALS_DOCUMENT_SHAPE, OF_JSON | OF_MESSAGES),
    FAULT(PLURALS_DOCUMENT_RANGE_KEY, OF_DOCUMENT),
    FAULT(PLURALS_DOCUMENT_RANGE_VALUE, OF_DOCUMENT),
    FAULT(PLURALS_LOCALE, OF_DOCUMENT | OF_KEY),
    FAULT(PLURALS_TABLE_LENGTH, OF_TABLE),
    FAULT(PLURALS_PATTERN_UNCLOSED, OF_PATTERN),
    FAULT(PLURALS_PATTERN_EXPECTED_NAME, OF_PATTERN),
    FAULT(PLURALS_PATTERN_BAD_NUMBER, OF_PATTERN),
    FAULT(PLURALS_PATTERN_EXPECTED_END, OF_PATTERN),
    FAULT(PLURALS_PATTERN_EXPECTED_TYPE, OF_PATTERN),
    FAULT(PLURALS_PATTERN_UNSUPPORTED_TYPE, OF_PATTERN),
    FAULT(PLURALS_PATTERN_EXPECTED_STYLE, OF_PATTERN),
    FAULT(PLURALS_PATTERN_EXPECTED_OFFSET, OF_PATTERN),
    FAULT(PLURALS_PATTERN_EXPECTED_SELECTOR, OF_PATTERN),
    FAULT(PLURALS_PATTERN_EXPECTED_VALUE, OF_PATTERN),
    FAULT(PLURALS_PATTERN_EXPECTED_BRANCH, OF_PATTERN),
    FAULT(PLURALS_PATTERN_MISSING_OTHER, OF_PATTERN),
    FAULT(PLURALS_PATTERN_TOO_DEEP, OF_PATTERN),
    FAULT(PLURALS_ARGUMENT_MISSING, OF_ARGUMENT),
    FAULT(PLURALS_ARGUMENT_WRONG_KIND, OF_ARGUMENT),
    FAULT(PLURALS_ARGUMENT_NOT_A_NUMBER, OF_ARGUMENT),
    FAULT(PLURALS_ARGUMENT_OVER_LIMIT, OF_ARGUMENT),
    FAULT(PLURALS_ARGUMENT_COMPACT_OFFSET, OF_ARGUMENT),
    FAULT(PLURALS_ARGUMENT_KIND, OF_ARGUMENT),
    FAULT(PLURALS_PACKED_LIST_HEADER, OF_PACKED),
    FAULT(PLURALS_PACKED_LIST_ZERO_COUNT, OF_PACKED),
    FAULT(PLURALS_PACKED_LIST_START, OF_PACKED),
    FAULT(PLURALS_PACKED_PART, OF_PACKED),
    FAULT(PLURALS_PACKED_PLACE, OF_PACKED),
    FAULT(PLURALS_PACKED_ORDER, OF_PACKED),
    FAULT(PLURALS_PACKING_COUNT_LIMIT, OF_PACKING),
    FAULT(PLURALS_PACKING_PART, OF_PACKING),
    FAULT(PLURALS_PACKING_ORDER, OF_PACKING),
    FAULT(PLURALS_PACKING_START_LIMIT, OF_PACKING),
    FAULT(PLURALS_CATALOG_HEADER, OF_CATALOG),
    FAULT(PLURALS_CATALOG_LENGTH, OF_CATALOG),
    FAULT(PLURALS_CATALOG_END, OF_CATALOG),
    FAULT(PLURALS_CATALOG_ORDER, OF_CATALOG),
    FAULT(PLURALS_NO_KEY, OF_NO_KEY),
    FAULT(PLURALS_MESSAGES_NO_LOCALE, OF_MESSAGES),
    FAULT(PLURALS_MESSAGES_SEVERAL_LOCALES, OF_MESSAGES),
    FAULT(PLURALS_MESSAGES_ABSENT_LOCALE, OF_MESSAGES),
    FAULT(PLURALS_MESSAGES_CARDINAL_FORMS, OF_MESSAGES),
    FAULT(PLURALS_MESSAGES_ORDINAL_FORMS, OF_MESSAGES),
    FAULT(PLURALS_MESSAGES_NO_PATTERNS, OF_MESSAGES),
    FAULT(PLURALS_ENTRIES_TOO_MANY, OF_ENTRIES),
    FAULT(PLURALS_ENTRIES_ORDER, OF_ENTRIES),
    FAULT(PLURALS_ENTRIES_TOO_LONG, OF_ENTRIES),
};
enum { FAULTS = sizeof faults / sizeof *faults };

static struct fault *fault_of(int64_t result) {
    for (size_t k = 0; k < FAULTS; k++)
        if (faults[k].number == result) return &faults[k];
    return NULL;
}

/* ---- a case: one export, its slices, and the calls with them */

static const struct export *export;
static uint8_t inputs[MOST_SLICES][MODEL_BYTES];
static struct slice slices[MOST_SLICES];
static uint64_t calls, results;

/* What the model returns and writes. */
static int64_t wanted;
static uint8_t wanted_bytes[MODEL_BYTES];

/* Says what is wrong, with which input, and ends. */
static void wrong(const char *what, int64_t result) {
    printf("%s returned %" PRId64 ", the model %" PRId64 ": %s\n", export->name, result, wanted, what);
    for (int k = 0; k < export->slices; k++) {
        printf("slice %d, %zu bytes:", k, slices[k].length);
        for (size_t at = 0; at < slices[k].length && at < MOST_BYTES; at++) printf(" %02x", inputs[k][at]);
        printf("\n");
    }
    printf("number %" PRIu64 ", type %d, refused allocation %" PRId64 ", operands", number, type, refused);
    for (int k = 0; k < 6; k++) printf(" %" PRIu64, operands[k]);
    printf(", %zu arguments of the kinds %" PRIu32 " and %" PRIu32 "\n", arguments_len, kinds_of_arguments[0], kinds_of_arguments[1]);
    exit(1);
}

static void expect(bool holds, const char *what, int64_t result) {
    if (!holds) wrong(what, result);
}

static bool is_all(const uint8_t *bytes, size_t count, uint8_t byte) {
    for (size_t k = 0; k < count; k++)
        if (bytes[k] != byte) return false;
    return true;
}

/* Whether the call says a pattern, its block, or one of a catalogue, with arguments. */
static bool has_arguments(void) { return export->ask == pattern_format || export->ask == packed_format || export->ask == catalog_say; }

/* Asks once, with so much room for the result and the given allocation refused, and checks what is returned and written. */
static void ask(size_t room, int64_t refuse) {
    uint8_t *out = place(MOST_SLICES, room), before = (uint8_t)next();
    memset(out, before, room);
    asked = 0, live = 0, refused = refuse;
    int64_t result = export->ask(slices, out, room);
    refused = 0, calls++;
    bool is_refused = refuse != 0 && asked >= refuse;
    expect(live == 0, "it keeps memory, or frees what isn't its own", result);
    expect(asked == 0 || (export->faults & OF_MEMORY), "it takes memory", result);
    bool is_told = wanted != MODEL_UNTOLD, is_wanted = !is_told || result == wanted;
    /* A block is said again where memory ran out. */
    bool is_said_again = is_wanted && (export->ask == packed_format || export->ask == catalog_say);
    expect(is_refused ? result == PLURALS_MEMORY || is_said_again : is_wanted, "the model returns something else", result);
    size_t written = 0;
    if (result < 0) {
        struct fault *fault = fault_of(result);
        expect(fault && (export->faults & fault->group), "it is no fault of this call", result);
        /* A pattern, or an argument, takes memory before the next argument is looked at. */
        bool is_of_argument = has_arguments() && fault->group == OF_UTF8;
        bool is_before_memory = !is_of_argument && fault->group & (OF_UTF8 | OF_TYPE | OF_NUMBER | OF_RULES | OF_ELEMENTS | OF_PACKED);
        expect(!is_before_memory || asked == 0, "it takes memory before this fault", result);
        fault->count++;
    } else {
        results++;
        if (export->greatest < 0) written = (uint64_t)result <= room ? (size_t)result : 0;
        else expect(result <= export->greatest, "it is out of range", result);
    }
    expect(!is_told || memcmp(out, wanted_bytes, written) == 0, "the model writes something else", result);
    expect(is_all(out + written, room - written, before), "it writes what is no result", result);
    for (int k = 0; k < export->slices; k++)
        expect(memcmp(slices[k].at, inputs[k], slices[k].length) == 0, "it writes to its input", result);
}

static void set_slice(int k, struct slice bytes) {
    if (bytes.length > MODEL_BYTES) abort();
    if (bytes.length) memmove(inputs[k], bytes.at, bytes.length);
    uint8_t *at = place((size_t)k, bytes.length);
    memcpy(at, inputs[k], bytes.length);
    slices[k] = (struct slice){at, bytes.length};
}

/* Asks for the bytes of a result: with room for them alone, with more, and with one byte too few. */
static void ask_for_bytes(size_t length) {
    ask(length, 0);
    if (length < MODEL_BYTES - RANDOM_BYTES) ask(length + 1 + below(RANDOM_BYTES), 0);
    if (length > 0) ask(length - 1, 0);
}

/* A message takes memory for the number alone, as its element does. */
static void compare_with_element(int64_t taken) {
    asked = 0, calls++;
    element(slices, place(MOST_SLICES, 0), 0);
    expect(asked == taken, "it takes another number of blocks than the call for its element", wanted);
}

/* Asks for the answer to the slices, in all ways. */
static void run_slices(void) {
    wanted = export->model(slices, wanted_bytes);
    ask(below(RANDOM_BYTES + 1), 0);
    int64_t taken = asked;
    if (export->ask == message) compare_with_element(taken);
    ask(below(2) ? 0 : below(RANDOM_BYTES + 1), 0);
    expect(asked == taken, "it takes another number of blocks, when asked again", wanted);
    if (taken > 0) ask(RANDOM_BYTES, 1 + (int64_t)below((size_t)taken));
    if (export->greatest < 0 && wanted >= 0 && wanted != MODEL_UNTOLD) ask_for_bytes((size_t)wanted);
}

static void run_case(void) {
    static struct text text;
    export = &exports[below(EXPORTS)];
    /* Half of the calls have mistakes in one slice at most. */
    int alone = below(2) ? (int)below((size_t)export->slices) : MOST_SLICES;
    for (int k = 0; k < export->slices; k++) {
        if (alone == MOST_SLICES || k == alone) make_text(export->kinds[k], &text);
        else make_whole(export->kinds[k], &text);
        set_slice(k, (struct slice){text.bytes, text.length});
    }
    number = below(2) ? below(200) : next() >> below(64);
    for (int k = 0; k < 6; k++) operands[k] = below(2) ? below(12) : next() >> below(64);
    type = below(8) ? (uint8_t)below(export->ask == find_locale ? 3 : 2) : (uint8_t)next();
    for (int k = 0; k < 2; k++) kinds_of_arguments[k] = below(16) ? (uint32_t)below(2) : (uint32_t)next();
    arguments_len = below(8) ? 2 : below(2);
    if (has_arguments() && below(2)) {
        set_slice(3, slice_of("n")), set_slice(5, slice_of("s"));
        for (uint32_t k = 0; k < 2; k++) kinds_of_arguments[k] = k ? PLURALS_TEXT : PLURALS_NUMBER;
    }
    run_slices();
}

/* ---- rows by hand */

static const struct export *export_of(const char *name) {
    for (size_t k = 0; k < EXPORTS; k++)
        if (!strcmp(exports[k].name, name)) return &exports[k];
    abort();
}

/* Asks with the slices; the model has to know the row too. */
static void run_by_hand(int64_t result, struct slice bytes) {
    run_slices();
    expect(wanted == result, "the row says something else than the model", result);
    expect(result < 0 || export->greatest >= 0 || memcmp(wanted_bytes, bytes.at, bytes.length) == 0, "the row has other bytes", result);
    if (result < 0) fault_of(result)->by_hand[export - exports]++;
}

#define BYTES(text) {(const uint8_t *)text, sizeof(text) - 1}
static const struct slice NO_BYTES = {(const uint8_t *)"", 0};

/* A table with the bound 128, whose other entries are all of one. */
#define TEN_ONES "\1\1\1\1\1\1\1\1\1\1"
#define FIFTY_ONES TEN_ONES TEN_ONES TEN_ONES TEN_ONES TEN_ONES
#define ONES "\x80\0\0\0\0\0\0\0" FIFTY_ONES FIFTY_ONES FIFTY_ONES FIFTY_ONES TEN_ONES TEN_ONES

/* A good one of each kind. */
static const struct slice good[KINDS] = {
    [RULES] = BYTES("\1\0\1\2\0\15\0\xc1\0\0\0\0\1\0\0\0\1\0\0\0\xc2\0\0\0\0\0\0\0\0\0\0\0\0"),
    [ELEMENTS] = BYTES("\x80\10{} items\1\0\x10{} item"),
    [NUMBER] = BYTES("1"),
    [PATTERN] = BYTES("{n, plural, one {# file} other {# files}}"),
    [PACKED] = BYTES("\10\0\24\0\33\0\35\0\44\0\55\0\57\0\67\0\3\0\6\0\0\0\4\0\1\0\4\0\4\0\4\0\4\0\1n\6\0\2\0one\1\1\0\1 file"
                     "\6\0\2\0other\1\1\0\1 files\10\0"),
    [CATALOG] = BYTES("\1\0\0\0\1\0\0\0\x0a\0\0\0k\1\0\0\0hello"),
    [MESSAGE_KEY] = BYTES("k"),
    [NAME] = BYTES("n"),
    [VALUE] = BYTES("1"),
    [DIGITS] = BYTES("1"),
    [RULE] = BYTES("i = 1 and v = 0"),
    [DOCUMENT] = BYTES("{\"cardinal\":{\"en\":{\"one\":\"i = 1 and v = 0\"}},\"ordinal\":{\"en\":{}},\"ranges\":{\"en\":{\"ranges\":{}}}}"),
    [ELEMENTS_JSON] = BYTES("{\"other\":[0,\"{} items\"],\"one\":[0,\"{} item\"]}"),
    [KEYS] = BYTES("{\"cardinal\":{\"en\":{}},\"ordinal\":{\"en\":{}},\"ranges\":{\"en\":{}},\"parents\":{\"fr\":\"xx\"}}"),
    [LOCALE] = BYTES("en"),
    [CHAINED] = BYTES("en_US"),
    [TEXT_OF_ELEMENT] = BYTES("{} items"),
    [TEXT_OF_RULE] = BYTES("i = 1 and v = 0"),
    [MESSAGES] = BYTES("{\"en\":{\"patterns\":{\"k\":\"hello\"}}}"),
    [NAMED] = BYTES("en"),
    [TABLE] = BYTES(ONES "\1\1\1\1\1\1\1\1"),
};

#define TWO "{n,plural,other{{n,plural,other{"
#define EIGHT TWO TWO TWO TWO

/* Inputs with their fault. */
static const struct bad {
    enum kind kind;
    struct slice bytes;
    int fault;
} bad[] = {
    {RULES, BYTES("\1"), -30}, {RULES, BYTES("\2\0\1"), -30}, {RULES, BYTES("\0\0"), -31}, {RULES, BYTES("\2\0\1\0"), -32},
    {RULES, BYTES("\3\0\2\0\1\0\1\2\3"), -32}, {RULES, BYTES("\1\0"), -33}, {RULES, BYTES("\1\0\5"), -34}, {RULES, BYTES("\2\0\1\0\1\1"), -34},
    {RULES, BYTES("\2\0\1\0\2\1"), -34}, {RULES, BYTES("\1\0\0\1"), -35}, {RULES, BYTES("\1\0\4\0\0"), -36}, {RULES, BYTES("\1\0\0\2\0\1\0"), -37},
    {RULES, BYTES("\1\0\0\1\0"), -38}, {RULES, BYTES("\1\0\0\1\0\xc0\0\0\0\0\0"), -38}, {RULES, BYTES("\1\0\0\1\0\xc8\0\0\0\0"), -39},
    {RULES, BYTES("\1\0\0\1\0\xff\0\0\0\0"), -39}, {RULES, BYTES("\1\0\5\1"), -34}, {RULES, BYTES("\2\0\2\0\0\1\5"), -35},
    {ELEMENTS, BYTES(""), -50}, {ELEMENTS, BYTES("\x80"), -51}, {ELEMENTS, BYTES("\x80\1"), -51}, {ELEMENTS, BYTES("\x10"), -52},
    {ELEMENTS, BYTES("\x40"), -52}, {ELEMENTS, BYTES("\0\xff"), -53}, {ELEMENTS, BYTES("\x80\1\xc3"), -53}, {ELEMENTS, BYTES("\x80\0\1"), -54},
    {ELEMENTS, BYTES("\x80\0\0\0"  "\0"), -55}, {ELEMENTS, BYTES("\x80\0\2\0\1\0"), -56}, {ELEMENTS, BYTES("\x80\0\1\0"), -57},
    {ELEMENTS, BYTES("\x80\0\1\0\x70"), -58}, {ELEMENTS, BYTES("\x80\0\1\0\x10\xff"), -59}, {ELEMENTS, BYTES("\x80\0\2\0\2\0\x10\xff"), -59},
    {NUMBER, BYTES(""), -10}, {NUMBER, BYTES("x"), -10}, {NUMBER, BYTES("5."), -10}, {NUMBER, BYTES("."), -10}, {NUMBER, BYTES("+"), -10},
    {NUMBER, BYTES("1e6"), -10}, {NUMBER, BYTES("1c"), -10}, {NUMBER, BYTES("1c0256"), -10}, {NUMBER, BYTES("1\0"), -10},
    {NUMBER, BYTES("1c256"), -11}, {NUMBER, BYTES("1c999"), -11}, {NUMBER, BYTES("\xff"), -2}, {NUMBER, BYTES("1\xed\xa0\x80"), -2},
    {PATTERN, BYTES("{"), -90}, {PATTERN, BYTES("{n, plural, other {'}"), -90}, {PATTERN, BYTES("{}"), -91}, {PATTERN, BYTES("{01}"), -92},
    {PATTERN, BYTES("{n m}"), -93}, {PATTERN, BYTES("{n,}"), -94}, {PATTERN, BYTES("{n, number}"), -95}, {PATTERN, BYTES("{n,plural}"), -96},
    {PATTERN, BYTES("{n,plural,offset:x}"), -97}, {PATTERN, BYTES("{n,plural,*}"), -98}, {PATTERN, BYTES("{n,select,=1{}other{}}"), -98},
    {PATTERN, BYTES("{n,plural,=1.{}other{}}"), -99}, {PATTERN, BYTES("{n,plural,one}"), -100}, {PATTERN, BYTES("{n,plural,one{}}"), -101},
    {PATTERN, BYTES(EIGHT EIGHT EIGHT EIGHT "{n,plural,other{"), -102},
    {PACKED, BYTES("\1"), -120}, {PACKED, BYTES("\2\0\1"), -120}, {PACKED, BYTES("\0\0"), -121}, {PACKED, BYTES("\2\0\1\0"), -122},
    {PACKED, BYTES("\3\0\2\0\1\0\1\0\1\0"), -122}, {PACKED, BYTES("\1\0"), -123}, {PACKED, BYTES("\1\0\1\0\1"), -123},
    {PACKED, BYTES("\1\0\11\0"), -123}, {PACKED, BYTES("\1\0\0\41"), -123}, {PACKED, BYTES("\1\0\5\0\0\0\0\0\1"), -123},
    {PACKED, BYTES("\1\0\6\0"), -124}, {PACKED, BYTES("\1\0\6\0\1\0"), -124}, {PACKED, BYTES("\1\0\7\0\0\0\0\1"), -124},
    {PACKED, BYTES("\1\0\6\0\0\0"), -125}, {PACKED, BYTES("\1\0\10\0"), -125}, {PACKED, BYTES("\1\0\0\1"), -125},
    {PACKED, BYTES("\1\0\5\0\0\0\0\0\0"), -125},
    {MESSAGE_KEY, BYTES(""), -144}, {MESSAGE_KEY, BYTES("kk"), -144}, {MESSAGE_KEY, BYTES("j"), -144},
    {NAME, BYTES("\xff"), -2}, {VALUE, BYTES("\xff"), -2}, {VALUE, BYTES("1\xc3"), -2},
    {DIGITS, BYTES("\xff"), -2}, {DIGITS, BYTES("1\xc3"), -2},
    {RULE, BYTES("i = 1 or"), -20}, {RULE, BYTES("i = 1 or @integer 1"), -20}, {RULE, BYTES("i = 1 and"), -21}, {RULE, BYTES("i 1"), -22},
    {RULE, BYTES("i % 010 = 1"), -22}, {RULE, BYTES("= 1"), -23}, {RULE, BYTES("i = 1 and or"), -23}, {RULE, BYTES("\ti = 1"), -23},
    {RULE, BYTES("i = "), -24}, {RULE, BYTES("i = 4294967296"), -24}, {RULE, BYTES("i % = 1"), -24}, {RULE, BYTES("@integer 1,"), -24},
    {RULE, BYTES("i = 1 @foo"), -25}, {RULE, BYTES("@"), -25}, {RULE, BYTES("\xc0\xaf"), -2},
    {DOCUMENT, BYTES(""), -70}, {DOCUMENT, BYTES("{"), -70}, {DOCUMENT, BYTES("{} {}"), -70}, {DOCUMENT, BYTES("\"\xff\""), -70},
    {DOCUMENT, BYTES("{\"x\":01}"), -70}, {DOCUMENT, BYTES("[\"\\ud800\"]"), -70}, {DOCUMENT, BYTES("{\"x\":1.0}"), -71},
    {DOCUMENT, BYTES("{\"x\":[18446744073709551616],\"cardinal\":5}"), -71}, {DOCUMENT, BYTES("5"), -72}, {DOCUMENT, BYTES("{\"ordinal\":5}"), -72},
    {DOCUMENT, BYTES("{\"cardinal\":{\"a\":null}}"), -72}, {DOCUMENT, BYTES("{\"cardinal\":{\"a\":{\"one\":5}}}"), -72},
    {DOCUMENT, BYTES("{\"ranges\":{\"a\":{}}}"), -72}, {DOCUMENT, BYTES("{\"cardinal\":{\"b\":5,\"a\":{\"one\":\"i 1\"}}}"), -22},
    {DOCUMENT, BYTES("{\"cardinal\":{\"en\":{\"many\":\"i = 1 or\"}}}"), -20}, {DOCUMENT, BYTES("{\"cardinal\":{\"z\":{\"zero\":\"i = 1 and\"}}}"), -21},
    {DOCUMENT, BYTES("{\"ordinal\":{\"en\":{\"one\":\"x\"}}}"), -23}, {DOCUMENT, BYTES("{\"ordinal\":{\"en\":{\"few\":\"i = 1,\",\"many\":\"x\"}}}"), -24},
    {DOCUMENT, BYTES("{\"ranges\":5,\"ordinal\":{\"a\":{\"one\":\"i = 1 @foo\"}}}"), -25},
    {DOCUMENT, BYTES("{\"ranges\":{\"a\":{\"ranges\":{\"one\":5}}}}"), -73},
    {DOCUMENT, BYTES("{\"ranges\":{\"a\":{\"ranges\":{\"one--two\":\"some\",\"two\":\"few\"}}}}"), -74},
    {DOCUMENT, BYTES("{}"), -75}, {DOCUMENT, BYTES("{\"cardinal\":null}"), -75}, {DOCUMENT, BYTES("{\"ranges\":{\"ru\":{\"ranges\":{}}}}"), -75},
    {KEYS, BYTES(""), -70}, {KEYS, BYTES("{"), -70}, {KEYS, BYTES("{} {}"), -70}, {KEYS, BYTES("\"\xff\""), -70}, {KEYS, BYTES("[\"\\ud800\"]"), -70},
    {KEYS, BYTES("{\"cardinal\":{\"en\":1e999}}"), -70}, {KEYS, BYTES("{}"), -75}, {KEYS, BYTES("5"), -75}, {KEYS, BYTES("[[],\"cardinal\"]"), -75},
    {KEYS, BYTES("{\"cardinal\":[\"en\"],\"ordinal\":{\"en\":{}},\"en\":{}}"), -75}, {KEYS, BYTES("{\"cardinal\":{\"en\":{}},\"cardinal\":{}}"), -75},
    {KEYS, BYTES("{\"cardinal\":{\"en-US-x\":{},\"us\":{}}}"), -75}, {KEYS, BYTES("{\"cardinal\":{\"de\":{}},\"parents\":{\"en\":\"fr\",\"fr\":\"en\"}}"), -75},
    {CHAINED, BYTES("\xff"), -2}, {CHAINED, BYTES("en\xc3"), -2}, {CHAINED, BYTES("xx"), -75}, {CHAINED, BYTES("e"), -75}, {CHAINED, BYTES(""), -75},
    {CHAINED, BYTES("fr-en"), -75}, {LOCALE, BYTES("\xff"), -2}, {LOCALE, BYTES("e"), -75}, {LOCALE, BYTES("EN"), -75}, {LOCALE, BYTES(""), -75},
    {MESSAGES, BYTES(""), -70}, {MESSAGES, BYTES("{"), -70}, {MESSAGES, BYTES("{} {}"), -70}, {MESSAGES, BYTES("{\"en\":1e999}"), -70},
    {MESSAGES, BYTES("5"), -150}, {MESSAGES, BYTES("[\"en\"]"), -150}, {MESSAGES, BYTES("{}"), -152}, {MESSAGES, BYTES("{\"\":{}}"), -152},
    {MESSAGES, BYTES("{\"en\":{\"cardinal\":{\"k\":0},\"ordinal\":5}}"), -153}, {MESSAGES, BYTES("{\"en\":{\"cardinal\":1.5}}"), -153},
    {MESSAGES, BYTES("{\"en\":{\"cardinal\":{},\"ordinal\":null,\"patterns\":5}}"), -154}, {MESSAGES, BYTES("{\"en\":{}}"), -155},
    {MESSAGES, BYTES("{\"en\":\"patterns\"}"), -155}, {MESSAGES, BYTES("{\"en\":{\"patterns\":{},\"patterns\":[]}}"), -72},
    {MESSAGES, BYTES("{\"en\":{\"patterns\":{\"b\":5,\"a\":\"{\"}}}"), -72}, {MESSAGES, BYTES("{\"en\":{\"patterns\":{\"b\":\"{\",\"a\":\"{}\"}}}"), -91},
    {NAMED, BYTES("\xff"), -2}, {NAMED, BYTES("en\xc3"), -2}, {NAMED, BYTES("e"), -152}, {NAMED, BYTES("EN"), -152}, {NAMED, BYTES("en-US"), -152},
    {TABLE, BYTES(""), -80}, {TABLE, BYTES("\1"), -80}, {TABLE, BYTES(ONES "\1\1\1\1\1\1\1"), -80},
    {TABLE, BYTES(ONES "\1\1\1\1\1\1\1\1\1"), -80}, {TEXT_OF_ELEMENT, BYTES("\xff"), -2}, {TEXT_OF_ELEMENT, BYTES("x\xe2\x82"), -2},
    {ELEMENTS_JSON, BYTES(""), -70}, {ELEMENTS_JSON, BYTES("{\"other\":[0,\"x\"],}"), -70}, {ELEMENTS_JSON, BYTES("{\"other\":[0.5,\"x\"]}"), -71},
    {ELEMENTS_JSON, BYTES("[]"), -72}, {ELEMENTS_JSON, BYTES("{\"one\":[0,\"x\"]}"), -72}, {ELEMENTS_JSON, BYTES("{\"other\":[16,\"x\"]}"), -72},
    {ELEMENTS_JSON, BYTES("{\"other\":[0,\"x\",0]}"), -72}, {ELEMENTS_JSON, BYTES("{\"other\":[0,\"x\"],\"few\":[-1,\"x\"]}"), -72},
};
enum { BAD = sizeof bad / sizeof *bad };

static void set_good(void) {
    number = 1, type = 0;
    kinds_of_arguments[0] = PLURALS_NUMBER, kinds_of_arguments[1] = PLURALS_TEXT, arguments_len = 2;
    for (int k = 0; k < export->slices; k++) set_slice(k, good[export->kinds[k]]);
}

/* Each bad input of each export, alone, and before a second one that comes after it. */
static void try_faults(void) {
    for (export = exports; export < exports + EXPORTS; export++)
        for (int k = 0; k < export->slices; k++)
            for (int b = 0; b < BAD; b++) {
                if (bad[b].kind != export->kinds[k]) continue;
                set_good();
                set_slice(k, bad[b].bytes);
                run_by_hand(bad[b].fault, NO_BYTES);
                for (int other = 0; other < BAD; other++) {
                    if (k + 1 == export->slices || bad[other].kind != export->kinds[k + 1]) continue;
                    set_slice(k + 1, bad[other].bytes);
                    bool is_late = bad[other].fault == PLURALS_UTF8 && bad[b].fault != PLURALS_UTF8 && export->kinds[k] >= RULE
                        && export->kinds[k] != TABLE;
                    bool is_absent = bad[other].fault == PLURALS_MESSAGES_ABSENT_LOCALE && bad[b].fault != PLURALS_JSON
                        && bad[b].fault != PLURALS_MESSAGES_NO_LOCALE;
                    bool is_second = is_late || is_absent || bad[other].kind == MESSAGE_KEY;
                    run_by_hand(is_second ? bad[other].fault : bad[b].fault, NO_BYTES);
                }
            }
    export = export_of("plurals_rules_from_document");
    set_good();
    for (int other = 2; other < 256; other++) {
        type = (uint8_t)other;
        run_by_hand(PLURALS_TYPE, NO_BYTES);
    }
    set_slice(0, slice_of("{")), set_slice(1, slice_of("\xff"));
    run_by_hand(PLURALS_TYPE, NO_BYTES);
    export = export_of("plurals_find_locale");
    run_by_hand(PLURALS_TYPE, NO_BYTES);
    set_good();
    for (int other = 3; other < 256; other++) {
        type = (uint8_t)other;
        run_by_hand(PLURALS_TYPE, NO_BYTES);
    }
}

/* Locales of one document, and their keys for cardinal numbers, ordinal ones and ranges; null for none. */
static const struct {
    const char *locale, *keys[3];
} keys[] = {
    {"ru", {"ru", "root", NULL}}, {"ru_RU", {"ru", "root", NULL}}, {"en-US", {"en", "EN", "en-US"}}, {"EN", {"EN", "EN", NULL}},
    {"En", {"EN", "EN", NULL}}, {"sr-Latn-RS", {"sr", "root", NULL}}, {"pt_AO", {"pt-PT", "root", "pt"}}, {"pt-ao-x", {"pt-PT", "root", "pt"}},
    {"pt-BR", {"pt", "root", "pt"}}, {"nb-NO", {"no", "root", NULL}}, {"hi-Latn", {"hi", "root", NULL}}, {"xx", {"root", "root", NULL}},
    {"ROOT-x", {"root", "root", NULL}}, {"", {"", "root", NULL}}, {"-", {"", "root", NULL}}, {"z", {"root", "root", NULL}},
};

static void try_keys(void) {
    export = export_of("plurals_find_locale");
    set_slice(0, slice_of("{\"cardinal\":{\"ru\":{},\"en\":{},\"EN\":{},\"sr\":{},\"pt\":{},\"pt-PT\":1.5,\"no\":null,\"hi\":[],\"\":0,\"root\":{}},"
                          "\"ordinal\":{\"EN\":{},\"root\":{}},\"ranges\":{\"pt\":{},\"en-US\":{}},\"parents\":{\"pt-AO\":\"pt-PT\",\"sr-Latn\":\"root\","
                          "\"nb\":\"no\",\"hi-Latn\":\"en-IN\",\"ru\":5}}"));
    for (size_t row = 0; row < sizeof keys / sizeof *keys; row++)
        for (type = 0; type < 3; type++) {
            const char *key = keys[row].keys[type];
            set_slice(1, slice_of(keys[row].locale));
            run_by_hand(key ? (int64_t)strlen(key) : PLURALS_LOCALE, key ? slice_of(key) : NO_BYTES);
        }
}

/* A rule for one; a number, as its front, a digit that comes so often, and its end; its category; and whether that is exact. */
static const struct {
    const char *rule, *front;
    char digit;
    int times;
    const char *end;
    int category, is_exact;
} numbers[] = {
    {"i = 1 and v = 0", "1", '0', 0, "", 1, 1},      {"i = 1 and v = 0", "1.0", '0', 0, "", 5, 1},
    {"i = 1 and v = 0", "-1", '0', 0, "", 1, 1},     {"i = 1 and v = 0", "1c6", '0', 0, "", 5, 1},
    {"i = 1 and v = 0", "+01", '0', 0, "", 1, 1},    {"n = 1", "1.00", '0', 0, "", 1, 1},
    {"n != 1", "1.5", '0', 0, "", 1, 1},             {"n = 1", "1.5", '0', 0, "", 5, 1},
    {"v = 3 and w = 2", "-0.050", '0', 0, "", 1, 1}, {"f = 50 and t = 5 and i = 0", "-0.050", '0', 0, "", 1, 1},
    {"e = 6 and f = 20 and v = 2 and w = 1", "1.00000020c6", '0', 0, "", 1, 1},
    {"i % 10 = 1 and i % 100 != 11", "1", '0', 28, "21", 1, 1},
    {"i % 10 = 1 and i % 100 != 11", "1", '0', 28, "11", 5, 1},
    {"i % 3 = 2", "2000000000000000000", '0', 0, "", 5, 0},
    {"i % 3906250000 = 1", "1000000000000000001", '0', 0, "", 1, 1},
    {"i % 4294967295 = 1", "1000000000000000001", '0', 0, "", 5, 0},
    {"i % 0 = 1", "1000000000000000001", '0', 0, "", 5, 1},
    {"i = 1 and v = 0", "", '0', 17, "1", 1, 1},     {"i = 1 and v = 0", "", '0', 18, "1", 5, 0},
    {"n = 0", "0c17", '0', 0, "", 1, 1},             {"n = 0", "0c18", '0', 0, "", 5, 0},
    {"n = 1", "1.", '0', 17, "1", 5, 1},             {"n = 1", "1.", '0', 18, "1", 1, 0},
    {"n % 1000000 = 7", "1", '0', 32765, "7", 1, 1}, {"n % 1000000 = 7", "1", '0', 32765, "7.000000000000000000", 1, 1},
    {"n % 1000000 = 7", "1", '0', 32765, "7.0000000000000000000", 1, 0},
    {"i = 0", "", '0', 32767, "", 5, 0},             {"i % 10 = 0", "", '9', 32767, "c255", 1, 1},
    {"v = 18", "0.", '9', 32767, "", 1, 0},          {"v = 18", "0.", '9', 32768, "", -11, -11},
    {"i = 0", "", '1', 32768, "", -11, -11},         {"i = 0", "", '1', 32768, "x", -10, -10},
    {"f % 3 = 0", "999999999999999999.999999999999999999", '0', 0, "", 1, 1},
    {"i = 0 @integer 5", "", '0', 0, ".5", 1, 1},
};

static void try_numbers(void) {
    static uint8_t block[MODEL_BYTES], text[MODEL_BYTES];
    for (size_t k = 0; k < sizeof numbers / sizeof *numbers; k++) {
        struct slice texts[5] = {NO_BYTES, slice_of(numbers[k].rule), NO_BYTES, NO_BYTES, NO_BYTES};
        struct slice rules = {block, (size_t)model_rules_from_texts(texts, block)};
        size_t front = strlen(numbers[k].front), end = strlen(numbers[k].end), times = (size_t)numbers[k].times;
        memcpy(text, numbers[k].front, front), memset(text + front, numbers[k].digit, times);
        memcpy(text + front + times, numbers[k].end, end);
        export = export_of("plurals_category");
        set_slice(0, rules), set_slice(1, (struct slice){text, front + times + end});
        run_by_hand(numbers[k].category, NO_BYTES);
        export = export_of("plurals_is_exact");
        run_by_hand(numbers[k].is_exact, NO_BYTES);
        export = export_of("plurals_sure_category");
        run_by_hand(numbers[k].is_exact ? numbers[k].category : PLURALS_OUTSIDE_BOUND, NO_BYTES);
    }
}

/* Texts, and whether they are rules as a whole. */
static const struct {
    struct slice text;
    int is_whole;
} wholes[] = {
    {BYTES(""), 1}, {BYTES("  "), 1}, {BYTES(" n = 1 "), 1}, {BYTES("n = 1 or i != 2,5..7 @integer 1~2, \xe2\x80\xa6 @decimal 1c3"), 1},
    {BYTES("@decimal 0.1 @integer 1"), 1}, {BYTES("n = 1 x"), 0}, {BYTES("i = 1..2..3"), 0}, {BYTES("i = 01"), 0},
    {BYTES("i = 1\tand v = 0"), 0}, {BYTES("@integer 1, \xe2\x80\xa6, 2"), 0}, {BYTES("n = 1 and"), 0}, {BYTES("n = 1 @"), 0},
    {BYTES("\xff"), 0}, {BYTES("n = 1\0"), 0},
};

static void try_wholes(void) {
    export = export_of("plurals_is_read_whole");
    for (size_t k = 0; k < sizeof wholes / sizeof *wholes; k++) {
        set_slice(0, wholes[k].text);
        run_by_hand(wholes[k].is_whole, NO_BYTES);
    }
}

/* Each operand is asked in its place, and the rules of some categories have the bits of these. */
static void try_operands(void) {
    static uint8_t block[MODEL_BYTES];
    static const char *const names[] = {"i", "v", "w", "f", "t", "c"};
    for (int k = 0; k < 6; k++) {
        char text[16];
        snprintf(text, sizeof text, "%s = 7", names[k]);
        struct slice texts[5] = {NO_BYTES, NO_BYTES, NO_BYTES, slice_of(text), NO_BYTES};
        set_slice(0, (struct slice){block, (size_t)model_rules_from_texts(texts, block)});
        export = export_of("plurals_categories");
        run_by_hand(1 << PLURALS_FEW | 1 << PLURALS_OTHER, NO_BYTES);
        export = export_of("plurals_category_of_operands");
        for (int seven = 0; seven < 6; seven++) {
            for (int other = 0; other < 6; other++) operands[other] = other == seven ? 7 : 8;
            run_by_hand(k == seven ? PLURALS_FEW : PLURALS_OTHER, NO_BYTES);
        }
        operands[k] = 7 + (UINT64_C(1) << 32), run_by_hand(PLURALS_OTHER, NO_BYTES);
    }
}

/* Each category has its number, of integers and of texts. */
static void try_categories(void) {
    static uint8_t block[MODEL_BYTES];
    struct slice texts[5] = {slice_of("n = 0"), slice_of("n = 1"), slice_of("n = 2"), slice_of("n = 3"), slice_of("n = 4")};
    struct slice rules = {block, (size_t)model_rules_from_texts(texts, block)};
    for (number = 0; number < 7; number++) {
        char text[32];
        snprintf(text, sizeof text, "%" PRIu64, number);
        set_slice(0, rules), set_slice(1, slice_of(text));
        export = export_of("plurals_category_of_integer");
        run_by_hand(number < 5 ? (int64_t)number : 5, NO_BYTES);
        export = export_of("plurals_category");
        run_by_hand(number < 5 ? (int64_t)number : 5, NO_BYTES);
    }
    for (number = 0; number < 7; number++) {
        int64_t category = number < 5 ? (int64_t)number : 5;
        export = export_of("plurals_category_of_signed_integer");
        run_by_hand(category, NO_BYTES);
        number = 0 - number, run_by_hand(category, NO_BYTES), number = 0 - number;
        export = export_of("plurals_category_of_operands");
        for (int k = 1; k < 6; k++) operands[k] = 0;
        operands[0] = number, run_by_hand(category, NO_BYTES);
        /* With a fraction n is no whole number, which w tells. */
        operands[2] = 1, run_by_hand(5, NO_BYTES);
    }
    export = export_of("plurals_categories");
    run_by_hand(63, NO_BYTES);
    try_operands();
    set_slice(0, rules);
    export = export_of("plurals_category_of_integer");
    number = UINT64_MAX;
    run_by_hand(5, NO_BYTES);
    texts[0] = slice_of("i % 10 = 5"), set_slice(0, (struct slice){block, (size_t)model_rules_from_texts(texts, block)});
    run_by_hand(0, NO_BYTES);
    set_slice(0, NO_BYTES);
    run_by_hand(5, NO_BYTES);
    export = export_of("plurals_check_rules");
    run_by_hand(0, NO_BYTES);
    set_slice(0, good[RULES]);
    run_by_hand(0, NO_BYTES);
}

#define ENGLISH BYTES("\1\0\1\2\0\15\0\xc1\0\0\0\0\1\0\0\0\1\0\0\0\xc2\0\0\0\0\0\0\0\0\0\0\0\0")

/* Results in bytes: an export, its slices, and what it writes. */
static const struct {
    const char *name;
    struct slice slices[MOST_SLICES], bytes;
} written[] = {
    {"plurals_rules_from_texts", {BYTES(""), BYTES("i = 1 and v = 0"), BYTES(""), BYTES(""), BYTES("")},
     BYTES("\1\0\1\2\0\15\0\xc1\0\0\0\0\1\0\0\0\1\0\0\0\xc2\0\0\0\0\0\0\0\0\0\0\0\0")},
    {"plurals_rules_from_texts", {BYTES(""), BYTES("n = 1"), BYTES(""), BYTES("n = 2"), BYTES("")},
     BYTES("\2\0\20\0\1\1\0\xc0\0\0\0\0\1\0\0\0\1\0\0\0\3\1\0\xc0\0\0\0\0\2\0\0\0\2\0\0\0")},
    {"plurals_rules_from_texts", {BYTES(""), BYTES(""), BYTES(""), BYTES(""), BYTES("")}, BYTES("")},
    {"plurals_rules_from_texts", {BYTES(""), BYTES(""), BYTES(""), BYTES(""), BYTES(" ")}, BYTES("\1\0\4")},
    {"plurals_rules_from_document", {BYTES("{\"cardinal\":{\"b\":{\"many\":\"\"},\"a\":{\"other\":5,\"one\":\"n != 1..3 or e % 10 = 0\"}}}"), BYTES("a")},
     BYTES("\1\0\1\2\0\15\0\x80\0\0\0\0\1\0\0\0\3\0\0\0\x47\12\0\0\0\0\0\0\0\0\0\0\0")},
    {"plurals_rules_from_document", {BYTES("{\"cardinal\":{\"\":{\"many\":\"\"}}}"), BYTES("")}, BYTES("\1\0\4")},
    {"plurals_elements_from_json", {BYTES("{\"one\":[0,\"item\"],\"other\":[0,\"items\"]}")}, BYTES("\x80\5items\1\0\x10item")},
    {"plurals_elements_from_json", {BYTES("{\"other\":[0,\"a\"],\"one\":[0,\"a\"],\"explicit_one\":[0,\"a\"]}")}, BYTES("\x80\1a\1\0\x60" "a")},
    {"plurals_elements_from_json", {BYTES("{\"other\":[15,\"\\u00e9\"],\"x\":[]}")}, BYTES("\17\xc3\xa9")},
    {"plurals_elements_from_texts", {BYTES("items"), BYTES(""), BYTES("item"), BYTES(""), BYTES(""), BYTES(""), BYTES(""), BYTES("")},
     BYTES("\x80\5items\1\0\x10item")},
    {"plurals_elements_from_texts", {BYTES("a"), BYTES("0"), BYTES("a"), BYTES("2"), BYTES("3"), BYTES("4"), BYTES("a"), BYTES("6")},
     BYTES("\x80\1a\6\0\2\0\4\0\6\0\10\0\12\0\0" "0\x20" "2\x30" "3\x40" "4\x50" "a\x60" "6")},
    {"plurals_elements_from_texts", {BYTES(""), BYTES(""), BYTES(""), BYTES(""), BYTES(""), BYTES(""), BYTES(""), BYTES("")}, BYTES("\0")},
    {"plurals_ranges_from_document", {BYTES("{\"ranges\":{\"\":{\"ranges\":{\"one--two\":\"many\",\"other--other\":\"zero\"}}}}"), BYTES("")},
     BYTES("\0\1\2\3\4\5\0\1\4\3\4\5\0\1\2\3\4\5\0\1\2\3\4\5\0\1\2\3\4\5\0\1\2\3\4\0")},
    {"plurals_element", {BYTES(""), BYTES("\x80\1x\2\0\2\0\x50" "0\x60" "1"), BYTES("0")}, BYTES("0")},
    {"plurals_element", {BYTES(""), BYTES("\x80\1x\2\0\2\0\x50" "0\x60" "1"), BYTES("-1")}, BYTES("1")},
    {"plurals_element", {BYTES(""), BYTES("\x80\1x\2\0\2\0\x50" "0\x60" "1"), BYTES("0.0")}, BYTES("x")},
    {"plurals_element", {BYTES(""), BYTES("\x80\1x\2\0\2\0\x50" "0\x60" "1"), BYTES("1c0")}, BYTES("1")},
    {"plurals_element", {BYTES("\1\0\1"), BYTES("\x80\1a\2\0\2\0\x10" "b\x10" "c"), BYTES("7")}, BYTES("b")},
    {"plurals_message", {BYTES(""), BYTES("\0{} of {}"), BYTES("2")}, BYTES("2 of 2")},
    {"plurals_message", {BYTES(""), BYTES("\0{}{}"), BYTES("1c6")}, BYTES("1c61c6")},
    {"plurals_message", {BYTES(""), BYTES("\0{}"), BYTES("+01.50")}, BYTES("+01.50")},
    {"plurals_message", {BYTES(""), BYTES("\0{{}}"), BYTES("1")}, BYTES("{1}")},
    {"plurals_message", {BYTES(""), BYTES("\0}{ {"), BYTES("1")}, BYTES("}{ {")},
    {"plurals_message", {BYTES(""), BYTES("\0"), BYTES("1")}, BYTES("")},
    {"plurals_message", {BYTES("\1\0\1\2\0\15\0\xc1\0\0\0\0\1\0\0\0\1\0\0\0\xc2\0\0\0\0\0\0\0\0\0\0\0\0"),
                         BYTES("\x80\10{} items\1\0\x10{} item"), BYTES("-1")}, BYTES("-1 item")},
    {"plurals_pattern_format", {ENGLISH, BYTES(""), BYTES("{s} has {n, plural, =0 {no files} one {# file} other {# files}}."), BYTES("n"), BYTES("0"), BYTES("s"), BYTES("Ann")}, BYTES("Ann has no files.")},
    {"plurals_pattern_format", {ENGLISH, BYTES(""), BYTES("{s} has {n, plural, =0 {no files} one {# file} other {# files}}."), BYTES("n"), BYTES("1"), BYTES("s"), BYTES("Ann")}, BYTES("Ann has 1 file.")},
    {"plurals_pattern_format", {ENGLISH, BYTES(""), BYTES("{s} has {n, plural, =0 {no files} one {# file} other {# files}}."), BYTES("n"), BYTES("1.0"), BYTES("s"), BYTES("Ann")}, BYTES("Ann has 1.0 files.")},
    {"plurals_pattern_format", {ENGLISH, BYTES(""), BYTES("{n, plural, one {a} =1 {b} other {c}}"), BYTES("n"), BYTES("0.1c1"), BYTES("s"), BYTES("")}, BYTES("b")},
    {"plurals_pattern_format", {ENGLISH, BYTES(""), BYTES("{n, plural, offset:1 =1 {you} one {you and # other} other {you and # others}}"), BYTES("n"), BYTES("3.50"), BYTES("s"), BYTES("")}, BYTES("you and 2.50 others")},
    {"plurals_pattern_format", {ENGLISH, BYTES(""), BYTES("{n, plural, offset:1 =1 {you} one {you and # other} other {you and # others}}"), BYTES("n"), BYTES("2"), BYTES("s"), BYTES("")}, BYTES("you and 1 other")},
    {"plurals_pattern_format", {ENGLISH, BYTES(""), BYTES("{n, plural, offset:2 other {#}}"), BYTES("n"), BYTES("0"), BYTES("s"), BYTES("")}, BYTES("-2")},
    {"plurals_pattern_format", {ENGLISH, BYTES(""), BYTES("{n, plural, offset:100 other {#}}"), BYTES("n"), BYTES("+0099.9"), BYTES("s"), BYTES("")}, BYTES("-0.1")},
    {"plurals_pattern_format", {ENGLISH, ENGLISH, BYTES("{n, selectordinal, one {#st} other {#th}}"), BYTES("n"), BYTES("1"), BYTES("s"), BYTES("")}, BYTES("1st")},
    {"plurals_pattern_format", {ENGLISH, BYTES(""), BYTES("{n, selectordinal, one {#st} other {#th}}"), BYTES("n"), BYTES("1"), BYTES("s"), BYTES("")}, BYTES("1th")},
    {"plurals_pattern_format", {ENGLISH, BYTES(""), BYTES("{s, select, a {A#} other {B}}{s}"), BYTES("n"), BYTES(" "), BYTES("s"), BYTES("a")}, BYTES("A#a")},
    {"plurals_pattern_format", {ENGLISH, BYTES(""), BYTES("'{n}' I don''t }# '"), BYTES("n"), BYTES("1"), BYTES("s"), BYTES("")}, BYTES("{n} I don't }# '")},
    {"plurals_catalog_pack", {BYTES("{\"en\":{\"patterns\":{}}}"), BYTES("en")}, BYTES("\0\0\0\0")},
    {"plurals_catalog_pack", {BYTES("{\"en\":{\"patterns\":{\"hi\":\"hello\"}}}"), BYTES("")}, BYTES("\1\0\0\0\2\0\0\0\13\0\0\0hi\1\0\0\0hello")},
    {"plurals_catalog_pack", {BYTES("{\"ru\":5,\"en\":{\"source\":1.5,\"cardinal\":{},\"patterns\":{\"hi\":\"\",\"hi\":\"h\\u00e9\",\"\":\"\"}}}"), BYTES("en")},
     BYTES("\2\0\0\0\0\0\0\0\0\0\0\0\2\0\0\0\11\0\0\0hi\1\0\0\0h\xc3\xa9")},
    {"plurals_pattern_pack", {BYTES("hello")}, BYTES("\1\0\0\0hello")},
    {"plurals_pattern_pack", {BYTES("I don't")}, BYTES("\3\0\7\0\12\0\0\0I don\0\0'\0\0t")},
    {"plurals_pattern_pack", {BYTES("{s, select, other {'{'#}}")}, BYTES("\5\0\10\0\21\0\24\0\27\0\5\0\3\0\1\0\1s\6\0\2\0other\0\1{\0\1#\10\0")},
    {"plurals_pattern_format", {ENGLISH, BYTES(""), BYTES("{n, plural, other {# {s, select, other {#}} #}}"), BYTES("n"), BYTES("1"), BYTES("s"), BYTES("x")}, BYTES("1 # 1")},
};

/* The block of a short pattern. */
static struct slice packed_of(struct slice pattern) {
    static struct text block;
    block.length = pattern.length;
    memcpy(block.bytes, pattern.at, pattern.length);
    pack(&block);
    return (struct slice){block.bytes, block.length};
}

/* The catalogue of a short block, under the key k. */
static struct slice keyed(struct slice bytes) {
    static const char *const keys[] = {"k"};
    static struct text block, catalog;
    block.length = bytes.length;
    memcpy(block.bytes, bytes.at, bytes.length);
    catalog_of(&catalog, keys, &block, 1);
    return (struct slice){catalog.bytes, catalog.length};
}

static void try_written(void) {
    for (size_t row = 0; row < sizeof written / sizeof *written; row++) {
        export = export_of(written[row].name);
        set_good();
        for (int k = 0; k < export->slices; k++) set_slice(k, written[row].slices[k]);
        run_by_hand((int64_t)written[row].bytes.length, written[row].bytes);
        if (export->ask != pattern_format) continue;
        export = export_of("plurals_packed_format");
        set_slice(2, packed_of(written[row].slices[2]));
        run_by_hand((int64_t)written[row].bytes.length, written[row].bytes);
        export = export_of("plurals_catalog_say");
        set_slice(2, keyed(packed_of(written[row].slices[2]))), set_slice(7, slice_of("k"));
        run_by_hand((int64_t)written[row].bytes.length, written[row].bytes);
    }
}

/* Faults of arguments: a pattern, the number n or s of another kind, and the fault. */
static const struct {
    const char *pattern, *value;
    uint32_t kind;
    int fault;
} uses[] = {
    {"{m}", "1", 0, PLURALS_ARGUMENT_MISSING}, {"{m, select, other {}}{n, select, other {}}", "1", 0, PLURALS_ARGUMENT_MISSING},
    {"{n, plural, other {}}", "1", 1, PLURALS_ARGUMENT_WRONG_KIND}, {"{n, select, other {}}{m}", "1", 0, PLURALS_ARGUMENT_WRONG_KIND},
    {"{n, plural, other {}}", "1,000", 0, PLURALS_ARGUMENT_NOT_A_NUMBER}, {"{n, plural, other {}}", "", 0, PLURALS_ARGUMENT_NOT_A_NUMBER},
    {"{n, plural, other {}}", "1c256", 0, PLURALS_ARGUMENT_OVER_LIMIT},
    {"{n, plural, offset:1 other {}}", "1c1", 0, PLURALS_ARGUMENT_COMPACT_OFFSET},
    {"{n}", "1", 2, PLURALS_ARGUMENT_KIND}, {"", "1", UINT32_MAX, PLURALS_ARGUMENT_KIND},
};

/* Catalogues with their fault, each beginning with the greatest of what is wrong. */
static const struct {
    struct slice bytes;
    int fault;
} catalogs[] = {
    {BYTES(""), -140}, {BYTES("\0\0\0"), -140}, {BYTES("\1\0\0\0"), -140}, {BYTES("\xff\xff\xff\xff\0\0\0\0"), -140}, {BYTES("\0\0\0\0\0"), -141},
    {BYTES("\1\0\0\0\1\0\0\0\0\0\0\1k"), -141}, {BYTES("\1\0\0\0\2\0\0\0\1\0\0\0k"), -142},
    {BYTES("\2\0\0\0\1\0\0\0\0\0\0\0\0\0\0\0\0\0\0\0"), -142},
    {BYTES("\2\0\0\0\0\0\0\0\0\0\0\0\0\0\0\0\0\0\0\0"), -143}, {BYTES("\2\0\0\0\1\0\0\0\1\0\0\0\2\0\0\0\2\0\0\0ba"), -143},
    {BYTES("\2\0\0\0\1\0\0\0\2\0\0\0\3\0\0\0\3\0\0\0a\1b"), -120},
};

static void try_catalogs(void) {
    export = export_of("plurals_catalog_check");
    for (size_t row = 0; row < sizeof catalogs / sizeof *catalogs; row++) set_slice(0, catalogs[row].bytes), run_by_hand(catalogs[row].fault, NO_BYTES);
    for (int b = 0; b < BAD; b++) {
        if (bad[b].kind != PACKED) continue;
        export = export_of("plurals_catalog_check");
        set_slice(0, keyed(bad[b].bytes)), run_by_hand(bad[b].fault, NO_BYTES);
        export = export_of("plurals_catalog_say");
        set_good();
        set_slice(2, keyed(bad[b].bytes)), run_by_hand(bad[b].fault, NO_BYTES);
        set_slice(0, slice_of("\1")), run_by_hand(PLURALS_RULES_LIST_HEADER, NO_BYTES);
        set_slice(7, NO_BYTES), run_by_hand(PLURALS_NO_KEY, NO_BYTES);
    }
}

/* The catalogue of one pattern, whose faults are its own; and documents without a locale that is named. */
static void try_packed_catalogs(void) {
    static char document[MOST_BYTES];
    export = export_of("plurals_catalog_pack");
    for (int b = 0; b < BAD; b++) {
        if (bad[b].kind != PATTERN) continue;
        snprintf(document, sizeof document, "{\"en\":{\"patterns\":{\"k\":\"%.*s\"}}}", (int)bad[b].bytes.length, (const char *)bad[b].bytes.at);
        set_slice(0, slice_of(document)), set_slice(1, slice_of("en")), run_by_hand(bad[b].fault, NO_BYTES);
    }
    set_slice(1, NO_BYTES);
    set_slice(0, slice_of("{}")), run_by_hand(PLURALS_MESSAGES_NO_LOCALE, NO_BYTES);
    set_slice(0, slice_of("{\"en\":{\"cardinal\":5},\"\":{}}")), run_by_hand(PLURALS_MESSAGES_SEVERAL_LOCALES, NO_BYTES);
    set_slice(0, slice_of("{\"en\":{\"cardinal\":5}}")), run_by_hand(PLURALS_MESSAGES_CARDINAL_FORMS, NO_BYTES);
}

static void try_arguments(void) {
    export = export_of("plurals_pattern_format");
    for (size_t row = 0; row < sizeof uses / sizeof *uses; row++) {
        set_good();
        kinds_of_arguments[0] = uses[row].kind, arguments_len = 1;
        set_slice(2, slice_of(uses[row].pattern)), set_slice(4, slice_of(uses[row].value));
        run_by_hand(uses[row].fault, NO_BYTES);
        set_slice(2, slice_of("{")), run_by_hand(PLURALS_PATTERN_UNCLOSED, NO_BYTES);
        export = export_of("plurals_packed_format");
        set_slice(2, packed_of(slice_of(uses[row].pattern))), run_by_hand(uses[row].fault, NO_BYTES);
        set_slice(2, slice_of("\1")), run_by_hand(PLURALS_PACKED_LIST_HEADER, NO_BYTES);
        export = export_of("plurals_catalog_say");
        set_slice(2, keyed(packed_of(slice_of(uses[row].pattern)))), set_slice(7, slice_of("k")), run_by_hand(uses[row].fault, NO_BYTES);
        export = export_of("plurals_pattern_format");
    }
}

/* ---- limits: texts that are too long by one, and those that are just short enough */

static char long_text[MODEL_BYTES];

static struct slice repeated(const char *front, const char *piece, int times, const char *end) {
    size_t at = (size_t)sprintf(long_text, "%s", front);
    for (int k = 0; k < times; k++) at += (size_t)sprintf(long_text + at, "%s", piece);
    sprintf(long_text + at, "%s", end);
    return slice_of(long_text);
}

/* The model knows the result, which by hand is a fault, or that there is none. */
static void run_limit(int fault) {
    run_slices();
    expect(fault ? wanted == fault : wanted >= 0, "the row says something else than the model", fault);
    if (fault) fault_of(fault)->by_hand[export - exports]++;
}

static void try_rule(int values, const char *end, const char *two, int fault) {
    export = export_of("plurals_rules_from_texts");
    for (int k = 0; k < 5; k++) set_slice(k, NO_BYTES);
    set_slice(1, repeated("n = 1", ",1", values - 1, end)), set_slice(2, slice_of(two));
    run_limit(fault);
    export = export_of("plurals_rules_from_document");
    size_t at = strlen(two);
    char after[256];
    snprintf(after, sizeof after, "%s\"%s%s%s}}}", end, at ? ",\"two\":\"" : "", two, at ? "\"" : "");
    set_slice(0, repeated("{\"cardinal\":{\"en\":{\"one\":\"n = 1", ",1", values - 1, after)), set_slice(1, slice_of("en"));
    type = 0;
    run_limit(fault);
    export = export_of("plurals_ranges_from_document");
    run_limit(fault == PLURALS_TEXT_START_LIMIT ? fault : PLURALS_LOCALE);
}

static void try_element(int other, int one, int fault) {
    char front[400], filler[400];
    memset(filler, 'y', sizeof filler);
    snprintf(front, sizeof front, "{\"two\":[0,\"z\"],\"other\":[0,\"%.*s\"],\"one\":[0,\"", other, filler);
    export = export_of("plurals_elements_from_json");
    set_slice(0, repeated(front, "x", one, "\"]}"));
    run_limit(fault);
    export = export_of("plurals_elements_from_texts");
    for (int k = 0; k < 8; k++) set_slice(k, NO_BYTES);
    set_slice(0, (struct slice){(const uint8_t *)filler, (size_t)other}), set_slice(2, repeated("", "x", one, "")), set_slice(3, slice_of("z"));
    run_limit(fault);
}

/* JSON that is nested so deep, with an empty list inside or without. */
static void try_depth(int depth, int fault) {
    export = export_of("plurals_elements_from_json");
    size_t at = repeated("{\"other\":[0,\"x\"],\"x\":", "[", depth - 1, "").length;
    memset(long_text + at, ']', (size_t)depth - 1);
    strcpy(long_text + at + depth - 1, "}");
    set_slice(0, slice_of(long_text));
    run_limit(fault);
    export = export_of("plurals_rules_from_document");
    set_slice(1, slice_of("en")), type = 1;
    run_limit(fault ? fault : PLURALS_LOCALE);
    export = export_of("plurals_ranges_from_document");
    run_limit(fault ? fault : PLURALS_LOCALE);
    export = export_of("plurals_find_locale");
    run_limit(fault ? fault : PLURALS_LOCALE);
    export = export_of("plurals_catalog_pack");
    run_limit(fault ? fault : PLURALS_MESSAGES_ABSENT_LOCALE);
}

/* A pattern with the number n, where the front ends in so many of a piece. */
static void try_pattern(const char *front, const char *piece, int times, const char *end, const char *n, int fault) {
    export = export_of("plurals_pattern_format");
    set_good();
    set_slice(2, repeated(front, piece, times, end)), set_slice(4, slice_of(n));
    run_limit(fault);
}

static void try_patterns(void) {
    static char longest[40000], less[40000];
    char closing[100] = "#";
    memset(longest, '9', 32767), memset(less, '9', 32768), less[0] = '-';
    for (int depth = 1; depth <= 32; depth++) strcat(closing, "}}"), try_pattern("", "{n,plural,other{", depth, closing, "1", 0);
    try_pattern("", "{n,plural,other{", 33, "", "1", PLURALS_PATTERN_TOO_DEEP);
    try_pattern("{n,plural,offset:", "9", 32767, " other{#}}", "1", 0);
    try_pattern("{n,plural,offset:", "0", 32768, " other{#}}", "1", PLURALS_ARGUMENT_OVER_LIMIT);
    try_pattern("{n,plural,offset:1", "", 0, " other{#}}", longest, 0);
    try_pattern("{n,plural,offset:0", "", 0, " other{#}}", less, 0);
    try_pattern("{n,plural,offset:1", "", 0, " other{#}}", less, PLURALS_ARGUMENT_OVER_LIMIT);
    try_pattern("{n,plural,=", "0", 32766, "1{same} other{#}}", "1.0", 0);
    try_pattern("{n,plural,=", "0", 32767, "1{same} other{#}}", "1.0", 0);
    longest[32767] = '9';
    try_pattern("{n,plural,", "", 0, "other{}}", longest, PLURALS_ARGUMENT_OVER_LIMIT);
    try_pattern("{n}", "", 0, "", longest, 0);
}

/* A pattern that is packed, where so many of a piece stand behind the front. */
static void try_pack(const char *front, const char *piece, int times, const char *end, int fault) {
    export = export_of("plurals_pattern_pack");
    set_slice(0, repeated(front, piece, times, end));
    run_limit(fault);
    export = export_of("plurals_catalog_pack");
    char first[64], last[64];
    snprintf(first, sizeof first, "{\"en\":{\"patterns\":{\"k\":\"%s", front), snprintf(last, sizeof last, "%s\"}}}", end);
    set_slice(0, repeated(first, piece, times, last)), set_slice(1, slice_of("en"));
    run_limit(fault);
}

static void try_packs(void) {
    try_pack("", "{a}", 65536, "", PLURALS_PACKING_COUNT_LIMIT);
    try_pack("", "{a}", 20000, "", 0);
    try_pack("{", "a", 256, ", plural, other {}}", PLURALS_PACKING_PART);
    try_pack("{", "a", 255, ", plural, other {}}", 0);
    try_pack("{", "a", 256, "}", 0);
    try_pack("", "x", 65533, "{a}{b", PLURALS_PATTERN_UNCLOSED);
    try_pack("", "x", 65533, "{a}", 0);
    try_pack("", "x", 65534, "{a}", PLURALS_PACKING_START_LIMIT);
    try_pack("", "x", 100000, "", 0);
}

/* A locale of so many subtags, the last of whose chain is root. */
static void try_chain(int subtags, int fault) {
    export = export_of("plurals_find_locale");
    set_good();
    set_slice(0, slice_of("{\"cardinal\":{\"root\":{}}}")), set_slice(1, repeated("x", "-x", subtags - 1, ""));
    run_limit(fault);
}

static void try_limits(void) {
    try_chain(31, 0);
    try_chain(32, PLURALS_LOCALE);
    try_patterns();
    try_packs();
    try_rule(8191, " and n = 1", "", 0);
    try_rule(8192, " and n = 1", "", PLURALS_TEXT_START_LIMIT);
    try_rule(8190, "", "n = 2", 0);
    try_rule(8191, "", "n = 2", PLURALS_RULES_LIMIT);
    try_element(255, 65534, 0);
    try_element(255, 65535, PLURALS_ELEMENTS_START_LIMIT);
    try_element(256, 1, PLURALS_ELEMENTS_DEFAULT_LIMIT);
    try_depth(127, 0);
    try_depth(128, PLURALS_JSON);
    export = export_of("plurals_message");
    set_slice(0, NO_BYTES), set_slice(1, repeated("", "{}", 3000, "")), set_slice(2, slice_of("-12345678901234567890.5c255"));
    memmove(long_text + 1, long_text, 6000), long_text[0] = 0;
    set_slice(1, (struct slice){(const uint8_t *)long_text, 6001});
    run_limit(0);
}

/* Each fault of each export has a row, but -26 and -132, which no text has, those of 4 GB of messages, and memory, which is refused to
 * all. */
static void expect_each_fault(void) {
    for (size_t e = 0; e < EXPORTS; e++)
        for (size_t k = 0; k < FAULTS; k++) {
            bool is_reachable = (exports[e].faults & faults[k].group) && faults[k].number != PLURALS_TEXT_VALUE_TOO_LARGE
                && faults[k].number != PLURALS_PACKING_ORDER && faults[k].group != OF_ENTRIES && faults[k].number != PLURALS_MEMORY;
            if (is_reachable == (faults[k].by_hand[e] > 0)) continue;
            printf("%s: %s has %s\n", exports[e].name, faults[k].name, is_reachable ? "no row" : "a row");
            exit(1);
        }
}

int main(int count, char **words) {
    uint64_t most = count > 1 ? strtoull(words[1], NULL, 10) : 1000000;
    state = count > 2 ? strtoull(words[2], NULL, 10) : 1;
    setvbuf(stdout, NULL, _IOLBF, 0);
    printf("seed %" PRIu64 "\n", state);
    fill_pools();
    make_rooms();
    try_faults();
    try_categories();
    try_numbers();
    try_wholes();
    try_written();
    try_keys();
    try_catalogs();
    try_packed_catalogs();
    try_arguments();
    try_limits();
    expect_each_fault();
    printf("%10" PRIu64 " calls by hand\n", calls);
    while (calls < most) run_case();
    printf("%10" PRIu64 " results\n", results);
    for (size_t k = 0; k < FAULTS; k++) printf("%10" PRIu64 " %s\n", faults[k].count, faults[k].name);
    printf("%" PRIu64 " calls, none wrong\n", calls);
    return 0;
}
