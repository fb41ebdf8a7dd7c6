/* Checks what the installed library adds to the proved exports, null with length 0, names and texts, and that numbers arrive. */
#include <plurals.h>
#include <stdio.h>
#include <string.h>

static int failed = 0;
#define CHECK(CONDITION) ((CONDITION) ? (void)0 : (void)(++failed, printf("%s:%d: %s\n", __FILE__, __LINE__, #CONDITION)))

static void null_with_length_0(void) {
    const char *one = "n % 10 = 8", *json = "{\"cardinal\":{\"\":{\"one\":\"n = 1\"}}}", *texts = "{\"other\":[0,\"{} items\"]}";
    uint8_t rules[64], elements[64];
    int64_t length = plurals_rules_from_texts(NULL, 0, one, strlen(one), NULL, 0, NULL, 0, NULL, 0, NULL, 0);
    CHECK(length > 0);
    CHECK(plurals_rules_from_texts(NULL, 0, one, strlen(one), NULL, 0, NULL, 0, NULL, 0, rules, sizeof rules) == length);
    CHECK(plurals_rules_from_texts(NULL, 0, NULL, 0, NULL, 0, NULL, 0, NULL, 0, NULL, 0) == 0);
    CHECK(plurals_rules_from_document(NULL, 0, NULL, 0, PLURALS_CARDINAL, NULL, 0) == PLURALS_JSON);
    CHECK(plurals_rules_from_document(json, strlen(json), NULL, 0, PLURALS_CARDINAL, NULL, 0) > 0);
    CHECK(plurals_check_rules(NULL, 0) == 0);
    CHECK(plurals_category_of_integer(NULL, 0, 1) == PLURALS_OTHER);
    CHECK(plurals_category_of_signed_integer(NULL, 0, -1) == PLURALS_OTHER);
    CHECK(plurals_category_of_operands(NULL, 0, 1, 0, 0, 0, 0, 0) == PLURALS_OTHER);
    CHECK(plurals_categories(NULL, 0) == 1 << PLURALS_OTHER);
    CHECK(plurals_categories_of_integers(NULL, 0, NULL, 0, NULL, 0) == 0);
    CHECK(plurals_table_of_rules(NULL, 0, NULL, 0) == PLURALS_TABLE_BYTES);
    CHECK(plurals_category_by_table(NULL, 0, 1) == PLURALS_TABLE_LENGTH);
    CHECK(plurals_text_category_by_table(NULL, 0, NULL, 0) == PLURALS_TABLE_LENGTH);
    CHECK(plurals_category(NULL, 0, "1", 1) == PLURALS_OTHER);
    CHECK(plurals_category(rules, (size_t)length, NULL, 0) == PLURALS_NUMBER_SYNTAX);
    CHECK(plurals_is_exact(NULL, 0, "1", 1) == 1);
    CHECK(plurals_elements_from_json(NULL, 0, NULL, 0) == PLURALS_JSON);
    int64_t elements_len = plurals_elements_from_json(texts, strlen(texts), elements, sizeof elements);
    CHECK(plurals_element(NULL, 0, elements, (size_t)elements_len, "1", 1, NULL, 0) == 8);
    CHECK(plurals_message(NULL, 0, elements, (size_t)elements_len, "12", 2, NULL, 0) == 8);
    CHECK(plurals_message(NULL, 0, NULL, 0, "1", 1, NULL, 0) == PLURALS_ELEMENTS_EMPTY);
}

/* Gives a null number a, the text x as b, 1.5 as n and a null text s, with null arguments between the first two. */
static void give(struct plurals_argument *given, size_t count) {
    for (size_t k = 0; k < count; k++) given[k] = (struct plurals_argument){NULL, 0, NULL, 0, PLURALS_TEXT};
    given[0] = (struct plurals_argument){"a", 1, NULL, 0, PLURALS_NUMBER};
    given[count - 3] = (struct plurals_argument){"b", 1, "x", 1, PLURALS_TEXT};
    given[count - 2] = (struct plurals_argument){"n", 1, "1.5", 3, PLURALS_NUMBER};
    given[count - 1] = (struct plurals_argument){"s", 1, NULL, 0, PLURALS_TEXT};
}

/* A pattern with many arguments, of which some are null: few are copied where the call stands, more are copied to memory. */
static void patterns(void) {
    const char *one = "i = 1", *pattern = "{a}{b}{n, plural, one {#} other {}}{s, select, other {.}}";
    struct plurals_argument given[40];
    uint8_t rules[64];
    char out[64];
    int64_t length = plurals_rules_from_texts(NULL, 0, one, strlen(one), NULL, 0, NULL, 0, NULL, 0, rules, sizeof rules);
    CHECK(plurals_pattern_format(NULL, 0, NULL, 0, NULL, 0, NULL, 0, NULL, 0) == 0);
    CHECK(plurals_pattern_format(NULL, 0, NULL, 0, "{", 1, NULL, 0, NULL, 0) == PLURALS_PATTERN_UNCLOSED);
    CHECK(plurals_pattern_format(NULL, 0, rules, 1, "{", 1, NULL, 0, NULL, 0) == PLURALS_RULES_LIST_HEADER);
    for (size_t count = 4; count <= 40; count++) {
        give(given, count);
        memset(out, 77, sizeof out);
        CHECK(plurals_pattern_format(rules, (size_t)length, NULL, 0, pattern, strlen(pattern), given, count, NULL, 0) == 5);
        CHECK(plurals_pattern_format(rules, (size_t)length, NULL, 0, pattern, strlen(pattern), given, count, out, 5) == 5);
        CHECK(!memcmp(out, "x1.5.", 5) && out[5] == 77);
        CHECK(plurals_pattern_format(rules, (size_t)length, NULL, 0, pattern, strlen(pattern), given, count - 1, out, 5) == PLURALS_ARGUMENT_MISSING);
        given[count / 2].kind = 2;
        CHECK(plurals_pattern_format(rules, (size_t)length, NULL, 0, pattern, strlen(pattern), given, count, out, 5) == PLURALS_ARGUMENT_KIND);
    }
}

/* The block of a pattern, with null and many arguments as above. Want of memory for them hides no fault of the block. */
static void packed_patterns(void) {
    const char *pattern = "{a}{b}{n, plural, one {#} other {}}{s, select, other {.}}";
    struct plurals_argument given[40];
    uint8_t block[512];
    char out[8];
    int64_t length = plurals_pattern_pack(pattern, strlen(pattern), block, sizeof block);
    CHECK(length > 0 && length <= (int64_t)sizeof block);
    CHECK(plurals_pattern_pack(NULL, 0, NULL, 0) == 0);
    CHECK(plurals_pattern_pack("{", 1, NULL, 0) == PLURALS_PATTERN_UNCLOSED);
    CHECK(plurals_pattern_check(NULL, 0) == 0);
    CHECK(plurals_pattern_check(block, (size_t)length) == 0);
    CHECK(plurals_pattern_check(block, 1) == PLURALS_PACKED_LIST_HEADER);
    CHECK(plurals_packed_format(NULL, 0, NULL, 0, NULL, 0, NULL, 0, NULL, 0) == 0);
    CHECK(plurals_packed_format(NULL, 0, NULL, 0, block, 1, NULL, 0, NULL, 0) == PLURALS_PACKED_LIST_HEADER);
    CHECK(plurals_packed_format(NULL, 0, NULL, 0, block, (size_t)length, NULL, 0, NULL, 0) == PLURALS_ARGUMENT_MISSING);
    CHECK(plurals_packed_format(NULL, 0, NULL, 0, block, 1, given, SIZE_MAX / sizeof *given, NULL, 0) == PLURALS_PACKED_LIST_HEADER);
    for (size_t count = 4; count <= 40; count++) {
        give(given, count);
        memset(out, 77, sizeof out);
        CHECK(plurals_packed_format(NULL, 0, NULL, 0, block, (size_t)length, given, count, out, 1) == 2 && out[0] == 77);
        CHECK(plurals_packed_format(NULL, 0, NULL, 0, block, (size_t)length, given, count, out, 2) == 2);
        CHECK(!memcmp(out, "x.", 2) && out[2] == 77);
    }
}

/* The catalogue of docs/FORMATS.md, with null and many arguments as above. Want of memory for them hides no missing key. */
static void catalogs(void) {
    static const uint8_t catalog[] = "\1\0\0\0\2\0\0\0\13\0\0\0hi\1\0\0\0hello";
    enum { LENGTH = sizeof catalog - 1 };
    struct plurals_argument given[40];
    char out[8];
    CHECK(plurals_catalog_check(catalog, LENGTH) == 0);
    CHECK(plurals_catalog_check(catalog, LENGTH - 1) == PLURALS_CATALOG_LENGTH);
    CHECK(plurals_catalog_check(NULL, 0) == PLURALS_CATALOG_HEADER);
    CHECK(plurals_catalog_say(NULL, 0, NULL, 0, NULL, 0, NULL, 0, NULL, 0, NULL, 0) == PLURALS_NO_KEY);
    CHECK(plurals_catalog_say(NULL, 0, NULL, 0, catalog, LENGTH, "ho", 2, given, SIZE_MAX / sizeof *given, NULL, 0) == PLURALS_NO_KEY);
    CHECK(plurals_catalog_say(catalog, 1, NULL, 0, catalog, LENGTH, "hi", 2, given, SIZE_MAX / sizeof *given, NULL, 0) == PLURALS_RULES_LIST_HEADER);
    for (size_t count = 4; count <= 40; count++) {
        give(given, count);
        memset(out, 77, sizeof out);
        CHECK(plurals_catalog_say(NULL, 0, NULL, 0, catalog, LENGTH, "hi", 2, given, count, out, 4) == 5 && out[0] == 77);
        CHECK(plurals_catalog_say(NULL, 0, NULL, 0, catalog, LENGTH, "hi", 2, given, count, out, 5) == 5);
        CHECK(!memcmp(out, "hello", 5) && out[5] == 77);
    }
}

/* The length of the catalogue of a document's only locale, or the fault. */
static int64_t packed(const char *json) { return plurals_catalog_pack(json, strlen(json), NULL, 0, NULL, 0); }

/* The catalogue of a document, which is as above, and says what its patterns do. */
static void packed_catalogs(void) {
    const char *json = "{\"en\":{\"cardinal\":{},\"patterns\":{\"hi\":\"hello\",\"n\":\"{n, plural, one {# file} other {# files}}\"}},\"ru\":{}}";
    const char *one = "{\"en\":{\"patterns\":{\"hi\":\"hello\"}}}";
    struct plurals_argument n = {"n", 1, "1", 1, PLURALS_NUMBER};
    size_t json_len = strlen(json);
    uint8_t catalog[256], rules[64];
    char out[8];
    int64_t rules_len = plurals_rules_from_texts(NULL, 0, "i = 1 and v = 0", 15, NULL, 0, NULL, 0, NULL, 0, rules, sizeof rules);
    int64_t length = plurals_catalog_pack(json, json_len, "en", 2, NULL, 0);
    CHECK(length > 0 && length <= (int64_t)sizeof catalog);
    CHECK(plurals_catalog_pack(json, json_len, "en", 2, catalog, sizeof catalog) == length && plurals_catalog_check(catalog, (size_t)length) == 0);
    CHECK(plurals_catalog_say(rules, (size_t)rules_len, NULL, 0, catalog, (size_t)length, "n", 1, &n, 1, out, sizeof out) == 6 && !memcmp(out, "1 file", 6));
    memset(catalog, 77, sizeof catalog);
    CHECK(plurals_catalog_pack(one, strlen(one), NULL, 0, catalog, 22) == 23 && catalog[0] == 77);
    CHECK(plurals_catalog_pack(one, strlen(one), NULL, 0, catalog, 23) == 23 && !memcmp(catalog, "\1\0\0\0\2\0\0\0\13\0\0\0hi\1\0\0\0hello", 23));
    CHECK(plurals_catalog_pack(NULL, 0, NULL, 0, NULL, 0) == PLURALS_JSON);
    CHECK(plurals_catalog_pack(NULL, 0, "\xff", 1, NULL, 0) == PLURALS_UTF8);
    CHECK(packed("{}") == PLURALS_MESSAGES_NO_LOCALE);
    CHECK(plurals_catalog_pack(json, json_len, NULL, 0, NULL, 0) == PLURALS_MESSAGES_SEVERAL_LOCALES);
    CHECK(plurals_catalog_pack(json, json_len, "de", 2, NULL, 0) == PLURALS_MESSAGES_ABSENT_LOCALE);
    CHECK(plurals_catalog_pack(json, json_len, "ru", 2, NULL, 0) == PLURALS_MESSAGES_NO_PATTERNS);
    CHECK(packed("{\"en\":{\"cardinal\":5}}") == PLURALS_MESSAGES_CARDINAL_FORMS);
    CHECK(packed("{\"en\":{\"ordinal\":5}}") == PLURALS_MESSAGES_ORDINAL_FORMS);
    CHECK(packed("{\"en\":{\"patterns\":5}}") == PLURALS_DOCUMENT_SHAPE);
    CHECK(packed("{\"en\":{\"patterns\":{\"a\":\"{\"}}}") == PLURALS_PATTERN_UNCLOSED);
}

static void pattern_of_the_page(void) {
    uint8_t cardinal[64], *ordinal = NULL;
    size_t ordinal_len = 0;
    char out[64];
    int64_t cardinal_len = plurals_rules_from_texts(NULL, 0, "i = 1 and v = 0", 15, NULL, 0, NULL, 0, NULL, 0, cardinal, sizeof cardinal);
    struct plurals_argument arguments[] = {{"who", 3, "Ann", 3, PLURALS_TEXT}, {"n", 1, "1.0", 3, PLURALS_NUMBER}};
    const char *pattern = "{who} sent {n, plural, one {# file} other {# files}}.";
    int64_t length = plurals_pattern_format(cardinal, cardinal_len, ordinal, ordinal_len, pattern, strlen(pattern),
                                            arguments, 2, out, sizeof out);
    CHECK(length == 19 && !memcmp(out, "Ann sent 1.0 files.", 19));
    uint8_t block[128];
    int64_t block_len = plurals_pattern_pack(pattern, strlen(pattern), block, sizeof block);
    length = plurals_packed_format(cardinal, cardinal_len, ordinal, ordinal_len, block, block_len,
                                   arguments, 2, out, sizeof out);
    CHECK(length == 19 && !memcmp(out, "Ann sent 1.0 files.", 19));
    uint8_t catalog[256] = {1, 0, 0, 0, 4, 0, 0, 0, (uint8_t)(4 + block_len), 0, 0, 0, 's', 'e', 'n', 't'};
    size_t catalog_len = 16 + (size_t)block_len;
    memcpy(catalog + 16, block, (size_t)block_len);
    int32_t fault = plurals_catalog_check(catalog, catalog_len);
    length = plurals_catalog_say(cardinal, cardinal_len, ordinal, ordinal_len, catalog, catalog_len, "sent", 4,
                                 arguments, 2, out, sizeof out);
    CHECK(fault == 0 && length == 19 && !memcmp(out, "Ann sent 1.0 files.", 19));
}

/* Eight parameters, of which the compiler passes some in memory. */
static void operands(void) {
    const char *one = "i % 10 = 1", *two = "v = 2", *few = "w = 3", *many = "f = 4 or t = 5 or c = 6";
    uint8_t rules[256];
    int64_t length = plurals_rules_from_texts(NULL, 0, one, strlen(one), two, strlen(two), few, strlen(few), many, strlen(many), rules,
                                              sizeof rules);
    CHECK(plurals_category_of_operands(rules, (size_t)length, UINT64_MAX - 4, 0, 0, 0, 0, 0) == PLURALS_ONE);
    CHECK(plurals_category_of_operands(rules, (size_t)length, 0, 2, 0, 0, 0, 0) == PLURALS_TWO);
    CHECK(plurals_category_of_operands(rules, (size_t)length, 0, 0, 3, 0, 0, 0) == PLURALS_FEW);
    CHECK(plurals_category_of_operands(rules, (size_t)length, 0, 0, 0, 4, 0, 0) == PLURALS_MANY);
    CHECK(plurals_category_of_operands(rules, (size_t)length, 0, 0, 0, 0, 5, 0) == PLURALS_MANY);
    CHECK(plurals_category_of_operands(rules, (size_t)length, 0, 0, 0, 0, 0, 6) == PLURALS_MANY);
    CHECK(plurals_category_of_operands(rules, (size_t)length, 0, 0, 0, 0, 0, 0) == PLURALS_OTHER);
    CHECK(plurals_categories(rules, (size_t)length) == 0x3e);
    CHECK(plurals_category_of_signed_integer(rules, (size_t)length, -11) == PLURALS_ONE);
}

static uint64_t state = 1;
static uint64_t random_number(void) {
    state ^= state << 13, state ^= state >> 7, state ^= state << 17;
    return state;
}

/* The function that is compiled with the caller returns what the proved export does. */
static int is_told_alike(const uint8_t *table, size_t table_len, uint64_t number) {
    return plurals_category_by_table_inline(table, table_len, number) == plurals_category_by_table(table, table_len, number);
}

/* So does a table of rules what the rules choose, or that they are asked. */
static int is_told_right(const uint8_t *rules, size_t length, const uint8_t *table, uint64_t number) {
    int32_t told = plurals_category_by_table(table, PLURALS_TABLE_BYTES, number), category = plurals_category_of_integer(rules, length, number);
    return (told == category || (told == PLURALS_ASK_RULES && number >= 128)) && is_told_alike(table, PLURALS_TABLE_BYTES, number);
}

static void table_of(const char *zero, const char *one, const char *two, const char *few, const char *many) {
    uint8_t rules[512], table[PLURALS_TABLE_BYTES + 1] = {0}, other[PLURALS_TABLE_BYTES] = {0};
    int64_t length = plurals_rules_from_texts(zero, strlen(zero), one, strlen(one), two, strlen(two), few, strlen(few), many, strlen(many),
                                              rules, sizeof rules);
    int wrong = 0;
    CHECK(length > 0 && (size_t)length <= sizeof rules);
    table[PLURALS_TABLE_BYTES] = 77;
    CHECK(plurals_table_of_rules(rules, (size_t)length, table, sizeof table) == PLURALS_TABLE_BYTES && table[PLURALS_TABLE_BYTES] == 77);
    CHECK(plurals_table_of_rules(rules, (size_t)length, other, sizeof other - 1) == PLURALS_TABLE_BYTES && other[8] == 0 && other[235] == 0);
    for (uint64_t number = 0; number < 1 << 20; number++) wrong += !is_told_right(rules, (size_t)length, table, number);
    for (int k = 0; k < 250000; k++) {
        uint64_t number = random_number();
        wrong += !is_told_right(rules, (size_t)length, table, number >> random_number() % 64);
        wrong += !is_told_right(rules, (size_t)length, table, number);
    }
    CHECK(wrong == 0);
}

/* Tables of rules, and any bytes as a table. */
static void tables(void) {
    uint8_t table[PLURALS_TABLE_BYTES + 1];
    int wrong = 0;
    table_of("", "i = 1 and v = 0", "", "", "");
    table_of("", "v = 0 and i % 10 = 1 and i % 100 != 11", "", "v = 0 and i % 10 = 2..4 and i % 100 != 12..14",
             "v = 0 and i % 10 = 0 or v = 0 and i % 10 = 5..9 or v = 0 and i % 100 = 11..14");
    table_of("n = 0", "n = 1", "n = 2", "n % 100 = 3..10", "n % 100 = 11..99");
    table_of("", "i = 0,1", "n = 200", "n % 7 = 3", "e = 0 and i != 0 and i % 1000000 = 0 and v = 0 or e != 0..5");
    for (int k = 0; k < 1000; k++) {
        for (size_t at = 0; at < sizeof table; at++) table[at] = (uint8_t)(at < 8 && k % 2 ? 0 : random_number() >> 40);
        for (int n = 0; n < 1000; n++) wrong += !is_told_alike(table, PLURALS_TABLE_BYTES, random_number() >> random_number() % 64);
        wrong += !is_told_alike(table, random_number() % sizeof table, random_number()) + !is_told_alike(table, sizeof table, 1);
    }
    CHECK(wrong == 0);
}

static void many(void) {
    const char *one = "n % 10 = 1";
    static uint64_t numbers[1000];
    static uint8_t rules[64], out[1001];
    int64_t length = plurals_rules_from_texts(NULL, 0, one, strlen(one), NULL, 0, NULL, 0, NULL, 0, rules, sizeof rules);
    for (size_t k = 0; k < 1000; k++) numbers[k] = random_number() >> random_number() % 64;
    for (size_t count = 0; count <= 1000; count += 250) {
        memset(out, 77, sizeof out);
        CHECK(plurals_categories_of_integers(rules, (size_t)length, numbers, count, out, count ? count - 1 : 0) == (int64_t)count && out[0] == 77);
        CHECK(plurals_categories_of_integers(rules, (size_t)length, numbers, count, out, sizeof out) == (int64_t)count && out[count] == 77);
        for (size_t k = 0; k < count; k++) CHECK(out[k] == plurals_category_of_integer(rules, (size_t)length, numbers[k]));
    }
    CHECK(plurals_categories_of_integers((const uint8_t *)"\1", 1, numbers, 1, out, 1) == PLURALS_RULES_LIST_HEADER);
}

static void ranges_and_texts(void) {
    const char *json = "{\"ranges\":{\"a\":{\"ranges\":{\"one--two\":\"many\"}}}}";
    uint8_t table[36], elements[64];
    CHECK(plurals_ranges_from_document(json, strlen(json), "a", 1, NULL, 0) == 36);
    CHECK(plurals_ranges_from_document(json, strlen(json), "b", 1, NULL, 0) == PLURALS_LOCALE);
    CHECK(plurals_ranges_from_document(json, strlen(json), "a", 1, table, sizeof table) == 36);
    for (int start = 0; start < 6; start++) {
        for (int end = 0; end < 6; end++) CHECK(table[6 * start + end] == (start == PLURALS_ONE && end == PLURALS_TWO ? PLURALS_MANY : end));
    }
    int64_t length = plurals_elements_from_texts("{} items", 8, NULL, 0, "{} item", 7, NULL, 0, NULL, 0, NULL, 0, NULL, 0, NULL, 0,
                                                 elements, sizeof elements);
    CHECK(length == 20 && !memcmp(elements, "\x80\x08{} items\x01\0\x10{} item", 20));
    CHECK(plurals_elements_from_texts(NULL, 0, NULL, 0, NULL, 0, NULL, 0, NULL, 0, NULL, 0, NULL, 0, NULL, 0, elements, 64) == 1);
}

/* Locales are found by their chains, and the key is what the other calls take. */
static void locales(void) {
    const char *json = "{\"cardinal\":{\"ru\":{\"few\":\"n = 2\"},\"en\":{},\"sr\":{},\"pt-PT\":{},\"root\":{}},\"ranges\":{\"pt\":{\"ranges\":{}}},"
                       "\"parents\":{\"pt-AO\":\"pt-PT\"}}";
    const char *rows[][2] = {{"ru_RU", "ru"}, {"en-US", "en"}, {"sr-Latn-RS", "sr"}, {"pt_AO", "pt-PT"}, {"xx", "root"}};
    size_t json_len = strlen(json);
    uint8_t rules[64], table[36];
    char key[16];
    int64_t key_len = plurals_find_locale(json, json_len, "ru_RU", 5, PLURALS_CARDINAL, key, sizeof key);
    int64_t rules_len = plurals_rules_from_document(json, json_len, key, key_len, PLURALS_CARDINAL, rules, sizeof rules);
    CHECK(plurals_category_of_integer(rules, (size_t)rules_len, 2) == PLURALS_FEW);
    for (size_t k = 0; k < sizeof rows / sizeof *rows; k++) {
        size_t length = strlen(rows[k][0]);
        memset(key, 77, sizeof key);
        key_len = plurals_find_locale(json, json_len, rows[k][0], length, PLURALS_CARDINAL, key, sizeof key);
        CHECK(key_len == (int64_t)strlen(rows[k][1]) && !memcmp(key, rows[k][1], (size_t)key_len) && key[key_len] == 77);
        CHECK(plurals_find_locale(json, json_len, rows[k][0], length, PLURALS_ORDINAL, key, sizeof key) == PLURALS_LOCALE);
    }
    key_len = plurals_find_locale(json, json_len, "pt_AO", 5, PLURALS_RANGES, key, sizeof key);
    CHECK(key_len == 2 && plurals_ranges_from_document(json, json_len, key, 2, table, sizeof table) == 36);
    CHECK(plurals_find_locale(json, json_len, "ru", 2, 3, key, sizeof key) == PLURALS_TYPE);
    CHECK(plurals_find_locale(json, json_len, "ru", 2, PLURALS_CARDINAL, key, 1) == 2);
    CHECK(plurals_find_locale(json, json_len, NULL, 0, PLURALS_CARDINAL, NULL, 0) == 4);
    CHECK(plurals_find_locale(NULL, 0, NULL, 0, PLURALS_RANGES, NULL, 0) == PLURALS_JSON);
}

static void names_and_texts(void) {
    const char *names[] = {"zero", "one", "two", "few", "many", "other"};
    for (int32_t category = -2; category < 8; category++) {
        const char *name = plurals_category_name(category);
        CHECK(0 <= category && category <= 5 ? name && !strcmp(name, names[category]) : !name);
    }
    /* Each number that has a text has one of its own. */
    for (int64_t fault = -200; fault < 10; fault++) {
        const char *text = plurals_fault_text(fault);
        for (int64_t other = -200; text && other < fault; other++) {
            CHECK(!plurals_fault_text(other) || strcmp(text, plurals_fault_text(other)));
        }
        CHECK(fault < 0 || !text);
    }
    CHECK(plurals_fault_text(PLURALS_MEMORY) && !strcmp(plurals_fault_text(PLURALS_LOCALE), "the document has no rules of the type, or no ranges, for the locale"));
    CHECK(!plurals_fault_text(INT64_MIN) && !plurals_fault_text(PLURALS_MEMORY + (INT64_C(1) << 32)));
    CHECK(!strcmp(plurals_version(), PLURALS_VERSION));
}

int main(void) {
    null_with_length_0();
    patterns();
    packed_patterns();
    catalogs();
    packed_catalogs();
    pattern_of_the_page();
    operands();
    tables();
    many();
    ranges_and_texts();
    locales();
    names_and_texts();
    printf("%d failed\n", failed);
    return failed != 0;
}
