/* Bugs between hostile.c and the library, one of which the variable PLANTED chooses: run-hostile --planted runs each, and hostile has
 * to find it. Each export is wrapped at the link. */
#include <plurals.h>
#include <stdbool.h>
#include <stdlib.h>
#include <string.h>

static int planted(void) {
    const char *word = getenv("PLANTED");
    return word ? atoi(word) : 0;
}

int64_t __real_plurals_rules_from_document(const char *, size_t, const char *, size_t, uint8_t, uint8_t *, size_t);
int64_t __real_plurals_rules_from_texts(const char *, size_t, const char *, size_t, const char *, size_t, const char *, size_t, const char *,
                                        size_t, uint8_t *, size_t);
int32_t __real_plurals_check_rules(const uint8_t *, size_t);
int32_t __real_plurals_category_of_integer(const uint8_t *, size_t, uint64_t);
int32_t __real_plurals_category_of_signed_integer(const uint8_t *, size_t, int64_t);
int32_t __real_plurals_category_of_operands(const uint8_t *, size_t, uint64_t, size_t, size_t, uint64_t, uint64_t, size_t);
int32_t __real_plurals_categories(const uint8_t *, size_t);
int32_t __real_plurals_category_by_table(const uint8_t *, size_t, uint64_t);
int32_t __real_plurals_text_category_by_table(const uint8_t *, size_t, const char *, size_t);
int64_t __real_plurals_table_of_rules(const uint8_t *, size_t, uint8_t *, size_t);
int64_t __real_plurals_categories_of_integers(const uint8_t *, size_t, const uint64_t *, size_t, uint8_t *, size_t);
int64_t __real_plurals_find_locale(const char *, size_t, const char *, size_t, uint8_t, char *, size_t);
int64_t __real_plurals_ranges_from_document(const char *, size_t, const char *, size_t, uint8_t *, size_t);
int64_t __real_plurals_elements_from_texts(const char *, size_t, const char *, size_t, const char *, size_t, const char *, size_t,
                                           const char *, size_t, const char *, size_t, const char *, size_t, const char *, size_t,
                                           uint8_t *, size_t);
int32_t __real_plurals_category(const uint8_t *, size_t, const char *, size_t);
int32_t __real_plurals_is_exact(const uint8_t *, size_t, const char *, size_t);
int64_t __real_plurals_elements_from_json(const char *, size_t, uint8_t *, size_t);
int64_t __real_plurals_element(const uint8_t *, size_t, const uint8_t *, size_t, const char *, size_t, char *, size_t);
int64_t __real_plurals_message(const uint8_t *, size_t, const uint8_t *, size_t, const char *, size_t, char *, size_t);
int64_t __real_plurals_pattern_format(const uint8_t *, size_t, const uint8_t *, size_t, const char *, size_t, const struct plurals_argument *,
                                      size_t, char *, size_t);
int64_t __real_plurals_pattern_pack(const char *, size_t, uint8_t *, size_t);
int64_t __real_plurals_catalog_pack(const char *, size_t, const char *, size_t, uint8_t *, size_t);
int32_t __real_plurals_catalog_check(const uint8_t *, size_t);
int64_t __real_plurals_catalog_say(const uint8_t *, size_t, const uint8_t *, size_t, const uint8_t *, size_t, const char *, size_t,
                                   const struct plurals_argument *, size_t, char *, size_t);
int32_t __real_plurals_pattern_check(const uint8_t *, size_t);
int64_t __real_plurals_packed_format(const uint8_t *, size_t, const uint8_t *, size_t, const uint8_t *, size_t, const struct plurals_argument *,
                                     size_t, char *, size_t);

/* How many digits a number has before its point. */
static size_t integers(const char *number, size_t length) {
    size_t start = length && (number[0] == '-' || number[0] == '+'), at = start;
    while (at < length && number[at] >= '0' && number[at] <= '9') at++;
    return at - start;
}

int64_t __wrap_plurals_rules_from_document(const char *json, size_t json_len, const char *locale, size_t locale_len, uint8_t rule_type,
                                           uint8_t *out, size_t out_len) {
    int bug = planted();
    if (bug == 1 && rule_type == 1) rule_type = 0; /* ordinal rules are the cardinal ones */
    int64_t result = __real_plurals_rules_from_document(json, json_len, locale, locale_len, rule_type, out, out_len);
    if (bug == 2 && result == PLURALS_LOCALE) return 0; /* a locale that isn't present has no rules */
    if (bug == 3 && result == PLURALS_DOCUMENT_RANGE_VALUE) return PLURALS_DOCUMENT_RANGE_KEY; /* two faults have one number */
    return result;
}

int64_t __wrap_plurals_rules_from_texts(const char *zero, size_t zero_len, const char *one, size_t one_len, const char *two, size_t two_len,
                                        const char *few, size_t few_len, const char *many, size_t many_len, uint8_t *out, size_t out_len) {
    int bug = planted();
    bool is_turned = bug == 4; /* two and few are exchanged */
    int64_t result =
        is_turned ? __real_plurals_rules_from_texts(zero, zero_len, one, one_len, few, few_len, two, two_len, many, many_len, out, out_len)
                  : __real_plurals_rules_from_texts(zero, zero_len, one, one_len, two, two_len, few, few_len, many, many_len, out, out_len);
    if (bug == 5 && (result == PLURALS_TEXT_EXPECTED_RELATION || result == PLURALS_TEXT_EXPECTED_AND_CONDITION))
        return PLURALS_TEXT_EXPECTED_RELATION + PLURALS_TEXT_EXPECTED_AND_CONDITION - (int32_t)result; /* two faults are exchanged */
    return result;
}

int32_t __wrap_plurals_check_rules(const uint8_t *rules, size_t rules_len) {
    int bug = planted();
    if (bug == 6) { /* it takes memory */
        void *volatile block = malloc(1);
        free(block);
    }
    int32_t result = __real_plurals_check_rules(rules, rules_len);
    if (bug == 7 && result <= PLURALS_RULES_RULE_LIST_HEADER) return result - 1; /* the faults of a rule begin one too low */
    return result;
}

int32_t __wrap_plurals_category_of_integer(const uint8_t *rules, size_t rules_len, uint64_t number) {
    int bug = planted();
    if (bug == 8) number &= UINT32_MAX; /* the integer is cut */
    int32_t result = __real_plurals_category_of_integer(rules, rules_len, number);
    if (bug == 9 && (result == PLURALS_FEW || result == PLURALS_MANY)) return PLURALS_FEW + PLURALS_MANY - result; /* a table is turned */
    return result;
}

int32_t __wrap_plurals_category(const uint8_t *rules, size_t rules_len, const char *number, size_t number_len) {
    int bug = planted();
    const char *mark = number_len ? memchr(number, 'c', number_len) : NULL;
    int32_t result = __real_plurals_category(rules, rules_len, number, number_len);
    if (bug == 10 && result >= 0 && mark && mark != number)
        return __real_plurals_category(rules, rules_len, number, (size_t)(mark - number)); /* the point isn't moved */
    if (bug == 11 && result >= 0 && integers(number, number_len) == number_len && number_len > 18)
        return __real_plurals_category(rules, rules_len, number + number_len - 18, 18); /* a long number isn't marked */
    if (bug == 12 && result == PLURALS_NUMBER_LIMIT) return PLURALS_NUMBER_SYNTAX; /* a limit is told as a fault of form */
    return result;
}

int32_t __wrap_plurals_is_exact(const uint8_t *rules, size_t rules_len, const char *number, size_t number_len) {
    int bug = planted();
    int32_t result = __real_plurals_is_exact(rules, rules_len, number, number_len);
    if (bug == 13 && result == 0) return __real_plurals_is_exact(rules, 0, number, number_len); /* moduli don't count */
    if (bug == 14 && result == 0 && number[0] == '0') /* a leading zero doesn't count */
        return number_len > 1 ? __real_plurals_is_exact(rules, rules_len, number + 1, number_len - 1) == 1 : 0;
    if (bug == 15 && result == 0 && number_len > 2 && number[1] == '.') return number_len == 21; /* 19 places of a fraction are exact */
    return result;
}

int64_t __wrap_plurals_elements_from_json(const char *json, size_t json_len, uint8_t *out, size_t out_len) {
    int bug = planted();
    int64_t result = __real_plurals_elements_from_json(json, json_len, out, out_len);
    if (bug == 16 && result > 0 && (size_t)result <= out_len) out[0] &= 0xf0; /* the default has no metadata */
    if (bug == 17 && result < 0 && out_len > 0) out[0] = 0; /* a byte is written at a fault */
    return result;
}

int64_t __wrap_plurals_element(const uint8_t *rules, size_t rules_len, const uint8_t *elements, size_t elements_len, const char *number,
                               size_t number_len, char *out, size_t out_len) {
    int bug = planted();
    if (bug == 18 && number_len == 3 && memcmp(number + 1, ".0", 2) == 0) number_len = 1; /* 0.0 is exactly 0 */
    int64_t result = __real_plurals_element(rules, rules_len, elements, elements_len, number, number_len, out, out_len);
    if (bug == 19 && result > (int64_t)out_len) return (int64_t)out_len; /* the length that fits is told */
    return result;
}

int64_t __wrap_plurals_message(const uint8_t *rules, size_t rules_len, const uint8_t *elements, size_t elements_len, const char *number,
                               size_t number_len, char *out, size_t out_len) {
    int bug = planted();
    if (bug == 20 && __real_plurals_check_rules(rules, rules_len) == 0) { /* the number is looked at before the elements */
        int32_t fault = __real_plurals_category(rules, rules_len, number, number_len);
        if (fault < PLURALS_MEMORY) return fault;
    }
    if (bug == 21 && number_len > 1 && number[0] == '-') number++, number_len--; /* the sign isn't shown */
    int64_t result = __real_plurals_message(rules, rules_len, elements, elements_len, number, number_len, out, out_len);
    if (bug == 22 && result == PLURALS_ELEMENTS_EMPTY) return PLURALS_ELEMENTS_SHORT; /* a fault has the number of the next one */
    return result;
}

int32_t __wrap_plurals_category_of_signed_integer(const uint8_t *rules, size_t rules_len, int64_t number) {
    int bug = planted();
    if (bug == 23 && number < 0) return __real_plurals_category_of_integer(rules, rules_len, (uint64_t)number); /* the sign is a high bit */
    return __real_plurals_category_of_signed_integer(rules, rules_len, number);
}

int32_t __wrap_plurals_category_of_operands(const uint8_t *rules, size_t rules_len, uint64_t i, size_t v, size_t w, uint64_t f, uint64_t t,
                                            size_t c) {
    int bug = planted();
    if (bug == 24) return __real_plurals_category_of_operands(rules, rules_len, i, w, v, f, t, c); /* v and w are exchanged */
    if (bug == 25) c &= UINT32_MAX; /* the exponent is cut */
    return __real_plurals_category_of_operands(rules, rules_len, i, v, w, f, t, c);
}

int32_t __wrap_plurals_categories(const uint8_t *rules, size_t rules_len) {
    int32_t result = __real_plurals_categories(rules, rules_len);
    return planted() == 26 && result > 0 ? result & ~(1 << PLURALS_OTHER) : result; /* other isn't one of them */
}

int64_t __wrap_plurals_find_locale(const char *json, size_t json_len, const char *locale, size_t locale_len, uint8_t part, char *out,
                                   size_t out_len) {
    int bug = planted();
    if (bug == 37 && part == 1) part = 0; /* a key of ordinal rules is one of cardinal rules */
    int64_t result = __real_plurals_find_locale(json, json_len, locale, locale_len, part, out, out_len);
    if (bug == 38 && result == 4 && locale_len != 4) return PLURALS_LOCALE; /* root isn't looked up */
    return result;
}

int64_t __wrap_plurals_ranges_from_document(const char *json, size_t json_len, const char *locale, size_t locale_len, uint8_t *out,
                                            size_t out_len) {
    int bug = planted();
    int64_t result = __real_plurals_ranges_from_document(json, json_len, locale, locale_len, out, out_len);
    if (bug == 27 && result == 36 && out_len >= 36 && out[8] != 2) out[8] = out[13]; /* a pair is that of its end and its start */
    return result;
}

int64_t __wrap_plurals_elements_from_texts(const char *other, size_t other_len, const char *zero, size_t zero_len, const char *one,
                                           size_t one_len, const char *two, size_t two_len, const char *few, size_t few_len,
                                           const char *many, size_t many_len, const char *explicit_zero, size_t explicit_zero_len,
                                           const char *explicit_one, size_t explicit_one_len, uint8_t *out, size_t out_len) {
    int bug = planted();
    bool is_zero = bug == 28 && explicit_zero_len == 0; /* without a text of exactly 0 it is that of zero */
    return __real_plurals_elements_from_texts(other, other_len, zero, zero_len, one, one_len, two, two_len, few, few_len, many, many_len,
                                              is_zero ? zero : explicit_zero, is_zero ? zero_len : explicit_zero_len, explicit_one,
                                              explicit_one_len, out, out_len);
}

int32_t __wrap_plurals_category_by_table(const uint8_t *table, size_t table_len, uint64_t number) {
    int bug = planted();
    if (bug == 29 && number >= 100 && number < 128) number -= 100; /* only numbers below 100 have an entry of their own */
    int32_t result = __real_plurals_category_by_table(table, table_len, number);
    if (bug == 30 && result == PLURALS_ASK_RULES) return PLURALS_OTHER; /* what isn't told is other */
    return result;
}

int64_t __wrap_plurals_table_of_rules(const uint8_t *rules, size_t rules_len, uint8_t *out, size_t out_len) {
    int bug = planted();
    int64_t result = __real_plurals_table_of_rules(rules, rules_len, out, out_len);
    if (bug == 31 && result > 0 && out[8 + 11] != out[8 + 21]) out[8 + 11] = out[8 + 21]; /* 11 is as 21 */
    return result;
}

int64_t __wrap_plurals_categories_of_integers(const uint8_t *rules, size_t rules_len, const uint64_t *numbers, size_t numbers_len,
                                              uint8_t *out, size_t out_len) {
    int bug = planted();
    int64_t result = __real_plurals_categories_of_integers(rules, rules_len, numbers, numbers_len, out, out_len);
    if (bug == 32 && result > 512 && out_len >= 600) out[599] = out[0]; /* the last one isn't asked */
    return result;
}

int64_t __wrap_plurals_pattern_format(const uint8_t *cardinal, size_t cardinal_len, const uint8_t *ordinal, size_t ordinal_len,
                                      const char *pattern, size_t pattern_len, const struct plurals_argument *arguments,
                                      size_t arguments_len, char *out, size_t out_len) {
    int bug = planted();
    if (bug == 33 && ordinal_len) ordinal = cardinal, ordinal_len = cardinal_len; /* ordinal numbers are by the cardinal rules */
    if (bug == 34 && arguments_len == 2 && arguments[0].name_len == arguments[1].name_len
        && !memcmp(arguments[0].name, arguments[1].name, arguments[0].name_len)) arguments++, arguments_len--; /* the last of a name counts */
    int64_t result =
        __real_plurals_pattern_format(cardinal, cardinal_len, ordinal, ordinal_len, pattern, pattern_len, arguments, arguments_len, out, out_len);
    if (bug == 35 && result == PLURALS_ARGUMENT_WRONG_KIND) return PLURALS_ARGUMENT_NOT_A_NUMBER; /* two faults have one number */
    if (bug == 36 && result > 1 && result <= (int64_t)out_len && out[0] == '-') out[0] = '+'; /* a sign is turned */
    return result;
}

int64_t __wrap_plurals_pattern_pack(const char *pattern, size_t pattern_len, uint8_t *out, size_t out_len) {
    int bug = planted();
    int64_t result = __real_plurals_pattern_pack(pattern, pattern_len, out, out_len);
    if (bug == 39 && result == PLURALS_PACKING_START_LIMIT) return PLURALS_PACKING_COUNT_LIMIT; /* two faults have one number */
    if (bug == 40 && result > 100 && result <= (int64_t)out_len) out[result - 1] = 0; /* the last byte isn't written */
    return result;
}

int32_t __wrap_plurals_pattern_check(const uint8_t *block, size_t block_len) {
    int bug = planted();
    int32_t result = __real_plurals_pattern_check(block, block_len);
    if (bug == 41 && result == PLURALS_PACKED_PLACE) return 0; /* places aren't compared */
    return result;
}

int64_t __wrap_plurals_packed_format(const uint8_t *cardinal, size_t cardinal_len, const uint8_t *ordinal, size_t ordinal_len,
                                     const uint8_t *block, size_t block_len, const struct plurals_argument *arguments, size_t arguments_len,
                                     char *out, size_t out_len) {
    int bug = planted();
    if (bug == 42 && ordinal_len) ordinal = cardinal, ordinal_len = cardinal_len; /* ordinal numbers are by the cardinal rules */
    int64_t result =
        __real_plurals_packed_format(cardinal, cardinal_len, ordinal, ordinal_len, block, block_len, arguments, arguments_len, out, out_len);
    if (bug == 43 && result == PLURALS_PACKED_ORDER) return PLURALS_PACKED_PLACE; /* two faults have one number */
    if (bug == 44 && result > 1 && result <= (int64_t)out_len && out[0] == '-') out[0] = '+'; /* a sign is turned */
    return result;
}

int32_t __wrap_plurals_text_category_by_table(const uint8_t *table, size_t table_len, const char *text, size_t text_len) {
    int bug = planted();
    if (bug == 45 && text_len && text[0] == '-') text++, text_len--; /* a number below 0 is told as its absolute value */
    return __real_plurals_text_category_by_table(table, table_len, text, text_len);
}

int64_t __wrap_plurals_catalog_pack(const char *json, size_t json_len, const char *locale, size_t locale_len, uint8_t *out, size_t out_len) {
    int bug = planted();
    int64_t result = __real_plurals_catalog_pack(json, json_len, locale, locale_len, out, out_len);
    if (bug == 49 && result == PLURALS_MESSAGES_ORDINAL_FORMS) return PLURALS_MESSAGES_CARDINAL_FORMS; /* two faults have one number */
    if (bug == 50 && result > 8 && result <= (int64_t)out_len) out[0]--; /* a message is left out of the count */
    return result;
}

int32_t __wrap_plurals_catalog_check(const uint8_t *catalog, size_t catalog_len) {
    int bug = planted();
    int32_t result = __real_plurals_catalog_check(catalog, catalog_len);
    if (bug == 46 && result == PLURALS_CATALOG_ORDER) return 0; /* keys may fall */
    return result;
}

int64_t __wrap_plurals_catalog_say(const uint8_t *cardinal, size_t cardinal_len, const uint8_t *ordinal, size_t ordinal_len,
                                   const uint8_t *catalog, size_t catalog_len, const char *key, size_t key_len,
                                   const struct plurals_argument *arguments, size_t arguments_len, char *out, size_t out_len) {
    int bug = planted();
    if (bug == 47 && key_len > 1) key_len = 1; /* the first byte of a key decides */
    int64_t result = __real_plurals_catalog_say(cardinal, cardinal_len, ordinal, ordinal_len, catalog, catalog_len, key, key_len, arguments,
                                                arguments_len, out, out_len);
    if (bug == 48 && result == PLURALS_NO_KEY) return 0; /* a message that isn't there is empty */
    return result;
}
