/* What each export returns and writes: a model of the library, written from the pages of docs/ and from plurals.h alone. It is slow,
 * takes no memory but its own tables, and has nothing in common with the library. hostile.c compares the two. */
#ifndef MODEL_H
#define MODEL_H

#include <plurals.h>
#include <stdbool.h>
#include <stddef.h>
#include <stdint.h>

struct slice {
    const uint8_t *at;
    size_t length;
};

/* The most bytes that a text, a block or a result may have here. */
enum { MODEL_BYTES = 600000 };

/* Each writes its result to out, which has MODEL_BYTES, and returns what the export does. */
int64_t model_rules_from_document(struct slice json, struct slice locale, uint8_t rule_type, uint8_t *out);
int64_t model_find_locale(struct slice json, struct slice locale, uint8_t type, uint8_t *out);
int64_t model_rules_from_texts(const struct slice texts[5], uint8_t *out);
int64_t model_elements_from_json(struct slice json, uint8_t *out);
int64_t model_element(struct slice rules, struct slice elements, struct slice number, uint8_t *out);
int64_t model_message(struct slice rules, struct slice elements, struct slice number, uint8_t *out);
int64_t model_ranges_from_document(struct slice json, struct slice locale, uint8_t *out);
int64_t model_elements_from_texts(const struct slice texts[8], uint8_t *out);
int64_t model_check_rules(struct slice rules);
int64_t model_categories(struct slice rules);
int64_t model_category_of_operands(struct slice rules, const uint64_t operands[6]);
int64_t model_category_of_integer(struct slice rules, uint64_t number);
int64_t model_categories_of_integers(struct slice rules, const uint64_t *numbers, size_t count, uint8_t *out);
int64_t model_category_by_table(struct slice table, uint64_t number);
int64_t model_text_category_by_table(struct slice table, struct slice text);
int64_t model_category(struct slice rules, struct slice number);
int64_t model_is_exact(struct slice rules, struct slice number);
int64_t model_sure_category(struct slice rules, struct slice number);
int64_t model_is_read_whole(struct slice text);
int64_t model_pattern_format(struct slice cardinal, struct slice ordinal, struct slice pattern, const struct plurals_argument *arguments,
                             size_t count, uint8_t *out);
int64_t model_pattern_pack(struct slice pattern, uint8_t *out);
int64_t model_pattern_check(struct slice block);
int64_t model_packed_format(struct slice cardinal, struct slice ordinal, struct slice block, const struct plurals_argument *arguments,
                            size_t count, uint8_t *out);
int64_t model_catalog_pack(struct slice json, struct slice locale, uint8_t *out);
int64_t model_catalog_check(struct slice catalog);
/* What is returned if docs/ doesn't tell it: the bytes aren't a packed catalogue, or it isn't told what the block says. */
#define MODEL_UNTOLD INT64_MAX
int64_t model_catalog_say(struct slice cardinal, struct slice ordinal, struct slice catalog, struct slice key,
                          const struct plurals_argument *arguments, size_t count, uint8_t *out);
/* Whether docs/ tells what the block of a pattern says: its offsets are of digits. */
bool model_is_told(struct slice block);

bool model_is_utf8(struct slice text);

#endif
