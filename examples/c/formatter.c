/* Prints the messages of some numbers, other "{} items", one "{} item", with English's rule for one, the categories of the operands
 * of 1.0, of 1 by a table, and of three integers at once, and what a pattern says with three numbers. */
#include <plurals.h>
#include <stdio.h>
#include <string.h>

int main(void) {
    const char *one = "i = 1 and v = 0";
    const char *texts = "{\"other\":[0,\"{} items\"],\"one\":[0,\"{} item\"]}";
    const char *numbers[] = {"0", "1", "1.0", "2", "1c6", "-1", "x", "1c256"};
    uint64_t integers[] = {0, 1, 100};
    uint8_t rules[256], elements[256], table[PLURALS_TABLE_BYTES], categories[3];
    char message[256];
    int64_t rules_len = plurals_rules_from_texts("", 0, one, strlen(one), "", 0, "", 0, "", 0, rules, sizeof rules);
    int64_t elements_len = plurals_elements_from_json(texts, strlen(texts), elements, sizeof elements);
    if (rules_len < 0 || rules_len > (int64_t)sizeof rules || elements_len < 0 || elements_len > (int64_t)sizeof elements) return 1;
    for (size_t k = 0; k < sizeof numbers / sizeof *numbers; k++) {
        int64_t length = plurals_message(rules, (size_t)rules_len, elements, (size_t)elements_len, numbers[k], strlen(numbers[k]),
                                         message, sizeof message);
        if (length == PLURALS_NUMBER_SYNTAX) printf("%s: it isn't a number\n", numbers[k]);
        else if (length == PLURALS_NUMBER_LIMIT) printf("%s: it is over a limit\n", numbers[k]);
        else if (length < 0 || length > (int64_t)sizeof message) return 1;
        else printf("%.*s\n", (int)length, message);
    }
    int32_t category = plurals_category_of_operands(rules, (size_t)rules_len, 1, 1, 0, 0, 0, 0);
    printf("i 1, v 1: %s\n", plurals_category_name(category));
    plurals_table_of_rules(rules, (size_t)rules_len, table, sizeof table);
    category = plurals_category_by_table(table, sizeof table, 1);
    printf("1 by a table: %s\n", category == PLURALS_ASK_RULES ? "ask the rules" : plurals_category_name(category));
    plurals_categories_of_integers(rules, (size_t)rules_len, integers, 3, categories, sizeof categories);
    printf("0, 1, 100:");
    for (size_t k = 0; k < sizeof categories; k++) printf(" %s", plurals_category_name(categories[k]));
    printf("\n");
    const char *pattern = "{who} sent {n, plural, =0 {no files} one {# file} other {# files}}.", *counts[] = {"0", "1", "1.0"};
    for (size_t k = 0; k < sizeof counts / sizeof *counts; k++) {
        struct plurals_argument arguments[] = {{"who", 3, "Ann", 3, PLURALS_TEXT}, {"n", 1, counts[k], strlen(counts[k]), PLURALS_NUMBER}};
        int64_t length = plurals_pattern_format(rules, (size_t)rules_len, NULL, 0, pattern, strlen(pattern), arguments, 2, message, sizeof message);
        if (length < 0 || length > (int64_t)sizeof message) return 1;
        printf("%.*s\n", (int)length, message);
    }
    return 0;
}
