/* Says a page of ten Russian messages from the catalogue in a file. */
#include <plurals.h>
#include <stdio.h>
#include <string.h>

#define TEXT(name, value) {name, sizeof name - 1, value, sizeof value - 1, PLURALS_TEXT}
#define NUMBER(name, value) {name, sizeof name - 1, value, sizeof value - 1, PLURALS_NUMBER}

static const struct {
    const char *key;
    struct plurals_argument arguments[2];
} page[] = {
    {"title", {{0}}},
    {"greeting", {TEXT("name", "Анна")}},
    {"cart", {NUMBER("n", "21")}},
    {"weight", {NUMBER("n", "1.5")}},
    {"days", {NUMBER("n", "3")}},
    {"discount", {NUMBER("percent", "10")}},
    {"guests", {NUMBER("n", "6")}},
    {"sent", {TEXT("who", "female"), NUMBER("n", "2")}},
    {"place", {NUMBER("n", "3")}},
    {"footer", {{0}}},
};

int main(int count, char **words) {
    static uint8_t catalog[1 << 16], rules[512];
    FILE *file = count > 1 ? fopen(words[1], "rb") : NULL;
    size_t length = file ? fread(catalog, 1, sizeof catalog, file) : 0;
    const char *one = "v = 0 and i % 10 = 1 and i % 100 != 11", *few = "v = 0 and i % 10 = 2..4 and i % 100 != 12..14";
    const char *many = "v = 0 and i % 10 = 0 or v = 0 and i % 10 = 5..9 or v = 0 and i % 100 = 11..14";
    int64_t rules_len = plurals_rules_from_texts(NULL, 0, one, strlen(one), NULL, 0, few, strlen(few), many, strlen(many), rules, sizeof rules);
    int32_t fault = plurals_catalog_check(catalog, length);
    if (fault < 0) return fprintf(stderr, "%s\n", plurals_fault_text(fault)), 1;
    for (size_t k = 0; k < sizeof page / sizeof *page; k++) {
        char said[256];
        size_t arguments = !!page[k].arguments[0].name + !!page[k].arguments[1].name;
        int64_t said_len = plurals_catalog_say(rules, (size_t)rules_len, NULL, 0, catalog, length, page[k].key, strlen(page[k].key),
                                               page[k].arguments, arguments, said, sizeof said);
        if (said_len < 0) return fprintf(stderr, "%s: %s\n", page[k].key, plurals_fault_text(said_len)), 1;
        printf("%.*s\n", (int)said_len, said);
    }
    return 0;
}
