/* Calls each export on a thread that has as much stack left as the header names, and no byte more: the page below can't be touched.
 * Prints how much of it each export has used. The inputs are those that take the most: JSON and patterns that are nested as deep as
 * they may be, the longest numbers, long rules, and blocks and texts of all kinds.
 *
 * The arguments are the bytes that the calls with nested texts may take, and those of all others. */
#define _GNU_SOURCE
#include <alloca.h>
#include <plurals.h>
#include <pthread.h>
#include <signal.h>
#include <stdbool.h>
#include <stdint.h>
#include <stdio.h>
#include <stdlib.h>
#include <string.h>
#include <sys/mman.h>
#include <unistd.h>

enum { STACK = 1 << 20, LONG = 300000, PAINT = 0xa5 };

static char text[LONG], number[LONG];
static uint8_t rules[LONG], elements[LONG], block[LONG], out[LONG];
static size_t text_len, number_len, rules_len, elements_len, block_len;
static int64_t result;

/* ---- the calls, with what the variables above hold */

static void from_document(void) { result = plurals_rules_from_document(text, text_len, "en", 2, PLURALS_CARDINAL, out, LONG); }
static void find_locale(void) { result = plurals_find_locale(text, text_len, "en-US", 5, PLURALS_CARDINAL, (char *)out, LONG); }
static void from_texts(void) { result = plurals_rules_from_texts("", 0, text, text_len, text, text_len, "", 0, "", 0, out, LONG); }
static void check_rules(void) { result = plurals_check_rules(rules, rules_len); }
static void category_of_integer(void) { result = plurals_category_of_integer(rules, rules_len, UINT64_MAX); }
static void category_of_signed_integer(void) { result = plurals_category_of_signed_integer(rules, rules_len, INT64_MIN); }
static void category_of_operands(void) { result = plurals_category_of_operands(rules, rules_len, UINT64_MAX, 1, 1, 5, 5, 7); }
static void categories_of_integers(void) {
    static uint64_t many[1000];
    result = plurals_categories_of_integers(rules, rules_len, many, number_len % 1000, out, LONG);
}
static void table_of_rules(void) { result = plurals_table_of_rules(rules, rules_len, out, LONG); }
static void category_by_table(void) { result = plurals_category_by_table(out, 236, UINT64_MAX); }
static void text_category_by_table(void) { result = plurals_text_category_by_table(out, 236, number, number_len); }
static void categories(void) { result = plurals_categories(rules, rules_len); }
static void ranges(void) { result = plurals_ranges_from_document(text, text_len, "en", 2, out, LONG); }
static void elements_from_texts(void) {
    result = plurals_elements_from_texts(number, number_len, number, number_len, "1", 1, "2", 1, "3", 1, "4", 1, "0", 1, number, number_len,
                                         out, LONG);
}
static void category(void) { result = plurals_category(rules, rules_len, number, number_len); }
static void is_exact(void) { result = plurals_is_exact(rules, rules_len, number, number_len); }
static void sure_category(void) { result = plurals_sure_category(rules, rules_len, number, number_len); }
static void is_read_whole(void) { result = plurals_is_read_whole(text, text_len); }
static void from_json(void) { result = plurals_elements_from_json(text, text_len, out, LONG); }
static void element(void) { result = plurals_element(rules, rules_len, elements, elements_len, number, number_len, (char *)out, LONG); }
static void message(void) { result = plurals_message(rules, rules_len, elements, elements_len, number, number_len, (char *)out, LONG); }
static void pattern_format(void) {
    struct plurals_argument argument = {"n", 1, number, number_len, PLURALS_NUMBER};
    result = plurals_pattern_format(rules, rules_len, rules, rules_len, text, text_len, &argument, 1, (char *)out, LONG);
}
static void pattern_pack(void) { result = plurals_pattern_pack(text, text_len, out, LONG); }
static void pattern_check(void) { result = plurals_pattern_check(block, block_len); }
static void packed_format(void) {
    struct plurals_argument argument = {"n", 1, number, number_len, PLURALS_NUMBER};
    result = plurals_packed_format(rules, rules_len, rules, rules_len, block, block_len, &argument, 1, (char *)out, LONG);
}

static uint8_t catalog[2 * LONG];
static size_t catalog_len;
static void catalog_pack(void) { result = plurals_catalog_pack(text, text_len, "", 0, out, LONG); }
static void catalog_check(void) { result = plurals_catalog_check(catalog, catalog_len); }
static void catalog_say(void) {
    struct plurals_argument argument = {"n", 1, number, number_len, PLURALS_NUMBER};
    result = plurals_catalog_say(rules, rules_len, rules, rules_len, catalog, catalog_len, "k", 1, &argument, 1, (char *)out, LONG);
}

static const struct export {
    const char *name;
    void (*ask)(void);
    bool is_nested;
} exports[] = {
    {"plurals_rules_from_document", from_document, true}, {"plurals_rules_from_texts", from_texts, false},
    {"plurals_check_rules", check_rules, false},          {"plurals_category_of_integer", category_of_integer, false},
    {"plurals_category", category, false},                {"plurals_is_exact", is_exact, false},
    {"plurals_elements_from_json", from_json, true},      {"plurals_element", element, false},
    {"plurals_message", message, false},                  {"plurals_category_of_signed_integer", category_of_signed_integer, false},
    {"plurals_categories", categories, false},            {"plurals_category_of_operands", category_of_operands, false},
    {"plurals_ranges_from_document", ranges, true},       {"plurals_elements_from_texts", elements_from_texts, false},
    {"plurals_sure_category", sure_category, false},      {"plurals_is_read_whole", is_read_whole, false},
    {"plurals_table_of_rules", table_of_rules, false},    {"plurals_category_by_table", category_by_table, false},
    {"plurals_categories_of_integers", categories_of_integers, false}, {"plurals_find_locale", find_locale, true},
    {"plurals_text_category_by_table", text_category_by_table, false}, {"plurals_catalog_pack", catalog_pack, true},
    {"plurals_pattern_check", pattern_check, false},      {"plurals_pattern_pack", pattern_pack, true},
    {"plurals_pattern_format", pattern_format, true},     {"plurals_packed_format", packed_format, true},
    {"plurals_catalog_check", catalog_check, false},      {"plurals_catalog_say", catalog_say, true},
};
/* Those of patterns stand at the end, that of a document of patterns before them. */
enum { EXPORTS = sizeof exports / sizeof *exports, PATTERNS = EXPORTS - 6, DOCUMENT = PATTERNS - 1 };

/* ---- a call on a thread with so much stack left */

static const struct export *export;
static size_t allowed, used[EXPORTS];
static uint8_t *stack;

static void on_fault(int signal) {
    static const char said[] = " takes more stack than the header says\n";
    (void)signal;
    if (write(2, export->name, strlen(export->name)) < 0 || write(2, said, sizeof said - 1) < 0) _exit(3);
    _exit(1);
}

static uint8_t *stack_pointer(void) {
    uint8_t *at;
    __asm__ volatile("mov %%rsp, %0" : "=r"(at));
    return at;
}

/* Lowers the stack to so many bytes above a page, forbids all pages below that, and asks. */
static void *run(void *nothing) {
    static _Thread_local uint8_t other_stack[16384];
    stack_t other = {.ss_sp = other_stack, .ss_size = sizeof other_stack, .ss_flags = 0};
    size_t page = (size_t)sysconf(_SC_PAGESIZE);
    uint8_t *limit = (uint8_t *)((uintptr_t)(stack_pointer() - allowed - 256) / page * page);
    volatile uint8_t *lowered = alloca((size_t)(stack_pointer() - allowed - limit));
    lowered[0] = 0;
    if (sigaltstack(&other, NULL)) abort();
    memset(limit, PAINT, allowed - 256);
    if (mprotect(stack, (size_t)(limit - stack), PROT_NONE)) abort();
    export->ask();
    if (mprotect(stack, (size_t)(limit - stack), PROT_READ | PROT_WRITE)) abort();
    size_t untouched = 0;
    while (untouched < allowed && limit[untouched] == PAINT) untouched++;
    if (allowed - untouched > used[export - exports]) used[export - exports] = allowed - untouched;
    return nothing;
}

static size_t for_nested, for_others;

static void try_export(const struct export *one) {
    pthread_t thread;
    pthread_attr_t how;
    export = one, allowed = one->is_nested ? for_nested : for_others;
    if (pthread_attr_init(&how) || pthread_attr_setstack(&how, stack, STACK) || pthread_create(&thread, &how, run, NULL)
        || pthread_join(thread, NULL))
        abort();
}

static void try_all(bool nested) {
    for (const struct export *one = exports; one < exports + EXPORTS; one++)
        if (one->is_nested == nested) try_export(one);
}

/* ---- the inputs */

static void repeat(char *room, size_t *length, const char *front, const char *piece, size_t times, const char *end) {
    size_t at = (size_t)sprintf(room, "%s", front);
    for (size_t k = 0; k < times; k++) at += (size_t)sprintf(room + at, "%s", piece);
    *length = at + (size_t)sprintf(room + at, "%s", end);
}

static void try_json(const char *front, const char *open, size_t depth, const char *inner, const char *close, const char *end) {
    repeat(text, &text_len, front, open, depth, inner);
    size_t rest;
    repeat(text + text_len, &rest, "", close, depth, end);
    text_len += rest;
    try_all(true);
}

static void try_texts(const char *front, const char *piece, size_t times, const char *end) {
    repeat(text, &text_len, front, piece, times, end);
    try_export(&exports[1]);
    if (result > 0) memcpy(rules, out, rules_len = (size_t)result);
    char document[64] = "{\"cardinal\":{\"en\":{\"one\":\"";
    memmove(text + strlen(document), text, text_len), memcpy(text, document, strlen(document));
    text_len += strlen(document);
    text_len += (size_t)sprintf(text + text_len, "\"}}}");
    try_export(&exports[0]);
}

static void try_numbers(void) {
    static const struct { const char *front, *piece; size_t times; const char *end; } rows[] = {
        {"1", "", 0, ""}, {"-1.50c6", "", 0, ""}, {"", "9", 32767, ".5c255"}, {"0.", "7", 32767, "c255"}, {"", "9", 32768, ""}, {"", "1", 40000, "x"},
        {"", "0", 30, ""}, {"", "1", 25, "."}, {"\xff", "", 0, ""}, {"", "123456789", 7, "c99"},
    };
    for (size_t k = 0; k < sizeof rows / sizeof *rows; k++) {
        repeat(number, &number_len, rows[k].front, rows[k].piece, rows[k].times, rows[k].end);
        try_all(false);
    }
}

/* The catalogue of the block under the key k. */
static void make_catalog(void) {
    const size_t numbers[] = {1, 1, 1 + block_len};
    catalog_len = 0;
    for (size_t k = 0; k < 12; k++) catalog[catalog_len++] = (uint8_t)(numbers[k / 4] >> 8 * (k % 4));
    catalog[catalog_len++] = 'k';
    memcpy(catalog + catalog_len, block, block_len), catalog_len += block_len;
}

static void try_patterns(void) {
    static const char *const inner[] = {"#", "{n}", "{n,plural,=1{}one{}other{#}}", "{n,plural,offset:1 =1{}other{#}}", "'{' {m}", "{n, x"};
    for (size_t k = 0; k < sizeof inner / sizeof *inner; k++)
        for (size_t depth = 0; depth < 34; depth++) {
            size_t rest;
            repeat(text, &text_len, "", "{n,plural,offset:99 other{", depth, inner[k]);
            repeat(text + text_len, &rest, "", "}}", depth, "");
            text_len += rest;
            int64_t length = plurals_pattern_pack(text, text_len, block, LONG);
            block_len = length < 0 ? 0 : (size_t)length;
            make_catalog();
            repeat(number, &number_len, "1", "", 0, "");
            for (size_t export = PATTERNS; export < EXPORTS; export++) try_export(&exports[export]);
            repeat(number, &number_len, "-", "9", 32766, ".5");
            for (size_t export = PATTERNS; export < EXPORTS; export++) try_export(&exports[export]);
            char document[64] = "{\"en\":{\"patterns\":{\"k\":\"";
            memmove(text + strlen(document), text, text_len), memcpy(text, document, strlen(document));
            text_len += strlen(document);
            text_len += (size_t)sprintf(text + text_len, "\"}}}");
            try_export(&exports[DOCUMENT]);
        }
}

static void try_inputs(void) {
    static const struct { const char *front, *open, *inner, *close, *end; } nested[] = {
        {"{\"other\":[0,\"x\"],\"x\":", "[", "0", "]", "}"},      {"{\"other\":[0,\"x\"],\"x\":", "[[],[", "", "],0]", "}"},
        {"{\"x\":", "{\"y\":", "1.5e300", "}", "}"},             {"{\"x\":", "{\"a\":0,\"y\":", "\"\\u00e9\\ud83d\\ude00\"", ",\"z\":[]}", "}"},
        {"{\"x\":", "[{\"y\":", "-9223372036854775808", "}]", "}"}, {"{\"x\":", "[", "tru", "]", "}"},
    };
    for (size_t k = 0; k < sizeof nested / sizeof *nested; k++)
        for (size_t depth = 40; depth < 200; depth++)
            try_json(nested[k].front, nested[k].open, depth, nested[k].inner, nested[k].close, nested[k].end);
    try_numbers();
    try_texts("n % 10 = 1", ",2..3", 2000, " and i != 0 or v = 0 @integer 1, 2~4, 1c6, …");
    try_numbers();
    memcpy(elements, "\x80\3{} \3\0\2\0\4\0\x50{\x11{}\x62{}{}", elements_len = 18);
    try_numbers();
    try_texts("i = 1", " or n % 100 = 3..4 and e != 5", 1000, " @decimal 0.0~1.5, 10.0, …");
    try_numbers();
    try_texts("n = 1", ",1", 8300, " and n = 1");
    try_texts("i = 1 @integer 1", ", 2~3", 10000, " @");
    try_texts("", "i = 1 and ", 3000, "");
    try_patterns();
}

int main(int count, char **words) {
    if (count != 3) return 2;
    for_nested = strtoull(words[1], NULL, 10), for_others = strtoull(words[2], NULL, 10);
    stack = mmap(NULL, STACK, PROT_READ | PROT_WRITE, MAP_PRIVATE | MAP_ANONYMOUS, -1, 0);
    struct sigaction action = {.sa_handler = on_fault, .sa_flags = SA_ONSTACK};
    if (stack == MAP_FAILED || sigaction(SIGSEGV, &action, NULL)) abort();
    elements[0] = 0x80, elements_len = 4;
    try_inputs();
    for (size_t k = 0; k < EXPORTS; k++)
        printf("%7zu of %6zu bytes  %s\n", used[k], exports[k].is_nested ? for_nested : for_others, exports[k].name);
    return 0;
}
