/* Which form of a message does a number take? The plural rules of Fonuresse, for C, and for C++ under plurals.hpp.
 *
 * A language's rules are one block of bytes, and so are the elements of a message, which are its texts by category. A
 * program makes the blocks once and asks with them as often as it likes:
 *
 *     uint8_t rules[100];
 *     int64_t rules_len = plurals_rules_from_texts("", 0, "i = 1 and v = 0", 15, "", 0, "", 0, "", 0, rules, sizeof rules);
 *     int32_t category = plurals_category(rules, (size_t)rules_len, "1.0", 3);     category is PLURALS_OTHER
 *
 * examples/c/formatter.c is a whole program. docs/FORMATS.md has the formats of the blocks, docs/CONDITIONS.md that of a
 * rule, docs/NUMBERS.md that of a number, docs/JSON.md that of documents and elements, docs/ELEMENTS.md messages.
 *
 * Results
 *     An int32_t is what the call says of it, or a fault, which is below 0.
 *     An int64_t is the length of the result in bytes, or a fault. If the result has at most out_len bytes, it is written
 *     to the front of out, and the bytes after it are unchanged. If it has more, the length is returned all the same, and
 *     out is unchanged, so a call with out_len 0 asks for the length. After a fault out is unchanged. No byte 0 is
 *     written after a text.
 *     Which fault: that of the rules, else that of the elements, else that of the number. PLURALS_MEMORY may come in place
 *     of a fault of a JSON text, a document, a rule's text or a pattern, and of the faults after it, and only if malloc or
 *     realloc has failed; the same call may be made again then. docs/C.md tells which faults it never hides.
 *
 * Memory and ownership
 *     All bytes are the caller's, before and after a call. Nothing is kept between calls: no call has to be undone, and
 *     there is no state that calls share. A call that allocates, as its declaration tells, frees all of it before it
 *     returns; it uses malloc, realloc and free of the process, which have to be of one allocator, and malloc and realloc
 *     have to align a block to each power of two up to 16 that divides its size.
 *
 * What the caller has to see to
 *     A pointer and the length after it are one slice: that many bytes can be read there, and in out written. A text needs
 *     no byte 0 at its end; if it has one, the length doesn't count it.
 *     In the installed library a pointer with length 0 is any pointer, also null, and is the empty text, the empty block
 *     or no room; so are the two in a struct plurals_argument. In the archives that tools/archive prints no pointer is null:
 *     there that of "" goes with length 0. A length is at most that of one object, so below 2^63.
 *     out overlaps no other slice of the call. During a call no other thread writes to its slices, nor reads out.
 *     Everything else is checked: any bytes may be given as a text, a block or a number, and are refused by a fault where
 *     they are none.
 *
 * Stack
 *     The calls that read JSON, which are plurals_rules_from_document, plurals_find_locale, plurals_ranges_from_document and
 *     plurals_elements_from_json, and those of patterns and catalogues but plurals_pattern_check and plurals_catalog_check,
 *     take at most 131072 bytes of stack, which JSON that is nested 127 deep needs, about 1 KB a level; deeper JSON is refused
 *     by PLURALS_JSON. All other calls take at most 4096 bytes of stack. examples/c/run-stack runs each call with so much; no proof bounds it. It counts what malloc of
 *     glibc takes; it doesn't count what the loader takes where it binds a call at its first use.
 *
 * Threads
 *     Calls may run at once in any number of threads, also with the same blocks. No call is made from a signal handler, or
 *     in the forked child of a process with threads.
 *
 * What is proved
 *     Each export of crates/plurals_c, which is the first part of the declarations. The second part, and what lets a null
 *     pointer go with length 0, is C of the folder install, which no proof covers; nor does one cover the function at the end.
 *
 * tools/header compares this file with the exports of crates/plurals_c and their faults, and with the folder install.
 */
#ifndef FONURESSE_PLURALS_H
#define FONURESSE_PLURALS_H

#include <stddef.h>
#include <stdint.h>

/* The version of this header; plurals_version returns that of the library. docs/C.md says what a later one may change. */
#define PLURALS_VERSION "0.1.0"
#define PLURALS_VERSION_MAJOR 0
#define PLURALS_VERSION_MINOR 1
#define PLURALS_VERSION_PATCH 0

#ifdef __cplusplus
extern "C" {
#endif

/* The plural categories (UTS 35 Part 3, Language Plural Rules), as calls return them. */
enum plurals_category_number {
    PLURALS_ZERO = 0,
    PLURALS_ONE = 1,
    PLURALS_TWO = 2,
    PLURALS_FEW = 3,
    PLURALS_MANY = 4,
    PLURALS_OTHER = 5
};

/* The parts of a document: its two types of rules, and its ranges, of which plurals_find_locale may be asked too. */
enum plurals_type {
    PLURALS_CARDINAL = 0, /* 1 item, 2 items */
    PLURALS_ORDINAL = 1,  /* 1st, 2nd, 3rd */
    PLURALS_RANGES = 2    /* 1 to 3 items */
};

/* Why a call returns no result. No fault tells a place. */
enum plurals_fault {
    PLURALS_MEMORY = -1, /* out of memory: malloc or realloc has failed */
    PLURALS_UTF8 = -2,   /* a text isn't UTF-8: of a rule, an element, a locale, a number or an argument; of JSON that is
                            PLURALS_JSON, and a pattern may be any bytes */
    PLURALS_TYPE = -3,   /* the type of rules is neither PLURALS_CARDINAL nor PLURALS_ORDINAL; nor, of plurals_find_locale,
                            PLURALS_RANGES */

    /* of a number's text */
    PLURALS_NUMBER_SYNTAX = -10, /* it isn't a number */
    PLURALS_NUMBER_LIMIT = -11,  /* more than 32767 digits on a side of the point, or an exponent above 255 */
    PLURALS_OUTSIDE_BOUND = -12, /* a number outside the exactness bound of the rules: of plurals_sure_category alone */

    /* of a rule's text, given on its own or in a document */
    PLURALS_TEXT_EXPECTED_AND_CONDITION = -20, /* it, or its condition, ends after "or" */
    PLURALS_TEXT_EXPECTED_RELATION = -21,      /* it, or its condition, ends after "and" */
    PLURALS_TEXT_EXPECTED_OPERATOR = -22,      /* no "=" or "!=" after an operand or a modulus */
    PLURALS_TEXT_EXPECTED_OPERAND = -23,       /* no operand at the start, after "or" or after "and" */
    PLURALS_TEXT_EXPECTED_VALUE = -24,         /* no number where a modulus, a range or a sample needs one */
    PLURALS_TEXT_EXPECTED_SAMPLE_TYPE = -25,   /* neither "integer" nor "decimal" after "@" */
    PLURALS_TEXT_VALUE_TOO_LARGE = -26,        /* a value above 4294967295; no text has this fault */
    PLURALS_TEXT_START_LIMIT = -27,            /* the rule is too long to be packed */

    /* of a block of rules */
    PLURALS_RULES_LIST_HEADER = -30,          /* the list's head is cut off */
    PLURALS_RULES_LIST_ZERO_COUNT = -31,      /* the list counts no item, and isn't empty */
    PLURALS_RULES_LIST_START = -32,           /* an item starts before the one before it, or after the end */
    PLURALS_RULES_ITEM_EMPTY = -33,           /* an item has no byte */
    PLURALS_RULES_KEY = -34,                  /* a key is above 4, or not above the key before it */
    PLURALS_RULES_RULE_LIST_HEADER = -35,     /* the head of a rule's list is cut off */
    PLURALS_RULES_RULE_LIST_ZERO_COUNT = -36, /* a rule's list counts no relation, and isn't empty */
    PLURALS_RULES_RULE_LIST_START = -37,      /* a relation starts before the one before it, or after the end */
    PLURALS_RULES_RULE_ITEM_LENGTH = -38,     /* a relation isn't of 5 bytes and a multiple of 8 */
    PLURALS_RULES_RULE_OPERAND = -39,         /* a relation's operand is above 7 */
    PLURALS_RULES_LIMIT = -40,                /* the rules are too long for one block */

    /* of a block of elements; the last two of elements that are packed */
    PLURALS_ELEMENTS_EMPTY = -50,           /* it has no byte */
    PLURALS_ELEMENTS_SHORT = -51,           /* the default's text, or its length, is cut off */
    PLURALS_ELEMENTS_PADDING = -52,         /* one of the bits 4 to 6 of the first byte is set */
    PLURALS_ELEMENTS_DEFAULT_TEXT = -53,    /* the default's text isn't UTF-8 */
    PLURALS_ELEMENTS_LIST_HEADER = -54,     /* the list's head is cut off */
    PLURALS_ELEMENTS_LIST_ZERO_COUNT = -55, /* the list counts no item, and isn't empty */
    PLURALS_ELEMENTS_LIST_START = -56,      /* an item starts before the one before it, or after the end */
    PLURALS_ELEMENTS_ITEM_EMPTY = -57,      /* an item has no byte */
    PLURALS_ELEMENTS_KEY = -58,             /* a key is above 6 */
    PLURALS_ELEMENTS_ITEM_TEXT = -59,       /* an item's text isn't UTF-8 */
    PLURALS_ELEMENTS_DEFAULT_LIMIT = -60,   /* the default's text has more than 255 bytes beside an item */
    PLURALS_ELEMENTS_START_LIMIT = -61,     /* an item would start after 65535 */

    /* of a document, and of JSON as elements; a rule's text in a document has the faults above */
    PLURALS_JSON = -70,                 /* the text isn't JSON */
    PLURALS_DOCUMENT_FLOAT = -71,       /* it has a number that isn't an integer of 64 bits */
    PLURALS_DOCUMENT_SHAPE = -72,       /* a value is of another kind than its place asks for */
    PLURALS_DOCUMENT_RANGE_KEY = -73,   /* a key names no range */
    PLURALS_DOCUMENT_RANGE_VALUE = -74, /* a range's value names no category */
    PLURALS_LOCALE = -75,               /* the locale, or its chain, isn't among the rules of this type, or the ranges */

    PLURALS_TABLE_LENGTH = -80, /* a table of categories isn't of PLURALS_TABLE_BYTES bytes */

    /* of a pattern's text: the first place where it doesn't go on as a pattern */
    PLURALS_PATTERN_UNCLOSED = -90,          /* it ends in an argument or in a branch */
    PLURALS_PATTERN_EXPECTED_NAME = -91,     /* no name after "{" */
    PLURALS_PATTERN_BAD_NUMBER = -92,        /* the number of an argument begins with a zero, as {01} */
    PLURALS_PATTERN_EXPECTED_END = -93,      /* neither "," nor "}" after the name */
    PLURALS_PATTERN_EXPECTED_TYPE = -94,     /* no letters after the comma */
    PLURALS_PATTERN_UNSUPPORTED_TYPE = -95,  /* a type other than plural, selectordinal and select */
    PLURALS_PATTERN_EXPECTED_STYLE = -96,    /* no comma after the type */
    PLURALS_PATTERN_EXPECTED_OFFSET = -97,   /* no digits after "offset:" */
    PLURALS_PATTERN_EXPECTED_SELECTOR = -98, /* neither a selector nor "}" */
    PLURALS_PATTERN_EXPECTED_VALUE = -99,    /* no number after "=" */
    PLURALS_PATTERN_EXPECTED_BRANCH = -100,  /* no "{" after a selector */
    PLURALS_PATTERN_MISSING_OTHER = -101,    /* an argument ends without a branch "other" */
    PLURALS_PATTERN_TOO_DEEP = -102,         /* a branch is more than 32 deep */

    /* of an argument where a pattern uses it; the last of an argument in itself */
    PLURALS_ARGUMENT_MISSING = -110,        /* no argument has the name */
    PLURALS_ARGUMENT_WRONG_KIND = -111,     /* a text where a number is counted, or a number where a text is compared */
    PLURALS_ARGUMENT_NOT_A_NUMBER = -112,   /* the text of a number isn't one */
    PLURALS_ARGUMENT_OVER_LIMIT = -113,     /* it writes one over a limit, or less its offset it is */
    PLURALS_ARGUMENT_COMPACT_OFFSET = -114, /* a number with a compact exponent where there is an offset */
    PLURALS_ARGUMENT_KIND = -115,           /* the kind is neither PLURALS_NUMBER nor PLURALS_TEXT */

    /* of the block of a pattern */
    PLURALS_PACKED_LIST_HEADER = -120,     /* the list's head is cut off */
    PLURALS_PACKED_LIST_ZERO_COUNT = -121, /* the list counts no item, and isn't empty */
    PLURALS_PACKED_LIST_START = -122,      /* an item starts before the one before it, or after the end */
    PLURALS_PACKED_PART = -123,            /* an item isn't a part of a pattern */
    PLURALS_PACKED_PLACE = -124,           /* a part ends, or has a branch, elsewhere than it says */
    PLURALS_PACKED_ORDER = -125,           /* a part stands where it may not, or an argument isn't ended */

    /* of a pattern that is packed */
    PLURALS_PACKING_COUNT_LIMIT = -130, /* it has more than 65535 parts */
    PLURALS_PACKING_PART = -131,        /* the name of an argument with branches has more than 255 bytes */
    PLURALS_PACKING_ORDER = -132,       /* a part stands where it may not; no text has this fault */
    PLURALS_PACKING_START_LIMIT = -133, /* a part would start after 65535 */

    /* of a catalogue of messages; a block in it that isn't one of a pattern has the faults above */
    PLURALS_CATALOG_HEADER = -140, /* the count of messages, or where the keys and blocks end, is cut off */
    PLURALS_CATALOG_LENGTH = -141, /* the last block doesn't end where the catalogue ends */
    PLURALS_CATALOG_END = -142,    /* a key or a block ends before it begins */
    PLURALS_CATALOG_ORDER = -143,  /* a key isn't above the key before it */
    PLURALS_NO_KEY = -144,         /* no message has the key */

    /* of a document of messages that is packed; a value of another kind is PLURALS_DOCUMENT_SHAPE, and a pattern has the faults
       above */
    PLURALS_MESSAGES_NO_LOCALE = -150,       /* it isn't an object, or has no locale */
    PLURALS_MESSAGES_SEVERAL_LOCALES = -151, /* it has several locales, and none is named */
    PLURALS_MESSAGES_ABSENT_LOCALE = -152,   /* it hasn't the locale */
    PLURALS_MESSAGES_CARDINAL_FORMS = -153,  /* the locale has messages of cardinal numbers as forms, which aren't packed */
    PLURALS_MESSAGES_ORDINAL_FORMS = -154,   /* the same of ordinal numbers */
    PLURALS_MESSAGES_NO_PATTERNS = -155,     /* the locale has no patterns */
    PLURALS_ENTRIES_TOO_MANY = -160,         /* there are more than 4294967295 messages */
    PLURALS_ENTRIES_ORDER = -161,            /* a key isn't above the key before it; no JSON has this fault */
    PLURALS_ENTRIES_TOO_LONG = -162          /* keys and blocks have more than 4294967295 bytes together */
};

/* What an argument of a pattern is. */
enum plurals_argument_kind {
    PLURALS_NUMBER = 0, /* a number, as it is written */
    PLURALS_TEXT = 1    /* a text */
};

/* An argument of a pattern: a value under a name. A pointer and the length after it are one slice. */
struct plurals_argument {
    const char *name;
    size_t name_len;
    const char *value;
    size_t value_len;
    uint32_t kind; /* PLURALS_NUMBER or PLURALS_TEXT */
};

/* How many bytes a table of categories has, and what a call that is given one returns of a number whose category it doesn't
 * have: then plurals_category_of_integer is asked with the rules. */
#define PLURALS_TABLE_BYTES 236
#define PLURALS_ASK_RULES 6

/* Writes the block of the rules that a document has for a locale (docs/JSON.md; tools/cldr-document makes a document of
 * CLDR's files). rule_type is PLURALS_CARDINAL or PLURALS_ORDINAL. The locale is compared byte by byte, without fallback,
 * which is plurals_find_locale. Faults, in the order in which they are looked for: the type; the locale's text isn't UTF-8;
 * the text isn't JSON; it isn't a document, in any of its locales; the locale isn't present; PLURALS_RULES_LIMIT. Allocates
 * in proportion to the document. */
int64_t plurals_rules_from_document(const char *json, size_t json_len, const char *locale, size_t locale_len,
                                    uint8_t rule_type, uint8_t *out, size_t out_len);

/* Writes the key by which a document has a locale: pt-PT for pt_AO, ru for ru_RU, sr for sr-Latn-RS in that of CLDR. It is the
 * first of the locale's chain (docs/C.md) that stands in a part, PLURALS_CARDINAL, PLURALS_ORDINAL or PLURALS_RANGES;
 * plurals_rules_from_document and plurals_ranges_from_document take it as their locale. Of a language that isn't in the
 * document it is root, if that is. Faults, in the order in which they are looked for: PLURALS_TYPE; the locale's text isn't
 * UTF-8; the text isn't JSON; PLURALS_LOCALE, also of JSON that is no document. Allocates in proportion to the document. */
int64_t plurals_find_locale(const char *json, size_t json_len, const char *locale, size_t locale_len, uint8_t part,
                            char *out, size_t out_len);

/* Writes the block of the rules of these five texts, which are as CLDR has them, with samples or without. A text of length
 * 0 isn't a rule. Faults, in the order in which they are looked for: a text isn't UTF-8; that of the first text that isn't a
 * rule; PLURALS_RULES_LIMIT. Allocates. */
int64_t plurals_rules_from_texts(const char *zero, size_t zero_len, const char *one, size_t one_len, const char *two,
                                 size_t two_len, const char *few, size_t few_len, const char *many, size_t many_len,
                                 uint8_t *out, size_t out_len);

/* Returns 1 if a text is a rule from its first byte to its last, 0 if not, or PLURALS_MEMORY. A text that people wrote is asked
 * here: of "n = 1 x" the calls above read "n = 1" and leave the rest, of "i = 1\tand v = 0" they read "i = 1". Allocates. */
int32_t plurals_is_read_whole(const char *text, size_t text_len);

/* Returns 0 if the bytes are a block of rules, else their fault, which is from PLURALS_RULES_LIST_HEADER to
 * PLURALS_RULES_RULE_OPERAND. The block without bytes is that of no rules, under which every number is other. Allocates
 * nothing. */
int32_t plurals_check_rules(const uint8_t *rules, size_t rules_len);

/* Returns the category of an integer, PLURALS_ZERO to PLURALS_OTHER, or the fault of the rules. number is unsigned, so C
 * makes a huge number of a negative int: plurals_category_of_signed_integer takes those. Allocates nothing. */
int32_t plurals_category_of_integer(const uint8_t *rules, size_t rules_len, uint64_t number);

/* Returns the category of an integer, which is that of its absolute value, or the fault of the rules. Allocates nothing. */
int32_t plurals_category_of_signed_integer(const uint8_t *rules, size_t rules_len, int64_t number);

/* Writes the categories of as many integers as numbers has to out, a byte each, in their order. The result is numbers_len; if
 * out_len is less, nothing is written. Fault: that of the rules. The block is checked once. Allocates nothing. */
int64_t plurals_categories_of_integers(const uint8_t *rules, size_t rules_len, const uint64_t *numbers, size_t numbers_len,
                                       uint8_t *out, size_t out_len);

/* Writes the table of the categories of integers under these rules, PLURALS_TABLE_BYTES bytes (docs/FORMATS.md), to be asked
 * with plurals_category_by_table as often as wanted. Fault: that of the rules. Takes as long as some 200 categories.
 * Allocates nothing. */
int64_t plurals_table_of_rules(const uint8_t *rules, size_t rules_len, uint8_t *out, size_t out_len);

/* Returns the category that a table has for an integer, or PLURALS_ASK_RULES: of the table that was written for some rules it
 * is the one that plurals_category_of_integer returns with them, and each number below 128 has one. Any bytes may be given;
 * what they hold isn't checked. The fault is PLURALS_TABLE_LENGTH. plurals_category_by_table_inline does the same without a
 * call, and isn't proved. Allocates nothing. */
int32_t plurals_category_by_table(const uint8_t *table, size_t table_len, uint64_t number);

/* Returns the same of the whole number that a text writes: digits, which a plus may stand before, of a number below 2^64. Of
 * any other text it is PLURALS_ASK_RULES: then plurals_category is asked with the rules. Of a table of rules a category is the
 * one that plurals_category returns of the number without its zeros in front. Faults: PLURALS_TABLE_LENGTH; the text isn't
 * UTF-8. Allocates nothing. */
int32_t plurals_text_category_by_table(const uint8_t *table, size_t table_len, const char *text, size_t text_len);

/* Returns the category of six operands (docs/NUMBERS.md), or the fault of the rules: for callers that format numbers
 * themselves and know the digits that are shown. i is the integer part, v and w how many fraction digits are shown, with
 * the zeros at the end and without, f and t these digits as a number, c the compact exponent. Any six are allowed, also
 * those of no number. Allocates nothing. */
int32_t plurals_category_of_operands(const uint8_t *rules, size_t rules_len, uint64_t i, size_t v, size_t w, uint64_t f,
                                     uint64_t t, size_t c);

/* Returns which categories a number may have, one bit each, or the fault of the rules: those that have a rule, and other.
 * The bit of a category is 1 << its number, so 1 << PLURALS_ONE | 1 << PLURALS_OTHER in English. Allocates nothing. */
int32_t plurals_categories(const uint8_t *rules, size_t rules_len);

/* Returns the category of a number as it is written: 1 and 1.0 are two numbers. It may have a sign, zeros at both ends and
 * a compact exponent, as 1.2c6 (docs/NUMBERS.md). Of a long number a part decides; plurals_is_exact tells whether all of
 * it would give the same category. Allocates for a number of more than 16 bytes. */
int32_t plurals_category(const uint8_t *rules, size_t rules_len, const char *number, size_t number_len);

/* Returns the category of a number as plurals_category does, but none that may be another one for all its digits: the faults
 * are those of the rules, those of the number, PLURALS_OUTSIDE_BOUND. Allocates for a number of more than 16 bytes. */
int32_t plurals_sure_category(const uint8_t *rules, size_t rules_len, const char *number, size_t number_len);

/* Returns 1 if the category of the number is that of all its digits, however many it has, 0 if it may be another one
 * (docs/NUMBERS.md), or a fault. It is 1 for each number that has at most 18 digits on either side of the point, once
 * the exponent has moved it. Allocates for a number of more than 16 bytes. */
int32_t plurals_is_exact(const uint8_t *rules, size_t rules_len, const char *number, size_t number_len);

/* Writes the categories of ranges of numbers, as 1 to 3, that a document has for a locale (docs/ELEMENTS.md): 36 bytes, of
 * which table[6 * start + end] is the category of a range with the categories start and end, each a number from PLURALS_ZERO
 * to PLURALS_OTHER. Faults, in the order in which they are looked for: the locale's text isn't UTF-8; the text isn't JSON;
 * it isn't a document, in any of its locales; PLURALS_LOCALE. Allocates in proportion to the document. */
int64_t plurals_ranges_from_document(const char *json, size_t json_len, const char *locale, size_t locale_len,
                                     uint8_t *out, size_t out_len);

/* Writes the block of the elements of a JSON text (docs/JSON.md), as {"other":[0,"{} items"],"one":[0,"{} item"]}. Faults,
 * in the order in which they are looked for: the text isn't JSON; it means no elements; they can't be packed. Allocates. */
int64_t plurals_elements_from_json(const char *json, size_t json_len, uint8_t *out, size_t out_len);

/* Writes the block of the elements of these eight texts; explicit_zero and explicit_one are those of exactly 0 and exactly
 * 1. But for other a text of length 0 isn't an element. Faults, in the order in which they are looked for: a text isn't
 * UTF-8; PLURALS_ELEMENTS_DEFAULT_LIMIT; PLURALS_ELEMENTS_START_LIMIT. Allocates. */
int64_t plurals_elements_from_texts(const char *other, size_t other_len, const char *zero, size_t zero_len, const char *one,
                                    size_t one_len, const char *two, size_t two_len, const char *few, size_t few_len,
                                    const char *many, size_t many_len, const char *explicit_zero, size_t explicit_zero_len,
                                    const char *explicit_one, size_t explicit_one_len, uint8_t *out, size_t out_len);

/* Writes the text of the element that the number takes: the explicit one of exactly 0 or exactly 1 if it is present, else
 * that of the number's category, else that of other. Allocates for a number of more than 16 bytes. */
int64_t plurals_element(const uint8_t *rules, size_t rules_len, const uint8_t *elements, size_t elements_len,
                        const char *number, size_t number_len, char *out, size_t out_len);

/* Writes the message of the number: the text of its element, with the number as it is written in the place of each {}.
 * Allocates for the number alone. The length may be much above that of the input: 32000 times {} and as many digits make
 * 1 GB. A message of 2^63 bytes or more has PLURALS_MEMORY. */
int64_t plurals_message(const uint8_t *rules, size_t rules_len, const uint8_t *elements, size_t elements_len,
                        const char *number, size_t number_len, char *out, size_t out_len);

/* Writes what a pattern of ICU's MessageFormat says (docs/PATTERNS.md) with these arguments; of two with one name the first
 * counts. A plural takes its categories from the rules cardinal, a selectordinal from ordinal, which may be the block without
 * bytes. Faults, in the order in which they are looked for: that of cardinal; of ordinal; of the pattern, by its first place;
 * of the first argument whose name or value isn't UTF-8, or whose kind is unknown; of the first argument that the pattern,
 * read from its front, can't use. Allocates in proportion to the pattern, the arguments and the text, which is held also
 * where out has no room for it: 10000 times {n} and an n of 30000 bytes make 300 MB. */
int64_t plurals_pattern_format(const uint8_t *cardinal, size_t cardinal_len, const uint8_t *ordinal, size_t ordinal_len,
                               const char *pattern, size_t pattern_len, const struct plurals_argument *arguments,
                               size_t arguments_len, char *out, size_t out_len);

/* Writes the block of a pattern (docs/FORMATS.md), from which plurals_packed_format says it without its text.
 * Faults, in the order in which they are looked for: that of the pattern, by its first place; PLURALS_PACKING_COUNT_LIMIT;
 * PLURALS_PACKING_PART; PLURALS_PACKING_ORDER; PLURALS_PACKING_START_LIMIT. Allocates in proportion to the pattern. */
int64_t plurals_pattern_pack(const char *pattern, size_t pattern_len, uint8_t *out, size_t out_len);

/* Returns 0 if the bytes are the block of a pattern, else their fault, which is from PLURALS_PACKED_LIST_HEADER to
 * PLURALS_PACKED_ORDER. The block without bytes is that of the empty pattern. Allocates nothing. */
int32_t plurals_pattern_check(const uint8_t *block, size_t block_len);

/* Writes what the block of a pattern says, as plurals_pattern_format does of the pattern: of what plurals_pattern_pack wrote
 * it is the same, with the same faults, but none of the pattern. Faults, in the order in which they are looked for: that of
 * cardinal; of ordinal; of the block, which is checked at each call, in a quarter of the time that reading the pattern takes;
 * of an argument, as there. Allocates in proportion to the arguments and the text, which is held also where out has no room
 * for it. */
int64_t plurals_packed_format(const uint8_t *cardinal, size_t cardinal_len, const uint8_t *ordinal, size_t ordinal_len,
                              const uint8_t *block, size_t block_len, const struct plurals_argument *arguments,
                              size_t arguments_len, char *out, size_t out_len);

/* Writes the catalogue of the patterns that a JSON document of messages (docs/TRANSLATORS.md) has for a locale, as plural_forms pack
 * does. The locale is compared byte by byte; one of length 0 is the document's only one. Faults, in the order in which they are looked
 * for: the locale's text isn't UTF-8; the text isn't JSON; from PLURALS_MESSAGES_NO_LOCALE to PLURALS_MESSAGES_NO_PATTERNS, in this
 * order; PLURALS_DOCUMENT_SHAPE, where the patterns are no object, or one isn't a text; that of the first pattern by its key, as of
 * plurals_pattern_pack; from PLURALS_ENTRIES_TOO_MANY on. Allocates in proportion to the document and the catalogue. */
int64_t plurals_catalog_pack(const char *json, size_t json_len, const char *locale, size_t locale_len, uint8_t *out, size_t out_len);

/* Returns 0 if the bytes are a catalogue of messages (docs/FORMATS.md), else their fault, which is from PLURALS_CATALOG_HEADER
 * to PLURALS_CATALOG_ORDER, or that of the first block that isn't one of a pattern. Takes time in proportion to the catalogue.
 * Allocates nothing. */
int32_t plurals_catalog_check(const uint8_t *catalog, size_t catalog_len);

/* Writes what the message under a key of a catalogue says, as plurals_packed_format does of its block. The key is looked up
 * by halves, and its block is checked; no other byte is. So a catalogue is passed to plurals_catalog_check once, before. Of
 * bytes that are none the call says some block that stands in them, or returns a fault, and reads nothing else. Faults, in the
 * order in which they are looked for: PLURALS_NO_KEY; those of plurals_packed_format. Allocates as that does. */
int64_t plurals_catalog_say(const uint8_t *cardinal, size_t cardinal_len, const uint8_t *ordinal, size_t ordinal_len,
                            const uint8_t *catalog, size_t catalog_len, const char *key, size_t key_len,
                            const struct plurals_argument *arguments, size_t arguments_len, char *out, size_t out_len);

/* ---- What follows is in the installed library alone, and isn't proved. None of it allocates. */

/* Returns the version of the library, as "0.1.0". The text is the library's, and ends with a byte 0. */
const char *plurals_version(void);

/* Returns the name of a category, as "one", or null if the number is that of none. The text is the library's, and ends
 * with a byte 0. */
const char *plurals_category_name(int32_t category);

/* Returns in a few English words what a fault is, as "out of memory", or null if no fault has the number. The text is the
 * library's, and ends with a byte 0. A later version may word it otherwise. */
const char *plurals_fault_text(int64_t fault);

/* ---- What follows is compiled with the caller, and isn't proved. tools/header --inline writes it from the constants of the
 * proved call, and examples/c/checks.c compares the two. */

/* Returns what plurals_category_by_table returns, without a call. */
static inline int32_t plurals_category_by_table_inline(const uint8_t *table, size_t table_len, uint64_t number) {
    uint64_t bound;
    uint8_t entry;
    if (table_len != PLURALS_TABLE_BYTES) return PLURALS_TABLE_LENGTH;
    bound = table[0] | (uint64_t)table[1] << 8 | (uint64_t)table[2] << 16 | (uint64_t)table[3] << 24
            | (uint64_t)table[4] << 32 | (uint64_t)table[5] << 40 | (uint64_t)table[6] << 48 | (uint64_t)table[7] << 56;
    if (number < 128) {
        entry = table[8 + number];
    } else {
        if (number < bound) return PLURALS_ASK_RULES;
        entry = table[136 + number % 100];
    }
    return entry < PLURALS_ASK_RULES ? (int32_t)entry : PLURALS_ASK_RULES;
}

#ifdef __cplusplus
}
#endif

#endif
