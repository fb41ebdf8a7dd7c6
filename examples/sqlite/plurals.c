/* An extension of SQLite: plural_category(LOCALE, NUMBER) and plural_category(LOCALE, NUMBER, 'ordinal') return the plural category of
 * a number, as 'few'; plural_say(FILE, LOCALE, KEY, NAME, VALUE ..) returns what a message of a catalogue says. docs/C.md tells how it
 * is compiled and loaded.
 *
 * The rules are those of the document that the environment variable PLURALS_RULES names, else of PLURALS_CLDR, which is given to the
 * compiler. A connection reads it, and each catalogue, at its first call, and keeps them and the rules of each locale that it was asked
 * for until it is closed. */
#include <errno.h>
#include <plurals.h>
#include <sqlite3ext.h>
#include <stdbool.h>
#include <stdio.h>
#include <stdlib.h>
#include <string.h>

SQLITE_EXTENSION_INIT1

#ifndef PLURALS_CLDR
#define PLURALS_CLDR ""
#endif

/* How many lists the rules are kept in; how many rules: after these all are looked up anew; how long a locale's name may be. */
enum { LISTS = 256, MOST_RULES = 4096, MOST_NAME = 256 };

/* How many arguments a message may have, and how long a text is that is written without memory. */
enum { MOST_ARGUMENTS = 32, SHORT = 512 };

/* The rules of a locale, as a block and as a table. The bytes are those of the locale as it was asked for, and of the block. */
struct rules {
    struct rules *next;
    uint8_t type;
    uint8_t table[PLURALS_TABLE_BYTES];
    size_t locale_length;
    size_t block_length;
    uint8_t bytes[];
};

struct text {
    const char *at;
    size_t length;
};

/* A catalogue of messages, by the path of its file. */
struct catalog {
    struct catalog *next;
    char *bytes;
    size_t length;
    size_t path_length;
    char path[];
};

/* What a connection keeps. It goes with the last of its functions. */
struct kept {
    int functions;
    /* The function that is called. */
    const char *asked;
    char *document;
    size_t document_length;
    struct catalog *catalogs;
    size_t count;
    struct rules *lists[LISTS];
};

/* A type beside those of a document: the ordinal rules, or none if there are none. */
enum { ORDINAL_OR_NONE = 3 };

/* ---- errors */

/* Ends the call with an error that names the text. */
static void refuse(sqlite3_context *context, const char *fault, struct text text) {
    const struct kept *kept = sqlite3_user_data(context);
    char *message = sqlite3_mprintf("%s: %s: '%!.*s'", kept->asked, fault, text.length < 100 ? (int)text.length : 100, text.at);
    if (message)
        sqlite3_result_error(context, message, -1);
    else
        sqlite3_result_error_nomem(context);
    sqlite3_free(message);
}

static void refuse_by(sqlite3_context *context, int64_t fault, struct text text) {
    const char *told = plurals_fault_text(fault);
    if (fault == PLURALS_MEMORY)
        sqlite3_result_error_nomem(context);
    else
        refuse(context, told ? told : "unknown fault", text);
}

/* ---- the document */

static struct text path(void) {
    const char *given = getenv("PLURALS_RULES");
    if (!given || !*given) given = PLURALS_CLDR;
    return (struct text){given, strlen(given)};
}

/* Reads a file to its end, or until there is no memory: then null is returned. */
static char *read_all(FILE *file, size_t *length) {
    size_t room = 1 << 17, more;
    char *bytes = sqlite3_malloc64(room);
    *length = 0;
    while (bytes && (more = fread(bytes + *length, 1, room - *length, file)) > 0) {
        *length += more;
        if (*length < room) continue;
        char *larger = sqlite3_realloc64(bytes, room *= 2);
        if (!larger) sqlite3_free(bytes);
        bytes = larger;
    }
    return bytes;
}

/* Returns the bytes of a file, or null: then the call has ended. */
static char *bytes_of(sqlite3_context *context, struct text path, size_t *length) {
    char *bytes = NULL;
    errno = 0;
    FILE *file = fopen(path.at, "rb");
    bool has_memory = !file || (bytes = read_all(file, length));
    int fault = file && !ferror(file) ? 0 : errno ? errno : EIO;
    if (file) fclose(file);
    if (has_memory && !fault) return bytes;
    sqlite3_free(bytes);
    if (has_memory)
        refuse(context, strerror(fault), path);
    else
        sqlite3_result_error_nomem(context);
    return NULL;
}

/* Returns whether the document is read; if not, the call has ended. */
static bool has_document(sqlite3_context *context, struct kept *kept) {
    if (!kept->document) kept->document = bytes_of(context, path(), &kept->document_length);
    return kept->document;
}

/* ---- the rules of a locale */

static bool is_subtag(struct text text, const char *subtag) {
    size_t length = strlen(subtag);
    return text.length >= length && !sqlite3_strnicmp(text.at, subtag, (int)length)
           && (text.length == length || text.at[length] == '-' || text.at[length] == '_');
}

/* Whether a locale's key is that of all languages, which wasn't asked for. */
static bool is_unasked_root(struct text locale, struct text key) {
    return is_subtag(key, "root") && !is_subtag(locale, "root") && !is_subtag(locale, "und");
}

/* Writes the key that a document has for a locale, among its rules of a type. Returns the key's length, or the fault. */
static int64_t find_key(const struct kept *kept, struct text locale, uint8_t type, char key[MOST_NAME]) {
    if (locale.length > MOST_NAME) return PLURALS_LOCALE;
    int64_t length = plurals_find_locale(kept->document, kept->document_length, locale.at, locale.length, type, key, MOST_NAME);
    return length > MOST_NAME ? PLURALS_LOCALE : length;
}

/* Whether a document has rules of the locale's language. Those of some are cardinal alone. */
static bool is_known(const struct kept *kept, struct text locale) {
    char key[MOST_NAME];
    for (uint8_t type = PLURALS_CARDINAL; type <= PLURALS_ORDINAL; type++) {
        int64_t length = find_key(kept, locale, type, key);
        if (length >= 0 && !is_unasked_root(locale, (struct text){key, (size_t)length})) return true;
    }
    return false;
}

/* Ends the call by a fault of the document or of the locale. */
static void refuse_locale(sqlite3_context *context, int64_t fault, struct text locale, uint8_t type) {
    if (fault == PLURALS_LOCALE)
        refuse(context, type == PLURALS_ORDINAL ? "no ordinal rules for the locale" : "no cardinal rules for the locale", locale);
    else
        refuse_by(context, fault, fault == PLURALS_UTF8 ? locale : path());
}

/* Makes the rules that a document has under a key, or returns their fault. */
static int64_t make_rules(const struct kept *kept, struct text locale, struct text key, uint8_t type, struct rules **made) {
    size_t room = 512;
    for (;;) {
        struct rules *rules = sqlite3_malloc64(sizeof *rules + locale.length + room);
        if (!rules) return PLURALS_MEMORY;
        uint8_t *block = rules->bytes + locale.length;
        int64_t length = plurals_rules_from_document(kept->document, kept->document_length, key.at, key.length, type, block, room);
        if (length >= 0 && (size_t)length <= room) {
            memcpy(rules->bytes, locale.at, locale.length);
            rules->type = type;
            rules->locale_length = locale.length;
            rules->block_length = (size_t)length;
            *made = rules;
            return plurals_table_of_rules(block, (size_t)length, rules->table, sizeof rules->table);
        }
        sqlite3_free(rules);
        if (length < 0) return length;
        room = (size_t)length;
    }
}

static void forget(struct kept *kept) {
    for (size_t place = 0; place < LISTS; place++)
        while (kept->lists[place]) {
            struct rules *first = kept->lists[place];
            kept->lists[place] = first->next;
            sqlite3_free(first);
        }
    kept->count = 0;
}

static size_t place_of(struct text locale, uint8_t type) {
    uint32_t hash = type;
    for (size_t k = 0; k < locale.length; k++) hash = hash * 31 + (uint8_t)locale.at[k];
    return (hash ^ hash >> 8) % LISTS;
}

/* Makes the rules by which each number is other. */
static int64_t make_none(struct text locale, struct rules **made) {
    struct rules *rules = sqlite3_malloc64(sizeof *rules + locale.length);
    if (!rules) return PLURALS_MEMORY;
    *rules = (struct rules){.locale_length = locale.length};
    memcpy(rules->bytes, locale.at, locale.length);
    *made = rules;
    return 0;
}

/* Looks up the rules of a locale that wasn't asked for before. Returns null if there are none: then the call has ended. */
static struct rules *new_rules(sqlite3_context *context, struct kept *kept, struct text locale, uint8_t type) {
    char room[MOST_NAME];
    uint8_t part = type == ORDINAL_OR_NONE ? PLURALS_ORDINAL : type;
    struct rules *rules = NULL;
    if (!has_document(context, kept)) return NULL;
    int64_t fault = find_key(kept, locale, part, room);
    struct text key = {room, fault < 0 ? 0 : (size_t)fault};
    if (is_unasked_root(locale, key) && !is_known(kept, locale)) fault = PLURALS_LOCALE;
    if (fault == PLURALS_LOCALE && type == ORDINAL_OR_NONE) fault = make_none(locale, &rules);
    else if (fault >= 0) fault = make_rules(kept, locale, key, part, &rules);
    if (fault >= 0) {
        rules->type = type;
        return rules;
    }
    refuse_locale(context, fault, locale, part);
    sqlite3_free(rules);
    return NULL;
}

static struct rules *rules_of(sqlite3_context *context, struct kept *kept, struct text locale, uint8_t type) {
    struct rules **list = &kept->lists[place_of(locale, type)];
    for (struct rules *it = *list; it; it = it->next)
        if (it->type == type && it->locale_length == locale.length && !memcmp(it->bytes, locale.at, locale.length)) return it;
    struct rules *found = new_rules(context, kept, locale, type);
    if (!found) return NULL;
    kept->count++;
    found->next = *list;
    return *list = found;
}

/* ---- catalogues */

/* Reads a catalogue, and checks it. Returns null if there is none: then the call has ended. */
static struct catalog *new_catalog(sqlite3_context *context, struct text path) {
    size_t length;
    char *bytes = bytes_of(context, path, &length);
    if (!bytes) return NULL;
    int32_t fault = plurals_catalog_check((const uint8_t *)bytes, length);
    struct catalog *found = fault ? NULL : sqlite3_malloc64(sizeof *found + path.length);
    if (found) {
        *found = (struct catalog){.bytes = bytes, .length = length, .path_length = path.length};
        memcpy(found->path, path.at, path.length);
        return found;
    }
    sqlite3_free(bytes);
    refuse_by(context, fault ? fault : PLURALS_MEMORY, path);
    return NULL;
}

/* Returns the catalogue in a file, or null: then the call has ended. */
static struct catalog *catalog_of(sqlite3_context *context, struct kept *kept, struct text path) {
    for (struct catalog *one = kept->catalogs; one; one = one->next)
        if (one->path_length == path.length && !memcmp(one->path, path.at, path.length)) return one;
    struct catalog *found = new_catalog(context, path);
    if (!found) return NULL;
    found->next = kept->catalogs;
    return kept->catalogs = found;
}

/* ---- the functions */

/* Begins a call of a function, which looks up two rules at most, and returns what is kept. */
static struct kept *begin(sqlite3_context *context, const char *asked) {
    struct kept *kept = sqlite3_user_data(context);
    kept->asked = asked;
    if (kept->count + 2 > MOST_RULES) forget(kept);
    return kept;
}

/* The text of a value, which is null if there is no memory. */
static struct text text_of(sqlite3_value *value) {
    const char *at = (const char *)sqlite3_value_text(value);
    return (struct text){at, (size_t)sqlite3_value_bytes(value)};
}

/* An integer has the category that the table tells, else that of the rules; any other number that of its text. */
static int32_t category_of(const struct rules *rules, sqlite3_value *number) {
    const uint8_t *block = rules->bytes + rules->locale_length;
    if (sqlite3_value_type(number) == SQLITE_INTEGER) {
        int64_t integer = sqlite3_value_int64(number);
        uint64_t absolute = integer < 0 ? 0 - (uint64_t)integer : (uint64_t)integer;
        int32_t category = plurals_category_by_table(rules->table, sizeof rules->table, absolute);
        return category == PLURALS_ASK_RULES ? plurals_category_of_integer(block, rules->block_length, absolute) : category;
    }
    struct text text = text_of(number);
    return text.at ? plurals_category(block, rules->block_length, text.at, text.length) : PLURALS_MEMORY;
}

/* The type that a word names, or -1. */
static int type_named(struct text word) {
    if (word.length == 8 && !memcmp(word.at, "cardinal", 8)) return PLURALS_CARDINAL;
    if (word.length == 7 && !memcmp(word.at, "ordinal", 7)) return PLURALS_ORDINAL;
    return -1;
}

static void plural_category(sqlite3_context *context, int count, sqlite3_value **values) {
    struct kept *kept = begin(context, "plural_category");
    /* The result is null if none is set. */
    for (int k = 0; k < count; k++)
        if (sqlite3_value_type(values[k]) == SQLITE_NULL) return;
    struct text locale = text_of(values[0]), word = count > 2 ? text_of(values[2]) : (struct text){"cardinal", 8};
    if (!locale.at || !word.at) {
        sqlite3_result_error_nomem(context);
        return;
    }
    int type = type_named(word);
    if (type < 0) {
        refuse(context, "the type of rules is neither 'cardinal' nor 'ordinal'", word);
        return;
    }
    struct rules *rules = rules_of(context, kept, locale, (uint8_t)type);
    if (!rules) return;
    int32_t category = category_of(rules, values[1]);
    if (category >= 0)
        sqlite3_result_text(context, plurals_category_name(category), -1, SQLITE_STATIC);
    else
        refuse_by(context, category, text_of(values[1]));
}

/* An argument: an integer or a REAL is a number, as SQLite shows it, and all else a text. Returns whether there is memory. */
static bool give(struct plurals_argument *argument, sqlite3_value *name, sqlite3_value *value) {
    int type = sqlite3_value_type(value);
    struct text named = text_of(name), given = text_of(value);
    *argument = (struct plurals_argument){named.at, named.length, given.at, given.length,
                                          type == SQLITE_INTEGER || type == SQLITE_FLOAT ? PLURALS_NUMBER : PLURALS_TEXT};
    return named.at && given.at;
}

/* Returns what the message says: its length, or the fault. */
static int64_t say(const struct rules *cardinal, const struct rules *ordinal, const struct catalog *catalog, struct text key,
                   const struct plurals_argument *arguments, size_t count, char *out, size_t room) {
    return plurals_catalog_say(cardinal->bytes + cardinal->locale_length, cardinal->block_length, ordinal->bytes + ordinal->locale_length,
                               ordinal->block_length, (const uint8_t *)catalog->bytes, catalog->length, key.at, key.length, arguments,
                               count, out, room);
}

/* Ends the call with what the message says. */
static void result_of(sqlite3_context *context, const struct rules *cardinal, const struct rules *ordinal, const struct catalog *catalog,
                      struct text key, const struct plurals_argument *arguments, size_t count) {
    char text[SHORT], *longer;
    int64_t length = say(cardinal, ordinal, catalog, key, arguments, count, text, SHORT);
    if (length < 0) {
        refuse_by(context, length, key);
    } else if (length <= SHORT) {
        sqlite3_result_text(context, text, (int)length, SQLITE_TRANSIENT);
    } else if ((longer = sqlite3_malloc64((uint64_t)length))) {
        say(cardinal, ordinal, catalog, key, arguments, count, longer, (size_t)length);
        sqlite3_result_text64(context, longer, (uint64_t)length, sqlite3_free, SQLITE_UTF8);
    } else {
        sqlite3_result_error_nomem(context);
    }
}

static void plural_say(sqlite3_context *context, int count, sqlite3_value **values) {
    struct kept *kept = begin(context, "plural_say");
    struct plurals_argument arguments[MOST_ARGUMENTS];
    bool has_memory = true;
    if (count < 3 || count % 2 == 0 || count > 3 + 2 * MOST_ARGUMENTS) {
        sqlite3_result_error(context, "plural_say takes a file, a locale, a key, and at most 32 names, each with its value", -1);
        return;
    }
    for (int k = 0; k < count; k++)
        if (sqlite3_value_type(values[k]) == SQLITE_NULL) return;
    for (int k = 3; k < count; k += 2) has_memory &= give(&arguments[(k - 3) / 2], values[k], values[k + 1]);
    struct text file = text_of(values[0]), locale = text_of(values[1]), key = text_of(values[2]);
    if (!has_memory || !file.at || !locale.at || !key.at) {
        sqlite3_result_error_nomem(context);
        return;
    }
    struct catalog *catalog = catalog_of(context, kept, file);
    struct rules *cardinal = catalog ? rules_of(context, kept, locale, PLURALS_CARDINAL) : NULL;
    struct rules *ordinal = cardinal ? rules_of(context, kept, locale, ORDINAL_OR_NONE) : NULL;
    if (ordinal) result_of(context, cardinal, ordinal, catalog, key, arguments, (size_t)(count - 3) / 2);
}

/* ---- the connection */

static void leave(void *user_data) {
    struct kept *kept = user_data;
    if (--kept->functions > 0) return;
    forget(kept);
    while (kept->catalogs) {
        struct catalog *first = kept->catalogs;
        kept->catalogs = first->next;
        sqlite3_free(first->bytes);
        sqlite3_free(first);
    }
    sqlite3_free(kept->document);
    sqlite3_free(kept);
}

int sqlite3_plurals_init(sqlite3 *database, char **error, const sqlite3_api_routines *api) {
    SQLITE_EXTENSION_INIT2(api);
    (void)error;
    struct kept *kept = sqlite3_malloc(sizeof *kept);
    if (!kept) return SQLITE_NOMEM;
    /* One for this call, so that it stays until all functions are there. */
    *kept = (struct kept){.functions = 1};
    int status = SQLITE_OK, flags = SQLITE_UTF8 | SQLITE_DETERMINISTIC | SQLITE_INNOCUOUS;
    for (int count = 2; count <= 3 && status == SQLITE_OK; count++) {
        kept->functions++;
        status = sqlite3_create_function_v2(database, "plural_category", count, flags, kept, plural_category, NULL, NULL, leave);
    }
    if (status == SQLITE_OK) {
        kept->functions++;
        /* It reads files, so no view or trigger of a database calls it. */
        status = sqlite3_create_function_v2(database, "plural_say", -1, SQLITE_UTF8 | SQLITE_DIRECTONLY, kept, plural_say, NULL, NULL, leave);
    }
    leave(kept);
    return status;
}
