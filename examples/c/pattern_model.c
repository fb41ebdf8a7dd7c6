/* What plurals_pattern_format and plurals_packed_format return and write: a model of docs/PATTERNS.md, which reads a pattern twice, first
 * for its faults, and then to say it, and of a plural or a select that is said its branches twice, to choose one and to say it. */
#include "parts.h"
#include <plurals.h>
#include <stdlib.h>
#include <string.h>

enum context { WHOLE, COUNTED, SELECTED };
enum type { PLURAL, ORDINAL, SELECT, TYPES };
enum { MOST_DEPTH = 32, MOST_PLACES = 32767, SIGN_BYTES = 131072 };

static struct slice text, rules[2];
static size_t at;
static const struct plurals_argument *arguments;
static size_t arguments_len;
static uint8_t *said;
static size_t said_len;
/* What # says in the branches of each depth, if it is a number less an offset. */
static uint8_t signs[MOST_DEPTH + 1][SIGN_BYTES];
/* Where the parts of the text are kept, or null; and whether the last one is text that may go on. */
static struct parts *kept;
static bool goes_on;

static struct slice between(size_t start, size_t end) { return (struct slice){text.at + start, end - start}; }
static bool is_same(struct slice one, const void *bytes, size_t length) {
    return one.length == length && (length == 0 || !memcmp(one.at, bytes, length));
}
static bool ends(void) { return at == text.length; }
static bool is_next(char mark) { return !ends() && text.at[at] == (uint8_t)mark; }
static bool is_digit(uint8_t byte) { return byte >= '0' && byte <= '9'; }
static bool is_letter(uint8_t byte) { return (byte | 32) >= 'a' && (byte | 32) <= 'z'; }
/* A fault here: at the end of the text a brace is missing. */
static int64_t failed(int64_t fault) { return ends() ? PLURALS_PATTERN_UNCLOSED : fault; }

static void say(bool is_said, struct slice bytes) {
    if (!is_said || bytes.length == 0) return;
    if (bytes.length > MODEL_BYTES - said_len) abort();
    memcpy(said + said_len, bytes.at, bytes.length), said_len += bytes.length;
}

/* Keeps a part. */
static void keep(enum form form, size_t depth, struct slice name, struct slice own) {
    if (!kept) return;
    if (kept->length == MOST_PARTS) abort();
    kept->at[kept->length++] = (struct part){form, depth, name, own};
    goes_on = false;
}

/* Says and keeps text: a byte of a run, which goes on with the bytes that follow it, or a mark that stands for itself. */
static void text_piece(bool is_said, size_t depth, struct slice bytes, bool is_run) {
    say(is_said, bytes);
    if (kept && is_run && goes_on) kept->at[kept->length - 1].own.length += bytes.length;
    else keep(TEXT, depth, between(0, 0), bytes);
    goes_on = is_run;
}

/* ---- names and white space */

static size_t white_space(void) {
    static const char *const longer[] = {"\xc2\x85", "\xe2\x80\x8e", "\xe2\x80\x8f", "\xe2\x80\xa8", "\xe2\x80\xa9"};
    if (ends()) return 0;
    if ((text.at[at] >= 9 && text.at[at] <= 13) || text.at[at] == ' ') return 1;
    for (size_t k = 0; k < sizeof longer / sizeof *longer; k++) {
        size_t length = strlen(longer[k]);
        if (text.length - at >= length && !memcmp(text.at + at, longer[k], length)) return length;
    }
    return 0;
}

static void skip_blanks(void) {
    while (white_space()) at += white_space();
}

static struct slice name(void) {
    size_t start = at;
    while (!ends() && !white_space() && (is_letter(text.at[at]) || is_digit(text.at[at]) || text.at[at] == '_' || text.at[at] > 127)) at++;
    return between(start, at);
}

static struct slice digits(void) {
    size_t start = at;
    while (!ends() && is_digit(text.at[at])) at++;
    return between(start, at);
}

static bool are_digits(struct slice word) {
    for (size_t k = 0; k < word.length; k++)
        if (!is_digit(word.at[k])) return false;
    return word.length > 0;
}

/* ---- numbers */

/* A number without zeros at its ends: digits, the power of ten of the last one, and the sign, which 0 hasn't. */
struct value {
    bool is_negative;
    uint8_t digits[SIGN_BYTES];
    size_t length;
    long scale;
};

static void read_value(struct slice number, struct value *value) {
    bool is_fraction = false;
    value->is_negative = number.length && number.at[0] == '-', value->length = 0, value->scale = 0;
    for (size_t k = 0; k < number.length; k++) {
        uint8_t byte = number.at[k];
        if (byte == 'c') {
            long exponent = 0;
            while (++k < number.length) exponent = 10 * exponent + number.at[k] - '0';
            value->scale += exponent;
        } else if (byte == '.') {
            is_fraction = true;
        } else if (is_digit(byte)) {
            value->scale -= is_fraction;
            if (byte == '0' && value->length == 0) continue;
            if (value->length == SIGN_BYTES) abort();
            value->digits[value->length++] = byte;
        }
    }
    while (value->length && value->digits[value->length - 1] == '0') value->length--, value->scale++;
    if (value->length == 0) value->is_negative = false, value->scale = 0;
}

static bool is_equal(struct slice one, struct slice other) {
    static struct value a, b;
    read_value(one, &a), read_value(other, &b);
    return a.is_negative == b.is_negative && a.scale == b.scale && is_same((struct slice){a.digits, a.length}, b.digits, b.length);
}

/* The digits of a number, one for each power of ten from the highest of columns to its last fraction digit. */
static void column(struct slice number, size_t places, uint8_t *columns, size_t count) {
    size_t from = number.length && !is_digit(number.at[0]) && number.at[0] != '.';
    size_t point = from, k = count;
    while (point < number.length && is_digit(number.at[point])) point++;
    memset(columns, 0, count);
    for (size_t f = 0; f < places && point + 1 + f < number.length; f++)
        if (is_digit(number.at[point + 1 + f])) columns[count - places + f] = number.at[point + 1 + f] - '0';
    k -= places;
    while (point > from) columns[--k] = number.at[--point] - '0';
}

/* A number less an offset, with the fraction digits of the number. */
static struct slice less(struct slice number, struct slice offset, uint8_t *room) {
    static uint8_t a[SIGN_BYTES], b[SIGN_BYTES];
    size_t places = 0, end = number.length, length = 0;
    for (size_t k = 0; k < number.length; k++) {
        if (number.at[k] == 'c') end = k;
        if (number.at[k] == '.') places = k + 1;
    }
    places = places ? end - places : 0;
    size_t count = number.length + offset.length + 2 + places;
    if (count + 2 > SIGN_BYTES) abort();
    column((struct slice){number.at, end}, places, a, count), column(offset, 0, b, count);
    memmove(b, b + places, count - places), memset(b + count - places, 0, places);
    bool is_negative = number.at[0] == '-', is_sum = is_negative, is_turned = !is_sum && memcmp(a, b, count) < 0;
    const uint8_t *high = is_turned ? b : a, *low = is_turned ? a : b;
    static uint8_t result[SIGN_BYTES];
    int carry = 0;
    for (size_t k = count; k-- > 0;) {
        int digit = is_sum ? a[k] + b[k] + carry : high[k] - low[k] - carry;
        carry = is_sum ? digit > 9 : digit < 0;
        result[k] = (uint8_t)(is_sum ? digit % 10 : (digit + 10) % 10);
    }
    size_t start = 0;
    while (start + places + 1 < count && result[start] == 0) start++;
    bool is_zero = true;
    for (size_t k = 0; k < count; k++) is_zero = is_zero && result[k] == 0;
    if ((is_negative || is_turned) && !is_zero) room[length++] = '-';
    for (size_t k = start; k < count; k++) {
        if (k == count - places) room[length++] = '.';
        room[length++] = (uint8_t)('0' + result[k]);
    }
    return (struct slice){room, length};
}

/* The fault of a number's text, as one of an argument. */
static int64_t number_fault(struct slice number) {
    int64_t fault = model_category((struct slice){(const uint8_t *)"", 0}, number);
    if (fault == PLURALS_NUMBER_SYNTAX) return PLURALS_ARGUMENT_NOT_A_NUMBER;
    return fault == PLURALS_NUMBER_LIMIT ? PLURALS_ARGUMENT_OVER_LIMIT : 0;
}

static bool is_compact(struct slice number) {
    for (size_t k = 0; k < number.length; k++)
        if (number.at[k] == 'c')
            for (size_t e = k + 1; e < number.length; e++)
                if (number.at[e] != '0') return true;
    return false;
}

/* ---- arguments */

static const struct plurals_argument *argument_of(struct slice name) {
    for (size_t k = 0; k < arguments_len; k++)
        if (is_same(name, arguments[k].name, arguments[k].name_len)) return &arguments[k];
    return NULL;
}

static struct slice value_of(const struct plurals_argument *argument) {
    return (struct slice){(const uint8_t *)argument->value, argument->value_len};
}

static int64_t say_argument(struct slice name) {
    const struct plurals_argument *found = argument_of(name);
    if (!found) return PLURALS_ARGUMENT_MISSING;
    say(true, value_of(found));
    return 0;
}

/* What chooses a branch: a number that is compared, and a keyword. */
struct chooser {
    struct slice number;
    const char *keyword;
    size_t keyword_len;
};

static int64_t message(enum context context, size_t depth, struct slice sign, bool is_said);

/* Reads a selector and says whether it is `=` and a number. */
static int64_t selector(enum type type, struct slice *word, bool *is_number) {
    *is_number = type != SELECT && is_next('=');
    if (!*is_number) {
        *word = name();
        return word->length ? 0 : failed(PLURALS_PATTERN_EXPECTED_SELECTOR);
    }
    size_t start = ++at;
    if (is_next('-')) at++;
    bool is_right = digits().length > 0;
    if (is_right && is_next('.')) at++, is_right = digits().length > 0;
    if (is_right && (is_next('-') || is_next('.'))) is_right = false;
    *word = between(start, at);
    return is_right ? 0 : start == text.length ? PLURALS_PATTERN_UNCLOSED : PLURALS_PATTERN_EXPECTED_VALUE;
}

/* Reads the branches, and finds the one that is chosen: where it begins. */
static int64_t branches(enum type type, size_t depth, const struct chooser *chooser, size_t *chosen) {
    size_t exactly = 0, named = 0, other = 0;
    for (skip_blanks(); !is_next('}'); skip_blanks()) {
        if (ends()) return PLURALS_PATTERN_UNCLOSED;
        struct slice word;
        bool is_number;
        int64_t fault = selector(type, &word, &is_number);
        if (fault) return fault;
        keep(is_number ? EXACTLY : KEYWORD, depth, between(0, 0), word);
        skip_blanks();
        if (!is_next('{')) return failed(PLURALS_PATTERN_EXPECTED_BRANCH);
        at++;
        if (depth >= MOST_DEPTH) return PLURALS_PATTERN_TOO_DEEP;
        if (!exactly && is_number && chooser && !number_fault(word) && is_equal(word, chooser->number)) exactly = at;
        if (!named && !is_number && chooser && is_same(word, chooser->keyword, chooser->keyword_len)) named = at;
        if (!other && !is_number && is_same(word, "other", 5)) other = at;
        fault = message(type == SELECT ? SELECTED : COUNTED, depth + 1, word, false);
        if (fault) return fault;
    }
    if (!other) return PLURALS_PATTERN_MISSING_OTHER;
    keep(END, depth, between(0, 0), between(0, 0));
    at++;
    *chosen = exactly ? exactly : named ? named : other;
    return 0;
}

/* What chooses a branch with the argument, and what # says there; or its fault. */
static int64_t choose(enum type type, struct slice name, const struct slice *offset, size_t depth, struct slice *sign,
                      struct chooser *chooser) {
    static const char *const names[] = {"zero", "one", "two", "few", "many", "other"};
    const struct plurals_argument *argument = argument_of(name);
    if (!argument) return PLURALS_ARGUMENT_MISSING;
    if ((argument->kind == PLURALS_TEXT) != (type == SELECT)) return PLURALS_ARGUMENT_WRONG_KIND;
    *chooser = (struct chooser){value_of(argument), argument->value, argument->value_len};
    if (type == SELECT) return 0;
    int64_t fault = number_fault(chooser->number);
    if (fault) return fault;
    if (offset && is_compact(chooser->number)) return PLURALS_ARGUMENT_COMPACT_OFFSET;
    if (offset && offset->length > MOST_PLACES) return PLURALS_ARGUMENT_OVER_LIMIT;
    *sign = offset ? less(chooser->number, *offset, signs[depth]) : chooser->number;
    if (number_fault(*sign)) return PLURALS_ARGUMENT_OVER_LIMIT;
    chooser->keyword = names[model_category(rules[type == ORDINAL], *sign)], chooser->keyword_len = strlen(chooser->keyword);
    return 0;
}

/* Reads an argument that chooses, from its type on. */
static int64_t choice(struct slice name, size_t depth, struct slice sign, bool is_said) {
    static const char *const types[TYPES] = {"plural", "selectordinal", "select"};
    skip_blanks();
    size_t start = at, type = 0, chosen = 0;
    while (!ends() && is_letter(text.at[at])) at++;
    if (at == start) return failed(PLURALS_PATTERN_EXPECTED_TYPE);
    for (; type < TYPES; type++) {
        size_t k = 0, length = strlen(types[type]);
        while (k < at - start && k < length && (char)(text.at[start + k] | 32) == types[type][k]) k++;
        if (k == at - start && k == length) break;
    }
    if (type == TYPES) return PLURALS_PATTERN_UNSUPPORTED_TYPE;
    skip_blanks();
    if (!is_next(',')) return failed(PLURALS_PATTERN_EXPECTED_STYLE);
    at++;
    skip_blanks();
    struct slice number = {NULL, 0}, *offset = NULL;
    if (type != SELECT && text.length - at >= 7 && !memcmp(text.at + at, "offset:", 7)) {
        at += 7, skip_blanks(), number = digits(), offset = &number;
        if (number.length == 0) return failed(PLURALS_PATTERN_EXPECTED_OFFSET);
    }
    keep((enum form)(BEGIN + type), depth, name, offset ? number : between(0, 0));
    struct chooser chooser;
    int64_t fault = is_said ? choose((enum type)type, name, offset, depth, &sign, &chooser) : 0;
    if (!fault) fault = branches((enum type)type, depth, is_said ? &chooser : NULL, &chosen);
    if (fault || !is_said) return fault;
    size_t behind = at;
    at = chosen;
    fault = message(type == SELECT ? SELECTED : COUNTED, depth + 1, sign, true);
    at = behind;
    return fault;
}

/* Reads an argument from behind its brace. */
static int64_t argument(size_t depth, struct slice sign, bool is_said) {
    skip_blanks();
    struct slice word = name();
    if (word.length == 0) return failed(PLURALS_PATTERN_EXPECTED_NAME);
    if (are_digits(word) && word.length > 1 && word.at[0] == '0') return PLURALS_PATTERN_BAD_NUMBER;
    skip_blanks();
    if (is_next(',')) return at++, choice(word, depth, sign, is_said);
    if (!is_next('}')) return failed(PLURALS_PATTERN_EXPECTED_END);
    at++;
    keep(ARGUMENT, depth, word, between(0, 0));
    return is_said ? say_argument(word) : 0;
}

/* ---- text */

/* Reads quoted text, up to behind the apostrophe that ends it or to the end. */
static void quoted(size_t depth, bool is_said) {
    for (; !ends(); at++) {
        if (is_next('\'') && !(at + 1 < text.length && text.at[at + 1] == '\'')) {
            at++;
            return;
        }
        text_piece(is_said, depth, between(at, at + 1), !is_next('\''));
        at += is_next('\'');
    }
}

static void apostrophe(enum context context, size_t depth, bool is_said) {
    goes_on = false;
    if (is_next('{') || is_next('}') || (context == COUNTED && is_next('#'))) {
        quoted(depth, is_said);
        goes_on = false;
        return;
    }
    text_piece(is_said, depth, (struct slice){(const uint8_t *)"'", 1}, false);
    at += is_next('\'');
}

/* Reads a message: up to the end, or a branch up to behind its brace. */
static int64_t message(enum context context, size_t depth, struct slice sign, bool is_said) {
    while (!ends()) {
        uint8_t byte = text.at[at++];
        int64_t fault = 0;
        if (byte == '}' && context != WHOLE) return 0;
        if (byte == '{') fault = argument(depth, sign, is_said);
        else if (byte == '\'') apostrophe(context, depth, is_said);
        else if (byte == '#' && context == COUNTED) say(is_said, sign), keep(HASH, depth, between(0, 0), between(0, 0));
        else text_piece(is_said, depth, between(at - 1, at), byte != '#' && byte != '}');
        if (fault) return fault;
    }
    return context == WHOLE ? 0 : PLURALS_PATTERN_UNCLOSED;
}

static int64_t argument_fault(const struct plurals_argument *one) {
    if (!model_is_utf8((struct slice){(const uint8_t *)one->name, one->name_len})) return PLURALS_UTF8;
    if (!model_is_utf8(value_of(one))) return PLURALS_UTF8;
    return one->kind <= PLURALS_TEXT ? 0 : PLURALS_ARGUMENT_KIND;
}

int64_t model_pattern_format(struct slice cardinal, struct slice ordinal, struct slice pattern, const struct plurals_argument *given,
                             size_t count, uint8_t *out) {
    static const struct slice nothing = {(const uint8_t *)"", 0};
    text = pattern, rules[0] = cardinal, rules[1] = ordinal, arguments = given, arguments_len = count, said = out, said_len = 0, at = 0;
    int64_t fault = model_check_rules(cardinal);
    if (!fault) fault = model_check_rules(ordinal);
    if (!fault) fault = message(WHOLE, 0, nothing, false);
    for (size_t k = 0; !fault && k < count; k++) fault = argument_fault(&given[k]);
    at = 0;
    if (!fault) fault = message(WHOLE, 0, nothing, true);
    return fault ? fault : (int64_t)said_len;
}

int64_t model_read_text(struct slice pattern, struct parts *parts) {
    static const struct slice nothing = {(const uint8_t *)"", 0};
    text = pattern, at = 0, kept = parts, goes_on = false, parts->length = 0;
    int64_t fault = message(WHOLE, 0, nothing, false);
    kept = NULL;
    return fault;
}

/* ---- the parts of a block */

static struct parts read;

/* Where the argument ends that begins at a part. */
static size_t end_of(size_t k) {
    size_t end = k + 1;
    while (read.at[end].form != END || read.at[end].depth > read.at[k].depth) end++;
    return end;
}

/* Where the chosen branch of an argument begins, or behind all parts if it has none. */
static size_t branch_of(size_t begin, const struct chooser *chooser) {
    static const struct slice no_rules = {(const uint8_t *)"", 0};
    size_t exactly = 0, named = 0, other = 0, end = end_of(begin);
    for (size_t k = begin + 1; k < end; k++) {
        const struct part *part = &read.at[k];
        if (part->depth > read.at[begin].depth) continue;
        bool is_number = part->form == EXACTLY && read.at[begin].form != BEGIN_SELECT && model_category(no_rules, part->own) >= 0;
        if (!exactly && is_number && is_equal(part->own, chooser->number)) exactly = k + 1;
        if (part->form != KEYWORD) continue;
        if (!named && is_same(part->own, chooser->keyword, chooser->keyword_len)) named = k + 1;
        if (!other && is_same(part->own, "other", 5)) other = k + 1;
    }
    return exactly ? exactly : named ? named : other ? other : read.length;
}

/* Says the parts from one on, up to the end of their branch. */
static int64_t say_parts(size_t k, struct slice sign) {
    for (; k < read.length; k++) {
        const struct part *part = &read.at[k];
        struct slice inner = sign;
        struct chooser chooser;
        int64_t fault = 0;
        switch (part->form) {
        case TEXT: say(true, part->own); break;
        case HASH: say(true, sign); break;
        case ARGUMENT: fault = say_argument(part->name); break;
        case KEYWORD: case EXACTLY: case END: return 0;
        default:
            fault = choose((enum type)(part->form - BEGIN), part->name, part->own.length ? &part->own : NULL, part->depth, &inner, &chooser);
            if (!fault) fault = say_parts(branch_of(k, &chooser), inner);
            k = end_of(k);
        }
        if (fault) return fault;
    }
    return 0;
}

bool model_is_told(struct slice block) {
    if (model_read_block(block, &read)) return true;
    for (size_t k = 0; k < read.length; k++)
        if (read.at[k].form >= BEGIN && read.at[k].form < BEGIN_SELECT && read.at[k].own.length && !are_digits(read.at[k].own)) return false;
    return true;
}

int64_t model_packed_format(struct slice cardinal, struct slice ordinal, struct slice block, const struct plurals_argument *given,
                            size_t count, uint8_t *out) {
    static const struct slice nothing = {(const uint8_t *)"", 0};
    rules[0] = cardinal, rules[1] = ordinal, arguments = given, arguments_len = count, said = out, said_len = 0;
    int64_t fault = model_check_rules(cardinal);
    if (!fault) fault = model_check_rules(ordinal);
    if (!fault) fault = model_read_block(block, &read);
    for (size_t k = 0; !fault && k < count; k++) fault = argument_fault(&given[k]);
    if (!fault) fault = say_parts(0, nothing);
    return fault ? fault : (int64_t)said_len;
}
