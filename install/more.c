/* The calls of plurals.h that are in the installed library alone. They aren't proved. */
#include <plurals.h>

const char *plurals_version(void) { return PLURALS_VERSION; }

const char *plurals_category_name(int32_t category) {
    switch (category) {
    case PLURALS_ZERO: return "zero";
    case PLURALS_ONE: return "one";
    case PLURALS_TWO: return "two";
    case PLURALS_FEW: return "few";
    case PLURALS_MANY: return "many";
    case PLURALS_OTHER: return "other";
    default: return NULL;
    }
}

const char *plurals_fault_text(int64_t fault) {
    switch (fault) {
    case PLURALS_MEMORY: return "out of memory";
    case PLURALS_UTF8: return "a text isn't UTF-8";
    case PLURALS_TYPE: return "the type of rules is neither cardinal nor ordinal";

    case PLURALS_NUMBER_SYNTAX: return "the text isn't a number";
    case PLURALS_NUMBER_LIMIT: return "the number is over a limit";
    case PLURALS_OUTSIDE_BOUND: return "the number is outside the exactness bound of the rules";

    case PLURALS_TEXT_EXPECTED_AND_CONDITION: return "the rule's text ends after \"or\"";
    case PLURALS_TEXT_EXPECTED_RELATION: return "the rule's text ends after \"and\"";
    case PLURALS_TEXT_EXPECTED_OPERATOR: return "the rule's text lacks \"=\" or \"!=\"";
    case PLURALS_TEXT_EXPECTED_OPERAND: return "the rule's text lacks an operand";
    case PLURALS_TEXT_EXPECTED_VALUE: return "the rule's text lacks a number";
    case PLURALS_TEXT_EXPECTED_SAMPLE_TYPE: return "the rule's text lacks \"integer\" or \"decimal\" after \"@\"";
    case PLURALS_TEXT_VALUE_TOO_LARGE: return "the rule's text has a value above 4294967295";
    case PLURALS_TEXT_START_LIMIT: return "the rule is too long";

    case PLURALS_RULES_LIST_HEADER: return "the block of rules: its head is cut off";
    case PLURALS_RULES_LIST_ZERO_COUNT: return "the block of rules counts no item, and isn't empty";
    case PLURALS_RULES_LIST_START: return "the block of rules: an item has a wrong start";
    case PLURALS_RULES_ITEM_EMPTY: return "the block of rules: an item is empty";
    case PLURALS_RULES_KEY: return "the block of rules: an item has a wrong key";
    case PLURALS_RULES_RULE_LIST_HEADER: return "a rule of the block: its head is cut off";
    case PLURALS_RULES_RULE_LIST_ZERO_COUNT: return "a rule of the block counts no relation, and isn't empty";
    case PLURALS_RULES_RULE_LIST_START: return "a rule of the block: a relation has a wrong start";
    case PLURALS_RULES_RULE_ITEM_LENGTH: return "a rule of the block: a relation has a wrong length";
    case PLURALS_RULES_RULE_OPERAND: return "a rule of the block: a relation has no operand";
    case PLURALS_RULES_LIMIT: return "the rules are too long for one block";

    case PLURALS_ELEMENTS_EMPTY: return "the block of elements is empty";
    case PLURALS_ELEMENTS_SHORT: return "the block of elements: its default is cut off";
    case PLURALS_ELEMENTS_PADDING: return "the block of elements: a padding bit is set";
    case PLURALS_ELEMENTS_DEFAULT_TEXT: return "the block of elements: its default isn't UTF-8";
    case PLURALS_ELEMENTS_LIST_HEADER: return "the block of elements: the head of its list is cut off";
    case PLURALS_ELEMENTS_LIST_ZERO_COUNT: return "the block of elements: its list counts no item, and isn't empty";
    case PLURALS_ELEMENTS_LIST_START: return "the block of elements: an item has a wrong start";
    case PLURALS_ELEMENTS_ITEM_EMPTY: return "the block of elements: an item is empty";
    case PLURALS_ELEMENTS_KEY: return "the block of elements: an item has a wrong key";
    case PLURALS_ELEMENTS_ITEM_TEXT: return "the block of elements: an item isn't UTF-8";
    case PLURALS_ELEMENTS_DEFAULT_LIMIT: return "the elements: the default's text is above 255 bytes beside others";
    case PLURALS_ELEMENTS_START_LIMIT: return "the elements are too long for one block";

    case PLURALS_JSON: return "the text isn't JSON";
    case PLURALS_DOCUMENT_FLOAT: return "the JSON has a number that isn't an integer of 64 bits";
    case PLURALS_DOCUMENT_SHAPE: return "the JSON has a value of another kind than its place asks for";
    case PLURALS_DOCUMENT_RANGE_KEY: return "the document has a key that names no range";
    case PLURALS_DOCUMENT_RANGE_VALUE: return "the document has a range whose value names no category";
    case PLURALS_LOCALE: return "the document has no rules of the type, or no ranges, for the locale";
    case PLURALS_TABLE_LENGTH: return "the table of categories isn't of 236 bytes";

    case PLURALS_PATTERN_UNCLOSED: return "the pattern: a brace isn't closed";
    case PLURALS_PATTERN_EXPECTED_NAME: return "the pattern lacks the name of an argument";
    case PLURALS_PATTERN_BAD_NUMBER: return "the pattern: the number of an argument begins with a zero";
    case PLURALS_PATTERN_EXPECTED_END: return "the pattern lacks \",\" or \"}\"";
    case PLURALS_PATTERN_EXPECTED_TYPE: return "the pattern lacks the type of an argument";
    case PLURALS_PATTERN_UNSUPPORTED_TYPE: return "the pattern: a type is none of plural, selectordinal and select";
    case PLURALS_PATTERN_EXPECTED_STYLE: return "the pattern lacks \",\" before the branches";
    case PLURALS_PATTERN_EXPECTED_OFFSET: return "the pattern lacks the digits of an offset";
    case PLURALS_PATTERN_EXPECTED_SELECTOR: return "the pattern lacks a selector";
    case PLURALS_PATTERN_EXPECTED_VALUE: return "the pattern lacks a number after \"=\"";
    case PLURALS_PATTERN_EXPECTED_BRANCH: return "the pattern lacks \"{\" after a selector";
    case PLURALS_PATTERN_MISSING_OTHER: return "the pattern: an argument has no branch \"other\"";
    case PLURALS_PATTERN_TOO_DEEP: return "the pattern: branches are nested too deep";

    case PLURALS_ARGUMENT_MISSING: return "no argument has the name";
    case PLURALS_ARGUMENT_WRONG_KIND: return "an argument is of the wrong kind";
    case PLURALS_ARGUMENT_NOT_A_NUMBER: return "an argument isn't a number";
    case PLURALS_ARGUMENT_OVER_LIMIT: return "an argument is over a limit";
    case PLURALS_ARGUMENT_COMPACT_OFFSET: return "an offset from a compact number";
    case PLURALS_ARGUMENT_KIND: return "the kind of an argument is neither number nor text";

    case PLURALS_PACKED_LIST_HEADER: return "the block of a pattern: its head is cut off";
    case PLURALS_PACKED_LIST_ZERO_COUNT: return "the block of a pattern counts no item, and isn't empty";
    case PLURALS_PACKED_LIST_START: return "the block of a pattern: an item has a wrong start";
    case PLURALS_PACKED_PART: return "the block of a pattern: an item is no part";
    case PLURALS_PACKED_PLACE: return "the block of a pattern: a part has a wrong place";
    case PLURALS_PACKED_ORDER: return "the block of a pattern: a part stands where it may not";

    case PLURALS_PACKING_COUNT_LIMIT: return "the pattern has too many parts for a block";
    case PLURALS_PACKING_PART: return "the pattern has a name that is too long for a block";
    case PLURALS_PACKING_ORDER: return "the pattern has a part that stands where it may not";
    case PLURALS_PACKING_START_LIMIT: return "the pattern is too long for one block";

    case PLURALS_CATALOG_HEADER: return "the catalogue: its head is cut off";
    case PLURALS_CATALOG_LENGTH: return "the catalogue has another length";
    case PLURALS_CATALOG_END: return "the catalogue: a key or a block has a wrong end";
    case PLURALS_CATALOG_ORDER: return "the catalogue: a key is out of order";
    case PLURALS_NO_KEY: return "no message has the key";

    case PLURALS_MESSAGES_NO_LOCALE: return "the document of messages has no locale";
    case PLURALS_MESSAGES_SEVERAL_LOCALES: return "the document has messages of several locales, and none is named";
    case PLURALS_MESSAGES_ABSENT_LOCALE: return "the document has no messages for the locale";
    case PLURALS_MESSAGES_CARDINAL_FORMS: return "the locale has cardinal messages as forms, which aren't packed";
    case PLURALS_MESSAGES_ORDINAL_FORMS: return "the locale has ordinal messages as forms, which aren't packed";
    case PLURALS_MESSAGES_NO_PATTERNS: return "the locale has no patterns";
    case PLURALS_ENTRIES_TOO_MANY: return "the catalogue has too many messages";
    case PLURALS_ENTRIES_ORDER: return "the catalogue: a key isn't above the one before";
    case PLURALS_ENTRIES_TOO_LONG: return "the catalogue is too long";
    default: return NULL;
    }
}
