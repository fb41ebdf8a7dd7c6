// The library's exports beside ICU4C's plural rules, gettext's ngettext and C by hand: the same rules, the same numbers, in one program.
// bench/run calls it.
//
//   plurals_bench check RULES CATALOGUES    each category by all sides; the status is 1 if one differs
//   plurals_bench time RULES CATALOGUES     lines `ROW<tab>SIDE<tab>NANOSECONDS`: the least of some samples, the sides in turn
//   plurals_bench count RULES CATALOGUES    for callgrind: of each row and side a dump of some rounds and one of twice as many, each with a
//                                mark `ROW<tab>SIDE<tab>OPERATIONS`, with the operations of the first of them
//
// RULES is a file with a line `LOCALE<tab>CATEGORY<tab>TEXT` for each rule. CATALOGUES is a folder with gettext's catalogue
// en/LC_MESSAGES/LOCALE.mo for each locale, in which the forms of `item` are the names of the categories.
#include <libintl.h>
#include <locale.h>
#include <plurals.h>
#include <unicode/messagepattern.h>
#include <unicode/msgfmt.h>
#include <unicode/numberformatter.h>
#include <unicode/plurrule.h>
#include <valgrind/callgrind.h>

#include "by_hand.h"

#include <algorithm>
#include <chrono>
#include <cstdio>
#include <cstdlib>
#include <fstream>
#include <functional>
#include <iostream>
#include <map>
#include <memory>
#include <sstream>
#include <string>
#include <vector>

namespace {

const std::vector<std::string> kCategories = {"zero", "one", "two", "few", "many", "other"};
constexpr int kRules = 5;

[[noreturn]] void fail(const std::string& what) {
    std::cerr << "plurals_bench: " << what << "\n";
    std::exit(1);
}

// ---- numbers

std::vector<int32_t> integers() {
    std::vector<int32_t> found;
    for (int32_t small = 0; small < 256; small++) found.push_back(small);
    uint64_t state = 1;
    for (int k = 0; k < 256; k++) {
        state = state * 6364136223846793005u + 1442695040888963407u;
        found.push_back(int32_t(state >> 33) >> (k % 24));
    }
    return found;
}

// Decimals of one to nine integer digits and none to four fraction digits, some of which are zeros at the end.
std::vector<std::string> decimals() {
    std::vector<std::string> found;
    std::vector<int32_t> whole = integers();
    for (size_t k = 0; k < whole.size(); k++) {
        std::string text = std::to_string(whole[k] % 1000000000);
        std::string fraction = std::to_string(10000 + whole[whole.size() - 1 - k] % 10000).substr(1, k % 5);
        if (k % 15 == 4) fraction = std::string(fraction.size(), '0');
        found.push_back(fraction.empty() ? text : text + "." + fraction);
    }
    return found;
}

size_t fraction_places(const std::string& text) {
    size_t point = text.find('.');
    return point == std::string::npos ? 0 : text.size() - point - 1;
}

// ---- the two sides of one language

struct Language {
    std::string name;
    std::string texts[kRules];

    std::vector<uint8_t> block, table;
    std::unique_ptr<icu::PluralRules> rules;

    // Reads the rules into a block, as a caller does with a buffer that is large enough, and returns its length.
    int64_t read_block(uint8_t* out, size_t room) const {
        return plurals_rules_from_texts(texts[0].data(), texts[0].size(), texts[1].data(), texts[1].size(), texts[2].data(),
                                        texts[2].size(), texts[3].data(), texts[3].size(), texts[4].data(), texts[4].size(), out,
                                        room);
    }

    // The rules in the one text that ICU4C reads.
    icu::UnicodeString description() const {
        std::string all;
        for (int k = 0; k < kRules; k++)
            if (!texts[k].empty()) all += (all.empty() ? "" : "; ") + kCategories[k] + ": " + texts[k];
        return icu::UnicodeString::fromUTF8(all);
    }

    void read_both() {
        block.resize(65536);
        int64_t length = read_block(block.data(), block.size());
        if (length < 0 || length > int64_t(block.size())) fail("the library doesn't read the rules of " + name);
        block.resize(size_t(length));
        table.resize(PLURALS_TABLE_BYTES);
        if (plurals_table_of_rules(block.data(), block.size(), table.data(), table.size()) != PLURALS_TABLE_BYTES)
            fail("the library makes no table of the rules of " + name);
        UErrorCode status = U_ZERO_ERROR;
        rules.reset(icu::PluralRules::createRules(description(), status));
        if (U_FAILURE(status)) fail("ICU4C doesn't read the rules of " + name);
    }

    Language without_samples() const {
        Language found;
        found.name = name;
        for (int k = 0; k < kRules; k++) found.texts[k] = texts[k].substr(0, texts[k].find('@'));
        return found;
    }
};

std::vector<Language> languages(const std::string& path) {
    std::vector<Language> found;
    std::ifstream file(path);
    for (std::string line; std::getline(file, line);) {
        std::istringstream fields(line);
        std::string locale, category, text;
        std::getline(fields, locale, '\t');
        std::getline(fields, category, '\t');
        std::getline(fields, text);
        if (found.empty() || found.back().name != locale) {
            found.emplace_back();
            found.back().name = locale;
        }
        auto at = std::find(kCategories.begin(), kCategories.begin() + kRules, category) - kCategories.begin();
        if (at < kRules) found.back().texts[at] = text;
    }
    if (found.empty()) fail(path + " has no rules");
    for (auto& it : found) it.read_both();
    return found;
}

// A formatter that writes a decimal with as many fraction digits as its text has: 1.0 stays 1.0.
const icu::number::LocalizedNumberFormatter& formatter(size_t places) {
    static std::map<size_t, icu::number::LocalizedNumberFormatter> found;
    auto at = found.find(places);
    if (at == found.end()) {
        auto made = icu::number::NumberFormatter::withLocale(icu::Locale("en"))
                        .grouping(UNUM_GROUPING_OFF)
                        .precision(icu::number::Precision::fixedFraction(int32_t(places)));
        at = found.emplace(places, made).first;
    }
    return at->second;
}

icu::UnicodeString select_text(const icu::PluralRules& rules, const icu::number::LocalizedNumberFormatter& writer,
                               const std::string& text) {
    UErrorCode status = U_ZERO_ERROR;
    icu::number::FormattedNumber formatted = writer.formatDecimal({text.data(), int32_t(text.size())}, status);
    icu::UnicodeString found = rules.select(formatted, status);
    if (U_FAILURE(status)) fail("ICU4C doesn't read " + text);
    return found;
}

// ---- messages

// A pattern of a language, and ICU4C's locale whose numbers have the digits 0 to 9.
struct Message {
    std::string language, locale, pattern;
};

const std::vector<Message> kMessages = {
    {"en", "en", "{name} sent {count, plural, =0 {no files} one {# file} other {# files}}."},
    {"ru", "ru", "{name}: {count, plural, =0 {нет файлов} one {# файл} few {# файла} many {# файлов} other {# файла}}."},
    {"pl", "pl", "{name}: {count, plural, =0 {brak plików} one {# plik} few {# pliki} many {# plików} other {# pliku}}."},
    {"ar", "ar@numbers=latn",
     "{name}: {count, plural, =0 {لا ملفات} one {ملف واحد} two {ملفان} few {# ملفات} many {# ملفًا} other {# ملف}}."},
};

constexpr int kCounts = 256;

// The texts of 0 to 255.
const std::vector<std::string>& counts() {
    static std::vector<std::string> found;
    for (int number = int(found.size()); number < kCounts; number++) found.push_back(std::to_string(number));
    return found;
}

int64_t said_by_library(const Language& language, const Message& it, const std::string& count, char* out, size_t room) {
    const plurals_argument arguments[] = {{"name", 4, "Ann", 3, PLURALS_TEXT}, {"count", 5, count.data(), count.size(), PLURALS_NUMBER}};
    return plurals_pattern_format(language.block.data(), language.block.size(), nullptr, 0, it.pattern.data(), it.pattern.size(), arguments, 2,
                                  out, room);
}

// Reads the pattern, in which there is an argument that isn't given.
int64_t read_by_library(const Language& language, const Message& it) {
    return plurals_pattern_format(language.block.data(), language.block.size(), nullptr, 0, it.pattern.data(), it.pattern.size(), nullptr, 0,
                                  nullptr, 0);
}

std::unique_ptr<icu::MessageFormat> read_by_icu4c(const Message& it) {
    UErrorCode status = U_ZERO_ERROR;
    auto found = std::make_unique<icu::MessageFormat>(icu::UnicodeString::fromUTF8(it.pattern), icu::Locale(it.locale.c_str()), status);
    if (U_FAILURE(status)) fail("ICU4C doesn't read " + it.pattern);
    return found;
}

icu::UnicodeString said_by_icu4c(const icu::MessageFormat& format, int32_t count) {
    static const icu::UnicodeString names[] = {u"name", u"count"};
    UErrorCode status = U_ZERO_ERROR;
    icu::Formattable values[] = {icu::Formattable(icu::UnicodeString(u"Ann")), icu::Formattable(count)};
    icu::UnicodeString found;
    format.format(names, values, 2, found, status);
    if (U_FAILURE(status)) fail("ICU4C says nothing of " + std::to_string(count));
    return found;
}

const Language& language_of(const std::vector<Language>& all, const Message& message) {
    for (const auto& it : all)
        if (it.name == message.language) return it;
    fail("there are no rules of " + message.language);
}

// ---- packed patterns

// The arguments of one saying of a message, made for both sides before it is said.
struct Saying {
    std::vector<plurals_argument> ours;
    std::vector<icu::Formattable> theirs;
};

// A message that both sides hold ready: the block of its pattern, and ICU4C's object.
struct Ready {
    std::string row;
    const Language* language;
    std::vector<uint8_t> block;
    std::unique_ptr<icu::MessageFormat> format;
    std::vector<icu::UnicodeString> names;
    std::vector<Saying> sayings;
};

const std::vector<Message> kSelects = {
    {"en", "en", "{who, select, female {She sent a file.} male {He sent a file.} other {They sent a file.}}"},
};
const std::vector<Message> kTexts = {{"en", "en", "{name} sent {file} to you."}};

// An argument that is a text. The text stays where it is.
void add_text(Saying& it, const char* name, const std::string& text) {
    it.ours.push_back({name, std::char_traits<char>::length(name), text.data(), text.size(), PLURALS_TEXT});
    it.theirs.push_back(icu::Formattable(icu::UnicodeString::fromUTF8(text)));
}

void add_number(Saying& it, const char* name, const std::string& number) {
    it.ours.push_back({name, std::char_traits<char>::length(name), number.data(), number.size(), PLURALS_NUMBER});
    it.theirs.push_back(icu::Formattable(int32_t(std::stoi(number))));
}

Ready ready_message(const std::string& row, const Language& language, const Message& it, std::vector<Saying> sayings) {
    Ready found{row + ", " + it.language, &language, std::vector<uint8_t>(65536), read_by_icu4c(it), {}, std::move(sayings)};
    int64_t length = plurals_pattern_pack(it.pattern.data(), it.pattern.size(), found.block.data(), found.block.size());
    if (length < 0 || length > int64_t(found.block.size())) fail("the library doesn't pack " + it.pattern);
    found.block.resize(size_t(length));
    for (const auto& argument : found.sayings[0].ours) found.names.push_back(icu::UnicodeString::fromUTF8({argument.name, int32_t(argument.name_len)}));
    return found;
}

// The messages of the rows of packed patterns: plurals of 0 to 255, a select, text with two arguments.
std::vector<Ready> ready_messages(const std::vector<Language>& all) {
    static const std::vector<std::string> kWho = {"female", "male", "other", "nobody"};
    static const std::string kName = "Ann", kFile = "notes.txt";
    std::vector<Ready> found;
    for (const auto& it : kMessages) {
        std::vector<Saying> sayings(kCounts);
        for (size_t count = 0; count < sayings.size(); count++) {
            add_text(sayings[count], "name", kName);
            add_number(sayings[count], "count", counts()[count]);
        }
        found.push_back(ready_message("a packed plural", language_of(all, it), it, std::move(sayings)));
    }
    for (const auto& it : kSelects) {
        std::vector<Saying> sayings(kWho.size());
        for (size_t k = 0; k < sayings.size(); k++) add_text(sayings[k], "who", kWho[k]);
        found.push_back(ready_message("a packed select", language_of(all, it), it, std::move(sayings)));
    }
    for (const auto& it : kTexts) {
        std::vector<Saying> sayings(1);
        add_text(sayings[0], "name", kName);
        add_text(sayings[0], "file", kFile);
        found.push_back(ready_message("packed text with two arguments", language_of(all, it), it, std::move(sayings)));
    }
    return found;
}

int64_t packed_by_library(const Ready& it, const Saying& saying, char* out, size_t room) {
    return plurals_packed_format(it.language->block.data(), it.language->block.size(), nullptr, 0, it.block.data(), it.block.size(),
                                 saying.ours.data(), saying.ours.size(), out, room);
}

icu::UnicodeString kept_by_icu4c(const Ready& it, const Saying& saying) {
    UErrorCode status = U_ZERO_ERROR;
    icu::UnicodeString found;
    it.format->format(it.names.data(), saying.theirs.data(), int32_t(it.names.size()), found, status);
    if (U_FAILURE(status)) fail("ICU4C says nothing of " + it.row);
    return found;
}

// ---- agreement

int category_number(const icu::UnicodeString& keyword) {
    std::string name;
    keyword.toUTF8String(name);
    return int(std::find(kCategories.begin(), kCategories.end(), name) - kCategories.begin());
}

struct Agreement {
    int compared = 0, different = 0;

    void compare(const std::string& language, const std::string& number, int ours, int theirs) {
        compared++;
        if (ours == theirs) return;
        different++;
        std::cerr << language << " " << number << ": " << ours << " by the library, " << theirs << " by another side\n";
    }
};

const char* by_gettext(const std::string& language, int32_t number) {
    return dngettext(language.c_str(), "item", "items", static_cast<unsigned long>(number));
}

// The function that is written by hand for a language, or null.
int (*by_hand(const std::string& language))(uint64_t) {
    return language == "en" ? by_hand_en : language == "ru" ? by_hand_ru : language == "ar" ? by_hand_ar : nullptr;
}

// Compares the sides that take no rules.
void check_others(const Language& it, Agreement& found) {
    for (int32_t number : integers()) {
        int ours = plurals_category_of_integer(it.block.data(), it.block.size(), uint64_t(number));
        found.compare(it.name, std::to_string(number), ours, category_number(by_gettext(it.name, number)));
        if (by_hand(it.name)) found.compare(it.name, std::to_string(number), ours, by_hand(it.name)(uint64_t(number)));
    }
}

// The messages that were compared, and those that differ.
struct Texts {
    int compared = 0, different = 0;

    void compare(const std::string& what, const char* ours, int64_t length, const icu::UnicodeString& said) {
        std::string text(ours, length < 0 ? 0 : size_t(length)), theirs;
        said.toUTF8String(theirs);
        compared++;
        if (text == theirs) return;
        different++;
        std::cerr << what << ": " << text << " by the library, " << theirs << " by ICU4C\n";
    }
};

// Compares the texts of messages; returns how many differ.
int check_messages(const std::vector<Language>& all) {
    Texts found;
    char room[1024];
    for (const auto& it : kMessages) {
        auto format = read_by_icu4c(it);
        for (int count = 0; count < kCounts; count++) {
            int64_t length = said_by_library(language_of(all, it), it, counts()[size_t(count)], room, sizeof room);
            found.compare(it.language + " " + std::to_string(count), room, length, said_by_icu4c(*format, count));
        }
    }
    for (const auto& it : ready_messages(all))
        for (const auto& saying : it.sayings) found.compare(it.row, room, packed_by_library(it, saying, room, sizeof room), kept_by_icu4c(it, saying));
    std::cout << found.compared << " messages, " << found.different << " differ\n";
    return found.different;
}

int check(const std::vector<Language>& all) {
    Agreement found;
    for (const auto& it : all) {
        const uint8_t* block = it.block.data();
        for (int32_t number : integers()) {
            int theirs = category_number(it.rules->select(number));
            found.compare(it.name, std::to_string(number), plurals_category_of_integer(block, it.block.size(), uint64_t(number)), theirs);
            found.compare(it.name, std::to_string(number), plurals_category_by_table(it.table.data(), it.table.size(), uint64_t(number)),
                          theirs);
        }
        for (const auto& text : decimals())
            found.compare(it.name, text, plurals_category(block, it.block.size(), text.data(), text.size()),
                          category_number(select_text(*it.rules, formatter(fraction_places(text)), text)));
    }
    for (const auto& it : all) check_others(it, found);
    std::cout << "ICU4C " U_ICU_VERSION ": " << found.compared << " categories, " << found.different << " differ\n";
    return (check_messages(all) != 0 || found.different) ? 1 : 0;
}

// ---- rows

// One row: what a round of each side does, and how many operations that is. A round returns a sum, so that none of it is left out.
// A row need not have the other sides.
struct Row {
    std::string name;
    size_t operations;
    std::function<long()> library, icu4c, gettext = nullptr, hand = nullptr;
};

struct Decimal {
    std::string text;
    const icu::number::LocalizedNumberFormatter* writer;
};

std::vector<Row> rows(const std::vector<Language>& all) {
    static const std::vector<int32_t> whole = integers();
    static std::vector<Decimal> written;
    for (const auto& text : decimals()) written.push_back({text, &formatter(fraction_places(text))});
    std::vector<Row> found;
    for (const auto& it : all) {
        auto library = [&it] {
            long sum = 0;
            for (int32_t number : whole) sum += plurals_category_of_integer(it.block.data(), it.block.size(), uint64_t(number));
            return sum;
        };
        auto icu4c = [&it] {
            long sum = 0;
            for (int32_t number : whole) sum += it.rules->select(number).length();
            return sum;
        };
        found.push_back({"category of an integer, " + it.name, whole.size(), library, icu4c});
    }
    for (const auto& it : all) {
        auto icu4c = [&it] {
            long sum = 0;
            for (int32_t number : whole) sum += it.rules->select(number).length();
            return sum;
        };
        auto by_table = [&it] {
            long sum = 0;
            for (int32_t number : whole) sum += plurals_category_by_table(it.table.data(), it.table.size(), uint64_t(number));
            return sum;
        };
        auto compiled = [&it] {
            long sum = 0;
            for (int32_t number : whole) sum += plurals_category_by_table_inline(it.table.data(), it.table.size(), uint64_t(number));
            return sum;
        };
        auto at_once = [&it] {
            static const std::vector<uint64_t> numbers(whole.begin(), whole.end());
            static std::vector<uint8_t> out(whole.size());
            return long(plurals_categories_of_integers(it.block.data(), it.block.size(), numbers.data(), numbers.size(), out.data(), out.size()));
        };
        auto made = [&it] {
            uint8_t out[PLURALS_TABLE_BYTES];
            return long(plurals_table_of_rules(it.block.data(), it.block.size(), out, sizeof out));
        };
        found.push_back({"category of an integer by a table, " + it.name, whole.size(), by_table, icu4c});
        found.push_back({"the same, compiled with the caller, " + it.name, whole.size(), compiled, icu4c});
        found.push_back({"one of 512 integers at once, " + it.name, whole.size(), at_once, icu4c});
        found.push_back({"a table made, " + it.name, 1, made, nullptr});
    }
    for (const auto& it : all) {
        auto library = [&it] { return long(plurals_check_rules(it.block.data(), it.block.size())); };
        found.push_back({"of that: the block checked, " + it.name, 1, library, nullptr});
    }
    for (const auto& it : all) {
        auto library = [&it] {
            long sum = 0;
            for (const auto& number : written)
                sum += plurals_category(it.block.data(), it.block.size(), number.text.data(), number.text.size());
            return sum;
        };
        auto icu4c = [&it] {
            long sum = 0;
            for (const auto& number : written) sum += select_text(*it.rules, *number.writer, number.text).length();
            return sum;
        };
        found.push_back({"category of a decimal's text, " + it.name, written.size(), library, icu4c});
    }
    for (bool is_whole : {true, false}) {
        for (const auto& it : all) {
            auto read = std::make_shared<Language>(it.without_samples());
            if (is_whole) std::copy(it.texts, it.texts + kRules, read->texts);
            auto description = std::make_shared<icu::UnicodeString>(read->description());
            auto library = [read] {
                static uint8_t out[65536];
                return long(read->read_block(out, sizeof out));
            };
            auto icu4c = [description] {
                UErrorCode status = U_ZERO_ERROR;
                std::unique_ptr<icu::PluralRules> rules(icu::PluralRules::createRules(*description, status));
                return long(rules != nullptr);
            };
            found.push_back({std::string("rules read, ") + (is_whole ? "with samples, " : "conditions alone, ") + it.name, 1, library, icu4c});
        }
    }
    return found;
}

// Rows of messages.
std::vector<Row> with_messages(std::vector<Row> all, const std::vector<Language>& languages) {
    static char room[1024];
    for (const auto& it : kMessages) {
        const Language& language = language_of(languages, it);
        auto text = std::make_shared<icu::UnicodeString>(icu::UnicodeString::fromUTF8(it.pattern));
        auto library = [&language, &it] { return long(read_by_library(language, it)); };
        auto icu4c = [text] {
            UErrorCode status = U_ZERO_ERROR;
            return long(icu::MessagePattern(*text, nullptr, status).countParts());
        };
        all.push_back({"a pattern read, " + it.language, 1, library, icu4c});
    }
    for (bool is_read : {true, false}) {
        for (const auto& it : kMessages) {
            const Language& language = language_of(languages, it);
            std::shared_ptr<icu::MessageFormat> format = read_by_icu4c(it);
            int most = is_read ? kCounts : 16;
            auto library = [&language, &it, most] {
                long sum = 0;
                for (int count = 0; count < most; count++) sum += said_by_library(language, it, counts()[size_t(count)], room, sizeof room);
                return sum;
            };
            auto icu4c = [format, is_read, most, &it] {
                long sum = 0;
                for (int count = 0; count < most; count++) sum += said_by_icu4c(is_read ? *format : *read_by_icu4c(it), count).length();
                return sum;
            };
            all.push_back({std::string("a message, ") + (is_read ? "" : "read anew by both, ") + it.language, size_t(most), library, icu4c});
        }
    }
    return all;
}

// Rows of packed patterns.
std::vector<Row> with_packed(std::vector<Row> all, const std::vector<Language>& languages) {
    static char room[1024];
    static const std::vector<Ready> ready = ready_messages(languages);
    for (const auto& it : ready) {
        auto library = [&it] {
            long sum = 0;
            for (const auto& saying : it.sayings) sum += packed_by_library(it, saying, room, sizeof room);
            return sum;
        };
        auto icu4c = [&it] {
            long sum = 0;
            for (const auto& saying : it.sayings) sum += kept_by_icu4c(it, saying).length();
            return sum;
        };
        all.push_back({it.row, it.sayings.size(), library, icu4c});
    }
    for (const auto& it : ready) {
        auto library = [&it] { return long(plurals_pattern_check(it.block.data(), it.block.size())); };
        all.push_back({"of that: the block checked: " + it.row, 1, library, nullptr});
    }
    return all;
}

// Adds the sides that take no rules to the rows of integers.
std::vector<Row> with_others(std::vector<Row> all, const std::vector<Language>& languages) {
    static const std::vector<int32_t> whole = integers();
    for (const auto& it : languages) {
        auto row = std::find_if(all.begin(), all.end(), [&it](const Row& one) { return one.name == "category of an integer, " + it.name; });
        if (row == all.end()) fail("there is no row of integers");
        row->gettext = [&it] {
            long sum = 0;
            for (int32_t number : whole) sum += by_gettext(it.name, number)[0];
            return sum;
        };
        if (!by_hand(it.name)) continue;
        row->hand = [function = by_hand(it.name)] {
            long sum = 0;
            for (int32_t number : whole) sum += function(uint64_t(number));
            return sum;
        };
    }
    return all;
}

// ---- measures

volatile long sink;

double seconds(const std::function<long()>& round, long rounds) {
    auto start = std::chrono::steady_clock::now();
    for (long k = 0; k < rounds; k++) sink = round();
    return std::chrono::duration<double>(std::chrono::steady_clock::now() - start).count();
}

// How many rounds take at least a millisecond.
long rounds_of(const std::function<long()>& round) {
    long rounds = 1;
    while (seconds(round, rounds) < 0.001) rounds *= 2;
    return rounds;
}

struct Side {
    const char* name;
    std::function<long()> round;
    long rounds = 0;
    double least = 1e9;
};

int time_rows(const std::vector<Row>& all) {
    constexpr int kSamples = 100;
    for (const auto& it : all) {
        std::vector<Side> sides;
        sides.push_back({"library", it.library});
        if (it.icu4c) sides.push_back({"icu4c", it.icu4c});
        if (it.gettext) sides.push_back({"gettext", it.gettext});
        if (it.hand) sides.push_back({"hand", it.hand});
        for (auto& side : sides) side.rounds = rounds_of(side.round);
        for (int sample = 0; sample < kSamples; sample++)
            for (auto& side : sides) side.least = std::min(side.least, seconds(side.round, side.rounds) / double(side.rounds));
        for (const auto& side : sides)
            std::printf("%s\t%s\t%.2f\n", it.name.c_str(), side.name, side.least * 1e9 / double(it.operations));
    }
    return 0;
}

void count_side(const Row& row, const char* side, const std::function<long()>& round) {
    constexpr int kRounds = 20;
    for (int warm = 0; warm < 5; warm++) sink = round();
    std::string mark = row.name + "\t" + side + "\t" + std::to_string(row.operations * kRounds);
    for (int rounds : {kRounds, 2 * kRounds}) {
        CALLGRIND_ZERO_STATS;
        for (int k = 0; k < rounds; k++) sink = round();
        CALLGRIND_DUMP_STATS_AT(mark.c_str());
    }
}

int count_rows(const std::vector<Row>& all) {
    for (const auto& it : all) {
        count_side(it, "library", it.library);
        if (it.icu4c) count_side(it, "icu4c", it.icu4c);
        if (it.gettext) count_side(it, "gettext", it.gettext);
        if (it.hand) count_side(it, "hand", it.hand);
    }
    return 0;
}

}  // namespace

int main(int count, char** words) {
    if (count != 4) fail("three words are needed: check, time or count, a file of rules, a folder of catalogues");
    std::string word = words[1];
    std::vector<Language> all = languages(words[2]);
    // gettext looks for the catalogues of this language alone, whatever the domain is called.
    setenv("LANGUAGE", "en", 1);
    if (!setlocale(LC_ALL, "C.UTF-8")) fail("there is no locale C.UTF-8");
    for (const auto& it : all)
        if (!bindtextdomain(it.name.c_str(), words[3])) fail("gettext takes no folder of catalogues");
    if (word == "check") return check(all);
    if (word == "time") return time_rows(with_packed(with_messages(with_others(rows(all), all), all), all));
    if (word == "count") return count_rows(with_packed(with_messages(with_others(rows(all), all), all), all));
    fail("the first word is check, time or count");
}
