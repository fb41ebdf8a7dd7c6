// ICU4C's side of tools/peers: reads lines, and prints a line for each.
//
//   rules<tab>DESCRIPTION    rules as PluralRules::createRules reads them; prints `read`, or `refused` and ICU4C's name of the error
//   number<tab>TEXT          a number as it is written, as 12.50 or 1.2c6; prints its category under the last rules that were read
//
// A number is formatted so that it shows exactly the digits that are written, leading zeros aside; c is the exponent of scientific or of
// engineering notation. A number that can't be shown so ends the program with status 1.
#include <unicode/numberformatter.h>
#include <unicode/plurrule.h>

#include <cstdlib>
#include <iostream>
#include <map>
#include <memory>
#include <string>
#include <utility>

using icu::number::FormattedNumber;
using icu::number::LocalizedNumberFormatter;
using icu::number::Notation;
using icu::number::NumberFormatter;
using icu::number::Precision;

namespace {

enum class Form { kPlain, kScientific, kEngineering };

[[noreturn]] void fail(const std::string& what) {
    std::cerr << "peers/icu4c: " << what << "\n";
    std::exit(1);
}

std::string utf8(const icu::UnicodeString& text) {
    std::string found;
    text.toUTF8String(found);
    return found;
}

// A formatter that writes a number with so many fraction digits.
const LocalizedNumberFormatter& formatter(Form form, int32_t places) {
    static std::map<std::pair<Form, int32_t>, LocalizedNumberFormatter> found;
    auto at = found.find({form, places});
    if (at != found.end()) return at->second;
    auto made = NumberFormatter::withLocale(icu::Locale("en")).grouping(UNUM_GROUPING_OFF).precision(Precision::fixedFraction(places));
    if (form == Form::kScientific) made = made.notation(Notation::scientific());
    if (form == Form::kEngineering) made = made.notation(Notation::engineering());
    return found.emplace(std::pair(form, places), made).first->second;
}

// How FormattedNumber has to show a number that is written so.
std::string shown(std::string text) {
    bool is_negative = text[0] == '-';
    if (is_negative) text.erase(0, 1);
    size_t first = text.find_first_not_of('0');
    text.erase(0, first == std::string::npos || text[first] == '.' ? std::min(first, text.size()) - 1 : first);
    size_t mark = text.find('c');
    if (mark != std::string::npos) text[mark] = 'E';
    return (is_negative ? "-" : "") + text;
}

FormattedNumber formatted(const std::string& text) {
    size_t mark = text.find('c');
    std::string significand = text.substr(0, mark);
    size_t point = significand.find('.');
    size_t whole = std::min(point, significand.size()) - (text[0] == '-');
    Form form = mark == std::string::npos ? Form::kPlain : whole == 1 ? Form::kScientific : Form::kEngineering;
    int32_t places = point == std::string::npos ? 0 : int32_t(significand.size() - point - 1);
    std::string read = form == Form::kPlain ? text : significand + "E" + text.substr(mark + 1);
    UErrorCode status = U_ZERO_ERROR;
    FormattedNumber made = formatter(form, places).formatDecimal(read, status);
    std::string found = utf8(made.toString(status));
    if (U_FAILURE(status)) fail("it doesn't format " + text);
    if (found != shown(text)) fail("it shows " + text + " as " + found);
    return made;
}

}  // namespace

int main() {
    std::ios::sync_with_stdio(false);
    std::unique_ptr<icu::PluralRules> rules;
    for (std::string line; std::getline(std::cin, line);) {
        size_t tab = line.find('\t');
        std::string word = line.substr(0, tab), text = line.substr(tab + 1);
        UErrorCode status = U_ZERO_ERROR;
        if (word == "rules") {
            std::unique_ptr<icu::PluralRules> made(icu::PluralRules::createRules(icu::UnicodeString::fromUTF8(text), status));
            if (U_SUCCESS(status)) rules = std::move(made);
            std::cout << (U_SUCCESS(status) ? "read" : std::string("refused ") + u_errorName(status)) << "\n";
        } else if (word == "number" && rules) {
            FormattedNumber number = formatted(text);
            std::string category = utf8(rules->select(number, status));
            if (U_FAILURE(status)) fail("it chooses no category for " + text);
            std::cout << category << "\n";
        } else {
            fail("the line begins with " + word);
        }
    }
    std::cout.flush();
}
