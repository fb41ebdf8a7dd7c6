// ICU4C's side of `tools/peers patterns` and `tools/peers formats`: reads lines, and prints a line for each. Texts are UTF-8 in
// hexadecimal digits.
//
//   parse<tab>PATTERN                            prints `parts` and the parts of MessagePattern, or `refused` and ICU4C's name of the error
//   format<tab>LOCALE<tab>PATTERN[<tab>ARGUMENT]..    prints `text` and what MessageFormat writes, or `refused` and the error
//
// A part is its type's number, its first unit, its length and its value, with colons between. An ARGUMENT is NAME=nNUMBER or NAME=sTEXT;
// a number stands as it is written, as 12.5, and is given to ICU4C as a decimal.
#include <unicode/messagepattern.h>
#include <unicode/msgfmt.h>

#include <cstdlib>
#include <iostream>
#include <string>
#include <vector>

using icu::Formattable;
using icu::MessagePattern;
using icu::UnicodeString;

namespace {

[[noreturn]] void fail(const std::string& what) {
    std::cerr << "peers/icu4c_messages: " << what << "\n";
    std::exit(1);
}

std::string bytes_of(const std::string& digits) {
    std::string found;
    for (size_t at = 0; at + 1 < digits.size(); at += 2) found += char(std::stoi(digits.substr(at, 2), nullptr, 16));
    return found;
}

UnicodeString text_of(const std::string& digits) { return UnicodeString::fromUTF8(bytes_of(digits)); }

std::string digits_of(const UnicodeString& text) {
    std::string bytes, found;
    text.toUTF8String(bytes);
    for (unsigned char it : bytes) {
        found += "0123456789abcdef"[it >> 4];
        found += "0123456789abcdef"[it & 15];
    }
    return found;
}

std::vector<std::string> fields(const std::string& line) {
    std::vector<std::string> found;
    for (size_t from = 0;;) {
        size_t tab = line.find('\t', from);
        found.push_back(line.substr(from, tab - from));
        if (tab == std::string::npos) return found;
        from = tab + 1;
    }
}

std::string refused(UErrorCode status) { return std::string("refused ") + u_errorName(status); }

std::string parsed(const UnicodeString& text) {
    UErrorCode status = U_ZERO_ERROR;
    UParseError place;
    MessagePattern pattern(text, &place, status);
    if (U_FAILURE(status)) return refused(status);
    std::string found = "parts";
    for (int32_t at = 0; at < pattern.countParts(); at++) {
        const MessagePattern::Part& it = pattern.getPart(at);
        found += " " + std::to_string(it.getType()) + ":" + std::to_string(it.getIndex()) + ":" + std::to_string(it.getLength()) + ":" +
                 std::to_string(it.getValue());
    }
    return found;
}

Formattable value_of(const std::string& text) {
    UErrorCode status = U_ZERO_ERROR;
    Formattable found = text[0] == 's' ? Formattable(text_of(text.substr(1))) : Formattable(icu::StringPiece(text.c_str() + 1), status);
    if (U_FAILURE(status)) fail("it takes no number " + text);
    return found;
}

std::string formatted(const std::vector<std::string>& words) {
    UErrorCode status = U_ZERO_ERROR;
    UParseError place;
    icu::MessageFormat format(text_of(words[2]), icu::Locale(words[1].c_str()), place, status);
    std::vector<UnicodeString> names;
    std::vector<Formattable> values;
    for (size_t at = 3; at < words.size(); at++) {
        size_t mark = words[at].find('=');
        names.push_back(text_of(words[at].substr(0, mark)));
        values.push_back(value_of(words[at].substr(mark + 1)));
    }
    if (U_FAILURE(status)) return refused(status);
    UnicodeString found;
    format.format(names.data(), values.data(), int32_t(names.size()), found, status);
    return U_FAILURE(status) ? refused(status) : "text " + digits_of(found);
}

}  // namespace

int main() {
    std::ios::sync_with_stdio(false);
    for (std::string line; std::getline(std::cin, line);) {
        std::vector<std::string> words = fields(line);
        if (words[0] == "parse" && words.size() == 2) {
            std::cout << parsed(text_of(words[1])) << "\n";
        } else if (words[0] == "format" && words.size() >= 3) {
            std::cout << formatted(words) << "\n";
        } else {
            fail("the line begins with " + words[0]);
        }
    }
    std::cout.flush();
}
