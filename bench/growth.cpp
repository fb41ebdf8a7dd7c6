// Calls of the library with one input each, for callgrind: bench/run --growth.
//
//   growth FILE    a file with a line `ROW<tab>SIZE<tab>CALL<tab>PATH` for each input; PATH is a file with the bytes of it
//
// Of each call there is a dump with the mark `ROW<tab>SIZE`.
#include <plurals.h>
#include <valgrind/callgrind.h>

#include <cstdlib>
#include <fstream>
#include <functional>
#include <iostream>
#include <iterator>
#include <map>
#include <sstream>
#include <string>
#include <vector>

namespace {

using Bytes = std::vector<uint8_t>;

[[noreturn]] void fail(const std::string& what) {
    std::cerr << "growth: " << what << "\n";
    std::exit(1);
}

int64_t rules_of(const std::string& one, Bytes& out) {
    return plurals_rules_from_texts("", 0, one.data(), one.size(), "", 0, "", 0, "", 0, out.data(), out.size());
}

int64_t elements_of(const std::string& other, Bytes& out) {
    return plurals_elements_from_texts(other.data(), other.size(), "", 0, "", 0, "", 0, "", 0, "", 0, "", 0, "", 0, out.data(), out.size());
}

// The block that a call writes.
Bytes block_of(int64_t (*call)(const std::string&, Bytes&), const std::string& text) {
    Bytes out(text.size() + 65536);
    int64_t length = call(text, out);
    if (length < 0 || length > int64_t(out.size())) fail("no block is made");
    out.resize(size_t(length));
    return out;
}

// What is measured of an input. What it needs besides is made before.
std::function<int64_t()> call_of(const std::string& name, const std::string& input) {
    static const Bytes english = block_of(rules_of, "i = 1 and v = 0");
    static Bytes room(16 << 20), elements;
    if (name == "category") return [&] { return plurals_category(english.data(), english.size(), input.data(), input.size()); };
    if (name == "rules") return [&] { return rules_of(input, room); };
    if (name == "is_read_whole") return [&] { return plurals_is_read_whole(input.data(), input.size()); };
    if (name == "document")
        return [&] { return plurals_rules_from_document(input.data(), input.size(), "a0", 2, PLURALS_CARDINAL, room.data(), room.size()); };
    if (name == "ranges") return [&] { return plurals_ranges_from_document(input.data(), input.size(), "a0", 2, room.data(), room.size()); };
    if (name == "elements") return [&] { return elements_of(input, room); };
    if (name == "json") return [&] { return plurals_elements_from_json(input.data(), input.size(), room.data(), room.size()); };
    if (name == "pattern")
        return [&] {
            const plurals_argument count = {"n", 1, "2", 1, PLURALS_NUMBER};
            return plurals_pattern_format(english.data(), english.size(), nullptr, 0, input.data(), input.size(), &count, 1,
                                          reinterpret_cast<char*>(room.data()), room.size());
        };
    if (name != "message") fail("no call is named " + name);
    elements = block_of(elements_of, input);
    return [&] {
        return plurals_message(english.data(), english.size(), elements.data(), elements.size(), "12345", 5, reinterpret_cast<char*>(room.data()),
                               room.size());
    };
}

volatile int64_t sink;

void measure(const std::string& line) {
    std::istringstream fields(line);
    std::string row, size, name, path;
    std::getline(fields, row, '\t');
    std::getline(fields, size, '\t');
    std::getline(fields, name, '\t');
    std::getline(fields, path);
    std::ifstream file(path, std::ios::binary);
    if (!file) fail("there is no file " + path);
    std::string input((std::istreambuf_iterator<char>(file)), std::istreambuf_iterator<char>());
    std::function<int64_t()> call = call_of(name, input);
    std::string mark = row + "\t" + size;
    CALLGRIND_ZERO_STATS;
    sink = call();
    CALLGRIND_DUMP_STATS_AT(mark.c_str());
}

}  // namespace

int main(int count, char** words) {
    if (count != 2) fail("one word is needed: a file of inputs");
    std::ifstream inputs(words[1]);
    for (std::string line; std::getline(inputs, line);) measure(line);
}
