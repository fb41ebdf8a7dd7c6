/* Says a page of ten Russian messages from the catalogue in a file, by the rules of a document in another. */
#include <fstream>
#include <iostream>
#include <iterator>
#include <plurals.hpp>
#include <string>
#include <vector>

using plurals::Argument;

static std::string read(const char *path) {
    std::ifstream file(path, std::ios::binary);
    return {std::istreambuf_iterator<char>(file), {}};
}

static int complain(plurals::Fault fault) {
    std::cerr << fault.text() << '\n';
    return 1;
}

int main(int count, char **words) {
    if (count < 3) return 2;
    std::string bytes = read(words[1]), document = read(words[2]);
    auto cardinal = plurals::Rules::of_locale(document, "ru", plurals::Type::cardinal);
    auto ordinal = plurals::Rules::of_locale(document, "ru", plurals::Type::ordinal);
    auto catalog = plurals::Catalog::from_bytes(bytes);
    if (!cardinal) return complain(cardinal.fault());
    if (!ordinal) return complain(ordinal.fault());
    if (!catalog) return complain(catalog.fault());
    const std::vector<std::pair<const char *, std::vector<Argument>>> page = {
        {"title", {}},
        {"greeting", {Argument::text("name", "Анна")}},
        {"cart", {Argument::number("n", "21")}},
        {"weight", {Argument::number("n", "1.5")}},
        {"days", {Argument::number("n", "3")}},
        {"discount", {Argument::number("percent", "10")}},
        {"guests", {Argument::number("n", "6")}},
        {"sent", {Argument::text("who", "female"), Argument::number("n", "2")}},
        {"place", {Argument::number("n", "3")}},
        {"footer", {}},
    };
    for (const auto &[key, arguments] : page) {
        auto said = catalog->say(key, arguments.data(), arguments.size(), *cardinal, *ordinal);
        if (!said) return complain(said.fault());
        std::cout << said->view() << '\n';
    }
}
