// Prints the messages of some numbers and some categories, as ../c/formatter.c does.
#include <iostream>
#include <plurals.hpp>

int main() {
    plurals::Texts texts;
    texts.one = "i = 1 and v = 0";
    auto rules = plurals::Rules::from_texts(texts);
    auto elements = plurals::Elements::from_json(R"({"other":[0,"{} items"],"one":[0,"{} item"]})");
    if (!rules || !elements) return 1;
    for (const char *number : {"0", "1", "1.0", "2", "1c6", "-1", "x", "1c256"}) {
        auto message = elements->message(*rules, number);
        if (message) {
            std::cout << message->view() << '\n';
        } else if (message.fault().number() == PLURALS_NUMBER_SYNTAX) {
            std::cout << number << ": it isn't a number\n";
        } else if (message.fault().number() == PLURALS_NUMBER_LIMIT) {
            std::cout << number << ": it is over a limit\n";
        } else {
            return 1;
        }
    }
    plurals::Operands operands;
    operands.i = operands.v = 1;
    std::cout << "i 1, v 1: " << plurals::name(rules->category(operands)) << '\n';
    auto told = rules->table().category(1);
    std::cout << "1 by a table: " << (told ? plurals::name(*told) : "ask the rules") << '\n';
    std::uint64_t numbers[] = {0, 1, 100};
    plurals::Category categories[3];
    rules->categories_of_integers(numbers, 3, categories);
    std::cout << "0, 1, 100:";
    for (auto category : categories) std::cout << ' ' << plurals::name(category);
    std::cout << '\n';
    constexpr const char *pattern = "{who} sent {n, plural, =0 {no files} one {# file} other {# files}}.";
    auto none = plurals::Rules::from_texts({});
    if (!none) return 1;
    using plurals::Argument;
    for (const char *count : {"0", "1", "1.0"}) {
        auto said = plurals::format(pattern, {Argument::text("who", "Ann"), Argument::number("n", count)}, *rules, *none);
        if (!said) return 1;
        std::cout << said->view() << '\n';
    }
}
