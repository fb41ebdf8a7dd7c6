// Checks what plurals.hpp returns, and prints the line of each check that fails. It is compiled without exceptions.
#include <cstdio>
#include <limits>
#include <plurals.hpp>
#include <string>
#include <string_view>
#include <type_traits>
#include <utility>

static int failed = 0;
#define CHECK(CONDITION) ((CONDITION) ? (void)0 : (void)(++failed, std::printf("%s:%d: %s\n", __FILE__, __LINE__, #CONDITION)))

using plurals::Category;
using plurals::Elements;
using plurals::Rules;
using plurals::Texts;

static void integers() {
    Texts texts;
    texts.one = "i = 1 and v = 0";
    texts.many = "i = 9223372036854775808";
    CHECK(Rules::from_texts(texts).fault().number() == PLURALS_TEXT_EXPECTED_VALUE);
    texts.many = "i % 10 = 8";
    auto rules = Rules::from_texts(texts);
    CHECK(rules.has_value());
    CHECK(rules->category(1) == Category::one);
    CHECK(rules->category(-1) == Category::one);
    CHECK(rules->category(1u) == Category::one);
    CHECK(rules->category(static_cast<short>(-1)) == Category::one);
    CHECK(rules->category('\1') == Category::one);
    CHECK(rules->category(2L) == Category::other);
    // Its absolute value ends in 8, and isn't an int64_t.
    CHECK(rules->category(std::numeric_limits<std::int64_t>::min()) == Category::many);
    CHECK(rules->category(std::numeric_limits<std::uint64_t>::max()) == Category::other);
}

static void texts_of_numbers() {
    Texts texts;
    texts.one = "i = 1 and v = 0";
    auto rules = Rules::from_texts(texts);
    CHECK(*rules->category("1") == Category::one);
    CHECK(*rules->category("1.0") == Category::other);
    CHECK(*rules->category(std::string("-1")) == Category::one);
    CHECK(rules->category("").fault().number() == PLURALS_NUMBER_SYNTAX);
    // A view without a pointer.
    CHECK(rules->category(std::string_view()).fault().number() == PLURALS_NUMBER_SYNTAX);
    CHECK(rules->category("\xff").fault().number() == PLURALS_UTF8);
    CHECK(*rules->is_exact("1"));
    CHECK(*rules->sure_category("1") == Category::one);
    CHECK(rules->sure_category("0.0000000000000000001").fault().number() == PLURALS_OUTSIDE_BOUND);
    CHECK(rules->sure_category("x").fault().number() == PLURALS_NUMBER_SYNTAX);
    CHECK(*plurals::is_read_whole("n = 1") && !*plurals::is_read_whole("n = 1 x") && *plurals::is_read_whole({}));
    CHECK(rules->category("x").fault().text() == "the text isn't a number");
}

static void rules_and_documents() {
    std::string_view json = R"({"cardinal":{"en":{"one":"i = 1 and v = 0"}},"ordinal":{"en":{"two":"n % 10 = 2 and n % 100 != 12"}}})";
    auto cardinal = Rules::from_document(json, "en", plurals::Type::cardinal);
    auto ordinal = Rules::from_document(json, "en", plurals::Type::ordinal);
    CHECK(cardinal->category(1) == Category::one);
    CHECK(ordinal->category(22) == Category::two);
    CHECK(ordinal->category(12) == Category::other);
    CHECK(Rules::from_document(json, "de", plurals::Type::cardinal).fault().number() == PLURALS_LOCALE);
    CHECK(Rules::from_document("", "de", plurals::Type::cardinal).fault().number() == PLURALS_JSON);
    auto none = Rules::from_texts({});
    CHECK(none.has_value() && none->category(1) == Category::other);
    Rules moved = *std::move(cardinal);
    CHECK(moved.category(1) == Category::one);
    CHECK(cardinal->category(1) == Category::other);
    static_assert(!std::is_copy_constructible_v<Rules> && std::is_nothrow_move_constructible_v<Rules>);
}

static void operands_and_categories() {
    Texts texts;
    texts.one = "i = 1 and v = 0";
    texts.few = "t = 25 and f = 250 and w = 2 and v = 3 and c = 0";
    auto rules = Rules::from_texts(texts);
    plurals::Operands one, few;
    one.i = 1;
    few.v = 3, few.w = 2, few.f = 250, few.t = 25;
    CHECK(rules->category(one) == Category::one);
    CHECK(rules->category(few) == Category::few);
    CHECK(*rules->category("7.250") == Category::few);
    CHECK(rules->category(plurals::Operands()) == Category::other);
    CHECK(rules->has(Category::one) && rules->has(Category::few) && rules->has(Category::other));
    CHECK(!rules->has(Category::zero) && !rules->has(Category::two) && !rules->has(Category::many));
}

static void tables() {
    Texts texts;
    texts.one = "i % 10 = 1";
    texts.few = "i = 200";
    texts.many = "i % 1000 = 5";
    auto rules = Rules::from_texts(texts);
    plurals::CategoryTable table = rules->table();
    CHECK(table.category(1) == Category::one && table.category(-11) == Category::one && table.category('\1') == Category::one);
    CHECK(table.category(5u) == Category::many && table.category(2L) == Category::other);
    // Its absolute value ends in 08, and isn't an int64_t.
    CHECK(table.category(std::numeric_limits<std::int64_t>::min()) == Category::other);
    CHECK(table.category(1000001) == Category::one);
    // The table doesn't tell: 150 is below the bound, and 1005 may be 1105.
    CHECK(!table.category(150) && !table.category(1005) && rules->category(1005) == Category::many);
    std::uint64_t wrong = 0, untold = 0;
    for (std::uint64_t number = 0; number < 100000; number++) {
        auto told = table.category(number);
        untold += !told;
        wrong += told ? *told != rules->category(number) : number < 128;
    }
    CHECK(wrong == 0 && untold < 2000);
    std::string_view bytes(reinterpret_cast<const char *>(table.data()), table.size());
    auto again = plurals::CategoryTable::from_bytes(bytes);
    CHECK(again.has_value() && again->category(200) == table.category(200) && again->category(21) == Category::one);
    CHECK(plurals::CategoryTable::from_bytes(bytes.substr(1)).fault().number() == PLURALS_TABLE_LENGTH);
    CHECK(plurals::CategoryTable::from_bytes({}).fault().number() == PLURALS_TABLE_LENGTH);
    CHECK(plurals::CategoryTable::from_bytes(std::string(PLURALS_TABLE_BYTES, '\0'))->category(1) == Category::zero);
    CHECK(!plurals::CategoryTable::from_bytes(std::string(PLURALS_TABLE_BYTES, '\xff'))->category(1));
    static_assert(std::is_trivially_copyable_v<plurals::CategoryTable> && sizeof(plurals::CategoryTable) == PLURALS_TABLE_BYTES);
}

static void many_integers() {
    Texts texts;
    texts.one = "i % 10 = 1";
    auto rules = Rules::from_texts(texts);
    std::uint64_t numbers[] = {1, 2, 21, std::numeric_limits<std::uint64_t>::max()};
    Category found[] = {Category::zero, Category::zero, Category::zero, Category::zero, Category::few};
    rules->categories_of_integers(numbers, 4, found);
    CHECK(found[0] == Category::one && found[1] == Category::other && found[2] == Category::one && found[3] == Category::other);
    CHECK(found[4] == Category::few);
    rules->categories_of_integers(nullptr, 0, nullptr);
}

static void ranges() {
    std::string_view json = R"({"ranges":{"lv":{"ranges":{"one--other":"one","zero--zero":"other"}}}})";
    auto found = plurals::Ranges::from_document(json, "lv");
    CHECK(found.has_value());
    CHECK(found->category(Category::one, Category::other) == Category::one);
    CHECK(found->category(Category::zero, Category::zero) == Category::other);
    // A pair that isn't there has the end's category.
    CHECK(found->category(Category::other, Category::one) == Category::one);
    CHECK(plurals::Ranges::from_document(json, "ru").fault().number() == PLURALS_LOCALE);
}

static void locales() {
    std::string_view json = R"({"cardinal":{"pt":{"one":"i = 0..1"},"pt-PT":{"one":"i = 1 and v = 0"},"ru":{"few":"n = 2"},"sr":{"few":"n = 3"},
        "en":{"one":"n = 1"},"root":{}},"ordinal":{"en":{"two":"n = 2"},"root":{}},"ranges":{"pt":{"ranges":{"one--other":"one"}}},
        "parents":{"pt-AO":"pt-PT"}})";
    auto key = [&](std::string_view locale, plurals::Part part) { return std::string(plurals::find_locale(json, locale, part)->view()); };
    CHECK(key("ru_RU", plurals::Part::cardinal) == "ru" && key("EN-us", plurals::Part::ordinal) == "en");
    CHECK(key("pt_AO", plurals::Part::cardinal) == "pt-PT" && key("pt_AO", plurals::Part::ranges) == "pt");
    CHECK(key("sr-Latn-RS", plurals::Part::ordinal) == "root" && key("xx", plurals::Part::cardinal) == "root");
    CHECK(plurals::find_locale(json, "xx", plurals::Part::ranges).fault().number() == PLURALS_LOCALE);
    CHECK(plurals::find_locale("", "xx", plurals::Part::ranges).fault().number() == PLURALS_JSON);
    auto of = [&](std::string_view locale) { return Rules::of_locale(json, locale, plurals::Type::cardinal); };
    CHECK(of("ru_RU")->category(2) == Category::few && of("sr-Latn-RS")->category(3) == Category::few);
    CHECK(of("en-US")->category(1) == Category::one && of("pt_AO")->category(0) == Category::other && of("pt-BR")->category(0) == Category::one);
    CHECK(of("root")->category(1) == Category::other && of("und-Latn")->category(1) == Category::other);
    // There are no ordinal rules of Russian, so they are those of root.
    CHECK(Rules::of_locale(json, "ru-RU", plurals::Type::ordinal)->category(2) == Category::other);
    CHECK(plurals::Ranges::of_locale(json, "pt_AO")->category(Category::one, Category::other) == Category::one);
    auto unknown = of("xx");
    CHECK(!unknown && unknown.fault().number() == PLURALS_LOCALE);
    CHECK(unknown.fault().text() == "the document has no rules of the type, or no ranges, for the locale \"xx\"");
    CHECK(of("").fault().text() == "the document has no rules of the type, or no ranges, for the locale \"\"");
    CHECK(of(std::string(63, 'x') + "ж").fault().text().substr(69) == std::string(63, 'x') + "..\"");
    CHECK(of(std::string(64, 'x')).fault().text().substr(69) == std::string(64, 'x') + "\"");
    CHECK(plurals::Ranges::of_locale(json, "xx").fault().text().substr(68) == "\"xx\"");
    CHECK(Rules::of_locale("[]", "en-US", plurals::Type::cardinal).fault().text() == plurals::Fault(PLURALS_DOCUMENT_SHAPE).text());
    CHECK(Rules::of_locale("{}", "\xff", plurals::Type::cardinal).fault().number() == PLURALS_UTF8);
    static_assert(sizeof(plurals::Result<Category>) <= 16);
}

static void elements() {
    std::string long_text(1000, 'x');
    auto found = Elements::from_json(R"({"other":[0,"{} items"],"explicit_zero":[0,"none"]})");
    auto large = Elements::from_json(R"({"other":[0,")" + long_text + R"("]})");
    auto rules = Rules::from_texts({});
    CHECK(found->message(*rules, "2")->view() == "2 items");
    CHECK(found->element(*rules, "2")->view() == "{} items");
    CHECK(found->message(*rules, "0")->view() == "none");
    CHECK(found->message(*rules, "0.0")->view() == "0.0 items");
    CHECK(large->message(*rules, "1")->view() == long_text);
    CHECK(Elements::from_json("{}").fault().number() == PLURALS_DOCUMENT_SHAPE);
    plurals::MessageTexts texts;
    texts.other = "{} items", texts.one = "{} item", texts.explicit_zero = "none";
    auto from_texts = Elements::from_texts(texts);
    CHECK(from_texts->message(*rules, "0")->view() == "none");
    CHECK(from_texts->message(*rules, "1")->view() == "1 items");
    CHECK(Elements::from_texts({})->message(*rules, "1")->size() == 0);
    texts.many = "\xff";
    CHECK(Elements::from_texts(texts).fault().number() == PLURALS_UTF8);
}

static void patterns() {
    using plurals::Argument;
    Texts texts;
    texts.one = "i = 1 and v = 0";
    auto english = Rules::from_texts(texts);
    auto ordinal = Rules::from_texts({});
    constexpr std::string_view sent = "{name} sent {n, plural, =0 {no files} one {# file} other {# files}}.";
    auto said = [&](std::string_view number) {
        return plurals::format(sent, {Argument::text("name", "Ann"), Argument::number("n", number)}, *english, *ordinal);
    };
    CHECK(said("0")->view() == "Ann sent no files.");
    CHECK(said("1")->view() == "Ann sent 1 file.");
    CHECK(said("1.0")->view() == "Ann sent 1.0 files.");
    CHECK(said("one").fault().number() == PLURALS_ARGUMENT_NOT_A_NUMBER);
    const Argument given[] = {Argument::text("name", "Bo"), Argument::number("n", "2"), Argument::number("n", "1")};
    CHECK(plurals::format(sent, given, 3, *english, *ordinal)->view() == "Bo sent 2 files.");
    CHECK(plurals::format(sent, given, 1, *english, *ordinal).fault().number() == PLURALS_ARGUMENT_MISSING);
    CHECK(plurals::format("", {}, *english, *ordinal)->size() == 0);
    CHECK(plurals::format("{n", {}, *english, *ordinal).fault().number() == PLURALS_PATTERN_UNCLOSED);
    CHECK(plurals::format("{n}", {Argument::text("n", {})}, *english, *ordinal)->size() == 0);
    CHECK(plurals::format("{n}", {Argument::text("m", "x")}, *english, *ordinal).fault().text() == "no argument has the name");
}

static void texts_by_table() {
    Texts texts;
    texts.one = "n % 10 = 1";
    auto table = Rules::from_texts(texts)->table();
    CHECK(**table.category("1") == Category::one && **table.category("+0071") == Category::one && **table.category("12") == Category::other);
    CHECK(!*table.category("1.0") && !*table.category("-1") && !*table.category("18446744073709551616"));
    CHECK(table.category("\xff").fault().number() == PLURALS_UTF8);
}

static void packed_patterns() {
    using plurals::Argument, plurals::PackedPattern;
    Texts texts;
    texts.one = "i = 1 and v = 0";
    auto english = Rules::from_texts(texts);
    auto ordinal = Rules::from_texts({});
    auto sent = PackedPattern::of("{name} sent {n, plural, =0 {no files} one {# file} other {# files}}.");
    auto again = PackedPattern::from_bytes(sent->block());
    for (const PackedPattern *pattern : {&*sent, &*again}) {
        auto said = [&](std::string_view number) {
            return pattern->format({Argument::text("name", "Ann"), Argument::number("n", number)}, *english, *ordinal);
        };
        CHECK(said("0")->view() == "Ann sent no files.");
        CHECK(said("1")->view() == "Ann sent 1 file.");
        CHECK(said("1.0")->view() == "Ann sent 1.0 files.");
        CHECK(said("one").fault().number() == PLURALS_ARGUMENT_NOT_A_NUMBER);
    }
    CHECK(PackedPattern::of("hello")->block().view() == std::string_view("\1\0\0\0hello", 9));
    CHECK(PackedPattern::of("").has_value() && PackedPattern::from_bytes({})->format({}, *english, *ordinal)->size() == 0);
    CHECK(PackedPattern::of("{n").fault().number() == PLURALS_PATTERN_UNCLOSED);
    CHECK(PackedPattern::from_bytes("\1").fault().number() == PLURALS_PACKED_LIST_HEADER);
    PackedPattern moved = *std::move(again);
    CHECK(again->format({}, *english, *ordinal)->size() == 0 && moved.block().size() > 0);
}

static void catalogs() {
    using plurals::Argument, plurals::Catalog;
    auto rules = Rules::from_texts({});
    const std::string_view bytes("\1\0\0\0\2\0\0\0\13\0\0\0hi\1\0\0\0hello", 23);
    auto catalog = Catalog::from_bytes(bytes);
    CHECK(catalog->say("hi", {}, *rules, *rules)->view() == "hello");
    CHECK(catalog->say("hi", {Argument::text("name", "Ann")}, *rules, *rules)->view() == "hello");
    CHECK(catalog->say("ho", {}, *rules, *rules).fault().number() == PLURALS_NO_KEY);
    CHECK(Catalog::from_bytes(bytes.substr(1)).fault().number() == PLURALS_CATALOG_HEADER);
    CHECK(Catalog::from_bytes({}).fault().number() == PLURALS_CATALOG_HEADER);
    const std::string_view json = "{\"en\":{\"patterns\":{\"hi\":\"hello\"}},\"ru\":{\"cardinal\":5}}";
    CHECK(Catalog::pack(json, "en")->view() == bytes && Catalog::pack("{\"\":{\"patterns\":{\"hi\":\"hello\"}}}")->view() == bytes);
    CHECK(Catalog::pack(json).fault().number() == PLURALS_MESSAGES_SEVERAL_LOCALES);
    CHECK(Catalog::pack(json, "en-US").fault().number() == PLURALS_MESSAGES_ABSENT_LOCALE);
    CHECK(Catalog::pack(json, "ru").fault().text() == "the locale has cardinal messages as forms, which aren't packed");
}

int main() {
    static_assert(PLURALS_VERSION_MAJOR == 0);
    CHECK(plurals_version() == std::string_view(PLURALS_VERSION));
    CHECK(plurals::name(Category::few) == "few");
    integers();
    texts_of_numbers();
    rules_and_documents();
    operands_and_categories();
    tables();
    many_integers();
    ranges();
    locales();
    elements();
    patterns();
    packed_patterns();
    catalogs();
    texts_by_table();
    std::printf("%d failed\n", failed);
    return failed != 0;
}
