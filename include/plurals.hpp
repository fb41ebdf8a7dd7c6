/* The plural rules of Fonuresse for C++17, over plurals.h, whose promises and limits hold here too. Nothing here throws, and all of
 * it compiles without exceptions: what may fail returns a Result, which has a value or a fault. Nothing here is proved.
 *
 *     auto rules = plurals::Rules::from_texts({.one = "i = 1 and v = 0"});      in C++17: plurals::Texts texts; texts.one = "..";
 *     if (!rules) return complain(rules.fault().text());
 *     plurals::Category category = rules->category(1);                          Category::one
 */
#ifndef FONURESSE_PLURALS_HPP
#define FONURESSE_PLURALS_HPP

#include <cstddef>
#include <cstdint>
#include <cstring>
#include <initializer_list>
#include <memory>
#include <new>
#include <optional>
#include <string_view>
#include <type_traits>
#include <utility>

#include "plurals.h"

namespace plurals {

enum class Category : std::uint8_t {
    zero = PLURALS_ZERO,
    one = PLURALS_ONE,
    two = PLURALS_TWO,
    few = PLURALS_FEW,
    many = PLURALS_MANY,
    other = PLURALS_OTHER
};

enum class Type : std::uint8_t { cardinal = PLURALS_CARDINAL, ordinal = PLURALS_ORDINAL };

/* What a document has for locales: rules of the two types, and ranges. */
enum class Part : std::uint8_t { cardinal = PLURALS_CARDINAL, ordinal = PLURALS_ORDINAL, ranges = PLURALS_RANGES };

/* Returns the name of a category, as "one". */
inline std::string_view name(Category category) noexcept { return plurals_category_name(static_cast<std::int32_t>(category)); }

/* Why there is no result: one of the numbers of plurals_fault. */
class Fault {
public:
    Fault() noexcept = default;
    explicit Fault(std::int64_t number) noexcept : number_(number) {}
    std::int64_t number() const noexcept { return number_; }
    /* Returns in a few English words what it is. */
    std::string_view text() const noexcept {
        const char *found = plurals_fault_text(number_);
        return found ? found : "unknown fault";
    }

private:
    std::int64_t number_ = 0;
};

/* Why there is nothing for a locale: a fault. The text of PLURALS_LOCALE names the locale, of a longer one 64 bytes at most. */
class LocaleFault : public Fault {
public:
    LocaleFault() noexcept = default;
    LocaleFault(Fault fault, std::string_view locale) noexcept : Fault(fault) {
        if (number() != PLURALS_LOCALE) return;
        std::size_t shown = locale.size() < 64 ? locale.size() : 64;
        /* Not within a character. */
        while (shown < locale.size() && shown > 0 && (static_cast<unsigned char>(locale[shown]) & 0xc0) == 0x80) shown--;
        add(Fault::text().substr(0, sizeof told_ - 80));
        add(" \"");
        add(locale.substr(0, shown));
        add(shown < locale.size() ? "..\"" : "\"");
    }
    /* Returns in a few English words what it is. The text is the fault's, so it ends with it. */
    std::string_view text() const noexcept { return length_ ? std::string_view(told_, length_) : Fault::text(); }

private:
    void add(std::string_view text) noexcept {
        if (text.size() == 0) return;
        std::memcpy(told_ + length_, text.data(), text.size());
        length_ += text.size();
    }
    char told_[192] = {};
    std::size_t length_ = 0;
};

/* A value or a fault. Without a value, * and -> are undefined, as those of std::optional. */
template <class Value, class Why = Fault>
class [[nodiscard]] Result {
public:
    Result(Value value) noexcept : value_(std::move(value)), fault_() {}
    Result(Why fault) noexcept : fault_(fault) {}
    explicit operator bool() const noexcept { return value_.has_value(); }
    bool has_value() const noexcept { return value_.has_value(); }
    Value &operator*() & noexcept { return *value_; }
    const Value &operator*() const & noexcept { return *value_; }
    Value &&operator*() && noexcept { return *std::move(value_); }
    Value *operator->() noexcept { return &*value_; }
    const Value *operator->() const noexcept { return &*value_; }
    /* Returns the fault; its number is 0 if there is a value. */
    const Why &fault() const & noexcept { return fault_; }
    Why fault() && noexcept { return fault_; }

private:
    std::optional<Value> value_;
    Why fault_;
};

/* Bytes that a call has written. They are moved, never copied; those that are moved from are empty. */
class Bytes {
public:
    Bytes() noexcept = default;
    Bytes(Bytes &&from) noexcept : bytes_(std::move(from.bytes_)), size_(std::exchange(from.size_, 0)) {}
    Bytes &operator=(Bytes &&from) noexcept {
        bytes_ = std::move(from.bytes_);
        size_ = std::exchange(from.size_, 0);
        return *this;
    }
    const std::uint8_t *data() const noexcept { return bytes_.get(); }
    std::size_t size() const noexcept { return size_; }
    std::string_view view() const noexcept { return {reinterpret_cast<const char *>(bytes_.get()), size_}; }
    operator std::string_view() const noexcept { return view(); }

    /* Returns what a call writes, which takes a buffer and its length, and returns the length of the result or a fault. */
    template <class Call>
    static Result<Bytes> written(Call call) noexcept {
        std::size_t room = 256;
        for (;;) {
            Bytes found;
            found.bytes_.reset(new (std::nothrow) std::uint8_t[room]);
            if (!found.bytes_) return Fault(PLURALS_MEMORY);
            std::int64_t length = call(found.bytes_.get(), room);
            if (length < 0) return Fault(length);
            found.size_ = static_cast<std::size_t>(length);
            if (found.size_ <= room) return found;
            room = found.size_;
        }
    }

private:
    std::unique_ptr<std::uint8_t[]> bytes_;
    std::size_t size_ = 0;
};

/* Returns the key by which a JSON document has a locale in a part: the first of the locale's chain, as ru for ru_RU. Of a language that
 * the document doesn't have it is root, if the document has that. */
inline Result<Bytes> find_locale(std::string_view json, std::string_view locale, Part part) noexcept {
    return Bytes::written([&](std::uint8_t *out, std::size_t room) {
        return plurals_find_locale(json.data(), json.size(), locale.data(), locale.size(), static_cast<std::uint8_t>(part),
                                   reinterpret_cast<char *>(out), room);
    });
}

namespace detail {

/* Returns whether a name is this one of lower-case letters, in any case. */
inline bool is_name(std::string_view name, std::string_view lower) noexcept {
    if (name.size() != lower.size()) return false;
    for (std::size_t k = 0; k < name.size(); k++)
        if (name[k] != lower[k] && name[k] != lower[k] - 'a' + 'A') return false;
    return true;
}

/* Returns the key of a locale, but root's only if that was asked for, or if the document has another key for one of the two types. */
inline Result<Bytes> known_key(std::string_view json, std::string_view locale, Part part) noexcept {
    auto key = find_locale(json, locale, part);
    std::string_view language = locale.substr(0, locale.find_first_of("-_"));
    if (!key || !is_name(*key, "root") || is_name(language, "root") || is_name(language, "und")) return key;
    for (Part type : {Part::cardinal, Part::ordinal}) {
        auto other = find_locale(json, locale, type);
        if (other ? !is_name(*other, "root") : other.fault().number() != PLURALS_LOCALE) return other ? std::move(key) : std::move(other);
    }
    return Fault(PLURALS_LOCALE);
}

/* Returns what a call reads for a locale, else for the key of its chain. */
template <class Value, class Read>
Result<Value, LocaleFault> of_locale(std::string_view json, std::string_view locale, Part part, Read read) noexcept {
    Result<Value> found = read(locale);
    if (!found && found.fault().number() == PLURALS_LOCALE) {
        auto key = known_key(json, locale, part);
        found = key ? read(key->view()) : Result<Value>(key.fault());
    }
    if (!found) return LocaleFault(found.fault(), locale);
    return *std::move(found);
}

}  // namespace detail

/* What is an integer here: a bool isn't. */
template <class Integer>
using IfInteger = std::enable_if_t<std::is_integral_v<Integer> && !std::is_same_v<Integer, bool>>;

/* A table of the categories of integers under some rules (docs/FORMATS.md), for who asks for many: asking it takes one step, whatever
 * the language. Rules::table makes one. It is copied as its bytes are. */
class CategoryTable {
public:
    /* The table in these bytes, which were those of one before. What they hold isn't checked; other than PLURALS_TABLE_BYTES of
     * them are the fault PLURALS_TABLE_LENGTH. */
    static Result<CategoryTable> from_bytes(std::string_view bytes) noexcept {
        const auto *from = reinterpret_cast<const std::uint8_t *>(bytes.data());
        std::int32_t found = plurals_category_by_table(from, bytes.size(), 0);
        if (found < 0) return Fault(found);
        CategoryTable table;
        std::memcpy(table.bytes_, from, sizeof table.bytes_);
        return table;
    }

    /* Returns the category of an integer, that of its absolute value if it is negative; none where the rules have to be asked, which is
     * nowhere below 128. */
    template <class Integer, class = IfInteger<Integer>>
    std::optional<Category> category(Integer number) const noexcept {
        static_assert(sizeof(Integer) <= 8, "an integer has at most 64 bits");
        auto absolute = static_cast<std::uint64_t>(number);
        if constexpr (std::is_signed_v<Integer>) absolute = number < 0 ? 0 - absolute : absolute;
        /* There are PLURALS_TABLE_BYTES bytes, so there is no fault. */
        std::int32_t found = plurals_category_by_table(bytes_, sizeof bytes_, absolute);
        if (found == PLURALS_ASK_RULES) return std::nullopt;
        return static_cast<Category>(found);
    }

    /* Returns the same of the whole number that a text writes in digits; none also of any other text. The fault is that it isn't UTF-8. */
    Result<std::optional<Category>> category(std::string_view number) const noexcept {
        std::int32_t found = plurals_text_category_by_table(bytes_, sizeof bytes_, number.data(), number.size());
        if (found < 0) return Fault(found);
        if (found == PLURALS_ASK_RULES) return std::optional<Category>();
        return std::optional<Category>(static_cast<Category>(found));
    }

    /* The bytes of the table, as calls of plurals.h take it. */
    const std::uint8_t *data() const noexcept { return bytes_; }
    static constexpr std::size_t size() noexcept { return PLURALS_TABLE_BYTES; }

private:
    friend class Rules;
    CategoryTable() noexcept = default;
    std::uint8_t bytes_[PLURALS_TABLE_BYTES] = {};
};

/* The operands of a number (UTS 35 Part 3, Plural Operand Meanings): the integer part, how many fraction digits are shown with the zeros
 * at the end and without, these digits as a number, the compact exponent. */
struct Operands {
    std::uint64_t i = 0;
    std::size_t v = 0, w = 0;
    std::uint64_t f = 0, t = 0;
    std::size_t c = 0;
};

/* The texts of a language's rules, as CLDR has them, with samples or without. A category with an empty text has no rule. */
struct Texts {
    std::string_view zero{}, one{}, two{}, few{}, many{};
};

/* Returns whether a text is a rule from its first byte to its last: of other texts a part may be read. */
inline Result<bool> is_read_whole(std::string_view text) noexcept {
    std::int32_t found = plurals_is_read_whole(text.data(), text.size());
    if (found < 0) return Fault(found);
    return found == 1;
}

/* The rules of a language. Rules that are moved from are no rules, under which every number is other. */
class Rules {
public:
    static Result<Rules> from_texts(const Texts &texts) noexcept {
        return of(Bytes::written([&](std::uint8_t *out, std::size_t room) {
            return plurals_rules_from_texts(texts.zero.data(), texts.zero.size(), texts.one.data(), texts.one.size(), texts.two.data(),
                                            texts.two.size(), texts.few.data(), texts.few.size(), texts.many.data(),
                                            texts.many.size(), out, room);
        }));
    }

    /* The rules that a JSON document has for the first locale of the chain: those of ru for ru_RU, as find_locale tells. The rules of
     * root are for a language that the document has for the other type, and for root; any other language has the fault
     * PLURALS_LOCALE. */
    static Result<Rules, LocaleFault> of_locale(std::string_view json, std::string_view locale, Type type) noexcept {
        return detail::of_locale<Rules>(json, locale, static_cast<Part>(type),
                                        [&](std::string_view key) noexcept { return from_document(json, key, type); });
    }

    /* The rules that a JSON document has for a locale, which is compared byte by byte. */
    static Result<Rules> from_document(std::string_view json, std::string_view locale, Type type) noexcept {
        return of(Bytes::written([&](std::uint8_t *out, std::size_t room) {
            return plurals_rules_from_document(json.data(), json.size(), locale.data(), locale.size(), static_cast<std::uint8_t>(type),
                                               out, room);
        }));
    }

    /* Returns the category of an integer; one that is negative has that of its absolute value. */
    template <class Integer, class = IfInteger<Integer>>
    Category category(Integer number) const noexcept {
        static_assert(sizeof(Integer) <= 8, "an integer has at most 64 bits: pass a larger one as a text");
        /* The block is one that the library wrote, so there is no fault. */
        if constexpr (std::is_signed_v<Integer>) {
            return static_cast<Category>(plurals_category_of_signed_integer(block_.data(), block_.size(), number));
        } else {
            return static_cast<Category>(plurals_category_of_integer(block_.data(), block_.size(), number));
        }
    }

    /* Writes the category of each of count integers to out, in their order. The block of the rules is checked once. */
    void categories_of_integers(const std::uint64_t *numbers, std::size_t count, Category *out) const noexcept {
        /* A category is a byte, its number, and the block has no fault. */
        plurals_categories_of_integers(block_.data(), block_.size(), numbers, count, reinterpret_cast<std::uint8_t *>(out), count);
    }

    /* Returns the table of the categories of integers under these rules. Making it takes as long as some 200 categories. */
    CategoryTable table() const noexcept {
        CategoryTable table;
        plurals_table_of_rules(block_.data(), block_.size(), table.bytes_, sizeof table.bytes_);
        return table;
    }

    /* Returns the category of a number as it is written: "1" and "1.0" are two numbers. */
    Result<Category> category(std::string_view number) const noexcept {
        std::int32_t found = plurals_category(block_.data(), block_.size(), number.data(), number.size());
        if (found < 0) return Fault(found);
        return static_cast<Category>(found);
    }

    /* Returns the category of a number, but none that may be another one for all its digits: PLURALS_OUTSIDE_BOUND is that fault. */
    Result<Category> sure_category(std::string_view number) const noexcept {
        std::int32_t found = plurals_sure_category(block_.data(), block_.size(), number.data(), number.size());
        if (found < 0) return Fault(found);
        return static_cast<Category>(found);
    }

    /* Returns the category of the operands, which may be those of no number. */
    Category category(const Operands &of) const noexcept {
        return static_cast<Category>(plurals_category_of_operands(block_.data(), block_.size(), of.i, of.v, of.w, of.f, of.t, of.c));
    }

    /* Returns whether a number may have the category: it has a rule, or is other. */
    bool has(Category category) const noexcept {
        return plurals_categories(block_.data(), block_.size()) >> static_cast<std::int32_t>(category) & 1;
    }

    /* Returns whether the category of the number is that of all its digits, however many it has. */
    Result<bool> is_exact(std::string_view number) const noexcept {
        std::int32_t found = plurals_is_exact(block_.data(), block_.size(), number.data(), number.size());
        if (found < 0) return Fault(found);
        return found == 1;
    }

    /* The block of the rules, as calls of plurals.h take it. */
    const Bytes &block() const noexcept { return block_; }

private:
    explicit Rules(Bytes block) noexcept : block_(std::move(block)) {}
    static Result<Rules> of(Result<Bytes> block) noexcept {
        if (!block) return block.fault();
        return Rules(*std::move(block));
    }
    Bytes block_;
};

/* The categories of ranges of numbers, as 1 to 3. */
class Ranges {
public:
    /* The ranges that a JSON document has for the first locale of the chain, as Rules::of_locale finds rules. */
    static Result<Ranges, LocaleFault> of_locale(std::string_view json, std::string_view locale) noexcept {
        return detail::of_locale<Ranges>(json, locale, Part::ranges,
                                         [&](std::string_view key) noexcept { return from_document(json, key); });
    }

    /* The ranges that a JSON document has for a locale, which is compared byte by byte. */
    static Result<Ranges> from_document(std::string_view json, std::string_view locale) noexcept {
        Ranges found;
        std::int64_t length =
            plurals_ranges_from_document(json.data(), json.size(), locale.data(), locale.size(), found.table_, sizeof found.table_);
        if (length < 0) return Fault(length);
        return found;
    }

    /* Returns the category of a range, by those of its start and its end. */
    Category category(Category start, Category end) const noexcept {
        return static_cast<Category>(table_[6 * static_cast<std::size_t>(start) + static_cast<std::size_t>(end)]);
    }

private:
    Ranges() noexcept = default;
    std::uint8_t table_[36] = {};
};

/* The texts of a message by category, and those of exactly 0 and exactly 1. But for other an empty one isn't there. */
struct MessageTexts {
    std::string_view other{}, zero{}, one{}, two{}, few{}, many{}, explicit_zero{}, explicit_one{};
};

/* The texts of a message by category. */
class Elements {
public:
    static Result<Elements> from_texts(const MessageTexts &texts) noexcept {
        return of(Bytes::written([&](std::uint8_t *out, std::size_t room) {
            return plurals_elements_from_texts(texts.other.data(), texts.other.size(), texts.zero.data(), texts.zero.size(),
                                               texts.one.data(), texts.one.size(), texts.two.data(), texts.two.size(),
                                               texts.few.data(), texts.few.size(), texts.many.data(), texts.many.size(),
                                               texts.explicit_zero.data(), texts.explicit_zero.size(), texts.explicit_one.data(),
                                               texts.explicit_one.size(), out, room);
        }));
    }

    /* The elements of a JSON text, as {"other":[0,"{} items"],"one":[0,"{} item"]}. */
    static Result<Elements> from_json(std::string_view json) noexcept {
        return of(Bytes::written(
            [&](std::uint8_t *out, std::size_t room) { return plurals_elements_from_json(json.data(), json.size(), out, room); }));
    }

    /* Returns the text that the number takes. */
    Result<Bytes> element(const Rules &rules, std::string_view number) const noexcept {
        return asked(plurals_element, rules, number);
    }

    /* Returns this text with the number in the place of each {}. */
    Result<Bytes> message(const Rules &rules, std::string_view number) const noexcept {
        return asked(plurals_message, rules, number);
    }

    /* The block of the elements, as calls of plurals.h take it. */
    const Bytes &block() const noexcept { return block_; }

private:
    explicit Elements(Bytes block) noexcept : block_(std::move(block)) {}
    static Result<Elements> of(Result<Bytes> block) noexcept {
        if (!block) return block.fault();
        return Elements(*std::move(block));
    }
    template <class Call>
    Result<Bytes> asked(Call call, const Rules &rules, std::string_view number) const noexcept {
        return Bytes::written([&](std::uint8_t *out, std::size_t room) {
            return call(rules.block().data(), rules.block().size(), block_.data(), block_.size(), number.data(), number.size(),
                        reinterpret_cast<char *>(out), room);
        });
    }
    Bytes block_;
};

/* An argument of a pattern: a number, as it is written, or a text, under a name. */
struct Argument : plurals_argument {
    static Argument number(std::string_view name, std::string_view written) noexcept { return {name, written, PLURALS_NUMBER}; }
    static Argument text(std::string_view name, std::string_view text) noexcept { return {name, text, PLURALS_TEXT}; }

private:
    Argument(std::string_view name, std::string_view value, std::uint32_t kind) noexcept
        : plurals_argument{name.data(), name.size(), value.data(), value.size(), kind} {}
};
static_assert(sizeof(Argument) == sizeof(plurals_argument), "the arguments are an array of plurals_argument");

/* Returns what a pattern of ICU's MessageFormat says with this many arguments; selectordinal is by the second rules. */
inline Result<Bytes> format(std::string_view pattern, const Argument *arguments, std::size_t count, const Rules &cardinal,
                            const Rules &ordinal) noexcept {
    return Bytes::written([&](std::uint8_t *out, std::size_t room) {
        return plurals_pattern_format(cardinal.block().data(), cardinal.block().size(), ordinal.block().data(),
                                      ordinal.block().size(), pattern.data(), pattern.size(), arguments, count,
                                      reinterpret_cast<char *>(out), room);
    });
}

/* The same with the arguments between braces. */
inline Result<Bytes> format(std::string_view pattern, std::initializer_list<Argument> arguments, const Rules &cardinal,
                            const Rules &ordinal) noexcept {
    return format(pattern, arguments.begin(), arguments.size(), cardinal, ordinal);
}

/* A pattern as a block of bytes (docs/FORMATS.md), from which it is said without its text. One that is moved from says nothing. */
class PackedPattern {
public:
    /* The block of a pattern's text. */
    static Result<PackedPattern> of(std::string_view pattern) noexcept {
        auto block = Bytes::written(
            [&](std::uint8_t *out, std::size_t room) { return plurals_pattern_pack(pattern.data(), pattern.size(), out, room); });
        if (!block) return block.fault();
        return PackedPattern(*std::move(block));
    }

    /* A copy of bytes that are the block of a pattern. */
    static Result<PackedPattern> from_bytes(std::string_view bytes) noexcept {
        std::int32_t found = plurals_pattern_check(reinterpret_cast<const std::uint8_t *>(bytes.data()), bytes.size());
        if (found < 0) return Fault(found);
        auto block = Bytes::written([&](std::uint8_t *out, std::size_t room) {
            if (bytes.size() != 0 && bytes.size() <= room) std::memcpy(out, bytes.data(), bytes.size());
            return static_cast<std::int64_t>(bytes.size());
        });
        if (!block) return block.fault();
        return PackedPattern(*std::move(block));
    }

    /* Returns what it says, as plurals::format does of the pattern's text. */
    Result<Bytes> format(const Argument *arguments, std::size_t count, const Rules &cardinal, const Rules &ordinal) const noexcept {
        return Bytes::written([&](std::uint8_t *out, std::size_t room) {
            return plurals_packed_format(cardinal.block().data(), cardinal.block().size(), ordinal.block().data(),
                                         ordinal.block().size(), block_.data(), block_.size(), arguments, count,
                                         reinterpret_cast<char *>(out), room);
        });
    }
    Result<Bytes> format(std::initializer_list<Argument> arguments, const Rules &cardinal, const Rules &ordinal) const noexcept {
        return format(arguments.begin(), arguments.size(), cardinal, ordinal);
    }

    /* The block, as calls of plurals.h take it. */
    const Bytes &block() const noexcept { return block_; }

private:
    explicit PackedPattern(Bytes block) noexcept : block_(std::move(block)) {}
    Bytes block_;
};

/* A catalogue of messages (docs/FORMATS.md). The bytes stay the caller's, and live as long as it. */
class Catalog {
public:
    /* Returns the bytes of the catalogue of the patterns that a JSON document of messages has for a locale, which is compared byte by
     * byte, or without one, for its only locale. */
    static Result<Bytes> pack(std::string_view json, std::string_view locale = {}) noexcept {
        return Bytes::written([&](std::uint8_t *out, std::size_t room) {
            return plurals_catalog_pack(json.data(), json.size(), locale.data(), locale.size(), out, room);
        });
    }

    /* The catalogue of bytes that are one. */
    static Result<Catalog> from_bytes(std::string_view bytes) noexcept {
        std::int32_t found = plurals_catalog_check(reinterpret_cast<const std::uint8_t *>(bytes.data()), bytes.size());
        if (found < 0) return Fault(found);
        return Catalog(bytes);
    }

    /* Returns what the message under a key says, as plurals::format does of its pattern; PLURALS_NO_KEY if there is none. */
    Result<Bytes> say(std::string_view key, const Argument *arguments, std::size_t count, const Rules &cardinal,
                      const Rules &ordinal) const noexcept {
        return Bytes::written([&](std::uint8_t *out, std::size_t room) {
            return plurals_catalog_say(cardinal.block().data(), cardinal.block().size(), ordinal.block().data(),
                                       ordinal.block().size(), reinterpret_cast<const std::uint8_t *>(bytes_.data()), bytes_.size(),
                                       key.data(), key.size(), arguments, count, reinterpret_cast<char *>(out), room);
        });
    }
    Result<Bytes> say(std::string_view key, std::initializer_list<Argument> arguments, const Rules &cardinal,
                      const Rules &ordinal) const noexcept {
        return say(key, arguments.begin(), arguments.size(), cardinal, ordinal);
    }

private:
    explicit Catalog(std::string_view bytes) noexcept : bytes_(bytes) {}
    std::string_view bytes_;
};

}  // namespace plurals

#endif
