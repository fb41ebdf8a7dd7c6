"""Tests of plurals.py, over the rules of CLDR 48. What is expected comes from UTS 35 and CLDR's samples."""
import subprocess
import sys
import threading
from decimal import Decimal

import plurals
import pytest
from plurals import Category, CategoryTable, Elements, Fault, Ranges, Rules, text_of

ENGLISH = Rules(one="i = 1 and v = 0")


@pytest.mark.parametrize(
    "number, text",
    [
        (0, "0"),
        (-1, "-1"),
        (10**40, "1" + "0" * 40),
        (1.0, "1"),
        (-0.0, "-0"),
        (1.5, "1.5"),
        (0.1, "0.1"),
        (1e22, "1" + "0" * 22),
        (1e-7, "0.0000001"),
        (123456789012345680.0, "123456789012345680"),
        (5e-324, "0." + "0" * 323 + "5"),
        (Decimal("1.0"), "1.0"),
        (Decimal("1.20"), "1.20"),
        (Decimal("1E+2"), "100"),
        (Decimal("1E-2"), "0.01"),
        (Decimal("0E-3"), "0.000"),
        ("1.2c6", "1.2c6"),
    ],
)
def test_text_of(number, text):
    assert text_of(number) == text


def test_an_integer_that_str_refuses():
    assert text_of(10**6000) == "1" + "0" * 6000
    assert Rules(one="i % 10 = 7").category(10**6000 + 7) == "one"


@pytest.mark.parametrize("number", [float("nan"), float("inf"), Decimal("NaN"), Decimal("-Infinity"), "x", "", "1e6", "1c"])
def test_what_is_no_number(number):
    with pytest.raises(Fault) as fault:
        ENGLISH.category(number)
    assert fault.value.number == -10 and str(fault.value) == "the text isn't a number"


def test_what_is_over_a_limit():
    for number in (10**32767, Decimal("1E+999999"), Decimal("1E-999999"), "1c256"):
        with pytest.raises(Fault) as fault:
            ENGLISH.category(number)
        assert fault.value.number == -11
    assert ENGLISH.category(10**32767 - 1) == "other"


@pytest.mark.parametrize("number", [None, True, b"1", [1], 1j])
def test_what_has_another_type(number):
    with pytest.raises(TypeError):
        ENGLISH.category(number)


def test_a_lone_surrogate_is_not_utf8():
    with pytest.raises(Fault) as fault:
        ENGLISH.category("\ud800")
    assert fault.value.number == -2


@pytest.mark.parametrize(
    "number, category",
    [(1, "one"), (-1, "one"), (1.0, "one"), ("1", "one"), ("1.0", "other"), (Decimal(1), "one"), (Decimal("1.0"), "other"), (2, "other")],
)
def test_english(number, category):
    assert ENGLISH.category(number) == category


@pytest.mark.parametrize("locale, categories", [
    ("ru", {1: "one", 22: "few", 11: "many", 1.5: "other", 10**30 + 21: "one", -3: "few"}),
    ("ar", {0: "zero", 1: "one", 2: "two", 103: "few", 111: "many", 100: "other", 0.5: "other"}),
    ("fr", {0: "one", 1.5: "one", 2: "other", 10**6: "many", "1c6": "many", 2**64: "other"}),
    ("ja", {0: "other", 1: "other"}),
])  # fmt: skip
def test_languages(locale, categories):
    rules = Rules.of_locale(locale)
    assert {number: rules.category(number).value for number in categories} == categories


def test_ordinals():
    rules = Rules.of_locale("en", ordinal=True)
    assert [str(rules.category(it)) for it in (1, 2, 3, 4, 11, 22)] == ["one", "two", "few", "other", "other", "two"]


def test_the_ends_of_the_range_without_a_text():
    rules = Rules(one="i % 10 = 5", few="i % 10 = 6")
    for number in (2**64 - 1, 2**64, 1 - 2**64, -(2**64)):
        assert rules.category(number) == rules.category(str(number)) == ("one" if number % 2 else "few")


@pytest.mark.parametrize(
    "rule, operands",
    [
        ("i % 10 = 5", {"i": 2**64 - 1}),
        ("v = 3", {"i": 7, "v": 3}),
        ("w = 3", {"i": 7, "v": 3, "w": 3, "f": 7, "t": 7}),
        ("f = 50", {"i": 1, "v": 2, "w": 1, "f": 50, "t": 5}),
        ("t = 5", {"i": 1, "v": 2, "w": 1, "f": 50, "t": 5}),
        ("c = 6", {"i": 10**6, "c": 6}),
        ("v = 0 and t = 9", {"i": 0, "t": 9}),
    ],
)
def test_operands(rule, operands):
    rules = Rules(few=rule)
    assert rules.category_of_operands(**operands) is Category.FEW
    assert rules.category_of_operands(1, 1, 1, 1, 1, 1) is Category.OTHER


def test_operands_are_those_of_numbers():
    rules = Rules.of_locale("ru")
    assert [rules.category_of_operands(it) for it in range(200)] == [rules.category(it) for it in range(200)]
    assert rules.category_of_operands(1, 1) == rules.category("1.0") == "other"


@pytest.mark.parametrize("operands", [(-1,), (2**64,), (0, -1), (0, 0, 0, 0, 2**64), (0, 0, 0, 0, 0, 2**64)])
def test_an_operand_of_more_than_64_bits(operands):
    with pytest.raises(OverflowError):
        ENGLISH.category_of_operands(*operands)


def test_an_operand_that_is_no_integer():
    with pytest.raises((TypeError, plurals.ctypes.ArgumentError)):
        ENGLISH.category_of_operands(1.5)


def test_exact():
    assert ENGLISH.is_exact(1) is True
    assert Rules(few="n % 7 = 1").is_exact(10**40) is False


def test_sure_categories():
    rules = Rules(few="n % 7 = 1")
    assert rules.sure_category(8) is Category.FEW
    with pytest.raises(Fault) as fault:
        rules.sure_category(10**40)
    assert fault.value.number == -12


def test_texts_that_are_read_whole():
    assert [plurals.is_read_whole(it) for it in ("n = 1", "n = 1 @integer 1", "", "n = 1 x", "\ud800")] == [True, True, True, False, False]


def test_documents():
    document = '{"cardinal":{"x":{"two":"n = 2"}}}'
    assert Rules.of_locale("x", document=document).category(2) is Category.TWO
    assert Rules.of_locale("x", document=document.encode()).category(2) is Category.TWO
    for locale, text, number in (("y", document, -75), ("x", "{", -70), ("x", "[]", -72), ("x", '{"a":1.5}', -71)):
        with pytest.raises(Fault) as fault:
            Rules.of_locale(locale, document=text)
        assert fault.value.number == number


@pytest.mark.parametrize("locale, key", [
    ("ru_RU", "ru"), ("en-US", "en"), ("EN_us", "en"), ("sr-Latn-RS", "sr"), ("pt_AO", "pt-PT"), ("pt-BR", "pt"), ("nb-NO", "nb"), ("root", "root"),
    ("und-US", "root"),
])  # fmt: skip
def test_a_locale_has_the_rules_of_its_chain(locale, key):
    assert plurals.find_locale(locale) == key
    assert Rules.of_locale(locale).block == Rules.of_locale(key).block


def test_each_part_has_its_keys():
    assert [plurals.find_locale("pt_AO", part) for part in ("cardinal", "ordinal", "ranges")] == ["pt-PT", "pt", "pt"]
    assert Ranges("pt_AO").table == Ranges("pt").table
    # CLDR has no ordinal rules of Akan, so they are those of root.
    assert plurals.find_locale("ak-GH", "ordinal") == "root"
    assert Rules.of_locale("ak-GH", ordinal=True).categories() == ["other"]
    with pytest.raises(ValueError):
        plurals.find_locale("en", "range")


@pytest.mark.parametrize("locale", ["xx", "xx-YY", "russian", ""])
def test_an_unknown_language_is_named(locale):
    assert plurals.find_locale(locale) == "root"
    for read in (Rules.of_locale, Ranges, lambda it: Rules.of_locale(it, ordinal=True), lambda it: plurals.find_locale(it, "ranges")):
        with pytest.raises(Fault, match=f"for the locale {locale!r}$") as fault:
            read(locale)
        assert fault.value.number == -75


def test_keys_of_documents():
    document = '{"cardinal":{"A-b":{"two":"n = 2"}},"parents":{"c":"a-b"}}'
    assert plurals.find_locale("c", document=document) == plurals.find_locale("a_B_c", document=document) == "A-b"
    assert Rules.of_locale("C-d", document=document.encode()).category(2) is Category.TWO
    for locale, text, number in (("a", document, -75), ("a", "{", -70), ("a", "[]", -75), ("\ud800", "{", -2)):
        with pytest.raises(Fault) as fault:
            plurals.find_locale(locale, document=text)
        assert fault.value.number == number


def test_texts_that_are_no_rules():
    with pytest.raises(Fault) as fault:
        Rules(two="n 2")
    assert fault.value.number == -22


def test_elements():
    elements = Elements('{"other":[0,"{} items"],"one":[0,"{} item"],"explicit_zero":[0,"nothing"]}')
    assert [elements.message(ENGLISH, it) for it in (0, 0.0, "0.0", 1, 1.5, Decimal("2.50"))] == [
        "nothing", "nothing", "0.0 items", "1 item", "1.5 items", "2.50 items",
    ]  # fmt: skip
    assert elements.text(ENGLISH, 1) == "{} item"
    long = "ж" * 1000
    assert Elements(f'{{"other":[0,"{long}"]}}').text(ENGLISH, 1) == long


def test_elements_of_texts():
    elements = Elements.of_texts("{} items", one="{} item", explicit_zero="nothing")
    assert elements.block == Elements('{"other":[0,"{} items"],"one":[0,"{} item"],"explicit_zero":[0,"nothing"]}').block
    assert [elements.message(ENGLISH, it) for it in (0, 1, 2)] == ["nothing", "1 item", "2 items"]
    assert Elements.of_texts("").text(ENGLISH, 1) == ""
    for texts, number in ((("\ud800",), -2), (("x" * 256, "y"), -60)):
        with pytest.raises(Fault) as fault:
            Elements.of_texts(*texts)
        assert fault.value.number == number


def test_categories_of_rules():
    assert Rules.of_locale("pl").categories() == ["one", "few", "many", "other"]
    assert Rules().categories() == [Category.OTHER]


@pytest.mark.parametrize("locale", ["en", "ru", "ar", "fr", "cy", "lv", "ja", "mt", "br", "kw"])
def test_a_table_has_what_the_rules_choose(locale):
    rules = Rules.of_locale(locale)
    table = CategoryTable(rules)
    numbers = [*range(3000), *(sign * (2**power - 1) for power in range(65) for sign in (1, -1)), 10**6, 2 * 10**6]
    told = {number: table.category(number) for number in numbers}
    assert all(category for number, category in told.items() if abs(number) < 128)
    assert {number: category or rules.category(number) for number, category in told.items()} == {it: rules.category(it) for it in numbers}


def test_a_table_asks_the_rules():
    assert CategoryTable(Rules.of_locale("fr")).category(10**6) is None
    assert CategoryTable(Rules.of_locale("ru")).category(10**6 + 22) is Category.FEW
    assert CategoryTable(ENGLISH).category(2**64) is None
    assert CategoryTable(ENGLISH).category(1 - 2**64) is Category.OTHER


def test_a_table_is_its_bytes():
    table = CategoryTable(ENGLISH)
    assert CategoryTable.of_bytes(table.table).category(1) is Category.ONE
    assert (len(table.table), table.table[:11]) == (236, bytes([2, 0, 0, 0, 0, 0, 0, 0, 5, 1, 5]))
    for length in (0, 235, 237):
        with pytest.raises(Fault) as fault:
            CategoryTable.of_bytes(bytes(length))
        assert fault.value.number == -80
    assert CategoryTable.of_bytes(bytes([2] * 236)).category(-7) is Category.TWO
    assert CategoryTable.of_bytes(bytes([6] * 236)).category(7) is None


@pytest.mark.parametrize("number", [1.0, True, "1", None, Decimal(1)])
def test_what_is_no_integer(number):
    with pytest.raises(TypeError):
        CategoryTable(ENGLISH).category(number)
    with pytest.raises(TypeError):
        ENGLISH.categories_of_integers([1, number])


def test_many_integers():
    rules, numbers = Rules.of_locale("ru"), [*range(-500, 500), 2**64 - 1, 1 - 2**64]
    assert rules.categories_of_integers(iter(numbers)) == [rules.category(number) for number in numbers]
    assert rules.categories_of_integers([]) == []
    for number in (2**64, -(2**64)):
        with pytest.raises(OverflowError):
            rules.categories_of_integers([1, number])


def test_ranges():
    ranges = Ranges("lv", '{"ranges":{"lv":{"ranges":{"one--other":"one"}}}}')
    assert ranges.category(Category.ONE, Category.OTHER) is Category.ONE
    assert ranges.category(Category.OTHER, Category.ZERO) is Category.ZERO
    with pytest.raises(Fault) as fault:
        Ranges("xx")
    assert fault.value.number == -75


def test_patterns():
    sent = "{who} sent {n, plural, =0 {no files} one {# file} other {# files}}."
    texts = [plurals.format_pattern(sent, ENGLISH, who="Ann", n=number) for number in (0, 1, 2.5, Decimal("1.0"), plurals.Written("1"))]
    assert texts == ["Ann sent no files.", "Ann sent 1 file.", "Ann sent 2.5 files.", "Ann sent 1.0 files.", "Ann sent 1 file."]
    ordinal = "{n, selectordinal, one {#st} other {#th}}"
    assert plurals.format_pattern(ordinal, ENGLISH, Rules.of_locale("en", ordinal=True), n=21) == "21st"
    assert plurals.format_pattern(ordinal, ENGLISH, n=21) == "21th"
    assert plurals.format_pattern("{0}{pattern}{ordinal}", ENGLISH, **{"0": "a", "pattern": "", "ordinal": -1.5}) == "a-1.5"
    assert plurals.format_pattern("{n, plural, offset:1 other {#}}" * 200, ENGLISH, n=3) == "2" * 200
    for pattern, number in (("{m}", -110), (ordinal, -111), ("{n", -90)):
        with pytest.raises(Fault) as fault:
            plurals.format_pattern(pattern, ENGLISH, n="21")
        assert fault.value.number == number


def test_texts_by_table():
    table = plurals.CategoryTable(Rules.of_locale("ru"))
    assert [table.category_of_text(text) for text in ("1", "+0022", "5", "1.0", "-1", "", str(2**64))] == ["one", "few", "many", None, None, None, None]


def test_packed_patterns():
    text = "{who} sent {n, plural, =0 {no files} one {# file} other {# files}}."
    pattern = plurals.PackedPattern.of_bytes(plurals.PackedPattern(text).block)
    for n in (0, 1, 2.5, Decimal("1.0"), plurals.Written("1")):
        assert pattern.format(ENGLISH, who="Ann", n=n) == plurals.format_pattern(text, ENGLISH, who="Ann", n=n)
    ordinal = plurals.PackedPattern("{n, selectordinal, one {#st} other {#th}}")
    assert ordinal.format(ENGLISH, Rules.of_locale("en", ordinal=True), n=21) == "21st"
    assert ordinal.format(ENGLISH, n=21) == "21th"
    assert plurals.PackedPattern("").block == b""
    assert plurals.PackedPattern("hello").block == b"\1\0\0\0hello"
    faults = [(lambda: plurals.PackedPattern("{n"), -90), (lambda: plurals.PackedPattern("{" + "n" * 256 + ", plural, other {}}"), -131)]
    faults += [(lambda: plurals.PackedPattern.of_bytes(b"\1"), -120), (lambda: ordinal.format(ENGLISH, n="21"), -111)]
    for call, number in faults:
        with pytest.raises(Fault) as fault:
            call()
        assert fault.value.number == number


def test_catalogs():
    block = plurals.PackedPattern("{who} has {n, plural, one {# file} other {# files}}.").block
    ends = b"\4\0\0\0" + bytes([4 + len(block)]) + b"\0\0\0"
    catalog = plurals.Catalog(b"\1\0\0\0" + ends + b"has\xff" + block)
    with pytest.raises(Fault) as fault:
        catalog.say("has", ENGLISH)
    assert fault.value.number == -144
    catalog = plurals.Catalog(catalog.block.replace(b"has\xff", b"has "))
    assert catalog.say("has ", ENGLISH, who="Ann", n=1) == "Ann has 1 file."
    assert catalog.say("has ", ENGLISH, None, who="Ann", n=Decimal("1.0")) == "Ann has 1.0 files."
    for given, number in ((b"", -140), (b"\0\0\0\0\0", -141), (catalog.block[:-1], -141), (catalog.block.replace(b"\1\0\0\0", b"\2\0\0\0", 1), -141)):
        with pytest.raises(Fault) as fault:
            plurals.Catalog(given)
        assert fault.value.number == number


def test_catalogs_of_documents():
    text = '{"en": {"patterns": {"é": "{n, plural, one {# file} other {# files}}"}}, "ru": {"ordinal": 5}}'
    for document in (text, text.encode()):
        assert plurals.Catalog.of_messages(document, "en").say("é", ENGLISH, n=2) == "2 files"
    assert plurals.Catalog.of_messages('{"x": {"patterns": {"hi": "hello"}}}').block == b"\1\0\0\0\2\0\0\0\x0b\0\0\0hi\1\0\0\0hello"
    faults = [("{", "", -70), ("{}", "", -150), (text, "", -151), (text, "EN", -152), (text, "ru", -154), ('{"a": {}}', "", -155)]
    faults += [('{"a": {"cardinal": []}}', "", -153), ('{"a": {"patterns": []}}', "", -72), ('{"a": {"patterns": {"b": "{"}}}', "a", -90), ("{", "\ud800", -2)]
    for document, locale, number in faults:
        with pytest.raises(Fault) as fault:
            plurals.Catalog.of_messages(document, locale)
        assert fault.value.number == number


def test_byte_0_is_no_end():
    assert Elements('{"other":[0,"a\\u0000b"]}').text(ENGLISH, 1) == "a\0b"
    with pytest.raises(Fault):
        ENGLISH.category("1\0")


def test_threads():
    rules, found = Rules.of_locale("ru"), []
    threads = [threading.Thread(target=lambda: found.extend(rules.category(it) for it in range(1000))) for _ in range(8)]
    for thread in threads:
        thread.start()
    for thread in threads:
        thread.join()
    assert len(found) == 8000 and found.count("one") == 8 * 90


def test_the_version():
    assert plurals.version() == "0.1.0"


def test_the_documentation():
    ran = subprocess.run([sys.executable, "-m", "doctest", plurals.__file__], capture_output=True, text=True)
    assert (ran.returncode, ran.stdout) == (0, "")
