//! Categories, operands and values by category, over the document of CLDR 48. What is expected comes from UTS 35 and CLDR's samples.
use plurals::PluralCategory::{self, *};
use plurals::{CategoryTable, PluralElements, PluralOperands, PluralRuleType, PluralRules, PluralRulesOptions, PluralRulesWithRanges, CLDR};
use plurals::{find_locale, format_pattern, Argument, Catalog, Part, RawPluralOperands, Value};

fn cardinal(locale: &str) -> PluralRules {
    PluralRules::try_new_cardinal(CLDR, locale).unwrap()
}

fn written(number: &str) -> PluralOperands {
    number.parse().unwrap()
}

fn categories(rules: &PluralRules, numbers: &[&str]) -> Vec<PluralCategory> {
    numbers.iter().map(|it| rules.category_for(written(it))).collect()
}

#[test]
fn a_number_has_a_category() {
    let rules = PluralRules::try_new(CLDR, "en", Default::default()).unwrap();
    assert_eq!(rules.category_for(7_usize), Other);
    assert_eq!(rules.category_for(1_u8), One);
    assert_eq!(rules.category_for(-1), One);
    assert_eq!(rules.category_for(written("1.0")), Other);
}

#[test]
fn the_type_of_rules_decides() {
    let options = PluralRulesOptions::default().with_type(PluralRuleType::Ordinal);
    let ordinal = PluralRules::try_new(CLDR, "en", options).unwrap();
    assert_eq!(categories(&ordinal, &["1", "2", "3", "4", "11", "21", "102", "113"]), [One, Two, Few, Other, Other, One, Two, Other]);
    assert_eq!(categories(&cardinal("en"), &["1", "2", "3", "21"]), [One, Other, Other, Other]);
}

#[test]
fn languages_have_other_categories() {
    assert_eq!(categories(&cardinal("pl"), &["1", "4", "12", "25", "1.5"]), [One, Few, Many, Many, Other]);
    assert_eq!(categories(&cardinal("ar"), &["0", "1", "2", "3", "11", "100"]), [Zero, One, Two, Few, Many, Other]);
    assert_eq!(categories(&cardinal("lv"), &["0", "1", "2", "10", "21", "0.1"]), [Zero, One, Other, Zero, One, One]);
    assert_eq!(categories(&cardinal("ja"), &["0", "1", "2"]), [Other; 3]);
}

#[test]
fn a_compact_exponent_counts() {
    let rules = cardinal("fr");
    assert_eq!(rules.category_for(1_000_000), Many);
    assert_eq!(rules.category_for(written("1c6")), Many);
    assert_eq!(rules.category_for(written("1000000.20")), Other);
    assert_eq!(rules.category_for(written("1.00000020c6")), Many);
}

#[test]
fn operands_are_what_rules_see() {
    assert_eq!(written("2"), 2_usize.into());
    assert_eq!(written("-02"), PluralOperands::from(-2));
    assert_eq!(written("123.45"), written("+0123.45"));
    assert_eq!(written(".5"), written("0.5"));
    assert_eq!(written("1c6"), written("1.000c06"));
    assert_eq!(written("5c0"), 5.into());
    assert_eq!(written("0.0c0"), written("0.0"));
    assert_ne!(written("1.00000020c6"), written("1000000.20"));
    assert_ne!(written("2.0"), 2.into());
    assert_ne!(written("1.0000000c6"), written("1c6"));
    assert_eq!(written("340282366920938463463374607431768211455"), u128::MAX.into());
    assert_eq!(PluralOperands::from(i64::MIN), written("9223372036854775808"));
    assert_eq!(PluralOperands::from(i128::MIN), written("170141183460469231731687303715884105728"));
}

#[test]
fn what_is_no_number_is_refused() {
    for text in ["", "x", "1.", "1e6", "1c", " 1"] {
        assert_eq!(text.parse::<PluralOperands>().unwrap_err().number(), -10, "{text}");
    }
    assert_eq!("1c256".parse::<PluralOperands>().unwrap_err().number(), -11);
}

#[test]
fn long_numbers_are_exact_within_the_bound() {
    let rules = cardinal("ru");
    let number = written("100000000000000000000000000021");
    assert!(rules.is_exact_for(number.clone()));
    assert_eq!(rules.category_for(number), One);
}

#[test]
fn a_category_that_may_be_another_one_is_none() {
    let rules = PluralRules::try_from_texts(["", "", "", "n % 7 = 1", ""]).unwrap();
    assert_eq!(rules.sure_category_for(8), Some(Few));
    assert_eq!(rules.sure_category_for(written("10000000000000000000000000000000000000000")), None);
}

#[test]
fn values_by_category() {
    let rules = cardinal("en");
    let texts = PluralElements::new("doors").with_one_value(Some("door"));
    assert_eq!((texts.get(0, &rules), texts.get(1, &rules), texts.get(2, &rules)), (&"doors", &"door", &"doors"));
    assert_eq!((texts.one(), texts.few(), texts.other()), (&"door", &"doors", &"doors"));
    let texts = texts.with_explicit_zero_value(Some("no door")).with_explicit_one_value(Some("the door"));
    assert_eq!((texts.get(0, &rules), texts.get(1, &rules)), (&"no door", &"the door"));
    assert_eq!((texts.get(written("0.0"), &rules), texts.get(written("1c0"), &rules)), (&"doors", &"the door"));
    assert_eq!((texts.explicit_zero(), texts.explicit_one()), (Some(&"no door"), Some(&"the door")));
    let lengths = texts.map(str::len);
    assert_eq!((lengths.get(0, &rules), lengths.get(5, &rules)), (&7, &5));
}

#[test]
fn a_value_that_equals_that_of_other_is_left_out() {
    let texts = PluralElements::new("x").with_few_value(Some("x"));
    assert_eq!(texts, PluralElements::new("x"));
    assert_ne!(texts.clone().with_explicit_one_value(Some("x")), texts);
    assert_eq!(texts.clone().with_two_value(Some("y")).with_two_value(None), texts);
}

#[test]
fn each_category_has_its_value() {
    let rules = cardinal("ar");
    let texts = PluralElements::new(Other)
        .with_zero_value(Some(Zero))
        .with_one_value(Some(One))
        .with_two_value(Some(Two))
        .with_few_value(Some(Few))
        .with_many_value(Some(Many));
    for number in 0..=111 {
        assert_eq!(*texts.get(number, &rules), rules.category_for(number), "{number}");
    }
}

#[test]
fn rules_have_categories() {
    let found = |locale| cardinal(locale).categories().collect::<Vec<_>>();
    assert_eq!(found("en"), [One, Other]);
    assert_eq!(found("ar"), [Zero, One, Two, Few, Many, Other]);
    assert_eq!(found("ja"), [Other]);
}

#[test]
fn a_table_has_what_the_rules_choose() {
    for locale in ["en", "ru", "ar", "fr", "cy", "lv", "ja", "mt", "br", "gv", "kw"] {
        let rules = cardinal(locale);
        let table = rules.to_table();
        let numbers = (0..20_000).chain((0..64).flat_map(|it| [1 << it, (1 << it) - 1, u64::MAX >> it]));
        for number in numbers.chain([1_000_000, 2_000_000, 1_000_001]) {
            let told = table.category_for_integer(number);
            assert!(told.is_some() || number >= 128, "{locale}: {number}");
            assert_eq!(told.unwrap_or_else(|| rules.category_for(number)), rules.category_for(number), "{locale}: {number}");
        }
    }
    assert_eq!(cardinal("ru").to_table().category_for_integer(1_000_022), Some(Few));
}

#[test]
fn a_table_is_its_bytes() {
    let table = cardinal("pl").to_table();
    assert_eq!(CategoryTable::from_bytes(*table.as_bytes()), table);
    assert_eq!(CategoryTable::try_from(&table.as_bytes()[..]), Ok(table));
    assert_ne!(cardinal("en").to_table(), table);
    for length in [0, 235, 237] {
        assert_eq!(CategoryTable::try_from(&vec![0; length][..]).unwrap_err().number(), -80, "{length}");
    }
    assert_eq!(CategoryTable::from_bytes([2; 236]).category_for_integer(7), Some(Two));
    for byte in [6, 255] {
        assert_eq!(CategoryTable::from_bytes([byte; 236]).category_for_integer(7), None);
    }
}

#[test]
fn many_integers_have_categories() {
    for locale in ["ru", "ar", "ja"] {
        let rules = cardinal(locale);
        let numbers: Vec<u64> = (0..1000).chain([u64::MAX]).collect();
        assert_eq!(rules.categories_for_integers(&numbers), numbers.iter().map(|it| rules.category_for(*it)).collect::<Vec<_>>());
    }
    assert_eq!(cardinal("en").categories_for_integers(&[]), []);
}

#[test]
fn six_numbers_have_a_category() {
    let rules = cardinal("en");
    let one = RawPluralOperands { i: 1, ..Default::default() };
    assert_eq!(rules.category_for_operands(one), One);
    assert_eq!(rules.category_for_operands(RawPluralOperands { v: 1, ..one }), Other);
}

#[test]
fn ranges_have_categories() {
    let document = r#"{"cardinal":{"lv":{"zero":"n = 0","one":"n = 1"}},"ranges":{"lv":{"ranges":{"zero--one":"other"}}}}"#;
    let rules = PluralRulesWithRanges::try_new_cardinal(document, "lv").unwrap();
    assert_eq!((rules.category_for_range(0, 1), rules.category_for_range(1, 0)), (Other, Zero));
    assert_eq!(rules.resolve_range(Zero, One), Other);
    assert_eq!(rules.rules().category_for(1), One);
    assert_eq!(PluralRulesWithRanges::try_new_cardinal(CLDR, "xx").unwrap_err().number(), -75);
}

#[test]
fn names_of_categories() {
    for category in PluralCategory::all() {
        assert_eq!(PluralCategory::get_for_cldr_string(category.as_str()), Some(category));
    }
    assert_eq!(PluralCategory::all().len(), 6);
    assert_eq!(format!("{Few:>5}"), "  few");
}

#[test]
fn documents_and_texts_are_refused_by_a_number() {
    let fault = PluralRules::try_new_cardinal(CLDR, "xx").unwrap_err();
    let text = r#"the document has no rules of the type, or no ranges, for the locale "xx""#;
    assert_eq!((fault.number(), fault.to_string()), (-75, text.to_string()));
    assert_eq!(PluralRules::try_new_ordinal("{", "en").unwrap_err().number(), -70);
    assert_eq!(PluralRules::try_from_texts(["", "i 1", "", "", ""]).unwrap_err().number(), -22);
}

#[test]
fn a_locale_has_the_rules_of_its_chain() {
    let of_locale = |locale| PluralRules::of_locale(CLDR, locale, Default::default());
    for (locale, key) in [("ru_RU", "ru"), ("en-US", "en"), ("EN_us", "en"), ("sr-Latn-RS", "sr"), ("pt_AO", "pt-PT"), ("und", "root")] {
        assert_eq!(find_locale(CLDR, locale, Part::Cardinal).unwrap(), key, "{locale}");
        assert_eq!(of_locale(locale).unwrap(), cardinal(key), "{locale}");
        assert_eq!(PluralRules::try_new_cardinal(CLDR, locale).unwrap_err().number(), -75, "{locale}");
    }
    // CLDR has no ordinal rules of Akan, so they are those of root.
    let ordinal = PluralRules::of_locale(CLDR, "ak-GH", PluralRuleType::Ordinal.into()).unwrap();
    assert_eq!(ordinal.categories().collect::<Vec<_>>(), [Other]);
    let with_ranges = PluralRulesWithRanges::of_locale(CLDR, "pt_AO").unwrap();
    assert_eq!(with_ranges.rules(), &cardinal("pt-PT"));
    assert_eq!(with_ranges, PluralRulesWithRanges::try_new_with_rules(CLDR, "pt", cardinal("pt-PT")).unwrap());
}

#[test]
fn an_unknown_language_is_named() {
    for locale in ["xx", "xx-YY", "russian", ""] {
        assert_eq!(find_locale(CLDR, locale, Part::Ordinal).unwrap(), "root", "{locale}");
        let faults = [
            PluralRules::of_locale(CLDR, locale, Default::default()).unwrap_err(),
            PluralRules::of_locale(CLDR, locale, PluralRuleType::Ordinal.into()).unwrap_err(),
            PluralRulesWithRanges::of_locale(CLDR, locale).unwrap_err(),
            find_locale(CLDR, locale, Part::Ranges).unwrap_err(),
        ];
        for fault in faults {
            assert_eq!(fault.number(), -75, "{locale}");
            assert!(fault.to_string().ends_with(&format!("for the locale {locale:?}")), "{fault}");
        }
    }
    assert_eq!(PluralRules::of_locale("[]", "en-US", Default::default()).unwrap_err().number(), -72);
    assert_eq!(find_locale("{", "en-US", Part::Cardinal).unwrap_err().number(), -70);
}

#[test]
fn patterns_say_what_their_arguments_choose() {
    let (cardinal, ordinal) = (cardinal("ru"), PluralRules::try_new_ordinal(CLDR, "en").unwrap());
    let said = |pattern: &str, value: Value<'_>| format_pattern(pattern, &[Argument { name: "n", value }], &cardinal, &ordinal);
    let files = "{n, plural, offset:1 =0 {нет} one {# файл} few {# файла} many {# файлов} other {# файла}}";
    let texts = ["0", "2", "3", "6", "1.5"].map(|number| said(files, Value::Number(number)).unwrap());
    assert_eq!(texts, ["нет", "1 файл", "2 файла", "5 файлов", "0.5 файла"]);
    assert_eq!(said("{n, selectordinal, two {#nd} other {#th}}", Value::Number("22")).unwrap(), "22nd");
    assert_eq!(said("{n, select, a {A} other {B}}", Value::Text("a")).unwrap(), "A");
    assert_eq!(said("{m}", Value::Text("a")).unwrap_err().number(), -110);
    assert_eq!(said("{n, number}", Value::Text("a")).unwrap_err().number(), -95);
    assert_eq!(format_pattern("", &[], &cardinal, &ordinal).unwrap(), "");
}

#[test]
fn a_document_of_messages_is_packed() {
    let text = r#"{"en": {"patterns": {"hi": "hello"}}, "ru": {"cardinal": {"hi": {}}}}"#;
    let bytes = Catalog::pack(text, "en").unwrap();
    assert_eq!(bytes, b"\x01\0\0\0\x02\0\0\0\x0b\0\0\0hi\x01\0\0\0hello");
    assert_eq!(Catalog::from_bytes(&bytes).unwrap().say("hi", &[], &cardinal("en"), &cardinal("en")).unwrap(), "hello");
    let faults = [("{", "", -70), ("5", "", -150), (text, "", -151), (text, "en-US", -152), (text, "ru", -153), (r#"{"a":{}}"#, "", -155)];
    for (document, locale, number) in faults {
        assert_eq!(Catalog::pack(document, locale).unwrap_err().number(), number, "{document} {locale}");
    }
}

#[test]
fn rules_are_for_any_thread() {
    let rules = cardinal("en");
    std::thread::scope(|threads| {
        for _ in 0..4 {
            threads.spawn(|| (0..100).for_each(|number| assert_eq!(rules.category_for(number) == One, number == 1)));
        }
    });
}
