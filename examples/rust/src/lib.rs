//! The plural category of a number, by CLDR's plural rules, over the installed static library of Fonuresse. Types and calls have the
//! names of the crate `icu_plurals`; rules come from a document of CLDR's rules, as [`CLDR`] is one, or from their texts.
//!
//! ```
//! use plurals::{PluralCategory, PluralRules};
//!
//! let rules = PluralRules::try_new_cardinal(plurals::CLDR, "pl")?;
//! assert_eq!(rules.category_for(1), PluralCategory::One);
//! assert_eq!(rules.category_for(3), PluralCategory::Few);
//! assert_eq!(rules.category_for(5), PluralCategory::Many);
//! assert_eq!(rules.category_for("0.5".parse::<plurals::PluralOperands>()?), PluralCategory::Other);
//! # Ok::<(), plurals::PluralsError>(())
//! ```
//!
//! What decides is proved, in the library; this crate isn't. A call that finds no memory panics, unless it returns a `Result`.
#![deny(unsafe_code, missing_docs)]

mod elements;
mod ffi;
mod locales;
mod operands;
mod ranges;
mod table;

pub use elements::PluralElements;
pub use locales::{find_locale, Part};
use operands::Written;
pub use operands::{PluralOperands, RawPluralOperands};
pub use ranges::PluralRulesWithRanges;
use std::fmt;
pub use table::CategoryTable;

/// The document of the rules of CLDR 48 that is installed with the library.
pub const CLDR: &str = include_str!(env!("PLURALS_CLDR"));

/// Why a call has no result: a number of `plurals_fault` in `plurals.h`. Its text is the library's; that of -75 names the locale.
#[derive(Clone, PartialEq, Eq, Hash)]
pub struct PluralsError {
    number: i64,
    locale: Option<Box<str>>,
}

impl PluralsError {
    const LOCALE: i64 = -75;

    fn of(number: i64) -> PluralsError {
        PluralsError { number, locale: None }
    }

    fn of_locale(locale: &str) -> PluralsError {
        PluralsError { number: PluralsError::LOCALE, locale: Some(locale.into()) }
    }

    /// The error with a locale, if it is that of one.
    fn naming(self, locale: &str) -> PluralsError {
        if self.is_of_locale() {
            PluralsError::of_locale(locale)
        } else {
            self
        }
    }

    fn is_of_locale(&self) -> bool {
        self.number == PluralsError::LOCALE
    }

    /// The number of the fault, as -75 if the document has no rules for the locale.
    pub fn number(&self) -> i64 {
        self.number
    }
}

impl fmt::Display for PluralsError {
    fn fmt(&self, to: &mut fmt::Formatter<'_>) -> fmt::Result {
        to.write_str(ffi::fault_text(self.number))?;
        match &self.locale {
            Some(locale) => write!(to, " {locale:?}"),
            None => Ok(()),
        }
    }
}

impl fmt::Debug for PluralsError {
    fn fmt(&self, to: &mut fmt::Formatter<'_>) -> fmt::Result {
        write!(to, "PluralsError({}: {self})", self.number)
    }
}

impl std::error::Error for PluralsError {}

/// A plural category of UTS 35 Part 3, Language Plural Rules.
#[derive(Clone, Copy, Debug, PartialEq, Eq, Hash, PartialOrd, Ord)]
#[repr(u8)]
pub enum PluralCategory {
    /// `zero`, as of 0 in Arabic.
    Zero = 0,
    /// `one`, as of 1 in English.
    One = 1,
    /// `two`, as of 2 in Welsh.
    Two = 2,
    /// `few`, as of 3 in Russian.
    Few = 3,
    /// `many`, as of 5 in Russian.
    Many = 4,
    /// `other`, which every language has.
    Other = 5,
}

impl PluralCategory {
    /// All categories, from zero to other.
    pub fn all() -> impl ExactSizeIterator<Item = Self> {
        use PluralCategory::*;
        [Zero, One, Two, Few, Many, Other].into_iter()
    }

    /// The category of a name of CLDR.
    ///
    /// ```
    /// use plurals::PluralCategory;
    /// assert_eq!(PluralCategory::get_for_cldr_string("two"), Some(PluralCategory::Two));
    /// assert_eq!(PluralCategory::get_for_cldr_string("Two"), None);
    /// ```
    pub fn get_for_cldr_string(category: &str) -> Option<PluralCategory> {
        PluralCategory::all().find(|it| it.as_str() == category)
    }

    /// The name of the category in CLDR.
    pub fn as_str(self) -> &'static str {
        match self {
            PluralCategory::Zero => "zero",
            PluralCategory::One => "one",
            PluralCategory::Two => "two",
            PluralCategory::Few => "few",
            PluralCategory::Many => "many",
            PluralCategory::Other => "other",
        }
    }

    fn of(number: i32) -> PluralCategory {
        PluralCategory::all().find(|it| *it as i32 == number).unwrap_or(PluralCategory::Other)
    }
}

impl fmt::Display for PluralCategory {
    fn fmt(&self, to: &mut fmt::Formatter<'_>) -> fmt::Result {
        to.pad(self.as_str())
    }
}

/// What the numbers are for.
#[derive(Clone, Copy, Debug, PartialEq, Eq, Hash)]
#[non_exhaustive]
pub enum PluralRuleType {
    /// How many: `1 door`, `2 doors`.
    Cardinal,
    /// Which one: `1st door`, `2nd door`.
    Ordinal,
}

/// How rules are chosen: cardinal ones, unless it is said otherwise.
#[derive(Clone, Copy, Debug, Default, PartialEq, Eq)]
#[non_exhaustive]
pub struct PluralRulesOptions {
    /// The type of the rules, which is cardinal if there is none.
    pub rule_type: Option<PluralRuleType>,
}

impl PluralRulesOptions {
    /// The options with this type.
    pub fn with_type(mut self, rule_type: PluralRuleType) -> Self {
        self.rule_type = Some(rule_type);
        self
    }
}

impl From<PluralRuleType> for PluralRulesOptions {
    fn from(rule_type: PluralRuleType) -> Self {
        PluralRulesOptions::default().with_type(rule_type)
    }
}

/// The rules of a language.
///
/// ```
/// use plurals::{PluralCategory, PluralRuleType, PluralRules};
///
/// let rules = PluralRules::try_new(plurals::CLDR, "en", PluralRuleType::Ordinal.into())?;
/// assert_eq!(rules.category_for(22), PluralCategory::Two);
/// assert_eq!(rules.category_for(12), PluralCategory::Other);
/// # Ok::<(), plurals::PluralsError>(())
/// ```
#[derive(Clone, Debug, PartialEq, Eq)]
pub struct PluralRules {
    /// Bytes that the library wrote, so it reads them without a fault.
    block: Vec<u8>,
}

impl PluralRules {
    /// The rules that a document has for the first locale of the chain: those of `ru` for `ru_RU`, as [`find_locale`] tells. The rules of
    /// `root` are for a language that the document has for the other type of numbers, and for `root`; any other language is the fault
    /// -75, whose text names the locale.
    ///
    /// ```
    /// use plurals::{PluralCategory, PluralRules, CLDR};
    ///
    /// let rules = PluralRules::of_locale(CLDR, "sr-Latn-RS", Default::default())?;
    /// assert_eq!(rules.category_for(3), PluralCategory::Few);
    /// let fault = PluralRules::of_locale(CLDR, "xx", Default::default()).unwrap_err();
    /// assert!(fault.to_string().ends_with(r#"for the locale "xx""#));
    /// # Ok::<(), plurals::PluralsError>(())
    /// ```
    pub fn of_locale(document: &str, locale: &str, options: PluralRulesOptions) -> Result<PluralRules, PluralsError> {
        let part = match options.rule_type {
            None | Some(PluralRuleType::Cardinal) => Part::Cardinal,
            Some(PluralRuleType::Ordinal) => Part::Ordinal,
        };
        locales::read(document, locale, part, |key| PluralRules::try_new(document, key, options))
    }

    /// The rules that a document has for a locale, which is compared byte by byte.
    pub fn try_new(document: &str, locale: &str, options: PluralRulesOptions) -> Result<PluralRules, PluralsError> {
        match options.rule_type {
            None | Some(PluralRuleType::Cardinal) => PluralRules::try_new_cardinal(document, locale),
            Some(PluralRuleType::Ordinal) => PluralRules::try_new_ordinal(document, locale),
        }
    }

    /// Its cardinal rules.
    pub fn try_new_cardinal(document: &str, locale: &str) -> Result<PluralRules, PluralsError> {
        PluralRules::read(document, locale, Part::Cardinal)
    }

    /// Its ordinal rules.
    pub fn try_new_ordinal(document: &str, locale: &str) -> Result<PluralRules, PluralsError> {
        PluralRules::read(document, locale, Part::Ordinal)
    }

    fn read(document: &str, locale: &str, part: Part) -> Result<PluralRules, PluralsError> {
        let block = ffi::rules_from_document(document, locale, part as u8).map_err(|error| error.naming(locale))?;
        Ok(PluralRules { block })
    }

    /// The rules of five texts, from zero to many. An empty text isn't a rule.
    pub fn try_from_texts(texts: [&str; 5]) -> Result<PluralRules, PluralsError> {
        Ok(PluralRules { block: ffi::rules_from_texts(texts)? })
    }

    /// The category of a number.
    ///
    /// # Panics
    ///
    /// If there is no memory. An integer of at most 64 bits takes none.
    pub fn category_for(&self, number: impl Into<PluralOperands>) -> PluralCategory {
        let found = match number.into().0 {
            Written::Integer(number) => ffi::category_of_integer(&self.block, number),
            Written::Text(text) => ffi::category(&self.block, &text),
        };
        PluralCategory::of(found.unwrap_or_else(|error| panic!("{error}")))
    }

    /// The category of each integer, in their order. The block of the rules is checked once.
    ///
    /// ```
    /// use plurals::PluralCategory::{Few, Many, One};
    ///
    /// let rules = plurals::PluralRules::try_new_cardinal(plurals::CLDR, "pl")?;
    /// assert_eq!(rules.categories_for_integers(&[1, 3, 5]), [One, Few, Many]);
    /// # Ok::<(), plurals::PluralsError>(())
    /// ```
    pub fn categories_for_integers(&self, numbers: &[u64]) -> Vec<PluralCategory> {
        let found = ffi::categories_of_integers(&self.block, numbers).unwrap_or_else(|error| panic!("{error}"));
        found.into_iter().map(|it| PluralCategory::of(it.into())).collect()
    }

    /// The table of the categories of integers under these rules, for who asks for many. Making it takes as long as some 200 categories.
    pub fn to_table(&self) -> CategoryTable {
        CategoryTable::from_bytes(ffi::table_of_rules(&self.block).unwrap_or_else(|error| panic!("{error}")))
    }

    /// The category of a number, unless it may be another one for all its digits.
    ///
    /// # Panics
    ///
    /// If there is no memory.
    pub fn sure_category_for(&self, number: impl Into<PluralOperands>) -> Option<PluralCategory> {
        const OUTSIDE_BOUND: i64 = -12;
        match ffi::sure_category(&self.block, &number.into().0.text()) {
            Ok(found) => Some(PluralCategory::of(found)),
            Err(error) if error.number() == OUTSIDE_BOUND => None,
            Err(error) => panic!("{error}"),
        }
    }

    /// The category of six numbers.
    pub fn category_for_operands(&self, operands: RawPluralOperands) -> PluralCategory {
        PluralCategory::of(ffi::category_of_operands(&self.block, &operands).unwrap_or_else(|error| panic!("{error}")))
    }

    /// The categories that a number may have, from zero to other.
    ///
    /// ```
    /// use plurals::PluralCategory::{Few, Many, One, Other};
    ///
    /// let rules = plurals::PluralRules::try_new_cardinal(plurals::CLDR, "pl")?;
    /// assert_eq!(rules.categories().collect::<Vec<_>>(), [One, Few, Many, Other]);
    /// # Ok::<(), plurals::PluralsError>(())
    /// ```
    pub fn categories(&self) -> impl Iterator<Item = PluralCategory> {
        let bits = ffi::categories(&self.block).unwrap_or_else(|error| panic!("{error}"));
        PluralCategory::all().filter(move |it| bits >> (*it as i32) & 1 == 1)
    }

    /// Whether the category of the number is that of all its digits, however many it has.
    ///
    /// # Panics
    ///
    /// If there is no memory.
    pub fn is_exact_for(&self, number: impl Into<PluralOperands>) -> bool {
        ffi::is_exact(&self.block, &number.into().0.text()).unwrap_or_else(|error| panic!("{error}"))
    }
}

/// Texts by category with a place for the number.
///
/// ```
/// let rules = plurals::PluralRules::try_new_cardinal(plurals::CLDR, "en")?;
/// let message = plurals::Message::from_json(r#"{"other":[0,"{} items"],"one":[0,"{} item"]}"#)?;
/// assert_eq!(message.format("1", &rules)?, "1 item");
/// assert_eq!(message.format("1.0", &rules)?, "1.0 items");
/// # Ok::<(), plurals::PluralsError>(())
/// ```
#[derive(Clone, Debug, PartialEq, Eq)]
pub struct Message {
    block: Vec<u8>,
}

impl Message {
    /// The texts of a JSON text.
    pub fn from_json(json: &str) -> Result<Message, PluralsError> {
        Ok(Message { block: ffi::elements_from_json(json)? })
    }

    /// The text that the number takes, with the number as it is written in the place of each `{}`.
    pub fn format(&self, number: &str, rules: &PluralRules) -> Result<String, PluralsError> {
        let text = ffi::message(&rules.block, &self.block, number)?;
        Ok(String::from_utf8(text).expect("the library writes UTF-8"))
    }
}

/// What an argument of a pattern is.
#[derive(Clone, Copy, Debug, PartialEq, Eq)]
pub enum Value<'a> {
    /// A number, as it is written.
    Number(&'a str),
    /// A text.
    Text(&'a str),
}

/// A value under a name.
#[derive(Clone, Copy, Debug, PartialEq, Eq)]
pub struct Argument<'a> {
    /// The name, as it stands in the pattern.
    pub name: &'a str,
    /// What it is.
    pub value: Value<'a>,
}

/// What a pattern of ICU's MessageFormat says with these arguments. A `plural` has its categories of the first rules, a
/// `selectordinal` of the second.
///
/// ```
/// use plurals::{Argument, PluralRules, Value, CLDR};
/// let (cardinal, ordinal) = (PluralRules::try_new_cardinal(CLDR, "en")?, PluralRules::try_new_ordinal(CLDR, "en")?);
/// let count = Argument { name: "count", value: Value::Number("1") };
/// let pattern = "{count, plural, =0 {no files} one {# file} other {# files}}";
/// assert_eq!(plurals::format_pattern(pattern, &[count], &cardinal, &ordinal)?, "1 file");
/// # Ok::<(), plurals::PluralsError>(())
/// ```
pub fn format_pattern(
    pattern: &str,
    arguments: &[Argument<'_>],
    cardinal: &PluralRules,
    ordinal: &PluralRules,
) -> Result<String, PluralsError> {
    let text = ffi::pattern_format(&cardinal.block, &ordinal.block, pattern, arguments)?;
    Ok(String::from_utf8(text).expect("the library writes UTF-8"))
}

/// A pattern as a block of bytes (docs/FORMATS.md), from which it is said without its text.
///
/// ```
/// use plurals::{Argument, PackedPattern, PluralRules, Value, CLDR};
/// let (cardinal, ordinal) = (PluralRules::try_new_cardinal(CLDR, "en")?, PluralRules::try_new_ordinal(CLDR, "en")?);
/// let pattern = PackedPattern::new("{count, plural, =0 {no files} one {# file} other {# files}}")?;
/// let pattern = PackedPattern::from_bytes(pattern.as_bytes())?;
/// for (count, text) in [("0", "no files"), ("1", "1 file"), ("1.0", "1.0 files")] {
///     let count = Argument { name: "count", value: Value::Number(count) };
///     assert_eq!(pattern.format(&[count], &cardinal, &ordinal)?, text);
/// }
/// assert_eq!(PackedPattern::new("{").unwrap_err().number(), -90);
/// assert_eq!(PackedPattern::from_bytes(&[1]).unwrap_err().number(), -120);
/// # Ok::<(), plurals::PluralsError>(())
/// ```
#[derive(Clone, Debug, PartialEq, Eq)]
pub struct PackedPattern {
    /// Bytes that are a block of a text, or were checked.
    block: Vec<u8>,
}

impl PackedPattern {
    /// The block of a pattern.
    pub fn new(pattern: &str) -> Result<PackedPattern, PluralsError> {
        Ok(PackedPattern { block: ffi::pattern_pack(pattern)? })
    }

    /// A copy of bytes that are the block of a pattern.
    pub fn from_bytes(bytes: &[u8]) -> Result<PackedPattern, PluralsError> {
        ffi::pattern_check(bytes)?;
        Ok(PackedPattern { block: bytes.to_vec() })
    }

    /// The bytes of the block.
    pub fn as_bytes(&self) -> &[u8] {
        &self.block
    }

    /// What it says with these arguments, as [`format_pattern`] does of the pattern. The error is also that it isn't UTF-8, of a block
    /// that [`PackedPattern::new`] hasn't made.
    pub fn format(&self, arguments: &[Argument<'_>], cardinal: &PluralRules, ordinal: &PluralRules) -> Result<String, PluralsError> {
        let text = ffi::packed_format(&cardinal.block, &ordinal.block, &self.block, arguments)?;
        String::from_utf8(text).map_err(|_| PluralsError::of(-2))
    }
}

/// A catalogue of messages (docs/FORMATS.md), borrowed from its bytes.
///
/// ```
/// use plurals::{Catalog, PluralRules, CLDR};
/// let rules = PluralRules::try_new_cardinal(CLDR, "en")?;
/// let bytes = b"\x01\0\0\0\x02\0\0\0\x0b\0\0\0hi\x01\0\0\0hello";
/// let catalog = Catalog::from_bytes(bytes)?;
/// assert_eq!(catalog.say("hi", &[], &rules, &rules)?, "hello");
/// assert_eq!(catalog.say("ho", &[], &rules, &rules).unwrap_err().to_string(), "no message has the key");
/// assert_eq!(Catalog::from_bytes(&bytes[1..]).unwrap_err().number(), -140);
/// # Ok::<(), plurals::PluralsError>(())
/// ```
#[derive(Clone, Copy, Debug, PartialEq, Eq)]
pub struct Catalog<'a> {
    /// Bytes that were checked.
    bytes: &'a [u8],
}

impl<'a> Catalog<'a> {
    /// The bytes of the catalogue of the patterns that a JSON document of messages has for a locale, which is compared byte by byte; an
    /// empty one is its only one.
    ///
    /// ```
    /// use plurals::{Catalog, PluralRules, CLDR};
    /// let rules = PluralRules::try_new_cardinal(CLDR, "en")?;
    /// let messages = r#"{"en": {"patterns": {"files": "{n, plural, one {# file} other {# files}}"}}}"#;
    /// let bytes = Catalog::pack(messages, "en")?;
    /// let said = Catalog::from_bytes(&bytes)?.say("files", &[plurals::Argument { name: "n", value: plurals::Value::Number("1") }], &rules, &rules)?;
    /// assert_eq!(said, "1 file");
    /// assert_eq!(Catalog::pack(messages, "ru").unwrap_err().to_string(), "the document has no messages for the locale");
    /// # Ok::<(), plurals::PluralsError>(())
    /// ```
    pub fn pack(messages: &str, locale: &str) -> Result<Vec<u8>, PluralsError> {
        ffi::catalog_pack(messages, locale)
    }

    /// The catalogue of bytes that are one.
    pub fn from_bytes(bytes: &'a [u8]) -> Result<Catalog<'a>, PluralsError> {
        ffi::catalog_check(bytes)?;
        Ok(Catalog { bytes })
    }

    /// What the message under a key says with these arguments, as [`format_pattern`] does of its pattern. The error is also that no
    /// message has the key, or that it isn't UTF-8.
    pub fn say(&self, key: &str, arguments: &[Argument<'_>], cardinal: &PluralRules, ordinal: &PluralRules) -> Result<String, PluralsError> {
        let text = ffi::catalog_say(&cardinal.block, &ordinal.block, self.bytes, key, arguments)?;
        String::from_utf8(text).map_err(|_| PluralsError::of(-2))
    }
}
