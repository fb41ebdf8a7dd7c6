//! Categories of ranges.
use crate::operands::PluralOperands;
use crate::{ffi, locales, Part, PluralCategory, PluralRules, PluralsError};

/// The rules of a language with the categories of its ranges (UTS 35 Part 3, Plural Ranges).
///
/// ```
/// use plurals::{PluralCategory, PluralRulesWithRanges};
///
/// let document = r#"{"cardinal":{"x":{"one":"i = 1"}},"ranges":{"x":{"ranges":{"one--other":"few"}}}}"#;
/// let rules = PluralRulesWithRanges::try_new_cardinal(document, "x")?;
/// assert_eq!(rules.category_for_range(1, 3), PluralCategory::Few);
/// assert_eq!(rules.category_for_range(0, 1), PluralCategory::One);
/// # Ok::<(), plurals::PluralsError>(())
/// ```
#[derive(Clone, Debug, PartialEq, Eq)]
pub struct PluralRulesWithRanges {
    rules: PluralRules,
    table: [u8; 36],
}

impl PluralRulesWithRanges {
    /// The cardinal rules of a locale, and its ranges, each as [`PluralRules::of_locale`] finds them.
    pub fn of_locale(document: &str, locale: &str) -> Result<Self, PluralsError> {
        let rules = PluralRules::of_locale(document, locale, Default::default())?;
        locales::read(document, locale, Part::Ranges, |key| Self::try_new_with_rules(document, key, rules.clone()))
    }

    /// The cardinal rules and the ranges that a document has for a locale, which is compared byte by byte.
    pub fn try_new_cardinal(document: &str, locale: &str) -> Result<Self, PluralsError> {
        let rules = PluralRules::try_new_cardinal(document, locale)?;
        Self::try_new_with_rules(document, locale, rules)
    }

    /// These rules, and the ranges that a document has for a locale.
    pub fn try_new_with_rules(document: &str, locale: &str, rules: PluralRules) -> Result<Self, PluralsError> {
        let table = ffi::ranges_from_document(document, locale).map_err(|error| error.naming(locale))?;
        Ok(PluralRulesWithRanges { rules, table })
    }

    /// The rules.
    pub fn rules(&self) -> &PluralRules {
        &self.rules
    }

    /// The category of a range, by those of its start and its end: the pair's, if the document has one, else the end's.
    pub fn resolve_range(&self, start: PluralCategory, end: PluralCategory) -> PluralCategory {
        PluralCategory::of(self.table[6 * start as usize + end as usize].into())
    }

    /// The category of a range of numbers.
    ///
    /// # Panics
    ///
    /// If there is no memory. Integers of at most 64 bits take none.
    pub fn category_for_range(&self, start: impl Into<PluralOperands>, end: impl Into<PluralOperands>) -> PluralCategory {
        self.resolve_range(self.rules.category_for(start), self.rules.category_for(end))
    }
}
