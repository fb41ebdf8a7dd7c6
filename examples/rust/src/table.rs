//! Tables of the categories of integers.
use crate::{ffi, PluralCategory, PluralsError};

/// The categories of integers under some rules, as 236 bytes: asking takes one step, whatever the language.
///
/// ```
/// use plurals::PluralCategory;
///
/// let rules = plurals::PluralRules::try_new_cardinal(plurals::CLDR, "fr")?;
/// let table = rules.to_table();
/// assert_eq!(table.category_for_integer(1), Some(PluralCategory::One));
/// // Of the numbers that end in 00, some are many in French, so the rules are asked.
/// assert_eq!(table.category_for_integer(1_000_000), None);
/// let category = |number| table.category_for_integer(number).unwrap_or_else(|| rules.category_for(number));
/// assert_eq!(category(1_000_000), PluralCategory::Many);
/// # Ok::<(), plurals::PluralsError>(())
/// ```
#[derive(Clone, Copy, Debug, PartialEq, Eq, Hash)]
pub struct CategoryTable {
    bytes: [u8; CategoryTable::LENGTH],
}

impl CategoryTable {
    /// How many bytes a table has.
    pub const LENGTH: usize = 236;

    /// The table in these bytes. What they hold isn't checked: any are a table, which may be that of no rules.
    pub fn from_bytes(bytes: [u8; CategoryTable::LENGTH]) -> CategoryTable {
        CategoryTable { bytes }
    }

    /// The bytes of the table.
    pub fn as_bytes(&self) -> &[u8; CategoryTable::LENGTH] {
        &self.bytes
    }

    /// The category that the table has for an integer; `None` if the rules have to be asked. If it is that of some rules, the category is
    /// the one that they choose, and each number below 128 has one.
    pub fn category_for_integer(&self, number: u64) -> Option<PluralCategory> {
        // The length is right, so there is no fault.
        let found = ffi::category_by_table(&self.bytes, number).unwrap_or_else(|error| panic!("{error}"));
        PluralCategory::all().find(|it| *it as i32 == found)
    }

    /// The same of the whole number that a text writes in digits; `None` also of any other text.
    ///
    /// ```
    /// use plurals::PluralCategory;
    ///
    /// let table = plurals::PluralRules::try_new_cardinal(plurals::CLDR, "ru")?.to_table();
    /// assert_eq!(table.category_for_text("+0022"), Some(PluralCategory::Few));
    /// assert_eq!(table.category_for_text("22.0"), None);
    /// # Ok::<(), plurals::PluralsError>(())
    /// ```
    pub fn category_for_text(&self, text: &str) -> Option<PluralCategory> {
        // The length is right, and the text is UTF-8, so there is no fault.
        let found = ffi::text_category_by_table(&self.bytes, text).unwrap_or_else(|error| panic!("{error}"));
        PluralCategory::all().find(|it| *it as i32 == found)
    }
}

impl TryFrom<&[u8]> for CategoryTable {
    type Error = PluralsError;

    /// The table in these bytes, if they are 236; else the error has the number -80.
    fn try_from(bytes: &[u8]) -> Result<CategoryTable, PluralsError> {
        ffi::category_by_table(bytes, 0)?;
        Ok(CategoryTable { bytes: bytes.try_into().expect("a table has 236 bytes") })
    }
}
