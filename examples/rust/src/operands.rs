//! Numbers as they are written.
use crate::{ffi, PluralsError};
use std::str::FromStr;

/// What a plural rule can ask of a number: its integer digits, its fraction digits with their zeros, and its compact exponent. Two
/// numbers with the same are equal: `"2".parse()` and `2.into()` are, `"2.0".parse()` isn't. The sign and leading zeros don't count.
///
/// There is no conversion from a floating-point number, which doesn't say how many fraction digits are shown.
///
/// ```
/// use plurals::PluralOperands;
///
/// assert_eq!("0123.45".parse::<PluralOperands>(), "-123.45".parse());
/// assert_ne!("123.4".parse::<PluralOperands>(), "123.40".parse());
/// ```
#[derive(Clone, Debug, PartialEq, Eq, Hash)]
pub struct PluralOperands(pub(crate) Written);

/// Six numbers, for callers that format numbers themselves: what [`PluralRules::category_for_operands`] is asked by. Any six are
/// allowed, also those of no number.
///
/// [`PluralRules::category_for_operands`]: crate::PluralRules::category_for_operands
#[derive(Clone, Copy, Debug, Default, PartialEq, Eq, Hash)]
pub struct RawPluralOperands {
    /// The integer part.
    pub i: u64,
    /// How many fraction digits are shown.
    pub v: usize,
    /// How many fraction digits are shown, without the zeros at the end.
    pub w: usize,
    /// The fraction digits as a number.
    pub f: u64,
    /// The fraction digits without the zeros at the end as a number.
    pub t: u64,
    /// The compact exponent.
    pub c: usize,
}

#[derive(Clone, Debug, PartialEq, Eq, Hash)]
pub(crate) enum Written {
    Integer(u64),
    /// A number that the library reads, without what doesn't count.
    Text(String),
}

impl Written {
    pub(crate) fn text(&self) -> String {
        match self {
            Written::Integer(number) => number.to_string(),
            Written::Text(text) => text.clone(),
        }
    }
}

/// The text without what no operand sees. The library has read it: a sign, digits with a point, an exponent of at most 255.
fn without_what_does_not_count(text: &str) -> Written {
    let text = text.trim_start_matches(|it| it == '+' || it == '-');
    let (digits, exponent) = text.split_once('c').unwrap_or((text, "0"));
    let (integer, fraction) = digits.split_once('.').unwrap_or((digits, ""));
    let integer = integer.trim_start_matches('0');
    let exponent = exponent.trim_start_matches('0');
    let shift = exponent.parse::<usize>().unwrap_or(0);
    // What the exponent moves to the left of the point is shown without its zeros at the end.
    let fraction = if fraction.len() <= shift { fraction.trim_end_matches('0') } else { fraction };
    if fraction.is_empty() && exponent.is_empty() {
        if let Ok(number) = if integer.is_empty() { Ok(0) } else { integer.parse() } {
            return Written::Integer(number);
        }
    }
    let mut written = if integer.is_empty() { "0".to_string() } else { integer.to_string() };
    if !fraction.is_empty() {
        written = written + "." + fraction;
    }
    if !exponent.is_empty() {
        written = written + "c" + exponent;
    }
    Written::Text(written)
}

impl FromStr for PluralOperands {
    type Err = PluralsError;

    /// Reads a decimal, with or without a compact exponent as in `1.2c6`.
    fn from_str(text: &str) -> Result<Self, PluralsError> {
        // Under no rules every number has a category, so this tells whether the text is a number.
        ffi::category(&[], text)?;
        Ok(PluralOperands(without_what_does_not_count(text)))
    }
}

macro_rules! from_integers {
    ($($unsigned:ident $signed:ident),*) => {$(
        impl From<$unsigned> for PluralOperands {
            fn from(number: $unsigned) -> Self {
                PluralOperands(match u64::try_from(number) {
                    Ok(number) => Written::Integer(number),
                    Err(_) => Written::Text(number.to_string()),
                })
            }
        }

        impl From<$signed> for PluralOperands {
            fn from(number: $signed) -> Self {
                number.unsigned_abs().into()
            }
        }
    )*};
}

from_integers!(u8 i8, u16 i16, u32 i32, u64 i64, u128 i128, usize isize);
