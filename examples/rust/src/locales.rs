//! What a document has for a locale, by the locale itself or by its chain.
use crate::{ffi, PluralsError};

/// A part of a document.
#[derive(Clone, Copy, Debug, PartialEq, Eq, Hash)]
#[repr(u8)]
pub enum Part {
    /// The rules for cardinal numbers.
    Cardinal = 0,
    /// The rules for ordinal numbers.
    Ordinal = 1,
    /// The categories of ranges.
    Ranges = 2,
}

/// The key by which a document has a locale: the first of the locale's chain. Of a language that the document doesn't have it is `root`,
/// if the document has that.
///
/// ```
/// use plurals::{find_locale, Part, CLDR};
///
/// assert_eq!(find_locale(CLDR, "ru_RU", Part::Cardinal)?, "ru");
/// assert_eq!(find_locale(CLDR, "pt_AO", Part::Cardinal)?, "pt-PT");
/// assert_eq!(find_locale(CLDR, "pt_AO", Part::Ranges)?, "pt");
/// assert_eq!(find_locale(CLDR, "xx", Part::Cardinal)?, "root");
/// # Ok::<(), plurals::PluralsError>(())
/// ```
pub fn find_locale(document: &str, locale: &str, part: Part) -> Result<String, PluralsError> {
    let key = ffi::find_locale(document, locale, part as u8).map_err(|error| error.naming(locale))?;
    Ok(String::from_utf8(key).expect("a key of JSON is UTF-8"))
}

/// What a call reads for a locale, else for the key of its chain, of which `root` is only for a language that is known.
pub(crate) fn read<T>(
    document: &str,
    locale: &str,
    part: Part,
    of_key: impl Fn(&str) -> Result<T, PluralsError>,
) -> Result<T, PluralsError> {
    match of_key(locale) {
        Err(error) if error.is_of_locale() => {}
        found => return found,
    }
    let key = find_locale(document, locale, part)?;
    if is_root(&key) && !is_known(document, locale)? {
        return Err(PluralsError::of_locale(locale));
    }
    of_key(&key)
}

fn is_root(name: &str) -> bool {
    name.eq_ignore_ascii_case("root")
}

/// Whether a document has another key than `root` for a locale, or `root` was asked for.
fn is_known(document: &str, locale: &str) -> Result<bool, PluralsError> {
    let language = locale.split(['-', '_']).next().unwrap_or("");
    if is_root(language) || language.eq_ignore_ascii_case("und") {
        return Ok(true);
    }
    for part in [Part::Cardinal, Part::Ordinal] {
        match find_locale(document, locale, part) {
            Ok(key) if is_root(&key) => {}
            Ok(_) => return Ok(true),
            Err(error) if error.is_of_locale() => {}
            Err(error) => return Err(error),
        }
    }
    Ok(false)
}
