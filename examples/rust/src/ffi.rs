//! The calls of `plurals.h`, over slices. All that is unsafe is here.
#![allow(unsafe_code)]
use crate::{Argument, PluralsError, RawPluralOperands, Value};

mod raw {
    #[repr(C)]
    pub struct Argument {
        pub name: *const u8,
        pub name_len: usize,
        pub value: *const u8,
        pub value_len: usize,
        pub kind: u32,
    }

    extern "C" {
        #[rustfmt::skip]
        pub fn plurals_rules_from_document(
            json: *const u8, json_len: usize, locale: *const u8, locale_len: usize, rule_type: u8, out: *mut u8, out_len: usize,
        ) -> i64;
        #[rustfmt::skip]
        pub fn plurals_find_locale(
            json: *const u8, json_len: usize, locale: *const u8, locale_len: usize, part: u8, out: *mut u8, out_len: usize,
        ) -> i64;
        #[rustfmt::skip]
        pub fn plurals_rules_from_texts(
            zero: *const u8, zero_len: usize, one: *const u8, one_len: usize, two: *const u8, two_len: usize,
            few: *const u8, few_len: usize, many: *const u8, many_len: usize, out: *mut u8, out_len: usize,
        ) -> i64;
        #[rustfmt::skip]
        pub fn plurals_ranges_from_document(
            json: *const u8, json_len: usize, locale: *const u8, locale_len: usize, out: *mut u8, out_len: usize,
        ) -> i64;
        pub fn plurals_categories(rules: *const u8, rules_len: usize) -> i32;
        #[rustfmt::skip]
        pub fn plurals_category_of_operands(
            rules: *const u8, rules_len: usize, i: u64, v: usize, w: usize, f: u64, t: u64, c: usize,
        ) -> i32;
        pub fn plurals_category_of_integer(rules: *const u8, rules_len: usize, number: u64) -> i32;
        #[rustfmt::skip]
        pub fn plurals_categories_of_integers(
            rules: *const u8, rules_len: usize, numbers: *const u64, numbers_len: usize, out: *mut u8, out_len: usize,
        ) -> i64;
        pub fn plurals_table_of_rules(rules: *const u8, rules_len: usize, out: *mut u8, out_len: usize) -> i64;
        pub fn plurals_category_by_table(table: *const u8, table_len: usize, number: u64) -> i32;
        #[rustfmt::skip]
        pub fn plurals_text_category_by_table(
            table: *const u8, table_len: usize, text: *const u8, text_len: usize,
        ) -> i32;
        pub fn plurals_category(rules: *const u8, rules_len: usize, number: *const u8, number_len: usize) -> i32;
        pub fn plurals_sure_category(rules: *const u8, rules_len: usize, number: *const u8, number_len: usize) -> i32;
        pub fn plurals_is_exact(rules: *const u8, rules_len: usize, number: *const u8, number_len: usize) -> i32;
        pub fn plurals_elements_from_json(json: *const u8, json_len: usize, out: *mut u8, out_len: usize) -> i64;
        #[rustfmt::skip]
        pub fn plurals_element(
            rules: *const u8, rules_len: usize, elements: *const u8, elements_len: usize, number: *const u8, number_len: usize,
            out: *mut u8, out_len: usize,
        ) -> i64;
        #[rustfmt::skip]
        pub fn plurals_message(
            rules: *const u8, rules_len: usize, elements: *const u8, elements_len: usize, number: *const u8, number_len: usize,
            out: *mut u8, out_len: usize,
        ) -> i64;
        #[rustfmt::skip]
        pub fn plurals_pattern_format(
            cardinal: *const u8, cardinal_len: usize, ordinal: *const u8, ordinal_len: usize, pattern: *const u8, pattern_len: usize,
            arguments: *const Argument, arguments_len: usize, out: *mut u8, out_len: usize,
        ) -> i64;
        pub fn plurals_pattern_pack(pattern: *const u8, pattern_len: usize, out: *mut u8, out_len: usize) -> i64;
        pub fn plurals_pattern_check(block: *const u8, block_len: usize) -> i32;
        #[rustfmt::skip]
        pub fn plurals_packed_format(
            cardinal: *const u8, cardinal_len: usize, ordinal: *const u8, ordinal_len: usize, block: *const u8, block_len: usize,
            arguments: *const Argument, arguments_len: usize, out: *mut u8, out_len: usize,
        ) -> i64;
        #[rustfmt::skip]
        pub fn plurals_catalog_pack(
            json: *const u8, json_len: usize, locale: *const u8, locale_len: usize, out: *mut u8, out_len: usize,
        ) -> i64;
        pub fn plurals_catalog_check(catalog: *const u8, catalog_len: usize) -> i32;
        #[rustfmt::skip]
        pub fn plurals_catalog_say(
            cardinal: *const u8, cardinal_len: usize, ordinal: *const u8, ordinal_len: usize, catalog: *const u8, catalog_len: usize,
            key: *const u8, key_len: usize, arguments: *const Argument, arguments_len: usize, out: *mut u8, out_len: usize,
        ) -> i64;
        pub fn plurals_fault_text(fault: i64) -> *const std::os::raw::c_char;
    }
}

/// What a call writes.
fn written(call: impl Fn(&mut [u8]) -> i64) -> Result<Vec<u8>, PluralsError> {
    written_to(vec![0; 256], call)
}

/// What a call writes: it is called again if its result has no room.
fn written_to(mut out: Vec<u8>, call: impl Fn(&mut [u8]) -> i64) -> Result<Vec<u8>, PluralsError> {
    loop {
        let length = call(&mut out);
        let length = usize::try_from(length).map_err(|_| PluralsError::of(length))?;
        let had_room = length <= out.len();
        out.resize(length, 0);
        if had_room {
            return Ok(out);
        }
    }
}

fn checked(result: i32) -> Result<i32, PluralsError> {
    if result < 0 {
        Err(PluralsError::of(result.into()))
    } else {
        Ok(result)
    }
}

// Safety of each call below: a pointer and a length are those of one slice; the buffer is a unique slice, so it overlaps no other;
// nothing is kept after the call.

pub fn rules_from_document(json: &str, locale: &str, rule_type: u8) -> Result<Vec<u8>, PluralsError> {
    written(|out| unsafe {
        let (json, json_len) = (json.as_ptr(), json.len());
        raw::plurals_rules_from_document(json, json_len, locale.as_ptr(), locale.len(), rule_type, out.as_mut_ptr(), out.len())
    })
}

pub fn find_locale(json: &str, locale: &str, part: u8) -> Result<Vec<u8>, PluralsError> {
    written(|out| unsafe {
        let (json, json_len) = (json.as_ptr(), json.len());
        raw::plurals_find_locale(json, json_len, locale.as_ptr(), locale.len(), part, out.as_mut_ptr(), out.len())
    })
}

pub fn rules_from_texts(texts: [&str; 5]) -> Result<Vec<u8>, PluralsError> {
    let [zero, one, two, few, many] = texts;
    #[rustfmt::skip]
    let found = written(|out| unsafe {
        raw::plurals_rules_from_texts(
            zero.as_ptr(), zero.len(), one.as_ptr(), one.len(), two.as_ptr(), two.len(), few.as_ptr(), few.len(),
            many.as_ptr(), many.len(), out.as_mut_ptr(), out.len(),
        )
    });
    found
}

pub fn ranges_from_document(json: &str, locale: &str) -> Result<[u8; 36], PluralsError> {
    let found = written(|out| unsafe {
        let (json, json_len) = (json.as_ptr(), json.len());
        raw::plurals_ranges_from_document(json, json_len, locale.as_ptr(), locale.len(), out.as_mut_ptr(), out.len())
    })?;
    Ok(found.try_into().expect("the table has 36 bytes"))
}

pub fn categories(rules: &[u8]) -> Result<i32, PluralsError> {
    checked(unsafe { raw::plurals_categories(rules.as_ptr(), rules.len()) })
}

pub fn category_of_operands(rules: &[u8], of: &RawPluralOperands) -> Result<i32, PluralsError> {
    checked(unsafe { raw::plurals_category_of_operands(rules.as_ptr(), rules.len(), of.i, of.v, of.w, of.f, of.t, of.c) })
}

pub fn category_of_integer(rules: &[u8], number: u64) -> Result<i32, PluralsError> {
    checked(unsafe { raw::plurals_category_of_integer(rules.as_ptr(), rules.len(), number) })
}

pub fn categories_of_integers(rules: &[u8], numbers: &[u64]) -> Result<Vec<u8>, PluralsError> {
    written_to(vec![0; numbers.len()], |out| unsafe {
        let (from, from_len) = (numbers.as_ptr(), numbers.len());
        raw::plurals_categories_of_integers(rules.as_ptr(), rules.len(), from, from_len, out.as_mut_ptr(), out.len())
    })
}

pub fn table_of_rules(rules: &[u8]) -> Result<[u8; 236], PluralsError> {
    let found = written(|out| unsafe { raw::plurals_table_of_rules(rules.as_ptr(), rules.len(), out.as_mut_ptr(), out.len()) })?;
    Ok(found.try_into().expect("the table has 236 bytes"))
}

/// 6 where the rules have to be asked.
pub fn category_by_table(table: &[u8], number: u64) -> Result<i32, PluralsError> {
    checked(unsafe { raw::plurals_category_by_table(table.as_ptr(), table.len(), number) })
}

/// 6 also of a text that writes no whole number.
pub fn text_category_by_table(table: &[u8], text: &str) -> Result<i32, PluralsError> {
    checked(unsafe { raw::plurals_text_category_by_table(table.as_ptr(), table.len(), text.as_ptr(), text.len()) })
}

pub fn category(rules: &[u8], number: &str) -> Result<i32, PluralsError> {
    checked(unsafe { raw::plurals_category(rules.as_ptr(), rules.len(), number.as_ptr(), number.len()) })
}

pub fn sure_category(rules: &[u8], number: &str) -> Result<i32, PluralsError> {
    checked(unsafe { raw::plurals_sure_category(rules.as_ptr(), rules.len(), number.as_ptr(), number.len()) })
}

pub fn is_exact(rules: &[u8], number: &str) -> Result<bool, PluralsError> {
    let found = checked(unsafe { raw::plurals_is_exact(rules.as_ptr(), rules.len(), number.as_ptr(), number.len()) })?;
    Ok(found == 1)
}

pub fn elements_from_json(json: &str) -> Result<Vec<u8>, PluralsError> {
    written(|out| unsafe { raw::plurals_elements_from_json(json.as_ptr(), json.len(), out.as_mut_ptr(), out.len()) })
}

pub fn element(rules: &[u8], elements: &[u8], number: &str) -> Result<Vec<u8>, PluralsError> {
    #[rustfmt::skip]
    let found = written(|out| unsafe {
        raw::plurals_element(
            rules.as_ptr(), rules.len(), elements.as_ptr(), elements.len(), number.as_ptr(), number.len(),
            out.as_mut_ptr(), out.len(),
        )
    });
    found
}

pub fn message(rules: &[u8], elements: &[u8], number: &str) -> Result<Vec<u8>, PluralsError> {
    #[rustfmt::skip]
    let found = written(|out| unsafe {
        raw::plurals_message(
            rules.as_ptr(), rules.len(), elements.as_ptr(), elements.len(), number.as_ptr(), number.len(),
            out.as_mut_ptr(), out.len(),
        )
    });
    found
}

fn argument(given: &Argument<'_>) -> raw::Argument {
    let (value, kind) = match given.value {
        Value::Number(number) => (number, 0),
        Value::Text(text) => (text, 1),
    };
    let (name, name_len) = (given.name.as_ptr(), given.name.len());
    raw::Argument { name, name_len, value: value.as_ptr(), value_len: value.len(), kind }
}

pub fn pattern_format(cardinal: &[u8], ordinal: &[u8], pattern: &str, given: &[Argument<'_>]) -> Result<Vec<u8>, PluralsError> {
    // The texts that these point to live as long as `given`.
    let arguments: Vec<_> = given.iter().map(argument).collect();
    #[rustfmt::skip]
    let found = written(|out| unsafe {
        raw::plurals_pattern_format(
            cardinal.as_ptr(), cardinal.len(), ordinal.as_ptr(), ordinal.len(), pattern.as_ptr(), pattern.len(),
            arguments.as_ptr(), arguments.len(), out.as_mut_ptr(), out.len(),
        )
    });
    found
}

pub fn pattern_pack(pattern: &str) -> Result<Vec<u8>, PluralsError> {
    written(|out| unsafe { raw::plurals_pattern_pack(pattern.as_ptr(), pattern.len(), out.as_mut_ptr(), out.len()) })
}

pub fn pattern_check(block: &[u8]) -> Result<(), PluralsError> {
    checked(unsafe { raw::plurals_pattern_check(block.as_ptr(), block.len()) }).map(|_| ())
}

pub fn packed_format(cardinal: &[u8], ordinal: &[u8], block: &[u8], given: &[Argument<'_>]) -> Result<Vec<u8>, PluralsError> {
    // The texts that these point to live as long as `given`.
    let arguments: Vec<_> = given.iter().map(argument).collect();
    #[rustfmt::skip]
    let found = written(|out| unsafe {
        raw::plurals_packed_format(
            cardinal.as_ptr(), cardinal.len(), ordinal.as_ptr(), ordinal.len(), block.as_ptr(), block.len(),
            arguments.as_ptr(), arguments.len(), out.as_mut_ptr(), out.len(),
        )
    });
    found
}

pub fn catalog_pack(json: &str, locale: &str) -> Result<Vec<u8>, PluralsError> {
    written(|out| unsafe {
        let (json, json_len) = (json.as_ptr(), json.len());
        raw::plurals_catalog_pack(json, json_len, locale.as_ptr(), locale.len(), out.as_mut_ptr(), out.len())
    })
}

pub fn catalog_check(catalog: &[u8]) -> Result<(), PluralsError> {
    checked(unsafe { raw::plurals_catalog_check(catalog.as_ptr(), catalog.len()) }).map(|_| ())
}

pub fn catalog_say(cardinal: &[u8], ordinal: &[u8], catalog: &[u8], key: &str, given: &[Argument<'_>]) -> Result<Vec<u8>, PluralsError> {
    // The texts that these point to live as long as `given`.
    let arguments: Vec<_> = given.iter().map(argument).collect();
    #[rustfmt::skip]
    let found = written(|out| unsafe {
        raw::plurals_catalog_say(
            cardinal.as_ptr(), cardinal.len(), ordinal.as_ptr(), ordinal.len(), catalog.as_ptr(), catalog.len(),
            key.as_ptr(), key.len(), arguments.as_ptr(), arguments.len(), out.as_mut_ptr(), out.len(),
        )
    });
    found
}

/// The library's text of a fault.
pub fn fault_text(fault: i64) -> &'static str {
    // Safety: the text is the library's own, ends with a byte 0, and lives as long as the library.
    let found = unsafe { raw::plurals_fault_text(fault) };
    if found.is_null() {
        return "unknown fault";
    }
    unsafe { std::ffi::CStr::from_ptr(found) }.to_str().unwrap_or("unknown fault")
}
