//! The values of literals, by the calls of the library.
use crate::escape::EscapeError;
use ras_sys as raw;

type OfString = unsafe extern "C" fn(*const u8, usize, *mut u8, usize, *mut u32) -> u32;
type OfSign = unsafe extern "C" fn(*const u8, usize, *mut u32) -> u32;

// The answer of a call with this status.
fn answered<V>(status: u32, value: V) -> Result<V, EscapeError> {
    match (status, status.checked_sub(raw::FAULT).and_then(EscapeError::of_number)) {
        (raw::OK, _) => Ok(value),
        (_, Some(fault)) => Err(fault),
        // The text is UTF-8, shorter than 2^32 bytes, and not longer than the buffer, so memory ran out.
        _ => panic!("no memory for the value of a literal"),
    }
}

fn of_string(text: &str, call: OfString) -> Result<Vec<u8>, EscapeError> {
    crate::version::check();
    // A value is at most as long as the text.
    let (mut value, mut count) = (vec![0; text.len()], 0);
    // SAFETY: each pointer is to as many elements as is said, and no two buffers overlap.
    let status = unsafe { call(text.as_ptr(), text.len(), value.as_mut_ptr(), value.len(), &mut count) };
    value.truncate(count as usize);
    answered(status, value)
}

fn of_sign(text: &str, call: OfSign) -> Result<u32, EscapeError> {
    crate::version::check();
    let mut value = 0;
    // SAFETY: as above.
    let status = unsafe { call(text.as_ptr(), text.len(), &mut value) };
    answered(status, value)
}

pub(crate) fn string(text: &str) -> Result<String, EscapeError> {
    let bytes = of_string(text, raw::ras_c_string_value)?;
    Ok(String::from_utf8(bytes).expect("the value of a string is UTF-8"))
}

pub(crate) fn byte_string(text: &str) -> Result<Vec<u8>, EscapeError> {
    of_string(text, raw::ras_c_byte_string_value)
}

pub(crate) fn c_string(text: &str) -> Result<Vec<u8>, EscapeError> {
    of_string(text, raw::ras_c_c_string_value)
}

pub(crate) fn character(text: &str) -> Result<char, EscapeError> {
    let value = of_sign(text, raw::ras_c_char_value)?;
    Ok(char::from_u32(value).expect("the value of a character is one"))
}

pub(crate) fn byte(text: &str) -> Result<u8, EscapeError> {
    let value = of_sign(text, raw::ras_c_byte_value)?;
    Ok(u8::try_from(value).expect("the value of a byte is one"))
}

/// The value of an integer by the library, and `None` where it has none. [`IntNumber::value`](crate::ast::IntNumber::value) has the error
/// of the standard library; a test compares both.
#[cfg(test)]
fn int(text: &str) -> Option<u128> {
    let (mut high, mut low) = (0, 0);
    // SAFETY: as above.
    let status = unsafe { raw::ras_c_int_value(text.as_ptr(), text.len(), &mut high, &mut low) };
    (status == raw::OK).then_some(u128::from(high) << 64 | u128::from(low))
}

#[test]
fn integers_are_those_of_the_library() {
    use crate::ast::{AstToken, IntNumber};
    use crate::{AstNode, Edition, SourceFile};
    let largest = u128::MAX.to_string();
    for text in ["0", "1_000", "0x_ff", "0b102", "0o17u8", "0xfg", "0b", "1__u64", "0xFFFF_FFFF_FFFF_FFFF_0", &largest, "340282366920938463463374607431768211456"] {
        let file = SourceFile::parse(&format!("const A: T = {text};"), Edition::CURRENT).tree();
        let number = file.syntax().descendants_with_tokens().filter_map(|it| IntNumber::cast(it.into_token()?)).next().unwrap();
        assert_eq!(AstToken::text(&number), text);
        assert_eq!(number.value().ok(), int(text), "{text}");
    }
}
