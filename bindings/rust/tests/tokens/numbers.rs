//! Integers and floating point numbers. Written by bindings/make from crates/typed_vectors/src/tokens.
use super::{Fail, typed};
use ras::SyntaxKind;
use ras::ast::{FloatNumber, IntNumber};
use ras::ast::Radix;

// An integer, its radix and its three parts.
type Parts = (
    &'static str,
    Radix,
    &'static str,
    &'static str,
    &'static str,
);

const PARTS: [Parts; 6] = [
    ("1_0_1_l_o_l", Radix::Decimal, "", "1_0_1_", "l_o_l"),
    ("0xffu32", Radix::Hexadecimal, "0x", "ff", "u32"),
    ("0b__1_0_", Radix::Binary, "0b", "__1_0_", ""),
    ("0o11", Radix::Octal, "0o", "11", ""),
    ("0XFF", Radix::Decimal, "", "0", "XFF"),
    ("", Radix::Decimal, "", "", ""),
];

fn has_parts(row: &Parts) -> Result<bool, Fail> {
    let number: IntNumber = typed(SyntaxKind::INT_NUMBER, row.0)?;
    let (prefix, digits, suffix) = number.split_into_parts();
    Ok(number.radix() == row.1 && prefix == row.2 && digits == row.3 && suffix == row.4)
}

#[test]
fn parts_of_integers() -> Result<(), Fail> {
    for row in &PARTS {
        assert!(has_parts(row)?, "in {}", row.0);
    }
    Ok(())
}

const SUFFIXES: [(&str, Option<&str>); 7] = [
    ("1_0_1_l_o_l", Some("l_o_l")),
    ("0xffu32", Some("u32")),
    ("0XFF", Some("XFF")),
    ("0b11u32", Some("u32")),
    ("0b11", None),
    ("0o11", None),
    ("0xff", None),
];

fn has_suffix(row: &(&'static str, Option<&'static str>)) -> Result<bool, Fail> {
    let number: IntNumber = typed(SyntaxKind::INT_NUMBER, row.0)?;
    Ok(number.suffix() == row.1)
}

#[test]
fn suffixes_of_integers() -> Result<(), Fail> {
    for row in &SUFFIXES {
        assert!(has_suffix(row)?, "in {}", row.0);
    }
    Ok(())
}

const DIGITS: [(&str, &str); 3] = [("1_0_1_l_o_l", "101"), ("0b__1_0_", "10"), ("0x", "")];

fn has_digits(row: &(&'static str, &'static str)) -> Result<bool, Fail> {
    let number: IntNumber = typed(SyntaxKind::INT_NUMBER, row.0)?;
    Ok(number.value_string().as_str() == row.1)
}

#[test]
fn digits_of_integers() -> Result<(), Fail> {
    for row in &DIGITS {
        assert!(has_digits(row)?, "in {}", row.0);
    }
    Ok(())
}

// A number, its value as a text, what precedes its suffix, and that.
type Float = (
    &'static str,
    &'static str,
    &'static str,
    Option<&'static str>,
);

const FLOATS: [Float; 7] = [
    ("1_2_3.0_f128", "123.0", "1_2_3.0_", Some("f128")),
    ("123.0", "123.0", "123.0", None),
    ("123.0e", "123.0e", "123.0e", None),
    ("123.0e4", "123.0e4", "123.0e4", None),
    ("123f32", "123", "123", Some("f32")),
    ("123.0E4f32", "123.0E4", "123.0E4", Some("f32")),
    ("123.0ef16", "123.0e", "123.0e", Some("f16")),
];

fn is_float(row: &Float) -> Result<bool, Fail> {
    let number: FloatNumber = typed(SyntaxKind::FLOAT_NUMBER, row.0)?;
    Ok(
        number.value_string().as_str() == row.1
            && number.split_into_parts().0 == row.2
            && number.suffix() == row.3,
    )
}

#[test]
fn floats() -> Result<(), Fail> {
    for row in &FLOATS {
        assert!(is_float(row)?, "in {}", row.0);
    }
    Ok(())
}
