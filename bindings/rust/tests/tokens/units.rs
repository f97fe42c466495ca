//! The units that a callback is called on. Written by bindings/make from crates/typed_vectors/src/tokens.
use super::{Fail, typed};
use ras::SyntaxKind;
use ras::ast::{AnyString, IsString};
use ras::unescape::EscapeError;

// A call: where a unit is, and its character or its fault.
#[derive(Clone, Copy, Debug, PartialEq, Eq)]
struct Call {
    start: usize,
    end: usize,
    unit: Result<char, EscapeError>,
}

fn row(start: usize, end: usize, unit: Result<char, EscapeError>) -> Call {
    Call { start, end, unit }
}

// What `unescape` calls its callback on.
fn unit_rows(string: &AnyString, content: &str) -> Result<Vec<Call>, Fail> {
    let mut rows = Vec::new();
    string.unescape(content, |range, unit| {
        let row = Call {
            start: range.start,
            end: range.end,
            unit,
        };
        rows.push(row);
    });
    Ok(rows)
}

// What `escaped_char_ranges` calls its callback on.
fn range_rows(string: &AnyString) -> Result<Vec<Call>, Fail> {
    let mut rows = Vec::new();
    string.escaped_char_ranges(&mut |range, unit| {
        let row = Call {
            start: range.start().raw() as usize,
            end: range.end().raw() as usize,
            unit,
        };
        rows.push(row);
    });
    Ok(rows)
}

#[test]
fn units_of_strings() -> Result<(), Fail> {
    let string: AnyString = typed(SyntaxKind::STRING, "\"\"")?;
    let rows = unit_rows(&string, "a\\q\\n\u{e9}")?;
    let expected = [
        row(0, 1, Ok('a')),
        row(1, 3, Err(EscapeError::InvalidEscape)),
        row(3, 5, Ok('\n')),
        row(5, 7, Ok('\u{e9}')),
    ];
    assert_eq!(rows.as_slice(), expected.as_slice());
    Ok(())
}

#[test]
fn units_of_byte_strings() -> Result<(), Fail> {
    let string: AnyString = typed(SyntaxKind::BYTE_STRING, "b\"\"")?;
    let rows = unit_rows(&string, "\\xff\u{e9}")?;
    let expected = [
        row(0, 4, Ok('\u{ff}')),
        row(4, 6, Err(EscapeError::NonAsciiCharInByte)),
    ];
    assert_eq!(rows.as_slice(), expected.as_slice());
    Ok(())
}

#[test]
fn units_of_c_strings() -> Result<(), Fail> {
    let string: AnyString = typed(SyntaxKind::C_STRING, "c\"\"")?;
    let rows = unit_rows(&string, "a\\q\\xff")?;
    let expected = [row(0, 1, Ok('_')), row(1, 3, Ok('_')), row(3, 7, Ok('_'))];
    assert_eq!(rows.as_slice(), expected.as_slice());
    Ok(())
}

#[test]
fn ranges_of_units() -> Result<(), Fail> {
    let string: AnyString = typed(SyntaxKind::BYTE_STRING, "b\"a\\x41\"")?;
    let rows = range_rows(&string)?;
    let expected = [row(2, 3, Ok('a')), row(3, 7, Ok('A'))];
    assert_eq!(rows.as_slice(), expected.as_slice());
    Ok(())
}

#[test]
fn ranges_of_raw_characters() -> Result<(), Fail> {
    let string: AnyString = typed(SyntaxKind::C_STRING, "cr#\"\u{e9}\\n\"#")?;
    let rows = range_rows(&string)?;
    let expected = [
        row(4, 6, Ok('\u{e9}')),
        row(6, 7, Ok('\\')),
        row(7, 8, Ok('n')),
    ];
    assert_eq!(rows.as_slice(), expected.as_slice());
    Ok(())
}

#[test]
fn no_units_without_two_quotes() -> Result<(), Fail> {
    let string: AnyString = typed(SyntaxKind::STRING, "\"")?;
    assert!(range_rows(&string)?.is_empty());
    Ok(())
}
