//! The quotes and the content of strings, in the offsets of the tree. Written by bindings/make from crates/typed_vectors/src/tokens.
use super::{Fail, range, typed};
use ras::ast::{AnyString, IsString};
use ras::{SyntaxKind, TextSize};

// A string, what a raw one of its kind begins with, and whether it is raw.
type Prefix = (SyntaxKind, &'static str, &'static str, bool);

const PREFIXES: [Prefix; 6] = [
    (SyntaxKind::STRING, "\"a\"", "r", false),
    (SyntaxKind::STRING, "r\"a\"", "r", true),
    (SyntaxKind::BYTE_STRING, "b\"a\"", "br", false),
    (SyntaxKind::BYTE_STRING, "br#\"a\"#", "br", true),
    (SyntaxKind::C_STRING, "c\"a\"", "cr", false),
    (SyntaxKind::C_STRING, "cr\"a\"", "cr", true),
];

fn has_prefix(row: &Prefix) -> Result<bool, Fail> {
    let string: AnyString = typed(row.0, row.1)?;
    Ok(string.raw_prefix() == row.2 && string.is_raw() == row.3)
}

#[test]
fn prefixes() -> Result<(), Fail> {
    for row in &PREFIXES {
        assert!(has_prefix(row)?, "in {}", row.1);
    }
    Ok(())
}

#[test]
fn quotes_around_a_content() -> Result<(), Fail> {
    let string: AnyString = typed(SyntaxKind::STRING, "\"ab\"")?;
    let offsets = string.quote_offsets().ok_or("no quotes")?;
    assert_eq!(offsets.quotes.0, range(4, 1));
    assert_eq!(offsets.quotes.1, range(7, 1));
    assert_eq!(offsets.contents, range(5, 2));
    assert_eq!(string.text_range_between_quotes(), Some(range(5, 2)));
    assert_eq!(string.open_quote_text_range(), Some(range(4, 1)));
    assert_eq!(string.close_quote_text_range(), Some(range(7, 1)));
    assert_eq!(string.text_without_quotes(), "ab");
    Ok(())
}

#[test]
fn quotes_of_a_raw_string() -> Result<(), Fail> {
    let string: AnyString = typed(SyntaxKind::BYTE_STRING, "br#\"a\"b\"#")?;
    let offsets = string.quote_offsets().ok_or("no quotes")?;
    assert_eq!(offsets.quotes.0, range(4, 4));
    assert_eq!(offsets.quotes.1, range(11, 2));
    assert_eq!(offsets.contents, range(8, 3));
    assert_eq!(string.text_without_quotes(), "a\"b");
    Ok(())
}

#[test]
fn one_quote_alone() -> Result<(), Fail> {
    let string: AnyString = typed(SyntaxKind::STRING, "\"")?;
    assert_eq!(string.quote_offsets(), None);
    assert_eq!(string.text_range_between_quotes(), None);
    assert_eq!(string.open_quote_text_range(), None);
    assert_eq!(string.close_quote_text_range(), None);
    assert_eq!(string.text_without_quotes(), "\"");
    assert_eq!(string.map_range_up(range(0, 0)), None);
    assert_eq!(string.map_offset_down(TextSize::new(9)), None);
    Ok(())
}

#[test]
fn places_in_a_content() -> Result<(), Fail> {
    let string: AnyString = typed(SyntaxKind::C_STRING, "c\"ab\"")?;
    assert_eq!(string.map_range_up(range(0, 2)), Some(range(6, 2)));
    assert_eq!(string.map_range_up(range(2, 0)), Some(range(8, 0)));
    assert_eq!(string.map_range_up(range(1, 2)), None);
    assert_eq!(string.map_offset_down(TextSize::new(5)), None);
    assert_eq!(string.map_offset_down(TextSize::new(6)),
        Some(TextSize::new(0))
    );
    assert_eq!(string.map_offset_down(TextSize::new(8)),
        Some(TextSize::new(2))
    );
    Ok(())
}
