//! The units of literals, which this crate finds, beside the values of the library.
use ras::ast::{self, AstToken};
use ras::unescape::{MixedUnit, unescape_byte, unescape_byte_str, unescape_c_str, unescape_char, unescape_str};
use ras::{EscapeError, SyntaxKind, SyntaxToken, SyntaxTreeBuilder};
use ras_sys::{FAULT, OK, UNIT_BYTE, UNIT_CHAR, UNIT_FAULT, UnitRow, ras_c_char_ranges};
use std::ops::Range;

const SIGNS: [&str; 20] = ["a", "é", "\\", "n", "x", "4", "f", "u", "{", "}", "_", "\n", " ", "\t", "\r", "0", "\"", "'", "\u{a0}", "8"];

// A token of a tree of its own.
fn token(kind: SyntaxKind, text: &str) -> SyntaxToken {
    let mut builder = SyntaxTreeBuilder::default();
    builder.start_node(SyntaxKind::LITERAL);
    builder.token(kind, text);
    builder.finish_node();
    builder.finish().syntax_node().first_token().unwrap()
}

// The last fault, if there is one, else all units; warnings count for nothing.
struct Joined<T>(Vec<T>, Option<EscapeError>);

impl<T: Clone> Joined<T> {
    fn add(&mut self, unit: Result<&[T], EscapeError>) {
        match unit {
            Ok(unit) => self.0.extend_from_slice(unit),
            Err(fault) => self.1 = Some(fault).filter(EscapeError::is_fatal).or(self.1),
        }
    }

    fn value(self) -> Result<Vec<T>, EscapeError> {
        self.1.map_or(Ok(self.0), Err)
    }
}

fn compare(content: &str) {
    let mut joined = Joined(Vec::new(), None);
    let mut end = 0;
    unescape_str(content, |range, unit| {
        // A warning of a continuation comes with the range of all of it, and two may come.
        assert!(range.start >= end || unit == Err(EscapeError::UnskippedWhitespaceWarning), "{content:?}");
        assert!(range.start < range.end && content.get(range.clone()).is_some(), "{content:?}");
        end = if unit.is_ok() { range.end } else { range.start };
        joined.add(unit.as_ref().map(std::slice::from_ref).map_err(|it| *it));
    });
    let string = ast::String::cast(token(SyntaxKind::STRING, &format!("\"{content}\""))).unwrap();
    assert_eq!(string.value().map(|it| it.into_owned()), joined.value().map(|it| it.into_iter().collect()), "{content:?}");

    let mut joined = Joined(Vec::new(), None);
    unescape_byte_str(content, |_, unit| joined.add(unit.as_ref().map(std::slice::from_ref).map_err(|it| *it)));
    let string = ast::ByteString::cast(token(SyntaxKind::BYTE_STRING, &format!("b\"{content}\""))).unwrap();
    assert_eq!(string.value().map(|it| it.into_owned()), joined.value(), "{content:?}");

    let mut joined = Joined(Vec::new(), None);
    unescape_c_str(content, |_, unit| match unit {
        Ok(MixedUnit::Char(sign)) => joined.add(Ok(sign.encode_utf8(&mut [0; 4]).as_bytes())),
        Ok(MixedUnit::HighByte(byte)) => joined.add(Ok(&[byte])),
        Err(fault) => joined.add(Err(fault)),
    });
    let string = ast::CString::cast(token(SyntaxKind::C_STRING, &format!("c\"{content}\""))).unwrap();
    assert_eq!(string.value().map(|it| it.into_owned()), joined.value(), "{content:?}");

    let sign = ast::Char::cast(token(SyntaxKind::CHAR, &format!("'{content}'"))).unwrap();
    assert_eq!(sign.value(), unescape_char(content), "{content:?}");
    let sign = ast::Byte::cast(token(SyntaxKind::BYTE, &format!("b'{content}'"))).unwrap();
    assert_eq!(sign.value(), unescape_byte(content), "{content:?}");
}

// The units of a literal with this text, by the library.
fn library_units(text: &str) -> Vec<UnitRow> {
    let (mut rows, mut count) = (Vec::with_capacity(text.len()), 0);
    // SAFETY: each pointer is to as many elements as is said, and no two buffers overlap.
    let status = unsafe { ras_c_char_ranges(text.as_ptr(), text.len(), rows.as_mut_ptr(), rows.capacity(), &mut count) };
    assert_eq!(status, OK, "{text:?}");
    // SAFETY: the library wrote so many.
    unsafe { rows.set_len(count as usize) };
    rows
}

// A unit of a content that starts at this byte of a literal, as the library has it.
fn row(start: usize, range: Range<usize>, unit: Result<MixedUnit, EscapeError>) -> UnitRow {
    let (sort, value) = match unit {
        Ok(MixedUnit::Char(sign)) => (UNIT_CHAR, sign as u32),
        Ok(MixedUnit::HighByte(byte)) => (UNIT_BYTE, byte.into()),
        Err(fault) => (UNIT_FAULT, FAULT + fault as u32),
    };
    UnitRow { start: (start + range.start) as u32, end: (start + range.end) as u32, sort, value }
}

fn of_byte(byte: u8) -> MixedUnit {
    if byte.is_ascii() { MixedUnit::Char(byte.into()) } else { MixedUnit::HighByte(byte) }
}

fn compare_rows(content: &str) {
    let (mut string, mut bytes, mut c_string) = (Vec::new(), Vec::new(), Vec::new());
    unescape_str(content, |range, unit| string.push(row(1, range, unit.map(MixedUnit::Char))));
    unescape_byte_str(content, |range, unit| bytes.push(row(2, range, unit.map(of_byte))));
    unescape_c_str(content, |range, unit| c_string.push(row(2, range, unit)));
    for (prefix, rows) in [("", string), ("b", bytes), ("c", c_string)] {
        assert_eq!(library_units(&format!("{prefix}\"{content}\"")), rows, "{prefix} {content:?}");
        let raw = content.char_indices().map(|(at, sign)| row(prefix.len() + 2, at..at + sign.len_utf8(), Ok(MixedUnit::Char(sign))));
        assert_eq!(library_units(&format!("{prefix}r\"{content}\"")), raw.collect::<Vec<_>>(), "{prefix}r {content:?}");
    }
}

// All contents of at most three of the signs.
fn short_contents() -> impl Iterator<Item = String> {
    let signs = || SIGNS.into_iter().chain([""]);
    signs().flat_map(move |first| signs().flat_map(move |second| signs().map(move |third| format!("{first}{second}{third}"))))
}

#[test]
fn short_contents_have_the_library_s_values() {
    short_contents().for_each(|it| compare(&it));
}

#[test]
fn short_contents_have_the_library_s_units() {
    short_contents().for_each(|it| compare_rows(&it));
}

#[test]
fn random_contents_have_the_library_s_values() {
    let mut state = 1_u64;
    let mut next = |below: usize| {
        // A generator of linear congruence, of which the high bits are good.
        state = state.wrapping_mul(6_364_136_223_846_793_005).wrapping_add(1_442_695_040_888_963_407);
        (state >> 33) as usize % below
    };
    const PIECES: [&str; 12] = ["\\n", "\\x", "\\u{", "\\\n", "\\\n\n ", "\\\\", "10ffff", "110000", "d800", "\\0", "7f", "ff"];
    for _ in 0..20_000 {
        let content: String = (0..4 + next(6)).map(|_| if next(3) == 0 { PIECES[next(12)] } else { SIGNS[next(20)] }).collect();
        compare(&content);
    }
}
