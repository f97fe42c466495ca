//! The units of literals: what each character or escape stands for, and where it is.
//!
//! The calls are those of the crate `rustc-literal-escaper`, which rust-analyzer's crate has by this name. They take what is between the
//! quotes. They are written after the library's proved reader of literals, in Rust, and a test compares both.
//!
//! ```
//! use ras::unescape::unescape_str;
//!
//! let mut units = Vec::new();
//! unescape_str(r"a\tb", |range, unit| units.push((range, unit)));
//! assert_eq!(units, [(0..1, Ok('a')), (1..3, Ok('\t')), (3..4, Ok('b'))]);
//! ```
use std::ops::Range;

pub use crate::escape::EscapeError;

/// A unit of a C string: a character, or a byte from 128 on that is written with `\x`.
#[derive(Clone, Copy, Debug, PartialEq, Eq)]
pub enum MixedUnit {
    /// A character, for its UTF-8.
    Char(char),
    /// A byte from 128 on.
    HighByte(u8),
}

impl MixedUnit {
    // The character, or the one whose code is the byte.
    fn as_char(self) -> char {
        match self {
            MixedUnit::Char(sign) => sign,
            MixedUnit::HighByte(byte) => byte.into(),
        }
    }

    // The byte, or the code of a character that is ASCII.
    fn as_byte(self) -> u8 {
        match self {
            MixedUnit::Char(sign) => sign as u8,
            MixedUnit::HighByte(byte) => byte,
        }
    }
}

type Unit = Result<MixedUnit, EscapeError>;

// The kind of literal.
#[derive(Clone, Copy, PartialEq, Eq)]
enum Mode {
    Char,
    Byte,
    Str,
    ByteStr,
    CStr,
}

impl Mode {
    fn has_one_unit(self) -> bool {
        matches!(self, Mode::Char | Mode::Byte)
    }

    fn is_of_bytes(self) -> bool {
        matches!(self, Mode::Byte | Mode::ByteStr)
    }

    fn unit(self, sign: char) -> Unit {
        if self == Mode::CStr && sign == '\0' { Err(EscapeError::NulInCStr) } else { Ok(MixedUnit::Char(sign)) }
    }

    fn must_be_escaped(self, sign: char) -> bool {
        if self.has_one_unit() { matches!(sign, '\'' | '\n' | '\t') } else { sign == '"' }
    }

    fn plain(self, sign: char) -> Unit {
        match sign {
            '\r' => Err(EscapeError::BareCarriageReturn),
            _ if self.must_be_escaped(sign) => Err(EscapeError::EscapeOnlyChar),
            _ if self.is_of_bytes() && !sign.is_ascii() => Err(EscapeError::NonAsciiCharInByte),
            _ => self.unit(sign),
        }
    }

    fn hex(self, byte: u8) -> Unit {
        match self {
            _ if byte < 0x80 => self.unit(byte.into()),
            Mode::Char | Mode::Str => Err(EscapeError::OutOfRangeHexEscape),
            _ => Ok(MixedUnit::HighByte(byte)),
        }
    }

    fn unicode(self, code: u32, count: u8) -> Unit {
        match char::from_u32(code) {
            _ if count > 6 => Err(EscapeError::OverlongUnicodeEscape),
            _ if self.is_of_bytes() => Err(EscapeError::UnicodeEscapeInByte),
            Some(sign) => self.unit(sign),
            None if code > 0x10FFFF => Err(EscapeError::OutOfRangeUnicodeEscape),
            None => Err(EscapeError::LoneSurrogateUnicodeEscape),
        }
    }
}

// What was read of a piece.
#[derive(Clone, Copy)]
enum State {
    Start,
    // `\`
    Backslash,
    // `\x`
    Hex,
    // `\x` and a digit of this value
    HexDigit(u32),
    // `\u`
    Unicode,
    // `\u{`
    Brace,
    // `\u{` and so many digits, which may have underscores among them: both numbers stop at their largest values.
    Digits { code: u32, count: u8 },
    // A backslash, a newline and blanks, and whether there is a second newline.
    Continuation { has_lines: bool },
}

// What a character does to a piece: it goes on, or is a unit that ends here.
enum Step {
    Go(State),
    Unit(Unit),
}

fn after_backslash(mode: Mode, sign: char) -> Step {
    match sign {
        'n' => Step::Unit(mode.unit('\n')),
        'r' => Step::Unit(mode.unit('\r')),
        't' => Step::Unit(mode.unit('\t')),
        '0' => Step::Unit(mode.unit('\0')),
        '\\' | '\'' | '"' => Step::Unit(mode.unit(sign)),
        'x' => Step::Go(State::Hex),
        'u' => Step::Go(State::Unicode),
        '\n' if !mode.has_one_unit() => Step::Go(State::Continuation { has_lines: false }),
        _ => Step::Unit(Err(EscapeError::InvalidEscape)),
    }
}

fn advance(mode: Mode, state: State, sign: char) -> Step {
    let fault = |fault| Step::Unit(Err(fault));
    match (state, sign.to_digit(16)) {
        (State::Start, _) if sign == '\\' => Step::Go(State::Backslash),
        (State::Start, _) => Step::Unit(mode.plain(sign)),
        (State::Backslash, _) => after_backslash(mode, sign),
        (State::Hex, Some(digit)) => Step::Go(State::HexDigit(digit)),
        (State::HexDigit(high), Some(low)) => Step::Unit(mode.hex((high * 16 + low) as u8)),
        (State::Hex | State::HexDigit(_), None) => fault(EscapeError::InvalidCharInHexEscape),
        (State::Unicode, _) if sign == '{' => Step::Go(State::Brace),
        (State::Unicode, _) => fault(EscapeError::NoBraceInUnicodeEscape),
        (State::Brace, Some(code)) => Step::Go(State::Digits { code, count: 1 }),
        (State::Brace, None) => fault(match sign {
            '}' => EscapeError::EmptyUnicodeEscape,
            '_' => EscapeError::LeadingUnderscoreUnicodeEscape,
            _ => EscapeError::InvalidCharInUnicodeEscape,
        }),
        (State::Digits { code, count }, Some(digit)) => {
            Step::Go(State::Digits { code: code.saturating_mul(16).saturating_add(digit), count: count.saturating_add(1) })
        }
        (State::Digits { code, count }, None) => match sign {
            '_' => Step::Go(State::Digits { code, count }),
            '}' => Step::Unit(mode.unicode(code, count)),
            _ => fault(EscapeError::InvalidCharInUnicodeEscape),
        },
        (State::Continuation { has_lines }, _) => Step::Go(State::Continuation { has_lines: has_lines || sign == '\n' }),
    }
}

// What is wrong with a piece that the end of the content cuts off.
fn fault_at_end(state: State) -> Option<EscapeError> {
    match state {
        State::Start | State::Continuation { has_lines: false } => None,
        State::Backslash => Some(EscapeError::LoneSlash),
        State::Hex | State::HexDigit(_) => Some(EscapeError::TooShortHexEscape),
        State::Unicode => Some(EscapeError::NoBraceInUnicodeEscape),
        State::Brace | State::Digits { .. } => Some(EscapeError::UnclosedUnicodeEscape),
        State::Continuation { has_lines: true } => Some(EscapeError::MultipleSkippedLinesWarning),
    }
}

fn is_blank(sign: char) -> bool {
    matches!(sign, ' ' | '\t' | '\n' | '\r')
}

// Calls `report` on each unit and each warning, with its range, until it returns false.
fn units(mode: Mode, content: &str, mut report: impl FnMut(Range<usize>, Unit) -> bool) {
    let (mut start, mut state) = (0, State::Start);
    for (at, sign) in content.char_indices() {
        let behind = at + sign.len_utf8();
        if let State::Continuation { has_lines } = state {
            if !is_blank(sign) {
                if has_lines && !report(start..at, Err(EscapeError::MultipleSkippedLinesWarning)) {
                    return;
                }
                if sign.is_whitespace() && !report(start..behind, Err(EscapeError::UnskippedWhitespaceWarning)) {
                    return;
                }
                (start, state) = (at, State::Start);
            }
        }
        match advance(mode, state, sign) {
            Step::Go(next) => state = next,
            Step::Unit(unit) => {
                if !report(start..behind, unit) {
                    return;
                }
                (start, state) = (behind, State::Start);
            }
        }
    }
    if let Some(fault) = fault_at_end(state) {
        report(start..content.len(), Err(fault));
    }
}

fn each(mode: Mode, content: &str, mut callback: impl FnMut(Range<usize>, Unit)) {
    units(mode, content, |range, unit| {
        callback(range, unit);
        true
    });
}

// The one unit of a content. What is wrong with the first one comes before there being another.
fn single(mode: Mode, content: &str) -> Unit {
    let mut found = Err(EscapeError::ZeroChars);
    let mut count = 0;
    units(mode, content, |_, unit| {
        count += 1;
        found = if count == 1 { unit } else { Err(EscapeError::MoreThanOneChar) };
        found.is_ok()
    });
    found
}

/// The character that the content of a character literal stands for, or what is wrong with it.
///
/// ```
/// use ras::unescape::{EscapeError, unescape_char};
///
/// assert_eq!(unescape_char(r"\u{e9}"), Ok('é'));
/// assert_eq!(unescape_char("ab"), Err(EscapeError::MoreThanOneChar));
/// ```
pub fn unescape_char(content: &str) -> Result<char, EscapeError> {
    single(Mode::Char, content).map(MixedUnit::as_char)
}

/// The byte that the content of a byte literal stands for, or what is wrong with it.
pub fn unescape_byte(content: &str) -> Result<u8, EscapeError> {
    single(Mode::Byte, content).map(MixedUnit::as_byte)
}

/// Calls `callback` on each unit of the content of a string, in order, with its range in bytes. It does not stop at what is wrong. The
/// warnings on a backslash at the end of a line come among the units, and what it leaves out has none.
pub fn unescape_str(content: &str, mut callback: impl FnMut(Range<usize>, Result<char, EscapeError>)) {
    each(Mode::Str, content, |range, unit| callback(range, unit.map(MixedUnit::as_char)));
}

/// [`unescape_str`] for the content of a byte string.
pub fn unescape_byte_str(content: &str, mut callback: impl FnMut(Range<usize>, Result<u8, EscapeError>)) {
    each(Mode::ByteStr, content, |range, unit| callback(range, unit.map(MixedUnit::as_byte)));
}

/// [`unescape_str`] for the content of a C string.
pub fn unescape_c_str(content: &str, callback: impl FnMut(Range<usize>, Result<MixedUnit, EscapeError>)) {
    each(Mode::CStr, content, callback);
}
