//! What can be wrong with a literal. Written by bindings/make.
use std::error::Error;
use std::fmt;

/// Why a literal has no value: what is wrong with one of its escapes or characters.
#[derive(Clone, Copy, Debug, PartialEq, Eq, Hash)]
pub enum EscapeError {
    /// A character or byte literal without content.
    ZeroChars,
    /// Something follows the one good unit of a character or byte literal.
    MoreThanOneChar,
    /// A backslash at the content's end.
    LoneSlash,
    /// A backslash before a character that begins no escape.
    InvalidEscape,
    /// A bare carriage return, also before a newline.
    BareCarriageReturn,
    /// A carriage return in a raw string. No call of this crate returns it.
    BareCarriageReturnInRawString,
    /// A character that must be escaped in this literal: `"` in the strings; `'`, newline and
    /// tab in a character or byte.
    EscapeOnlyChar,
    /// The content ends before the second digit of `\x`.
    TooShortHexEscape,
    /// Another character than a hexadecimal digit after `\x`.
    InvalidCharInHexEscape,
    /// A value over 7F in a character or string.
    OutOfRangeHexEscape,
    /// No `{` after `\u`.
    NoBraceInUnicodeEscape,
    /// Another character than a hexadecimal digit or an underscore within the braces.
    InvalidCharInUnicodeEscape,
    /// Nothing within the braces.
    EmptyUnicodeEscape,
    /// The content ends before the closing brace.
    UnclosedUnicodeEscape,
    /// An underscore before the first digit.
    LeadingUnderscoreUnicodeEscape,
    /// More than six digits.
    OverlongUnicodeEscape,
    /// A value from D800 to DFFF.
    LoneSurrogateUnicodeEscape,
    /// A value over 10FFFF.
    OutOfRangeUnicodeEscape,
    /// `\u{..}` in a byte or byte string.
    UnicodeEscapeInByte,
    /// A character past ASCII in a byte or byte string.
    NonAsciiCharInByte,
    /// The character 0 in a C string, however it is written.
    NulInCStr,
    /// A warning: a continuation skips a second newline.
    MultipleSkippedLinesWarning,
    /// A warning: white space that is not skipped follows a continuation.
    UnskippedWhitespaceWarning,
}

// In the order of their numbers.
const ALL: [EscapeError; 23] = [
    EscapeError::ZeroChars,
    EscapeError::MoreThanOneChar,
    EscapeError::LoneSlash,
    EscapeError::InvalidEscape,
    EscapeError::BareCarriageReturn,
    EscapeError::BareCarriageReturnInRawString,
    EscapeError::EscapeOnlyChar,
    EscapeError::TooShortHexEscape,
    EscapeError::InvalidCharInHexEscape,
    EscapeError::OutOfRangeHexEscape,
    EscapeError::NoBraceInUnicodeEscape,
    EscapeError::InvalidCharInUnicodeEscape,
    EscapeError::EmptyUnicodeEscape,
    EscapeError::UnclosedUnicodeEscape,
    EscapeError::LeadingUnderscoreUnicodeEscape,
    EscapeError::OverlongUnicodeEscape,
    EscapeError::LoneSurrogateUnicodeEscape,
    EscapeError::OutOfRangeUnicodeEscape,
    EscapeError::UnicodeEscapeInByte,
    EscapeError::NonAsciiCharInByte,
    EscapeError::NulInCStr,
    EscapeError::MultipleSkippedLinesWarning,
    EscapeError::UnskippedWhitespaceWarning,
];

impl EscapeError {
    pub(crate) fn of_number(number: u32) -> Option<EscapeError> {
        ALL.get(number as usize).copied()
    }

    /// Whether the literal has no value: false for the two warnings alone.
    pub fn is_fatal(&self) -> bool {
        !matches!(self, EscapeError::MultipleSkippedLinesWarning | EscapeError::UnskippedWhitespaceWarning)
    }
}

impl fmt::Display for EscapeError {
    fn fmt(&self, f: &mut fmt::Formatter<'_>) -> fmt::Result {
        f.write_str(match self {
            EscapeError::ZeroChars => "Literal must not be empty",
            EscapeError::MoreThanOneChar => "Literal must be one character long",
            EscapeError::LoneSlash => "Character must be escaped: `\\`",
            EscapeError::InvalidEscape => "Invalid escape",
            EscapeError::BareCarriageReturn => "Character must be escaped: `\r`",
            EscapeError::BareCarriageReturnInRawString => "Character must be escaped: `\r`",
            EscapeError::EscapeOnlyChar => "Escape character `\\` must be escaped itself",
            EscapeError::TooShortHexEscape => "ASCII hex escape code must have exactly two digits",
            EscapeError::InvalidCharInHexEscape => "ASCII hex escape code must contain only hex characters",
            EscapeError::OutOfRangeHexEscape => "ASCII hex escape code must be at most 0x7F",
            EscapeError::NoBraceInUnicodeEscape => "Missing `{` to begin the unicode escape",
            EscapeError::InvalidCharInUnicodeEscape => "Unicode escape must contain only hex characters and underscores",
            EscapeError::EmptyUnicodeEscape => "Unicode escape must not be empty",
            EscapeError::UnclosedUnicodeEscape => "Missing `}` to terminate the unicode escape",
            EscapeError::LeadingUnderscoreUnicodeEscape => "Unicode escape code must not begin with an underscore",
            EscapeError::OverlongUnicodeEscape => "Unicode escape code must have at most 6 digits",
            EscapeError::LoneSurrogateUnicodeEscape => "Unicode escape code must not be a surrogate",
            EscapeError::OutOfRangeUnicodeEscape => "Unicode escape code must be at most 0x10FFFF",
            EscapeError::UnicodeEscapeInByte => "Byte literals must not contain unicode escapes",
            EscapeError::NonAsciiCharInByte => "Byte literals must not contain non-ASCII characters",
            EscapeError::NulInCStr => "C strings literals must not contain null characters",
            EscapeError::MultipleSkippedLinesWarning => "Multiple lines are skipped by this escape",
            EscapeError::UnskippedWhitespaceWarning => "Whitespace after this escape is not skipped",
        })
    }
}

impl Error for EscapeError {}
