//! Accessors of strings.
use super::AstToken;
use super::views::{ByteString, CString, String};
use crate::node::{SyntaxToken, Token};
use crate::range::{TextRange, TextSize};
use crate::unescape::{EscapeError, unescape_byte_str, unescape_c_str, unescape_str};
use crate::{SyntaxKind, values};
use std::borrow::Cow;
use std::fmt;
use std::ops::Range;

/// The ranges of the quotes of a string and of what is between them. Prefixes, `#` and suffixes are part of the quotes.
#[derive(Clone, Copy, Debug, PartialEq, Eq, Hash)]
pub struct QuoteOffsets {
    /// From the token's start up to the content, and from the content up to the token's end.
    pub quotes: (TextRange, TextRange),
    /// Between the first and the last `"`.
    pub contents: TextRange,
}

// The ranges of a text that starts at an offset; `None` if it does not have two quotes.
fn offsets(text: &str, start: TextSize) -> Option<QuoteOffsets> {
    let (left, right) = (text.find('"')?, text.rfind('"')?);
    if left == right {
        return None;
    }
    let at = |offset: usize| start + TextSize::new(offset as u32);
    let contents = TextRange::new(at(left + 1), at(right));
    let end = start + TextSize::of(text);
    Some(QuoteOffsets { quotes: (TextRange::new(start, contents.start()), TextRange::new(contents.end(), end)), contents })
}

/// A token of a string: [`String`](super::String), [`ByteString`](super::ByteString), [`CString`](super::CString), or any of these.
pub trait IsString<T: Token = SyntaxToken>: AstToken<T> {
    /// How the text begins if the string is raw: `r`, `br` or `cr`.
    fn raw_prefix(&self) -> &'static str;

    /// Calls `callback` on each unit of a content of such a string that is not raw, as [`unescape_str`] does. The units of a C string are
    /// all `'_'`, also those that are wrong: only their ranges count.
    fn unescape(&self, content: &str, callback: impl FnMut(Range<usize>, Result<char, EscapeError>))
    where
        Self: Sized;

    /// Whether the text begins as that of a raw string.
    fn is_raw(&self) -> bool {
        Token::text(self.syntax()).starts_with(self.raw_prefix())
    }

    /// The ranges of the quotes and of the content in the whole text; `None` if the token does not have two quotes.
    fn quote_offsets(&self) -> Option<QuoteOffsets> {
        offsets(Token::text(self.syntax()), self.syntax().text_range().start())
    }

    /// The range of the content in the whole text.
    fn text_range_between_quotes(&self) -> Option<TextRange> {
        self.quote_offsets().map(|it| it.contents)
    }

    /// The content; the whole text if it does not have two quotes.
    fn text_without_quotes<'a>(&'a self) -> &'a str
    where
        T: 'a,
    {
        let text = Token::text(self.syntax());
        offsets(text, 0.into()).map_or(text, |it| &text[it.contents])
    }

    /// The range from the token's start up to the content.
    fn open_quote_text_range(&self) -> Option<TextRange> {
        self.quote_offsets().map(|it| it.quotes.0)
    }

    /// The range from the content up to the token's end.
    fn close_quote_text_range(&self) -> Option<TextRange> {
        self.quote_offsets().map(|it| it.quotes.1)
    }

    /// Calls `callback` on each unit of the content, with its range in the token's text: on what each character or escape stands for, or
    /// what is wrong with it, in order. Of a raw string each character is a unit. Without two quotes there are none.
    ///
    /// ```
    /// use ras::ast::{self, AstNode, AstToken, IsString};
    /// use ras::{Edition, SourceFile};
    ///
    /// let file = SourceFile::parse(r#"const A: &str = "a\tb";"#, Edition::CURRENT).tree();
    /// let string = file.syntax().tokens().find_map(ast::String::cast).unwrap();
    /// let mut units = Vec::new();
    /// string.escaped_char_ranges(&mut |range, unit| units.push((range.to_string(), unit)));
    /// assert_eq!(units[1], ("2..4".to_owned(), Ok('\t')));
    /// ```
    fn escaped_char_ranges(&self, callback: &mut dyn FnMut(TextRange, Result<char, EscapeError>))
    where
        Self: Sized,
    {
        let text = Token::text(self.syntax());
        let Some(QuoteOffsets { contents, .. }) = offsets(text, 0.into()) else { return };
        let at = |offset: usize| contents.start() + TextSize::new(offset as u32);
        if self.is_raw() {
            text[contents].char_indices().for_each(|(start, sign)| callback(TextRange::at(at(start), TextSize::of(sign)), Ok(sign)));
        } else {
            self.unescape(&text[contents], |range, unit| callback(TextRange::new(at(range.start), at(range.end)), unit));
        }
    }

    /// The range in the whole text of a range of the content; `None` if the content does not have all of it.
    fn map_range_up(&self, range: TextRange) -> Option<TextRange> {
        let contents = self.text_range_between_quotes()?;
        TextRange::up_to(contents.len()).contains_range(range).then(|| range + contents.start())
    }

    /// The offset in the content of an offset of the whole text; `None` if that is before the content. It may be past the content.
    fn map_offset_down(&self, offset: TextSize) -> Option<TextSize> {
        offset.checked_sub(self.text_range_between_quotes()?.start())
    }
}

impl<T: Token> IsString<T> for String<T> {
    fn raw_prefix(&self) -> &'static str {
        "r"
    }

    fn unescape(&self, content: &str, callback: impl FnMut(Range<usize>, Result<char, EscapeError>)) {
        unescape_str(content, callback);
    }
}

impl<T: Token> IsString<T> for ByteString<T> {
    fn raw_prefix(&self) -> &'static str {
        "br"
    }

    fn unescape(&self, content: &str, mut callback: impl FnMut(Range<usize>, Result<char, EscapeError>)) {
        unescape_byte_str(content, |range, unit| callback(range, unit.map(char::from)));
    }
}

impl<T: Token> IsString<T> for CString<T> {
    fn raw_prefix(&self) -> &'static str {
        "cr"
    }

    fn unescape(&self, content: &str, mut callback: impl FnMut(Range<usize>, Result<char, EscapeError>)) {
        unescape_c_str(content, |range, _| callback(range, Ok('_')));
    }
}

/// A string of any kind.
#[derive(Clone, Copy, Debug, PartialEq, Eq, Hash)]
pub enum AnyString<T> {
    /// `b"a"`
    ByteString(ByteString<T>),
    /// `c"a"`
    CString(CString<T>),
    /// `"a"`
    String(String<T>),
}

impl<T: Token> AstToken<T> for AnyString<T> {
    fn can_cast(kind: SyntaxKind) -> bool {
        matches!(kind, SyntaxKind::STRING | SyntaxKind::BYTE_STRING | SyntaxKind::C_STRING)
    }

    fn cast(syntax: T) -> Option<Self> {
        match syntax.kind() {
            SyntaxKind::STRING => AstToken::cast(syntax).map(AnyString::String),
            SyntaxKind::BYTE_STRING => AstToken::cast(syntax).map(AnyString::ByteString),
            SyntaxKind::C_STRING => AstToken::cast(syntax).map(AnyString::CString),
            _ => None,
        }
    }

    fn syntax(&self) -> &T {
        match self {
            AnyString::ByteString(it) => &it.syntax,
            AnyString::CString(it) => &it.syntax,
            AnyString::String(it) => &it.syntax,
        }
    }
}

impl<T: Token> IsString<T> for AnyString<T> {
    fn raw_prefix(&self) -> &'static str {
        match self {
            AnyString::ByteString(it) => it.raw_prefix(),
            AnyString::CString(it) => it.raw_prefix(),
            AnyString::String(it) => it.raw_prefix(),
        }
    }

    fn unescape(&self, content: &str, callback: impl FnMut(Range<usize>, Result<char, EscapeError>)) {
        match self {
            AnyString::ByteString(it) => it.unescape(content, callback),
            AnyString::CString(it) => it.unescape(content, callback),
            AnyString::String(it) => it.unescape(content, callback),
        }
    }
}

impl<T: Token> fmt::Display for AnyString<T> {
    fn fmt(&self, f: &mut fmt::Formatter<'_>) -> fmt::Result {
        fmt::Display::fmt(self.syntax(), f)
    }
}

// Bytes as a text.
fn utf8(bytes: Cow<'_, [u8]>) -> Result<Cow<'_, str>, EscapeError> {
    let text = match bytes {
        Cow::Borrowed(bytes) => std::str::from_utf8(bytes).ok().map(Cow::Borrowed),
        Cow::Owned(bytes) => std::string::String::from_utf8(bytes).ok().map(Cow::Owned),
    };
    text.ok_or(EscapeError::NonAsciiCharInByte)
}

impl<T: Token> AnyString<T> {
    /// The text that it stands for, or what is wrong with it: `NonAsciiCharInByte` for bytes that are not UTF-8.
    ///
    /// # Panics
    ///
    /// If memory runs out.
    pub fn value(&self) -> Result<Cow<'_, str>, EscapeError> {
        match self {
            AnyString::ByteString(it) => it.value().and_then(utf8),
            AnyString::CString(it) => it.value().and_then(utf8),
            AnyString::String(it) => it.value(),
        }
    }
}

impl<T: Token> String<T> {
    /// The text that it stands for, or what is wrong with it; of several wrong escapes the last. Borrowed if it is the content itself.
    ///
    /// ```
    /// use ras::ast::{self, AstNode, AstToken};
    /// use ras::{Edition, EscapeError, SourceFile};
    ///
    /// let value = |text: &str| {
    ///     let file = SourceFile::parse(&format!("const A: &str = {text};"), Edition::CURRENT).tree();
    ///     file.syntax().tokens().find_map(ast::String::cast).unwrap().value().map(|it| it.into_owned())
    /// };
    /// assert_eq!(value(r#""a\tb""#), Ok("a\tb".to_owned()));
    /// assert_eq!(value(r#""a\yb""#), Err(EscapeError::InvalidEscape));
    /// ```
    ///
    /// # Panics
    ///
    /// If memory runs out.
    pub fn value(&self) -> Result<Cow<'_, str>, EscapeError> {
        let value = values::string(Token::text(&self.syntax))?;
        let content = self.text_without_quotes();
        Ok(if value == content { Cow::Borrowed(content) } else { Cow::Owned(value) })
    }
}

// The value, borrowed if it is the content itself.
fn bytes(value: Vec<u8>, content: &str) -> Cow<'_, [u8]> {
    if value == content.as_bytes() { Cow::Borrowed(content.as_bytes()) } else { Cow::Owned(value) }
}

impl<T: Token> ByteString<T> {
    /// The bytes that it stands for, or what is wrong with it; of several wrong escapes the last. Panics if memory runs out.
    pub fn value(&self) -> Result<Cow<'_, [u8]>, EscapeError> {
        values::byte_string(Token::text(&self.syntax)).map(|it| bytes(it, self.text_without_quotes()))
    }
}

impl<T: Token> CString<T> {
    /// The bytes that it stands for, without the zero behind them, or what is wrong with it; of several wrong escapes the last. Panics if
    /// memory runs out.
    pub fn value(&self) -> Result<Cow<'_, [u8]>, EscapeError> {
        values::c_string(Token::text(&self.syntax)).map(|it| bytes(it, self.text_without_quotes()))
    }
}
