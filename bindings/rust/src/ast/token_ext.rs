//! Accessors of tokens.
use super::AstToken;
use super::views::{Byte, Char, Comment, FloatNumber, IntNumber, Whitespace};
use crate::escape::EscapeError;
use crate::node::Token;
use crate::{SyntaxKind, values};
use std::fmt;

/// What an attribute or a doc comment belongs to.
#[derive(Clone, Copy, Debug, PartialEq, Eq, Hash)]
pub enum AttrKind {
    /// The item that it is inside: `#![a]`, `//! a`.
    Inner,
    /// The item that follows: `#[a]`, `/// a`.
    Outer,
}

impl AttrKind {
    /// Whether it belongs to the item that it is inside.
    pub fn is_inner(&self) -> bool {
        matches!(self, AttrKind::Inner)
    }

    /// Whether it belongs to the item that follows.
    pub fn is_outer(&self) -> bool {
        matches!(self, AttrKind::Outer)
    }
}

/// Whether a comment ends with its line or with its closing marker.
#[derive(Clone, Copy, Debug, PartialEq, Eq, Hash)]
pub enum CommentShape {
    /// `// a`
    Line,
    /// `/* a */`
    Block,
}

impl CommentShape {
    /// A block if the text begins with `/*`, otherwise a line.
    pub fn from_text(text: &str) -> CommentShape {
        if text.starts_with("/*") { CommentShape::Block } else { CommentShape::Line }
    }

    /// Whether it ends with its line.
    pub fn is_line(self) -> bool {
        self == CommentShape::Line
    }

    /// Whether it ends with its closing marker.
    pub fn is_block(self) -> bool {
        self == CommentShape::Block
    }
}

/// The shape of a comment, and what it documents, if anything.
#[derive(Clone, Copy, Debug, PartialEq, Eq, Hash)]
pub struct CommentKind {
    /// Its shape.
    pub shape: CommentShape,
    /// What it documents.
    pub doc: Option<AttrKind>,
}

impl CommentKind {
    /// The opening marker of such a comment.
    pub fn prefix(&self) -> &'static str {
        match (self.shape, self.doc) {
            (CommentShape::Line, None) => "//",
            (CommentShape::Line, Some(AttrKind::Inner)) => "//!",
            (CommentShape::Line, Some(AttrKind::Outer)) => "///",
            (CommentShape::Block, None) => "/*",
            (CommentShape::Block, Some(AttrKind::Inner)) => "/*!",
            (CommentShape::Block, Some(AttrKind::Outer)) => "/**",
        }
    }
}

// The text of a comment after an opening marker of so many bytes, and empty if it is shorter; for a block without the closing `*/`, if it
// has one.
pub(super) fn comment_text(text: &str, marker: usize) -> &str {
    let behind = text.get(marker..).unwrap_or_default();
    if CommentShape::from_text(text).is_block() { behind.strip_suffix("*/").unwrap_or(behind) } else { behind }
}

/// A comment, which may be a documentation comment.
#[derive(Clone, Copy, Debug, PartialEq, Eq, Hash)]
pub struct AnyComment<T> {
    syntax: T,
}

impl<T: Token> AstToken<T> for AnyComment<T> {
    fn can_cast(kind: SyntaxKind) -> bool {
        matches!(kind, SyntaxKind::COMMENT | SyntaxKind::INNER_DOC_COMMENT | SyntaxKind::OUTER_DOC_COMMENT)
    }

    fn cast(syntax: T) -> Option<Self> {
        <Self as AstToken<T>>::can_cast(syntax.kind()).then_some(AnyComment { syntax })
    }

    fn syntax(&self) -> &T {
        &self.syntax
    }
}

impl<T: fmt::Display> fmt::Display for AnyComment<T> {
    fn fmt(&self, f: &mut fmt::Formatter<'_>) -> fmt::Result {
        self.syntax.fmt(f)
    }
}

impl<T: Token> AnyComment<T> {
    /// Whether it ends with its line or with its closing marker.
    pub fn shape(&self) -> CommentShape {
        CommentShape::from_text(Token::text(&self.syntax))
    }

    /// What it documents, if anything.
    pub fn doc_kind(&self) -> Option<AttrKind> {
        match self.syntax.kind() {
            SyntaxKind::INNER_DOC_COMMENT => Some(AttrKind::Inner),
            SyntaxKind::OUTER_DOC_COMMENT => Some(AttrKind::Outer),
            _ => None,
        }
    }

    /// Its shape, and what it documents.
    pub fn kind(&self) -> CommentKind {
        CommentKind { shape: self.shape(), doc: self.doc_kind() }
    }

    /// The opening marker of such a comment.
    pub fn prefix(&self) -> &'static str {
        self.kind().prefix()
    }

    /// Whether it documents the item that it is inside.
    pub fn is_inner(&self) -> bool {
        self.doc_kind() == Some(AttrKind::Inner)
    }

    /// Whether it documents the item that follows.
    pub fn is_outer(&self) -> bool {
        self.doc_kind() == Some(AttrKind::Outer)
    }

    /// The text, with its markers.
    pub fn text_with_markers(&self) -> &str {
        Token::text(&self.syntax)
    }

    /// The text without its markers, of which the closing one may be missing.
    ///
    /// ```
    /// use ras::ast::{AnyComment, AstNode, AstToken};
    /// use ras::{Edition, SourceFile};
    ///
    /// let file = SourceFile::parse("/// a\n/* b */ struct S;", Edition::CURRENT).tree();
    /// let comments: Vec<_> = file.syntax().tokens().filter_map(AnyComment::cast).collect();
    /// assert_eq!((comments[0].text(), comments[1].text()), (" a", " b "));
    /// ```
    pub fn text(&self) -> &str {
        comment_text(Token::text(&self.syntax), self.prefix().len())
    }
}

impl<T: Token> Comment<T> {
    /// Whether it ends with its line or with its closing marker.
    pub fn shape(&self) -> CommentShape {
        CommentShape::from_text(Token::text(&self.syntax))
    }

    /// The text without the markers `//`, or `/*` and `*/`, of which the last may be missing.
    pub fn text_without_markers(&self) -> &str {
        comment_text(Token::text(&self.syntax), 2)
    }
}

impl<T: Token> Whitespace<T> {
    /// Whether it has at least two newlines.
    pub fn spans_multiple_lines(&self) -> bool {
        Token::text(&self.syntax).bytes().filter(|it| *it == b'\n').count() >= 2
    }
}

/// The base that an integer is written in. An `as` cast to a number gives the base: `Radix::Octal as u32` is 8.
#[derive(Clone, Copy, Debug, PartialEq, Eq, Hash)]
pub enum Radix {
    /// `0b1`
    Binary = 2,
    /// `0o7`
    Octal = 8,
    /// `9`
    Decimal = 10,
    /// `0xf`
    Hexadecimal = 16,
}

impl Radix {
    /// All of them, by the size of the base.
    pub const ALL: &'static [Radix] = &[Radix::Binary, Radix::Octal, Radix::Decimal, Radix::Hexadecimal];
}

impl<T: Token> IntNumber<T> {
    /// The radix: by the prefix `0b`, `0o` or `0x` in lower case, otherwise decimal.
    pub fn radix(&self) -> Radix {
        match Token::text(&self.syntax).get(..2) {
            Some("0b") => Radix::Binary,
            Some("0o") => Radix::Octal,
            Some("0x") => Radix::Hexadecimal,
            _ => Radix::Decimal,
        }
    }

    /// The prefix that names the radix, the digits with their underscores, and the suffix; each may be empty.
    pub fn split_into_parts(&self) -> (&str, &str, &str) {
        let radix = self.radix();
        let (prefix, body) = Token::text(&self.syntax).split_at(if radix == Radix::Decimal { 0 } else { 2 });
        let begins_suffix = |sign: char| match radix {
            Radix::Hexadecimal => matches!(sign, 'g'..='z' | 'G'..='Z'),
            _ => sign.is_ascii_alphabetic(),
        };
        let (digits, suffix) = body.split_at(body.find(begins_suffix).unwrap_or(body.len()));
        (prefix, digits, suffix)
    }

    /// The suffix, or `None` if there is none.
    pub fn suffix(&self) -> Option<&str> {
        Some(self.split_into_parts().2).filter(|it| !it.is_empty())
    }

    /// The digits without the underscores.
    pub fn value_string(&self) -> String {
        self.split_into_parts().1.replace('_', "")
    }

    /// The value; an error if there is no digit, if a character is not a digit of the radix, or if it is 2^128 or more.
    pub fn value(&self) -> Result<u128, std::num::ParseIntError> {
        u128::from_str_radix(&self.value_string(), self.radix() as u32)
    }
}

impl<T: Token> FloatNumber<T> {
    /// The digits with point, exponent and underscores, and the suffix, which may be empty.
    pub fn split_into_parts(&self) -> (&str, &str) {
        let text = Token::text(&self.syntax);
        let letter = |from: usize| text[from..].find(|it: char| it.is_ascii_alphabetic()).map_or(text.len(), |at| from + at);
        let first = letter(0);
        let end = if matches!(text.as_bytes().get(first), Some(b'e' | b'E')) { letter(first + 1) } else { first };
        text.split_at(end)
    }

    /// The suffix, or `None` if there is none.
    pub fn suffix(&self) -> Option<&str> {
        Some(self.split_into_parts().1).filter(|it| !it.is_empty())
    }

    /// The digits with point and exponent, without the underscores.
    pub fn value_string(&self) -> String {
        self.split_into_parts().0.replace('_', "")
    }
}

impl<T: Token> Char<T> {
    /// The character that it stands for, or what is wrong with it. Its closing quote may be missing.
    pub fn value(&self) -> Result<char, EscapeError> {
        values::character(Token::text(&self.syntax))
    }
}

impl<T: Token> Byte<T> {
    /// The byte that it stands for, or what is wrong with it. Its closing quote may be missing.
    pub fn value(&self) -> Result<u8, EscapeError> {
        values::byte(Token::text(&self.syntax))
    }
}
