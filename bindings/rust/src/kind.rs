//! Kinds of nodes and tokens.
use crate::Edition;
use crate::kinds::{CONTEXTUAL, KEYWORDS, KNOWN, OTHERS, PUNCTUATION, text_of};
use std::fmt;

pub use crate::kinds::SyntaxKind;

// The enum of all kinds, the lists of those with small numbers and of the others, and their names.
macro_rules! kinds {
    ($($(#[$doc:meta])* $name:ident = $number:literal,)* ; $($(#[$odoc:meta])* $other:ident = $onumber:literal,)*) => {
        /// The kind of a node or token, as `SyntaxKind::FN`; [`T!`](crate::T) names those of punctuation and keywords by their text.
        ///
        /// It prints as its name.
        ///
        /// ```
        /// use ras::SyntaxKind::{self, *};
        ///
        /// fn is_function_or_constant(kind: SyntaxKind) -> bool {
        ///     matches!(kind, FN | CONST)
        /// }
        /// assert!(is_function_or_constant(FN));
        /// assert_eq!(VARIANT_LIST.to_string(), "VARIANT_LIST");
        /// ```
        #[derive(Clone, Copy, PartialEq, Eq, PartialOrd, Ord, Hash)]
        #[allow(non_camel_case_types, clippy::upper_case_acronyms)]
        #[repr(u16)]
        pub enum SyntaxKind {
            $($(#[$doc])* #[doc = concat!("`", stringify!($name), "`.")] $name = $number,)*
            $($(#[$odoc])* #[doc = concat!("`", stringify!($other), "`.")] $other,)*
        }

        // The kinds whose numbers in rows are their places here.
        pub(crate) const KNOWN: &[SyntaxKind] = &[$(SyntaxKind::$name),*];
        // The others, in the order of their numbers in rows. In the enum they come after the known ones, in this order.
        pub(crate) const OTHERS: &[(u32, SyntaxKind)] = &[$(($onumber, SyntaxKind::$other)),*];

        impl SyntaxKind {
            /// Its name, as `"FN"`.
            pub const fn name(self) -> &'static str {
                match self {
                    $(SyntaxKind::$name => stringify!($name),)*
                    $(SyntaxKind::$other => stringify!($other),)*
                }
            }
        }
    };
}
pub(crate) use kinds;

impl SyntaxKind {
    /// The kind with this number, which a row of a tree has; `None` if no kind has it.
    pub fn from_number(number: u32) -> Option<SyntaxKind> {
        match KNOWN.get(number as usize) {
            Some(kind) => Some(*kind),
            None => OTHERS.binary_search_by_key(&number, |it| it.0).ok().map(|at| OTHERS[at].1),
        }
    }

    /// Its number in the rows of a tree.
    pub const fn number(self) -> u32 {
        let place = self as usize;
        if place < KNOWN.len() { place as u32 } else { OTHERS[place - KNOWN.len()].0 }
    }

    /// The kind at this place of the enum, `kind as u16`; `None` past its end.
    ///
    /// ```
    /// use ras::SyntaxKind;
    ///
    /// assert_eq!(SyntaxKind::from_place(SyntaxKind::VARIANT_LIST as u16), Some(SyntaxKind::VARIANT_LIST));
    /// assert_eq!(SyntaxKind::from_place(u16::MAX), None);
    /// ```
    pub fn from_place(place: u16) -> Option<SyntaxKind> {
        let place = usize::from(place);
        KNOWN.get(place).copied().or_else(|| OTHERS.get(place - KNOWN.len()).map(|it| it.1))
    }

    /// The kind with this name, if there is one. It takes time in the number of kinds.
    pub fn from_name(name: &str) -> Option<SyntaxKind> {
        KNOWN.iter().copied().chain(OTHERS.iter().map(|it| it.1)).find(|it| it.name() == name)
    }

    /// The text of the punctuation or word that it is the kind of, as `"+"` or `"fn"`. It is empty for other kinds, whose texts differ.
    ///
    /// ```
    /// use ras::{SyntaxKind, T};
    ///
    /// assert_eq!((T![=>].text(), T![union].text(), SyntaxKind::IDENT.text()), ("=>", "union", ""));
    /// ```
    pub const fn text(self) -> &'static str {
        match text_of(self) {
            Some(text) => text,
            None => "",
        }
    }

    /// Whether it is that of white space or of a comment that documents nothing.
    pub const fn is_trivia(self) -> bool {
        matches!(self, SyntaxKind::WHITESPACE | SyntaxKind::COMMENT)
    }

    /// Whether it is that of a punctuation, as `T![+]`; `_` is one.
    pub fn is_punct(self) -> bool {
        PUNCTUATION.contains(&self)
    }

    /// Whether it is that of the token of a literal: a number, a character, a byte or a string.
    pub const fn is_literal(self) -> bool {
        use SyntaxKind::*;
        matches!(self, BYTE | BYTE_STRING | CHAR | C_STRING | FLOAT_NUMBER | INT_NUMBER | STRING)
    }

    /// Whether it is that of a word that is a keyword in the edition, everywhere or only in some places, as `union`.
    pub fn is_keyword(self, edition: Edition) -> bool {
        self.is_strict_keyword(edition) || self.is_contextual_keyword(edition)
    }

    /// Whether it is that of a word that is a keyword everywhere in the edition. Reserved words are, as `abstract`.
    pub fn is_strict_keyword(self, edition: Edition) -> bool {
        KEYWORDS.iter().any(|(_, kind, since)| *kind == self && *since <= edition)
    }

    /// Whether it is that of a word that is a keyword only in some places, as `union`. In Rust 2015 `dyn` is one too.
    pub fn is_contextual_keyword(self, edition: Edition) -> bool {
        self == SyntaxKind::DYN_KW && edition == Edition::Edition2015 || CONTEXTUAL.iter().any(|(_, kind)| *kind == self)
    }

    /// Whether it is that of an identifier, or of a word that is a keyword in the newest edition.
    pub fn is_any_identifier(self) -> bool {
        self == SyntaxKind::IDENT || self.is_keyword(Edition::CURRENT)
    }

    /// The kind of a word that is a keyword everywhere in the edition; `None` for other texts.
    ///
    /// ```
    /// use ras::{Edition, SyntaxKind};
    ///
    /// assert_eq!(SyntaxKind::from_keyword("gen", Edition::Edition2024), Some(SyntaxKind::GEN_KW));
    /// assert_eq!(SyntaxKind::from_keyword("gen", Edition::Edition2021), None);
    /// ```
    pub fn from_keyword(text: &str, edition: Edition) -> Option<SyntaxKind> {
        let (_, kind, since) = KEYWORDS[KEYWORDS.binary_search_by_key(&text, |it| it.0).ok()?];
        (since <= edition).then_some(kind)
    }

    /// The kind of a word that is a keyword only in some places; `None` for other texts.
    pub fn from_contextual_keyword(text: &str, edition: Edition) -> Option<SyntaxKind> {
        if text == "dyn" && edition == Edition::Edition2015 {
            return Some(SyntaxKind::DYN_KW);
        }
        Some(CONTEXTUAL[CONTEXTUAL.binary_search_by_key(&text, |it| it.0).ok()?].1)
    }

    /// The kind of a punctuation of one character; `None` for other characters.
    pub fn from_char(sign: char) -> Option<SyntaxKind> {
        use SyntaxKind::*;
        Some(match sign {
            '$' => DOLLAR,
            ';' => SEMICOLON,
            ',' => COMMA,
            '(' => L_PAREN,
            ')' => R_PAREN,
            '{' => L_CURLY,
            '}' => R_CURLY,
            '[' => L_BRACK,
            ']' => R_BRACK,
            '<' => L_ANGLE,
            '>' => R_ANGLE,
            '@' => AT,
            '#' => POUND,
            '~' => TILDE,
            '?' => QUESTION,
            '&' => AMP,
            '|' => PIPE,
            '+' => PLUS,
            '*' => STAR,
            '/' => SLASH,
            '^' => CARET,
            '%' => PERCENT,
            '_' => UNDERSCORE,
            '.' => DOT,
            ':' => COLON,
            '=' => EQ,
            '!' => BANG,
            '-' => MINUS,
            _ => return None,
        })
    }
}

impl From<SyntaxKind> for u16 {
    /// Its place in the enum.
    fn from(kind: SyntaxKind) -> u16 {
        kind as u16
    }
}

impl From<u16> for SyntaxKind {
    /// The kind at a place of the enum.
    ///
    /// # Panics
    ///
    /// It panics past the end of the enum; [`SyntaxKind::from_place`] returns `None` there.
    fn from(place: u16) -> SyntaxKind {
        SyntaxKind::from_place(place).expect("a kind has this place")
    }
}

impl fmt::Display for SyntaxKind {
    fn fmt(&self, f: &mut fmt::Formatter<'_>) -> fmt::Result {
        f.write_str(self.name())
    }
}

impl fmt::Debug for SyntaxKind {
    fn fmt(&self, f: &mut fmt::Formatter<'_>) -> fmt::Result {
        f.write_str(self.name())
    }
}
