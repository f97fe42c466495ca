//! The calls of rust-analyzer's `SyntaxText`, on the texts of nodes.
use crate::range::TextSize;
use crate::tree::{Edition, answered};
use ras_sys::{self as raw, TokenRow};
use std::convert::Infallible;
use std::ops::{Bound, RangeBounds};

/// The calls that the texts of rust-analyzer's nodes have, for code that moves: here the text of a node is a `&str`, in one piece, and has
/// the calls of `str` too. Offsets count from the start of the text.
///
/// ```
/// use ras::{Edition, SourceFile, SyntaxText, TextSize};
///
/// let root = SourceFile::parse("fn f() {\n}", Edition::CURRENT).syntax_node();
/// assert!(root.text().contains_char('\n'));
/// assert_eq!(root.text().char_at(TextSize::new(3)), Some('f'));
/// assert_eq!(root.text().slice(..TextSize::new(2)), "fn");
/// ```
pub trait SyntaxText {
    /// Whether the text has a character.
    fn contains_char(&self, c: char) -> bool;

    /// Where a character is first.
    fn find_char(&self, c: char) -> Option<TextSize>;

    /// The character that starts at an offset; `None` past the end.
    ///
    /// # Panics
    ///
    /// It panics if the offset is inside a character.
    fn char_at(&self, offset: TextSize) -> Option<char>;

    /// The part of the text in a range.
    ///
    /// # Panics
    ///
    /// It panics if the range ends past the text, or starts or ends inside a character.
    fn slice<R: RangeBounds<TextSize>>(&self, range: R) -> &str;

    /// Folds the pieces of the text, in order, up to the first error. A piece is a token, white space and comments too, as the lexer of the
    /// current edition cuts the text: of `a->b` there are four, since punctuation is cut into single characters. The texts of the tokens of a
    /// tree, which rust-analyzer's call gives, are those of [`Node::tokens`](crate::SyntaxNode::tokens); they need no lexer.
    ///
    /// # Panics
    ///
    /// It panics if memory runs out, or if the text has 2^32 bytes or more.
    fn try_fold_chunks<T, F, E>(&self, init: T, f: F) -> Result<T, E>
    where
        F: FnMut(T, &str) -> Result<T, E>;

    /// Calls a function with each of these pieces, up to the first error.
    ///
    /// # Panics
    ///
    /// As [`try_fold_chunks`](SyntaxText::try_fold_chunks).
    fn try_for_each_chunk<F, E>(&self, mut f: F) -> Result<(), E>
    where
        F: FnMut(&str) -> Result<(), E>,
    {
        self.try_fold_chunks((), |(), piece| f(piece))
    }

    /// Calls a function with each of these pieces.
    ///
    /// ```
    /// use ras::{Edition, SourceFile, SyntaxText};
    ///
    /// let root = SourceFile::parse("fn f(\n    a: u8,\n) {}", Edition::CURRENT).syntax_node();
    /// let mut line = String::new();
    /// root.text().for_each_chunk(|it| line.push_str(if it.contains('\n') { " " } else { it }));
    /// assert_eq!(line, "fn f( a: u8, ) {}");
    /// ```
    ///
    /// # Panics
    ///
    /// As [`try_fold_chunks`](SyntaxText::try_fold_chunks).
    fn for_each_chunk<F: FnMut(&str)>(&self, mut f: F) {
        let Ok(()) = self.try_for_each_chunk(|piece| {
            f(piece);
            Ok::<(), Infallible>(())
        });
    }
}

// The tokens of a text.
fn tokens(text: &str) -> Vec<TokenRow> {
    crate::version::check();
    let mut tokens = Vec::with_capacity(text.len() / 3 + 16);
    let mut count = 0;
    loop {
        // SAFETY: the text and the buffer are borrowed for the call, with their lengths, and neither overlaps the other.
        let status = unsafe {
            raw::ras_c_tokens(text.as_ptr(), text.len(), Edition::CURRENT.year(), tokens.as_mut_ptr(), tokens.capacity(), &mut count)
        };
        if answered(status).unwrap_or_else(|error| panic!("{error}")) {
            // SAFETY: the call wrote so many tokens.
            unsafe { tokens.set_len(count as usize) };
            return tokens;
        }
        tokens = Vec::with_capacity(count as usize);
    }
}

impl SyntaxText for str {
    fn contains_char(&self, c: char) -> bool {
        self.contains(c)
    }

    fn find_char(&self, c: char) -> Option<TextSize> {
        self.find(c).map(|at| TextSize::try_from(at).expect("a text has less than 2^32 bytes"))
    }

    fn char_at(&self, offset: TextSize) -> Option<char> {
        if usize::from(offset) < self.len() { self[offset.into()..].chars().next() } else { None }
    }

    fn slice<R: RangeBounds<TextSize>>(&self, range: R) -> &str {
        let start = match range.start_bound() {
            Bound::Included(start) => usize::from(*start),
            Bound::Excluded(before) => usize::from(*before) + 1,
            Bound::Unbounded => 0,
        };
        let end = match range.end_bound() {
            Bound::Included(last) => usize::from(*last) + 1,
            Bound::Excluded(end) => usize::from(*end),
            Bound::Unbounded => self.len(),
        };
        &self[start..end]
    }

    fn try_fold_chunks<T, F, E>(&self, init: T, mut f: F) -> Result<T, E>
    where
        F: FnMut(T, &str) -> Result<T, E>,
    {
        let mut left = self;
        tokens(self).iter().try_fold(init, |folded, token| {
            let (piece, behind) = left.split_at(token.bytes as usize);
            left = behind;
            f(folded, piece)
        })
    }
}
