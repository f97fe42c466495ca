//! Replacements of ranges of a text.
use crate::range::{TextRange, TextSize};
use std::fmt;
use std::slice::Iter;

/// A range of a text, and the text that replaces it: an insertion if the range is empty, a deletion if the text is.
#[derive(Clone, Debug, PartialEq, Eq, Hash)]
pub struct Indel {
    /// The text that is put in.
    pub insert: String,
    /// The range that is replaced, in bytes of the old text.
    pub delete: TextRange,
}

impl Indel {
    /// Inserts a text at an offset.
    pub fn insert(offset: TextSize, text: impl Into<String>) -> Indel {
        Indel::replace(TextRange::empty(offset), text)
    }

    /// Deletes a range.
    pub fn delete(range: TextRange) -> Indel {
        Indel::replace(range, String::new())
    }

    /// Replaces a range by a text.
    pub fn replace(range: TextRange, text: impl Into<String>) -> Indel {
        Indel { insert: text.into(), delete: range }
    }

    /// Whether it changes nothing: the range and the text are empty.
    pub fn is_empty(&self) -> bool {
        self.insert.is_empty() && self.delete.is_empty()
    }
}

/// A replacement overlaps one that an edit has already. The edit is unchanged.
#[derive(Clone, Copy, Debug, PartialEq, Eq)]
pub struct OverlapError;

impl fmt::Display for OverlapError {
    fn fmt(&self, f: &mut fmt::Formatter<'_>) -> fmt::Result {
        f.write_str("the range overlaps one that is replaced already")
    }
}

impl std::error::Error for OverlapError {}

/// Why an edit cannot be made in a text.
#[derive(Clone, Copy, Debug, PartialEq, Eq)]
pub enum ApplyError {
    /// A range ends after the text.
    PastEnd,
    /// A range starts or ends inside a character.
    InsideCharacter,
    /// The new text would have 2^32 bytes or more.
    TooLong,
}

impl fmt::Display for ApplyError {
    fn fmt(&self, f: &mut fmt::Formatter<'_>) -> fmt::Result {
        f.write_str(match self {
            ApplyError::PastEnd => "a range ends after the text",
            ApplyError::InsideCharacter => "a range starts or ends inside a character",
            ApplyError::TooLong => "the new text would have 4294967296 bytes or more",
        })
    }
}

impl std::error::Error for ApplyError {}

/// A set of disjoint replacements of a text, in the order of the text. All ranges are those of the old text.
///
/// Ranges that touch do not overlap, nor do two insertions at one offset: these stay in the order of the calls.
///
/// ```
/// use ras::{Indel, TextEdit, TextRange};
///
/// let mut edit = TextEdit::default();
/// edit.add(Indel::insert(10.into(), " -> u8"))?;
/// edit.add(Indel::replace(TextRange::new(3.into(), 4.into()), "main"))?;
/// assert_eq!(edit.apply("fn f(a: A) {}")?, "fn main(a: A) -> u8 {}");
/// assert_eq!(edit.apply_to_offset(5.into()), Some(8.into()));
/// # Ok::<(), Box<dyn std::error::Error>>(())
/// ```
#[derive(Clone, Debug, Default, PartialEq, Eq, Hash)]
pub struct TextEdit {
    indels: Vec<Indel>,
}

impl TextEdit {
    /// The edit of one insertion.
    pub fn insert(offset: TextSize, text: impl Into<String>) -> TextEdit {
        TextEdit { indels: vec![Indel::insert(offset, text)] }
    }

    /// The edit of one deletion.
    pub fn delete(range: TextRange) -> TextEdit {
        TextEdit { indels: vec![Indel::delete(range)] }
    }

    /// The edit of one replacement.
    pub fn replace(range: TextRange, text: impl Into<String>) -> TextEdit {
        TextEdit { indels: vec![Indel::replace(range, text)] }
    }

    /// How many replacements there are.
    pub fn len(&self) -> usize {
        self.indels.len()
    }

    /// Whether there are none.
    pub fn is_empty(&self) -> bool {
        self.indels.is_empty()
    }

    /// The replacements, in the order of the text.
    pub fn iter(&self) -> Iter<'_, Indel> {
        self.indels.iter()
    }

    /// Adds a replacement, in any order.
    ///
    /// It takes constant time for a range behind all others, and otherwise time linear in the number of those behind it.
    pub fn add(&mut self, indel: Indel) -> Result<(), OverlapError> {
        let at = self.indels.iter().rposition(|it| it.delete.end() <= indel.delete.start()).map_or(0, |it| it + 1);
        if self.indels.get(at).is_some_and(|it| it.delete.start() < indel.delete.end()) {
            return Err(OverlapError);
        }
        self.indels.insert(at, indel);
        Ok(())
    }

    /// Adds all replacements of another edit of the same text; where both insert at one place, its insertions go after. If some overlap,
    /// nothing is changed. It takes time linear in both edits.
    pub fn union(&mut self, other: TextEdit) -> Result<(), OverlapError> {
        let mut both = Vec::with_capacity(self.len() + other.len());
        let (mut mine, mut theirs) = (self.indels.iter().peekable(), other.indels.iter().peekable());
        loop {
            let is_mine_first = match (mine.peek(), theirs.peek()) {
                (None, None) => break,
                (Some(one), Some(other)) if one.delete.end() <= other.delete.start() => true,
                (Some(one), Some(other)) if other.delete.end() <= one.delete.start() => false,
                (Some(_), Some(_)) => return Err(OverlapError),
                (one, None) => one.is_some(),
                (None, _) => false,
            };
            both.extend(if is_mine_first { mine.next() } else { theirs.next() }.cloned());
        }
        self.indels = both;
        Ok(())
    }

    // Refuses a text in which the edit cannot be made. Returns the length of the new one.
    pub(crate) fn check(&self, text: &str) -> Result<usize, ApplyError> {
        let ranges = || self.indels.iter().map(|it| it.delete);
        if ranges().any(|it| usize::from(it.end()) > text.len()) {
            return Err(ApplyError::PastEnd);
        }
        let is_boundary = |at: TextSize| text.is_char_boundary(at.into());
        if !ranges().all(|it| is_boundary(it.start()) && is_boundary(it.end())) {
            return Err(ApplyError::InsideCharacter);
        }
        let kept = text.len() - ranges().map(|it| usize::from(it.len())).sum::<usize>();
        let len = self.indels.iter().try_fold(kept, |len, it| len.checked_add(it.insert.len()));
        len.filter(|len| u32::try_from(*len).is_ok()).ok_or(ApplyError::TooLong)
    }

    /// The text after the edit. It takes time linear in the text and the edit, and allocates once.
    pub fn apply(&self, text: &str) -> Result<String, ApplyError> {
        let mut new = String::with_capacity(self.check(text)?);
        let mut at = 0;
        for indel in &self.indels {
            new.push_str(&text[at..indel.delete.start().into()]);
            new.push_str(&indel.insert);
            at = indel.delete.end().into();
        }
        new.push_str(&text[at..]);
        Ok(new)
    }

    /// The edit of the new text that gives the old text back.
    pub fn invert(&self, text: &str) -> Result<TextEdit, ApplyError> {
        self.check(text)?;
        let (mut at, mut new) = (TextSize::new(0), TextSize::new(0));
        let inverted = self.indels.iter().map(|it| {
            let start = new + (it.delete.start() - at);
            new = start + TextSize::of(it.insert.as_str());
            at = it.delete.end();
            Indel::replace(TextRange::new(start, new), &text[it.delete])
        });
        Ok(TextEdit { indels: inverted.collect() })
    }

    /// Where an offset of the old text is after the edit; `None` if it is inside a replaced range, or at 2^32 or later after the edit. At
    /// the start of a range, or where a text is inserted, an offset stays before it.
    pub fn apply_to_offset(&self, offset: TextSize) -> Option<TextSize> {
        let (mut at, mut new) = (0, 0);
        for indel in &self.indels {
            if offset <= indel.delete.start() {
                break;
            }
            if offset < indel.delete.end() {
                return None;
            }
            new += usize::from(indel.delete.start()) - at + indel.insert.len();
            at = indel.delete.end().into();
        }
        TextSize::try_from(new + (usize::from(offset) - at)).ok()
    }
}

impl IntoIterator for TextEdit {
    type Item = Indel;
    type IntoIter = std::vec::IntoIter<Indel>;

    fn into_iter(self) -> Self::IntoIter {
        self.indels.into_iter()
    }
}

impl<'e> IntoIterator for &'e TextEdit {
    type Item = &'e Indel;
    type IntoIter = Iter<'e, Indel>;

    fn into_iter(self) -> Self::IntoIter {
        self.iter()
    }
}

impl TryFrom<Vec<Indel>> for TextEdit {
    type Error = OverlapError;

    /// The edit of replacements in any order.
    fn try_from(mut indels: Vec<Indel>) -> Result<TextEdit, OverlapError> {
        // Insertions at the start of a range go before it, and stay in their order.
        indels.sort_by_key(|it| (it.delete.start(), it.delete.end()));
        if indels.windows(2).any(|it| it[1].delete.start() < it[0].delete.end()) {
            return Err(OverlapError);
        }
        Ok(TextEdit { indels })
    }
}
