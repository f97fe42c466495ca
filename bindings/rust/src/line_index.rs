//! Lines and columns.
use crate::range::{TextRange, TextSize};

/// A line and a column, both counted from 0. The column is in bytes from the start of the line.
#[derive(Clone, Copy, Debug, PartialEq, Eq, Hash)]
pub struct LineCol {
    /// How many line feeds are before the place.
    pub line: u32,
    /// How many bytes are between the last of them, or the text's start, and the place.
    pub col: u32,
}

/// What a column is counted in, if it is not in bytes.
#[derive(Clone, Copy, Debug, PartialEq, Eq, Hash)]
pub enum WideEncoding {
    /// Units of UTF-16: two for a character past U+FFFF, and otherwise one.
    Utf16,
    /// Characters.
    Utf32,
}

impl WideEncoding {
    /// How many units a text has.
    pub fn measure(&self, text: &str) -> usize {
        text.chars().map(|it| self.units(it) as usize).sum()
    }

    fn units(self, sign: char) -> u32 {
        match self {
            WideEncoding::Utf16 => sign.len_utf16() as u32,
            WideEncoding::Utf32 => 1,
        }
    }
}

/// A line and a column, both counted from 0. The column is in units of a [`WideEncoding`], as language servers count.
#[derive(Clone, Copy, Debug, PartialEq, Eq, Hash)]
pub struct WideLineCol {
    /// How many line feeds are before the place.
    pub line: u32,
    /// How many units are between the last of them, or the text's start, and the place.
    pub col: u32,
}

/// The lines of a text, for the line and the column of an offset and back: the calls of the crate `line-index` that rust-analyzer's crates
/// use. It keeps no text, but the starts of the lines and the characters past ASCII.
///
/// A line ends after its line feed, or at the end of the text. So a text has one line more than it has line feeds.
///
/// ```
/// use ras::{LineCol, LineIndex, WideEncoding, WideLineCol};
///
/// let index = LineIndex::new("fn f() {}\n/* ä */ fn g() {}");
/// let at = index.line_col(22.into());
/// assert_eq!(at, LineCol { line: 1, col: 12 });
/// assert_eq!(index.to_wide(WideEncoding::Utf16, at), Some(WideLineCol { line: 1, col: 11 }));
/// assert_eq!(index.offset(at), Some(22.into()));
/// ```
#[derive(Clone, Debug, PartialEq, Eq)]
pub struct LineIndex {
    // Where the lines start, the first one at 0.
    starts: Box<[TextSize]>,
    // Where the characters past ASCII start, in order.
    wide: Box<[(TextSize, char)]>,
    len: TextSize,
}

impl LineIndex {
    /// The lines of a text, in time linear in its length.
    ///
    /// # Panics
    ///
    /// It panics for a text of 2^32 bytes or more. The text of a tree is shorter.
    pub fn new(text: &str) -> LineIndex {
        let len = TextSize::of(text);
        let behind = |at: usize| TextSize::new(at as u32);
        let feeds = text.bytes().enumerate().filter(|it| it.1 == b'\n').map(|it| behind(it.0 + 1));
        let wide = text.char_indices().filter(|it| !it.1.is_ascii()).map(|(at, sign)| (behind(at), sign));
        LineIndex { starts: std::iter::once(TextSize::new(0)).chain(feeds).collect(), wide: wide.collect(), len }
    }

    /// The line and the column of an offset.
    ///
    /// # Panics
    ///
    /// It panics where [`try_line_col`](Self::try_line_col) is `None`.
    pub fn line_col(&self, offset: TextSize) -> LineCol {
        self.try_line_col(offset).expect("an offset of the text, and not inside a character")
    }

    /// The line and the column of an offset; `None` if it is past the end of the text or inside a character. It takes time in the logarithm
    /// of the number of lines and of characters past ASCII.
    pub fn try_line_col(&self, offset: TextSize) -> Option<LineCol> {
        if offset > self.len || self.is_inside(offset) {
            return None;
        }
        // The first line starts at 0, so there is one at or before the offset.
        let line = self.starts.partition_point(|it| *it <= offset) - 1;
        Some(LineCol { line: line as u32, col: (offset - self.starts[line]).raw() })
    }

    /// The offset with this line and column; `None` if the text has no such line, or the line no such column. A line feed is the last byte
    /// of its line, so the offset after it has another line.
    pub fn offset(&self, at: LineCol) -> Option<TextSize> {
        let range = self.line(at.line)?;
        let offset = range.start().checked_add(at.col.into())?;
        let is_last = at.line as usize + 1 == self.starts.len();
        (range.contains(offset) || is_last && offset == self.len).then_some(offset)
    }

    /// The same place with its column in units of an encoding; `None` if the text has no such place, or it is inside a character. It takes
    /// time in the number of characters past ASCII before it in its line.
    pub fn to_wide(&self, encoding: WideEncoding, at: LineCol) -> Option<WideLineCol> {
        let offset = self.offset(at)?;
        if self.is_inside(offset) {
            return None;
        }
        let before = self.wide_from(self.starts[at.line as usize]).iter().take_while(|it| it.0 < offset);
        let less: u32 = before.map(|it| it.1.len_utf8() as u32 - encoding.units(it.1)).sum();
        Some(WideLineCol { line: at.line, col: at.col - less })
    }

    /// The same place with its column in bytes; `None` if the text has no such line, or no character of the line starts at such a column.
    /// The end of the text counts as the start of a character.
    pub fn to_utf8(&self, encoding: WideEncoding, at: WideLineCol) -> Option<LineCol> {
        let range = self.line(at.line)?;
        let mut col = at.col;
        for (start, sign) in self.wide_from(range.start()) {
            let start = (*start - range.start()).raw();
            if start >= col {
                break;
            }
            // The column is past the first unit of this character, in bytes so far.
            if col < start + encoding.units(*sign) {
                return None;
            }
            col = col.checked_add(sign.len_utf8() as u32 - encoding.units(*sign))?;
        }
        let found = LineCol { line: at.line, col };
        self.offset(found).map(|_| found)
    }

    /// The range of a line with its line feed; `None` if the text has no such line.
    pub fn line(&self, line: u32) -> Option<TextRange> {
        let line = line as usize;
        let start = *self.starts.get(line)?;
        Some(TextRange::new(start, self.starts.get(line + 1).copied().unwrap_or(self.len)))
    }

    /// The parts of a range, one for each line that it has a byte of, in order.
    pub fn lines(&self, range: TextRange) -> impl Iterator<Item = TextRange> + '_ {
        let first = self.starts.partition_point(|it| *it <= range.start());
        let within = self.starts[first..].iter().copied().take_while(move |it| *it < range.end());
        let mut start = range.start();
        let parts = within.chain(std::iter::once(range.end())).map(move |end| TextRange::new(std::mem::replace(&mut start, end), end));
        parts.filter(|it| !it.is_empty())
    }

    /// The length of the text.
    pub fn len(&self) -> TextSize {
        self.len
    }

    /// Whether the text is empty.
    pub fn is_empty(&self) -> bool {
        self.len == TextSize::new(0)
    }

    // The characters past ASCII that start at an offset or later.
    fn wide_from(&self, offset: TextSize) -> &[(TextSize, char)] {
        &self.wide[self.wide.partition_point(|it| it.0 < offset)..]
    }

    // Whether an offset is inside a character.
    fn is_inside(&self, offset: TextSize) -> bool {
        let before = self.wide.partition_point(|it| it.0 < offset).checked_sub(1).map(|it| self.wide[it]);
        before.is_some_and(|(start, sign)| offset < start + TextSize::of(sign))
    }
}
