//! Offsets and ranges of a text, in bytes, with the calls of the crate `text-size`.
use std::cmp::Ordering;
use std::fmt;
use std::iter::Sum;
use std::num::TryFromIntError;
use std::ops::{Add, AddAssign, Bound, Index, IndexMut, Range, RangeBounds, Sub, SubAssign};

/// An offset in a text, or the length of a text, in bytes.
#[derive(Clone, Copy, Default, PartialEq, Eq, PartialOrd, Ord, Hash)]
pub struct TextSize(u32);

impl TextSize {
    /// The offset of so many bytes.
    pub const fn new(bytes: u32) -> TextSize {
        TextSize(bytes)
    }

    /// The length of a text or of a character.
    ///
    /// ```
    /// use ras::TextSize;
    ///
    /// assert_eq!(TextSize::of('ß'), TextSize::new(2));
    /// assert_eq!(TextSize::of("fn f"), TextSize::new(4));
    /// ```
    ///
    /// # Panics
    ///
    /// It panics for a text of 2^32 bytes or more.
    pub fn of<T: TextLen>(text: T) -> TextSize {
        text.text_len()
    }

    /// How many bytes it is from the start.
    pub const fn raw(self) -> u32 {
        self.0
    }

    /// The sum; `None` if it is 2^32 or more.
    pub const fn checked_add(self, other: TextSize) -> Option<TextSize> {
        match self.0.checked_add(other.0) {
            Some(sum) => Some(TextSize(sum)),
            None => None,
        }
    }

    /// The difference; `None` if the other one is larger.
    pub const fn checked_sub(self, other: TextSize) -> Option<TextSize> {
        match self.0.checked_sub(other.0) {
            Some(difference) => Some(TextSize(difference)),
            None => None,
        }
    }
}

/// What has a length in bytes: a text or a character.
pub trait TextLen: Copy {
    /// The length. It panics if it is 2^32 or more.
    fn text_len(self) -> TextSize;
}

impl TextLen for &'_ str {
    fn text_len(self) -> TextSize {
        TextSize::try_from(self.len()).expect("a text has less than 2^32 bytes")
    }
}

impl TextLen for &'_ String {
    fn text_len(self) -> TextSize {
        self.as_str().text_len()
    }
}

impl TextLen for char {
    fn text_len(self) -> TextSize {
        TextSize(self.len_utf8() as u32)
    }
}

impl From<u32> for TextSize {
    fn from(bytes: u32) -> TextSize {
        TextSize(bytes)
    }
}

impl From<TextSize> for u32 {
    fn from(size: TextSize) -> u32 {
        size.0
    }
}

impl TryFrom<usize> for TextSize {
    type Error = TryFromIntError;

    fn try_from(bytes: usize) -> Result<TextSize, TryFromIntError> {
        u32::try_from(bytes).map(TextSize)
    }
}

impl From<TextSize> for usize {
    fn from(size: TextSize) -> usize {
        size.0 as usize
    }
}

// A call of an operator of two values, by values and by references.
macro_rules! operator {
    ($of:ty: $trait:ident $call:ident, $assign_trait:ident $assign:ident) => {
        impl $trait<&TextSize> for $of {
            type Output = $of;

            fn $call(self, other: &TextSize) -> $of {
                self.$call(*other)
            }
        }

        impl<T> $trait<T> for &$of
        where
            $of: $trait<T, Output = $of>,
        {
            type Output = $of;

            fn $call(self, other: T) -> $of {
                (*self).$call(other)
            }
        }

        impl<T> $assign_trait<T> for $of
        where
            $of: $trait<T, Output = $of>,
        {
            fn $assign(&mut self, other: T) {
                *self = (*self).$call(other);
            }
        }
    };
}

impl Add for TextSize {
    type Output = TextSize;

    fn add(self, other: TextSize) -> TextSize {
        TextSize(self.0 + other.0)
    }
}

impl Sub for TextSize {
    type Output = TextSize;

    fn sub(self, other: TextSize) -> TextSize {
        TextSize(self.0 - other.0)
    }
}

operator!(TextSize: Add add, AddAssign add_assign);
operator!(TextSize: Sub sub, SubAssign sub_assign);

impl<T> Sum<T> for TextSize
where
    TextSize: Add<T, Output = TextSize>,
{
    fn sum<I: Iterator<Item = T>>(sizes: I) -> TextSize {
        sizes.fold(TextSize(0), Add::add)
    }
}

impl fmt::Display for TextSize {
    fn fmt(&self, f: &mut fmt::Formatter<'_>) -> fmt::Result {
        self.0.fmt(f)
    }
}

impl fmt::Debug for TextSize {
    fn fmt(&self, f: &mut fmt::Formatter<'_>) -> fmt::Result {
        self.0.fmt(f)
    }
}

/// A range of a text, in bytes: from its start up to its end, which is left out. It prints as `3..7`.
///
/// ```
/// use ras::TextRange;
///
/// let range = TextRange::new(3.into(), 6.into());
/// assert_eq!(&"fn foo() {}"[range], "foo");
/// ```
#[derive(Clone, Copy, Default, PartialEq, Eq, Hash)]
pub struct TextRange {
    start: TextSize,
    end: TextSize,
}

impl TextRange {
    /// The range from `start` up to `end`.
    ///
    /// # Panics
    ///
    /// It panics if `end` is before `start`.
    pub const fn new(start: TextSize, end: TextSize) -> TextRange {
        assert!(start.0 <= end.0, "a range ends where it starts or later");
        TextRange { start, end }
    }

    /// The range of so many bytes from an offset on. It panics if its end is 2^32 or more.
    pub const fn at(offset: TextSize, len: TextSize) -> TextRange {
        match offset.checked_add(len) {
            Some(end) => TextRange { start: offset, end },
            None => panic!("a range ends before 2^32"),
        }
    }

    /// The range without bytes at an offset.
    pub const fn empty(offset: TextSize) -> TextRange {
        TextRange { start: offset, end: offset }
    }

    /// The range from the start of the text up to an offset.
    pub const fn up_to(end: TextSize) -> TextRange {
        TextRange { start: TextSize(0), end }
    }

    /// Where it starts.
    pub const fn start(self) -> TextSize {
        self.start
    }

    /// Where it ends.
    pub const fn end(self) -> TextSize {
        self.end
    }

    /// How many bytes it has.
    pub const fn len(self) -> TextSize {
        TextSize(self.end.0 - self.start.0)
    }

    /// Whether it has none.
    pub const fn is_empty(self) -> bool {
        self.start.0 == self.end.0
    }

    /// Whether the byte at this offset is in it.
    pub fn contains(self, offset: TextSize) -> bool {
        self.start <= offset && offset < self.end
    }

    /// Whether the offset is in it or at its end.
    pub fn contains_inclusive(self, offset: TextSize) -> bool {
        self.start <= offset && offset <= self.end
    }

    /// Whether the whole of another range is in it.
    pub fn contains_range(self, other: TextRange) -> bool {
        self.start <= other.start && other.end <= self.end
    }

    /// What both have; an empty range if they only touch, and `None` if they do not even touch.
    pub fn intersect(self, other: TextRange) -> Option<TextRange> {
        let (start, end) = (self.start.max(other.start), self.end.min(other.end));
        (start <= end).then(|| TextRange::new(start, end))
    }

    /// The smallest range that contains both.
    pub fn cover(self, other: TextRange) -> TextRange {
        TextRange::new(self.start.min(other.start), self.end.max(other.end))
    }

    /// The smallest range that contains it and an offset.
    pub fn cover_offset(self, offset: TextSize) -> TextRange {
        self.cover(TextRange::empty(offset))
    }

    /// `Less` if it ends where the other one starts or before that, `Greater` if it starts where the other one ends or behind that, and
    /// `Equal` if they have a byte in common. An empty range is `Less` than an equal one.
    pub fn ordering(self, other: TextRange) -> Ordering {
        if self.end <= other.start {
            Ordering::Less
        } else if other.end <= self.start {
            Ordering::Greater
        } else {
            Ordering::Equal
        }
    }

    /// The range so many bytes later; `None` if its end is 2^32 or more.
    pub fn checked_add(self, offset: TextSize) -> Option<TextRange> {
        Some(TextRange::new(self.start.checked_add(offset)?, self.end.checked_add(offset)?))
    }

    /// The range so many bytes earlier; `None` if its start would be negative.
    pub fn checked_sub(self, offset: TextSize) -> Option<TextRange> {
        Some(TextRange::new(self.start.checked_sub(offset)?, self.end.checked_sub(offset)?))
    }
}

impl Add<TextSize> for TextRange {
    type Output = TextRange;

    fn add(self, offset: TextSize) -> TextRange {
        self.checked_add(offset).expect("a range ends before 2^32")
    }
}

impl Sub<TextSize> for TextRange {
    type Output = TextRange;

    fn sub(self, offset: TextSize) -> TextRange {
        self.checked_sub(offset).expect("a range starts at 0 or later")
    }
}

operator!(TextRange: Add add, AddAssign add_assign);
operator!(TextRange: Sub sub, SubAssign sub_assign);

impl<T: From<TextSize>> From<TextRange> for Range<T> {
    fn from(range: TextRange) -> Range<T> {
        range.start.into()..range.end.into()
    }
}

impl RangeBounds<TextSize> for TextRange {
    fn start_bound(&self) -> Bound<&TextSize> {
        Bound::Included(&self.start)
    }

    fn end_bound(&self) -> Bound<&TextSize> {
        Bound::Excluded(&self.end)
    }
}

impl Index<TextRange> for str {
    type Output = str;

    fn index(&self, range: TextRange) -> &str {
        &self[Range::<usize>::from(range)]
    }
}

impl Index<TextRange> for String {
    type Output = str;

    fn index(&self, range: TextRange) -> &str {
        &self.as_str()[range]
    }
}

impl IndexMut<TextRange> for str {
    fn index_mut(&mut self, range: TextRange) -> &mut str {
        &mut self[Range::<usize>::from(range)]
    }
}

impl IndexMut<TextRange> for String {
    fn index_mut(&mut self, range: TextRange) -> &mut str {
        &mut self.as_mut_str()[range]
    }
}

impl fmt::Display for TextRange {
    fn fmt(&self, f: &mut fmt::Formatter<'_>) -> fmt::Result {
        write!(f, "{}..{}", self.start, self.end)
    }
}

impl fmt::Debug for TextRange {
    fn fmt(&self, f: &mut fmt::Formatter<'_>) -> fmt::Result {
        write!(f, "{self}")
    }
}
