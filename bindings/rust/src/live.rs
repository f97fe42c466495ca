//! A text that is edited, and its parse.
use crate::held::Held;
use crate::range::{TextRange, TextSize};
use crate::splice::Since;
use crate::text_edit::{ApplyError, TextEdit};
use crate::tree::{Edition, Errors, ParseError, Tree};
use ras_sys as raw;
use std::cell::RefCell;
use std::fmt;

/// A text that is edited, whose parse stays with the library.
///
/// After an edit one token gets another text, or one block is parsed again, if that is enough; else all of the text is parsed. The tree and
/// the errors are always those of a new parse of the text. It keeps a share of the tree that it gave last, for what has stayed of it.
/// It may be sent to another thread, but not be shared: it is `Send` and not `Sync`. The trees that it gives are both.
///
/// ```
/// use ras::{Edition, Live, TextRange};
///
/// let mut live = Live::parse("fn f() { a + b }", Edition::CURRENT)?;
/// live.edit(TextRange::new(9.into(), 10.into()), "(c * d)")?;
/// assert_eq!(live.text(), "fn f() { (c * d) + b }");
/// assert_eq!(live.tree()?.needless_parens()?[0].text(), "(c * d)");
/// # Ok::<(), Box<dyn std::error::Error>>(())
/// ```
///
/// ```
/// let mut live = ras::Live::parse("fn f() {}", ras::Edition::CURRENT)?;
/// let thread = std::thread::spawn(move || live.edit(ras::TextRange::new(3.into(), 4.into()), "g").map(|_| live));
/// assert_eq!(thread.join().unwrap()?.tree()?.text(), "fn g() {}");
/// # Ok::<(), Box<dyn std::error::Error>>(())
/// ```
///
/// ```compile_fail,E0277
/// let live = ras::Live::parse("", ras::Edition::CURRENT).unwrap();
/// std::thread::scope(|it| it.spawn(|| live.tree()).join().unwrap()).unwrap();
/// ```
pub struct Live {
    // The library takes the parse out of its handle for each call, and puts it back.
    held: RefCell<Held>,
    text: String,
    edition: Edition,
    last: RefCell<Option<Last>>,
}

// The tree that was given last, the errors that it was asked for, and what was read again since.
struct Last {
    tree: Tree,
    errors: Errors,
    since: Since,
}

/// Why a text is not edited.
#[derive(Clone, Copy, Debug, PartialEq, Eq)]
pub enum EditError {
    /// The range ends after the text, or starts or ends inside a character.
    NoPlace,
    /// The new text has 2^32 bytes or more.
    TooLong,
    /// Out of memory.
    Memory,
}

impl fmt::Display for EditError {
    fn fmt(&self, f: &mut fmt::Formatter<'_>) -> fmt::Result {
        f.write_str(match self {
            EditError::NoPlace => "the range ends after the text, or starts or ends inside a character",
            EditError::TooLong => "the new text is too long: it has 4294967296 bytes or more",
            EditError::Memory => "out of memory",
        })
    }
}

impl std::error::Error for EditError {}

impl Live {
    /// A text, read as a file.
    ///
    /// It takes time linear in the text.
    ///
    /// # Panics
    ///
    /// It panics if the library that is linked is not the one that this crate was made for.
    pub fn parse(text: impl Into<String>, edition: Edition) -> Result<Live, ParseError> {
        let text = text.into();
        Ok(Live { held: RefCell::new(Held::parse(&text, edition)?), text, edition, last: RefCell::new(None) })
    }

    /// Replaces the bytes of a range, and returns the range of the new text that was read again: that of a block, that of a node with a
    /// token as a child that got another text, or the whole. Where the edit is refused, the text and its parse stay as they were.
    ///
    /// ```
    /// use ras::{EditError, Edition, Live, TextRange};
    ///
    /// let mut live = Live::parse("fn ü() {}", Edition::CURRENT)?;
    /// let inside = TextRange::new(4.into(), 5.into());
    /// assert_eq!(live.edit(inside, "u"), Err(EditError::NoPlace));
    /// live.edit(TextRange::new(3.into(), 5.into()), "u")?;
    /// assert_eq!(live.text(), "fn u() {}");
    /// # Ok::<(), Box<dyn std::error::Error>>(())
    /// ```
    ///
    /// It copies the text, even if only one token gets another text, and so takes time linear in it.
    pub fn edit(&mut self, delete: TextRange, insert: &str) -> Result<TextRange, EditError> {
        let (status, again) = self.held.get_mut().edit(self.edition, delete, insert);
        match status {
            raw::OK => {
                self.text.replace_range(std::ops::Range::<usize>::from(delete), insert);
                if let Some(last) = self.last.get_mut() {
                    last.since = last.since.and(again, delete, insert.len() as u32, self.text.len() as u32);
                }
                Ok(again)
            }
            raw::NO_PLACE => Err(EditError::NoPlace),
            raw::TOO_LONG => Err(EditError::TooLong),
            _ => Err(EditError::Memory),
        }
    }

    /// Makes all replacements of an edit, whose ranges are of the text as it is: the last one first, each as by [`Live::edit`], so that of
    /// each only the token or block around it is read again, where that is enough. It returns what was read again for each, in their
    /// order, as ranges of the new text, of which one may be in another. Where the edit is refused, nothing is changed; but if
    /// memory runs out, the replacements behind may have been made, and the text and its parse are those with these. It is refused as
    /// [`EditError::TooLong`], too, if the text between two replacements would be too long.
    ///
    /// ```
    /// use ras::{Edition, Indel, Live, TextEdit, TextRange};
    ///
    /// let mut live = Live::parse("fn f(a: u8) { a }", Edition::CURRENT)?;
    /// let mut edit = TextEdit::replace(TextRange::new(5.into(), 6.into()), "b");
    /// edit.add(Indel::replace(TextRange::new(14.into(), 15.into()), "b + 1"))?;
    /// let again = live.edits(&edit)?;
    /// assert_eq!(live.text(), "fn f(b: u8) { b + 1 }");
    /// assert_eq!(again.iter().map(|it| &live.text()[*it]).collect::<Vec<_>>(), ["b", "{ b + 1 }"]);
    /// # Ok::<(), Box<dyn std::error::Error>>(())
    /// ```
    ///
    /// Each replacement copies the text, so many of them are made sooner by [`Live::parse`] of [`TextEdit::apply`].
    pub fn edits(&mut self, edit: &TextEdit) -> Result<Vec<TextRange>, EditError> {
        edit.check(&self.text).map_err(|refused| match refused {
            ApplyError::PastEnd | ApplyError::InsideCharacter => EditError::NoPlace,
            ApplyError::TooLong => EditError::TooLong,
        })?;
        // A text between the replacements may be too long where that after all of them is not.
        let lens = edit.iter().rev().scan(self.text.len(), |len, it| {
            *len = len.saturating_add(it.insert.len()) - usize::from(it.delete.len());
            Some(*len)
        });
        if lens.max().is_some_and(|longest| u32::try_from(longest).is_err()) {
            return Err(EditError::TooLong);
        }
        let indels: Vec<_> = edit.iter().collect();
        let told = indels.iter().rev().map(|it| self.edit(it.delete, &it.insert)).collect::<Result<Vec<_>, _>>()?;
        // By how much the replacements before each move what is behind them. Those of the same piece move its end alone.
        let mut moves = vec![0];
        moves.extend(indels.iter().scan(0, |moved, it| {
            *moved += it.insert.len() as i64 - i64::from(u32::from(it.delete.len()));
            Some(*moved)
        }));
        let moved = |offset: TextSize, by: i64| TextSize::from((i64::from(u32::from(offset)) + by) as u32);
        let ranges = told.into_iter().rev().enumerate().map(|(n, range)| {
            let before = indels[..n].partition_point(|it| it.delete.end() <= range.start());
            TextRange::new(moved(range.start(), moves[before]), moved(range.end(), moves[n]))
        });
        Ok(ranges.collect())
    }

    /// The tree of the text as it is now, which later edits leave as it is.
    ///
    /// If there was no edit since the last call, it is the tree that this gave. If one block was parsed again, the library hands over the
    /// rows of this block alone, and if one token got another text those of the node that has it as a child; the rest comes from that
    /// tree: it is copied, if that tree is still in use, and moved otherwise. Else the library hands over all rows. Each way takes time
    /// linear in the text.
    ///
    /// Likewise for what breaks rules beyond the grammar: if that tree has it, it is looked for again in the item around the block or the
    /// token alone, such as a function in an implementation, and not at all if white space or a comment between two items got another text.
    /// Else it is looked for in the whole tree, unless [`Live::tree_with`] leaves it out.
    pub fn tree(&self) -> Result<Tree, ParseError> {
        self.tree_with(Errors::All)
    }

    /// The same with the errors that are asked for, as by [`Tree::parse_as`].
    pub fn tree_with(&self, errors: Errors) -> Result<Tree, ParseError> {
        let (mut held, mut last) = (self.held.borrow_mut(), self.last.borrow_mut());
        if let Some(Last { tree, errors: asked, since: Since::Nothing }) = &*last {
            if *asked == errors {
                return Ok(tree.clone());
            }
        }
        let after = match last.take() {
            Some(Last { tree, errors: had, since: Since::Node { was, is } }) => {
                held.tree_after((tree, had), (was, is), &self.text, errors)?
            }
            _ => None,
        };
        let tree = match after {
            Some(tree) => tree,
            None => held.tree(self.text.as_str().into(), self.edition, errors)?,
        };
        *last = Some(Last { tree: tree.clone(), errors, since: Since::Nothing });
        Ok(tree)
    }

    /// The text as it is now.
    pub fn text(&self) -> &str {
        &self.text
    }

    /// The edition that the text is read as.
    pub fn edition(&self) -> Edition {
        self.edition
    }
}

impl fmt::Debug for Live {
    /// The text and its edition.
    fn fmt(&self, f: &mut fmt::Formatter<'_>) -> fmt::Result {
        f.debug_struct("Live").field("text", &self.text).field("edition", &self.edition).finish()
    }
}
