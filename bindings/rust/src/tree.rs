//! A text and its tree.
use crate::held::Held;
use crate::iter::TokenAtOffset;
use crate::node::{NodeRef, SyntaxNode, TokenRef};
use crate::range::{TextRange, TextSize};
use crate::splice::splice;
use crate::stored::Stored;
use crate::{SyntaxKind, iter};
use ras_sys::{self as raw, Counts, ErrorRow, FlatRow, Range};
use std::fmt;
use std::str::FromStr;
use std::sync::Arc;

/// An edition of Rust. Which words are keywords depends on it.
#[derive(Clone, Copy, Debug, PartialEq, Eq, PartialOrd, Ord, Hash)]
#[repr(u8)]
pub enum Edition {
    /// Rust 2015.
    Edition2015,
    /// Rust 2018.
    Edition2018,
    /// Rust 2021.
    Edition2021,
    /// Rust 2024.
    Edition2024,
}

impl Edition {
    /// The newest edition, Rust 2024.
    pub const CURRENT: Edition = Edition::Edition2024;
    /// The newest edition, by the other name that rust-analyzer has for it.
    pub const LATEST: Edition = Edition::CURRENT;
    /// The edition of a package whose `Cargo.toml` names none, Rust 2015.
    pub const DEFAULT: Edition = Edition::Edition2015;

    /// All editions, from the oldest.
    pub fn iter() -> impl Iterator<Item = Edition> {
        [Edition::Edition2015, Edition::Edition2018, Edition::Edition2021, Edition::Edition2024].into_iter()
    }

    /// Its year.
    pub fn number(&self) -> usize {
        self.year() as usize
    }

    /// Whether it is Rust 2018 or later.
    pub fn at_least_2018(self) -> bool {
        self >= Edition::Edition2018
    }

    /// Whether it is Rust 2021 or later.
    pub fn at_least_2021(self) -> bool {
        self >= Edition::Edition2021
    }

    /// Whether it is Rust 2024 or later.
    pub fn at_least_2024(self) -> bool {
        self >= Edition::Edition2024
    }

    pub(crate) fn year(self) -> u32 {
        match self {
            Edition::Edition2015 => 2015,
            Edition::Edition2018 => 2018,
            Edition::Edition2021 => 2021,
            Edition::Edition2024 => 2024,
        }
    }
}

impl fmt::Display for Edition {
    /// The year.
    fn fmt(&self, f: &mut fmt::Formatter<'_>) -> fmt::Result {
        self.year().fmt(f)
    }
}

/// A text names no edition.
#[derive(Clone, Debug, PartialEq, Eq)]
pub struct ParseEditionError(Box<str>);

impl fmt::Display for ParseEditionError {
    fn fmt(&self, f: &mut fmt::Formatter<'_>) -> fmt::Result {
        write!(f, "invalid edition: {:?}", self.0)
    }
}

impl std::error::Error for ParseEditionError {}

impl FromStr for Edition {
    type Err = ParseEditionError;

    /// The edition of a year.
    ///
    /// ```
    /// use ras::Edition;
    ///
    /// assert_eq!("2021".parse(), Ok(Edition::Edition2021));
    /// assert!("2022".parse::<Edition>().is_err());
    /// ```
    fn from_str(text: &str) -> Result<Edition, ParseEditionError> {
        Edition::iter().find(|it| it.to_string() == text).ok_or_else(|| ParseEditionError(text.into()))
    }
}

/// Why a text has no tree.
#[derive(Clone, Copy, Debug, PartialEq, Eq)]
pub enum ParseError {
    /// The text has 2^32 bytes or more, or its tree as many rows.
    TooLong,
    /// Out of memory.
    Memory,
}

impl fmt::Display for ParseError {
    fn fmt(&self, f: &mut fmt::Formatter<'_>) -> fmt::Result {
        f.write_str(match self {
            ParseError::TooLong => "the text is too long: it has 4294967296 bytes or more, or its tree as many rows",
            ParseError::Memory => "out of memory",
        })
    }
}

impl std::error::Error for ParseError {}

// What a status says of a text that is UTF-8: whether the buffers had room.
pub(crate) fn answered(status: u32) -> Result<bool, ParseError> {
    match status {
        raw::OK => Ok(true),
        raw::NO_ROOM => Ok(false),
        raw::TOO_LONG => Err(ParseError::TooLong),
        _ => Err(ParseError::Memory),
    }
}

/// What is wrong with a text, and where.
#[derive(Clone, Debug, PartialEq, Eq, Hash)]
pub struct SyntaxError {
    message: Box<str>,
    range: TextRange,
    is_violation: bool,
}

impl SyntaxError {
    /// An error of one's own, with a message and a range. It is no violation.
    ///
    /// ```
    /// use ras::{SyntaxError, TextRange};
    ///
    /// let error = SyntaxError::new("too long", TextRange::new(3.into(), 9.into()));
    /// assert_eq!((error.to_string(), error.range().to_string()), ("too long".to_owned(), "3..9".to_owned()));
    /// ```
    pub fn new(message: impl Into<String>, range: TextRange) -> SyntaxError {
        SyntaxError { message: message.into().into(), range, is_violation: false }
    }

    /// An error of one's own at an offset, with an empty range.
    pub fn new_at_offset(message: impl Into<String>, offset: TextSize) -> SyntaxError {
        SyntaxError::new(message, TextRange::empty(offset))
    }

    /// The same error with another range.
    pub fn with_range(mut self, range: TextRange) -> SyntaxError {
        self.range = range;
        self
    }

    /// The message.
    pub fn message(&self) -> &str {
        &self.message
    }

    /// Where it is, in bytes of the text. Of what is missing the range is empty.
    pub fn range(&self) -> TextRange {
        self.range
    }

    /// Whether the text keeps the grammar there, and breaks a rule beyond it, as that on the escapes of a string.
    pub fn is_violation(&self) -> bool {
        self.is_violation
    }
}

impl fmt::Display for SyntaxError {
    fn fmt(&self, f: &mut fmt::Formatter<'_>) -> fmt::Result {
        f.write_str(&self.message)
    }
}

impl std::error::Error for SyntaxError {}

/// A text, its lossless tree, and what is wrong with it.
///
/// There is a tree whatever the text is, and each byte of the text is in one token of it. A tree is shared, plain data that never
/// changes: copying one costs nothing, and it may be sent to other threads.
///
/// [`root`](Tree::root) gives nodes that borrow the tree, which is fastest; [`syntax_node`](Tree::syntax_node) gives nodes that own a
/// share of it.
///
/// ```
/// use ras::{Edition, Tree};
///
/// let tree = Tree::parse("fn main() { 1 + }", Edition::CURRENT)?;
/// assert_eq!(tree.root().text(), "fn main() { 1 + }");
/// assert_eq!(tree.errors()[0].message(), "expected expression");
/// assert_eq!(tree.errors()[0].range().to_string(), "15..15");
/// # Ok::<(), ras::ParseError>(())
/// ```
#[derive(Clone)]
pub struct Tree(Arc<Inner>);

#[derive(PartialEq, Eq)]
struct Inner {
    stored: Stored,
    edition: Edition,
    errors: Box<[SyntaxError]>,
}

/// What a text is read as: a file, or a part of one. If the text goes on behind the part, as in `a b`, the root is an `ERROR` that has the
/// part first, and then the tokens that are left; there need not be further errors.
#[derive(Clone, Copy, Debug, PartialEq, Eq, Hash)]
pub enum Entry {
    /// A file: the root is a `SOURCE_FILE`.
    SourceFile,
    /// An expression: the root is a node of an expression, or `ERROR` if the text is not one expression.
    Expr,
    /// A type, with its bounds, as `&'a (dyn A + B)`: the root is a node of a type, or `ERROR` if the text is not one type.
    Type,
    /// A pattern, with its alternatives, as `A | Some(b)`: the root is a node of a pattern, or `ERROR` if the text is not one pattern.
    Pattern,
    /// Statements, as a macro may stand for: each with or without its `;`, and an expression. The root is a `MACRO_STMTS`.
    MacroStmts,
    /// Items, as a macro may stand for: the root is a `MACRO_ITEMS`.
    MacroItems,
    /// The contents of an attribute, as `derive(Debug)`: the root is a node of an `ast::Meta`, or `ERROR` if the text is not one.
    MetaItem,
}

impl Entry {
    // Its number in the library.
    fn number(self) -> u32 {
        match self {
            Entry::SourceFile => raw::ENTRY_FILE,
            Entry::Expr => raw::ENTRY_EXPR,
            Entry::Type => raw::ENTRY_TYPE,
            Entry::Pattern => raw::ENTRY_PATTERN,
            Entry::MacroStmts => raw::ENTRY_STATEMENTS,
            Entry::MacroItems => raw::ENTRY_ITEMS,
            Entry::MetaItem => raw::ENTRY_META_ITEM,
        }
    }
}

/// Which errors a tree has.
#[derive(Clone, Copy, Debug, PartialEq, Eq, Hash)]
pub enum Errors {
    /// None.
    Nothing,
    /// Those of the parser, and then those of the lexer.
    Parse,
    /// What breaks rules beyond the grammar. They are looked for in a further walk through the tree.
    Violations,
    /// Those of the parse, and then what breaks rules beyond the grammar.
    All,
}

impl Errors {
    pub(crate) fn number(self) -> u32 {
        match self {
            Errors::Nothing => raw::NO_ERRORS,
            Errors::Parse => raw::PARSE_ERRORS,
            Errors::Violations => raw::VIOLATIONS,
            Errors::All => raw::ALL_ERRORS,
        }
    }

    // Whether what breaks rules beyond the grammar is among them, and those that are left without that.
    pub(crate) fn has_violations(self) -> bool {
        matches!(self, Errors::Violations | Errors::All)
    }

    pub(crate) fn without_violations(self) -> Errors {
        match self {
            Errors::Nothing | Errors::Violations => Errors::Nothing,
            Errors::Parse | Errors::All => Errors::Parse,
        }
    }
}

// What the number of a token's kind has more than that of a node's.
pub(crate) const TOKEN: u32 = 1 << 31;

// Room for what the library writes for a text: empty lists with a capacity. It is not filled with zeros before, since it is much more than
// most texts need.
pub(crate) struct Room {
    pub(crate) rows: Vec<FlatRow>,
    pub(crate) errors: Vec<ErrorRow>,
    pub(crate) messages: Vec<u8>,
}

impl Room {
    // For so many rows, and the errors of most texts.
    pub(crate) fn of(rows: usize) -> Room {
        Room { rows: Vec::with_capacity(rows), errors: Vec::with_capacity(64), messages: Vec::with_capacity(4096) }
    }

    // For so many rows, and somewhat more than these errors.
    pub(crate) fn like(rows: usize, errors: &[SyntaxError]) -> Room {
        let messages: usize = errors.iter().map(|it| it.message.len()).sum();
        Room {
            rows: Vec::with_capacity(rows),
            errors: Vec::with_capacity(errors.len() + 16),
            messages: Vec::with_capacity(messages + 1024),
        }
    }

    // For so many rows, errors and bytes of messages.
    pub(crate) fn counted(counts: &Counts) -> Room {
        Room {
            rows: Vec::with_capacity(counts.rows as usize),
            errors: Vec::with_capacity(counts.errors as usize),
            messages: Vec::with_capacity(counts.messages as usize),
        }
    }

    // SAFETY: the library has written so many rows, errors and bytes to the front of each buffer.
    unsafe fn written(&mut self, counts: &Counts) {
        unsafe {
            self.rows.set_len(counts.rows as usize);
            self.errors.set_len(counts.errors as usize);
            self.messages.set_len(counts.messages as usize);
        }
    }
}

// The errors of rows and their messages, of which the last ones are violations.
fn errors_of(rows: &[ErrorRow], messages: &[u8], violations: usize) -> Box<[SyntaxError]> {
    let mut left = messages;
    let stored = rows.len() - violations;
    let error = |(n, row): (usize, &ErrorRow)| {
        let (message, rest) = left.split_at(row.message as usize);
        left = rest;
        SyntaxError {
            message: String::from_utf8_lossy(message).into(),
            range: TextRange::new(row.start.into(), row.end.into()),
            is_violation: n >= stored,
        }
    };
    rows.iter().enumerate().map(error).collect()
}

impl Tree {
    /// The tree of a text, read as a file.
    ///
    /// It takes time linear in the text: one pass of the parser, and a walk over the rows that looks for what breaks rules beyond the grammar.
    /// The library hands over its own tree.
    ///
    /// # Panics
    ///
    /// It panics if the library that is linked is not the one that this crate was made for.
    pub fn parse(text: impl AsRef<str>, edition: Edition) -> Result<Tree, ParseError> {
        Tree::parse_as(text, edition, Entry::SourceFile, Errors::All)
    }

    /// The tree of a text, read as an expression. Its root is a node of an expression, or `ERROR` if the text is not one expression. If
    /// only its beginning is one, as in `a b`, there may be no errors.
    ///
    /// ```
    /// use ras::{Edition, SyntaxKind, Tree};
    ///
    /// let tree = Tree::parse_expr("1 + 2", Edition::CURRENT)?;
    /// assert_eq!(tree.root().kind(), SyntaxKind::BIN_EXPR);
    /// assert_eq!(Tree::parse_expr("let x = 1;", Edition::CURRENT)?.root().kind(), SyntaxKind::ERROR);
    /// # Ok::<(), ras::ParseError>(())
    /// ```
    ///
    /// # Panics
    ///
    /// It panics if the library that is linked is not the one that this crate was made for.
    pub fn parse_expr(text: impl AsRef<str>, edition: Edition) -> Result<Tree, ParseError> {
        Tree::parse_as(text, edition, Entry::Expr, Errors::All)
    }

    /// The tree of a text by an entry, with the errors that are asked for: those of the parse alone take one walk through the tree less.
    ///
    /// ```
    /// use ras::{Edition, Entry, Errors, SyntaxKind, Tree};
    ///
    /// let tree = Tree::parse_as("&'a A", Edition::CURRENT, Entry::Type, Errors::All)?;
    /// assert_eq!(tree.root().kind(), SyntaxKind::REF_TYPE);
    ///
    /// let text = "fn f() { 1 + } impl T for S { pub fn g() {} }";
    /// let count = |errors| Tree::parse_as(text, Edition::CURRENT, Entry::SourceFile, errors).map(|it| it.errors().len());
    /// assert_eq!((count(Errors::Nothing)?, count(Errors::Parse)?, count(Errors::Violations)?, count(Errors::All)?), (0, 1, 1, 2));
    /// # Ok::<(), ras::ParseError>(())
    /// ```
    ///
    /// # Panics
    ///
    /// It panics if the library that is linked is not the one that this crate was made for.
    pub fn parse_as(text: impl AsRef<str>, edition: Edition, entry: Entry, errors: Errors) -> Result<Tree, ParseError> {
        match entry {
            Entry::SourceFile => Held::parse(text.as_ref(), edition)?.into_tree(edition, errors),
            _ => Tree::part(text.as_ref().into(), edition, entry, errors),
        }
    }

    // The tree of a part of a file. It is asked for in one call, since such texts are short.
    fn part(text: Box<str>, edition: Edition, entry: Entry, errors: Errors) -> Result<Tree, ParseError> {
        crate::version::check();
        let room = Room::of(text.len() + text.len() / 2 + 64);
        Tree::told(text, edition, room, |text, room, counts| {
            // SAFETY: the text and the three buffers are borrowed for the call, with their lengths, none overlaps another, and the
            // declaration is made from that of `crates/ras_c`.
            unsafe {
                raw::ras_c_read_as(
                    entry.number(),
                    errors.number(),
                    text.as_ptr(),
                    text.len(),
                    edition.year(),
                    room.rows.as_mut_ptr(),
                    room.rows.capacity(),
                    room.errors.as_mut_ptr(),
                    room.errors.capacity(),
                    room.messages.as_mut_ptr(),
                    room.messages.capacity(),
                    counts,
                )
            }
        })
    }

    // The tree of a text, from a call that fills the buffers and is repeated with larger ones if they were too small.
    pub(crate) fn told(
        text: Box<str>,
        edition: Edition,
        room: Room,
        mut call: impl FnMut(&str, &mut Room, &mut Counts) -> u32,
    ) -> Result<Tree, ParseError> {
        let (rows, errors) = Tree::told_parts(room, |room, counts| call(&text, room, counts))?;
        Ok(Tree::of(Stored::new(text, rows.into()), edition, errors))
    }

    // The tree of what is stored.
    pub(crate) fn of(stored: Stored, edition: Edition, errors: Box<[SyntaxError]>) -> Tree {
        Tree(Arc::new(Inner { stored, edition, errors }))
    }

    // The rows and the errors from such a call.
    pub(crate) fn told_parts(
        mut room: Room,
        mut call: impl FnMut(&mut Room, &mut Counts) -> u32,
    ) -> Result<(Vec<FlatRow>, Box<[SyntaxError]>), ParseError> {
        let mut counts = Counts { rows: 0, errors: 0, violations: 0, messages: 0 };
        while !answered(call(&mut room, &mut counts))? {
            room = Room::counted(&counts);
        }
        // SAFETY: the call returned `OK`, and then the counts are those of what it wrote.
        unsafe { room.written(&counts) };
        let errors = errors_of(&room.errors, &room.messages, counts.violations as usize);
        Ok((room.rows, errors))
    }

    // The tree of a text after edits, from this one, where at most the node of a row was read again since: from a call that writes the
    // rows of this node, and the errors of the text. The rows are copied, unless nothing else has a share of this tree.
    pub(crate) fn with_node(
        self,
        text: Box<str>,
        row: u32,
        room: Room,
        call: impl FnMut(&mut Room, &mut Counts) -> u32,
    ) -> Result<Tree, ParseError> {
        let (new, errors) = Tree::told_parts(room, call)?;
        let (edition, longer) = (self.edition(), (text.len() as u32).wrapping_sub(self.text().len() as u32));
        let count = self.rows().len() + new.len() - (self.end_of(row) - row) as usize;
        let mut rows = match Arc::try_unwrap(self.0) {
            Ok(inner) => inner.stored.into_rows(),
            Err(shared) => {
                let old = shared.stored.rows();
                let mut rows = Vec::with_capacity(count.max(old.len()));
                rows.extend_from_slice(old);
                rows
            }
        };
        rows.reserve_exact(count.saturating_sub(rows.len()));
        splice(&mut rows, row, &new, longer);
        Ok(Tree::of(Stored::new(text, rows.into()), edition, errors))
    }

    // The same tree, of which there is no other share yet, with further errors behind those that it has.
    pub(crate) fn with_errors(mut self, more: Vec<SyntaxError>) -> Tree {
        let inner = Arc::get_mut(&mut self.0).expect("a tree that was just made has one share");
        inner.errors = std::mem::take(&mut inner.errors).into_iter().chain(more).collect();
        self
    }

    // The tree of a text and its rows, which no parse made: it has no errors of its own.
    pub(crate) fn made(text: String, edition: Edition, rows: Vec<FlatRow>) -> Tree {
        Tree::built(text, edition, rows, Vec::new())
    }

    // The same with errors.
    pub(crate) fn built(text: String, edition: Edition, rows: Vec<FlatRow>, errors: Vec<SyntaxError>) -> Tree {
        Tree::of(Stored::new(text.into(), rows.into()), edition, errors.into())
    }

    // Whether both have the same text and the same rows.
    pub(crate) fn is_equal(&self, other: &Tree) -> bool {
        self.is_same(other) || self.0.stored == other.0.stored
    }

    /// The root, which borrows the tree: a `SOURCE_FILE`, unless the text was read by another [`Entry`] or the tree was made of a part of
    /// another.
    pub fn root(&self) -> NodeRef<'_> {
        NodeRef::at(self, 0)
    }

    /// The root, as a node that owns a share of the tree.
    pub fn syntax_node(&self) -> SyntaxNode {
        SyntaxNode::at(self.clone(), 0)
    }

    /// The text, as it was given.
    pub fn text(&self) -> &str {
        self.0.stored.text()
    }

    /// The edition that the text was read as.
    pub fn edition(&self) -> Edition {
        self.0.edition
    }

    /// What is wrong with the text: the errors of the parser, those of the lexer, and then what breaks rules beyond the grammar. A tree that
    /// was not parsed, as one that an editor made, has none.
    pub fn errors(&self) -> &[SyntaxError] {
        &self.0.errors
    }

    /// Whether both are one tree: copies of one result of a parse.
    pub fn is_same(&self, other: &Tree) -> bool {
        Arc::ptr_eq(&self.0, &other.0)
    }

    /// The rows of the tree, as plain numbers: one for each node and token, in preorder.
    pub fn rows(&self) -> &[FlatRow] {
        self.0.stored.rows()
    }

    /// The needless pairs of parentheses, each a `PAREN_EXPR` or a `PAREN_PAT`, in preorder: those that
    /// `rust_tree parens --all --mixed` lists.
    ///
    /// All of them can be removed together, with a blank in place of a parenthesis whose neighbours would be joined, as in `return(a)`.
    /// The text is parsed again, usually a few times; at worst once for each pair that stays.
    ///
    /// ```
    /// use ras::{Edition, Tree};
    ///
    /// let tree = Tree::parse("fn f() { (a * b) + c; (a + b) * c }", Edition::CURRENT)?;
    /// let pairs = tree.needless_parens()?;
    /// assert_eq!(pairs.len(), 1);
    /// assert_eq!(pairs[0].text(), "(a * b)");
    /// # Ok::<(), ras::ParseError>(())
    /// ```
    pub fn needless_parens(&self) -> Result<Vec<NodeRef<'_>>, ParseError> {
        let ranges = needless_ranges(self.text(), self.edition())?;
        let mut pairs = self.root().descendants().filter(|it| matches!(it.kind(), SyntaxKind::PAREN_EXPR | SyntaxKind::PAREN_PAT));
        // Both go in preorder, and no two pairs have one range.
        let found = ranges.iter().filter_map(|range| {
            let range = TextRange::new(range.start.into(), range.end.into());
            pairs.find(|it| it.text_range() == range)
        });
        Ok(found.collect())
    }

    /// The tokens that touch an offset: none past the text's end, two if it is between two tokens.
    pub fn token_at_offset(&self, offset: TextSize) -> TokenAtOffset<TokenRef<'_>> {
        self.root().token_at_offset(offset)
    }
}

fn needless_ranges(text: &str, edition: Edition) -> Result<Vec<Range>, ParseError> {
    let mut ranges = vec![Range { start: 0, end: 0 }; text.len() / 64 + 16];
    let mut count = 0;
    loop {
        // SAFETY: as in `Tree::parse`.
        let has_room = answered(unsafe {
            raw::ras_c_parens(text.as_ptr(), text.len(), edition.year(), ranges.as_mut_ptr(), ranges.len(), &mut count)
        })?;
        ranges.resize(count as usize, Range { start: 0, end: 0 });
        if has_room {
            return Ok(ranges);
        }
    }
}

impl fmt::Debug for Tree {
    /// The dump: a line for each node and token, with its kind and range, and the text of a token.
    fn fmt(&self, f: &mut fmt::Formatter<'_>) -> fmt::Result {
        write!(f, "{:#?}", self.root())
    }
}

impl PartialEq for Tree {
    /// Whether texts, editions, rows and errors are equal. It takes time linear in the text, unless both are one tree.
    fn eq(&self, other: &Tree) -> bool {
        self.is_same(other) || self.0 == other.0
    }
}

impl Eq for Tree {}

// The steps from row to row.
impl Tree {
    fn row(&self, row: u32) -> &FlatRow {
        &self.rows()[row as usize]
    }

    pub(crate) fn end_of(&self, row: u32) -> u32 {
        self.row(row).subtree_end
    }

    pub(crate) fn start_of(&self, row: u32) -> TextSize {
        self.row(row).start.into()
    }

    pub(crate) fn is_token(&self, row: u32) -> bool {
        self.row(row).kind >= TOKEN
    }

    pub(crate) fn kind_of(&self, row: u32) -> SyntaxKind {
        SyntaxKind::from_number(self.row(row).kind % TOKEN).expect("the library's kinds are compared with those of this crate")
    }

    pub(crate) fn range_of(&self, row: u32) -> TextRange {
        let end = match self.rows().get(self.end_of(row) as usize) {
            Some(behind) => behind.start,
            None => self.text().len() as u32,
        };
        TextRange::new(self.start_of(row), end.into())
    }

    pub(crate) fn text_of(&self, row: u32) -> &str {
        &self.text()[self.range_of(row)]
    }

    pub(crate) fn parent_of(&self, row: u32) -> Option<u32> {
        (row > 0).then(|| self.row(row).parent)
    }

    pub(crate) fn first_child_of(&self, row: u32) -> Option<u32> {
        (row + 1 < self.end_of(row)).then_some(row + 1)
    }

    // It climbs from the last row of the subtree.
    pub(crate) fn last_child_of(&self, row: u32) -> Option<u32> {
        let last = self.end_of(row) - 1;
        (last > row).then(|| self.child_above(last, row))
    }

    pub(crate) fn next_sibling_of(&self, row: u32) -> Option<u32> {
        let behind = self.end_of(row);
        (behind < self.end_of(self.parent_of(row)?)).then_some(behind)
    }

    pub(crate) fn prev_sibling_of(&self, row: u32) -> Option<u32> {
        let parent = self.parent_of(row)?;
        (row - 1 > parent).then(|| self.child_above(row - 1, parent))
    }

    // How many siblings are before a row.
    pub(crate) fn index_of(&self, row: u32) -> usize {
        self.parent_of(row).map_or(0, |parent| iter::rows_of_children(self, parent).take_while(|it| *it < row).count())
    }

    // The subtree of a row, as a tree of its own.
    pub(crate) fn subtree(&self, row: u32) -> Tree {
        let (start, end) = (self.row(row).start, self.end_of(row));
        let moved = |it: &FlatRow| FlatRow {
            kind: it.kind,
            start: it.start - start,
            subtree_end: it.subtree_end - row,
            parent: it.parent.saturating_sub(row),
        };
        let rows = self.rows()[row as usize..end as usize].iter().map(moved).collect();
        Tree::made(self.text_of(row).to_owned(), self.edition(), rows)
    }

    // The row on the way up whose parent is `parent`.
    fn child_above(&self, row: u32, parent: u32) -> u32 {
        let mut row = row;
        while self.row(row).parent != parent {
            row = self.row(row).parent;
        }
        row
    }

    // The rows of tokens that touch an offset, in the subtree of a row.
    pub(crate) fn tokens_at(&self, row: u32, offset: TextSize) -> TokenAtOffset<u32> {
        if !self.range_of(row).contains_inclusive(offset) {
            return TokenAtOffset::None;
        }
        let (first, behind) = (row as usize, self.end_of(row) as usize);
        let count = self.rows()[first..behind].partition_point(|it| it.start <= offset.raw());
        let earlier = (row..row + count as u32).rev();
        let mut tokens = earlier.filter(|it| self.is_token(*it) && !self.range_of(*it).is_empty());
        match tokens.next() {
            None => TokenAtOffset::None,
            Some(last) if self.start_of(last) < offset => TokenAtOffset::Single(last),
            Some(right) => match tokens.next() {
                None => TokenAtOffset::Single(right),
                Some(left) => TokenAtOffset::Between(left, right),
            },
        }
    }

    // The row of the innermost node with exactly this range.
    pub(crate) fn node_with(&self, range: TextRange) -> Option<u32> {
        let (start, rows) = (range.start().raw(), self.rows());
        let first = rows.partition_point(|it| it.start < start);
        let behind = first + rows[first..].iter().take_while(|it| it.start == start).count();
        let mut nodes = (first as u32..behind as u32).rev().filter(|it| !self.is_token(*it));
        nodes.find(|it| self.range_of(*it) == range)
    }

    // The row of the innermost node that covers a range which an edit read again: a node's, or a token's, which that node has as a child.
    pub(crate) fn read_again(&self, range: TextRange) -> Option<u32> {
        self.node_with(range).or_else(|| {
            let row = self.covering(0, range);
            (self.is_token(row) && self.range_of(row) == range).then(|| self.parent_of(row)).flatten()
        })
    }

    // The row of the smallest node or token below a row, or the row itself, whose range contains the whole of a range.
    pub(crate) fn covering(&self, row: u32, range: TextRange) -> u32 {
        let mut row = row;
        while let Some(child) = iter::rows_of_children(self, row).find(|it| self.range_of(*it).contains_range(range)) {
            row = child;
            if self.is_token(row) {
                break;
            }
        }
        row
    }
}
