//! The calls of the library, as `crates/ras_c` declares them. Written by bindings/make.

/// What a change puts in stands in the place of the element; with nothing, the element is deleted.
pub const PLACE_INSTEAD: u32 = 0;

/// It is put before the element.
pub const PLACE_BEFORE: u32 = 1;

/// It is put after the element.
pub const PLACE_AFTER: u32 = 2;

/// It is put into the node, before its first child.
pub const PLACE_FIRST: u32 = 3;

/// It is put into the node, after its last child.
pub const PLACE_LAST: u32 = 4;

/// A change puts nothing in.
pub const CONTENT_NOTHING: u32 = 0;

/// A change puts a text in: bytes `start` to `end` of the texts.
pub const CONTENT_TEXT: u32 = 1;

/// A change puts a copy of an element of the old tree in, that at the row `start`.
pub const CONTENT_ROW: u32 = 2;

/// A change is before, after or in the place of the root. Nothing was written.
pub const BESIDE_ROOT: u32 = 21;

/// A change puts a child into a token. Nothing was written.
pub const INTO_TOKEN: u32 = 22;

/// A change is of an element that another one replaces or deletes. Nothing was written.
pub const REPLACED: u32 = 23;

/// A change is inside an element that another one replaces or deletes. Nothing was written.
pub const IN_REPLACED: u32 = 24;

/// A change replaces an element inside which there are others. Nothing was written.
pub const CHANGED_INSIDE: u32 = 25;

/// No place or no content of a change has the number. Nothing was written.
pub const NO_CHANGE: u32 = 26;

/// The entry of a file: the root is a `SOURCE_FILE`.
pub const ENTRY_FILE: u32 = 0;

/// The entry of an expression: the root is a node of an expression, or `ERROR` if the text is not
/// one expression. If only its beginning is one, as in `a b`, there may be no errors.
pub const ENTRY_EXPR: u32 = 1;

/// The entry of a type, with its bounds: the root is a node of a type, or `ERROR` if the text is
/// not one type, as for [`ENTRY_EXPR`].
pub const ENTRY_TYPE: u32 = 2;

/// The entry of a pattern, with its alternatives: the root is a node of a pattern, or `ERROR` if
/// the text is not one pattern, as for [`ENTRY_EXPR`].
pub const ENTRY_PATTERN: u32 = 3;

/// The entry of statements, as a macro may stand for: the root is a `MACRO_STMTS`.
pub const ENTRY_STATEMENTS: u32 = 4;

/// The entry of items, as a macro may stand for: the root is a `MACRO_ITEMS`.
pub const ENTRY_ITEMS: u32 = 5;

/// The entry of what is between the brackets of an attribute: the root is a `PATH_META`,
/// `KEY_VALUE_META`, `TOKEN_TREE_META`, `UNSAFE_META`, `CFG_META` or `CFG_ATTR_META`, or `ERROR` if
/// the text is not one of these, as for [`ENTRY_EXPR`].
pub const ENTRY_META_ITEM: u32 = 6;

/// No errors are told.
pub const NO_ERRORS: u32 = 0;

/// The errors of the parser, and then those of the lexer, are told. The tree is not walked for
/// violations of rules beyond the grammar.
pub const PARSE_ERRORS: u32 = 1;

/// The violations of rules beyond the grammar are told, without the errors of the parse.
pub const VIOLATIONS: u32 = 2;

/// All errors are told: those of the parse, and then the violations.
pub const ALL_ERRORS: u32 = 3;

/// Two ranges of an edit overlap. Nothing was written.
pub const OVERLAP: u32 = 19;

/// The lengths of the inserted texts do not cut their bytes into texts: there are more or fewer
/// bytes, or a text would end inside a character. Nothing was written.
pub const NOT_CUT: u32 = 20;

/// A number that no kind has.
pub const NO_KIND: u32 = 4294967295;

/// Columns are counted in bytes, the units of UTF-8.
pub const ENCODING_UTF8: u32 = 0;

/// Columns are counted in units of UTF-16, as editors count: two for a character past U+FFFF.
pub const ENCODING_UTF16: u32 = 1;

/// Columns are counted in characters, the units of UTF-32.
pub const ENCODING_UTF32: u32 = 2;

/// No encoding has the number. Nothing was written.
pub const NO_ENCODING: u32 = 18;

/// The text in place of an expression is not one expression. Nothing was written.
pub const NO_EXPR: u32 = 17;

/// The rules are refused. `message` and `fault` say why and where; nothing else was written.
pub const BAD_RULE: u32 = 13;

/// A rule to replace by has no template. Nothing was written.
pub const NO_TEMPLATE: u32 = 14;

/// A comment would be lost: it is in what stands for a placeholder that the template has not.
/// Nothing was written.
pub const LOSES_COMMENT: u32 = 15;

/// The new text would be read otherwise than it is meant. Nothing was written.
pub const READS_OTHERWISE: u32 = 16;

/// Success. The buffers and the counts were written.
pub const OK: u32 = 0;

/// The text is not UTF-8. Nothing was written.
pub const NOT_UTF8: u32 = 1;

/// The text, its rows or its messages have 2^32 bytes or elements or more. Nothing was written.
pub const TOO_LONG: u32 = 2;

/// Out of memory. Nothing was written.
pub const NO_MEMORY: u32 = 3;

/// A buffer is too small. The counts are the sizes that are needed; nothing else was written.
pub const NO_ROOM: u32 = 4;

/// The edition is not 2015, 2018, 2021 or 2024. Nothing was written.
pub const NO_EDITION: u32 = 5;

/// The text has no such range, or its tree no such node; or an element of a list is no offset or
/// place of the text. Nothing was written, but for the number of that element.
pub const NO_PLACE: u32 = 6;

/// The handle holds no parse. Nothing was written.
pub const NO_PARSE: u32 = 7;

/// No entry has the number. Nothing was written.
pub const NO_ENTRY: u32 = 11;

/// No choice of errors has the number. Nothing was written.
pub const NO_CHOICE: u32 = 12;

/// A unit that is a character: its value is the character's number.
pub const UNIT_CHAR: u32 = 0;

/// A unit that is a byte from 80 (hexadecimal) on, as `\xff` of a byte string or a C string: its
/// value is the byte.
pub const UNIT_BYTE: u32 = 1;

/// A unit that is wrong, or a warning: its value is the status of the fault, from [`FAULT`] on.
pub const UNIT_FAULT: u32 = 2;

/// An integer without a digit. Nothing was written.
pub const NO_DIGIT: u32 = 8;

/// An integer with a character that is no digit of its radix. Nothing was written.
pub const BAD_DIGIT: u32 = 9;

/// An integer of 2^128 or more. Nothing was written.
pub const TOO_LARGE: u32 = 10;

/// From this status on, an escape or a character of a literal is wrong: [`FAULT`] + n, where n
/// counts `EscapeError`'s variants. Nothing was written.
pub const FAULT: u32 = 64;

/// A number made of the kinds, constants, structs and calls of the library. Bindings that know another number were made for others.
pub const VERSION: u32 = 1426711408;

/// One node or token, in 16 bytes. Rows are numbered from 0 in preorder.
#[repr(C)]
#[derive(Clone, Copy, Debug, PartialEq, Eq)]
pub struct FlatRow {
    /// The number of its kind, plus 2^31 for a token, since ERROR is a kind of both.
    pub kind: u32,
    /// The byte where its text starts.
    pub start: u32,
    /// The number of the first row after its subtree.
    pub subtree_end: u32,
    /// The number of its parent's row; the root, row 0, has 0.
    pub parent: u32,
}

/// One of several changes of a tree.
#[repr(C)]
#[derive(Clone, Copy, Debug, PartialEq, Eq)]
pub struct ChangeRow {
    /// The row of the element of the old tree.
    pub row: u32,
    /// Where the change is, such as [`PLACE_BEFORE`].
    pub place: u32,
    /// What is put in, such as [`CONTENT_TEXT`].
    pub content: u32,
    /// Where its text starts in the texts, or its row in the old tree.
    pub start: u32,
    /// Where its text ends.
    pub end: u32,
}

/// One of several replacements of a text. Their inserted texts lie in a buffer, one behind the
/// other.
#[repr(C)]
#[derive(Clone, Copy, Debug, PartialEq, Eq)]
pub struct EditRow {
    /// The byte of the old text where what is replaced starts.
    pub start: u32,
    /// The byte where it ends.
    pub end: u32,
    /// The length of the inserted text in bytes.
    pub insert: u32,
}

/// A parse that is kept between calls, or no parse. A handle of all zeros holds none.
///
/// The fields are private to the library. Do not use a copy of a handle after a call that changed
/// the original. A handle may go from thread to thread; one call at a time may use it.
#[repr(C)]
#[derive(Debug)]
pub struct Handle {
    /// Whether there is a parse.
    pub full: bool,
    /// Where it is.
    pub at: *mut u8,
}

/// A place in a text, by its line and its column, both counted from 0.
#[repr(C)]
#[derive(Clone, Copy, Debug, PartialEq, Eq)]
pub struct LineCol {
    /// How many line feeds are before the place.
    pub line: u32,
    /// How many units are between the last of them, or the text's start, and the place.
    pub col: u32,
}

/// The memory of a tree that was handed over, or none. Its fields are private to the library.
#[repr(C)]
#[derive(Debug)]
pub struct TreeOwner {
    /// Whether there is a tree.
    pub full: bool,
    /// Where its memory is.
    pub at: *mut u8,
}

/// A range of the text, in bytes.
#[repr(C)]
#[derive(Clone, Copy, Debug, PartialEq, Eq)]
pub struct Range {
    /// Where it starts.
    pub start: u32,
    /// Where it ends.
    pub end: u32,
}

/// One error: its range in the text, in bytes, and the length of its message.
#[repr(C)]
#[derive(Clone, Copy, Debug, PartialEq, Eq)]
pub struct ErrorRow {
    /// The byte where its range starts.
    pub start: u32,
    /// The byte where its range ends.
    pub end: u32,
    /// The length of its message in bytes. The messages are stored one after another.
    pub message: u32,
}

/// How many rows, errors and bytes of messages a text has.
#[repr(C)]
#[derive(Clone, Copy, Debug, PartialEq, Eq)]
pub struct Counts {
    /// The nodes and tokens of its tree.
    pub rows: u32,
    /// Its errors: those of the parser, then those of the lexer, then the violations of rules
    /// beyond the grammar.
    pub errors: u32,
    /// How many of the errors are such violations. They are the last ones.
    pub violations: u32,
    /// The bytes of all messages.
    pub messages: u32,
}

/// A place where a rule matches.
#[repr(C)]
#[derive(Clone, Copy, Debug, PartialEq, Eq)]
pub struct MatchRow {
    /// The number of the rule, from 0.
    pub rule: usize,
    /// The byte where the match starts.
    pub start: u32,
    /// The byte where it ends.
    pub end: u32,
}

/// What is wrong with rules.
#[repr(C)]
#[derive(Clone, Copy, Debug, PartialEq, Eq)]
pub struct RuleFault {
    /// The byte of the rules' text where it is.
    pub offset: usize,
    /// The length of its message in bytes.
    pub message: usize,
}

/// One token.
#[repr(C)]
#[derive(Clone, Copy, Debug, PartialEq, Eq)]
pub struct TokenRow {
    /// The number of its kind.
    pub kind: u32,
    /// The length of its text in bytes.
    pub bytes: u32,
}

/// A tree in memory that the caller owns: its rows, those that `ras_c_rows` writes, and its text.
/// All zeros is no tree.
///
/// Nothing changes the rows and the text, so any number of threads may read them, until
/// `ras_c_free_tree` frees them. It may be called by any thread, once: not for a copy of the struct
/// too. Only the library changes the fields.
#[repr(C)]
#[derive(Debug)]
pub struct TreeRows {
    /// The rows, in preorder. Where there is no tree it is null.
    pub rows: *const FlatRow,
    /// How many rows there are: at least one, and fewer than 2^32.
    pub row_count: usize,
    /// The bytes of the text, which is UTF-8. Nothing may be read there if it is empty.
    pub text: *const u8,
    /// How many bytes the text has: fewer than 2^32.
    pub text_len: usize,
    /// What owns the memory. It is private to the library.
    pub owner: TreeOwner,
}

/// One unit of a string literal: a character or an escape.
#[repr(C)]
#[derive(Clone, Copy, Debug, PartialEq, Eq)]
pub struct UnitRow {
    /// The byte of the literal's text where it starts.
    pub start: u32,
    /// The byte where it ends.
    pub end: u32,
    /// What it is: [`UNIT_CHAR`], [`UNIT_BYTE`] or [`UNIT_FAULT`].
    pub sort: u32,
    /// The number of the character, the byte, or the status of the fault.
    pub value: u32,
}

/// What a word is in an edition.
#[repr(C)]
#[derive(Clone, Copy, Debug, PartialEq, Eq)]
pub struct Word {
    /// The number of its kind if it is a keyword everywhere in the edition, such as `fn`, also if
    /// it is reserved, as `abstract`; [`NO_KIND`] if it is none.
    pub keyword: u32,
    /// The number of its kind if it is a keyword in some places alone, such as `union`; [`NO_KIND`]
    /// if it is none.
    pub contextual: u32,
    /// Whether it is an identifier: it begins with a letter or `_`, goes on with such and digits,
    /// by Unicode, and is no keyword everywhere.
    pub is_identifier: bool,
    /// Whether it is one only behind `r#`: it is a keyword everywhere, but for `self`, `crate`,
    /// `super` and `Self`.
    pub is_raw_identifier: bool,
}

unsafe extern "C" {
    /// Writes the text of a handle's tree with many changes made at once to the front of `out`, and its
    /// length to `count`. The handle keeps its parse. Each change puts a text or a copy of an element,
    /// or nothing, before or after an element, into a node, or in the place of an element, which
    /// deletes it: as `SyntaxEditor` does. In the tree of `fn f() {}`, the text `g` in the place of the
    /// row of its `NAME` gives `fn g() {}`.
    ///
    /// All rows are those of the tree as it is, so no change moves another one, and several texts at
    /// one place stay in the order of the list. `texts` has the texts, each anywhere in it. They are
    /// put in as they are: what they mean there, a parse of the new text tells, as by `ras_c_parse`. It
    /// takes time linear in the tree and in what is put in.
    ///
    /// Returns [`OK`], [`NOT_UTF8`], [`TOO_LONG`] if the new text would be too long, [`NO_MEMORY`],
    /// [`NO_ROOM`], [`NO_PARSE`] if the handle holds no parse, or for the first change that is refused
    /// [`NO_PLACE`] if the tree has no such row, [`NO_CHANGE`] if no place or content has the number,
    /// [`NOT_CUT`] if `texts` has no such part, [`BESIDE_ROOT`], [`INTO_TOKEN`], [`REPLACED`],
    /// [`IN_REPLACED`] or [`CHANGED_INSIDE`].
    pub fn ras_c_change_tree(
        handle: *mut Handle,
        changes: *const ChangeRow,
        changes_len: usize,
        texts: *const u8,
        texts_len: usize,
        out: *mut u8,
        out_len: usize,
        count: *mut u32,
    ) -> u32;

    /// Edits the text of a handle's parse at several places at once: all edits are made or, if they are
    /// refused, none. The ranges of `edits` are of the text as it is, in any order; texts that are
    /// inserted at one place stay in the order of the list. `inserts` has the inserted texts, one
    /// behind the other. The handle then holds the parse of the new text: the same tree and errors that
    /// `ras_c_parse` would make.
    ///
    /// In the edition that the parse is of, up to eight edits are made one after another, the last in
    /// the text first, and for each one token gets another text or one block is parsed again, if that
    /// is enough for all of them; else, and in another edition, the whole new text is parsed, once.
    /// Which parts were read again is not told: `ras_c_edit_told` tells it of one edit.
    ///
    /// Returns [`OK`], [`NOT_UTF8`], [`TOO_LONG`], [`NO_MEMORY`], [`NO_EDITION`], [`NO_PARSE`] if the
    /// handle holds no parse, [`NOT_CUT`] if the lengths in `edits` do not cut `inserts` into texts,
    /// [`NO_PLACE`] if a range is backwards, not in the text or not on character boundaries, or
    /// [`OVERLAP`] if two ranges overlap; those that touch do not, nor two insertions at one place.
    /// Unless it is [`OK`], the handle is not changed.
    pub fn ras_c_edits(
        handle: *mut Handle,
        edition: u32,
        edits: *const EditRow,
        edits_len: usize,
        inserts: *const u8,
        inserts_len: usize,
    ) -> u32;

    /// Writes a choice of the errors of a handle's parse, such as [`PARSE_ERRORS`], and their messages,
    /// as `ras_c_rows_as` does, without rows. The counts have no rows. The handle keeps its parse.
    ///
    /// Returns [`OK`], [`TOO_LONG`], [`NO_MEMORY`], [`NO_ROOM`], [`NO_CHOICE`], or [`NO_PARSE`] if the
    /// handle holds no parse.
    pub fn ras_c_errors(
        handle: *mut Handle,
        told: u32,
        errors: *mut ErrorRow,
        errors_len: usize,
        messages: *mut u8,
        messages_len: usize,
        counts: *mut Counts,
    ) -> u32;

    /// Writes the name of the kind with this number, for example `FN`, to the front of `name`, and
    /// returns the name's length in bytes: 0 if no kind has the number, or if the kind has no name. If
    /// `name` is shorter than that, it is not changed. 64 bytes are enough for all.
    pub fn ras_c_kind_name(
        kind: u32,
        name: *mut u8,
        name_len: usize,
    ) -> usize;

    /// The number of the kind with this name, for example `FN`, or [`NO_KIND`] if there is none.
    pub fn ras_c_kind_of_name(
        name: *const u8,
        name_len: usize,
    ) -> u32;

    /// Writes where the lines of a text start to the front of `starts`, in bytes: 0, and the byte after
    /// each line feed. Of `a\nb` these are 0 and 2.
    ///
    /// With them a program finds the line of any byte by a binary search, and gives that line alone to
    /// `ras_c_line_cols` or `ras_c_offsets`, as a text of one line.
    ///
    /// Returns [`OK`], [`NOT_UTF8`], [`TOO_LONG`], [`NO_MEMORY`] or [`NO_ROOM`]. It takes time linear
    /// in the text, which has one line more than line feeds.
    pub fn ras_c_line_starts(
        text: *const u8,
        text_len: usize,
        starts: *mut u32,
        starts_len: usize,
        count: *mut u32,
    ) -> u32;

    /// Writes the lines and columns of offsets of a text to the front of `places`, one for each in the
    /// same order, and their number to `count`. The columns are in an encoding, such as
    /// [`ENCODING_UTF16`]: byte 5 of a text with two letters of two bytes before it in its first line
    /// is line 0 and column 5 in UTF-8, and column 3 in UTF-16.
    ///
    /// It takes a list, so that the text is read once for all: in time linear in the text, and for
    /// each offset in the logarithm of the number of lines and, but in UTF-8, in the bytes from the
    /// offset before, if that is in the same line and not behind, or else from the line's start. To
    /// convert offsets of a text one at a time, keep its `ras_c_line_starts` and give a line alone.
    ///
    /// Returns [`OK`], [`NOT_UTF8`], [`TOO_LONG`], [`NO_MEMORY`], [`NO_ROOM`], [`NO_ENCODING`], or
    /// [`NO_PLACE`] if an offset is past the end of the text or inside a character: then `count` is how
    /// many offsets are before the first such one.
    pub fn ras_c_line_cols(
        text: *const u8,
        text_len: usize,
        encoding: u32,
        offsets: *const u32,
        offsets_len: usize,
        places: *mut LineCol,
        places_len: usize,
        count: *mut u32,
    ) -> u32;

    /// Writes the offsets of places of a text to the front of `offsets`, in bytes, one for each in the
    /// same order, and their number to `count`. The columns are in an encoding, such as
    /// [`ENCODING_UTF16`]. A line feed is the last character of its line. It takes back what
    /// `ras_c_line_cols` gives.
    ///
    /// It takes a list, so that the text is read once for all: in time linear in the text, and for
    /// each place, but in UTF-8, in its column.
    ///
    /// Returns [`OK`], [`NOT_UTF8`], [`TOO_LONG`], [`NO_MEMORY`], [`NO_ROOM`], [`NO_ENCODING`], or
    /// [`NO_PLACE`] if the text has no such line, the line no such column, or the column is inside a
    /// character: then `count` is how many places are before the first such one.
    pub fn ras_c_offsets(
        text: *const u8,
        text_len: usize,
        encoding: u32,
        places: *const LineCol,
        places_len: usize,
        offsets: *mut u32,
        offsets_len: usize,
        count: *mut u32,
    ) -> u32;

    /// Parses a text as a Rust file of an edition, such as 2024, and puts the parse into a handle. A
    /// parse that the handle held is freed.
    ///
    /// Returns [`OK`], [`NOT_UTF8`], [`TOO_LONG`], [`NO_MEMORY`] or [`NO_EDITION`]. Unless it is
    /// [`OK`], the handle is not changed.
    pub fn ras_c_parse(
        text: *const u8,
        text_len: usize,
        edition: u32,
        handle: *mut Handle,
    ) -> u32;

    /// Writes the rows, errors and messages of a handle's parse, as `ras_c_read` does for a text. The
    /// handle keeps its parse.
    ///
    /// Returns [`OK`], [`TOO_LONG`], [`NO_MEMORY`], [`NO_ROOM`], or [`NO_PARSE`] if the handle holds no
    /// parse.
    pub fn ras_c_rows(
        handle: *mut Handle,
        rows: *mut FlatRow,
        rows_len: usize,
        errors: *mut ErrorRow,
        errors_len: usize,
        messages: *mut u8,
        messages_len: usize,
        counts: *mut Counts,
    ) -> u32;

    /// Writes the rows of a handle's parse with a choice of errors, such as [`PARSE_ERRORS`], as
    /// `ras_c_read_as` does for a text. The handle keeps its parse.
    ///
    /// Returns [`OK`], [`TOO_LONG`], [`NO_MEMORY`], [`NO_ROOM`], [`NO_CHOICE`], or [`NO_PARSE`] if the
    /// handle holds no parse.
    pub fn ras_c_rows_as(
        handle: *mut Handle,
        told: u32,
        rows: *mut FlatRow,
        rows_len: usize,
        errors: *mut ErrorRow,
        errors_len: usize,
        messages: *mut u8,
        messages_len: usize,
        counts: *mut Counts,
    ) -> u32;

    /// Writes the rows of the innermost node of a handle's parse that covers a range of the text, as a
    /// tree of its own: positions count from the node's start, and rows from its row, which is row 0
    /// here. The errors are those of the whole parse, by a choice, such as [`PARSE_ERRORS`], with
    /// positions in the whole text. The handle keeps its parse. Of a range that `ras_c_edit_told`
    /// wrote, if it is not the whole text, the node is the block that was parsed again, or has the
    /// token as a child that got another text.
    ///
    /// Returns [`OK`], [`TOO_LONG`], [`NO_MEMORY`], [`NO_ROOM`], [`NO_CHOICE`], [`NO_PARSE`] if the
    /// handle holds no parse, or [`NO_PLACE`] if the text has no such range.
    pub fn ras_c_rows_at(
        handle: *mut Handle,
        told: u32,
        start: u32,
        end: u32,
        rows: *mut FlatRow,
        rows_len: usize,
        errors: *mut ErrorRow,
        errors_len: usize,
        messages: *mut u8,
        messages_len: usize,
        counts: *mut Counts,
    ) -> u32;

    /// Edits the text of a handle's parse: `insert` replaces the bytes from `start` to `end`, and the
    /// handle then holds the parse of the new text: the same tree and errors that `ras_c_parse` would
    /// make. In the edition that the parse is of, one token gets another text or one block is parsed
    /// again, if that is enough; in another edition the whole text is parsed.
    ///
    /// Returns [`OK`], [`NOT_UTF8`], [`TOO_LONG`], [`NO_MEMORY`], [`NO_EDITION`], [`NO_PARSE`] if the
    /// handle holds no parse, or [`NO_PLACE`] if the range is not in the text or not on character
    /// boundaries. Unless it is [`OK`], the handle is not changed.
    pub fn ras_c_edit(
        handle: *mut Handle,
        edition: u32,
        start: u32,
        end: u32,
        insert: *const u8,
        insert_len: usize,
    ) -> u32;

    /// Edits the text of a handle's parse as `ras_c_edit` does, and writes the range of the new text
    /// that was read again to `again`: that of one token or block, or the whole text. The rest of the
    /// tree is as it was; what is behind the token or block has moved with the text.
    ///
    /// Returns what `ras_c_edit` returns. Unless it is [`OK`], nothing was changed.
    pub fn ras_c_edit_told(
        handle: *mut Handle,
        edition: u32,
        start: u32,
        end: u32,
        insert: *const u8,
        insert_len: usize,
        again: *mut Range,
    ) -> u32;

    /// Frees the parse of a handle, if it holds one. The handle then holds none, and may be used again.
    pub fn ras_c_free(
        handle: *mut Handle,
    );

    /// Finds the needless pairs of parentheses of a text of an edition, such as 2024, in preorder of
    /// the tree: those that `rust_tree parens --all --mixed` lists. All of them can be removed
    /// together.
    ///
    /// Returns [`OK`], [`NOT_UTF8`], [`TOO_LONG`], [`NO_MEMORY`], [`NO_ROOM`] or [`NO_EDITION`]. A
    /// range is that of a `PAREN_EXPR` or a `PAREN_PAT`, with both parentheses. Put a blank in place of
    /// a parenthesis whose neighbours would be joined, as in `return(a)`. Pairs that rustc needs stay,
    /// for example around a macro call that is a statement. It usually takes a few parses of the text;
    /// at worst one for each pair that stays.
    pub fn ras_c_parens(
        text: *const u8,
        text_len: usize,
        edition: u32,
        pairs: *mut Range,
        pairs_len: usize,
        count: *mut u32,
    ) -> u32;

    /// Tests whether the operator tree with exactly this range, in a text of an edition such as 2024,
    /// is the one reading of its tokens. `answer` is 1 if it is, and 0 if not. If several operator
    /// trees have the range, the innermost is tested.
    ///
    /// Returns [`OK`], [`NOT_UTF8`], [`TOO_LONG`], [`NO_MEMORY`], [`NO_EDITION`], or [`NO_PLACE`] if no
    /// operator tree has the range.
    pub fn ras_c_reads_back(
        text: *const u8,
        text_len: usize,
        edition: u32,
        start: u32,
        end: u32,
        answer: *mut u32,
    ) -> u32;

    /// Fills a buffer with rows of a handle's parse, those from number `from` on: a part of the rows
    /// that `ras_c_rows` writes, so that a caller can use each part while it is near. The handle keeps
    /// its parse.
    ///
    /// Returns [`OK`], [`TOO_LONG`] if the whole tree has 2^32 rows or more, [`NO_PARSE`] if the handle
    /// holds no parse, or [`NO_PLACE`] if the tree has fewer rows from `from` on than the buffer.
    pub fn ras_c_rows_from(
        handle: *mut Handle,
        from: u32,
        rows: *mut FlatRow,
        rows_len: usize,
    ) -> u32;

    /// Tests whether an expression, whose text is `own`, needs parentheses in place of the expression
    /// with exactly this range, in a text of an edition such as 2024. `answer` is 1 if it does, and 0
    /// if not. If several expressions have the range, the innermost is the place.
    ///
    /// The test is that of `needs_parens_in_place_of`, and exact for operands. It does not see that a
    /// place begins a statement, where `if a {} else {} + b` would be two; `ras_c_rewrite` sees that.
    ///
    /// Returns [`OK`], [`NOT_UTF8`], [`TOO_LONG`], [`NO_MEMORY`], [`NO_EDITION`], [`NO_PLACE`] if no
    /// expression has the range, or [`NO_EXPR`] if `own` is not one expression. Both texts are parsed.
    pub fn ras_c_needs_parens(
        text: *const u8,
        text_len: usize,
        edition: u32,
        start: u32,
        end: u32,
        own: *const u8,
        own_len: usize,
        answer: *mut u32,
    ) -> u32;

    /// Parses a text as a Rust file of an edition, such as 2024. Writes the tree as rows in preorder,
    /// the errors, and their messages one after another, each to the front of its buffer.
    ///
    /// Returns [`OK`], [`NOT_UTF8`], [`TOO_LONG`], [`NO_MEMORY`], [`NO_ROOM`] or [`NO_EDITION`]. Text
    /// with syntax errors has a tree too. A text of n bytes seldom has more than 2 n rows.
    pub fn ras_c_read(
        text: *const u8,
        text_len: usize,
        edition: u32,
        rows: *mut FlatRow,
        rows_len: usize,
        errors: *mut ErrorRow,
        errors_len: usize,
        messages: *mut u8,
        messages_len: usize,
        counts: *mut Counts,
    ) -> u32;

    /// Parses a text as an expression of an edition, and writes what `ras_c_read` writes for a file.
    /// The root is a node of an expression, or `ERROR` if the text is not one expression. If only its
    /// beginning is one, as in `a b`, there may be no errors.
    ///
    /// Returns [`OK`], [`NOT_UTF8`], [`TOO_LONG`], [`NO_MEMORY`], [`NO_ROOM`] or [`NO_EDITION`].
    pub fn ras_c_read_expr(
        text: *const u8,
        text_len: usize,
        edition: u32,
        rows: *mut FlatRow,
        rows_len: usize,
        errors: *mut ErrorRow,
        errors_len: usize,
        messages: *mut u8,
        messages_len: usize,
        counts: *mut Counts,
    ) -> u32;

    /// Parses a text by an entry, such as [`ENTRY_TYPE`], and writes what `ras_c_read` writes for a
    /// file, with a choice of errors, such as [`PARSE_ERRORS`]. The counts are those of the chosen
    /// errors.
    ///
    /// Returns [`OK`], [`NOT_UTF8`], [`TOO_LONG`], [`NO_MEMORY`], [`NO_ROOM`], [`NO_EDITION`],
    /// [`NO_ENTRY`] or [`NO_CHOICE`]. The violations of rules beyond the grammar are looked for only if
    /// they are chosen: they take a further walk through the tree.
    pub fn ras_c_read_as(
        entry: u32,
        told: u32,
        text: *const u8,
        text_len: usize,
        edition: u32,
        rows: *mut FlatRow,
        rows_len: usize,
        errors: *mut ErrorRow,
        errors_len: usize,
        messages: *mut u8,
        messages_len: usize,
        counts: *mut Counts,
    ) -> u32;

    /// Searches a text of an edition, such as 2024, by a pattern: `$a == None`. With `lines` there are
    /// several, one a line, each a pattern or a rule with its template; lines that are empty or begin
    /// with `#` are passed over. Writes a row for each match, in preorder: the outermost ones, and
    /// those inside what stands for placeholders. At one place the first rule that matches counts.
    ///
    /// Returns [`OK`], [`NOT_UTF8`] of either text, [`TOO_LONG`], [`NO_MEMORY`], [`NO_ROOM`],
    /// [`NO_EDITION`], or [`BAD_RULE`] with what is wrong: the message is at the front of `message` if
    /// it has room for it; 256 bytes are enough for most. The arguments of macros are not searched.
    /// Takes a parse of the text, and time linear in the text for each rule.
    pub fn ras_c_search(
        patterns: *const u8,
        patterns_len: usize,
        lines: bool,
        text: *const u8,
        text_len: usize,
        edition: u32,
        matches: *mut MatchRow,
        matches_len: usize,
        count: *mut u32,
        message: *mut u8,
        message_len: usize,
        fault: *mut RuleFault,
    ) -> u32;

    /// Replaces the matches of a rule in a text of an edition, such as 2024: by `$a == None ==>>
    /// $a.is_none()`. With `lines` there are several, one a line; lines that are empty or begin with
    /// `#` are passed over. Writes the new text to the front of `out`, its length to `count`, and the
    /// number of matches to `matches`. Parentheses stand exactly where they are needed, and what is
    /// outside of the matches is as it was.
    ///
    /// Returns [`OK`], [`NOT_UTF8`] of either text, [`TOO_LONG`], [`NO_MEMORY`], [`NO_ROOM`],
    /// [`NO_EDITION`], [`NO_TEMPLATE`], [`LOSES_COMMENT`], [`READS_OTHERWISE`], or [`BAD_RULE`] with
    /// what is wrong: the message is at the front of `message` if it has room for it; 256 bytes are
    /// enough for most. It takes a few parses of the text.
    pub fn ras_c_rewrite(
        rules: *const u8,
        rules_len: usize,
        lines: bool,
        text: *const u8,
        text_len: usize,
        edition: u32,
        out: *mut u8,
        out_len: usize,
        count: *mut u32,
        matches: *mut usize,
        message: *mut u8,
        message_len: usize,
        fault: *mut RuleFault,
    ) -> u32;

    /// Cuts a text of an edition, such as 2024, into tokens. White space and comments are tokens too,
    /// and punctuation is cut into single characters.
    ///
    /// Returns [`OK`], [`NOT_UTF8`], [`TOO_LONG`], [`NO_MEMORY`], [`NO_ROOM`] or [`NO_EDITION`]. A text
    /// has at most as many tokens as bytes.
    pub fn ras_c_tokens(
        text: *const u8,
        text_len: usize,
        edition: u32,
        tokens: *mut TokenRow,
        tokens_len: usize,
        count: *mut u32,
    ) -> u32;

    /// Takes the tree of a handle's parse out of it, as rows and text that the caller owns from then
    /// on, without a copy of them. The handle then holds no parse. A tree that `tree` held is freed.
    ///
    /// Returns [`OK`], [`TOO_LONG`] if the tree has 2^32 rows or more, [`NO_MEMORY`], or [`NO_PARSE`]
    /// if the handle holds no parse. Unless it is [`OK`], `tree` is not changed; if it is
    /// [`NO_MEMORY`], the parse of the handle is freed, and else the handle is not changed.
    pub fn ras_c_take_tree(
        handle: *mut Handle,
        tree: *mut TreeRows,
    ) -> u32;

    /// Frees the rows and the text of a tree, if there is one. It then is none, all zeros, and may be
    /// used again.
    pub fn ras_c_free_tree(
        tree: *mut TreeRows,
    );

    /// Writes the units of a string, a byte string or a C string with this text, quotes and prefix with
    /// it, to the front of `units`: each character and each escape with its range in the text, and its
    /// character, byte or fault. Of `"a\n"` these are `a` at 1..2 and a line feed at 2..4.
    ///
    /// A text that begins with `b` is a byte string, one with `c` a C string, any other a string. Of a
    /// raw one each character is a unit. A backslash before a line feed is no unit, with the blanks
    /// after it, but each warning about these is one. A text without two quotes has no units.
    ///
    /// Returns [`OK`], [`NOT_UTF8`], [`TOO_LONG`], [`NO_MEMORY`] or [`NO_ROOM`]. It takes time linear
    /// in the text, and there are at most as many units as bytes.
    pub fn ras_c_char_ranges(
        text: *const u8,
        text_len: usize,
        units: *mut UnitRow,
        units_len: usize,
        count: *mut u32,
    ) -> u32;

    /// Writes the value of a string with this text, quotes and prefix with it, to the front of `value`,
    /// and its length to `count`: of `"a\n"` the letter and a line feed.
    ///
    /// Returns [`OK`], [`NOT_UTF8`], [`TOO_LONG`], [`NO_MEMORY`], [`NO_ROOM`], or a status from
    /// [`FAULT`] on. The value is at most as long as the text.
    pub fn ras_c_string_value(
        text: *const u8,
        text_len: usize,
        value: *mut u8,
        value_len: usize,
        count: *mut u32,
    ) -> u32;

    /// Writes the value of a byte string with this text, quotes and prefix with it, to the front of
    /// `value`, and its length to `count`: of `b"\xff"` the byte 255.
    ///
    /// Returns [`OK`], [`NOT_UTF8`], [`TOO_LONG`], [`NO_MEMORY`], [`NO_ROOM`], or a status from
    /// [`FAULT`] on. The value is at most as long as the text.
    pub fn ras_c_byte_string_value(
        text: *const u8,
        text_len: usize,
        value: *mut u8,
        value_len: usize,
        count: *mut u32,
    ) -> u32;

    /// Writes the value of a C string with this text, quotes and prefix with it, to the front of
    /// `value`, and its length to `count`: of `c"a"` the letter, without the zero behind it.
    ///
    /// Returns [`OK`], [`NOT_UTF8`], [`TOO_LONG`], [`NO_MEMORY`], [`NO_ROOM`], or a status from
    /// [`FAULT`] on. The value is at most as long as the text.
    pub fn ras_c_c_string_value(
        text: *const u8,
        text_len: usize,
        value: *mut u8,
        value_len: usize,
        count: *mut u32,
    ) -> u32;

    /// Writes the value of a character with this text, quotes with it, to `value`: of `'a'` the number
    /// 97.
    ///
    /// Returns [`OK`], [`NOT_UTF8`], or a status from [`FAULT`] on.
    pub fn ras_c_char_value(
        text: *const u8,
        text_len: usize,
        value: *mut u32,
    ) -> u32;

    /// Writes the value of a byte with this text, quotes with it, to `value`: of `b'a'` the number 97.
    ///
    /// Returns [`OK`], [`NOT_UTF8`], or a status from [`FAULT`] on.
    pub fn ras_c_byte_value(
        text: *const u8,
        text_len: usize,
        value: *mut u32,
    ) -> u32;

    /// Writes the value of an integer with this text, prefix and suffix with it, to `high` and `low`,
    /// 64 bits each: of `0x10u8` the numbers 0 and 16.
    ///
    /// Returns [`OK`], [`NOT_UTF8`], [`NO_DIGIT`], [`BAD_DIGIT`] or [`TOO_LARGE`].
    pub fn ras_c_int_value(
        text: *const u8,
        text_len: usize,
        high: *mut u64,
        low: *mut u64,
    ) -> u32;

    /// Writes the violations of rules beyond the grammar at the node of a row of a handle's parse, and
    /// at the nodes in it: a part of those of the whole parse, which stand together in them, in the
    /// same order, with positions in the whole text. It walks through this node alone. A row's number
    /// is that in the rows of the whole parse, such as those of `ras_c_rows`. The counts have no rows.
    /// The handle keeps its parse.
    ///
    /// Returns [`OK`], [`TOO_LONG`], [`NO_MEMORY`], [`NO_ROOM`], [`NO_PARSE`] if the handle holds no
    /// parse, or [`NO_PLACE`] if the tree has no such row, or that of a token.
    pub fn ras_c_violations_at(
        handle: *mut Handle,
        row: u32,
        errors: *mut ErrorRow,
        errors_len: usize,
        messages: *mut u8,
        messages_len: usize,
        counts: *mut Counts,
    ) -> u32;

    /// Writes the violations of rules beyond the grammar at the nodes of a handle's parse whose rows
    /// have the numbers from `from` to before `to`. Those of the whole parse are those among its first
    /// rows, and then those among the rest, as they are written here. The counts have no rows. The
    /// handle keeps its parse.
    ///
    /// Returns [`OK`], [`TOO_LONG`], [`NO_MEMORY`], [`NO_ROOM`], [`NO_PARSE`] if the handle holds no
    /// parse, or [`NO_PLACE`] if the tree has fewer than `to` rows.
    pub fn ras_c_violations_among(
        handle: *mut Handle,
        from: u32,
        to: u32,
        errors: *mut ErrorRow,
        errors_len: usize,
        messages: *mut u8,
        messages_len: usize,
        counts: *mut Counts,
    ) -> u32;

    /// What a text is as one word of an edition, such as 2024. A text that is no word, as `a b`, is
    /// neither a keyword nor an identifier; `r#fn` is none either: ask for `fn`.
    ///
    /// Returns [`OK`], [`NOT_UTF8`] or [`NO_EDITION`]. Unless it is [`OK`], `word` is not changed. It
    /// takes no memory.
    pub fn ras_c_word(
        text: *const u8,
        text_len: usize,
        edition: u32,
        word: *mut Word,
    ) -> u32;

    /// The number [`VERSION`] of the library. Compare it with that of the header.
    pub fn ras_c_version() -> u32;
}
