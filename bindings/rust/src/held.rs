//! A parse that stays with the library.
use crate::range::TextRange;
use crate::stored::Stored;
use crate::tree::{Edition, Errors, ParseError, Room, SyntaxError, Tree, answered};
use crate::violations::Violations;
use ras_sys::{self as raw, Counts, FlatRow, Handle, Range};
use std::ptr;

/// A parse of a file, in the library's memory.
pub(crate) struct Held(Handle);

// SAFETY: the parse is reached by this handle alone. The library counts its owners without a lock, but each call has dropped its own shares
// of the parse when it returns, and hands out none; and the allocator's functions may be called from any thread.
unsafe impl Send for Held {}

impl Held {
    /// The parse of a text.
    ///
    /// # Panics
    ///
    /// It panics if the library that is linked is not the one that this crate was made for.
    pub(crate) fn parse(text: &str, edition: Edition) -> Result<Held, ParseError> {
        crate::version::check();
        let mut held = Held(Handle { full: false, at: ptr::null_mut() });
        // SAFETY: the text is borrowed for the call, with its length; the handle is one without a parse.
        answered(unsafe { raw::ras_c_parse(text.as_ptr(), text.len(), edition.year(), &mut held.0) })?;
        Ok(held)
    }

    /// Replaces the bytes of a range. Returns the status, and the range of the new text that was read again if it is `OK`.
    pub(crate) fn edit(&mut self, edition: Edition, delete: TextRange, insert: &str) -> (u32, TextRange) {
        let (start, end) = (delete.start().into(), delete.end().into());
        let mut again = Range { start: 0, end: 0 };
        // SAFETY: the inserted text is borrowed for the call, with its length, and so is the range; the handle is this value's own.
        let status = unsafe { raw::ras_c_edit_told(&mut self.0, edition.year(), start, end, insert.as_ptr(), insert.len(), &mut again) };
        (status, TextRange::new(again.start.into(), again.end.into()))
    }

    // Writes the rows and errors to the buffers, or counts them if there is too little room.
    fn rows(&mut self, errors: Errors, room: &mut Room, counts: &mut Counts) -> u32 {
        // SAFETY: the three buffers are borrowed for the call, with their lengths, and none overlaps another; the handle is this value's
        // own.
        unsafe {
            raw::ras_c_rows_as(
                &mut self.0,
                errors.number(),
                room.rows.as_mut_ptr(),
                room.rows.capacity(),
                room.errors.as_mut_ptr(),
                room.errors.capacity(),
                room.messages.as_mut_ptr(),
                room.messages.capacity(),
                counts,
            )
        }
    }

    /// The tree of the parse, which is one of this text.
    pub(crate) fn tree(&mut self, text: Box<str>, edition: Edition, errors: Errors) -> Result<Tree, ParseError> {
        let mut counts = Counts { rows: 0, errors: 0, violations: 0, messages: 0 };
        // Without room this only counts the rows, and the errors of the parse.
        answered(self.rows(errors.without_violations(), &mut Room::counted(&counts), &mut counts))?;
        if errors.has_violations() && counts.errors == 0 {
            return self.tree_by_parts(text, edition, counts.rows);
        }
        Tree::told(text, edition, Room::of(counts.rows as usize), |_, room, counts| self.rows(errors, room, counts))
    }

    // The same with violations, where the parse has no errors. They are looked for in each part of the rows right after it is copied, while
    // it is near the processor.
    fn tree_by_parts(&mut self, text: Box<str>, edition: Edition, count: u32) -> Result<Tree, ParseError> {
        const PART: u32 = 4096;
        let mut rows = Vec::with_capacity(count as usize);
        let mut violations = Vec::new();
        let mut from = 0;
        while from < count {
            let to = from.saturating_add(PART).min(count);
            self.push_rows(&mut rows, to)?;
            violations.extend(self.violations_among(from, to)?);
            from = to;
        }
        Ok(Tree::built(text.into_string(), edition, rows, violations))
    }

    /// The tree of the parse, whose text and rows the library hands over.
    pub(crate) fn into_tree(mut self, edition: Edition, errors: Errors) -> Result<Tree, ParseError> {
        let (_, errors) = Tree::told_parts(Room::of(0), |room, counts| self.errors(errors, room, counts))?;
        // SAFETY: the handle is this value's own, and the tree is one that holds nothing.
        match Stored::handed(|tree| unsafe { raw::ras_c_take_tree(&mut self.0, tree) }) {
            Ok(stored) => Ok(Tree::of(stored, edition, errors)),
            Err(raw::TOO_LONG) => Err(ParseError::TooLong),
            Err(_) => Err(ParseError::Memory),
        }
    }

    // Writes the errors to the buffers, or counts them if there is too little room.
    fn errors(&mut self, errors: Errors, room: &mut Room, counts: &mut Counts) -> u32 {
        // SAFETY: both buffers are borrowed for the call, with their lengths, and do not overlap; the handle is this value's own.
        unsafe {
            raw::ras_c_errors(
                &mut self.0,
                errors.number(),
                room.errors.as_mut_ptr(),
                room.errors.capacity(),
                room.messages.as_mut_ptr(),
                room.messages.capacity(),
                counts,
            )
        }
    }

    // Appends the rows behind those that are there, up to a number, for which there is room.
    fn push_rows(&mut self, rows: &mut Vec<FlatRow>, to: u32) -> Result<(), ParseError> {
        let from = rows.len();
        let room = &mut rows.spare_capacity_mut()[..to as usize - from];
        // SAFETY: the room is borrowed for the call, with its length; the handle is this value's own.
        answered(unsafe { raw::ras_c_rows_from(&mut self.0, from as u32, room.as_mut_ptr().cast(), room.len()) })?;
        // SAFETY: the call returned `OK`, and then it has filled the room.
        unsafe { rows.set_len(to as usize) };
        Ok(())
    }

    // What breaks rules beyond the grammar at the nodes of some rows.
    fn violations_among(&mut self, from: u32, to: u32) -> Result<Box<[SyntaxError]>, ParseError> {
        let (_, errors) = Tree::told_parts(Room::of(0), |room, counts| {
            // SAFETY: both buffers are borrowed for the call, with their lengths, and do not overlap; the handle is this value's own.
            unsafe {
                raw::ras_c_violations_among(
                    &mut self.0,
                    from,
                    to,
                    room.errors.as_mut_ptr(),
                    room.errors.capacity(),
                    room.messages.as_mut_ptr(),
                    room.messages.capacity(),
                    counts,
                )
            }
        })?;
        Ok(errors)
    }
}

impl Held {
    // The same of the innermost node that covers a range of the text: its rows, and the errors of the whole text.
    fn rows_at(&mut self, errors: Errors, range: TextRange, room: &mut Room, counts: &mut Counts) -> u32 {
        // SAFETY: as in `rows`.
        unsafe {
            raw::ras_c_rows_at(
                &mut self.0,
                errors.number(),
                range.start().into(),
                range.end().into(),
                room.rows.as_mut_ptr(),
                room.rows.capacity(),
                room.errors.as_mut_ptr(),
                room.errors.capacity(),
                room.messages.as_mut_ptr(),
                room.messages.capacity(),
                counts,
            )
        }
    }

    // What breaks rules beyond the grammar at the node of a row, and at the nodes in it.
    fn violations_at(&mut self, row: u32) -> Result<Box<[SyntaxError]>, ParseError> {
        let (_, errors) = Tree::told_parts(Room::of(0), |room, counts| {
            // SAFETY: both buffers are borrowed for the call, with their lengths, and do not overlap; the handle is this value's own.
            unsafe {
                raw::ras_c_violations_at(
                    &mut self.0,
                    row,
                    room.errors.as_mut_ptr(),
                    room.errors.capacity(),
                    room.messages.as_mut_ptr(),
                    room.messages.capacity(),
                    counts,
                )
            }
        })?;
        Ok(errors)
    }

    /// The tree of the parse, which is one of this text, from an older one that has the errors of a choice, where at most one node or token
    /// was read again since, that was at a range of the older text and now is at another. `None` if the older tree has none there.
    pub(crate) fn tree_after(
        &mut self,
        (old, had): (Tree, Errors),
        (was, is): (TextRange, TextRange),
        text: &str,
        errors: Errors,
    ) -> Result<Option<Tree>, ParseError> {
        let Some(row) = old.read_again(was) else {
            return Ok(None);
        };
        // The violations that the older tree has are not looked for again but in a part.
        let violations = (had.has_violations() && errors.has_violations()).then(|| Violations::of(&old, row, was, is));
        let told = if violations.is_some() { errors.without_violations() } else { errors };
        let mut counts = Counts { rows: 0, errors: 0, violations: 0, messages: 0 };
        // Without errors this only counts the rows.
        answered(self.rows_at(Errors::Nothing, is, &mut Room::counted(&counts), &mut counts))?;
        let room = Room::like(counts.rows as usize, old.errors());
        let tree = old.with_node(text.into(), row, room, |room, counts| self.rows_at(told, is, room, counts))?;
        let Some(violations) = violations else {
            return Ok(Some(tree));
        };
        let violations = violations.with_part(|row| self.violations_at(row))?;
        Ok(Some(tree.with_errors(violations)))
    }
}

impl Drop for Held {
    fn drop(&mut self) {
        // SAFETY: the handle is this value's own.
        unsafe { raw::ras_c_free(&mut self.0) }
    }
}
