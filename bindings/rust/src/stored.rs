//! The text and the rows of a tree, in memory of the library or of this crate.
use ras_sys::{self as raw, FlatRow, TreeOwner, TreeRows};
use std::mem::ManuallyDrop;
use std::ptr::{self, NonNull};

/// A text and its rows, which nothing changes.
pub(crate) struct Stored {
    // Both are read by each step in a tree, so where they are does not depend on whose memory it is.
    text: NonNull<str>,
    rows: NonNull<[FlatRow]>,
    // What the library handed over; `None` if both are boxes.
    handed: Option<TreeRows>,
}

// SAFETY: it is plain memory with one owner. Nothing changes it after it was made, and it is freed once, by the thread that has it then; the
// functions of the allocator may be called from any thread.
unsafe impl Send for Stored {}
// SAFETY: as for `Send`.
unsafe impl Sync for Stored {}

impl Stored {
    /// What is in memory of this crate.
    pub(crate) fn new(text: Box<str>, rows: Box<[FlatRow]>) -> Stored {
        let (text, rows) = (NonNull::from(Box::leak(text)), NonNull::from(Box::leak(rows)));
        Stored { text, rows, handed: None }
    }

    /// What a call of the library hands over, by its status.
    pub(crate) fn handed(call: impl FnOnce(&mut TreeRows) -> u32) -> Result<Stored, u32> {
        let owner = TreeOwner { full: false, at: ptr::null_mut() };
        let mut tree = TreeRows { rows: ptr::null(), row_count: 0, text: ptr::null(), text_len: 0, owner };
        match call(&mut tree) {
            raw::OK => Ok(Stored { text: text_at(tree.text, tree.text_len), rows: rows_at(tree.rows, tree.row_count), handed: Some(tree) }),
            status => Err(status),
        }
    }

    /// The text.
    pub(crate) fn text(&self) -> &str {
        // SAFETY: it is there until this value is dropped. A text of the library is the text that was parsed, and so is UTF-8.
        unsafe { self.text.as_ref() }
    }

    /// The rows.
    pub(crate) fn rows(&self) -> &[FlatRow] {
        // SAFETY: they are there until this value is dropped.
        unsafe { self.rows.as_ref() }
    }

    /// The rows alone. Those of the library are copied.
    pub(crate) fn into_rows(self) -> Vec<FlatRow> {
        if self.handed.is_some() {
            return self.rows().to_vec();
        }
        let stored = ManuallyDrop::new(self);
        // SAFETY: both are boxes of this value, which is not dropped.
        unsafe {
            drop(Box::from_raw(stored.text.as_ptr()));
            Box::from_raw(stored.rows.as_ptr()).into_vec()
        }
    }
}

// A list of the library. Where it is empty its address is not used.
fn rows_at(rows: *const FlatRow, count: usize) -> NonNull<[FlatRow]> {
    let first = NonNull::new(rows.cast_mut()).filter(|_| count > 0).unwrap_or(NonNull::dangling());
    NonNull::slice_from_raw_parts(first, count)
}

fn text_at(text: *const u8, len: usize) -> NonNull<str> {
    let first = NonNull::new(text.cast_mut()).filter(|_| len > 0).unwrap_or(NonNull::dangling());
    let bytes = NonNull::slice_from_raw_parts(first, len);
    // A `str` has the same pointer as its bytes, which is not null.
    NonNull::new(bytes.as_ptr() as *mut str).expect("it was not null")
}

impl Drop for Stored {
    fn drop(&mut self) {
        match &mut self.handed {
            // SAFETY: the library handed it over to this value, which is dropped once.
            Some(tree) => unsafe { raw::ras_c_free_tree(tree) },
            // SAFETY: both are boxes of this value, which is dropped once.
            None => unsafe {
                drop(Box::from_raw(self.text.as_ptr()));
                drop(Box::from_raw(self.rows.as_ptr()));
            },
        }
    }
}

impl PartialEq for Stored {
    fn eq(&self, other: &Stored) -> bool {
        self.text() == other.text() && self.rows() == other.rows()
    }
}

impl Eq for Stored {}
