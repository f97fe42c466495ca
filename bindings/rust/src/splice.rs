//! What of a text was read again since its tree was read, and the rows of the tree with that.
use crate::range::TextRange;
use ras_sys::FlatRow;

/// What of a text was read again since its tree was read.
#[derive(Clone, Copy, Debug, PartialEq, Eq)]
pub(crate) enum Since {
    /// Nothing: there was no edit.
    Nothing,
    /// One node or token, and at most what is in it: where it was in the text that was read, and where it is now.
    Node { was: TextRange, is: TextRange },
    /// All of it, or more than one.
    All,
}

impl Since {
    /// The same after an edit, which read a range of the new text again: a node's, a token's, or that of the whole text.
    pub(crate) fn and(self, again: TextRange, delete: TextRange, insert: u32, len: u32) -> Since {
        if again == TextRange::up_to(len.into()) {
            return Since::All;
        }
        // How the text before the edit has changed behind it. What is at the range did not end before the edit, nor did what is around it.
        let before = |end: u32| end + delete.len().raw() - insert;
        let after = |end: u32| end + insert - delete.len().raw();
        let node = TextRange::new(again.start(), before(again.end().raw()).into());
        match self {
            Since::Nothing => Since::Node { was: node, is: again },
            // The earlier node is in this one, whose text before both edits differs in it alone.
            Since::Node { was, is } if node.contains_range(is) => {
                let end = node.end().raw() + was.len().raw() - is.len().raw();
                Since::Node { was: TextRange::new(node.start(), end.into()), is: again }
            }
            Since::Node { was, is } if is.contains_range(node) => {
                Since::Node { was, is: TextRange::new(is.start(), after(is.end().raw()).into()) }
            }
            _ => Since::All,
        }
    }
}

/// Puts other rows in the place of the subtree of a node. They count from the node's start and its row, as those of a tree of its own do; its
/// text is as many bytes longer, or shorter, modulo 2^32.
pub(crate) fn splice(rows: &mut Vec<FlatRow>, at: u32, new: &[FlatRow], longer: u32) {
    let FlatRow { start, subtree_end: behind, parent, .. } = rows[at as usize];
    let more = (new.len() as u32).wrapping_sub(behind - at);
    if (longer, more) != (0, 0) {
        for row in &mut rows[behind as usize..] {
            row.start = row.start.wrapping_add(longer);
            row.subtree_end = row.subtree_end.wrapping_add(more);
            // Its parent is behind the node too, or around it.
            row.parent = if row.parent < behind { row.parent } else { row.parent.wrapping_add(more) };
        }
    }
    let mut around = at;
    while around > 0 {
        around = rows[around as usize].parent;
        let row = &mut rows[around as usize];
        row.subtree_end = row.subtree_end.wrapping_add(more);
    }
    let moved = new.iter().map(|it| FlatRow {
        kind: it.kind,
        start: it.start + start,
        subtree_end: it.subtree_end + at,
        parent: it.parent + at,
    });
    rows.splice(at as usize..behind as usize, moved);
    rows[at as usize].parent = parent;
}
