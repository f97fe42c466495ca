//! Many changes of one tree at once.
use crate::node::place::Place as _;
use crate::node::{NodeOrToken, SyntaxElement, SyntaxNode, SyntaxToken};
use crate::range::{TextRange, TextSize};
use ras_sys::FlatRow;
use crate::text_edit::{Indel, TextEdit};
use crate::tree::Tree;
use std::fmt;
use std::ops::RangeInclusive;
use std::sync::atomic::{AtomicU32, Ordering};

/// What an editor puts in, or changes: a node, a token, an element, or a reference to one.
pub trait Element {
    /// The node or token.
    fn syntax_element(self) -> SyntaxElement;
}

impl<E: Element + Clone> Element for &'_ E {
    fn syntax_element(self) -> SyntaxElement {
        self.clone().syntax_element()
    }
}

impl Element for SyntaxElement {
    fn syntax_element(self) -> SyntaxElement {
        self
    }
}

impl Element for SyntaxNode {
    fn syntax_element(self) -> SyntaxElement {
        self.into()
    }
}

impl Element for SyntaxToken {
    fn syntax_element(self) -> SyntaxElement {
        self.into()
    }
}

/// Why a change is not taken. Of several reasons, the first of these is named; the editor is unchanged.
#[derive(Clone, Copy, Debug, PartialEq, Eq, Hash)]
pub enum ChangeError {
    /// The position, or the element that is changed or annotated, is in a tree that differs from the editor's. An equal tree is accepted.
    OtherTree,
    /// Of a run of siblings, the last element is neither the first one nor one of its later siblings.
    NotSiblings,
    /// The change is before, after or in the place of the root.
    Root,
    /// The element is replaced or deleted already, and is replaced again, or gets a child.
    Replaced,
    /// The element is inside one that is replaced or deleted.
    InReplaced,
    /// The element is replaced or deleted, and something inside it is changed already.
    ChangedInside,
    /// The new text would have 2^32 bytes or more, or its tree as many rows.
    TooLong,
}

impl fmt::Display for ChangeError {
    fn fmt(&self, f: &mut fmt::Formatter<'_>) -> fmt::Result {
        f.write_str(match self {
            ChangeError::OtherTree => "the element is not in the tree that is changed",
            ChangeError::NotSiblings => "the last element is not a later sibling of the first",
            ChangeError::Root => "the change is before, after or in the place of the root",
            ChangeError::Replaced => "the element is replaced already",
            ChangeError::InReplaced => "the element is inside one that is replaced",
            ChangeError::ChangedInside => "something inside the element is changed already",
            ChangeError::TooLong => "the new text is too long: it has 4294967296 bytes or more, or its tree as many rows",
        })
    }
}

impl std::error::Error for ChangeError {}

// Where elements are put, relative to the element of a row.
#[derive(Clone, Copy, Debug, PartialEq, Eq)]
enum Slot {
    Before,
    Instead,
    First,
    Last,
    After,
}

/// A position in the tree that is changed, next to an element of it or inside a node of it.
#[derive(Clone, Debug)]
pub struct Position {
    element: SyntaxElement,
    slot: Slot,
}

impl Position {
    /// Right before an element.
    pub fn before(element: impl Element) -> Position {
        Position { element: element.syntax_element(), slot: Slot::Before }
    }

    /// Right after an element.
    pub fn after(element: impl Element) -> Position {
        Position { element: element.syntax_element(), slot: Slot::After }
    }

    /// Inside a node, before its first child; the node may be empty.
    pub fn first_child_of(node: &SyntaxNode) -> Position {
        Position { element: node.syntax_element(), slot: Slot::First }
    }

    /// Inside a node, after its last child; the node may be empty.
    pub fn last_child_of(node: &SyntaxNode) -> Position {
        Position { element: node.syntax_element(), slot: Slot::Last }
    }
}

/// A mark of elements of the old tree, by which [`SyntaxEdit::find_annotation`] finds them in the new one. Each differs from all others.
#[derive(Clone, Copy, Debug, PartialEq, Eq, Hash)]
pub struct SyntaxAnnotation(u32);

impl SyntaxAnnotation {
    /// A new annotation.
    #[allow(clippy::new_without_default, reason = "two defaults would differ")]
    pub fn new() -> SyntaxAnnotation {
        static NEXT: AtomicU32 = AtomicU32::new(0);
        SyntaxAnnotation(NEXT.fetch_add(1, Ordering::Relaxed))
    }
}

// What is put around, inside and in the place of one element.
#[derive(Default)]
struct Change {
    before: Vec<SyntaxElement>,
    instead: Option<Vec<SyntaxElement>>,
    first: Vec<SyntaxElement>,
    last: Vec<SyntaxElement>,
    after: Vec<SyntaxElement>,
}

/// A session of changes of a tree: they are collected, and made at once by [`finish`](SyntaxEditor::finish).
///
/// All positions and elements that are changed are those of the old tree, so no change moves another one. What is put in may be any node
/// or token: of this tree, of another one, or of one from [`make`](crate::make). Several insertions at one position stay in the order of the
/// calls. A call returns an error if the change contradicts an earlier one, and then changes nothing.
///
/// ```
/// use ras::ast::{self, AstNode, HasName};
/// use ras::syntax_editor::{Position, SyntaxEditor};
/// use ras::{Edition, SourceFile, make};
///
/// let file = SourceFile::parse("fn f() {}\nstruct S;\n", Edition::CURRENT).tree();
/// let function = file.syntax().descendants().find_map(ast::Fn::cast).unwrap();
/// let record = file.syntax().descendants().find_map(ast::Struct::cast).unwrap();
///
/// let mut editor = SyntaxEditor::new(file.syntax());
/// editor.replace(function.name().unwrap().syntax(), make::name("main")?.syntax())?;
/// editor.insert(Position::before(record.syntax()), make::node::<ast::Attr>("#[derive(Debug)]")?.syntax())?;
/// let edit = editor.finish()?;
/// assert_eq!(edit.new_root().text(), "fn main() {}\n#[derive(Debug)]struct S;\n");
/// assert_eq!(edit.text_edit().apply(file.syntax().text())?, edit.new_root().text());
/// # Ok::<(), Box<dyn std::error::Error>>(())
/// ```
pub struct SyntaxEditor {
    root: SyntaxNode,
    // For each row 0, or the number of its change, counted from 1.
    marks: Vec<u32>,
    changes: Vec<Change>,
    notes: Vec<(SyntaxAnnotation, u32)>,
}

impl SyntaxEditor {
    /// Begins a session of changes of the whole tree of a node: mostly its root.
    pub fn new(node: &SyntaxNode) -> SyntaxEditor {
        let tree = node.tree();
        SyntaxEditor { root: tree.syntax_node(), marks: vec![0; tree.rows().len()], changes: Vec::new(), notes: Vec::new() }
    }

    fn tree(&self) -> &Tree {
        self.root.tree()
    }

    fn change(&self, row: u32) -> Option<&Change> {
        (self.marks[row as usize] as usize).checked_sub(1).map(|number| &self.changes[number])
    }

    fn change_mut(&mut self, row: u32) -> &mut Change {
        let mark = &mut self.marks[row as usize];
        if *mark == 0 {
            self.changes.push(Change::default());
            *mark = self.changes.len() as u32;
        }
        &mut self.changes[*mark as usize - 1]
    }

    fn is_replaced(&self, row: u32) -> bool {
        self.change(row).is_some_and(|it| it.instead.is_some())
    }

    // The row of an element, if it is one of the tree.
    fn row_of(&self, element: &SyntaxElement) -> Result<u32, ChangeError> {
        let (tree, row) = place_of(element);
        if self.tree().is_equal(tree) { Ok(row) } else { Err(ChangeError::OtherTree) }
    }

    // The row of a position, if a change is taken there.
    fn check(&self, element: &SyntaxElement, slot: Slot) -> Result<u32, ChangeError> {
        let row = self.row_of(element)?;
        let is_inside = matches!(slot, Slot::First | Slot::Last);
        if !is_inside && row == 0 {
            return Err(ChangeError::Root);
        }
        if !matches!(slot, Slot::Before | Slot::After) && self.is_replaced(row) {
            return Err(ChangeError::Replaced);
        }
        let mut above = std::iter::successors(self.tree().parent_of(row), |it| self.tree().parent_of(*it));
        if above.any(|it| self.is_replaced(it)) {
            return Err(ChangeError::InReplaced);
        }
        let is_changed = |it| self.change(it).is_some();
        let has_own_child = || self.change(row).is_some_and(|it| !it.first.is_empty() || !it.last.is_empty());
        if slot == Slot::Instead && (has_own_child() || (row + 1..self.tree().end_of(row)).any(is_changed)) {
            return Err(ChangeError::ChangedInside);
        }
        Ok(row)
    }

    fn put(&mut self, position: Position, elements: impl IntoIterator<Item = SyntaxElement>) -> Result<(), ChangeError> {
        let row = self.check(&position.element, position.slot)?;
        let mut elements = elements.into_iter().peekable();
        if position.slot != Slot::Instead && elements.peek().is_none() {
            return Ok(());
        }
        let change = self.change_mut(row);
        let list = match position.slot {
            Slot::Before => &mut change.before,
            Slot::Instead => change.instead.insert(Vec::new()),
            Slot::First => &mut change.first,
            Slot::Last => &mut change.last,
            Slot::After => &mut change.after,
        };
        list.extend(elements);
        Ok(())
    }

    /// Puts an element at a position, after those that were put there before.
    pub fn insert(&mut self, position: Position, element: impl Element) -> Result<(), ChangeError> {
        self.put(position, [element.syntax_element()])
    }

    /// Puts elements at a position, in their order, after those that were put there before.
    pub fn insert_all(&mut self, position: Position, elements: Vec<SyntaxElement>) -> Result<(), ChangeError> {
        self.put(position, elements)
    }

    /// Deletes an element.
    pub fn delete(&mut self, element: impl Element) -> Result<(), ChangeError> {
        self.replace_with_many(element, Vec::new())
    }

    /// Puts a new element in the place of an old one.
    pub fn replace(&mut self, old: impl Element, new: impl Element) -> Result<(), ChangeError> {
        self.replace_with_many(old, vec![new.syntax_element()])
    }

    /// Puts new elements, in their order, in the place of an old one.
    pub fn replace_with_many(&mut self, old: impl Element, new: Vec<SyntaxElement>) -> Result<(), ChangeError> {
        self.put(Position { element: old.syntax_element(), slot: Slot::Instead }, new)
    }

    /// Puts new elements, in their order, in the place of the siblings from the first to the last one of a range, both included.
    ///
    /// The first of them that may not be replaced gives the reason of a refusal.
    pub fn replace_all(&mut self, range: RangeInclusive<SyntaxElement>, new: Vec<SyntaxElement>) -> Result<(), ChangeError> {
        let (first, last) = range.into_inner();
        let end = self.row_of(&first).and(self.row_of(&last))?;
        let mut run = vec![first];
        while place_of(&run[run.len() - 1]).1 != end {
            run.push(run[run.len() - 1].next_sibling_or_token().ok_or(ChangeError::NotSiblings)?);
        }
        for element in &run {
            self.check(element, Slot::Instead)?;
        }
        let mut new = new;
        for element in run {
            self.replace_with_many(element, std::mem::take(&mut new))?;
        }
        Ok(())
    }

    /// Deletes the siblings from the first to the last one of a range, both included.
    pub fn delete_all(&mut self, range: RangeInclusive<SyntaxElement>) -> Result<(), ChangeError> {
        self.replace_all(range, Vec::new())
    }

    /// Gives an element of the old tree an annotation. An element may have several, and one that is replaced or deleted, or is inside one
    /// that is, is not found in the new tree.
    pub fn add_annotation(&mut self, element: impl Element, annotation: SyntaxAnnotation) -> Result<(), ChangeError> {
        let row = self.row_of(&element.syntax_element())?;
        self.notes.push((annotation, row));
        Ok(())
    }

    /// Makes the changes. The old tree stays as it is. It takes time linear in the old tree and in what is put in, however many changes
    /// there are.
    ///
    /// # Errors
    ///
    /// `TooLong`.
    pub fn finish(self) -> Result<SyntaxEdit, ChangeError> {
        let rows = self.tree().rows().len();
        let mut walk = Walk {
            editor: &self,
            text: String::with_capacity(self.tree().text().len()),
            rows: Vec::with_capacity(rows),
            new_rows: vec![0; rows],
            indels: Vec::new(),
            open: Vec::new(),
        };
        walk.tree();
        let Walk { text, rows, new_rows, indels, .. } = walk;
        if u32::try_from(text.len()).is_err() || u32::try_from(rows.len()).is_err() {
            return Err(ChangeError::TooLong);
        }
        let new_root = Tree::made(text, self.tree().edition(), rows).syntax_node();
        Ok(SyntaxEdit { old_root: self.root, new_root, new_rows, indels, notes: self.notes })
    }
}

impl fmt::Debug for SyntaxEditor {
    /// The root, and how many elements are changed.
    fn fmt(&self, f: &mut fmt::Formatter<'_>) -> fmt::Result {
        f.debug_struct("SyntaxEditor").field("root", &self.root).field("changes", &self.changes.len()).finish()
    }
}

fn place_of(element: &SyntaxElement) -> (&Tree, u32) {
    match element {
        NodeOrToken::Node(node) => (node.tree_of(), node.row_number()),
        NodeOrToken::Token(token) => (token.tree_of(), token.row_number()),
    }
}

// One walk over the old tree, which writes the new one.
struct Walk<'e> {
    editor: &'e SyntaxEditor,
    text: String,
    rows: Vec<FlatRow>,
    // For each old row 0, or the number of the new one, counted from 1.
    new_rows: Vec<u32>,
    indels: Vec<(TextRange, String)>,
    // The nodes that are open: the old and the new row.
    open: Vec<(u32, u32)>,
}

impl Walk<'_> {
    fn parent(&self) -> u32 {
        self.open.last().map_or(0, |(_, new)| *new)
    }

    // Copies the subtrees of elements that replace a range of the old text.
    fn put(&mut self, elements: &[SyntaxElement], old: TextRange) {
        let before = self.text.len();
        for element in elements {
            let (tree, first) = place_of(element);
            let (text, count, parent) = (self.text.len() as u32, self.rows.len() as u32, self.parent());
            let start = u32::from(tree.start_of(first));
            let moved = |row: &FlatRow| FlatRow {
                kind: row.kind,
                start: (row.start - start).wrapping_add(text),
                subtree_end: (row.subtree_end - first).wrapping_add(count),
                parent: if row.parent < first { parent } else { (row.parent - first).wrapping_add(count) },
            };
            let subtree = &tree.rows()[first as usize..tree.end_of(first) as usize];
            self.rows.extend(subtree.iter().map(moved));
            // The root of a whole tree has itself as its parent.
            if let Some(root) = self.rows.get_mut(count as usize) {
                root.parent = parent;
            }
            self.text.push_str(tree.text_of(first));
        }
        if self.text.len() > before || !old.is_empty() {
            self.indels.push((old, self.text[before..].to_owned()));
        }
    }

    // Copies a row, with the text of a token.
    fn copy(&mut self, row: u32) {
        let editor = self.editor;
        let tree = editor.tree();
        let new = self.rows.len() as u32;
        self.new_rows[row as usize] = new + 1;
        let kind = tree.rows()[row as usize].kind;
        self.rows.push(FlatRow { kind, start: self.text.len() as u32, subtree_end: new + 1, parent: self.parent() });
        if tree.is_token(row) {
            self.text.push_str(tree.text_of(row));
        } else {
            self.open.push((row, new));
        }
    }

    // Ends the nodes that end before an old row.
    fn close(&mut self, row: u32) {
        let editor = self.editor;
        while let Some((old, new)) = self.open.last().copied() {
            if editor.tree().end_of(old) > row {
                return;
            }
            let end = TextRange::empty(editor.tree().range_of(old).end());
            if let Some(change) = editor.change(old) {
                self.put(&change.last, end);
            }
            self.rows[new as usize].subtree_end = self.rows.len() as u32;
            self.open.pop();
            if let Some(change) = editor.change(old) {
                self.put(&change.after, end);
            }
        }
    }

    fn tree(&mut self) {
        let editor = self.editor;
        let tree = editor.tree();
        let behind = tree.rows().len() as u32;
        let mut row = 0;
        while row < behind {
            self.close(row);
            let range = tree.range_of(row);
            let Some(change) = editor.change(row) else {
                self.copy(row);
                row += 1;
                continue;
            };
            self.put(&change.before, TextRange::empty(range.start()));
            let is_node = !tree.is_token(row);
            match &change.instead {
                Some(elements) => {
                    self.put(elements, range);
                    self.put(&change.after, TextRange::empty(range.end()));
                    row = tree.end_of(row);
                }
                None => {
                    self.copy(row);
                    self.put(&change.first, TextRange::empty(range.start()));
                    if !is_node {
                        self.put(&change.after, TextRange::empty(range.end()));
                    }
                    row += 1;
                }
            }
        }
        self.close(behind);
    }
}

/// The tree before and after a session of changes.
pub struct SyntaxEdit {
    old_root: SyntaxNode,
    new_root: SyntaxNode,
    new_rows: Vec<u32>,
    indels: Vec<(TextRange, String)>,
    notes: Vec<(SyntaxAnnotation, u32)>,
}

impl SyntaxEdit {
    /// The root before the changes.
    pub fn old_root(&self) -> &SyntaxNode {
        &self.old_root
    }

    /// The root after the changes. Its tree has no errors: it was not parsed.
    pub fn new_root(&self) -> &SyntaxNode {
        &self.new_root
    }

    /// The difference of the two texts: a replacement for each place where something was put in or deleted, none of which changes nothing.
    pub fn text_edit(&self) -> TextEdit {
        let mut edit = TextEdit::default();
        for (range, text) in &self.indels {
            edit.add(Indel::replace(*range, text.as_str())).expect("a walk passes over each range once, in order");
        }
        edit
    }

    fn new_element(&self, row: u32) -> Option<SyntaxElement> {
        let new = self.new_rows[row as usize].checked_sub(1)?;
        Some(crate::node::Node::element_at(&self.new_root, new))
    }

    /// The element of the new tree that an element of the old tree has become: the same node or token, with the changes inside it made.
    /// `None` if it was replaced or deleted, or is inside something that was, or is of a tree that differs from the old one.
    ///
    /// It takes constant time; where the element is one of another tree in memory, the call first compares the two trees.
    pub fn old_to_new(&self, element: impl Element) -> Option<SyntaxElement> {
        let element = element.syntax_element();
        let (tree, row) = place_of(&element);
        if self.old_root.tree().is_equal(tree) { self.new_element(row) } else { None }
    }

    /// Where an offset of the old text is in the new one; `None` if it is inside of what was replaced or deleted.
    pub fn old_to_new_offset(&self, offset: TextSize) -> Option<TextSize> {
        self.text_edit().apply_to_offset(offset)
    }

    /// The elements of the new tree that annotated ones of the old tree have become, in the order of the calls of
    /// [`add_annotation`](SyntaxEditor::add_annotation).
    pub fn find_annotation(&self, annotation: SyntaxAnnotation) -> Vec<SyntaxElement> {
        let rows = self.notes.iter().filter(|it| it.0 == annotation);
        rows.filter_map(|it| self.new_element(it.1)).collect()
    }
}

impl fmt::Debug for SyntaxEdit {
    /// Both roots.
    fn fmt(&self, f: &mut fmt::Formatter<'_>) -> fmt::Result {
        f.debug_struct("SyntaxEdit").field("old_root", &self.old_root).field("new_root", &self.new_root).finish()
    }
}

impl SyntaxNode {
    /// The root of the tree in which another node is in the place of this one; the root of the other one, if this is a root.
    ///
    /// # Errors
    ///
    /// `TooLong` if the new text would have 2^32 bytes or more, or its tree as many rows.
    pub fn replace_with(&self, new: &SyntaxNode) -> Result<SyntaxNode, ChangeError> {
        if self.row_number() == 0 {
            return Ok(new.clone_subtree());
        }
        let mut editor = SyntaxEditor::new(self);
        editor.replace(self, new)?;
        Ok(editor.finish()?.new_root)
    }
}
