//! Trees that no parse makes.
use crate::SyntaxKind;
use crate::node::SyntaxNode;
use crate::parse::Parse;
use crate::range::TextSize;
use crate::tree::{Edition, SyntaxError, Tree};
use ras_sys::FlatRow;

/// Makes a tree from nodes and tokens that are begun, put in and ended in the order of the text.
///
/// ```
/// use ras::{SyntaxKind, SyntaxTreeBuilder};
///
/// let mut builder = SyntaxTreeBuilder::default();
/// builder.start_node(SyntaxKind::NAME_REF);
/// builder.token(SyntaxKind::IDENT, "a");
/// builder.finish_node();
/// let root = builder.finish().syntax_node();
/// assert_eq!(format!("{root:#?}"), "NAME_REF@0..1\n  IDENT@0..1 \"a\"\n");
/// ```
#[derive(Default)]
pub struct SyntaxTreeBuilder {
    text: String,
    rows: Vec<FlatRow>,
    // The rows of the nodes that are open.
    open: Vec<u32>,
    errors: Vec<SyntaxError>,
}

impl SyntaxTreeBuilder {
    fn put(&mut self, kind: u32) -> u32 {
        let row = u32::try_from(self.rows.len()).expect("a tree has less than 2^32 rows");
        let parent = self.open.last().copied();
        assert!(row == 0 || parent.is_some(), "a tree has one root");
        let start = TextSize::of(&self.text).raw();
        self.rows.push(FlatRow { kind, start, subtree_end: row + 1, parent: parent.unwrap_or(0) });
        row
    }

    /// Begins a node. What comes up to its end is below it.
    ///
    /// # Panics
    ///
    /// It panics if a root has ended.
    pub fn start_node(&mut self, kind: SyntaxKind) {
        let row = self.put(kind.number());
        self.open.push(row);
    }

    /// Puts in a token.
    ///
    /// # Panics
    ///
    /// It panics if no node is open, or if the text would have 2^32 bytes or more.
    pub fn token(&mut self, kind: SyntaxKind, text: &str) {
        assert!(!self.open.is_empty(), "a token is in a node");
        self.put(kind.number() | crate::tree::TOKEN);
        self.text.push_str(text);
        TextSize::of(&self.text);
    }

    /// Ends the node that was begun last.
    ///
    /// # Panics
    ///
    /// It panics if none is open.
    pub fn finish_node(&mut self) {
        let row = self.open.pop().expect("a node is open");
        self.rows[row as usize].subtree_end = self.rows.len() as u32;
    }

    /// Adds an error at an offset.
    pub fn error(&mut self, message: String, offset: TextSize) {
        self.errors.push(SyntaxError::new_at_offset(message, offset));
    }

    /// The tree.
    ///
    /// # Panics
    ///
    /// It panics if there is no root, or if a node is open.
    pub fn finish(self) -> Parse<SyntaxNode> {
        assert!(!self.rows.is_empty() && self.open.is_empty(), "a tree has a root, which has ended");
        Parse::of_tree(Tree::built(self.text, Edition::CURRENT, self.rows, self.errors))
    }
}
