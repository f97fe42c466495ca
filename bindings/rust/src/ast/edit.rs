//! The indentation of lines: levels, and nodes with more or fewer blanks.
use super::AstNode;
use crate::node::{NodeOrToken, SyntaxElement, SyntaxNode, SyntaxToken, Token};
use ras_sys::FlatRow;
use crate::tree::Tree;
use crate::{ParseError, SyntaxKind};
use std::fmt;
use std::iter::successors;
use std::ops::{Add, AddAssign};

/// How far a line is indented: a level is 4 blanks.
#[derive(Clone, Copy, Debug, PartialEq, Eq, PartialOrd, Ord, Hash)]
pub struct IndentLevel(pub u8);

impl From<u8> for IndentLevel {
    fn from(level: u8) -> IndentLevel {
        IndentLevel(level)
    }
}

impl fmt::Display for IndentLevel {
    /// The blanks.
    fn fmt(&self, f: &mut fmt::Formatter<'_>) -> fmt::Result {
        write!(f, "{:1$}", "", 4 * usize::from(self.0))
    }
}

impl Add<u8> for IndentLevel {
    type Output = IndentLevel;

    /// That many levels more, and 255 if there would be more than that.
    fn add(self, more: u8) -> IndentLevel {
        IndentLevel(self.0.saturating_add(more))
    }
}

impl AddAssign<u8> for IndentLevel {
    fn add_assign(&mut self, more: u8) {
        *self = *self + more;
    }
}

// The level that a token tells, if it is white space with a newline.
fn line_level(token: &SyntaxToken) -> Option<IndentLevel> {
    let behind = token.text().rfind('\n').filter(|_| token.kind() == SyntaxKind::WHITESPACE)? + 1;
    let levels = token.text()[behind..].chars().count() / 4;
    Some(IndentLevel(u8::try_from(levels).unwrap_or(u8::MAX)))
}

impl IndentLevel {
    /// No blanks.
    pub const fn zero() -> IndentLevel {
        IndentLevel(0)
    }

    /// 4 blanks.
    pub const fn single() -> IndentLevel {
        IndentLevel(1)
    }

    /// Whether it is no blanks.
    pub fn is_zero(&self) -> bool {
        self.0 == 0
    }

    /// The level of the line that a node or token begins in.
    pub fn from_element(element: &SyntaxElement) -> IndentLevel {
        match element {
            NodeOrToken::Node(node) => IndentLevel::from_node(node),
            NodeOrToken::Token(token) => IndentLevel::from_token(token),
        }
    }

    /// The level of the line that a node begins in: that of its first token, and 0 if it has no tokens.
    pub fn from_node(node: &SyntaxNode) -> IndentLevel {
        node.first_token().map_or(IndentLevel(0), |first| IndentLevel::from_token(&first))
    }

    /// The level of the line that a token begins in.
    ///
    /// Of the token and the tokens before it, the nearest white space with a newline tells it: the number of characters behind its last
    /// newline, divided by 4 and rounded down, and at most 255. Without such a token it is 0.
    pub fn from_token(token: &SyntaxToken) -> IndentLevel {
        let mut tokens = successors(Some(token.clone()), Token::prev_token);
        tokens.find_map(|it| line_level(&it)).unwrap_or(IndentLevel(0))
    }
}

// The text without the first blanks behind each newline, at most `count` of them.
fn dedented(text: &str, count: usize) -> String {
    let mut lines = text.split('\n');
    let mut out = lines.next().unwrap_or_default().to_owned();
    for line in lines {
        let blanks = line.bytes().take(count).take_while(|it| *it == b' ').count();
        out.push('\n');
        out.push_str(&line[blanks..]);
    }
    out
}

// The node, as the root of a tree of its own, with the text of each white space changed.
fn shifted(node: &SyntaxNode, shift: impl Fn(&str) -> String) -> Result<SyntaxNode, ParseError> {
    let (tree, first) = (node.tree(), node.row() as u32);
    let (mut text, mut rows) = (String::with_capacity(node.text().len()), Vec::new());
    for row in first..tree.end_of(first) {
        let old = &tree.rows()[row as usize];
        let start = u32::try_from(text.len()).map_err(|_| ParseError::TooLong)?;
        rows.push(FlatRow { kind: old.kind, start, subtree_end: old.subtree_end - first, parent: old.parent.saturating_sub(first) });
        if tree.is_token(row) {
            match tree.kind_of(row) {
                SyntaxKind::WHITESPACE => text.push_str(&shift(tree.text_of(row))),
                _ => text.push_str(tree.text_of(row)),
            }
        }
    }
    u32::try_from(text.len()).map_err(|_| ParseError::TooLong)?;
    Ok(Tree::made(text, tree.edition(), rows).syntax_node())
}

/// The node, as the root of a tree of its own, with its lines indented by this many levels more; its first line stays.
///
/// White space with a newline gets the blanks at its end, so lines that are empty stay empty. No other token changes: lines inside a string
/// or a comment stay where they are.
///
/// ```
/// use ras::ast::edit::{IndentLevel, dedent, indent};
/// use ras::ast::{self, AstNode};
/// use ras::make;
///
/// let block: ast::BlockExpr = make::node("{\n    a\n}")?;
/// let deeper = indent(block.syntax(), IndentLevel(1))?;
/// assert_eq!(deeper.text(), "{\n        a\n    }");
/// assert_eq!(dedent(&deeper, IndentLevel(1))?.text(), block.syntax().text());
/// # Ok::<(), Box<dyn std::error::Error>>(())
/// ```
///
/// # Errors
///
/// `TooLong` if the new text has 2^32 bytes or more.
pub fn indent(node: &SyntaxNode, level: IndentLevel) -> Result<SyntaxNode, ParseError> {
    shifted(node, |space| if space.contains('\n') { format!("{space}{level}") } else { space.to_owned() })
}

/// The node, as the root of a tree of its own, with its lines indented by this many levels less; its first line stays.
///
/// In white space, of the blanks that are directly behind a newline, the first 4 for each level are left out: all of them, if there are no
/// more. No other token changes.
///
/// # Errors
///
/// None: the text does not get longer.
pub fn dedent(node: &SyntaxNode, level: IndentLevel) -> Result<SyntaxNode, ParseError> {
    shifted(node, |space| dedented(space, 4 * usize::from(level.0)))
}

/// The node, as the root of a tree of its own, as if the line that it begins in were not indented: [`dedent`] by its own level.
///
/// # Errors
///
/// Those of [`dedent`].
pub fn reset_indent(node: &SyntaxNode) -> Result<SyntaxNode, ParseError> {
    dedent(node, IndentLevel::from_node(node))
}

/// The same calls on views.
pub trait AstNodeEdit: AstNode + Clone + Sized {
    /// The level of the line that the node begins in.
    fn indent_level(&self) -> IndentLevel {
        IndentLevel::from_node(self.syntax())
    }

    /// The node with its lines indented by this many levels more, as the root of a tree of its own. It panics where [`indent`] fails.
    fn indent(&self, level: IndentLevel) -> Self {
        view(indent(self.syntax(), level))
    }

    /// The node with its lines indented by this many levels less, as the root of a tree of its own.
    fn dedent(&self, level: IndentLevel) -> Self {
        view(dedent(self.syntax(), level))
    }

    /// The node as if the line that it begins in were not indented, as the root of a tree of its own.
    fn reset_indent(&self) -> Self {
        view(reset_indent(self.syntax()))
    }
}

impl<N: AstNode + Clone> AstNodeEdit for N {}

fn view<N: AstNode>(node: Result<SyntaxNode, ParseError>) -> N {
    node.ok().and_then(N::cast).expect("a shifted node keeps its kind, and its text has less than 2^32 bytes")
}
