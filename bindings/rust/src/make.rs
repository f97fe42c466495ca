//! Nodes from texts and from nodes: `make::expr_bin_op(&a, op, &b)`.
//!
//! Each call writes the text of a node, with the texts of the nodes that it is given, and parses it. The node is returned only if the text
//! has no errors, is exactly that node, and has each given node as a part where it was put: the same tree, in its place. So what is
//! returned reads as it was meant. It is the root of a tree of its own, which a [`SyntaxEditor`](crate::syntax_editor::SyntaxEditor) puts into
//! another; the given nodes may be of any trees. A call takes the time of a parse of the text; with operands that need parentheses, or an
//! expression with a `let`, of up to eight.
//!
//! An operand gets a pair of parentheses where it needs one:
//!
//! ```
//! use ras::ast::{self, ArithOp, BinaryOp};
//! use ras::make;
//!
//! let sum: ast::Expr = make::node("a + b")?;
//! let c: ast::Expr = make::node("c")?;
//! let product = make::expr_bin_op(&sum, BinaryOp::ArithOp(ArithOp::Mul), &c)?;
//! assert_eq!(product.to_string(), "(a + b) * c");
//! assert!(make::node::<ast::CallExpr>("a + b").is_err());
//! # Ok::<(), Box<dyn std::error::Error>>(())
//! ```
//!
//! The constructors have rust-analyzer's names. Texts are read in the newest edition.
mod control;
mod defs;
mod exprs;
mod forms;
mod generics;
mod items;
mod names;
mod pats;
mod places;
mod records;
pub mod tokens;
mod types;

pub use control::*;
pub use defs::*;
pub use exprs::*;
pub use forms::*;
pub use generics::*;
pub use items::*;
pub use names::*;
pub use pats::*;
pub use places::Place;
pub use records::*;
pub use types::*;

use crate::ast::{self, AstNode, UnaryOp};
use crate::syntax_editor::ChangeError;
use crate::{Edition, ParseError, SyntaxError, SyntaxKind, SyntaxNode, TextRange, TextSize, Tree};
use std::fmt;

/// Why no node is made of a text.
#[derive(Clone, Debug, PartialEq, Eq)]
pub enum MakeError {
    /// The text in its surroundings has errors: the first of them, at its range there.
    Syntax(SyntaxError),
    /// There are no errors, but no such node begins where the text begins and has exactly this text: as for `a + b` as a `CallExpr`, for
    /// two items, and for white space at an end of the text. Of a form also: a part is not found where it was put.
    NotOne,
    /// No node of this type is made from a text.
    NoPlace,
    /// The text with its surroundings has 2^32 bytes or more.
    TooLong,
    /// Out of memory.
    Memory,
}

impl fmt::Display for MakeError {
    fn fmt(&self, f: &mut fmt::Formatter<'_>) -> fmt::Result {
        match self {
            MakeError::Syntax(error) => error.fmt(f),
            MakeError::NotOne => f.write_str("the text is not one such node with these parts"),
            MakeError::NoPlace => f.write_str("no such node is made from a text"),
            MakeError::TooLong => f.write_str("the text is too long: it has 4294967296 bytes or more"),
            MakeError::Memory => f.write_str("out of memory"),
        }
    }
}

impl std::error::Error for MakeError {}

impl From<ParseError> for MakeError {
    fn from(error: ParseError) -> MakeError {
        match error {
            ParseError::TooLong => MakeError::TooLong,
            ParseError::Memory => MakeError::Memory,
        }
    }
}

/// The node of a text, as the root of a tree of its own: an expression, an item, a type, a pattern, a name, or nearly any other part.
///
/// ```
/// use ras::ast::{self, AstNode, HasName};
/// use ras::make;
///
/// let function: ast::Fn = make::node("fn f(a: u8) -> u8 { a }")?;
/// assert_eq!(function.name().unwrap().text(), "f");
/// assert_eq!(function.syntax().parent(), None);
/// # Ok::<(), make::MakeError>(())
/// ```
///
/// A text that reads otherwise in its place is tried in a second one, if the place has one: an expression with a `let` is made as a
/// condition, and a parameter without a type as one of a closure.
pub fn node<N: AstNode>(text: &str) -> Result<N, MakeError> {
    let row = places::PLACES.iter().find(|it| N::can_cast(it.0)).ok_or(MakeError::NoPlace)?;
    match (node_in(row.1, text), second(row.1)) {
        (Err(error @ (MakeError::Syntax(_) | MakeError::NotOne)), Some(place)) => match node_in(place, text) {
            Err(MakeError::Syntax(_) | MakeError::NotOne) => Err(error),
            made => made,
        },
        (made, _) => made,
    }
}

// Where a text is tried that reads otherwise in a place.
fn second(place: Place) -> Option<Place> {
    match place {
        Place::Expr => Some(Place::Condition),
        Place::Param => Some(Place::ClosureParam),
        _ => None,
    }
}

/// The node of a text at a place: the outermost node there that is exactly the text and can be an `N`.
pub fn node_in<N: AstNode>(place: Place, text: &str) -> Result<N, MakeError> {
    let tree = Tree::parse([place.before(), text, place.after()].concat(), Edition::CURRENT)?;
    if let Some(error) = tree.errors().first() {
        return Err(MakeError::Syntax(error.clone()));
    }
    let start = TextSize::of(place.before());
    let range = TextRange::at(start, TextSize::of(text));
    let mut nodes = tree.root().descendants();
    let there = nodes.find(|it| N::can_cast(it.kind()) && it.text_range() == range).ok_or(MakeError::NotOne)?;
    N::cast(there.owned().clone_subtree()).ok_or(MakeError::NotOne)
}

/// A piece of a form: a text, or a node of any tree.
#[derive(Clone, Copy, Debug)]
pub enum Piece<'a> {
    /// A fixed text.
    Text(&'a str),
    /// A node, by its text.
    Part(&'a SyntaxNode),
    /// The children of a node, by their texts, each child node as a part: for a node that becomes another one in its new place, as an arm
    /// with a comma behind it.
    Children(&'a SyntaxNode),
    /// An operand, by its text, in a pair of parentheses where it needs one: the first, or the only one.
    Left(&'a SyntaxNode),
    /// The second such operand.
    Right(&'a SyntaxNode),
}

/// Which operands of a form are in pairs of parentheses.
#[derive(Clone, Copy, Debug, PartialEq, Eq)]
pub enum Pairs {
    /// None.
    Neither,
    /// The first.
    Left,
    /// The second.
    Right,
    /// Both.
    Both,
}

/// The node of the pieces' texts with these pairs, if it has each part where it was put.
pub fn form_with<N: AstNode>(pairs: Pairs, pieces: &[Piece<'_>]) -> Result<N, MakeError> {
    let (mut text, mut parts) = (String::new(), Vec::<(usize, SyntaxNode, bool)>::new());
    for piece in pieces {
        let (node, is_operand, in_pair) = match *piece {
            Piece::Text(fixed) => {
                text.push_str(fixed);
                continue;
            }
            Piece::Children(node) => {
                let shift = |child: &SyntaxNode| usize::from(child.text_range().start() - node.text_range().start());
                parts.extend(node.children().map(|child| (text.len() + shift(&child), child, false)));
                text.push_str(node.text());
                continue;
            }
            Piece::Part(node) => (node, false, false),
            Piece::Left(node) => (node, true, matches!(pairs, Pairs::Left | Pairs::Both)),
            Piece::Right(node) => (node, true, matches!(pairs, Pairs::Right | Pairs::Both)),
        };
        text.push_str(if in_pair { "(" } else { "" });
        parts.push((text.len(), node.clone(), is_operand));
        text.push_str(node.text());
        text.push_str(if in_pair { ")" } else { "" });
    }
    let made: N = node(&text)?;
    let mut left = parts.iter().peekable();
    for node in made.syntax().descendants() {
        let is_here = left.peek().is_some_and(|(start, part, is_operand)| {
            let is_there = usize::from(node.text_range().start()) == *start && is_same_tree(&node, part);
            is_there && !(*is_operand && needs_pair(&node))
        });
        if is_here {
            left.next();
        }
    }
    if left.peek().is_none() { Ok(made) } else { Err(MakeError::NotOne) }
}

/// The node of the pieces' texts, with a pair of parentheses round an operand only where it needs one, or where the text without it reads
/// otherwise: the first of `Neither`, `Left`, `Right` and `Both` with which [`form_with`] makes the node.
///
/// The error is that of the text without pairs, if the text reads otherwise with any pairs.
pub fn form<N: AstNode>(pieces: &[Piece<'_>]) -> Result<N, MakeError> {
    let mut first = None;
    for pairs in [Pairs::Neither, Pairs::Left, Pairs::Right, Pairs::Both] {
        match form_with(pairs, pieces) {
            Err(error @ (MakeError::Syntax(_) | MakeError::NotOne)) => first = first.or(Some(error)),
            made => return made,
        }
    }
    Err(first.unwrap_or(MakeError::NotOne))
}

// Whether two nodes have the same subtree: kinds, shape and text.
fn is_same_tree(one: &SyntaxNode, other: &SyntaxNode) -> bool {
    let moved = |node: &SyntaxNode| {
        let (tree, first) = (node.tree().clone(), node.row() as u32);
        let start = tree.start_of(first);
        (first..tree.end_of(first)).map(move |row| {
            let kind = (tree.kind_of(row), tree.is_token(row));
            (kind, tree.start_of(row) - start, tree.end_of(row) - first)
        })
    };
    one.kind() == other.kind() && one.text() == other.text() && moved(one).eq(moved(other))
}

// Whether a node needs a pair of parentheses below its parent.
fn needs_pair(node: &SyntaxNode) -> bool {
    let expr = ast::Expr::cast(node.clone());
    expr.zip(node.parent()).is_some_and(|(expr, parent)| expr.needs_parens_in(&parent))
}

// Pieces that are collected.
#[derive(Default)]
struct Pieces<'p>(Vec<Piece<'p>>);

impl<'p> Pieces<'p> {
    fn text(&mut self, text: &'p str) {
        self.0.push(Piece::Text(text));
    }

    fn part(&mut self, node: &'p impl AstNode) {
        self.0.push(Piece::Part(node.syntax()));
    }

    fn left(&mut self, node: &'p impl AstNode) {
        self.0.push(Piece::Left(node.syntax()));
    }

    // A node behind a text, if there is one.
    fn optional(&mut self, before: &'p str, node: Option<&'p impl AstNode>) {
        if let Some(node) = node {
            self.text(before);
            self.part(node);
        }
    }

    // Nodes, each between two texts.
    fn each(&mut self, before: &'p str, nodes: &'p [impl AstNode], after: &'p str) {
        for node in nodes {
            self.text(before);
            self.part(node);
            self.text(after);
        }
    }

    // Nodes with a text between any two.
    fn separated(&mut self, nodes: &'p [impl AstNode], between: &'p str) {
        for (number, node) in nodes.iter().enumerate() {
            self.text(if number > 0 { between } else { "" });
            self.part(node);
        }
    }

    // A visibility, with a blank behind it.
    fn visibility(&mut self, visibility: Option<&'p ast::Visibility>) {
        self.optional("", visibility);
        self.text(if visibility.is_some() { " " } else { "" });
    }

    // Items between braces, a line for each.
    fn braced(&mut self, items: &'p [impl AstNode]) {
        self.text("{");
        self.each("\n    ", items, "");
        self.text(if items.is_empty() { "}" } else { "\n}" });
    }

    // Arms, a line for each, with a comma behind each that needs one and has none.
    fn arms(&mut self, arms: &'p [ast::MatchArm]) {
        for arm in arms {
            let lacks = arm.comma_token().is_none() && !arm.expr().is_some_and(|it| it.is_block_like());
            self.text("    ");
            self.0.push(part_unless(lacks, arm.syntax()));
            self.text(text_if(lacks, ","));
            self.text("\n");
        }
    }

    // Statements, each behind a newline and four blanks; the last one may be the value of the block.
    fn stmts(&mut self, has_value: bool, stmts: &'p [ast::Stmt]) {
        for (number, stmt) in stmts.iter().enumerate() {
            let is_value = number + 1 == stmts.len() && !has_value && is_bare(stmt);
            self.text("\n    ");
            self.0.push(part_unless(is_value, stmt.syntax()));
        }
    }

    // Nodes with a text between any two, the first one by its children if it changes.
    fn leading(&mut self, changes: bool, nodes: &'p [impl AstNode], between: &'p str) {
        for (number, node) in nodes.iter().enumerate() {
            self.text(if number > 0 { between } else { "" });
            self.0.push(part_unless(changes && number == 0, node.syntax()));
        }
    }

    fn made<N: AstNode>(&self) -> Result<N, MakeError> {
        form(&self.0)
    }
}

// A part of a node that was made, as the root of a tree of its own.
fn part_of<N: AstNode>(part: Option<N>) -> Result<N, MakeError> {
    let part = part.ok_or(MakeError::NotOne)?;
    N::cast(part.syntax().clone_subtree()).ok_or(MakeError::NotOne)
}

// A node by its children, if it becomes another one where it is put; otherwise as a part.
fn part_unless(changes: bool, node: &SyntaxNode) -> Piece<'_> {
    if changes { Piece::Children(node) } else { Piece::Part(node) }
}

// Whether a statement is an expression without a `;`.
fn is_bare(stmt: &ast::Stmt) -> bool {
    matches!(stmt, ast::Stmt::ExprStmt(it) if it.semicolon_token().is_none())
}

// The text, if it is wanted.
fn text_if(wanted: bool, text: &'static str) -> &'static str {
    if wanted { text } else { "" }
}

fn space(is_newline: bool) -> &'static str {
    if is_newline { "\n" } else { " " }
}

// What stands before a block behind a node: a newline if the node has one, and else a blank.
fn block_space(behind: &SyntaxNode) -> &'static str {
    space(behind.text().contains('\n'))
}

// Whether an expression ends in a block, so that no `,` or `;` need follow it.
fn ends_itself(expr: &ast::Expr) -> bool {
    expr.is_block_like()
}

// What stands before the body of an arm.
fn arm_space(guard: Option<&ast::MatchGuard>, body: &ast::Expr) -> &'static str {
    space(ends_itself(body) && guard.is_some_and(|it| it.syntax().text().contains('\n')))
}

// A path as a pattern: by its text if that is one name, and otherwise as a part.
fn pat_piece(path: &SyntaxNode) -> Piece<'_> {
    let is_name = path.first_token().is_some_and(|it| it.kind() == SyntaxKind::IDENT && it.text() == path.text());
    if is_name { Piece::Text(path.text()) } else { Piece::Part(path) }
}

// `r#`, if a word can be a name only behind it.
fn raw_prefix(text: &str) -> &'static str {
    text_if(crate::utils::is_raw_identifier(text, Edition::CURRENT), "r#")
}

fn prefix_text(op: UnaryOp) -> &'static str {
    match op {
        UnaryOp::Deref => "*",
        UnaryOp::Not => "!",
        UnaryOp::Neg => "-",
    }
}

/// A tree with an expression in the place of another.
#[derive(Clone, Debug)]
pub struct Replaced {
    /// The root of the new tree.
    pub root: SyntaxNode,
    /// Whether the expression was put into a pair of parentheses.
    pub in_pair: bool,
}

/// Why an expression is not put into the place of another.
#[derive(Clone, Copy, Debug, PartialEq, Eq)]
pub enum ReplaceExprError {
    /// The text parses to another tree than that which is meant, also with a pair of parentheses.
    ReadsOtherwise,
    /// The new text would have 2^32 bytes or more.
    TooLong,
    /// Out of memory.
    Memory,
}

impl fmt::Display for ReplaceExprError {
    fn fmt(&self, f: &mut fmt::Formatter<'_>) -> fmt::Result {
        f.write_str(match self {
            ReplaceExprError::ReadsOtherwise => "the new text reads otherwise",
            ReplaceExprError::TooLong => "the new text is too long: it has 4294967296 bytes or more",
            ReplaceExprError::Memory => "out of memory",
        })
    }
}

impl std::error::Error for ReplaceExprError {}

impl From<ParseError> for ReplaceExprError {
    fn from(error: ParseError) -> ReplaceExprError {
        match error {
            ParseError::TooLong => ReplaceExprError::TooLong,
            ParseError::Memory => ReplaceExprError::Memory,
        }
    }
}

impl From<ChangeError> for ReplaceExprError {
    fn from(_: ChangeError) -> ReplaceExprError {
        ReplaceExprError::TooLong
    }
}

// Whether the text of a tree parses to the tree: as a file, or as an expression.
fn reads(root: &SyntaxNode) -> Result<bool, ParseError> {
    let edition = root.tree().edition();
    if root.kind() == SyntaxKind::SOURCE_FILE {
        return Ok(is_same_tree(&Tree::parse(root.text(), edition)?.syntax_node(), root));
    }
    let tree = Tree::parse([Place::Expr.before(), root.text(), Place::Expr.after()].concat(), edition)?;
    let range = TextRange::at(TextSize::of(Place::Expr.before()), TextSize::of(root.text()));
    Ok(tree.root().descendants().any(|it| it.text_range() == range && is_same_tree(&it.owned(), root)))
}

/// The tree of `old` with the expression `new` in its place, in a pair of parentheses where it needs one by
/// [`needs_parens_in_place_of`](ast::Expr::needs_parens_in_place_of), or where the text would otherwise read as another tree. The new text is
/// parsed, and a tree is returned only where it is the parse of its text; errors are not compared, so both trees may have some.
///
/// It takes the time of at most two parses of the new text.
///
/// ```
/// use ras::ast::{self, AstNode};
/// use ras::{Edition, SourceFile, make};
///
/// let file = SourceFile::parse("fn f() { x * 2; g(x) }", Edition::CURRENT).tree();
/// let uses: Vec<_> = file.syntax().descendants().filter(|it| it.text() == "x").filter_map(ast::Expr::cast).collect();
/// let sum: ast::Expr = make::node("a + b")?;
/// let first = make::replace_expr(&uses[0], &sum)?;
/// assert_eq!((first.root.text(), first.in_pair), ("fn f() { (a + b) * 2; g(x) }", true));
/// assert!(!make::replace_expr(&uses[1], &sum)?.in_pair);
/// # Ok::<(), Box<dyn std::error::Error>>(())
/// ```
pub fn replace_expr(old: &ast::Expr, new: &ast::Expr) -> Result<Replaced, ReplaceExprError> {
    let place = old.syntax();
    let needs_pair = place.parent().is_some_and(|parent| new.needs_parens_in_place_of(&parent, place));
    if !needs_pair {
        let root = place.replace_with(new.syntax())?;
        if reads(&root)? {
            return Ok(Replaced { root, in_pair: false });
        }
    }
    let pair = in_pair(new)?;
    let root = place.replace_with(&pair)?;
    if reads(&root)? { Ok(Replaced { root, in_pair: true }) } else { Err(ReplaceExprError::ReadsOtherwise) }
}

/// A pair of parentheses round an expression, as the root of a tree of its own: what a
/// [`SyntaxEditor`](crate::syntax_editor::SyntaxEditor) takes for an expression that needs one.
pub fn in_pair(inside: &ast::Expr) -> Result<SyntaxNode, ReplaceExprError> {
    let pair: ast::ParenExpr = node("(x)").map_err(|_| ReplaceExprError::Memory)?;
    let hole = pair.expr().ok_or(ReplaceExprError::Memory)?;
    Ok(hole.syntax().replace_with(inside.syntax())?)
}
