//! Lossless syntax trees for Rust, over a parser of which each function is proved.
//!
//! [`SourceFile::parse`] reads a text, with the names of rust-analyzer's crate: [`SyntaxNode`], [`SyntaxToken`], [`ast`], [`algo`],
//! [`SyntaxNodePtr`]. [`Tree::parse`] reads one too, and returns an error if it has no tree. There is a tree whatever the text is, each
//! byte of the text is in one token of it, and [`Tree::errors`] lists what is wrong.
//!
//! Nodes own a share of their tree, or borrow it: [`NodeRef`] is for fast walks.
//!
//! ```
//! use ras::{Edition, SyntaxKind, Tree};
//!
//! let tree = Tree::parse("fn main() { let x = (1 + 2) * 3; }", Edition::CURRENT)?;
//! assert!(tree.errors().is_empty());
//! let sum = tree.root().descendants().find(|it| it.text() == "1 + 2").unwrap();
//! assert_eq!(sum.kind(), SyntaxKind::BIN_EXPR);
//! assert_eq!(sum.parent().unwrap().kind(), SyntaxKind::PAREN_EXPR);
//! # Ok::<(), ras::ParseError>(())
//! ```
//!
//! [`Live`] is a text that is edited.
//!
//! What is proved is the library beneath, `crates/ras_c` of the repository: that the rows are those of the tree that the proved
//! parser makes of the text, and that an edit is that of `Parse::reparse`. This crate, which reads the rows, is tested, not proved.
pub mod algo;
pub mod ast;
mod either;
mod element;
mod escape;
pub mod hacks;
mod held;
mod iter;
mod kind;
mod kinds;
mod line_index;
mod live;
pub mod make;
mod node;
mod parse;
mod ptr;
mod range;
mod rules;
mod smol_str;
mod splice;
mod stored;
pub mod syntax_editor;
mod syntax_text;
mod text_edit;
mod tree;
mod tree_builder;
pub mod unescape;
pub mod utils;
mod values;
mod version;
mod violations;

pub use ast::{AstNode, AstToken, SourceFile};
pub use either::Either;
pub use element::{Direction, NodeOrToken};
pub use escape::EscapeError;
pub use iter::{Children, ChildrenWithTokens, Descendants, DescendantsWithTokens, Preorder, PreorderWithTokens, TokenAtOffset, WalkEvent};
pub use kind::SyntaxKind;
pub use line_index::{LineCol, LineIndex, WideEncoding, WideLineCol};
pub use live::{EditError, Live};
pub use node::{ElementRef, Node, NodeRef, SyntaxElement, SyntaxNode, SyntaxToken, Token, TokenRef};
pub use parse::Parse;
pub use ptr::{AstPtr, SyntaxNodePtr};
pub use range::{TextLen, TextRange, TextSize};
pub use ras_sys::FlatRow;
pub use rules::{Match, RewriteError, RuleError, Rules, SearchError, rewrite};
pub use smol_str::{SmolStr, SmolStrBuilder, ToSmolStr};
pub use syntax_text::SyntaxText;
pub use text_edit::{ApplyError, Indel, OverlapError, TextEdit};
pub use tree_builder::SyntaxTreeBuilder;
pub use tree::{Edition, Entry, Errors, ParseEditionError, ParseError, SyntaxError, Tree};

/// The children of a node, by the name that rust-analyzer's crate has for them.
pub type SyntaxNodeChildren = Children<SyntaxNode>;
/// The children of a node, tokens too, by the name that rust-analyzer's crate has for them.
pub type SyntaxElementChildren = ChildrenWithTokens<SyntaxNode>;

/// The text of a token, by the name that rust-analyzer's crate has for it.
pub type TokenText<'t> = &'t str;

/// A `match` by the types that a node may have, in order: `match_ast!(match node { ast::Fn(it) => .., _ => .. })`. An arm may have a
/// condition, as `ast::Fn(it) if it.body().is_some() => ..`, and ends with a comma.
///
/// ```
/// use ras::ast::{self, AstNode, HasName};
/// use ras::{Edition, SourceFile, match_ast};
///
/// let file = SourceFile::parse("struct S; fn f() {}", Edition::CURRENT).tree();
/// let named = file.syntax().children().filter_map(|node| {
///     match_ast! {
///         match node {
///             ast::Fn(it) => it.name(),
///             ast::Struct(it) => it.name(),
///             _ => None,
///         }
///     }
/// });
/// assert_eq!(named.map(|it| it.to_string()).collect::<Vec<_>>(), ["S", "f"]);
/// ```
#[macro_export]
macro_rules! match_ast {
    (match $node:ident { $($arms:tt)* }) => { $crate::match_ast!(match ($node) { $($arms)* }) };
    (match ($node:expr) { $($($path:ident)::+ ($it:pat) => $result:expr,)* _ => $other:expr $(,)? }) => {{
        $(if let Some($it) = $($path::)+cast($node.clone()) { $result } else)*
        { $other }
    }};
    // With a condition somewhere: arm by arm.
    (match ($node:expr) { $($path:ident)::+ ($it:pat) $(if $condition:expr)? => $result:expr, $($left:tt)* }) => {
        match $($path::)+cast($node.clone()) {
            Some($it) $(if $condition)? => $result,
            _ => $crate::match_ast!(match ($node) { $($left)* }),
        }
    };
}
