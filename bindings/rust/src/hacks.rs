//! Shortcuts that rust-analyzer's crate has by this name.
use crate::ast::{AstNode, Expr};
use crate::tree::{Edition, Tree};

/// The expression that a text is, without the white space around it; `None` if it is none. It may have errors inside.
///
/// ```
/// use ras::ast::Expr;
/// use ras::{Edition, hacks};
///
/// assert!(matches!(hacks::parse_expr_from_str(" a + b ", Edition::CURRENT), Some(Expr::BinExpr(_))));
/// assert_eq!(hacks::parse_expr_from_str("let a = b;", Edition::CURRENT), None);
/// ```
pub fn parse_expr_from_str(text: &str, edition: Edition) -> Option<Expr> {
    Expr::cast(Tree::parse_expr(text.trim(), edition).ok()?.syntax_node())
}
