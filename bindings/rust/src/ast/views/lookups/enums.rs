//! Lookups in the nodes of enums. Written by bindings/make.
use crate::ast::macros::*;
use crate::ast::views::*;
use crate::ast::{AstNode, support};
use crate::SyntaxKind;
use crate::node::Node;

calls! {
    Meta:
    leaf eq_token: EQ = "Example: `=` of `a = b`.",
    first expr: Expr = "Example: `b` of `a = b`.",
    leaf l_paren_token: L_PAREN = "Example: `(` of `unsafe(m)`.",
    leaf r_paren_token: R_PAREN = "Example: `)` of `unsafe(m)`.",
    first token_tree: TokenTree = "Example: `(b)` of `a(b)`.",
    leaf unsafe_token: UNSAFE_KW = "Example: `unsafe` of `unsafe(m)`.",
}
