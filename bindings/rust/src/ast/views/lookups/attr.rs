//! Lookups in attributes and doc comments. Written by bindings/make.
use crate::ast::macros::*;
use crate::ast::views::*;
use crate::ast::{AstChildren, AstNode, support};
use crate::SyntaxKind;
use crate::node::Node;

calls! {
    Attr:
    leaf excl_token: BANG = "Example: `!` of `#![a]`.",
    leaf l_brack_token: L_BRACK = "Example: `[` of `#[a]`.",
    first meta: Meta = "Example: `a` of `#[a]`.",
    leaf pound_token: POUND = "Example: `#` of `#[a]`.",
    leaf r_brack_token: R_BRACK = "Example: `]` of `#[a]`.",
}

calls! {
    CfgAtom:
    leaf false_token: FALSE_KW = "Example: `false` of `false`.",
    leaf ident_token: IDENT = "Example: `a` of `a`.",
    leaf true_token: TRUE_KW = "Example: `true` of `true`.",
}

calls! {
    CfgAttrMeta:
    leaf comma_token: COMMA = "Example: `,` of `cfg_attr(p, m)`.",
    leaf l_paren_token: L_PAREN = "Example: `(` of `cfg_attr(p, m)`.",
    all metas: Meta = "Example: `m` of `cfg_attr(p, m)`.",
    leaf r_paren_token: R_PAREN = "Example: `)` of `cfg_attr(p, m)`.",
}

calls! {
    CfgMeta:
    leaf l_paren_token: L_PAREN = "Example: `(` of `cfg(p)`.",
    leaf r_paren_token: R_PAREN = "Example: `)` of `cfg(p)`.",
}

calls! {
    DocComment:
    leaf inner_doc_comment_token: INNER_DOC_COMMENT = "Example: `//! a` of `//! a`.",
    leaf outer_doc_comment_token: OUTER_DOC_COMMENT = "Example: `/// a` of `/// a`.",
}

calls! {
    KeyValueMeta:
    leaf eq_token: EQ = "Example: `=` of `a = b`.",
    first expr: Expr = "Example: `b` of `a = b`.",
    first path: Path = "Example: `a` of `a = b`.",
}

calls! {
    PathMeta:
    first path: Path = "Example: `a::b` of `a::b`.",
}

calls! {
    TokenTree:
    leaf l_brack_token: L_BRACK = "Example: `[` of `[a]`.",
    leaf l_curly_token: L_CURLY = "Example: `{` of `{a}`.",
    leaf l_paren_token: L_PAREN = "Example: `(` of `(a)`.",
    leaf r_brack_token: R_BRACK = "Example: `]` of `[a]`.",
    leaf r_curly_token: R_CURLY = "Example: `}` of `{a}`.",
    leaf r_paren_token: R_PAREN = "Example: `)` of `(a)`.",
}

calls! {
    TokenTreeMeta:
    first path: Path = "Example: `a` of `a(b)`.",
    first token_tree: TokenTree = "Example: `(b)` of `a(b)`.",
}

calls! {
    UnsafeMeta:
    leaf l_paren_token: L_PAREN = "Example: `(` of `unsafe(m)`.",
    first meta: Meta = "Example: `m` of `unsafe(m)`.",
    leaf r_paren_token: R_PAREN = "Example: `)` of `unsafe(m)`.",
    leaf unsafe_token: UNSAFE_KW = "Example: `unsafe` of `unsafe(m)`.",
}
