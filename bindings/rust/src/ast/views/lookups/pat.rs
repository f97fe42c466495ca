//! Lookups in patterns. Written by bindings/make.
use crate::ast::macros::*;
use crate::ast::views::*;
use crate::ast::{AstChildren, AstNode, support};
use crate::SyntaxKind;
use crate::node::Node;

calls! {
    BoxPat:
    leaf box_token: BOX_KW = "Example: `box` of `box p`.",
    first pat: Pat = "Example: `p` of `box p`.",
}

calls! {
    ConstBlockPat:
    first block_expr: BlockExpr = "Example: `{ b }` of `const { b }`.",
    leaf const_token: CONST_KW = "Example: `const` of `const { b }`.",
}

calls! {
    IdentPat:
    leaf at_token: AT = "Example: `@` of `ref mut x @ p`.",
    leaf mut_token: MUT_KW = "Example: `mut` of `ref mut x @ p`.",
    first pat: Pat = "Example: `p` of `ref mut x @ p`.",
    leaf ref_token: REF_KW = "Example: `ref` of `ref mut x @ p`.",
}

calls! {
    LiteralPat:
    first literal: Literal = "Example: `1` of `-1`.",
    leaf minus_token: MINUS = "Example: `-` of `-1`.",
}

calls! {
    MacroPat:
    first macro_call: MacroCall = "Example: `m!(a)` of `m!(a)`.",
}

calls! {
    OrPat:
    all pats: Pat = "Example: `p` and `q` of `p | q`.",
    leaf pipe_token: PIPE = "Example: `|` of `p | q`.",
}

calls! {
    ParenPat:
    leaf l_paren_token: L_PAREN = "Example: `(` of `(p)`.",
    first pat: Pat = "Example: `p` of `(p)`.",
    leaf r_paren_token: R_PAREN = "Example: `)` of `(p)`.",
}

calls! {
    PathPat:
    first path: Path = "Example: `a::b` of `a::b`.",
}

calls! {
    RecordPat:
    first path: Path = "Example: `S` of `S { f: p, .. }`.",
    first record_pat_field_list: RecordPatFieldList = "Example: `{ f: p, .. }` of `S { f: p, .. }`.",
}

calls! {
    RecordPatField:
    leaf colon_token: COLON = "Example: `:` of `f: p`.",
    first name_ref: NameRef = "Example: `f` of `f: p`.",
    first pat: Pat = "Example: `p` of `f: p`.",
}

calls! {
    RecordPatFieldList:
    all fields: RecordPatField = "Example: `f: p` of `{ f: p, .. }`.",
    leaf l_curly_token: L_CURLY = "Example: `{` of `{ f: p, .. }`.",
    leaf r_curly_token: R_CURLY = "Example: `}` of `{ f: p, .. }`.",
    first rest_pat: RestPat = "Example: `..` of `{ f: p, .. }`.",
}

calls! {
    RefPat:
    leaf amp_token: AMP = "Example: `&` of `&mut p`.",
    leaf mut_token: MUT_KW = "Example: `mut` of `&mut p`.",
    first pat: Pat = "Example: `p` of `&mut p`.",
}

calls! {
    RestPat:
    leaf dotdot_token: DOT2 = "Example: `..` of `..`.",
}

calls! {
    SlicePat:
    leaf l_brack_token: L_BRACK = "Example: `[` of `[p, q]`.",
    all pats: Pat = "Example: `p` and `q` of `[p, q]`.",
    leaf r_brack_token: R_BRACK = "Example: `]` of `[p, q]`.",
}

calls! {
    TuplePat:
    all fields: Pat = "Example: `p` and `q` of `(p, q)`.",
    leaf l_paren_token: L_PAREN = "Example: `(` of `(p, q)`.",
    leaf r_paren_token: R_PAREN = "Example: `)` of `(p, q)`.",
}

calls! {
    TupleStructPat:
    all fields: Pat = "Example: `p` and `q` of `S(p, q)`.",
    leaf l_paren_token: L_PAREN = "Example: `(` of `S(p, q)`.",
    first path: Path = "Example: `S` of `S(p, q)`.",
    leaf r_paren_token: R_PAREN = "Example: `)` of `S(p, q)`.",
}

calls! {
    WildcardPat:
    leaf underscore_token: UNDERSCORE = "Example: `_` of `_`.",
}
