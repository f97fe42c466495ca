//! Lookups in parts of items. Written by bindings/make.
use crate::ast::macros::*;
use crate::ast::views::*;
use crate::ast::{AstChildren, AstNode, support};
use crate::SyntaxKind;
use crate::node::Node;

calls! {
    Abi:
    leaf extern_token: EXTERN_KW = "Example: `extern` of `extern \"C\"`.",
    leaf string_token: STRING = "Example: `\"C\"` of `extern \"C\"`.",
}

calls! {
    AssocItemList:
    all assoc_items: AssocItem = "Example: `fn f() {}` of `{ fn f() {} }`.",
    leaf l_curly_token: L_CURLY = "Example: `{` of `{ fn f() {} }`.",
    leaf r_curly_token: R_CURLY = "Example: `}` of `{ fn f() {} }`.",
}

calls! {
    ExternItemList:
    all extern_items: ExternItem = "Example: `fn f();` of `{ fn f(); }`.",
    leaf l_curly_token: L_CURLY = "Example: `{` of `{ fn f(); }`.",
    leaf r_curly_token: R_CURLY = "Example: `}` of `{ fn f(); }`.",
}

calls! {
    ItemList:
    leaf l_curly_token: L_CURLY = "Example: `{` of `{ fn f() {} }`.",
    leaf r_curly_token: R_CURLY = "Example: `}` of `{ fn f() {} }`.",
}

calls! {
    MacroStmts:
    first expr: Expr = "",
    all statements: Stmt = "",
}

calls! {
    Param:
    leaf colon_token: COLON = "Example: `:` of `a: T`.",
    leaf dotdotdot_token: DOT3 = "Example: `...` of `...`.",
    first pat: Pat = "Example: `a` of `a: T`.",
    first ty: Type = "Example: `T` of `a: T`.",
}

calls! {
    ParamList:
    leaf comma_token: COMMA = "Example: `,` of `(self, a: T, b: U)`.",
    leaf l_paren_token: L_PAREN = "Example: `(` of `(self, a: T, b: U)`.",
    all params: Param = "Example: `a: T` and `b: U` of `(self, a: T, b: U)`.",
    leaf pipe_token: PIPE = "Example: `|` of `|a, b|`.",
    leaf r_paren_token: R_PAREN = "Example: `)` of `(self, a: T, b: U)`.",
    first self_param: SelfParam = "Example: `self` of `(self, a: T, b: U)`.",
}

calls! {
    RecordField:
    leaf colon_token: COLON = "Example: `:` of `f: T = 1`.",
    first default_val: ConstArg = "Example: `1` of `f: T = 1`.",
    leaf eq_token: EQ = "Example: `=` of `f: T = 1`.",
    first ty: Type = "Example: `T` of `f: T = 1`.",
    leaf unsafe_token: UNSAFE_KW = "Example: `unsafe` of `unsafe f: T`.",
}

calls! {
    RecordFieldList:
    all fields: RecordField = "Example: `f: T` and `g: U` of `{ f: T, g: U }`.",
    leaf l_curly_token: L_CURLY = "Example: `{` of `{ f: T, g: U }`.",
    leaf r_curly_token: R_CURLY = "Example: `}` of `{ f: T, g: U }`.",
}

calls! {
    SelfParam:
    leaf amp_token: AMP = "Example: `&` of `&'a mut self`.",
    leaf colon_token: COLON = "Example: `:` of `self: T`.",
    first lifetime: Lifetime = "Example: `'a` of `&'a mut self`.",
    leaf mut_token: MUT_KW = "Example: `mut` of `&'a mut self`.",
    first ty: Type = "Example: `T` of `self: T`.",
}

calls! {
    TupleField:
    first ty: Type = "Example: `T` of `T`.",
}

calls! {
    TupleFieldList:
    all fields: TupleField = "Example: `T` and `U` of `(T, U)`.",
    leaf l_paren_token: L_PAREN = "Example: `(` of `(T, U)`.",
    leaf r_paren_token: R_PAREN = "Example: `)` of `(T, U)`.",
}

calls! {
    UseTree:
    leaf coloncolon_token: COLON2 = "Example: `::` of `a::{b, c}`.",
    first path: Path = "Example: `a` of `a::{b, c}`.",
    first rename: Rename = "Example: `as b` of `a as b`.",
    leaf star_token: STAR = "Example: `*` of `a::*`.",
    first use_tree_list: UseTreeList = "Example: `{b, c}` of `a::{b, c}`.",
}

calls! {
    UseTreeList:
    leaf l_curly_token: L_CURLY = "Example: `{` of `{b, c}`.",
    leaf r_curly_token: R_CURLY = "Example: `}` of `{b, c}`.",
    all use_trees: UseTree = "Example: `b` and `c` of `{b, c}`.",
}

calls! {
    Variant:
    first const_arg: ConstArg = "Example: `1` of `A = 1`.",
    leaf eq_token: EQ = "Example: `=` of `A = 1`.",
    first field_list: FieldList = "Example: `(T)` of `A(T)`.",
}

calls! {
    Visibility:
    leaf pub_token: PUB_KW = "Example: `pub` of `pub(in a)`.",
    first visibility_inner: VisibilityInner = "Example: `(in a)` of `pub(in a)`.",
}

calls! {
    VisibilityInner:
    leaf in_token: IN_KW = "Example: `in` of `(in a)`.",
    leaf l_paren_token: L_PAREN = "Example: `(` of `(in a)`.",
    first path: Path = "Example: `a` of `(in a)`.",
    leaf r_paren_token: R_PAREN = "Example: `)` of `(in a)`.",
}
