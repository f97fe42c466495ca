//! Lookups in paths and names. Written by bindings/make.
use crate::ast::macros::*;
use crate::ast::views::*;
use crate::ast::{AstChildren, AstNode, support};
use crate::SyntaxKind;
use crate::node::Node;

calls! {
    Lifetime:
    leaf lifetime_ident_token: LIFETIME_IDENT = "Example: `'a` of `'a`.",
}

calls! {
    Name:
    leaf ident_token: IDENT = "Example: `f` of `f`.",
    leaf self_token: SELF_KW = "Example: `self` of `self`.",
}

calls! {
    NameRef:
    leaf crate_token: CRATE_KW = "Example: `crate` of `crate`.",
    leaf ident_token: IDENT = "Example: `a` of `a`.",
    leaf int_number_token: INT_NUMBER = "Example: `0` of `0`.",
    leaf self_token: SELF_KW = "Example: `self` of `self`.",
    leaf self_type_token: SELF_TYPE_KW = "Example: `Self` of `Self`.",
    leaf super_token: SUPER_KW = "Example: `super` of `super`.",
}

calls! {
    ParenthesizedArgList:
    leaf coloncolon_token: COLON2 = "Example: `::` of `::(T, U)`.",
    leaf l_paren_token: L_PAREN = "Example: `(` of `::(T, U)`.",
    leaf r_paren_token: R_PAREN = "Example: `)` of `::(T, U)`.",
    all type_args: TypeArg = "Example: `T` and `U` of `::(T, U)`.",
}

calls! {
    Path:
    leaf coloncolon_token: COLON2 = "Example: `::` of `a::b`.",
    first qualifier: Path = "Example: `a` of `a::b`.",
    first segment: PathSegment = "Example: `b` of `a::b`.",
}

calls! {
    PathSegment:
    leaf coloncolon_token: COLON2 = "Example: `::` of `::a`.",
    first name_ref: NameRef = "Example: `a` of `::a`.",
    first parenthesized_arg_list: ParenthesizedArgList = "Example: `(T)` of `Fn(T) -> U`.",
    first ret_type: RetType = "Example: `-> U` of `Fn(T) -> U`.",
    first return_type_syntax: ReturnTypeSyntax = "Example: `(..)` of `f(..)`.",
    first type_anchor: TypeAnchor = "Example: `<T as U>` of `<T as U>`.",
}

calls! {
    ReturnTypeSyntax:
    leaf dotdot_token: DOT2 = "Example: `..` of `(..)`.",
    leaf l_paren_token: L_PAREN = "Example: `(` of `(..)`.",
    leaf r_paren_token: R_PAREN = "Example: `)` of `(..)`.",
}

calls! {
    TypeAnchor:
    leaf as_token: AS_KW = "Example: `as` of `<T as U>`.",
    leaf l_angle_token: L_ANGLE = "Example: `<` of `<T as U>`.",
    first path_type: PathType = "Example: `T` of `<T as U>`.",
    leaf r_angle_token: R_ANGLE = "Example: `>` of `<T as U>`.",
    first ty: Type = "Example: `T` of `<T as U>`.",
}
