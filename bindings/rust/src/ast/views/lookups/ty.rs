//! Lookups in types. Written by bindings/make.
use crate::ast::macros::*;
use crate::ast::views::*;
use crate::ast::{AstChildren, AstNode, support};
use crate::SyntaxKind;
use crate::node::Node;

calls! {
    ArrayType:
    first const_arg: ConstArg = "Example: `1` of `[T; 1]`.",
    leaf l_brack_token: L_BRACK = "Example: `[` of `[T; 1]`.",
    leaf r_brack_token: R_BRACK = "Example: `]` of `[T; 1]`.",
    leaf semicolon_token: SEMICOLON = "Example: `;` of `[T; 1]`.",
    first ty: Type = "Example: `T` of `[T; 1]`.",
}

calls! {
    DynTraitType:
    leaf dyn_token: DYN_KW = "Example: `dyn` of `dyn T + U`.",
    first type_bound_list: TypeBoundList = "Example: `T + U` of `dyn T + U`.",
}

calls! {
    FnPtrType:
    first abi: Abi = "Example: `extern \"C\"` of `unsafe extern \"C\" fn(T) -> U`.",
    leaf async_token: ASYNC_KW = "",
    leaf const_token: CONST_KW = "",
    leaf fn_token: FN_KW = "Example: `fn` of `unsafe extern \"C\" fn(T) -> U`.",
    first param_list: ParamList = "Example: `(T)` of `unsafe extern \"C\" fn(T) -> U`.",
    first ret_type: RetType = "Example: `-> U` of `unsafe extern \"C\" fn(T) -> U`.",
    leaf unsafe_token: UNSAFE_KW = "Example: `unsafe` of `unsafe extern \"C\" fn(T) -> U`.",
}

calls! {
    ForType:
    first for_binder: ForBinder = "Example: `for<'a>` of `for<'a> fn(&'a T)`.",
    first ty: Type = "Example: `fn(&'a T)` of `for<'a> fn(&'a T)`.",
}

calls! {
    ImplTraitType:
    leaf impl_token: IMPL_KW = "Example: `impl` of `impl T + U`.",
    first type_bound_list: TypeBoundList = "Example: `T + U` of `impl T + U`.",
}

calls! {
    InferType:
    leaf underscore_token: UNDERSCORE = "Example: `_` of `_`.",
}

calls! {
    MacroType:
    first macro_call: MacroCall = "Example: `m!(a)` of `m!(a)`.",
}

calls! {
    NeverType:
    leaf excl_token: BANG = "Example: `!` of `!`.",
}

calls! {
    ParenType:
    leaf l_paren_token: L_PAREN = "Example: `(` of `(T)`.",
    leaf r_paren_token: R_PAREN = "Example: `)` of `(T)`.",
    first ty: Type = "Example: `T` of `(T)`.",
}

calls! {
    PathType:
    first path: Path = "Example: `a::T` of `a::T`.",
}

calls! {
    PtrType:
    leaf const_token: CONST_KW = "Example: `const` of `*const T`.",
    leaf mut_token: MUT_KW = "Example: `mut` of `*mut T`.",
    leaf star_token: STAR = "Example: `*` of `*const T`.",
    first ty: Type = "Example: `T` of `*const T`.",
}

calls! {
    RefType:
    leaf amp_token: AMP = "Example: `&` of `&'a mut T`.",
    first lifetime: Lifetime = "Example: `'a` of `&'a mut T`.",
    leaf mut_token: MUT_KW = "Example: `mut` of `&'a mut T`.",
    first ty: Type = "Example: `T` of `&'a mut T`.",
}

calls! {
    RetType:
    leaf thin_arrow_token: THIN_ARROW = "Example: `->` of `-> T`.",
    first ty: Type = "Example: `T` of `-> T`.",
}

calls! {
    SliceType:
    leaf l_brack_token: L_BRACK = "Example: `[` of `[T]`.",
    leaf r_brack_token: R_BRACK = "Example: `]` of `[T]`.",
    first ty: Type = "Example: `T` of `[T]`.",
}

calls! {
    TupleType:
    all fields: Type = "Example: `T` and `U` of `(T, U)`.",
    leaf l_paren_token: L_PAREN = "Example: `(` of `(T, U)`.",
    leaf r_paren_token: R_PAREN = "Example: `)` of `(T, U)`.",
}
