//! Lookups in generic parameters and arguments, bounds and where clauses. Written by bindings/make.
use crate::ast::macros::*;
use crate::ast::views::*;
use crate::ast::{AstChildren, AstNode, support};
use crate::SyntaxKind;
use crate::node::Node;

calls! {
    AssocTypeArg:
    first const_arg: ConstArg = "Example: `1` of `C = 1`.",
    leaf eq_token: EQ = "Example: `=` of `C = T`.",
    first name_ref: NameRef = "Example: `C` of `C = T`.",
    first param_list: ParamList = "",
    first ret_type: RetType = "Example: `-> E` of `C(D) -> E = T`.",
    first return_type_syntax: ReturnTypeSyntax = "Example: `(..)` of `C(..): T`.",
    first ty: Type = "Example: `T` of `C = T`.",
}

calls! {
    ConstArg:
    first expr: Expr = "Example: `1` of `1`.",
}

calls! {
    ConstParam:
    leaf colon_token: COLON = "Example: `:` of `const N: T = 1`.",
    leaf const_token: CONST_KW = "Example: `const` of `const N: T = 1`.",
    first default_val: ConstArg = "Example: `1` of `const N: T = 1`.",
    leaf eq_token: EQ = "Example: `=` of `const N: T = 1`.",
    first ty: Type = "Example: `T` of `const N: T = 1`.",
}

calls! {
    ForBinder:
    leaf for_token: FOR_KW = "Example: `for` of `for<'a>`.",
    first generic_param_list: GenericParamList = "Example: `<'a>` of `for<'a>`.",
}

calls! {
    GenericArgList:
    leaf coloncolon_token: COLON2 = "Example: `::` of `::<'a, T>`.",
    all generic_args: GenericArg = "Example: `'a` and `T` of `::<'a, T>`.",
    leaf l_angle_token: L_ANGLE = "Example: `<` of `::<'a, T>`.",
    leaf r_angle_token: R_ANGLE = "Example: `>` of `::<'a, T>`.",
}

calls! {
    GenericParamList:
    all generic_params: GenericParam = "Example: `'a` and `T` of `<'a, T>`.",
    leaf l_angle_token: L_ANGLE = "Example: `<` of `<'a, T>`.",
    leaf r_angle_token: R_ANGLE = "Example: `>` of `<'a, T>`.",
}

calls! {
    LifetimeArg:
    first lifetime: Lifetime = "Example: `'a` of `'a`.",
}

calls! {
    LifetimeParam:
    first lifetime: Lifetime = "Example: `'a` of `'a: 'b`.",
}

calls! {
    TypeArg:
    first ty: Type = "Example: `T` of `T`.",
}

calls! {
    TypeBound:
    leaf async_token: ASYNC_KW = "Example: `async` of `async T`.",
    leaf const_token: CONST_KW = "Example: `const` of `const T`.",
    first for_binder: ForBinder = "Example: `for<'a>` of `for<'a> ?T`.",
    leaf l_brack_token: L_BRACK = "Example: `[` of `[const] T`.",
    first lifetime: Lifetime = "Example: `'a` of `'a`.",
    leaf question_mark_token: QUESTION = "Example: `?` of `for<'a> ?T`.",
    leaf r_brack_token: R_BRACK = "Example: `]` of `[const] T`.",
    leaf tilde_token: TILDE = "Example: `~` of `~const T`.",
    first ty: Type = "Example: `T` of `for<'a> ?T`.",
    first use_bound_generic_args: UseBoundGenericArgs = "Example: `<'a, T>` of `use<'a, T>`.",
    leaf use_token: USE_KW = "Example: `use` of `use<'a, T>`.",
}

calls! {
    TypeBoundList:
    all bounds: TypeBound = "Example: `T` and `U` of `T + U`.",
}

calls! {
    TypeParam:
    first default_type: Type = "Example: `U` of `T = U`.",
    leaf eq_token: EQ = "Example: `=` of `T = U`.",
}

calls! {
    UseBoundGenericArgs:
    leaf l_angle_token: L_ANGLE = "Example: `<` of `<'a, T>`.",
    leaf r_angle_token: R_ANGLE = "Example: `>` of `<'a, T>`.",
    all use_bound_generic_args: UseBoundGenericArg = "Example: `'a` and `T` of `<'a, T>`.",
}

calls! {
    WhereClause:
    all predicates: WherePred = "Example: `T: U` and `V: W` of `where T: U, V: W`.",
    leaf where_token: WHERE_KW = "Example: `where` of `where T: U, V: W`.",
}

calls! {
    WherePred:
    first for_binder: ForBinder = "Example: `for<'a>` of `for<'a> T: U`.",
    first lifetime: Lifetime = "Example: `'a` of `'a: 'b`.",
    first ty: Type = "Example: `T` of `for<'a> T: U`.",
}
