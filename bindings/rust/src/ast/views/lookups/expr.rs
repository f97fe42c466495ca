//! Lookups in expressions. Written by bindings/make.
use crate::ast::macros::*;
use crate::ast::views::*;
use crate::ast::{AstChildren, AstNode, support};
use crate::SyntaxKind;
use crate::node::Node;

calls! {
    ArrayExpr:
    first expr: Expr = "Example: `a` of `[a, b]`.",
    all exprs: Expr = "Example: `a` and `b` of `[a, b]`.",
    leaf l_brack_token: L_BRACK = "Example: `[` of `[a, b]`.",
    leaf r_brack_token: R_BRACK = "Example: `]` of `[a, b]`.",
    leaf semicolon_token: SEMICOLON = "Example: `;` of `[a; n]`.",
}

calls! {
    AsmExpr:
    all asm_pieces: AsmPiece = "Example: `out(r) c` of `builtin # asm(\"a\", \"b\", out(r) c)`.",
    leaf asm_token: ASM_KW = "Example: `asm` of `builtin # asm(\"a\", \"b\", out(r) c)`.",
    leaf builtin_token: BUILTIN_KW = "Example: `builtin` of `builtin # asm(\"a\", \"b\", out(r) c)`.",
    leaf comma_token: COMMA = "Example: `,` of `builtin # asm(\"a\", \"b\", out(r) c)`.",
    leaf global_asm_token: GLOBAL_ASM_KW = "Example: `global_asm` of `builtin # global_asm(\"a\")`.",
    leaf l_paren_token: L_PAREN = "Example: `(` of `builtin # asm(\"a\", \"b\", out(r) c)`.",
    leaf naked_asm_token: NAKED_ASM_KW = "Example: `naked_asm` of `builtin # naked_asm(\"a\")`.",
    leaf pound_token: POUND = "Example: `#` of `builtin # asm(\"a\", \"b\", out(r) c)`.",
    leaf r_paren_token: R_PAREN = "Example: `)` of `builtin # asm(\"a\", \"b\", out(r) c)`.",
    all template: Expr = "Example: `\"a\"` and `\"b\"` of `builtin # asm(\"a\", \"b\", out(r) c)`.",
}

calls! {
    AwaitExpr:
    leaf await_token: AWAIT_KW = "Example: `await` of `a.await`.",
    leaf dot_token: DOT = "Example: `.` of `a.await`.",
    first expr: Expr = "Example: `a` of `a.await`.",
}

calls! {
    CallExpr:
    first expr: Expr = "Example: `f` of `f(a, b)`.",
}

calls! {
    CastExpr:
    leaf as_token: AS_KW = "Example: `as` of `a as T`.",
    first expr: Expr = "Example: `a` of `a as T`.",
    first ty: Type = "Example: `T` of `a as T`.",
}

calls! {
    ClosureExpr:
    leaf async_token: ASYNC_KW = "Example: `async` of `async move |a| b`.",
    first body: Expr = "Example: `{ b }` of `|a| -> T { b }`.",
    leaf const_token: CONST_KW = "Example: `const` of `const |a| b`.",
    first for_binder: ForBinder = "Example: `for<'a>` of `for<'a> |b| c`.",
    leaf gen_token: GEN_KW = "Example: `gen` of `async gen |a| b`.",
    leaf move_token: MOVE_KW = "Example: `move` of `async move |a| b`.",
    first param_list: ParamList = "Example: `|a|` of `|a| -> T { b }`.",
    first ret_type: RetType = "Example: `-> T` of `|a| -> T { b }`.",
    leaf static_token: STATIC_KW = "Example: `static` of `static |a| b`.",
}

calls! {
    FieldExpr:
    leaf dot_token: DOT = "Example: `.` of `a.f`.",
    first expr: Expr = "Example: `a` of `a.f`.",
    first name_ref: NameRef = "Example: `f` of `a.f`.",
}

calls! {
    FormatArgsArgName:
    leaf eq_token: EQ = "Example: `=` of `a =`.",
}

calls! {
    FormatArgsExpr:
    all args: FormatArgsArg = "Example: `a = b` of `builtin # format_args(\"{}\", a = b)`.",
    leaf builtin_token: BUILTIN_KW = "Example: `builtin` of `builtin # format_args(\"{}\", a = b)`.",
    leaf comma_token: COMMA = "Example: `,` of `builtin # format_args(\"{}\", a = b)`.",
    leaf format_args_token: FORMAT_ARGS_KW = "Example: `format_args` of `builtin # format_args(\"{}\", a = b)`.",
    leaf l_paren_token: L_PAREN = "Example: `(` of `builtin # format_args(\"{}\", a = b)`.",
    leaf pound_token: POUND = "Example: `#` of `builtin # format_args(\"{}\", a = b)`.",
    leaf r_paren_token: R_PAREN = "Example: `)` of `builtin # format_args(\"{}\", a = b)`.",
    first template: Expr = "Example: `\"{}\"` of `builtin # format_args(\"{}\", a = b)`.",
}

calls! {
    IndexExpr:
    leaf l_brack_token: L_BRACK = "Example: `[` of `a[i]`.",
    leaf r_brack_token: R_BRACK = "Example: `]` of `a[i]`.",
}

calls! {
    MacroExpr:
    first macro_call: MacroCall = "Example: `m!(a)` of `m!(a)`.",
}

calls! {
    MethodCallExpr:
    leaf dot_token: DOT = "Example: `.` of `a.f::<T>(b)`.",
    first name_ref: NameRef = "Example: `f` of `a.f::<T>(b)`.",
    first receiver: Expr = "Example: `a` of `a.f::<T>(b)`.",
}

calls! {
    OffsetOfExpr:
    leaf builtin_token: BUILTIN_KW = "Example: `builtin` of `builtin # offset_of(T, f.g)`.",
    leaf comma_token: COMMA = "Example: `,` of `builtin # offset_of(T, f.g)`.",
    all fields: NameRef = "Example: `f` and `g` of `builtin # offset_of(T, f.g)`.",
    leaf l_paren_token: L_PAREN = "Example: `(` of `builtin # offset_of(T, f.g)`.",
    leaf offset_of_token: OFFSET_OF_KW = "Example: `offset_of` of `builtin # offset_of(T, f.g)`.",
    leaf pound_token: POUND = "Example: `#` of `builtin # offset_of(T, f.g)`.",
    leaf r_paren_token: R_PAREN = "Example: `)` of `builtin # offset_of(T, f.g)`.",
    first ty: Type = "Example: `T` of `builtin # offset_of(T, f.g)`.",
}

calls! {
    ParenExpr:
    first expr: Expr = "Example: `a` of `(a)`.",
    leaf l_paren_token: L_PAREN = "Example: `(` of `(a)`.",
    leaf r_paren_token: R_PAREN = "Example: `)` of `(a)`.",
}

calls! {
    PathExpr:
    first path: Path = "Example: `a::b` of `a::b`.",
}

calls! {
    PrefixExpr:
    first expr: Expr = "Example: `a` of `-a`.",
}

calls! {
    RecordExpr:
    first path: Path = "Example: `S` of `S { f: a, ..b }`.",
    first record_expr_field_list: RecordExprFieldList = "Example: `{ f: a, ..b }` of `S { f: a, ..b }`.",
}

calls! {
    RecordExprFieldList:
    all attrs: Attr = "",
    leaf dotdot_token: DOT2 = "Example: `..` of `{ f: a, ..b }`.",
    all fields: RecordExprField = "Example: `f: a` of `{ f: a, ..b }`.",
    leaf l_curly_token: L_CURLY = "Example: `{` of `{ f: a, ..b }`.",
    leaf r_curly_token: R_CURLY = "Example: `}` of `{ f: a, ..b }`.",
    first spread: Expr = "Example: `b` of `{ f: a, ..b }`.",
}

calls! {
    RefExpr:
    leaf amp_token: AMP = "Example: `&` of `&a`.",
    leaf const_token: CONST_KW = "Example: `const` of `&raw const a`.",
    first expr: Expr = "Example: `a` of `&a`.",
    leaf mut_token: MUT_KW = "Example: `mut` of `&mut a`.",
    leaf raw_token: RAW_KW = "Example: `raw` of `&raw const a`.",
}

calls! {
    TryExpr:
    first expr: Expr = "Example: `a` of `a?`.",
    leaf question_mark_token: QUESTION = "Example: `?` of `a?`.",
}

calls! {
    TupleExpr:
    all fields: Expr = "Example: `a` and `b` of `(a, b)`.",
    leaf l_paren_token: L_PAREN = "Example: `(` of `(a, b)`.",
    leaf r_paren_token: R_PAREN = "Example: `)` of `(a, b)`.",
}

calls! {
    UnderscoreExpr:
    leaf underscore_token: UNDERSCORE = "Example: `_` of `_`.",
}
