//! Lookups in expressions of control flow. Written by bindings/make.
use crate::ast::macros::*;
use crate::ast::views::*;
use crate::ast::{AstNode, support};
use crate::SyntaxKind;
use crate::node::Node;

calls! {
    BecomeExpr:
    leaf become_token: BECOME_KW = "Example: `become` of `become f(a)`.",
    first expr: Expr = "Example: `f(a)` of `become f(a)`.",
}

calls! {
    BlockExpr:
    leaf async_token: ASYNC_KW = "Example: `async` of `async move {}`.",
    leaf const_token: CONST_KW = "Example: `const` of `const {}`.",
    leaf gen_token: GEN_KW = "Example: `gen` of `gen {}`.",
    first label: Label = "Example: `'a:` of `'a: {}`.",
    leaf move_token: MOVE_KW = "Example: `move` of `async move {}`.",
    first stmt_list: StmtList = "Example: `{ a; b }` of `{ a; b }`.",
    first try_block_modifier: TryBlockModifier = "Example: `try bikeshed T` of `try bikeshed T {}`.",
    leaf unsafe_token: UNSAFE_KW = "Example: `unsafe` of `unsafe {}`.",
}

calls! {
    BreakExpr:
    leaf break_token: BREAK_KW = "Example: `break` of `break 'a b`.",
    first expr: Expr = "Example: `b` of `break 'a b`.",
    first lifetime: Lifetime = "Example: `'a` of `break 'a b`.",
}

calls! {
    ContinueExpr:
    leaf continue_token: CONTINUE_KW = "Example: `continue` of `continue 'a`.",
    first lifetime: Lifetime = "Example: `'a` of `continue 'a`.",
}

calls! {
    ForExpr:
    leaf for_token: FOR_KW = "Example: `for` of `for p in a { b }`.",
    leaf in_token: IN_KW = "Example: `in` of `for p in a { b }`.",
    first pat: Pat = "Example: `p` of `for p in a { b }`.",
}

calls! {
    IfExpr:
    leaf else_token: ELSE_KW = "Example: `else` of `if a { b } else { c }`.",
    leaf if_token: IF_KW = "Example: `if` of `if a { b } else { c }`.",
}

calls! {
    LetExpr:
    leaf eq_token: EQ = "Example: `=` of `let p = a`.",
    first expr: Expr = "Example: `a` of `let p = a`.",
    leaf let_token: LET_KW = "Example: `let` of `let p = a`.",
    first pat: Pat = "Example: `p` of `let p = a`.",
}

calls! {
    LoopExpr:
    leaf loop_token: LOOP_KW = "Example: `loop` of `loop {}`.",
}

calls! {
    MatchExpr:
    first expr: Expr = "Example: `a` of `match a { p => b }`.",
    first match_arm_list: MatchArmList = "Example: `{ p => b }` of `match a { p => b }`.",
    leaf match_token: MATCH_KW = "Example: `match` of `match a { p => b }`.",
}

calls! {
    ReturnExpr:
    first expr: Expr = "Example: `a` of `return a`.",
    leaf return_token: RETURN_KW = "Example: `return` of `return a`.",
}

calls! {
    WhileExpr:
    leaf while_token: WHILE_KW = "Example: `while` of `while a {}`.",
}

calls! {
    YeetExpr:
    leaf do_token: DO_KW = "Example: `do` of `do yeet a`.",
    first expr: Expr = "Example: `a` of `do yeet a`.",
    leaf yeet_token: YEET_KW = "Example: `yeet` of `do yeet a`.",
}

calls! {
    YieldExpr:
    first expr: Expr = "Example: `a` of `yield a`.",
    leaf yield_token: YIELD_KW = "Example: `yield` of `yield a`.",
}
