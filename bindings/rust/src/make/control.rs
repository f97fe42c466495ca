//! Expressions with blocks, jumps, arms and statements. Written by bindings/make from crates/rust_make/src.
use super::{MakeError, Piece, Pieces, arm_space, block_space, ends_itself, form, text_if};
use crate::ast::{self, AstNode};

/// A `let` of a condition: `let p = a`.
pub fn expr_let(pat: &ast::Pat, expr: &ast::Expr) -> Result<ast::LetExpr, MakeError> {
    form(&[
        Piece::Text("let "),
        Piece::Part(pat.syntax()),
        Piece::Text(" = "),
        Piece::Left(expr.syntax()),
    ])
}

/// An `if`, with its `else` if there is one: `if a { b } else { c }`. A record as the condition
/// gets a pair. Behind a condition of several lines the block is on a line of its own, as it is
/// behind the operands of the loops and of `match`.
pub fn expr_if(condition: &ast::Expr, then_branch: &ast::BlockExpr, else_branch: Option<&ast::ElseBranch>) -> Result<ast::IfExpr, MakeError> {
    let mut form = Pieces::default();
    form.text("if ");
    form.left(condition);
    form.text(block_space(condition.syntax()));
    form.part(then_branch);
    form.optional(" else ", else_branch);
    form.made()
}

/// A `while`: `while a { b }`.
pub fn expr_while_loop(condition: &ast::Expr, body: &ast::BlockExpr) -> Result<ast::WhileExpr, MakeError> {
    form(&[
        Piece::Text("while "),
        Piece::Left(condition.syntax()),
        Piece::Text(block_space(condition.syntax())),
        Piece::Part(body.syntax()),
    ])
}

/// A `loop`: `loop { a }`.
pub fn expr_loop(body: &ast::BlockExpr) -> Result<ast::LoopExpr, MakeError> {
    form(&[Piece::Text("loop "), Piece::Part(body.syntax())])
}

/// A `for`: `for p in a { b }`.
pub fn expr_for_loop(pat: &ast::Pat, iterable: &ast::Expr, body: &ast::BlockExpr) -> Result<ast::ForExpr, MakeError> {
    form(&[
        Piece::Text("for "),
        Piece::Part(pat.syntax()),
        Piece::Text(" in "),
        Piece::Left(iterable.syntax()),
        Piece::Text(block_space(iterable.syntax())),
        Piece::Part(body.syntax()),
    ])
}

/// A `match`: `match a { b => c, }`.
pub fn expr_match(expr: &ast::Expr, arms: &ast::MatchArmList) -> Result<ast::MatchExpr, MakeError> {
    form(&[
        Piece::Text("match "),
        Piece::Left(expr.syntax()),
        Piece::Text(block_space(expr.syntax())),
        Piece::Part(arms.syntax()),
    ])
}

/// A `return`, with its value if there is one.
pub fn expr_return(expr: Option<&ast::Expr>) -> Result<ast::ReturnExpr, MakeError> {
    let mut form = Pieces::default();
    form.text("return");
    form.optional(" ", expr);
    form.made()
}

/// A `break`, with its label and its value if there are such.
pub fn expr_break(label: Option<&ast::Lifetime>, expr: Option<&ast::Expr>) -> Result<ast::BreakExpr, MakeError> {
    let mut form = Pieces::default();
    form.text("break");
    form.optional(" ", label);
    form.optional(" ", expr);
    form.made()
}

/// A `continue`, with its label if there is one.
pub fn expr_continue(label: Option<&ast::Lifetime>) -> Result<ast::ContinueExpr, MakeError> {
    let mut form = Pieces::default();
    form.text("continue");
    form.optional(" ", label);
    form.made()
}

/// A closure: `|p, q| a`.
pub fn expr_closure(params: &[ast::Param], body: &ast::Expr) -> Result<ast::ClosureExpr, MakeError> {
    let mut form = Pieces::default();
    form.text("|");
    form.separated(params, ", ");
    form.text("| ");
    form.part(body);
    form.made()
}

/// An arm, with its guard if there is one: `p if a => b,`. It ends with a comma, unless its
/// body ends in a block: `p => { b }`. A body with a block behind a guard of several lines is
/// on a line of its own.
pub fn match_arm(pat: &ast::Pat, guard: Option<&ast::MatchGuard>, expr: &ast::Expr) -> Result<ast::MatchArm, MakeError> {
    let mut form = Pieces::default();
    form.part(pat);
    form.optional(" ", guard);
    form.text(" =>");
    form.text(arm_space(guard, expr));
    form.part(expr);
    form.text(text_if(!ends_itself(expr), ","));
    form.made()
}

/// The guard of an arm: `if a`. The condition may be a `let`.
pub fn match_guard(condition: &ast::Expr) -> Result<ast::MatchGuard, MakeError> {
    form(&[Piece::Text("if "), Piece::Part(condition.syntax())])
}

/// Arms, a line for each. An arm without a comma gets one, unless its body ends in a block.
pub fn match_arm_list(arms: &[ast::MatchArm]) -> Result<ast::MatchArmList, MakeError> {
    let mut form = Pieces::default();
    form.text("{\n");
    form.arms(arms);
    form.text("}");
    form.made()
}

/// A block of statements, and its value if there is one: a line for each. Without a value, the
/// last statement may be an expression without a `;`, which then is the block's value.
pub fn block_expr(stmts: &[ast::Stmt], tail_expr: Option<&ast::Expr>) -> Result<ast::BlockExpr, MakeError> {
    let mut form = Pieces::default();
    form.text("{");
    form.stmts(tail_expr.is_some(), stmts);
    form.optional("\n    ", tail_expr);
    form.text("\n}");
    form.made()
}

/// An expression as a statement: `a;`. One that ends in a block has no `;`: `loop {}`.
pub fn expr_stmt(expr: &ast::Expr) -> Result<ast::ExprStmt, MakeError> {
    form(&[
        Piece::Part(expr.syntax()),
        Piece::Text(text_if(!ends_itself(expr), ";")),
    ])
}

/// A `let`, with its type and its value if there are such: `let p: A = b;`.
pub fn let_stmt(pat: &ast::Pat, ty: Option<&ast::Type>, expr: Option<&ast::Expr>) -> Result<ast::LetStmt, MakeError> {
    let mut form = Pieces::default();
    form.text("let ");
    form.part(pat);
    form.optional(": ", ty);
    form.optional(" = ", expr);
    form.text(";");
    form.made()
}

/// A `let` with an `else`: `let p = a else { b };`.
pub fn let_else_stmt(pat: &ast::Pat, ty: Option<&ast::Type>, expr: &ast::Expr, diverging: &ast::BlockExpr) -> Result<ast::LetStmt, MakeError> {
    let mut form = Pieces::default();
    form.text("let ");
    form.part(pat);
    form.optional(": ", ty);
    form.text(" = ");
    form.left(expr);
    form.text(" else ");
    form.part(diverging);
    form.text(";");
    form.made()
}
