//! Expressions of operators, calls and lists. Written by bindings/make from crates/rust_make/src.
use super::{MakeError, Piece, Pieces, form, prefix_text};
use crate::ast::{self, AstNode};

/// A path as an expression.
pub fn expr_path(path: &ast::Path) -> Result<ast::Expr, MakeError> {
    form(&[Piece::Part(path.syntax())])
}

/// A literal: `1`.
pub fn expr_literal(text: &str) -> Result<ast::Literal, MakeError> {
    form(&[Piece::Text(text)])
}

/// The expression `()`.
pub fn expr_unit() -> Result<ast::Expr, MakeError> {
    form(&[Piece::Text("()")])
}

/// The block `{}`.
pub fn expr_empty_block() -> Result<ast::BlockExpr, MakeError> {
    form(&[Piece::Text("{}")])
}

/// Two operands with an operator between: `a + b`, `(a + b) * c`.
pub fn expr_bin_op(lhs: &ast::Expr, op: ast::BinaryOp, rhs: &ast::Expr) -> Result<ast::Expr, MakeError> {
    form(&[
        Piece::Left(lhs.syntax()),
        Piece::Text(" "),
        Piece::Text(&op.to_string()),
        Piece::Text(" "),
        Piece::Right(rhs.syntax()),
    ])
}

/// An assignment: `a = b`.
pub fn expr_assignment(lhs: &ast::Expr, rhs: &ast::Expr) -> Result<ast::BinExpr, MakeError> {
    form(&[
        Piece::Left(lhs.syntax()),
        Piece::Text(" = "),
        Piece::Right(rhs.syntax()),
    ])
}

/// An operand behind a prefix: `!a`, `-(a + b)`.
pub fn expr_prefix(op: ast::UnaryOp, expr: &ast::Expr) -> Result<ast::PrefixExpr, MakeError> {
    form(&[Piece::Text(prefix_text(op)), Piece::Left(expr.syntax())])
}

/// A shared borrow: `&a`.
pub fn expr_ref(expr: &ast::Expr) -> Result<ast::Expr, MakeError> {
    form(&[Piece::Text("&"), Piece::Left(expr.syntax())])
}

/// A borrow that may write: `&mut a`.
pub fn expr_ref_mut(expr: &ast::Expr) -> Result<ast::Expr, MakeError> {
    form(&[Piece::Text("&mut "), Piece::Left(expr.syntax())])
}

/// A pair of parentheses: `(a)`.
pub fn expr_paren(expr: &ast::Expr) -> Result<ast::ParenExpr, MakeError> {
    form(&[
        Piece::Text("("),
        Piece::Part(expr.syntax()),
        Piece::Text(")"),
    ])
}

/// A call: `f(a)`, `(a.f)(b)`.
pub fn expr_call(callee: &ast::Expr, args: &ast::ArgList) -> Result<ast::CallExpr, MakeError> {
    form(&[Piece::Left(callee.syntax()), Piece::Part(args.syntax())])
}

/// A method call: `a.f(b)`, `(a + b).f(c)`.
pub fn expr_method_call(receiver: &ast::Expr, method: &ast::NameRef, args: &ast::ArgList) -> Result<ast::MethodCallExpr, MakeError> {
    form(&[
        Piece::Left(receiver.syntax()),
        Piece::Text("."),
        Piece::Part(method.syntax()),
        Piece::Part(args.syntax()),
    ])
}

/// A field: `a.b`, `a.0`.
pub fn expr_field(receiver: &ast::Expr, field: &str) -> Result<ast::FieldExpr, MakeError> {
    form(&[
        Piece::Left(receiver.syntax()),
        Piece::Text("."),
        Piece::Text(field),
    ])
}

/// An expression with `?` behind: `a?`.
pub fn expr_try(expr: &ast::Expr) -> Result<ast::TryExpr, MakeError> {
    form(&[Piece::Left(expr.syntax()), Piece::Text("?")])
}

/// An expression with `.await` behind: `a.await`.
pub fn expr_await(expr: &ast::Expr) -> Result<ast::AwaitExpr, MakeError> {
    form(&[Piece::Left(expr.syntax()), Piece::Text(".await")])
}

/// A cast: `a as T`.
pub fn expr_cast(expr: &ast::Expr, ty: &ast::Type) -> Result<ast::CastExpr, MakeError> {
    form(&[
        Piece::Left(expr.syntax()),
        Piece::Text(" as "),
        Piece::Part(ty.syntax()),
    ])
}

/// A macro call: `m!(a)`.
pub fn expr_macro(path: &ast::Path, tokens: &ast::TokenTree) -> Result<ast::MacroExpr, MakeError> {
    form(&[
        Piece::Part(path.syntax()),
        Piece::Text("!"),
        Piece::Part(tokens.syntax()),
    ])
}

/// Arguments: `(a, b)`.
pub fn arg_list(args: &[ast::Expr]) -> Result<ast::ArgList, MakeError> {
    let mut form = Pieces::default();
    form.text("(");
    form.separated(args, ", ");
    form.text(")");
    form.made()
}

/// A tuple of more than one field: `(a, b)`; of none, `()`. For one field it is refused.
pub fn expr_tuple(fields: &[ast::Expr]) -> Result<ast::TupleExpr, MakeError> {
    let mut form = Pieces::default();
    form.text("(");
    form.separated(fields, ", ");
    form.text(")");
    form.made()
}

/// An array: `[a, b]`.
pub fn expr_array(items: &[ast::Expr]) -> Result<ast::ArrayExpr, MakeError> {
    let mut form = Pieces::default();
    form.text("[");
    form.separated(items, ", ");
    form.text("]");
    form.made()
}
