//! Further patterns, blocks and paths.
use super::{MakeError, Piece, Pieces, form, node};
use crate::ast::{self, AstNode};
use crate::{SyntaxKind, SyntaxToken};

/// The pattern `..`: the others of a list.
pub fn rest_pat() -> Result<ast::RestPat, MakeError> {
    node("..")
}

/// A pattern in a box: `box p`.
pub fn box_pat(pat: &ast::Pat) -> Result<ast::BoxPat, MakeError> {
    form(&[Piece::Text("box "), Piece::Part(pat.syntax())])
}

/// A pair of parentheses: `(p)`.
pub fn paren_pat(pat: &ast::Pat) -> Result<ast::ParenPat, MakeError> {
    form(&[Piece::Text("("), Piece::Part(pat.syntax()), Piece::Text(")")])
}

/// A reference: `&p`.
pub fn ref_pat(pat: &ast::Pat) -> Result<ast::RefPat, MakeError> {
    form(&[Piece::Text("&"), Piece::Part(pat.syntax())])
}

/// A range without its end: `1..3`, `1..`. Without both ends it is refused, since `..` is a [`rest_pat`].
pub fn range_pat(start: Option<&ast::Pat>, end: Option<&ast::Pat>) -> Result<ast::RangePat, MakeError> {
    let mut form = Pieces::default();
    form.optional("", start);
    form.text("..");
    form.optional("", end);
    form.made()
}

/// A block of one expression: `{ a }`.
pub fn tail_only_block_expr(tail_expr: &ast::Expr) -> Result<ast::BlockExpr, MakeError> {
    form(&[Piece::Text("{ "), Piece::Part(tail_expr.syntax()), Piece::Text(" }")])
}

/// A block of a future, a line for each statement: `async move { a; b }`.
pub fn async_move_block_expr(stmts: &[ast::Stmt], tail_expr: Option<&ast::Expr>) -> Result<ast::BlockExpr, MakeError> {
    let mut form = Pieces::default();
    form.text("async move {");
    form.each("\n    ", stmts, "");
    form.optional("\n    ", tail_expr);
    form.text("\n}");
    form.made()
}

/// A tuple of types, of one type too: `()`, `(A,)`, `(A, B)`.
pub fn ty_tuple(types: &[ast::Type]) -> Result<ast::TupleType, MakeError> {
    let mut form = Pieces::default();
    form.text("(");
    form.separated(types, ", ");
    form.text(if types.len() == 1 { ",)" } else { ")" });
    form.made()
}

/// The type `_`.
pub fn ty_infer() -> Result<ast::InferType, MakeError> {
    node("_")
}

/// The name `Self`.
pub fn name_ref_self_ty() -> Result<ast::NameRef, MakeError> {
    node("Self")
}

/// The segment `self`.
pub fn path_segment_self() -> Result<ast::PathSegment, MakeError> {
    super::node_in(super::Place::UseTree, "self")
}

/// The segment `super`.
pub fn path_segment_super() -> Result<ast::PathSegment, MakeError> {
    super::node_in(super::Place::UseTree, "super")
}

/// The segment `crate`.
pub fn path_segment_crate() -> Result<ast::PathSegment, MakeError> {
    super::node_in(super::Place::UseTree, "crate")
}

/// Paths behind each other.
pub fn join_paths(paths: &[ast::Path]) -> Result<ast::Path, MakeError> {
    let texts: Vec<_> = paths.iter().map(|it| it.syntax().text()).collect();
    node(&texts.join("::"))
}

/// The token of a keyword or of punctuation, as `T![=>]`. A kind whose texts differ is refused; [`tokens`](super::tokens) has those.
///
/// ```
/// use ras::{SyntaxKind, T, make};
///
/// let arrow = make::token(T![->])?;
/// assert_eq!((arrow.kind(), arrow.text()), (T![->], "->"));
/// assert!(make::token(SyntaxKind::IDENT).is_err());
/// # Ok::<(), make::MakeError>(())
/// ```
pub fn token(kind: SyntaxKind) -> Result<SyntaxToken, MakeError> {
    if kind.text().is_empty() { Err(MakeError::NoPlace) } else { Ok(super::tokens::only(kind, kind.text())) }
}

/// Short forms of what is often made.
pub mod ext {
    use crate::ast::{self, AstNode};
    use crate::make::{MakeError, Piece, expr_field, expr_path, form, ident_path, join_paths, node};

    /// A name as a pattern: `a`.
    pub fn simple_ident_pat(name: &ast::Name) -> Result<ast::IdentPat, MakeError> {
        crate::make::ident_pat(name)
    }

    /// The path of some names, `a::b`, or `None` if there are none.
    pub fn path_from_idents<'a>(parts: impl IntoIterator<Item = &'a str>) -> Result<Option<ast::Path>, MakeError> {
        let paths = parts.into_iter().map(ident_path).collect::<Result<Vec<_>, _>>()?;
        if paths.is_empty() { Ok(None) } else { join_paths(&paths).map(Some) }
    }

    /// A field of a field, `a.b.c`, or `None` if there are no names.
    pub fn field_from_idents<'a>(parts: impl IntoIterator<Item = &'a str>) -> Result<Option<ast::Expr>, MakeError> {
        let mut parts = parts.into_iter();
        let Some(first) = parts.next() else { return Ok(None) };
        let base = expr_path(&ident_path(first)?)?;
        parts.try_fold(base, |base, part| expr_field(&base, part).map(ast::Expr::FieldExpr)).map(Some)
    }

    /// `unreachable!()`.
    pub fn expr_unreachable() -> Result<ast::Expr, MakeError> {
        node("unreachable!()")
    }

    /// `todo!()`.
    pub fn expr_todo() -> Result<ast::Expr, MakeError> {
        node("todo!()")
    }

    /// `_`, as the left side of an assignment has it.
    pub fn expr_underscore() -> Result<ast::Expr, MakeError> {
        node("_")
    }

    /// `self`.
    pub fn expr_self() -> Result<ast::Expr, MakeError> {
        node("self")
    }

    /// `None`.
    pub fn option_none() -> Result<ast::Expr, MakeError> {
        node("None")
    }

    /// `0`.
    pub fn zero_number() -> Result<ast::Expr, MakeError> {
        node("0")
    }

    /// `0.0`.
    pub fn zero_float() -> Result<ast::Expr, MakeError> {
        node("0.0")
    }

    /// `""`.
    pub fn empty_str() -> Result<ast::Expr, MakeError> {
        node("\"\"")
    }

    /// `false`.
    pub fn default_bool() -> Result<ast::Expr, MakeError> {
        node("false")
    }

    /// A block without statements: `{}`.
    pub fn empty_block_expr() -> Result<ast::BlockExpr, MakeError> {
        crate::make::expr_empty_block()
    }

    /// A type by its name: `A`.
    pub fn ty_name(name: &ast::Name) -> Result<ast::Type, MakeError> {
        node(name.syntax().text())
    }

    /// `bool`.
    pub fn ty_bool() -> Result<ast::Type, MakeError> {
        node("bool")
    }

    /// `Option<T>`.
    pub fn ty_option(t: &ast::Type) -> Result<ast::Type, MakeError> {
        form(&[Piece::Text("Option<"), Piece::Part(t.syntax()), Piece::Text(">")])
    }

    /// `Result<T, E>`.
    pub fn ty_result(t: &ast::Type, e: &ast::Type) -> Result<ast::Type, MakeError> {
        form(&[Piece::Text("Result<"), Piece::Part(t.syntax()), Piece::Text(", "), Piece::Part(e.syntax()), Piece::Text(">")])
    }
}
