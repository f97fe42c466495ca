//! Patterns. Written by bindings/make from crates/rust_make/src.
use super::{MakeError, Piece, Pieces, form, pat_piece, text_if};
use crate::ast::{self, AstNode};

/// The pattern `_`.
pub fn wildcard_pat() -> Result<ast::WildcardPat, MakeError> {
    form(&[Piece::Text("_")])
}

/// A name as a pattern: `a`.
pub fn ident_pat(name: &ast::Name) -> Result<ast::IdentPat, MakeError> {
    form(&[Piece::Part(name.syntax())])
}

/// A name that may be written: `mut a`.
pub fn ident_pat_mut(name: &ast::Name) -> Result<ast::IdentPat, MakeError> {
    form(&[Piece::Text("mut "), Piece::Part(name.syntax())])
}

/// A path as a pattern: `A::B`. One name is the pattern of a name: `None` is an `IDENT_PAT`.
pub fn path_pat(path: &ast::Path) -> Result<ast::Pat, MakeError> {
    form(&[pat_piece(path.syntax())])
}

/// A tuple of patterns: `(p, q)`; of one, `(p,)`.
pub fn tuple_pat(pats: &[ast::Pat]) -> Result<ast::TuplePat, MakeError> {
    let mut form = Pieces::default();
    form.text("(");
    form.separated(pats, ", ");
    form.text(text_if(pats.len() == 1, ","));
    form.text(")");
    form.made()
}

/// A tuple struct: `A(p, q)`.
pub fn tuple_struct_pat(path: &ast::Path, pats: &[ast::Pat]) -> Result<ast::TupleStructPat, MakeError> {
    let mut form = Pieces::default();
    form.part(path);
    form.text("(");
    form.separated(pats, ", ");
    form.text(")");
    form.made()
}

/// A record: `A { a, b: p }`.
pub fn record_pat(path: &ast::Path, fields: &[ast::RecordPatField]) -> Result<ast::RecordPat, MakeError> {
    let mut form = Pieces::default();
    form.part(path);
    form.text(" { ");
    form.separated(fields, ", ");
    form.text(" }");
    form.made()
}

/// A literal as a pattern: `1`, `-1`, `"a"`.
pub fn literal_pat(text: &str) -> Result<ast::LiteralPat, MakeError> {
    form(&[Piece::Text(text)])
}

/// Alternatives, with a sign before the first one if `leading_pipe`: `p | q`. Of fewer than two
/// it is refused, but for one with the sign.
pub fn or_pat(pats: &[ast::Pat], leading_pipe: bool) -> Result<ast::OrPat, MakeError> {
    let mut form = Pieces::default();
    form.text(text_if(leading_pipe, "| "));
    form.separated(pats, " | ");
    form.made()
}

/// A slice of patterns: `[p, q]`.
pub fn slice_pat(pats: &[ast::Pat]) -> Result<ast::SlicePat, MakeError> {
    let mut form = Pieces::default();
    form.text("[");
    form.separated(pats, ", ");
    form.text("]");
    form.made()
}
