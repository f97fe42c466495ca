//! Fields: of records as expressions, as patterns, and of structs; and variants.
use super::{MakeError, Piece, Pieces, form, part_of};
use crate::ast::{self, AstNode};

/// A record: `A { a: b }`.
pub fn record_expr(path: &ast::Path, fields: &ast::RecordExprFieldList) -> Result<ast::RecordExpr, MakeError> {
    form(&[Piece::Part(path.syntax()), Piece::Text(" "), Piece::Part(fields.syntax())])
}

/// The fields of a record: `{ a: b, c }`.
pub fn record_expr_field_list(fields: &[ast::RecordExprField]) -> Result<ast::RecordExprFieldList, MakeError> {
    let mut form = Pieces::default();
    form.text("S { ");
    form.separated(fields, ", ");
    form.text(if fields.is_empty() { "}" } else { " }" });
    part_of(form.made::<ast::RecordExpr>()?.record_expr_field_list())
}

/// A field of a record, with its value if it is not what the name stands for: `a: b`, `a`.
pub fn record_expr_field(name: &ast::NameRef, expr: Option<&ast::Expr>) -> Result<ast::RecordExprField, MakeError> {
    let mut form = Pieces::default();
    form.part(name);
    form.optional(": ", expr);
    form.made()
}

/// A pattern of a record: `A { a, .. }`.
pub fn record_pat_with_fields(path: &ast::Path, fields: &ast::RecordPatFieldList) -> Result<ast::RecordPat, MakeError> {
    form(&[Piece::Part(path.syntax()), Piece::Text(" "), Piece::Part(fields.syntax())])
}

/// The fields of such a pattern, and `..` if the others are left out: `{ a: p, b, .. }`.
pub fn record_pat_field_list(fields: &[ast::RecordPatField], rest_pat: Option<&ast::RestPat>) -> Result<ast::RecordPatFieldList, MakeError> {
    let mut form = Pieces::default();
    form.text("S { ");
    form.separated(fields, ", ");
    form.optional(if fields.is_empty() { "" } else { ", " }, rest_pat);
    form.text(if fields.is_empty() && rest_pat.is_none() { "}" } else { " }" });
    part_of(form.made::<ast::RecordPat>()?.record_pat_field_list())
}

/// A field of such a pattern: `a: p`.
pub fn record_pat_field(name_ref: &ast::NameRef, pat: &ast::Pat) -> Result<ast::RecordPatField, MakeError> {
    form(&[Piece::Part(name_ref.syntax()), Piece::Text(": "), Piece::Part(pat.syntax())])
}

/// A field of such a pattern that binds its own name: `a`, `mut a`.
pub fn record_pat_field_shorthand(pat: &ast::Pat) -> Result<ast::RecordPatField, MakeError> {
    form(&[Piece::Part(pat.syntax())])
}

/// A field of a struct: `pub a: A`.
pub fn record_field(visibility: Option<&ast::Visibility>, name: &ast::Name, ty: &ast::Type) -> Result<ast::RecordField, MakeError> {
    let mut form = Pieces::default();
    form.visibility(visibility);
    form.part(name);
    form.text(": ");
    form.part(ty);
    form.made()
}

/// The fields of a struct: `{ a: A, b: B }`.
pub fn record_field_list(fields: &[ast::RecordField]) -> Result<ast::RecordFieldList, MakeError> {
    let mut form = Pieces::default();
    form.text("{ ");
    form.separated(fields, ", ");
    form.text(if fields.is_empty() { "}" } else { " }" });
    form.made()
}

/// A field without a name: `pub A`.
pub fn tuple_field(visibility: Option<&ast::Visibility>, ty: &ast::Type) -> Result<ast::TupleField, MakeError> {
    let mut form = Pieces::default();
    form.visibility(visibility);
    form.part(ty);
    form.made()
}

/// Fields without names: `(A, B)`.
pub fn tuple_field_list(fields: &[ast::TupleField]) -> Result<ast::TupleFieldList, MakeError> {
    let mut form = Pieces::default();
    form.text("(");
    form.separated(fields, ", ");
    form.text(")");
    form.made()
}

/// A variant of an enum, with its fields and its number if there are such: `A`, `A(B)`, `A { b: B }`, `A = 1`.
pub fn variant(name: &ast::Name, field_list: Option<&ast::FieldList>, discriminant: Option<&ast::Expr>) -> Result<ast::Variant, MakeError> {
    let mut form = Pieces::default();
    form.part(name);
    form.optional(before_fields(field_list), field_list);
    form.optional(" = ", discriminant);
    form.made()
}

/// The variants of an enum: `{ A, B }`.
pub fn variant_list(variants: &[ast::Variant]) -> Result<ast::VariantList, MakeError> {
    let mut form = Pieces::default();
    form.text("enum E { ");
    form.separated(variants, ", ");
    form.text(if variants.is_empty() { "}" } else { " }" });
    part_of(form.made::<ast::Enum>()?.variant_list())
}

// Fields with names have a blank before them.
pub(super) fn before_fields(fields: Option<&ast::FieldList>) -> &'static str {
    if matches!(fields, Some(ast::FieldList::RecordFieldList(_))) { " " } else { "" }
}
