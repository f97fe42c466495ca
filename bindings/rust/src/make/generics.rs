//! Lifetimes, bounds, generic parameters and arguments, and `where`.
use super::{MakeError, Piece, Pieces, form, node};
use crate::Either;
use crate::ast::{self, AstNode};

/// A bound: `A`.
pub fn type_bound(bound: &ast::Type) -> Result<ast::TypeBound, MakeError> {
    form(&[Piece::Part(bound.syntax())])
}

/// A bound of a text: `A`, `?Sized`, `for<'a> A<'a>`, `'a`.
pub fn type_bound_text(bound: &str) -> Result<ast::TypeBound, MakeError> {
    node(bound)
}

/// Bounds: `A + B`. There is no list of no bounds.
pub fn type_bound_list(bounds: &[ast::TypeBound]) -> Result<Option<ast::TypeBoundList>, MakeError> {
    if bounds.is_empty() {
        return Ok(None);
    }
    let mut form = Pieces::default();
    form.separated(bounds, " + ");
    form.made().map(Some)
}

/// A type parameter, with its bounds if there are some: `T: A + B`.
pub fn type_param(name: &ast::Name, bounds: Option<&ast::TypeBoundList>) -> Result<ast::TypeParam, MakeError> {
    let mut form = Pieces::default();
    form.part(name);
    form.optional(": ", bounds);
    form.made()
}

/// A constant as a parameter: `const N: A`.
pub fn const_param(name: &ast::Name, ty: &ast::Type) -> Result<ast::ConstParam, MakeError> {
    form(&[Piece::Text("const "), Piece::Part(name.syntax()), Piece::Text(": "), Piece::Part(ty.syntax())])
}

/// A lifetime as a parameter: `'a`.
pub fn lifetime_param(lifetime: &ast::Lifetime) -> Result<ast::LifetimeParam, MakeError> {
    form(&[Piece::Part(lifetime.syntax())])
}

/// A lifetime as an argument: `'a`.
pub fn lifetime_arg(lifetime: &ast::Lifetime) -> Result<ast::LifetimeArg, MakeError> {
    form(&[Piece::Part(lifetime.syntax())])
}

/// A constant as an argument: `1`, `{ a + b }`.
pub fn expr_const_value(text: &str) -> Result<ast::ConstArg, MakeError> {
    node(text)
}

/// Generic arguments as an expression has them: `::<A, B>`.
pub fn turbofish_generic_arg_list(args: &[ast::GenericArg]) -> Result<ast::GenericArgList, MakeError> {
    let mut form = Pieces::default();
    form.text("::<");
    form.separated(args, ", ");
    form.text(">");
    form.made()
}

/// One predicate of a `where`: `T: A + B`, `'a: 'b`.
pub fn where_pred(of: Either<&ast::Lifetime, &ast::Type>, bounds: &[ast::TypeBound]) -> Result<ast::WherePred, MakeError> {
    let mut form = Pieces::default();
    match of {
        Either::Left(lifetime) => form.part(lifetime),
        Either::Right(ty) => form.part(ty),
    }
    form.text(": ");
    form.separated(bounds, " + ");
    form.made()
}

/// A `where`: `where T: A, U: B`.
pub fn where_clause(preds: &[ast::WherePred]) -> Result<ast::WhereClause, MakeError> {
    let mut form = Pieces::default();
    form.text("where ");
    form.separated(preds, ", ");
    form.made()
}

/// The type of a value that has these bounds: `impl A + B`.
pub fn impl_trait_type(bounds: &ast::TypeBoundList) -> Result<ast::ImplTraitType, MakeError> {
    form(&[Piece::Text("impl "), Piece::Part(bounds.syntax())])
}

/// A segment with generic arguments as a type has them: `A<B, C>`.
pub fn generic_ty_path_segment(name_ref: &ast::NameRef, args: &[ast::GenericArg]) -> Result<ast::PathSegment, MakeError> {
    let mut form = Pieces::default();
    form.part(name_ref);
    form.text("<");
    form.separated(args, ", ");
    form.text(">");
    form.made()
}
