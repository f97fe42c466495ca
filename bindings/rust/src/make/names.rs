//! Names, paths and generic arguments. Written by bindings/make from crates/rust_make/src.
use super::{MakeError, Piece, Pieces, form, raw_prefix, text_if};
use crate::ast::{self, AstNode};

/// A lifetime with its sign: `'a`. Without the sign it is refused.
pub fn lifetime(text: &str) -> Result<ast::Lifetime, MakeError> {
    form(&[Piece::Text(text)])
}

/// A name that is defined: `a`. A keyword of the edition gets `r#`: `r#type`. `self`, `super`,
/// `crate` and `Self` cannot be such names, and are refused.
pub fn name(text: &str) -> Result<ast::Name, MakeError> {
    form(&[Piece::Text(raw_prefix(text)), Piece::Text(text)])
}

/// A name that is used: `a`. A keyword of the edition gets `r#`: `r#type`; but `self`, `super`,
/// `crate` and `Self` stay as they are.
pub fn name_ref(text: &str) -> Result<ast::NameRef, MakeError> {
    form(&[Piece::Text(raw_prefix(text)), Piece::Text(text)])
}

/// A path, as in a type: `a::b<C>`.
pub fn path_from_text(text: &str) -> Result<ast::Path, MakeError> {
    form(&[Piece::Text(text)])
}

/// A path of one name: `a`. A keyword of the edition gets `r#`, as in `name_ref`.
pub fn ident_path(text: &str) -> Result<ast::Path, MakeError> {
    form(&[Piece::Text(raw_prefix(text)), Piece::Text(text)])
}

/// A segment without generic arguments.
pub fn path_segment(name_ref: &ast::NameRef) -> Result<ast::PathSegment, MakeError> {
    form(&[Piece::Part(name_ref.syntax())])
}

/// A path of one segment.
pub fn path_unqualified(segment: &ast::PathSegment) -> Result<ast::Path, MakeError> {
    form(&[Piece::Part(segment.syntax())])
}

/// A path with one more segment: `a::b`.
pub fn path_qualified(qual: &ast::Path, segment: &ast::PathSegment) -> Result<ast::Path, MakeError> {
    form(&[
        Piece::Part(qual.syntax()),
        Piece::Text("::"),
        Piece::Part(segment.syntax()),
    ])
}

/// A path and another one behind it: `a::b::c`. The second one is put by its text, since its
/// segments become those of one longer path.
pub fn path_concat(first: &ast::Path, second: &ast::Path) -> Result<ast::Path, MakeError> {
    form(&[
        Piece::Part(first.syntax()),
        Piece::Text("::"),
        Piece::Text(second.syntax().text()),
    ])
}

/// A path of segments, from the root if `is_abs`: `a::b`, `::a::b`. Of no segments it is
/// refused.
pub fn path_from_segments(segments: &[ast::PathSegment], is_abs: bool) -> Result<ast::Path, MakeError> {
    let mut form = Pieces::default();
    form.text(text_if(is_abs, "::"));
    form.leading(is_abs, segments, "::");
    form.made()
}

/// A type as a generic argument.
pub fn type_arg(ty: &ast::Type) -> Result<ast::TypeArg, MakeError> {
    form(&[Piece::Part(ty.syntax())])
}

/// Generic arguments: `<A, B>`.
pub fn generic_arg_list(args: &[ast::GenericArg]) -> Result<ast::GenericArgList, MakeError> {
    let mut form = Pieces::default();
    form.text("<");
    form.separated(args, ", ");
    form.text(">");
    form.made()
}

/// Generic parameters: `<A, B>`.
pub fn generic_param_list(params: &[ast::GenericParam]) -> Result<ast::GenericParamList, MakeError> {
    let mut form = Pieces::default();
    form.text("<");
    form.separated(params, ", ");
    form.text(">");
    form.made()
}
