//! Types. Written by bindings/make from crates/rust_make/src.
use super::{MakeError, Piece, form};
use crate::ast::{self, AstNode};

/// A type: `A<B>`.
pub fn ty(text: &str) -> Result<ast::Type, MakeError> {
    form(&[Piece::Text(text)])
}

/// The type that is inferred: `_`.
pub fn ty_placeholder() -> Result<ast::Type, MakeError> {
    form(&[Piece::Text("_")])
}

/// The type `()`.
pub fn ty_unit() -> Result<ast::Type, MakeError> {
    form(&[Piece::Text("()")])
}

/// A path as a type.
pub fn ty_path(path: &ast::Path) -> Result<ast::Type, MakeError> {
    form(&[Piece::Part(path.syntax())])
}

/// A shared reference: `&A`. A sum of bounds gets a pair: `&(dyn A + B)`.
pub fn ty_ref(target: &ast::Type) -> Result<ast::Type, MakeError> {
    form(&[Piece::Text("&"), Piece::Left(target.syntax())])
}

/// A reference that may write: `&mut A`.
pub fn ty_ref_mut(target: &ast::Type) -> Result<ast::Type, MakeError> {
    form(&[Piece::Text("&mut "), Piece::Left(target.syntax())])
}

/// A result type: `-> A`.
pub fn ret_type(ty: &ast::Type) -> Result<ast::RetType, MakeError> {
    form(&[Piece::Text("-> "), Piece::Part(ty.syntax())])
}
