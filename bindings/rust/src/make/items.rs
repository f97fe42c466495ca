//! Items and their parts. Written by bindings/make from crates/rust_make/src.
use super::{MakeError, Piece, Pieces, form};
use crate::ast::{self, AstNode};

/// A parameter: `p: A`.
pub fn param(pat: &ast::Pat, ty: &ast::Type) -> Result<ast::Param, MakeError> {
    form(&[
        Piece::Part(pat.syntax()),
        Piece::Text(": "),
        Piece::Part(ty.syntax()),
    ])
}

/// The parameter `&self`.
pub fn self_param() -> Result<ast::SelfParam, MakeError> {
    form(&[Piece::Text("&self")])
}

/// Parameters: `(p: A, q: B)`.
pub fn param_list(params: &[ast::Param]) -> Result<ast::ParamList, MakeError> {
    let mut form = Pieces::default();
    form.text("(");
    form.separated(params, ", ");
    form.text(")");
    form.made()
}

/// The visibility `pub`.
pub fn visibility_pub() -> Result<ast::Visibility, MakeError> {
    form(&[Piece::Text("pub")])
}

/// An attribute: `#[a]`.
pub fn attr_outer(meta: &ast::Meta) -> Result<ast::Attr, MakeError> {
    form(&[
        Piece::Text("#["),
        Piece::Part(meta.syntax()),
        Piece::Text("]"),
    ])
}

/// What a `use` names: `a::b`.
pub fn use_tree(path: &ast::Path) -> Result<ast::UseTree, MakeError> {
    form(&[Piece::Part(path.syntax())])
}

/// A `use`: `use a::b;`.
pub fn use_(use_tree: &ast::UseTree) -> Result<ast::Use, MakeError> {
    form(&[
        Piece::Text("use "),
        Piece::Part(use_tree.syntax()),
        Piece::Text(";"),
    ])
}

/// A function: `fn a(p: A) -> B { c }`.
pub fn fn_(name: &ast::Name, generics: Option<&ast::GenericParamList>, params: &ast::ParamList, ret_type: Option<&ast::RetType>, body: &ast::BlockExpr) -> Result<ast::Fn, MakeError> {
    let mut form = Pieces::default();
    form.text("fn ");
    form.part(name);
    form.optional("", generics);
    form.part(params);
    form.optional(" ", ret_type);
    form.text(" ");
    form.part(body);
    form.made()
}
