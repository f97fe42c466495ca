//! Definitions: structs, enums, traits, their implementations, constants, aliases and modules; attributes and imports.
//!
//! An attribute, a comment and a visibility are put before an item by a [`SyntaxEditor`](crate::syntax_editor::SyntaxEditor).
use super::records::before_fields;
use super::{MakeError, Piece, Pieces, form, node};
use crate::ast::{self, AstNode};

/// A struct: `struct A { a: B }`, `struct A(B);`, and without fields `struct A;`.
pub fn struct_(name: &ast::Name, generics: Option<&ast::GenericParamList>, fields: Option<&ast::FieldList>) -> Result<ast::Struct, MakeError> {
    let mut form = Pieces::default();
    form.text("struct ");
    form.part(name);
    form.optional("", generics);
    form.optional(before_fields(fields), fields);
    form.text(if matches!(fields, Some(ast::FieldList::RecordFieldList(_))) { "" } else { ";" });
    form.made()
}

/// An enum: `enum A { B, C }`.
pub fn enum_(
    name: &ast::Name,
    generics: Option<&ast::GenericParamList>,
    where_clause: Option<&ast::WhereClause>,
    variants: &ast::VariantList,
) -> Result<ast::Enum, MakeError> {
    let mut form = Pieces::default();
    form.text("enum ");
    form.part(name);
    form.optional("", generics);
    form.optional(" ", where_clause);
    form.text(" ");
    form.part(variants);
    form.made()
}

/// A trait: `trait A<T> where T: B { .. }`.
pub fn trait_(
    name: &ast::Name,
    generics: Option<&ast::GenericParamList>,
    where_clause: Option<&ast::WhereClause>,
    items: &ast::AssocItemList,
) -> Result<ast::Trait, MakeError> {
    let mut form = Pieces::default();
    form.text("trait ");
    form.part(name);
    form.optional("", generics);
    form.optional(" ", where_clause);
    form.text(" ");
    form.part(items);
    form.made()
}

/// An implementation of no trait: `impl<T> A<T> where T: B { .. }`.
pub fn impl_(
    generics: Option<&ast::GenericParamList>,
    ty: &ast::Type,
    where_clause: Option<&ast::WhereClause>,
    items: &ast::AssocItemList,
) -> Result<ast::Impl, MakeError> {
    let mut form = Pieces::default();
    form.text("impl");
    form.optional("", generics);
    form.text(" ");
    form.part(ty);
    form.optional(" ", where_clause);
    form.text(" ");
    form.part(items);
    form.made()
}

/// An implementation of a trait: `impl<T> A for B<T> where T: C { .. }`.
pub fn impl_trait(
    generics: Option<&ast::GenericParamList>,
    trait_: &ast::Type,
    ty: &ast::Type,
    where_clause: Option<&ast::WhereClause>,
    items: &ast::AssocItemList,
) -> Result<ast::Impl, MakeError> {
    let mut form = Pieces::default();
    form.text("impl");
    form.optional("", generics);
    form.text(" ");
    form.part(trait_);
    form.text(" for ");
    form.part(ty);
    form.optional(" ", where_clause);
    form.text(" ");
    form.part(items);
    form.made()
}

/// Items of a trait or an implementation, a line for each: `{}` without any.
pub fn assoc_item_list(items: &[ast::AssocItem]) -> Result<ast::AssocItemList, MakeError> {
    let mut form = Pieces::default();
    form.braced(items);
    form.made()
}

/// Items of a module, a line for each: `{}` without any.
pub fn item_list(items: &[ast::Item]) -> Result<ast::ItemList, MakeError> {
    let mut form = Pieces::default();
    form.braced(items);
    form.made()
}

/// A module: `mod a { .. }`, and without items `mod a;`.
pub fn mod_(name: &ast::Name, items: Option<&ast::ItemList>) -> Result<ast::Module, MakeError> {
    let mut form = Pieces::default();
    form.text("mod ");
    form.part(name);
    form.optional(" ", items);
    form.text(if items.is_some() { "" } else { ";" });
    form.made()
}

/// A constant: `const A: B = c;`.
pub fn item_const(name: &ast::Name, ty: &ast::Type, expr: &ast::Expr) -> Result<ast::Const, MakeError> {
    form(&[
        Piece::Text("const "),
        Piece::Part(name.syntax()),
        Piece::Text(": "),
        Piece::Part(ty.syntax()),
        Piece::Text(" = "),
        Piece::Part(expr.syntax()),
        Piece::Text(";"),
    ])
}

/// A static: `static A: B = c;`, `static mut A: B = c;`.
pub fn item_static(is_mut: bool, name: &ast::Name, ty: &ast::Type, expr: &ast::Expr) -> Result<ast::Static, MakeError> {
    form(&[
        Piece::Text(if is_mut { "static mut " } else { "static " }),
        Piece::Part(name.syntax()),
        Piece::Text(": "),
        Piece::Part(ty.syntax()),
        Piece::Text(" = "),
        Piece::Part(expr.syntax()),
        Piece::Text(";"),
    ])
}

/// An alias of a type: `type A<T> = B<T>;`.
pub fn ty_alias(name: &ast::Name, generics: Option<&ast::GenericParamList>, ty: &ast::Type) -> Result<ast::TypeAlias, MakeError> {
    let mut form = Pieces::default();
    form.text("type ");
    form.part(name);
    form.optional("", generics);
    form.text(" = ");
    form.part(ty);
    form.text(";");
    form.made()
}

/// The visibility `pub(crate)`.
pub fn visibility_pub_crate() -> Result<ast::Visibility, MakeError> {
    node("pub(crate)")
}

/// The parameter `&mut self`.
pub fn mut_self_param() -> Result<ast::SelfParam, MakeError> {
    node("&mut self")
}

/// What an attribute says, by a path alone: `inline`.
pub fn meta_path(path: &ast::Path) -> Result<ast::Meta, MakeError> {
    form(&[Piece::Part(path.syntax())])
}

/// What an attribute says, by a value: `path = "a.rs"`.
pub fn meta_expr(path: &ast::Path, expr: &ast::Expr) -> Result<ast::Meta, MakeError> {
    form(&[Piece::Part(path.syntax()), Piece::Text(" = "), Piece::Part(expr.syntax())])
}

/// What an attribute says, by tokens: `derive(Clone)`.
pub fn meta_token_tree(path: &ast::Path, tokens: &ast::TokenTree) -> Result<ast::Meta, MakeError> {
    form(&[Piece::Part(path.syntax()), Piece::Part(tokens.syntax())])
}

/// What a `use` names if it names all: `*`.
pub fn use_tree_glob() -> Result<ast::UseTree, MakeError> {
    node("*")
}

/// What a `use` names in braces: `{a, b::c}`.
pub fn use_tree_list(trees: &[ast::UseTree]) -> Result<ast::UseTreeList, MakeError> {
    let mut form = Pieces::default();
    form.text("{");
    form.separated(trees, ", ");
    form.text("}");
    form.made()
}
