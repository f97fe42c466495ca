//! The lookups of which the views' calls are made.
use super::{AstChildren, AstNode};
use crate::iter::rows_of_children;
use crate::node::{Node, SyntaxNode, SyntaxToken};
use crate::SyntaxKind;

/// The first child that can be viewed as an `A`.
pub fn child<A: AstNode>(parent: &SyntaxNode) -> Option<A> {
    first(parent)
}

/// The children that can be viewed as an `A`, in order.
pub fn children<A: AstNode>(parent: &SyntaxNode) -> AstChildren<A> {
    all(parent)
}

/// The first child that is a token of this kind.
pub fn token(parent: &SyntaxNode, kind: SyntaxKind) -> Option<SyntaxToken> {
    leaf(parent, kind)
}

pub(crate) fn first<A: AstNode<N>, N: Node>(parent: &N) -> Option<A> {
    let tree = parent.tree_of();
    let mut rows = rows_of_children(tree, parent.row_number());
    let row = rows.find(|it| !tree.is_token(*it) && A::can_cast(tree.kind_of(*it)))?;
    A::cast(parent.node_at(row))
}

pub(crate) fn all<A: AstNode<N>, N: Node>(parent: &N) -> AstChildren<A, N> {
    AstChildren::of(parent)
}

pub(crate) fn leaf<N: Node>(parent: &N, kind: SyntaxKind) -> Option<N::Token> {
    leaf_in(parent, |it| it == kind)
}

// The first child that is a token of which the kind is accepted.
pub(crate) fn leaf_in<N: Node>(parent: &N, accepts: impl Fn(SyntaxKind) -> bool) -> Option<N::Token> {
    let tree = parent.tree_of();
    let mut rows = rows_of_children(tree, parent.row_number());
    rows.find(|it| tree.is_token(*it) && accepts(tree.kind_of(*it))).map(|row| parent.token_at(row))
}

// The first child of which the kind is accepted, if it is a token.
pub(crate) fn first_if_token<N: Node>(parent: &N, accepts: impl Fn(SyntaxKind) -> bool) -> Option<N::Token> {
    let tree = parent.tree_of();
    let row = rows_of_children(tree, parent.row_number()).find(|it| accepts(tree.kind_of(*it)))?;
    tree.is_token(row).then(|| parent.token_at(row))
}

// The text of the first child, if that is a token.
pub(crate) fn first_text<N: Node>(parent: &N) -> Option<&str> {
    let tree = parent.tree_of();
    tree.first_child_of(parent.row_number()).filter(|row| tree.is_token(*row)).map(|row| tree.text_of(row))
}

// The same node by another view.
pub(crate) fn recast<A: AstNode<N>, B: AstNode<N>, N: Node>(view: Option<A>) -> Option<B> {
    B::cast(view?.syntax().clone())
}

pub(crate) fn parent_as<A: AstNode<N>, N: Node>(node: &N) -> Option<A> {
    A::cast(node.parent()?)
}

pub(crate) fn grandparent_as<A: AstNode<N>, N: Node>(node: &N) -> Option<A> {
    A::cast(node.parent()?.parent()?)
}

// The nearest node above it that can be viewed so.
pub(crate) fn ancestor_as<A: AstNode<N>, N: Node>(node: &N) -> Option<A> {
    node.ancestors().skip(1).find_map(A::cast)
}
