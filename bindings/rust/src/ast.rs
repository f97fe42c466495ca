//! Nodes and tokens by type: `ast::Fn` for a function, `ast::Expr` for any expression.
//!
//! A view is made of a node by [`AstNode::cast`], and is no more than the node. Its calls look for the first child of a type, for all of
//! them, or for a token; a part that the text lacks is `None`.
//!
//! Views are over nodes that own a share of their tree, as those of rust-analyzer's crate. [`borrowed`] has them over nodes that borrow it.
//!
//! ```
//! use ras::ast::{self, AstNode, HasName};
//! use ras::{Edition, SourceFile};
//!
//! let file = SourceFile::parse("fn one() {} struct Two; fn three() {}", Edition::CURRENT).tree();
//! let functions = file.syntax().descendants().filter_map(ast::Fn::cast);
//! let names: Vec<_> = functions.filter_map(|it| it.name()).map(|it| it.to_string()).collect();
//! assert_eq!(names, ["one", "three"]);
//! ```
mod aliases;
mod attr_ext;
pub mod edit;
mod expr_ext;
mod macros;
mod node_ext;
mod operators;
pub mod prec;
mod string_ext;
pub mod support;
mod token_ext;
mod traits;
pub mod views;
pub mod visit;

pub use crate::make;
pub use aliases::*;
pub use operators::{ArithOp, BinaryOp, CmpOp, LogicOp, Ordering, RangeOp, UnaryOp};
pub use string_ext::{IsString, QuoteOffsets};
pub use token_ext::{AttrKind, CommentKind, CommentShape, Radix};
pub use traits::{
    AttrsIter, HasArgList, HasAttrs, HasGenericArgs, HasGenericParams, HasLoopBody, HasModuleItem, HasName, HasTypeBounds, HasVisibility,
    attrs_including_inner, attrs_with_doc_including_inner,
};
pub use views::RangeItem;

use crate::iter::ChildrenWithTokens;
use crate::node::{Node, SyntaxNode, SyntaxToken, Token};
use crate::{Either, SyntaxKind};
use std::fmt;
use std::marker::PhantomData;

/// A view of a node.
pub trait AstNode<N: Node = SyntaxNode> {
    /// The kind of the nodes that can be viewed so.
    ///
    /// # Panics
    ///
    /// It panics for a type of nodes of several kinds, as [`Expr`].
    fn kind() -> SyntaxKind
    where
        Self: Sized,
    {
        panic!("nodes of several kinds can be viewed so")
    }

    /// Whether a node of this kind can be viewed so.
    fn can_cast(kind: SyntaxKind) -> bool
    where
        Self: Sized;

    /// The view of a node; `None` if it is of another kind.
    fn cast(syntax: N) -> Option<Self>
    where
        Self: Sized;

    /// The node.
    fn syntax(&self) -> &N;

    /// A copy of the node with all below it, as the root of a tree of its own.
    fn clone_subtree(&self) -> Self
    where
        Self: Sized + AstNode<SyntaxNode>,
    {
        let copy = <Self as AstNode<SyntaxNode>>::syntax(self).clone_subtree();
        <Self as AstNode<SyntaxNode>>::cast(copy).expect("a copy has the kind of the node")
    }
}

/// A view of a token.
pub trait AstToken<T: Token = SyntaxToken> {
    /// Whether a token of this kind can be viewed so.
    fn can_cast(kind: SyntaxKind) -> bool
    where
        Self: Sized;

    /// The view of a token; `None` if it is of another kind.
    fn cast(syntax: T) -> Option<Self>
    where
        Self: Sized;

    /// The token.
    fn syntax(&self) -> &T;

    /// The token's text.
    fn text<'a>(&'a self) -> &'a str
    where
        T: 'a,
    {
        Token::text(self.syntax())
    }
}

/// A node of which both types may be a view: `Left` if the first one is.
impl<N: Node, L: AstNode<N>, R: AstNode<N>> AstNode<N> for Either<L, R> {
    fn can_cast(kind: SyntaxKind) -> bool {
        L::can_cast(kind) || R::can_cast(kind)
    }

    fn cast(syntax: N) -> Option<Self> {
        if L::can_cast(syntax.kind()) { L::cast(syntax).map(Either::Left) } else { R::cast(syntax).map(Either::Right) }
    }

    fn syntax(&self) -> &N {
        match self {
            Either::Left(it) => it.syntax(),
            Either::Right(it) => it.syntax(),
        }
    }
}

impl<N: Node, L: HasAttrs<N>, R: HasAttrs<N>> HasAttrs<N> for Either<L, R> {}

impl<N: Node, L: HasName<N>, R: HasName<N>> HasName<N> for Either<L, R> {}

/// The children of a node that can be viewed as an `A`, in order.
pub struct AstChildren<A, N = SyntaxNode> {
    children: ChildrenWithTokens<N>,
    view: PhantomData<fn() -> A>,
}

impl<A, N: Node> AstChildren<A, N> {
    fn of(parent: &N) -> Self {
        AstChildren { children: parent.children_with_tokens(), view: PhantomData }
    }
}

impl<A: AstNode<N>, N: Node> Iterator for AstChildren<A, N> {
    type Item = A;

    fn next(&mut self) -> Option<A> {
        A::cast(self.children.next_node(A::can_cast)?)
    }
}

impl<A, N: Clone> Clone for AstChildren<A, N> {
    fn clone(&self) -> Self {
        AstChildren { children: self.children.clone(), view: PhantomData }
    }
}

impl<A, N: fmt::Debug> fmt::Debug for AstChildren<A, N> {
    fn fmt(&self, f: &mut fmt::Formatter<'_>) -> fmt::Result {
        f.debug_tuple("AstChildren").field(&self.children).finish()
    }
}
