//! Places of nodes that outlive their tree.
use crate::ast::AstNode;
use crate::node::SyntaxNode;
use crate::range::TextRange;
use crate::{Either, SyntaxKind};
use std::fmt;
use std::hash::{Hash, Hasher};
use std::marker::PhantomData;

/// A kind and a range, by which a node is found again in a tree of the same text.
#[derive(Clone, Copy, Debug, PartialEq, Eq, Hash)]
pub struct SyntaxNodePtr {
    kind: SyntaxKind,
    range: TextRange,
}

impl SyntaxNodePtr {
    /// The kind and range of a node.
    pub fn new(node: &SyntaxNode) -> SyntaxNodePtr {
        SyntaxNodePtr { kind: node.kind(), range: node.text_range() }
    }

    /// The node of this kind with this range; `None` if the tree has none. Of several, one around the other, it is the outermost.
    ///
    /// It takes time in the depth of the node and in the number of children passed.
    pub fn try_to_node(&self, root: &SyntaxNode) -> Option<SyntaxNode> {
        let around = |node: &SyntaxNode| node.children().find(|it| it.text_range().contains_range(self.range));
        std::iter::successors(Some(root.clone()), around).find(|it| it.kind() == self.kind && it.text_range() == self.range)
    }

    /// The node of this kind with this range.
    ///
    /// # Panics
    ///
    /// It panics if the tree has no such node.
    pub fn to_node(&self, root: &SyntaxNode) -> SyntaxNode {
        self.try_to_node(root).unwrap_or_else(|| panic!("the tree has no {self:?}"))
    }

    /// The same place by a type; `None` if a node of this kind is not of the type.
    pub fn cast<A: AstNode>(self) -> Option<AstPtr<A>> {
        A::can_cast(self.kind).then_some(AstPtr { raw: self, view: PhantomData })
    }

    /// The kind.
    pub fn kind(&self) -> SyntaxKind {
        self.kind
    }

    /// The range.
    pub fn text_range(&self) -> TextRange {
        self.range
    }
}

/// A [`SyntaxNodePtr`] of a node of a type.
pub struct AstPtr<A> {
    raw: SyntaxNodePtr,
    view: PhantomData<fn() -> A>,
}

impl<A: AstNode> AstPtr<A> {
    /// The place of a node.
    pub fn new(node: &A) -> AstPtr<A> {
        AstPtr { raw: SyntaxNodePtr::new(node.syntax()), view: PhantomData }
    }

    /// The node; `None` if the tree has none of this kind with this range.
    pub fn try_to_node(&self, root: &SyntaxNode) -> Option<A> {
        A::cast(self.raw.try_to_node(root)?)
    }

    /// The node.
    ///
    /// # Panics
    ///
    /// It panics if the tree has no such node.
    pub fn to_node(&self, root: &SyntaxNode) -> A {
        self.try_to_node(root).unwrap_or_else(|| panic!("the tree has no {:?}", self.raw))
    }

    /// The place without the type.
    pub fn syntax_node_ptr(&self) -> SyntaxNodePtr {
        self.raw
    }

    /// The range.
    pub fn text_range(self) -> TextRange {
        self.raw.range
    }

    /// The kind.
    pub fn kind(&self) -> SyntaxKind {
        self.raw.kind
    }

    /// The same place by another type; `None` if a node of this kind is not of that type.
    pub fn cast<B: AstNode>(self) -> Option<AstPtr<B>> {
        self.raw.cast()
    }

    /// The same place by a type of which this one is a variant.
    pub fn upcast<B: AstNode + From<A>>(self) -> AstPtr<B> {
        AstPtr { raw: self.raw, view: PhantomData }
    }

    /// The place by this type; `None` if a node of its kind is not of this type.
    pub fn try_from_raw(raw: SyntaxNodePtr) -> Option<AstPtr<A>> {
        raw.cast()
    }

    /// The same place by either type.
    pub fn wrap_left<R>(self) -> AstPtr<Either<A, R>> {
        AstPtr { raw: self.raw, view: PhantomData }
    }

    /// The same place by either type.
    pub fn wrap_right<L>(self) -> AstPtr<Either<L, A>> {
        AstPtr { raw: self.raw, view: PhantomData }
    }
}

impl<A> Clone for AstPtr<A> {
    fn clone(&self) -> Self {
        *self
    }
}

impl<A> Copy for AstPtr<A> {}

impl<A> PartialEq for AstPtr<A> {
    fn eq(&self, other: &Self) -> bool {
        self.raw == other.raw
    }
}

impl<A> Eq for AstPtr<A> {}

impl<A> Hash for AstPtr<A> {
    fn hash<H: Hasher>(&self, state: &mut H) {
        self.raw.hash(state);
    }
}

impl<A> fmt::Debug for AstPtr<A> {
    fn fmt(&self, f: &mut fmt::Formatter<'_>) -> fmt::Result {
        f.debug_tuple("AstPtr").field(&self.raw).finish()
    }
}

impl<A> From<AstPtr<A>> for SyntaxNodePtr {
    fn from(it: AstPtr<A>) -> SyntaxNodePtr {
        it.raw
    }
}
