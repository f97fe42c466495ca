//! The calls that several views share.
use super::expr_ext::may_carry_attributes;
use super::macros::shared;
use super::token_ext::AttrKind;
use super::views::*;
use super::{AstChildren, AstNode, support};
use crate::node::{Node, SyntaxNode};
use crate::{SyntaxKind, T};

/// A node with a name.
pub trait HasName<N: Node = SyntaxNode>: AstNode<N> {
    /// The first child that is a name, if there is one.
    fn name(&self) -> Option<Name<N>> {
        support::first(self.syntax())
    }
}

/// A node that can have a visibility.
pub trait HasVisibility<N: Node = SyntaxNode>: AstNode<N> {
    /// The first child that is a visibility, if there is one.
    fn visibility(&self) -> Option<Visibility<N>> {
        support::first(self.syntax())
    }
}

/// A loop.
pub trait HasLoopBody<N: Node = SyntaxNode>: AstNode<N> {
    /// The body. For a `loop` it is the first block among the children. The first block of a `for` or a `while` may be its
    /// iterator or condition, so there the body is the second block, or the first if there is only one.
    fn loop_body(&self) -> Option<BlockExpr<N>> {
        let count = if self.syntax().kind() == SyntaxKind::LOOP_EXPR { 1 } else { 2 };
        support::all(self.syntax()).take(count).last()
    }

    /// The first child that is a label, if there is one.
    fn label(&self) -> Option<Label<N>> {
        support::first(self.syntax())
    }
}

/// A call.
pub trait HasArgList<N: Node = SyntaxNode>: AstNode<N> {
    /// The first child that is a list of arguments, if there is one.
    fn arg_list(&self) -> Option<ArgList<N>> {
        support::first(self.syntax())
    }
}

/// A container of items.
pub trait HasModuleItem<N: Node = SyntaxNode>: AstNode<N> {
    /// The children that are items, in order.
    fn items(&self) -> AstChildren<Item<N>, N> {
        support::all(self.syntax())
    }
}

/// A node that can have generic parameters.
pub trait HasGenericParams<N: Node = SyntaxNode>: AstNode<N> {
    /// The first child that is a list of generic parameters, if there is one.
    fn generic_param_list(&self) -> Option<GenericParamList<N>> {
        support::first(self.syntax())
    }

    /// The first child that is a where clause, if there is one.
    fn where_clause(&self) -> Option<WhereClause<N>> {
        support::first(self.syntax())
    }
}

/// A node that can have generic arguments.
pub trait HasGenericArgs<N: Node = SyntaxNode>: AstNode<N> {
    /// The first child that is a list of generic arguments, if there is one.
    fn generic_arg_list(&self) -> Option<GenericArgList<N>> {
        support::first(self.syntax())
    }
}

/// A node that can have type bounds.
pub trait HasTypeBounds<N: Node = SyntaxNode>: AstNode<N> {
    /// The first child that is a list of type bounds, if there is one.
    fn type_bound_list(&self) -> Option<TypeBoundList<N>> {
        support::first(self.syntax())
    }

    /// The first token `:` among the children, if there is one.
    fn colon_token(&self) -> Option<N::Token> {
        support::leaf(self.syntax(), T![:])
    }
}

/// A node that can have attributes and documentation.
pub trait HasAttrs<N: Node = SyntaxNode>: AstNode<N> {
    /// The children that are attributes, in order.
    fn attrs(&self) -> AstChildren<Attr<N>, N> {
        support::all(self.syntax())
    }

    /// The children that are doc comments, in order.
    fn doc_comments(&self) -> AstChildren<DocComment<N>, N> {
        support::all(self.syntax())
    }

    /// The children that are attributes or doc comments, in order.
    fn attrs_with_doc(&self) -> AstChildren<AnyAttr<N>, N> {
        support::all(self.syntax())
    }

    /// The node that holds its inner attributes. A file holds its own, and so does a block that can have some. For a function it is the
    /// statement list of its body; for an extern block, a `match`, an implementation, a trait and a module it is the list in it. `None`
    /// for other nodes, and if that part is missing.
    fn inner_attributes_node(&self) -> Option<N> {
        use SyntaxKind::*;
        let owner = self.syntax();
        let child = |node: &N, kind| node.children().find(|it| it.kind() == kind);
        match owner.kind() {
            SOURCE_FILE => Some(owner.clone()),
            BLOCK_EXPR if may_carry_attributes(owner) => Some(owner.clone()),
            FN => child(&child(owner, BLOCK_EXPR)?, STMT_LIST),
            EXTERN_BLOCK => child(owner, EXTERN_ITEM_LIST),
            MATCH_EXPR => child(owner, MATCH_ARM_LIST),
            IMPL | TRAIT => child(owner, ASSOC_ITEM_LIST),
            MODULE => child(owner, ITEM_LIST),
            _ => None,
        }
    }
}

/// The outer attributes and documentation comments of an owner, and then the inner ones, in order.
pub fn attrs_with_doc_including_inner<N: Node, A: HasAttrs<N> + ?Sized>(owner: &A) -> impl Iterator<Item = AnyAttr<N>> + Clone + use<N, A> {
    let of = |node: &N, kind| support::all(node).filter(move |it: &AnyAttr<N>| it.kind() == kind);
    let inner = owner.inner_attributes_node();
    of(owner.syntax(), AttrKind::Outer).chain(inner.into_iter().flat_map(move |it| of(&it, AttrKind::Inner)))
}

/// The outer attributes of an owner, and then the inner ones, in order, without documentation comments.
///
/// ```
/// use ras::ast::{self, AstNode, HasAttrs, attrs_including_inner};
/// use ras::{Edition, SourceFile};
///
/// let file = SourceFile::parse("#[a] /// b\nmod m { #![c] }", Edition::CURRENT).tree();
/// let module = file.syntax().children().find_map(ast::Module::cast).unwrap();
/// let owner: &dyn HasAttrs = &module;
/// assert_eq!(attrs_including_inner(owner).map(|it| it.to_string()).collect::<Vec<_>>(), ["#[a]", "#![c]"]);
/// ```
pub fn attrs_including_inner<N: Node, A: HasAttrs<N> + ?Sized>(owner: &A) -> impl Iterator<Item = Attr<N>> + Clone + use<N, A> {
    AttrsIter::new(attrs_with_doc_including_inner(owner))
}

/// The attributes among attributes and documentation comments.
#[derive(Clone, Debug)]
pub struct AttrsIter<I> {
    all: I,
}

impl<I> AttrsIter<I> {
    /// The attributes among these.
    pub fn new(all: I) -> AttrsIter<I> {
        AttrsIter { all }
    }
}

impl<N, I: Iterator<Item = AnyAttr<N>>> Iterator for AttrsIter<I> {
    type Item = Attr<N>;

    fn next(&mut self) -> Option<Attr<N>> {
        self.all.find_map(|it| match it {
            AnyAttr::Attr(it) => Some(it),
            AnyAttr::DocComment(_) => None,
        })
    }
}

// Views that have a trait in rust-analyzer's crate, and calls of their own by the library's tables.
shared!(HasAttrs: IdentPat, RecordExprFieldList, RestPat);
shared!(HasGenericParams: Adt, Const);
shared!(HasModuleItem: MacroItems);
shared!(HasName: Adt, AsmOperandNamed, Rename);
shared!(HasVisibility: Adt);
