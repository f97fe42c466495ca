//! Nodes and tokens: places in a tree.
//!
//! [`SyntaxNode`] and [`SyntaxToken`] own a share of their tree, [`NodeRef`] and [`TokenRef`] borrow it. The calls are the same: each is
//! defined once, in the traits [`Node`] and [`Token`], over the rows of the tree.
pub use crate::element::{Direction, NodeOrToken};
use crate::iter::{Children, ChildrenWithTokens, Descendants, DescendantsWithTokens, Preorder, PreorderWithTokens, TokenAtOffset};
use crate::kind::SyntaxKind;
use crate::range::{TextRange, TextSize};
use crate::tree::Tree;
use std::borrow::Cow;
use std::fmt;
use std::hash::{Hash, Hasher};
use std::iter::successors;

pub(crate) mod place {
    use crate::tree::Tree;

    // A row of a tree.
    pub trait Place: Clone {
        fn tree_of(&self) -> &Tree;
        fn row_number(&self) -> u32;
    }
}
use place::Place;

/// A node, which owns a share of its tree or borrows it: a [`SyntaxNode`] or a [`NodeRef`]. Code that is to work with both takes this
/// as a bound; the calls are those that both types have of their own.
pub trait Node: Place + Eq + Hash + fmt::Debug + fmt::Display {
    /// The tokens that go with it.
    type Token: Token<Node = Self>;

    #[doc(hidden)]
    fn node_at(&self, row: u32) -> Self;

    #[doc(hidden)]
    fn token_at(&self, row: u32) -> Self::Token;

    #[doc(hidden)]
    fn element_at(&self, row: u32) -> NodeOrToken<Self, Self::Token> {
        if self.tree_of().is_token(row) { NodeOrToken::Token(self.token_at(row)) } else { NodeOrToken::Node(self.node_at(row)) }
    }

    /// The kind of the node.
    fn kind(&self) -> SyntaxKind {
        self.tree_of().kind_of(self.row_number())
    }

    /// The range of the node in the text, in bytes.
    fn text_range(&self) -> TextRange {
        self.tree_of().range_of(self.row_number())
    }

    /// The text of the node, a slice of the tree's text.
    fn text(&self) -> &str {
        self.tree_of().text_of(self.row_number())
    }

    /// The node that it is a child of; `None` for the root.
    fn parent(&self) -> Option<Self> {
        self.tree_of().parent_of(self.row_number()).map(|row| self.node_at(row))
    }

    /// This node, its parent, and so on up to the root.
    fn ancestors(&self) -> impl Iterator<Item = Self> {
        successors(Some(self.clone()), Node::parent)
    }

    /// The first child, node or token.
    fn first_child_or_token(&self) -> Option<NodeOrToken<Self, Self::Token>> {
        self.tree_of().first_child_of(self.row_number()).map(|row| self.element_at(row))
    }

    /// The last child, node or token.
    fn last_child_or_token(&self) -> Option<NodeOrToken<Self, Self::Token>> {
        self.tree_of().last_child_of(self.row_number()).map(|row| self.element_at(row))
    }

    /// The next sibling, node or token.
    fn next_sibling_or_token(&self) -> Option<NodeOrToken<Self, Self::Token>> {
        self.tree_of().next_sibling_of(self.row_number()).map(|row| self.element_at(row))
    }

    /// The sibling before, node or token.
    fn prev_sibling_or_token(&self) -> Option<NodeOrToken<Self, Self::Token>> {
        self.tree_of().prev_sibling_of(self.row_number()).map(|row| self.element_at(row))
    }

    /// The children, nodes and tokens, in order.
    fn children_with_tokens(&self) -> ChildrenWithTokens<Self> {
        ChildrenWithTokens::of(self.clone())
    }

    /// The child nodes, in order.
    fn children(&self) -> Children<Self> {
        Children(self.children_with_tokens())
    }

    /// This node and all nodes and tokens below it, in preorder.
    fn descendants_with_tokens(&self) -> DescendantsWithTokens<Self> {
        DescendantsWithTokens::of(self.clone())
    }

    /// The first token of this node.
    fn first_token(&self) -> Option<Self::Token> {
        let (tree, row) = (self.tree_of(), self.row_number());
        (row..tree.end_of(row)).find(|it| tree.is_token(*it)).map(|it| self.token_at(it))
    }

    /// The last token of this node.
    fn last_token(&self) -> Option<Self::Token> {
        let (tree, row) = (self.tree_of(), self.row_number());
        (row..tree.end_of(row)).rev().find(|it| tree.is_token(*it)).map(|it| self.token_at(it))
    }
}

/// A token, which owns a share of its tree or borrows it: a [`SyntaxToken`] or a [`TokenRef`].
pub trait Token: Place + Eq + Hash + fmt::Debug + fmt::Display {
    /// The nodes that go with it.
    type Node: Node<Token = Self>;

    #[doc(hidden)]
    fn node_at(&self, row: u32) -> Self::Node;

    #[doc(hidden)]
    fn token_at(&self, row: u32) -> Self;

    /// The kind of the token.
    fn kind(&self) -> SyntaxKind {
        self.tree_of().kind_of(self.row_number())
    }

    /// The range of the token in the text, in bytes.
    fn text_range(&self) -> TextRange {
        self.tree_of().range_of(self.row_number())
    }

    /// The text of the token, a slice of the tree's text.
    fn text(&self) -> &str {
        self.tree_of().text_of(self.row_number())
    }

    /// The node that it is a child of; `None` only if the text's whole tree is a token.
    fn parent(&self) -> Option<Self::Node> {
        self.tree_of().parent_of(self.row_number()).map(|row| self.node_at(row))
    }

    /// The next token of the tree.
    fn next_token(&self) -> Option<Self> {
        let tree = self.tree_of();
        let behind = tree.rows().len() as u32;
        (self.row_number() + 1..behind).find(|it| tree.is_token(*it)).map(|it| self.token_at(it))
    }

    /// The token before it in the tree.
    fn prev_token(&self) -> Option<Self> {
        let tree = self.tree_of();
        (0..self.row_number()).rev().find(|it| tree.is_token(*it)).map(|it| self.token_at(it))
    }
}

// The types of nodes and tokens that hold a tree in one way, with their calls.
macro_rules! places {
    ($(#[$node_doc:meta])* $node:ident, $(#[$token_doc:meta])* $token:ident, [$($life:lifetime)?] $tree:ty) => {
        $(#[$node_doc])*
        #[derive(Clone)]
        pub struct $node$(<$life>)? {
            tree: $tree,
            row: u32,
        }

        $(#[$token_doc])*
        #[derive(Clone)]
        pub struct $token$(<$life>)? {
            tree: $tree,
            row: u32,
        }

        impl$(<$life>)? Node for $node$(<$life>)? {
            type Token = $token$(<$life>)?;

            fn node_at(&self, row: u32) -> Self {
                $node { tree: Clone::clone(&self.tree), row }
            }

            fn token_at(&self, row: u32) -> Self::Token {
                $token { tree: Clone::clone(&self.tree), row }
            }
        }

        impl$(<$life>)? Token for $token$(<$life>)? {
            type Node = $node$(<$life>)?;

            fn node_at(&self, row: u32) -> Self::Node {
                $node { tree: Clone::clone(&self.tree), row }
            }

            fn token_at(&self, row: u32) -> Self {
                $token { tree: Clone::clone(&self.tree), row }
            }
        }

        impl$(<$life>)? $node$(<$life>)? {
            pub(crate) fn at(tree: $tree, row: u32) -> Self {
                $node { tree, row }
            }

            /// The kind of the node.
            pub fn kind(&self) -> SyntaxKind {
                Node::kind(self)
            }

            /// The range of the node in the text, in bytes.
            pub fn text_range(&self) -> TextRange {
                Node::text_range(self)
            }

            /// The node that it is a child of; `None` for the root.
            pub fn parent(&self) -> Option<Self> {
                Node::parent(self)
            }

            /// This node, its parent, and so on up to the root.
            pub fn ancestors(&self) -> impl Iterator<Item = Self> + use<$($life)?> {
                successors(Some(self.clone()), Node::parent)
            }

            /// The first child, node or token.
            pub fn first_child_or_token(&self) -> Option<NodeOrToken<Self, <Self as Node>::Token>> {
                Node::first_child_or_token(self)
            }

            /// The last child, node or token. It climbs from the last row of the subtree, so it takes time in the depth there.
            pub fn last_child_or_token(&self) -> Option<NodeOrToken<Self, <Self as Node>::Token>> {
                Node::last_child_or_token(self)
            }

            /// The first child node.
            pub fn first_child(&self) -> Option<Self> {
                self.children().next()
            }

            /// The first child node of which the kind is accepted.
            pub fn first_child_by_kind(&self, accepts: &impl Fn(SyntaxKind) -> bool) -> Option<Self> {
                self.children_with_tokens().next_node(accepts)
            }

            /// The first child, node or token, of which the kind is accepted.
            pub fn first_child_or_token_by_kind(&self, accepts: &impl Fn(SyntaxKind) -> bool) -> Option<NodeOrToken<Self, <Self as Node>::Token>> {
                let row = self.children_with_tokens().next_row(|tree, row| accepts(tree.kind_of(row)))?;
                Some(self.element_at(row))
            }

            /// The last child node.
            pub fn last_child(&self) -> Option<Self> {
                let last = self.last_child_or_token()?;
                last.siblings_with_tokens(Direction::Prev).find_map(NodeOrToken::into_node)
            }

            /// The next sibling, node or token.
            pub fn next_sibling_or_token(&self) -> Option<NodeOrToken<Self, <Self as Node>::Token>> {
                Node::next_sibling_or_token(self)
            }

            /// The sibling before, node or token. It climbs from the row before, so it takes time in the depth there.
            pub fn prev_sibling_or_token(&self) -> Option<NodeOrToken<Self, <Self as Node>::Token>> {
                Node::prev_sibling_or_token(self)
            }

            /// The next sibling that is a node.
            pub fn next_sibling(&self) -> Option<Self> {
                self.siblings(Direction::Next).nth(1)
            }

            /// The nearest later sibling that is a node of which the kind is accepted.
            pub fn next_sibling_by_kind(&self, accepts: &impl Fn(SyntaxKind) -> bool) -> Option<Self> {
                self.siblings(Direction::Next).skip(1).find(|it| accepts(it.kind()))
            }

            /// The nearest later sibling, node or token, of which the kind is accepted.
            pub fn next_sibling_or_token_by_kind(&self, accepts: &impl Fn(SyntaxKind) -> bool) -> Option<NodeOrToken<Self, <Self as Node>::Token>> {
                self.siblings_with_tokens(Direction::Next).skip(1).find(|it| accepts(it.kind()))
            }

            /// The nearest sibling before that is a node.
            pub fn prev_sibling(&self) -> Option<Self> {
                self.siblings(Direction::Prev).nth(1)
            }

            /// This node, and its siblings in a direction that are nodes.
            pub fn siblings(&self, direction: Direction) -> impl Iterator<Item = Self> + use<$($life)?> {
                self.siblings_with_tokens(direction).filter_map(NodeOrToken::into_node)
            }

            /// This node, and its siblings in a direction, nodes and tokens.
            pub fn siblings_with_tokens(&self, direction: Direction) -> impl Iterator<Item = NodeOrToken<Self, <Self as Node>::Token>> + use<$($life)?> {
                NodeOrToken::<Self, <Self as Node>::Token>::Node(self.clone()).siblings_with_tokens(direction)
            }

            /// The children, nodes and tokens, in order.
            pub fn children_with_tokens(&self) -> ChildrenWithTokens<Self> {
                Node::children_with_tokens(self)
            }

            /// The child nodes, in order.
            pub fn children(&self) -> Children<Self> {
                Node::children(self)
            }

            /// This node and all nodes and tokens below it, in preorder.
            pub fn descendants_with_tokens(&self) -> DescendantsWithTokens<Self> {
                Node::descendants_with_tokens(self)
            }

            /// This node and all nodes below it, in preorder.
            pub fn descendants(&self) -> Descendants<Self> {
                Descendants(Node::descendants_with_tokens(self))
            }

            /// A walk that enters and leaves this node and each node below it. It can pass over what is below a node.
            ///
            /// ```
            /// use ras::{Edition, SyntaxKind, Tree, WalkEvent};
            ///
            /// let tree = Tree::parse("fn f() { fn g() {} } fn h() {}", Edition::CURRENT)?;
            /// let mut walk = tree.root().preorder();
            /// let mut outer = Vec::new();
            /// while let Some(step) = walk.next() {
            ///     if let WalkEvent::Enter(node) = step {
            ///         if node.kind() == SyntaxKind::FN {
            ///             outer.push(node.text_range().start().raw());
            ///             walk.skip_subtree();
            ///         }
            ///     }
            /// }
            /// assert_eq!(outer, [0, 21]);
            /// # Ok::<(), ras::ParseError>(())
            /// ```
            pub fn preorder(&self) -> Preorder<Self> {
                Preorder(self.preorder_with_tokens())
            }

            /// A walk that enters and leaves this node and each node and token below it.
            pub fn preorder_with_tokens(&self) -> PreorderWithTokens<Self> {
                PreorderWithTokens::of(self.clone())
            }

            /// The tokens of this node, in order.
            pub fn tokens(&self) -> impl Iterator<Item = <Self as Node>::Token> + use<$($life)?> {
                self.descendants_with_tokens().filter_map(NodeOrToken::into_token)
            }

            /// The first token of this node.
            pub fn first_token(&self) -> Option<<Self as Node>::Token> {
                Node::first_token(self)
            }

            /// The last token of this node.
            pub fn last_token(&self) -> Option<<Self as Node>::Token> {
                Node::last_token(self)
            }

            /// The tokens of this node that touch an offset of the tree's text: none outside of the node's text, and two if the offset
            /// is between two tokens. It takes time in the logarithm of the number of rows.
            ///
            /// ```
            /// use ras::{Edition, Tree};
            ///
            /// let tree = Tree::parse("fn f() {}", Edition::CURRENT)?;
            /// let tokens: Vec<_> = tree.root().token_at_offset(3.into()).map(|it| it.text().len()).collect();
            /// assert_eq!(tokens, [1, 1]);
            /// # Ok::<(), ras::ParseError>(())
            /// ```
            pub fn token_at_offset(&self, offset: TextSize) -> TokenAtOffset<<Self as Node>::Token> {
                self.tree_of().tokens_at(self.row, offset).map(|row| Node::token_at(self, row))
            }

            /// The smallest node or token below this node, or the node itself, whose range contains the whole of a range that is not
            /// empty. It takes time in the number of children passed.
            pub fn covering_element(&self, range: TextRange) -> NodeOrToken<Self, <Self as Node>::Token> {
                self.element_at(self.tree_of().covering(self.row, range))
            }

            /// The first child, node or token, whose range contains the whole of a range.
            pub fn child_or_token_at_range(&self, range: TextRange) -> Option<NodeOrToken<Self, <Self as Node>::Token>> {
                self.children_with_tokens().find(|it| it.text_range().contains_range(range))
            }

            /// How many siblings, nodes and tokens, are before it. It takes time in their number.
            pub fn index(&self) -> usize {
                self.tree_of().index_of(self.row)
            }

            /// The number of the node's row in [`Tree::rows`](crate::Tree::rows).
            pub fn row(&self) -> usize {
                self.row as usize
            }
        }

        impl$(<$life>)? $token$(<$life>)? {
            /// The kind of the token.
            pub fn kind(&self) -> SyntaxKind {
                Token::kind(self)
            }

            /// The range of the token in the text, in bytes.
            pub fn text_range(&self) -> TextRange {
                Token::text_range(self)
            }

            /// The node that it is a child of.
            pub fn parent(&self) -> Option<<Self as Token>::Node> {
                Token::parent(self)
            }

            /// The token's parent, its parent, and so on up to the root.
            pub fn parent_ancestors(&self) -> impl Iterator<Item = <Self as Token>::Node> + use<$($life)?> {
                successors(self.parent(), Node::parent)
            }

            /// The next sibling, node or token.
            pub fn next_sibling_or_token(&self) -> Option<NodeOrToken<<Self as Token>::Node, Self>> {
                NodeOrToken::<<Self as Token>::Node, Self>::Token(self.clone()).next_sibling_or_token()
            }

            /// The sibling before, node or token. It climbs from the row before, so it takes time in the depth there.
            pub fn prev_sibling_or_token(&self) -> Option<NodeOrToken<<Self as Token>::Node, Self>> {
                NodeOrToken::<<Self as Token>::Node, Self>::Token(self.clone()).prev_sibling_or_token()
            }

            /// This token, and its siblings in a direction, nodes and tokens.
            pub fn siblings_with_tokens(&self, direction: Direction) -> impl Iterator<Item = NodeOrToken<<Self as Token>::Node, Self>> + use<$($life)?> {
                NodeOrToken::<<Self as Token>::Node, Self>::Token(self.clone()).siblings_with_tokens(direction)
            }

            /// How many siblings, nodes and tokens, are before it. It takes time in their number.
            pub fn index(&self) -> usize {
                self.tree_of().index_of(self.row)
            }

            /// The next token of the tree.
            pub fn next_token(&self) -> Option<Self> {
                Token::next_token(self)
            }

            /// The token before it in the tree.
            pub fn prev_token(&self) -> Option<Self> {
                Token::prev_token(self)
            }

            /// The number of the token's row in [`Tree::rows`](crate::Tree::rows).
            pub fn row(&self) -> usize {
                self.row as usize
            }
        }

        impl$(<$life>)? Place for $node$(<$life>)? {
            fn tree_of(&self) -> &Tree {
                &self.tree
            }

            fn row_number(&self) -> u32 {
                self.row
            }
        }

        impl$(<$life>)? Place for $token$(<$life>)? {
            fn tree_of(&self) -> &Tree {
                &self.tree
            }

            fn row_number(&self) -> u32 {
                self.row
            }
        }

        places!(@both $node $($life)?);
        places!(@both $token $($life)?);

        impl$(<$life>)? From<$node$(<$life>)?> for NodeOrToken<$node$(<$life>)?, $token$(<$life>)?> {
            fn from(node: $node$(<$life>)?) -> Self {
                NodeOrToken::Node(node)
            }
        }

        impl$(<$life>)? From<$token$(<$life>)?> for NodeOrToken<$node$(<$life>)?, $token$(<$life>)?> {
            fn from(token: $token$(<$life>)?) -> Self {
                NodeOrToken::Token(token)
            }
        }

        impl$(<$life>)? fmt::Debug for $node$(<$life>)? {
            /// `FN@0..9`, and by `{:#?}` a line for each node and token of its subtree.
            fn fmt(&self, f: &mut fmt::Formatter<'_>) -> fmt::Result {
                if f.alternate() { dump(&self.tree, self.row, f) } else { write_row(&self.tree, self.row, f) }
            }
        }

        impl$(<$life>)? fmt::Debug for $token$(<$life>)? {
            /// `IDENT@3..4 "f"`. Of a text of 25 bytes or more, the first 21 to 24 are shown, as rust-analyzer's crate shows them.
            fn fmt(&self, f: &mut fmt::Formatter<'_>) -> fmt::Result {
                write_row(&self.tree, self.row, f)
            }
        }
    };
    (@both $name:ident $($life:lifetime)?) => {
        impl$(<$life>)? PartialEq for $name$(<$life>)? {
            fn eq(&self, other: &Self) -> bool {
                self.row == other.row && self.tree.is_same(&other.tree)
            }
        }

        impl$(<$life>)? Eq for $name$(<$life>)? {}

        impl$(<$life>)? Hash for $name$(<$life>)? {
            fn hash<H: Hasher>(&self, state: &mut H) {
                self.row.hash(state);
            }
        }

        impl$(<$life>)? fmt::Display for $name$(<$life>)? {
            fn fmt(&self, f: &mut fmt::Formatter<'_>) -> fmt::Result {
                f.write_str(self.text())
            }
        }
    };
}

places!(
    /// A node of a tree, which owns a share of it: it may be kept, sent to another thread and shared. Copying one counts one more owner.
    ///
    /// Two are equal if they are the same place of the same tree. For walks over a whole tree [`NodeRef`] is faster.
    SyntaxNode,
    /// A token of a tree, which owns a share of it.
    ///
    /// Two are equal if they are the same place of the same tree.
    SyntaxToken,
    [] Tree
);
places!(
    /// A node of a tree, which borrows the tree. Copying one costs nothing.
    ///
    /// Two are equal if they are the same place of the same tree.
    #[derive(Copy)]
    NodeRef,
    /// A token of a tree, which borrows the tree. Copying one costs nothing.
    ///
    /// Two are equal if they are the same place of the same tree.
    #[derive(Copy)]
    TokenRef,
    ['t] &'t Tree
);

/// A node or a token that owns a share of its tree.
pub type SyntaxElement = NodeOrToken<SyntaxNode, SyntaxToken>;
/// A node or a token that borrows its tree.
pub type ElementRef<'t> = NodeOrToken<NodeRef<'t>, TokenRef<'t>>;

// The calls whose results live as long as what owns the tree.
macro_rules! owned_calls {
    ($name:ident) => {
        impl $name {
            /// The text, a slice of the tree's text.
            pub fn text(&self) -> &str {
                self.tree.text_of(self.row)
            }

            /// The tree that it is a place of.
            pub fn tree(&self) -> &Tree {
                &self.tree
            }
        }
    };
}

owned_calls!(SyntaxNode);
owned_calls!(SyntaxToken);

impl SyntaxNode {
    /// A copy of the node with all below it, as the root of a tree of its own. That tree has no errors.
    ///
    /// ```
    /// use ras::ast::{self, AstNode};
    /// use ras::{Edition, SourceFile};
    ///
    /// let file = SourceFile::parse("struct S; fn f() {}", Edition::CURRENT).tree();
    /// let function = file.syntax().children().find_map(ast::Fn::cast).unwrap().clone_subtree();
    /// assert_eq!(function.syntax().parent(), None);
    /// assert_eq!(function.syntax().text_range().to_string(), "0..9");
    /// ```
    pub fn clone_subtree(&self) -> SyntaxNode {
        self.tree.subtree(self.row).syntax_node()
    }
}

macro_rules! borrowed_calls {
    ($name:ident, $owned:ident) => {
        impl<'t> $name<'t> {
            /// The text, a slice of the tree's text.
            pub fn text(self) -> &'t str {
                self.tree.text_of(self.row)
            }

            /// The tree that it is a place of.
            pub fn tree(self) -> &'t Tree {
                self.tree
            }

            /// The same place, with a share of the tree.
            pub fn owned(self) -> $owned {
                $owned { tree: Tree::clone(self.tree), row: self.row }
            }
        }

        impl $owned {
            /// The same place, which borrows the tree.
            pub fn as_ref(&self) -> $name<'_> {
                $name { tree: &self.tree, row: self.row }
            }
        }
    };
}

borrowed_calls!(NodeRef, SyntaxNode);
borrowed_calls!(TokenRef, SyntaxToken);

// The part of a token's text that a dump shows: all of fewer than 25 bytes, else up to the first end of a character from 21 bytes on.
fn shown(text: &str) -> Cow<'_, str> {
    if text.len() < 25 {
        return text.into();
    }
    let end = (21..25).find(|end| text.is_char_boundary(*end)).unwrap_or(25);
    format!("{} ...", &text[..end]).into()
}

fn write_row(tree: &Tree, row: u32, f: &mut fmt::Formatter<'_>) -> fmt::Result {
    write!(f, "{}@{}", tree.kind_of(row), tree.range_of(row))?;
    if tree.is_token(row) { write!(f, " {:?}", shown(tree.text_of(row))) } else { Ok(()) }
}

// What `{:#?}` writes: a line for each node and token.
fn dump(tree: &Tree, root: u32, f: &mut fmt::Formatter<'_>) -> fmt::Result {
    struct Line<'t>(&'t Tree, u32);

    impl fmt::Display for Line<'_> {
        fn fmt(&self, f: &mut fmt::Formatter<'_>) -> fmt::Result {
            write_row(self.0, self.1, f)
        }
    }

    // Where the subtrees end that are open.
    let mut ends: Vec<u32> = Vec::new();
    for row in root..tree.end_of(root) {
        while ends.last().is_some_and(|behind| *behind <= row) {
            ends.pop();
        }
        f.write_str(&format!("{:1$}{2}\n", "", 2 * ends.len(), Line(tree, row)))?;
        if !tree.is_token(row) {
            ends.push(tree.end_of(row));
        }
    }
    Ok(())
}
