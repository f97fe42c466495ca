//! Nodes or tokens.
use crate::kind::SyntaxKind;
use crate::node::{Node, Token, place::Place as _};
use crate::range::TextRange;
use crate::tree::Tree;
use std::fmt;
use std::iter::successors;

/// A direction among siblings or tokens.
#[derive(Clone, Copy, Debug, PartialEq, Eq, PartialOrd, Ord, Hash)]
pub enum Direction {
    /// To later ones.
    Next,
    /// To earlier ones.
    Prev,
}

/// A node or a token.
#[derive(Clone, Copy, PartialEq, Eq, PartialOrd, Ord, Hash)]
pub enum NodeOrToken<N, T> {
    /// A node.
    Node(N),
    /// A token.
    Token(T),
}

impl<N, T> NodeOrToken<N, T> {
    /// The node; `None` for a token.
    pub fn into_node(self) -> Option<N> {
        match self {
            NodeOrToken::Node(node) => Some(node),
            NodeOrToken::Token(_) => None,
        }
    }

    /// The token; `None` for a node.
    pub fn into_token(self) -> Option<T> {
        match self {
            NodeOrToken::Node(_) => None,
            NodeOrToken::Token(token) => Some(token),
        }
    }

    /// The node; `None` for a token.
    pub fn as_node(&self) -> Option<&N> {
        match self {
            NodeOrToken::Node(node) => Some(node),
            NodeOrToken::Token(_) => None,
        }
    }

    /// The token; `None` for a node.
    pub fn as_token(&self) -> Option<&T> {
        match self {
            NodeOrToken::Node(_) => None,
            NodeOrToken::Token(token) => Some(token),
        }
    }
}

impl<N: Node> NodeOrToken<N, N::Token> {
    fn place(&self) -> (&Tree, u32) {
        match self {
            NodeOrToken::Node(node) => (node.tree_of(), node.row_number()),
            NodeOrToken::Token(token) => (token.tree_of(), token.row_number()),
        }
    }

    fn at(&self, row: u32) -> NodeOrToken<N, N::Token> {
        match self {
            NodeOrToken::Node(node) => node.element_at(row),
            NodeOrToken::Token(token) if token.tree_of().is_token(row) => NodeOrToken::Token(token.token_at(row)),
            NodeOrToken::Token(token) => NodeOrToken::Node(token.node_at(row)),
        }
    }

    /// The kind.
    pub fn kind(&self) -> SyntaxKind {
        let (tree, row) = self.place();
        tree.kind_of(row)
    }

    /// The range in the text, in bytes.
    pub fn text_range(&self) -> TextRange {
        let (tree, row) = self.place();
        tree.range_of(row)
    }

    /// The text, a slice of the tree's text.
    pub fn text(&self) -> &str {
        let (tree, row) = self.place();
        tree.text_of(row)
    }

    /// The node that it is a child of; `None` for the root.
    pub fn parent(&self) -> Option<N> {
        match self {
            NodeOrToken::Node(node) => node.parent(),
            NodeOrToken::Token(token) => token.parent(),
        }
    }

    /// How many siblings, nodes and tokens, are before it. It takes time in their number.
    pub fn index(&self) -> usize {
        let (tree, row) = self.place();
        tree.index_of(row)
    }

    /// The first token of it: itself, if it is one.
    pub fn first_token(&self) -> Option<N::Token> {
        match self {
            NodeOrToken::Node(node) => node.first_token(),
            NodeOrToken::Token(token) => Some(token.clone()),
        }
    }

    /// The last token of it: itself, if it is one.
    pub fn last_token(&self) -> Option<N::Token> {
        match self {
            NodeOrToken::Node(node) => node.last_token(),
            NodeOrToken::Token(token) => Some(token.clone()),
        }
    }

    /// The nodes above it, the nearest first; of a node, itself is the first.
    pub fn ancestors(&self) -> impl Iterator<Item = N> + use<N> {
        let first = match self {
            NodeOrToken::Node(node) => Some(node.clone()),
            NodeOrToken::Token(token) => token.parent(),
        };
        successors(first, Node::parent)
    }

    /// The next sibling, node or token.
    pub fn next_sibling_or_token(&self) -> Option<NodeOrToken<N, N::Token>> {
        let (tree, row) = self.place();
        tree.next_sibling_of(row).map(|row| self.at(row))
    }

    /// The sibling before, node or token. It climbs from the row before, so it takes time in the depth there.
    pub fn prev_sibling_or_token(&self) -> Option<NodeOrToken<N, N::Token>> {
        let (tree, row) = self.place();
        tree.prev_sibling_of(row).map(|row| self.at(row))
    }

    /// It, and its siblings in a direction.
    pub fn siblings_with_tokens(&self, direction: Direction) -> impl Iterator<Item = NodeOrToken<N, N::Token>> + use<N> {
        successors(Some(self.clone()), move |it| match direction {
            Direction::Next => it.next_sibling_or_token(),
            Direction::Prev => it.prev_sibling_or_token(),
        })
    }
}

impl<N: fmt::Display, T: fmt::Display> fmt::Display for NodeOrToken<N, T> {
    fn fmt(&self, f: &mut fmt::Formatter<'_>) -> fmt::Result {
        match self {
            NodeOrToken::Node(node) => node.fmt(f),
            NodeOrToken::Token(token) => token.fmt(f),
        }
    }
}

impl<N: fmt::Debug, T: fmt::Debug> fmt::Debug for NodeOrToken<N, T> {
    fn fmt(&self, f: &mut fmt::Formatter<'_>) -> fmt::Result {
        match self {
            NodeOrToken::Node(node) => node.fmt(f),
            NodeOrToken::Token(token) => token.fmt(f),
        }
    }
}
