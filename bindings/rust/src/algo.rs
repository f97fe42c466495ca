//! Searches in trees: upwards, sideways and along the tokens.
use crate::ast::AstNode;
use crate::node::{Direction, NodeOrToken, SyntaxElement, SyntaxNode, SyntaxToken};
use crate::range::{TextRange, TextSize};
use crate::syntax_editor::Element;
use crate::{SyntaxKind, T};
use std::iter::successors;

/// The nodes above the tokens at an offset, by the length of their text, the shortest first. Between two tokens there are two chains of
/// nodes, and the left one comes first at equal lengths; a node above both tokens comes twice.
///
/// ```
/// use ras::ast::{self, AstNode};
/// use ras::{Edition, SourceFile, algo};
///
/// let file = SourceFile::parse("fn f() { a + b }", Edition::CURRENT).tree();
/// let kinds: Vec<_> = algo::ancestors_at_offset(file.syntax(), 9.into()).map(|it| it.kind().name()).take(3).collect();
/// assert_eq!(kinds, ["NAME_REF", "PATH_SEGMENT", "PATH"]);
/// ```
pub fn ancestors_at_offset(node: &SyntaxNode, offset: TextSize) -> impl Iterator<Item = SyntaxNode> + use<> {
    let mut chains: Vec<_> = node.token_at_offset(offset).map(|it| it.parent_ancestors().peekable()).collect();
    std::iter::from_fn(move || {
        // The first of equal lengths is the left one.
        let lengths = chains.iter_mut().enumerate().filter_map(|(n, chain)| Some((chain.peek()?.text_range().len(), n)));
        let (_, shortest) = lengths.min()?;
        chains[shortest].next()
    })
}

/// The first of the nodes above the tokens at an offset, the shortest first, that can be viewed as an `A`.
pub fn find_node_at_offset<A: AstNode>(syntax: &SyntaxNode, offset: TextSize) -> Option<A> {
    ancestors_at_offset(syntax, offset).find_map(A::cast)
}

/// The element that covers a range, or else the nearest node above it, that can be viewed as an `A`.
pub fn find_node_at_range<A: AstNode>(syntax: &SyntaxNode, range: TextRange) -> Option<A> {
    syntax.covering_element(range).ancestors().find_map(A::cast)
}

fn tokens_from(token: SyntaxToken, direction: Direction) -> impl Iterator<Item = SyntaxToken> {
    successors(Some(token), move |it| match direction {
        Direction::Next => it.next_token(),
        Direction::Prev => it.prev_token(),
    })
}

/// The first token from this one on, itself included, in a direction, that is not trivia.
pub fn skip_trivia_token(token: SyntaxToken, direction: Direction) -> Option<SyntaxToken> {
    tokens_from(token, direction).find(|it| !it.kind().is_trivia())
}

/// The first token from this one on, itself included, in a direction, that is not white space.
pub fn skip_whitespace_token(token: SyntaxToken, direction: Direction) -> Option<SyntaxToken> {
    tokens_from(token, direction).find(|it| it.kind() != T![whitespace])
}

/// The nearest sibling in a direction, node or token, that is not trivia.
pub fn non_trivia_sibling(element: SyntaxElement, direction: Direction) -> Option<SyntaxElement> {
    element.siblings_with_tokens(direction).skip(1).find(|it| !it.kind().is_trivia())
}

/// The deepest node that is an ancestor of both, where a node counts as its own ancestor; `None` for nodes of different trees.
pub fn least_common_ancestor(u: &SyntaxNode, v: &SyntaxNode) -> Option<SyntaxNode> {
    if !u.tree().is_same(v.tree()) {
        return None;
    }
    // The row of a node is before those of what is below it.
    let (mut u, mut v) = (u.clone(), v.clone());
    while u != v {
        if u.row() < v.row() {
            v = v.parent()?;
        } else {
            u = u.parent()?;
        }
    }
    Some(u)
}

fn node_of(element: SyntaxElement) -> Option<SyntaxNode> {
    match element {
        NodeOrToken::Node(node) => Some(node),
        NodeOrToken::Token(token) => token.parent(),
    }
}

/// The deepest node that is an ancestor of both; the nearest ancestor of a token is its parent.
pub fn least_common_ancestor_element(u: impl Element, v: impl Element) -> Option<SyntaxNode> {
    least_common_ancestor(&node_of(u.syntax_element())?, &node_of(v.syntax_element())?)
}

/// The nearest sibling node in a direction that can be viewed as the type of `me`.
pub fn neighbor<A: AstNode>(me: &A, direction: Direction) -> Option<A> {
    me.syntax().siblings(direction).skip(1).find_map(A::cast)
}

/// Whether a child node is of the kind `ERROR`. Only children are tested, not deeper descendants.
pub fn has_errors(node: &SyntaxNode) -> bool {
    node.children().any(|it| it.kind() == SyntaxKind::ERROR)
}

/// The nearest token before this node or token that is not trivia; `None` if there is none or the node has no tokens.
pub fn previous_non_trivia_token(element: impl Into<SyntaxElement>) -> Option<SyntaxToken> {
    let first = match element.into() {
        NodeOrToken::Node(node) => node.first_token()?,
        NodeOrToken::Token(token) => token,
    };
    skip_trivia_token(first.prev_token()?, Direction::Prev)
}

/// The nearest token after this node or token that is not trivia; `None` if there is none or the node has no tokens.
pub fn next_non_trivia_token(element: impl Into<SyntaxElement>) -> Option<SyntaxToken> {
    let last = match element.into() {
        NodeOrToken::Node(node) => node.last_token()?,
        NodeOrToken::Token(token) => token,
    };
    skip_trivia_token(last.next_token()?, Direction::Next)
}
