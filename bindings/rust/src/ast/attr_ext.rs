//! Accessors of attributes, doc comments and token trees that are more than lookups.
use super::token_ext::{AttrKind, CommentShape, comment_text};
use super::views::*;
use super::{AstNode, AstToken, support};
use crate::iter::{ChildrenWithTokens, PreorderWithTokens, WalkEvent};
use crate::node::{Node, NodeOrToken, Token};
use crate::range::TextSize;
use crate::{SmolStr, SyntaxKind, T};

fn kind_by(is_inner: bool) -> AttrKind {
    if is_inner { AttrKind::Inner } else { AttrKind::Outer }
}

impl<N: Node> Attr<N> {
    /// Inner if it has a `!`, otherwise outer.
    pub fn kind(&self) -> AttrKind {
        kind_by(self.excl_token().is_some())
    }

    /// The path of its meta.
    pub fn path(&self) -> Option<Path<N>> {
        self.meta()?.path()
    }

    /// The path of its meta, if that is only a path.
    pub fn as_simple_path(&self) -> Option<Path<N>> {
        self.meta()?.as_simple_path()
    }

    /// The text of its meta, if that is one name.
    pub fn as_simple_atom(&self) -> Option<SmolStr> {
        self.meta()?.as_simple_atom()
    }

    /// The name and the arguments of its meta, if that is one name with arguments.
    pub fn as_simple_call(&self) -> Option<(SmolStr, TokenTree<N>)> {
        self.meta()?.as_simple_call()
    }

    /// The name of its meta: `cfg`, `cfg_attr`, or for others the first token of their path, if that has only one segment.
    pub fn simple_name(&self) -> Option<SmolStr> {
        self.meta()?.simple_name()
    }

    /// Its meta, as a list; for a `cfg_attr` the metas in it, as in [`Meta::skip_cfg_attrs`]. The list is empty without a meta.
    pub fn skip_cfg_attrs(&self) -> Vec<Meta<N>> {
        self.meta().map_or_else(Vec::new, Meta::skip_cfg_attrs)
    }
}

impl<N: Node> DocComment<N> {
    /// The length of the opening marker of a documentation comment.
    pub const PREFIX_LEN: TextSize = TextSize::new(3);

    /// Inner if it has an inner comment token, otherwise outer.
    pub fn kind(&self) -> AttrKind {
        kind_by(support::leaf(&self.syntax, SyntaxKind::INNER_DOC_COMMENT).is_some())
    }

    /// The first token, at any depth: the comment.
    ///
    /// # Panics
    ///
    /// It panics if that is no comment, or if there is none. In a tree that was parsed there is one.
    pub fn token(&self) -> super::token_ext::AnyComment<N::Token> {
        self.syntax.first_token().and_then(AstToken::cast).expect("a doc comment has a comment")
    }

    /// Whether the text ends with its line or with its closing marker.
    pub fn shape(&self) -> CommentShape {
        CommentShape::from_text(self.text_with_markers())
    }

    /// The text of the first child; empty if that is not a token.
    pub fn text_with_markers(&self) -> &str {
        support::first_text(&self.syntax).unwrap_or_default()
    }

    /// The text of the first child without the markers, of which the closing one may be missing.
    pub fn text(&self) -> &str {
        comment_text(self.text_with_markers(), Self::PREFIX_LEN.into())
    }
}

impl<N: Node> AnyAttr<N> {
    /// Inner or outer, as the attribute or the documentation comment is.
    pub fn kind(&self) -> AttrKind {
        match self {
            AnyAttr::Attr(it) => it.kind(),
            AnyAttr::DocComment(it) => it.kind(),
        }
    }
}

impl<N: Node> Meta<N> {
    /// Its path, or the path of the meta inside an `unsafe(..)`; `None` for a `cfg` and a `cfg_attr`.
    pub fn path(&self) -> Option<Path<N>> {
        let mut meta = self.clone();
        while meta.syntax().kind() == SyntaxKind::UNSAFE_META {
            meta = support::first(meta.syntax())?;
        }
        match meta.syntax().kind() {
            SyntaxKind::CFG_META | SyntaxKind::CFG_ATTR_META => None,
            _ => support::first(meta.syntax()),
        }
    }

    /// The path of a meta that is only a path, as `a::b`; `None` for others.
    pub fn as_simple_path(&self) -> Option<Path<N>> {
        if self.syntax().kind() == SyntaxKind::PATH_META { support::first(self.syntax()) } else { None }
    }

    /// The text of a meta that is one name, as `a`; `None` for others.
    pub fn as_simple_atom(&self) -> Option<SmolStr> {
        atom_of(self.as_simple_path()?)
    }

    /// The name and the arguments of a meta that is one name with arguments, as `a(..)`; `None` for others.
    pub fn as_simple_call(&self) -> Option<(SmolStr, TokenTree<N>)> {
        if self.syntax().kind() != SyntaxKind::TOKEN_TREE_META {
            return None;
        }
        let tree = support::first(self.syntax())?;
        Some((atom_of(support::first(self.syntax())?)?, tree))
    }

    /// The name of the attribute: `cfg`, `cfg_attr`, or for others the first token of their path, if that has only one segment.
    pub fn simple_name(&self) -> Option<SmolStr> {
        match self.syntax().kind() {
            SyntaxKind::CFG_ATTR_META => Some("cfg_attr".into()),
            SyntaxKind::CFG_META => Some("cfg".into()),
            _ => Some(self.path()?.as_single_segment()?.syntax().first_token()?.text().into()),
        }
    }

    /// Replaces a `cfg_attr` by the metas in it, in order and at any depth of nested `cfg_attr`s, whatever the predicates are. Any other
    /// meta is returned unchanged.
    pub fn skip_cfg_attrs(self) -> Vec<Meta<N>> {
        let mut metas = Vec::new();
        let mut walk = crate::Preorder(PreorderWithTokens::of(self.syntax().clone()));
        while let Some(step) = walk.next() {
            if let WalkEvent::Enter(node) = step {
                if node.kind() != SyntaxKind::CFG_ATTR_META {
                    walk.skip_subtree();
                    metas.extend(Meta::cast(node));
                }
            }
        }
        metas
    }

    /// The nearest attribute above it.
    pub fn parent_attr(&self) -> Option<Attr<N>> {
        support::ancestor_as(self.syntax())
    }
}

// The text of a path that is only one name.
fn atom_of<N: Node>(path: Path<N>) -> Option<SmolStr> {
    support::first_text(path.as_single_name_ref()?.syntax()).map(Into::into)
}

/// The key of an atom in a `cfg`.
#[derive(Clone, Debug, PartialEq, Eq, Hash)]
pub enum CfgAtomKey<T> {
    /// `true`
    True,
    /// `false`
    False,
    /// A name: `unix`, `feature`.
    Ident(T),
}

impl<N: Node> CfgAtom<N> {
    /// The first of these that it has: `true`, `false`, a name.
    pub fn key(&self) -> Option<CfgAtomKey<N::Token>> {
        if self.true_token().is_some() {
            return Some(CfgAtomKey::True);
        }
        if self.false_token().is_some() {
            return Some(CfgAtomKey::False);
        }
        self.ident_token().map(CfgAtomKey::Ident)
    }
}

/// The token trees and tokens in a token tree, in order, without its first child, whatever it is, closing delimiters, white space and
/// comments.
#[derive(Clone, Debug)]
pub struct TokenTreeChildren<N> {
    left: ChildrenWithTokens<N>,
}

impl<N: Node> TokenTreeChildren<N> {
    /// The contents of a token tree.
    pub fn new(tree: &TokenTree<N>) -> TokenTreeChildren<N> {
        let mut left = tree.syntax.children_with_tokens();
        left.next();
        TokenTreeChildren { left }
    }
}

fn tree_or_token<N: Node>(element: NodeOrToken<N, N::Token>) -> Option<NodeOrToken<TokenTree<N>, N::Token>> {
    match element {
        NodeOrToken::Node(node) => TokenTree::cast(node).map(NodeOrToken::Node),
        NodeOrToken::Token(token) => Some(NodeOrToken::Token(token)),
    }
}

impl<N: Node> Iterator for TokenTreeChildren<N> {
    type Item = NodeOrToken<TokenTree<N>, N::Token>;

    fn next(&mut self) -> Option<Self::Item> {
        let is_passed_over = |kind: SyntaxKind| kind.is_trivia() || matches!(kind, T![')'] | T![']'] | T!['}']);
        let mut parts = self.left.by_ref().filter(|it| !it.as_token().is_some_and(|it| is_passed_over(it.kind())));
        parts.find_map(tree_or_token)
    }
}

impl<N: Node> TokenTree<N> {
    /// The first child, if it is `{`, `(` or `[`.
    pub fn left_delimiter_token(&self) -> Option<N::Token> {
        let token = self.syntax.first_child_or_token()?.into_token()?;
        matches!(token.kind(), T!['{'] | T!['('] | T!['[']).then_some(token)
    }

    /// The last child, if it is `}`, `)` or `]`.
    pub fn right_delimiter_token(&self) -> Option<N::Token> {
        let token = self.syntax.last_child_or_token()?.into_token()?;
        matches!(token.kind(), T!['}'] | T![')'] | T![']']).then_some(token)
    }

    /// The children that are token trees or tokens, in order.
    pub fn token_trees_and_tokens(&self) -> impl Iterator<Item = NodeOrToken<TokenTree<N>, N::Token>> + use<N> {
        self.syntax.children_with_tokens().filter_map(tree_or_token)
    }

    /// The meta that it is in: the parent, if that is a meta.
    pub fn parent_meta(&self) -> Option<Meta<N>> {
        support::parent_as(&self.syntax)
    }
}
