//! Walks over the nodes and tokens of a tree.
use crate::node::{Node, NodeOrToken, SyntaxNode};
use crate::SyntaxKind;
use crate::tree::Tree;
use std::iter::FusedIterator;

// The rows of a node's children.
pub(crate) fn rows_of_children(tree: &Tree, row: u32) -> impl Iterator<Item = u32> {
    let behind = tree.end_of(row);
    let first = (row + 1 < behind).then_some(row + 1);
    std::iter::successors(first, move |it| Some(tree.end_of(*it)).filter(|next| *next < behind))
}

/// The tokens at an offset, as an iterator in their order.
#[derive(Clone, Copy, Debug, PartialEq, Eq)]
pub enum TokenAtOffset<T> {
    /// There is none: the offset is past the end of the node's text, or before its start.
    None,
    /// One: the offset is inside of it, or at an end of the text.
    Single(T),
    /// Two: the offset is between them.
    Between(T, T),
}

impl<T> TokenAtOffset<T> {
    /// The same with each token changed.
    pub fn map<U>(self, mut change: impl FnMut(T) -> U) -> TokenAtOffset<U> {
        match self {
            TokenAtOffset::None => TokenAtOffset::None,
            TokenAtOffset::Single(it) => TokenAtOffset::Single(change(it)),
            TokenAtOffset::Between(left, right) => TokenAtOffset::Between(change(left), change(right)),
        }
    }

    /// The token, of two the left one.
    pub fn left_biased(self) -> Option<T> {
        match self {
            TokenAtOffset::None => None,
            TokenAtOffset::Single(token) | TokenAtOffset::Between(token, _) => Some(token),
        }
    }

    /// The token, of two the right one.
    pub fn right_biased(self) -> Option<T> {
        match self {
            TokenAtOffset::None => None,
            TokenAtOffset::Single(token) | TokenAtOffset::Between(_, token) => Some(token),
        }
    }
}

impl<T> Iterator for TokenAtOffset<T> {
    type Item = T;

    fn next(&mut self) -> Option<T> {
        match std::mem::replace(self, TokenAtOffset::None) {
            TokenAtOffset::None => None,
            TokenAtOffset::Single(token) => Some(token),
            TokenAtOffset::Between(left, right) => {
                *self = TokenAtOffset::Single(right);
                Some(left)
            }
        }
    }

    fn size_hint(&self) -> (usize, Option<usize>) {
        let left = match self {
            TokenAtOffset::None => 0,
            TokenAtOffset::Single(_) => 1,
            TokenAtOffset::Between(..) => 2,
        };
        (left, Some(left))
    }
}

impl<T> ExactSizeIterator for TokenAtOffset<T> {}

/// The children of a node, nodes and tokens, in order.
#[derive(Clone, Debug)]
pub struct ChildrenWithTokens<N = SyntaxNode> {
    parent: N,
    next: u32,
    behind: u32,
}

impl<N: Node> ChildrenWithTokens<N> {
    pub(crate) fn of(parent: N) -> Self {
        let (next, behind) = (parent.row_number() + 1, parent.tree_of().end_of(parent.row_number()));
        ChildrenWithTokens { parent, next, behind }
    }

    // The row of the next child for which the test holds; what is before it is passed over.
    pub(crate) fn next_row(&mut self, test: impl Fn(&Tree, u32) -> bool) -> Option<u32> {
        while self.next < self.behind {
            let row = self.next;
            self.next = self.parent.tree_of().end_of(row);
            if test(self.parent.tree_of(), row) {
                return Some(row);
            }
        }
        None
    }

    // The next child that is a node of which the kind is accepted.
    pub(crate) fn next_node(&mut self, accepts: impl Fn(SyntaxKind) -> bool) -> Option<N> {
        let row = self.next_row(|tree, row| !tree.is_token(row) && accepts(tree.kind_of(row)))?;
        Some(self.parent.node_at(row))
    }
}

impl<N: Node> ChildrenWithTokens<N> {
    /// The children of which the kind is accepted, nodes and tokens, in order.
    pub fn by_kind(mut self, accepts: impl Fn(SyntaxKind) -> bool) -> impl Iterator<Item = NodeOrToken<N, N::Token>> {
        std::iter::from_fn(move || {
            let row = self.next_row(|tree, row| accepts(tree.kind_of(row)))?;
            Some(self.parent.element_at(row))
        })
    }
}

impl<N: Node> Iterator for ChildrenWithTokens<N> {
    type Item = NodeOrToken<N, N::Token>;

    fn next(&mut self) -> Option<Self::Item> {
        let row = self.next_row(|_, _| true)?;
        Some(self.parent.element_at(row))
    }
}

impl<N: Node> FusedIterator for ChildrenWithTokens<N> {}

/// The child nodes of a node, in order.
#[derive(Clone, Debug)]
pub struct Children<N = SyntaxNode>(pub(crate) ChildrenWithTokens<N>);

impl<N: Node> Children<N> {
    /// The child nodes of which the kind is accepted, in order.
    pub fn by_kind(mut self, accepts: impl Fn(SyntaxKind) -> bool) -> impl Iterator<Item = N> {
        std::iter::from_fn(move || self.0.next_node(&accepts))
    }
}

impl<N: Node> Iterator for Children<N> {
    type Item = N;

    fn next(&mut self) -> Option<N> {
        self.0.next_node(|_| true)
    }
}

impl<N: Node> FusedIterator for Children<N> {}

/// A node and all nodes and tokens below it, in preorder.
#[derive(Clone, Debug)]
pub struct DescendantsWithTokens<N = SyntaxNode> {
    node: N,
    next: u32,
    behind: u32,
}

impl<N: Node> DescendantsWithTokens<N> {
    pub(crate) fn of(node: N) -> Self {
        let (next, behind) = (node.row_number(), node.tree_of().end_of(node.row_number()));
        DescendantsWithTokens { node, next, behind }
    }
}

impl<N: Node> Iterator for DescendantsWithTokens<N> {
    type Item = NodeOrToken<N, N::Token>;

    fn next(&mut self) -> Option<Self::Item> {
        if self.next >= self.behind {
            return None;
        }
        let row = self.next;
        self.next += 1;
        Some(self.node.element_at(row))
    }

    fn size_hint(&self) -> (usize, Option<usize>) {
        let left = (self.behind - self.next) as usize;
        (left, Some(left))
    }
}

impl<N: Node> DoubleEndedIterator for DescendantsWithTokens<N> {
    fn next_back(&mut self) -> Option<Self::Item> {
        if self.next >= self.behind {
            return None;
        }
        self.behind -= 1;
        Some(self.node.element_at(self.behind))
    }
}

impl<N: Node> ExactSizeIterator for DescendantsWithTokens<N> {}

impl<N: Node> FusedIterator for DescendantsWithTokens<N> {}

/// A node and all nodes below it, in preorder.
#[derive(Clone, Debug)]
pub struct Descendants<N = SyntaxNode>(pub(crate) DescendantsWithTokens<N>);

impl<N: Node> Iterator for Descendants<N> {
    type Item = N;

    fn next(&mut self) -> Option<N> {
        let walk = &mut self.0;
        while walk.next < walk.behind {
            let row = walk.next;
            walk.next += 1;
            if !walk.node.tree_of().is_token(row) {
                return Some(walk.node.node_at(row));
            }
        }
        None
    }
}

impl<N: Node> FusedIterator for Descendants<N> {}

/// A step of a walk: a node is entered or left. A token is entered and left at once.
#[derive(Clone, Copy, Debug, PartialEq, Eq)]
pub enum WalkEvent<T> {
    /// What is below it comes next.
    Enter(T),
    /// All that is below it came.
    Leave(T),
}

impl<T> WalkEvent<T> {
    /// The same with what is entered or left changed.
    pub fn map<U>(self, change: impl FnOnce(T) -> U) -> WalkEvent<U> {
        match self {
            WalkEvent::Enter(it) => WalkEvent::Enter(change(it)),
            WalkEvent::Leave(it) => WalkEvent::Leave(change(it)),
        }
    }
}

/// A walk that enters and leaves a node and each node and token below it.
#[derive(Clone, Debug)]
pub struct PreorderWithTokens<N = SyntaxNode> {
    root: N,
    next: Option<WalkEvent<u32>>,
}

impl<N: Node> PreorderWithTokens<N> {
    pub(crate) fn of(root: N) -> Self {
        let next = Some(WalkEvent::Enter(root.row_number()));
        PreorderWithTokens { root, next }
    }

    /// Passes over what is below the node that was entered last: the next step leaves it. If the last step left one, the next step
    /// leaves the node around it.
    pub fn skip_subtree(&mut self) {
        let (tree, root) = (self.root.tree_of(), self.root.row_number());
        self.next = match self.next {
            Some(WalkEvent::Enter(row)) if row > root => tree.parent_of(row).map(WalkEvent::Leave),
            other => other,
        };
    }

    // What comes after a step, among nodes and tokens or among nodes alone.
    fn after(&self, step: WalkEvent<u32>, has_tokens: bool) -> Option<WalkEvent<u32>> {
        let (tree, root) = (self.root.tree_of(), self.root.row_number());
        let fits = |row: &u32| has_tokens || !tree.is_token(*row);
        let later = |first: Option<u32>| std::iter::successors(first, |it| tree.next_sibling_of(*it)).find(fits);
        match step {
            WalkEvent::Enter(row) => Some(match later(tree.first_child_of(row)) {
                Some(child) => WalkEvent::Enter(child),
                None => WalkEvent::Leave(row),
            }),
            WalkEvent::Leave(row) if row == root => None,
            WalkEvent::Leave(row) => match later(tree.next_sibling_of(row)) {
                Some(sibling) => Some(WalkEvent::Enter(sibling)),
                None => tree.parent_of(row).map(WalkEvent::Leave),
            },
        }
    }
}

impl<N: Node> Iterator for PreorderWithTokens<N> {
    type Item = WalkEvent<NodeOrToken<N, N::Token>>;

    fn next(&mut self) -> Option<Self::Item> {
        let step = self.next?;
        self.next = self.after(step, true);
        Some(step.map(|row| self.root.element_at(row)))
    }
}

impl<N: Node> FusedIterator for PreorderWithTokens<N> {}

/// A walk that enters and leaves a node and each node below it.
#[derive(Clone, Debug)]
pub struct Preorder<N = SyntaxNode>(pub(crate) PreorderWithTokens<N>);

impl<N: Node> Preorder<N> {
    /// Passes over what is below the node that was entered last, as [`PreorderWithTokens::skip_subtree`].
    pub fn skip_subtree(&mut self) {
        self.0.skip_subtree();
    }
}

impl<N: Node> Iterator for Preorder<N> {
    type Item = WalkEvent<N>;

    fn next(&mut self) -> Option<Self::Item> {
        let step = self.0.next?;
        self.0.next = self.0.after(step, false);
        Some(step.map(|row| self.0.root.node_at(row)))
    }
}

impl<N: Node> FusedIterator for Preorder<N> {}
