//! Accessors of expressions that are more than lookups.
use super::operators::{BinaryOp, RangeOp, UnaryOp, binary_op, range_op, unary_op};
use super::views::*;
use super::{AstChildren, AstNode, AstToken, support};
use crate::iter::ChildrenWithTokens;
use crate::node::{Node, NodeOrToken, Token};
use crate::{SyntaxKind, T};
use std::marker::PhantomData;

// The first child that can be viewed as an `A`; if it is a block, only if there is another one: a lone block is the body.
fn unless_lone_block<A: AstNode<N>, N: Node>(parent: &N) -> Option<A> {
    let mut all = support::all::<A, N>(parent);
    let first = all.next()?;
    if first.syntax().kind() == SyntaxKind::BLOCK_EXPR {
        all.next()?;
    }
    Some(first)
}

fn nth<A: AstNode<N>, N: Node>(parent: &N, n: usize) -> Option<A> {
    support::all(parent).nth(n)
}

impl<N: Node> Expr<N> {
    /// Whether it ends in a block, as an `if`, a loop, a block or a `match` does: as a statement it needs no `;`.
    pub fn is_block_like(&self) -> bool {
        use SyntaxKind::*;
        matches!(self.syntax().kind(), IF_EXPR | LOOP_EXPR | FOR_EXPR | WHILE_EXPR | BLOCK_EXPR | MATCH_EXPR)
    }
}

impl<N: Node> IfExpr<N> {
    /// The first expression; if that is a block, only if there is another one.
    pub fn condition(&self) -> Option<Expr<N>> {
        unless_lone_block(&self.syntax)
    }

    /// The second expression, if it is a block.
    pub fn then_branch(&self) -> Option<BlockExpr<N>> {
        support::recast(nth::<Expr<N>, N>(&self.syntax, 1))
    }

    /// The third expression, if it is a block or an `if`.
    pub fn else_branch(&self) -> Option<ElseBranch<N>> {
        support::recast(nth::<Expr<N>, N>(&self.syntax, 2))
    }
}

impl<N: Node> WhileExpr<N> {
    /// The first expression; if that is a block, only if there is another one.
    pub fn condition(&self) -> Option<Expr<N>> {
        unless_lone_block(&self.syntax)
    }
}

impl<N: Node> ForExpr<N> {
    /// The iterated expression of the loop: the first expression; if that is a block, only if there is another one.
    pub fn iterable(&self) -> Option<Expr<N>> {
        unless_lone_block(&self.syntax)
    }
}

impl<N: Node> MatchArm<N> {
    /// The `match` that it is an arm of: the parent's parent.
    ///
    /// # Panics
    ///
    /// It panics if that is no `match`, or if there is none. In a tree that was parsed there is one.
    pub fn parent_match(&self) -> MatchExpr<N> {
        support::grandparent_as(&self.syntax).expect("an arm is in a match")
    }
}

impl<N: Node> PrefixExpr<N> {
    /// The first child, if it is a token: the operator.
    pub fn op_token(&self) -> Option<N::Token> {
        support::first_if_token(&self.syntax, |_| true)
    }

    /// The prefix operator of that token, or `None` if it is not one.
    pub fn op_kind(&self) -> Option<UnaryOp> {
        unary_op(self.op_token()?.kind())
    }
}

impl<N: Node> BinExpr<N> {
    /// The first token that is a binary operator.
    pub fn op_token(&self) -> Option<N::Token> {
        support::leaf_in(&self.syntax, |kind| binary_op(kind).is_some())
    }

    /// The operator of the first token that is a binary operator.
    pub fn op_kind(&self) -> Option<BinaryOp> {
        binary_op(self.op_token()?.kind())
    }

    /// The first token that is a binary operator, and the operator.
    pub fn op_details(&self) -> Option<(N::Token, BinaryOp)> {
        let token = self.op_token()?;
        let operator = binary_op(token.kind())?;
        Some((token, operator))
    }

    /// The first expression, if there is one.
    pub fn lhs(&self) -> Option<Expr<N>> {
        support::first(&self.syntax)
    }

    /// The second expression, if there is one.
    pub fn rhs(&self) -> Option<Expr<N>> {
        nth(&self.syntax, 1)
    }

    /// The first and the second expression, each if there is one.
    pub fn sub_exprs(&self) -> (Option<Expr<N>>, Option<Expr<N>>) {
        (self.lhs(), self.rhs())
    }
}

/// A range, of expressions or of patterns.
pub trait RangeItem<N: Node = crate::SyntaxNode> {
    /// The type of its ends.
    type Bound: AstNode<N>;

    /// The end before the operator, if there is one. Without an operator, the first pattern of a pattern, and `None` of an expression.
    fn start(&self) -> Option<Self::Bound>;

    /// The end after the operator. Returns `None` if there is no operator or nothing after it.
    fn end(&self) -> Option<Self::Bound>;

    /// The operator, or `None` if there is none.
    fn op_kind(&self) -> Option<RangeOp>;

    /// The first `..` or `..=`.
    fn op_token(&self) -> Option<N::Token>;
}

fn range_operator<N: Node>(parent: &N) -> Option<N::Token> {
    support::leaf_in(parent, |kind| range_op(kind).is_some())
}

// The first end before the operator, or of all children if there is none.
fn before<A: AstNode<N>, N: Node>(parent: &N) -> Option<A> {
    for child in parent.children_with_tokens() {
        match child {
            NodeOrToken::Token(token) if range_op(token.kind()).is_some() => return None,
            NodeOrToken::Node(node) if A::can_cast(node.kind()) => return A::cast(node),
            _ => {}
        }
    }
    None
}

// The first end behind the operator.
fn behind<A: AstNode<N>, N: Node>(parent: &N) -> Option<A> {
    let mut children = parent.children_with_tokens();
    children.find(|it| it.as_token().is_some_and(|it| range_op(it.kind()).is_some()))?;
    children.filter_map(NodeOrToken::into_node).find_map(A::cast)
}

impl<N: Node> RangeItem<N> for RangeExpr<N> {
    type Bound = Expr<N>;

    fn start(&self) -> Option<Expr<N>> {
        range_operator(&self.syntax)?;
        before(&self.syntax)
    }

    fn end(&self) -> Option<Expr<N>> {
        behind(&self.syntax)
    }

    fn op_kind(&self) -> Option<RangeOp> {
        range_op(self.op_token()?.kind())
    }

    fn op_token(&self) -> Option<N::Token> {
        range_operator(&self.syntax)
    }
}

impl<N: Node> RangeItem<N> for RangePat<N> {
    type Bound = Pat<N>;

    fn start(&self) -> Option<Pat<N>> {
        before(&self.syntax)
    }

    fn end(&self) -> Option<Pat<N>> {
        behind(&self.syntax)
    }

    fn op_kind(&self) -> Option<RangeOp> {
        range_op(self.op_token()?.kind())
    }

    fn op_token(&self) -> Option<N::Token> {
        range_operator(&self.syntax)
    }
}

impl<N: Node> RangeExpr<N> {
    /// Whether it has no end at all, as `..` alone: no child is an expression.
    pub fn is_range_full(&self) -> bool {
        support::first::<Expr<N>, N>(&self.syntax).is_none()
    }
}

/// The form of an array expression.
#[derive(Clone, Debug)]
pub enum ArrayExprKind<N> {
    /// `[initializer; repeat]`
    Repeat {
        /// The repeated value.
        initializer: Option<Expr<N>>,
        /// How often.
        repeat: Option<Expr<N>>,
    },
    /// `[a, b, c]`
    ElementList(AstChildren<Expr<N>, N>),
}

impl<N: Node> ArrayExpr<N> {
    /// If a `;` is a child, the repeated value and the number, which are the first and the second expression; otherwise the list of the
    /// expressions.
    pub fn kind(&self) -> ArrayExprKind<N> {
        if support::leaf(&self.syntax, T![;]).is_none() {
            return ArrayExprKind::ElementList(support::all(&self.syntax));
        }
        ArrayExprKind::Repeat { initializer: support::first(&self.syntax), repeat: nth(&self.syntax, 1) }
    }
}

impl<N: Node> IndexExpr<N> {
    /// The indexed expression: the first expression, if there is one.
    pub fn base(&self) -> Option<Expr<N>> {
        support::first(&self.syntax)
    }

    /// The index: the second expression, if there is one.
    pub fn index(&self) -> Option<Expr<N>> {
        nth(&self.syntax, 1)
    }
}

/// The kind of a literal, with its token.
#[derive(Clone, Copy, Debug, PartialEq, Eq, Hash)]
pub enum LiteralKind<T> {
    /// `"a"`
    String(String<T>),
    /// `b"a"`
    ByteString(ByteString<T>),
    /// `c"a"`
    CString(CString<T>),
    /// `1`
    IntNumber(IntNumber<T>),
    /// `1.0`
    FloatNumber(FloatNumber<T>),
    /// `'a'`
    Char(Char<T>),
    /// `b'a'`
    Byte(Byte<T>),
    /// `true`, `false`
    Bool(bool),
}

impl<N: Node> Literal<N> {
    // The first child that is not an attribute, doc comment, white space or comment, if it is a token.
    fn value_token(&self) -> Option<N::Token> {
        use SyntaxKind::{ATTR, DOC_COMMENT};
        support::first_if_token(&self.syntax, |kind| !kind.is_trivia() && !matches!(kind, ATTR | DOC_COMMENT))
    }

    /// The token: the first child that is not an attribute, doc comment, white space or comment.
    ///
    /// # Panics
    ///
    /// It panics if that is not a token, or if there is none. In a tree that was parsed there is one.
    pub fn token(&self) -> N::Token {
        self.value_token().expect("a literal has a token")
    }

    /// The kind of literal that [`token`](Self::token) is.
    ///
    /// # Panics
    ///
    /// It panics if there is no token of a literal. In a tree that was parsed there is one.
    pub fn kind(&self) -> LiteralKind<N::Token> {
        self.value_token().and_then(literal_kind).expect("a literal has a token of a literal")
    }
}

fn literal_kind<T: Token>(token: T) -> Option<LiteralKind<T>> {
    match token.kind() {
        SyntaxKind::STRING => AstToken::cast(token).map(LiteralKind::String),
        SyntaxKind::BYTE_STRING => AstToken::cast(token).map(LiteralKind::ByteString),
        SyntaxKind::C_STRING => AstToken::cast(token).map(LiteralKind::CString),
        SyntaxKind::INT_NUMBER => AstToken::cast(token).map(LiteralKind::IntNumber),
        SyntaxKind::FLOAT_NUMBER => AstToken::cast(token).map(LiteralKind::FloatNumber),
        SyntaxKind::CHAR => AstToken::cast(token).map(LiteralKind::Char),
        SyntaxKind::BYTE => AstToken::cast(token).map(LiteralKind::Byte),
        SyntaxKind::TRUE_KW => Some(LiteralKind::Bool(true)),
        SyntaxKind::FALSE_KW => Some(LiteralKind::Bool(false)),
        _ => None,
    }
}

/// The modifier of a block.
#[derive(Clone, Debug, PartialEq, Eq, Hash)]
pub enum BlockModifier<N: Node> {
    /// `async`
    Async(N::Token),
    /// `unsafe`
    Unsafe(N::Token),
    /// `try`, `try bikeshed T`
    Try {
        /// `try`
        try_token: N::Token,
        /// `bikeshed`
        bikeshed_token: Option<N::Token>,
        /// The type after `bikeshed`.
        result_type: Option<Type<N>>,
    },
    /// `const`
    Const(N::Token),
    /// `async gen`, with the token `gen`.
    AsyncGen(N::Token),
    /// `gen`
    Gen(N::Token),
    /// `'a:`
    Label(Label<N>),
}

impl<N: Node> BlockExpr<N> {
    /// The first of these that the block has: `gen` with or without `async`, `async`, `unsafe`, `try`, `const`, a label.
    pub fn modifier(&self) -> Option<BlockModifier<N>> {
        let token = |kind| support::leaf(&self.syntax, kind);
        if let Some(gen_token) = token(T![gen]) {
            let is_async = token(T![async]).is_some();
            return Some(if is_async { BlockModifier::AsyncGen(gen_token) } else { BlockModifier::Gen(gen_token) });
        }
        if let Some(async_token) = token(T![async]) {
            return Some(BlockModifier::Async(async_token));
        }
        if let Some(unsafe_token) = token(T![unsafe]) {
            return Some(BlockModifier::Unsafe(unsafe_token));
        }
        if let Some(modifier) = support::first::<TryBlockModifier<N>, N>(&self.syntax) {
            if let Some(try_token) = support::leaf(&modifier.syntax, T![try]) {
                let bikeshed_token = support::leaf(&modifier.syntax, T![bikeshed]);
                return Some(BlockModifier::Try { try_token, bikeshed_token, result_type: support::first(&modifier.syntax) });
            }
        }
        if let Some(const_token) = token(T![const]) {
            return Some(BlockModifier::Const(const_token));
        }
        support::first(&self.syntax).map(BlockModifier::Label)
    }

    /// Whether the block is an expression of its own, and not a part of its parent as the body of a function is. It is if it has no
    /// parent; if the parent is a `for` or an `if` and no other expression is first there; and if the parent is any node except a `for`,
    /// `if`, `let` with `else`, function, `while`, `loop` or constant pattern.
    pub fn is_standalone(&self) -> bool {
        use SyntaxKind::*;
        let Some(parent) = self.syntax.parent() else { return true };
        match parent.kind() {
            FOR_EXPR | IF_EXPR => support::first::<Expr<N>, N>(&parent).is_none_or(|it| *it.syntax() == self.syntax),
            LET_ELSE | FN | WHILE_EXPR | LOOP_EXPR | CONST_BLOCK_PAT => false,
            _ => true,
        }
    }

    /// Whether its parent is a block expression or an expression statement, so that attributes may be in it. The last expression of a
    /// block has its list of statements as parent.
    pub fn may_carry_attributes(&self) -> bool {
        may_carry_attributes(&self.syntax)
    }

    /// The statements of its list, in order; none if it has no list.
    pub fn statements(&self) -> impl Iterator<Item = Stmt<N>> + use<N> {
        self.stmt_list().into_iter().flat_map(|it| it.statements())
    }

    /// The first child of its list that is an expression: in a well-formed block its value.
    pub fn tail_expr(&self) -> Option<Expr<N>> {
        self.stmt_list()?.tail_expr()
    }
}

pub(super) fn may_carry_attributes<N: Node>(block: &N) -> bool {
    block.parent().is_some_and(|it| matches!(it.kind(), SyntaxKind::BLOCK_EXPR | SyntaxKind::EXPR_STMT))
}

/// The arguments of a call, in order, with `None` where one is missing.
#[derive(Clone, Debug)]
pub struct ArgsMaybeEmpty<N> {
    left: ChildrenWithTokens<N>,
    // whether an argument came since the last comma
    is_after: bool,
    view: PhantomData<fn() -> Expr<N>>,
}

fn is_comma<N: Node>(element: &NodeOrToken<N, N::Token>) -> bool {
    match element {
        NodeOrToken::Node(node) => node.kind() == SyntaxKind::ERROR && node.first_token().is_some_and(|it| it.kind() == T![,]),
        NodeOrToken::Token(token) => token.kind() == T![,],
    }
}

impl<N: Node> Iterator for ArgsMaybeEmpty<N> {
    type Item = Option<Expr<N>>;

    fn next(&mut self) -> Option<Self::Item> {
        loop {
            let child = self.left.next()?;
            if is_comma(&child) {
                if !std::mem::replace(&mut self.is_after, false) {
                    return Some(None);
                }
            } else if let NodeOrToken::Node(node) = child {
                let argument = Expr::cast(node);
                self.is_after |= argument.is_some();
                return Some(argument);
            }
        }
    }
}

impl<N: Node> ArgList<N> {
    /// The arguments, in order, with `None` for each child node that is not an expression and for each comma that follows no argument, as
    /// between `(` and `,`. An `ERROR` node that begins with a comma counts as one.
    pub fn args_maybe_empty(&self) -> ArgsMaybeEmpty<N> {
        ArgsMaybeEmpty { left: self.syntax.children_with_tokens(), is_after: false, view: PhantomData }
    }
}

/// The name or number of a field.
#[derive(Clone, Debug, PartialEq, Eq, Hash)]
pub enum FieldKind<N: Node> {
    /// `a.f`
    Name(NameRef<N>),
    /// `a.0`
    Index(N::Token),
}

impl<N: Node> FieldExpr<N> {
    /// The first child of a number's kind, if it is a token: the field's number.
    pub fn index_token(&self) -> Option<N::Token> {
        support::first_if_token(&self.syntax, |kind| matches!(kind, SyntaxKind::INT_NUMBER | SyntaxKind::FLOAT_NUMBER))
    }

    /// The field's name, otherwise its number, or `None` if it has neither.
    pub fn field_access(&self) -> Option<FieldKind<N>> {
        match self.name_ref() {
            Some(name) => Some(FieldKind::Name(name)),
            None => self.index_token().map(FieldKind::Index),
        }
    }
}

impl<N: Node> RecordExprField<N> {
    /// The field's name. In the short form `S { x }` it is the name in the path `x`.
    pub fn field_name(&self) -> Option<NameRef<N>> {
        if let Some(name) = self.name_ref() {
            return Some(name);
        }
        let value: PathExpr<N> = support::recast(self.expr())?;
        value.path()?.as_single_name_ref()
    }

    /// The field around a name: the name's parent, otherwise the fourth node above it, if that is one.
    pub fn for_name_ref(name_ref: &NameRef<N>) -> Option<RecordExprField<N>> {
        if let Some(field) = support::parent_as(&name_ref.syntax) {
            return Some(field);
        }
        support::grandparent_as(&name_ref.syntax.parent()?.parent()?)
    }

    /// The field around a name, if the name is the field's.
    pub fn for_field_name(field_name: &NameRef<N>) -> Option<RecordExprField<N>> {
        Self::for_name_ref(field_name).filter(|it| it.field_name().as_ref() == Some(field_name))
    }

    /// The record that it is a field of: the nearest record expression above it.
    ///
    /// # Panics
    ///
    /// It panics if there is none. In a tree that was parsed there is one.
    pub fn parent_record_lit(&self) -> RecordExpr<N> {
        support::ancestor_as(&self.syntax).expect("a field is in a record expression")
    }
}
