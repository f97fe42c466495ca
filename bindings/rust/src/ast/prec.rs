//! Precedences of expressions, and where they need parentheses.
//!
//! The tests are those of the proved library (`crates/ras_prec` of the repository), over the rows of a tree. For an operand of a tree of
//! operators that reads back the test is exact there, by a theorem; here it is tested: against the parser (`tests/prec.rs`), and on each
//! node of some 1,100 texts, in few of which a pair is needed, it has to return what the library returns.
use super::AstNode;
use super::operators::{BinaryOp, LogicOp, binary_op, range_op};
use super::views::{Expr, Stmt, Type};
use crate::iter::rows_of_children;
use crate::node::Node;
use crate::tree::Tree;
use crate::{SyntaxKind, SyntaxNode};
use std::iter::successors;

/// How strongly an expression binds, from weakest to strongest.
#[derive(Clone, Copy, Debug, PartialEq, Eq, PartialOrd, Ord, Hash)]
pub enum ExprPrecedence {
    /// `return`, `break`, `continue`, `yield`, `do yeet`, `become`, with or without a value; a closure without a return type.
    Jump,
    /// `=`, and an operator with it.
    Assign,
    /// `..`, `..=`
    Range,
    /// `||`
    LOr,
    /// `&&`
    LAnd,
    /// `==`, `!=`, `<`, `>`, `<=`, `>=`
    Compare,
    /// `|`
    BitOr,
    /// `^`
    BitXor,
    /// `&`
    BitAnd,
    /// `<<`, `>>`
    Shift,
    /// `+`, `-`
    Sum,
    /// `*`, `/`, `%`
    Product,
    /// `as`
    Cast,
    /// `-`, `*`, `!`, `&`, `let`
    Prefix,
    /// A call, an index, a field, `?`, `.await`.
    Postfix,
    /// A path, a literal, a block, a loop, an expression in delimiters.
    Unambiguous,
}

impl ExprPrecedence {
    /// Whether an expression of this precedence needs parentheses in one of precedence `other`, by precedences alone.
    ///
    /// It ignores on which side the expression is, so it often asks for parentheses that are not needed; and it knows no context, so it
    /// asks for none round a field that is called, a cast's name before `<`, and a record in a condition.
    /// [`needs_parens_in`](Expr::needs_parens_in) knows both.
    pub fn needs_parentheses_in(self, other: ExprPrecedence) -> bool {
        match other {
            ExprPrecedence::Unambiguous => false,
            ExprPrecedence::Postfix => self < ExprPrecedence::Postfix,
            ExprPrecedence::Prefix => ExprPrecedence::Jump < self && self < ExprPrecedence::Prefix,
            parent => self <= parent,
        }
    }
}

/// The precedence of an expression. That of a binary expression depends on its operator's token; a closure without a return type has that
/// of a jump.
pub fn precedence<N: Node>(expr: &Expr<N>) -> ExprPrecedence {
    expr.precedence()
}

impl<N: Node> Expr<N> {
    /// The precedence of the expression.
    pub fn precedence(&self) -> ExprPrecedence {
        At::of(self.syntax()).precedence()
    }

    /// Whether it is a `continue`, or a `return`, `break`, `yield` or `become` without a value.
    pub fn is_ret_like_with_no_value(&self) -> bool {
        At::of(self.syntax()).is_ret_like_with_no_value()
    }

    /// Whether the expression needs parentheses below `parent`, which is its parent, another ancestor, or the expression itself. For any
    /// other node the answer is `false`.
    ///
    /// ```
    /// use ras::ast::{self, AstNode};
    /// use ras::{Edition, SourceFile};
    ///
    /// let file = SourceFile::parse("fn f() { (a - b) - (c - d) }", Edition::CURRENT).tree();
    /// let pairs = file.syntax().descendants().filter_map(ast::ParenExpr::cast);
    /// let needed: Vec<_> = pairs
    ///     .map(|pair| pair.expr().unwrap().needs_parens_in_place_of(&pair.syntax().parent().unwrap(), pair.syntax()))
    ///     .collect();
    /// assert_eq!(needed, [false, true]);
    /// ```
    pub fn needs_parens_in(&self, parent: &N) -> bool {
        self.needs_parens_in_place_of(parent, self.syntax())
    }

    /// Whether the expression would need parentheses if it replaced the node `place`, below `parent`, which is the parent of `place`,
    /// another ancestor, or `place` itself. For any other node the answer is `false`. The expression may be one of another tree.
    pub fn needs_parens_in_place_of<M: Node>(&self, parent: &M, place: &M) -> bool {
        parent.tree_of().is_same(place.tree_of()) && asks(At::of(self.syntax()), At::of(parent), At::of(place))
    }
}

impl<N: Node> Type<N> {
    /// Whether the type needs parentheses below a parent: a `dyn` or `impl` type in a cast, after `&` or in a pointer type.
    pub fn needs_parens_in(&self, parent: &N) -> bool {
        use SyntaxKind::*;
        matches!(self.syntax().kind(), DYN_TRAIT_TYPE | IMPL_TRAIT_TYPE) && matches!(parent.kind(), CAST_EXPR | REF_TYPE | PTR_TYPE)
    }
}

// A row of a tree.
#[derive(Clone, Copy)]
struct At<'t> {
    tree: &'t Tree,
    row: u32,
}

// How strongly an expression binds on its left and on its right.
#[derive(Clone, Copy)]
struct Strength {
    left: u8,
    right: u8,
}

const fn binding(left: u8, right: u8) -> Strength {
    Strength { left, right }
}

impl Strength {
    fn is_like_paren(self) -> bool {
        self.left == 0 && self.right == 0
    }

    fn is_like_prefix(self) -> bool {
        self.left == 0 && self.right != 0
    }

    fn is_like_postfix(self) -> bool {
        self.left != 0 && self.right == 0
    }

    // Whether an operand of these powers needs parentheses in a parent of others; `before`: its operator stands before the parent's.
    fn binds_less_in(self, parent: Strength, before: bool) -> bool {
        let is_excused = self.is_like_paren()
            || parent.is_like_paren()
            || (self.is_like_prefix() && (parent.is_like_prefix() || !before))
            || (self.is_like_postfix() && (parent.is_like_postfix() || before));
        let are_of_one_rank = self.left == parent.left && matches!(self.left, 5 | 11);
        !is_excused && (are_of_one_rank || if before { self.right < parent.left } else { parent.right >= self.left })
    }
}

fn operator_powers(kind: SyntaxKind) -> Strength {
    use SyntaxKind::*;
    match kind {
        PIPE2 => binding(7, 8),
        AMP2 => binding(9, 10),
        EQ2 | NEQ | L_ANGLE | LTEQ | R_ANGLE | GTEQ => binding(11, 11),
        PIPE => binding(13, 14),
        CARET => binding(15, 16),
        AMP => binding(17, 18),
        SHL | SHR => binding(19, 20),
        PLUS | MINUS => binding(21, 22),
        STAR | SLASH | PERCENT => binding(23, 24),
        EQ | PLUSEQ | MINUSEQ | STAREQ | SLASHEQ | PERCENTEQ | SHLEQ | SHREQ | CARETEQ | PIPEEQ | AMPEQ => binding(4, 3),
        _ => binding(0, 0),
    }
}

fn operator_precedence(kind: SyntaxKind) -> ExprPrecedence {
    use SyntaxKind::*;
    match kind {
        PIPE2 => ExprPrecedence::LOr,
        AMP2 => ExprPrecedence::LAnd,
        EQ2 | NEQ | L_ANGLE | R_ANGLE | LTEQ | GTEQ => ExprPrecedence::Compare,
        PIPE => ExprPrecedence::BitOr,
        CARET => ExprPrecedence::BitXor,
        AMP => ExprPrecedence::BitAnd,
        SHL | SHR => ExprPrecedence::Shift,
        PLUS | MINUS => ExprPrecedence::Sum,
        STAR | SLASH | PERCENT => ExprPrecedence::Product,
        _ if binary_op(kind).is_some() => ExprPrecedence::Assign,
        _ => ExprPrecedence::Unambiguous,
    }
}

fn is_expr(kind: SyntaxKind) -> bool {
    <Expr<SyntaxNode>>::can_cast(kind)
}

fn is_logic(kind: SyntaxKind) -> bool {
    matches!(kind, SyntaxKind::AMP2 | SyntaxKind::PIPE2)
}

fn is_block_like(kind: SyntaxKind) -> bool {
    use SyntaxKind::*;
    matches!(kind, IF_EXPR | MATCH_EXPR | BLOCK_EXPR | WHILE_EXPR | LOOP_EXPR | FOR_EXPR)
}

impl<'t> At<'t> {
    fn of<N: Node>(node: &'t N) -> At<'t> {
        At { tree: node.tree_of(), row: node.row_number() }
    }

    fn at(self, row: u32) -> At<'t> {
        At { row, ..self }
    }

    fn kind(self) -> SyntaxKind {
        self.tree.kind_of(self.row)
    }

    fn start(self) -> u64 {
        u32::from(self.tree.start_of(self.row)).into()
    }

    fn end(self) -> u64 {
        u32::from(self.tree.range_of(self.row).end()).into()
    }

    fn parent(self) -> Option<At<'t>> {
        self.tree.parent_of(self.row).map(|row| self.at(row))
    }

    // It, its parent, and so on.
    fn ancestors(self) -> impl Iterator<Item = At<'t>> {
        successors(Some(self), |it| it.parent())
    }

    fn children(self) -> impl Iterator<Item = At<'t>> {
        rows_of_children(self.tree, self.row).map(move |row| self.at(row))
    }

    fn is_token(self) -> bool {
        self.tree.is_token(self.row)
    }

    fn exprs(self) -> impl Iterator<Item = At<'t>> {
        self.children().filter(|it| !it.is_token() && is_expr(it.kind()))
    }

    // The first child that is a node of this kind.
    fn node(self, kind: SyntaxKind) -> Option<At<'t>> {
        self.children().find(|it| !it.is_token() && it.kind() == kind)
    }

    // The first child that is a token of such a kind.
    fn token(self, accepts: impl Fn(SyntaxKind) -> bool) -> Option<At<'t>> {
        self.children().find(|it| it.is_token() && accepts(it.kind()))
    }

    fn binary_op(self) -> Option<SyntaxKind> {
        self.token(|kind| binary_op(kind).is_some()).map(At::kind)
    }

    fn is_and(self) -> bool {
        self.kind() == SyntaxKind::BIN_EXPR && self.binary_op().and_then(binary_op) == Some(BinaryOp::LogicOp(LogicOp::And))
    }

    fn precedence(self) -> ExprPrecedence {
        use SyntaxKind::*;
        match self.kind() {
            CLOSURE_EXPR if self.node(RET_TYPE).is_some() => ExprPrecedence::Unambiguous,
            CLOSURE_EXPR | BREAK_EXPR | BECOME_EXPR | RETURN_EXPR | YEET_EXPR | YIELD_EXPR | CONTINUE_EXPR => ExprPrecedence::Jump,
            RANGE_EXPR => ExprPrecedence::Range,
            BIN_EXPR => self.binary_op().map_or(ExprPrecedence::Unambiguous, operator_precedence),
            CAST_EXPR => ExprPrecedence::Cast,
            LET_EXPR | PREFIX_EXPR | REF_EXPR => ExprPrecedence::Prefix,
            AWAIT_EXPR | CALL_EXPR | FIELD_EXPR | INDEX_EXPR | METHOD_CALL_EXPR | TRY_EXPR => ExprPrecedence::Postfix,
            _ => ExprPrecedence::Unambiguous,
        }
    }

    fn is_ret_like_with_no_value(self) -> bool {
        use SyntaxKind::*;
        match self.kind() {
            CONTINUE_EXPR => true,
            RETURN_EXPR | BREAK_EXPR | YIELD_EXPR | BECOME_EXPR => self.exprs().next().is_none(),
            _ => false,
        }
    }

    // The token that is the operator of an expression.
    fn operator(self) -> Option<At<'t>> {
        use SyntaxKind::*;
        let wanted = match self.kind() {
            BIN_EXPR => return self.token(|kind| operator_powers(kind).left != 0),
            RANGE_EXPR => return self.token(|kind| range_op(kind).is_some()),
            CALL_EXPR => return self.node(ARG_LIST)?.token(|kind| kind == L_PAREN),
            CLOSURE_EXPR => return self.node(PARAM_LIST)?.token(|kind| kind == L_PAREN),
            REF_EXPR => AMP,
            CAST_EXPR => AS_KW,
            FIELD_EXPR | AWAIT_EXPR | METHOD_CALL_EXPR => DOT,
            TRY_EXPR => QUESTION,
            INDEX_EXPR => L_BRACK,
            BREAK_EXPR => BREAK_KW,
            CONTINUE_EXPR => CONTINUE_KW,
            RETURN_EXPR => RETURN_KW,
            BECOME_EXPR => BECOME_KW,
            YIELD_EXPR => YIELD_KW,
            YEET_EXPR => DO_KW,
            LET_EXPR => LET_KW,
            OFFSET_OF_EXPR | FORMAT_ARGS_EXPR | ASM_EXPR => BUILTIN_KW,
            _ => return None,
        };
        self.token(|kind| kind == wanted)
    }

    fn powers(self) -> Strength {
        use SyntaxKind::*;
        match self.kind() {
            PREFIX_EXPR | REF_EXPR | LET_EXPR => binding(0, 27),
            BIN_EXPR => self.operator().map_or(binding(0, 0), |it| operator_powers(it.kind())),
            RANGE_EXPR => binding(5, 5),
            FIELD_EXPR => binding(31, 32),
            CAST_EXPR => binding(25, 26),
            AWAIT_EXPR | TRY_EXPR | INDEX_EXPR | CALL_EXPR | METHOD_CALL_EXPR | MACRO_EXPR => binding(29, 0),
            CLOSURE_EXPR | RETURN_EXPR | BECOME_EXPR | YIELD_EXPR | YEET_EXPR | BREAK_EXPR => binding(0, 1),
            OFFSET_OF_EXPR | FORMAT_ARGS_EXPR | ASM_EXPR => binding(0, 1),
            _ => binding(0, 0),
        }
    }

    // Where the operator starts; where the expression does, if it has none.
    fn order(self) -> u64 {
        self.operator().unwrap_or(self).start()
    }

    // Whether the operator would stand before that of the parent, if the expression were in the place.
    fn stands_before(self, parent: At, place: At) -> bool {
        let (from, to, operator) = (place.start(), place.end(), parent.order());
        let order = self.order().saturating_sub(self.start());
        if operator <= from {
            return from + order < operator;
        }
        to <= operator && from + order + to < operator + (self.end() - self.start()) + from
    }

    // The first token behind it that is not trivia.
    fn kind_behind(self) -> Option<SyntaxKind> {
        let rows = self.tree.end_of(self.row)..self.tree.rows().len() as u32;
        rows.map(|row| self.at(row)).find(|it| it.is_token() && !it.kind().is_trivia()).map(At::kind)
    }

    // The same behind the child at which, or below which, the place is.
    fn kind_next(self, place: At) -> Option<SyntaxKind> {
        let child = place.ancestors().find(|it| it.parent().is_some_and(|above| above.row == self.row))?;
        let mut rows = child.row..child.tree.end_of(child.row);
        rows.any(|row| child.tree.is_token(row)).then(|| child.kind_behind())?
    }

    // Whether a block follows its children.
    fn is_followed_by_block(self) -> bool {
        use SyntaxKind::*;
        for here in self.ancestors() {
            match here.kind() {
                FOR_EXPR | IF_EXPR | MATCH_EXPR | WHILE_EXPR | INCLUDE_BYTES_EXPR => return true,
                BIN_EXPR | RANGE_EXPR | BREAK_EXPR | CONTINUE_EXPR | PREFIX_EXPR | REF_EXPR | RETURN_EXPR | BECOME_EXPR
                | YIELD_EXPR | YEET_EXPR | LET_EXPR => {}
                _ => return false,
            }
        }
        false
    }

    // The expressions behind the operator of a range.
    fn range_ends(self) -> impl Iterator<Item = At<'t>> {
        let behind = self.children().skip_while(|it| !(it.is_token() && range_op(it.kind()).is_some()));
        behind.filter(|it| !it.is_token() && is_expr(it.kind()))
    }

    // Whether it begins with a block, an `if`, a `match` or a loop that is not the whole of it.
    fn begins_with_block(self) -> bool {
        use SyntaxKind::*;
        let mut here = self;
        while matches!(here.kind(), BIN_EXPR | CALL_EXPR | CAST_EXPR | INDEX_EXPR) {
            match here.exprs().next() {
                None => return false,
                Some(first) if is_block_like(first.kind()) => return true,
                Some(first) => here = first,
            }
        }
        false
    }

    fn ends_in_brace(self) -> bool {
        use SyntaxKind::*;
        let mut here = self;
        loop {
            let last = match here.kind() {
                RECORD_EXPR => return true,
                kind if is_block_like(kind) => return true,
                BIN_EXPR => here.exprs().nth(1),
                RANGE_EXPR => here.range_ends().next(),
                REF_EXPR | BREAK_EXPR | LET_EXPR | RETURN_EXPR | PREFIX_EXPR | YIELD_EXPR | CLOSURE_EXPR => here.exprs().next(),
                _ => return false,
            };
            match last {
                Some(last) => here = last,
                None => return false,
            }
        }
    }

    // Whether the tree of operands, outside delimiters, has an expression that is accepted; `operands` are those of one that are walked.
    fn reaches(self, accepts: impl Fn(At) -> bool, operands: impl Fn(At) -> usize) -> bool {
        let mut left = vec![self];
        while let Some(here) = left.pop() {
            if accepts(here) {
                return true;
            }
            left.extend(here.exprs().take(operands(here)));
        }
        false
    }

    // Whether it has a record outside delimiters.
    fn has_exterior_record(self) -> bool {
        use SyntaxKind::*;
        self.reaches(
            |it| it.kind() == RECORD_EXPR,
            |it| match it.kind() {
                BIN_EXPR => 2,
                INDEX_EXPR | AWAIT_EXPR | PREFIX_EXPR | CAST_EXPR | FIELD_EXPR | METHOD_CALL_EXPR => 1,
                _ => 0,
            },
        )
    }

    // Whether it is a `let`, or an `&&` that lacks a side or one of whose sides is such an expression.
    fn has_let(self) -> bool {
        let lacks_side = |it: At| it.is_and() && it.exprs().nth(1).is_none();
        self.reaches(|it| it.kind() == SyntaxKind::LET_EXPR || lacks_side(it), |it| if it.is_and() { 2 } else { 0 })
    }

    // Whether it is the type of a cast.
    fn is_cast_type(self) -> bool {
        let is_type = |it: &At| !it.is_token() && <Type<SyntaxNode>>::can_cast(it.kind());
        self.parent().is_some_and(|cast| {
            cast.kind() == SyntaxKind::CAST_EXPR && cast.children().find(is_type).is_some_and(|it| it.row == self.row)
        })
    }

    // Whether it ends, trivia aside, with a name in the type of a cast.
    fn ends_in_cast_name(self) -> bool {
        use SyntaxKind::*;
        let Some(last) = (self.row..self.tree.end_of(self.row)).rev().find(|row| self.tree.is_token(*row)) else {
            return false;
        };
        let Some(token) = (0..=last).rev().map(|row| self.at(row)).find(|it| it.is_token() && !it.kind().is_trivia()) else {
            return false;
        };
        let is_in_name = token.parent().is_some_and(|it| matches!(it.kind(), NAME_REF | NAME | LIFETIME));
        let mut passed = false;
        for here in token.ancestors().skip(1) {
            if here.row == self.row {
                return is_in_name && passed;
            }
            passed = passed || here.is_cast_type();
        }
        false
    }

    // What a block that follows would be read as a part of.
    fn is_cut_by_block(self) -> bool {
        use SyntaxKind::*;
        let is_bare_jump = matches!(self.kind(), RETURN_EXPR | BREAK_EXPR | YIELD_EXPR) && self.is_ret_like_with_no_value();
        let ends_in_block = || self.kind() == RANGE_EXPR && self.range_ends().next().is_some_and(|it| it.kind() == BLOCK_EXPR);
        is_bare_jump || ends_in_block() || self.has_exterior_record()
    }
}

// The rules where the parent is an expression: the first that applies decides.
fn asks_in_expr(own: At, parent: At, place: At) -> bool {
    use SyntaxKind::*;
    if own.kind() == FIELD_EXPR && parent.kind() == CALL_EXPR {
        return true;
    }
    if parent.is_followed_by_block() && own.is_cut_by_block() {
        return true;
    }
    if own.is_ret_like_with_no_value() && parent.powers().is_like_postfix() {
        return false;
    }
    let next = parent.kind_next(place);
    if own.precedence() == ExprPrecedence::Jump && next.is_some_and(is_logic) {
        return true;
    }
    if matches!(next, Some(L_ANGLE | SHL)) && own.ends_in_cast_name() {
        return true;
    }
    !(parent.is_and() && own.has_let()) && own.powers().binds_less_in(parent.powers(), own.stands_before(parent, place))
}

// A statement would end after the block that it begins with; and `else` follows neither `&&`, `||` nor a brace.
fn asks_in_statement(own: At, parent: At) -> bool {
    use SyntaxKind::*;
    let is_let_else = || parent.kind() == LET_STMT && parent.node(LET_ELSE).is_some();
    let is_logic_expr = || own.kind() == BIN_EXPR && own.binary_op().is_some_and(is_logic);
    own.begins_with_block() || (is_let_else() && (is_logic_expr() || own.ends_in_brace()))
}

fn asks(own: At, parent: At, place: At) -> bool {
    let kind = parent.kind();
    if !place.ancestors().any(|it| it.row == parent.row) {
        return false;
    }
    if is_expr(kind) {
        return asks_in_expr(own, parent, place);
    }
    (<Stmt<SyntaxNode>>::can_cast(kind) || kind == SyntaxKind::STMT_LIST) && asks_in_statement(own, parent)
}
