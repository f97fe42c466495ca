//! The operators of expressions and patterns.
use crate::SyntaxKind;
use std::fmt;

/// A prefix operator.
#[derive(Clone, Copy, Debug, PartialEq, Eq, Hash)]
pub enum UnaryOp {
    /// `*`
    Deref,
    /// `!`
    Not,
    /// `-`
    Neg,
}

/// The operator of a range.
#[derive(Clone, Copy, Debug, PartialEq, Eq, Hash)]
pub enum RangeOp {
    /// `..`
    Exclusive,
    /// `..=`
    Inclusive,
}

/// An operator on booleans that may not evaluate its second operand.
#[derive(Clone, Copy, Debug, PartialEq, Eq, Hash)]
pub enum LogicOp {
    /// `&&`
    And,
    /// `||`
    Or,
}

/// An operator on numbers and bits.
#[derive(Clone, Copy, Debug, PartialEq, Eq, Hash)]
pub enum ArithOp {
    /// `+`
    Add,
    /// `*`
    Mul,
    /// `-`
    Sub,
    /// `/`
    Div,
    /// `%`
    Rem,
    /// `<<`
    Shl,
    /// `>>`
    Shr,
    /// `^`
    BitXor,
    /// `|`
    BitOr,
    /// `&`
    BitAnd,
}

/// Which side of a comparison is the greater one.
#[derive(Clone, Copy, Debug, PartialEq, Eq, Hash)]
pub enum Ordering {
    /// The left operand is less.
    Less,
    /// The left operand is greater.
    Greater,
}

/// A comparison.
#[derive(Clone, Copy, Debug, PartialEq, Eq, Hash)]
pub enum CmpOp {
    /// `==`, negated `!=`.
    Eq {
        /// Whether it is `!=`.
        negated: bool,
    },
    /// `<`, `>`, and `<=`, `>=` if it is not strict.
    Ord {
        /// Which side is the greater one.
        ordering: Ordering,
        /// Whether it is false for equal operands.
        strict: bool,
    },
}

/// A binary operator.
#[derive(Clone, Copy, Debug, PartialEq, Eq, Hash)]
pub enum BinaryOp {
    /// `&&`, `||`
    LogicOp(LogicOp),
    /// `+`, `*`, ..
    ArithOp(ArithOp),
    /// `==`, `<`, ..
    CmpOp(CmpOp),
    /// `=`, or an operator with it, as `+=`.
    Assignment {
        /// The operator before the `=`.
        op: Option<ArithOp>,
    },
}

// The binary operators, by the kinds of their tokens.
const BINARY: [(SyntaxKind, BinaryOp, &str); 29] = {
    use ArithOp::*;
    use BinaryOp::{ArithOp as Arith, Assignment, CmpOp as Cmp, LogicOp as Logic};
    use CmpOp::{Eq as Equal, Ord};
    use Ordering::{Greater, Less};
    [
        (SyntaxKind::PIPE2, Logic(LogicOp::Or), "||"),
        (SyntaxKind::AMP2, Logic(LogicOp::And), "&&"),
        (SyntaxKind::EQ2, Cmp(Equal { negated: false }), "=="),
        (SyntaxKind::NEQ, Cmp(Equal { negated: true }), "!="),
        (SyntaxKind::LTEQ, Cmp(Ord { ordering: Less, strict: false }), "<="),
        (SyntaxKind::GTEQ, Cmp(Ord { ordering: Greater, strict: false }), ">="),
        (SyntaxKind::L_ANGLE, Cmp(Ord { ordering: Less, strict: true }), "<"),
        (SyntaxKind::R_ANGLE, Cmp(Ord { ordering: Greater, strict: true }), ">"),
        (SyntaxKind::PLUS, Arith(Add), "+"),
        (SyntaxKind::STAR, Arith(Mul), "*"),
        (SyntaxKind::MINUS, Arith(Sub), "-"),
        (SyntaxKind::SLASH, Arith(Div), "/"),
        (SyntaxKind::PERCENT, Arith(Rem), "%"),
        (SyntaxKind::SHL, Arith(Shl), "<<"),
        (SyntaxKind::SHR, Arith(Shr), ">>"),
        (SyntaxKind::CARET, Arith(BitXor), "^"),
        (SyntaxKind::PIPE, Arith(BitOr), "|"),
        (SyntaxKind::AMP, Arith(BitAnd), "&"),
        (SyntaxKind::EQ, Assignment { op: None }, "="),
        (SyntaxKind::PLUSEQ, Assignment { op: Some(Add) }, "+="),
        (SyntaxKind::STAREQ, Assignment { op: Some(Mul) }, "*="),
        (SyntaxKind::MINUSEQ, Assignment { op: Some(Sub) }, "-="),
        (SyntaxKind::SLASHEQ, Assignment { op: Some(Div) }, "/="),
        (SyntaxKind::PERCENTEQ, Assignment { op: Some(Rem) }, "%="),
        (SyntaxKind::SHLEQ, Assignment { op: Some(Shl) }, "<<="),
        (SyntaxKind::SHREQ, Assignment { op: Some(Shr) }, ">>="),
        (SyntaxKind::CARETEQ, Assignment { op: Some(BitXor) }, "^="),
        (SyntaxKind::PIPEEQ, Assignment { op: Some(BitOr) }, "|="),
        (SyntaxKind::AMPEQ, Assignment { op: Some(BitAnd) }, "&="),
    ]
};

pub(super) fn binary_op(kind: SyntaxKind) -> Option<BinaryOp> {
    BINARY.iter().find(|it| it.0 == kind).map(|it| it.1)
}

pub(super) fn unary_op(kind: SyntaxKind) -> Option<UnaryOp> {
    match kind {
        SyntaxKind::STAR => Some(UnaryOp::Deref),
        SyntaxKind::BANG => Some(UnaryOp::Not),
        SyntaxKind::MINUS => Some(UnaryOp::Neg),
        _ => None,
    }
}

pub(super) fn range_op(kind: SyntaxKind) -> Option<RangeOp> {
    match kind {
        SyntaxKind::DOT2 => Some(RangeOp::Exclusive),
        SyntaxKind::DOT2EQ => Some(RangeOp::Inclusive),
        _ => None,
    }
}

impl fmt::Display for BinaryOp {
    /// The text of the operator.
    fn fmt(&self, f: &mut fmt::Formatter<'_>) -> fmt::Result {
        BINARY.iter().filter(|it| it.1 == *self).try_for_each(|it| f.write_str(it.2))
    }
}

impl fmt::Display for LogicOp {
    /// The text of the operator.
    fn fmt(&self, f: &mut fmt::Formatter<'_>) -> fmt::Result {
        BinaryOp::LogicOp(*self).fmt(f)
    }
}

impl fmt::Display for ArithOp {
    /// The text of the operator.
    fn fmt(&self, f: &mut fmt::Formatter<'_>) -> fmt::Result {
        BinaryOp::ArithOp(*self).fmt(f)
    }
}

impl fmt::Display for CmpOp {
    /// The text of the operator.
    fn fmt(&self, f: &mut fmt::Formatter<'_>) -> fmt::Result {
        BinaryOp::CmpOp(*self).fmt(f)
    }
}
