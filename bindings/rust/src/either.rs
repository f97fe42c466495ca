//! A value of one of two types.
use std::fmt;

/// A value of one of two types. Of two types of nodes, it is one too. It has the calls of the crate `either` that rust-analyzer's crates use.
///
/// ```
/// use ras::ast::{self, AstNode};
/// use ras::{Edition, Either, SourceFile};
///
/// let file = SourceFile::parse("struct S; fn f() {} enum E {}", Edition::CURRENT).tree();
/// let types = file.syntax().children().filter_map(Either::<ast::Struct, ast::Enum>::cast);
/// assert_eq!(types.map(|it| it.is_left()).collect::<Vec<_>>(), [true, false]);
/// ```
#[derive(Clone, Copy, Debug, PartialEq, Eq, PartialOrd, Ord, Hash)]
pub enum Either<L, R> {
    /// A value of the first type.
    Left(L),
    /// A value of the second type.
    Right(R),
}

impl<L, R> Either<L, R> {
    /// The value of the first type, if it is one.
    pub fn left(self) -> Option<L> {
        match self {
            Either::Left(it) => Some(it),
            Either::Right(_) => None,
        }
    }

    /// The value of the second type, if it is one.
    pub fn right(self) -> Option<R> {
        match self {
            Either::Left(_) => None,
            Either::Right(it) => Some(it),
        }
    }

    /// Whether it is a value of the first type.
    pub fn is_left(&self) -> bool {
        matches!(self, Either::Left(_))
    }

    /// Whether it is a value of the second type.
    pub fn is_right(&self) -> bool {
        matches!(self, Either::Right(_))
    }

    /// References to the value.
    pub fn as_ref(&self) -> Either<&L, &R> {
        match self {
            Either::Left(it) => Either::Left(it),
            Either::Right(it) => Either::Right(it),
        }
    }

    /// References by which the value can be changed.
    pub fn as_mut(&mut self) -> Either<&mut L, &mut R> {
        match self {
            Either::Left(it) => Either::Left(it),
            Either::Right(it) => Either::Right(it),
        }
    }

    /// The same value, with the types exchanged.
    pub fn flip(self) -> Either<R, L> {
        match self {
            Either::Left(it) => Either::Right(it),
            Either::Right(it) => Either::Left(it),
        }
    }

    /// What one of two functions makes of the value.
    pub fn either<T>(self, left: impl FnOnce(L) -> T, right: impl FnOnce(R) -> T) -> T {
        match self {
            Either::Left(it) => left(it),
            Either::Right(it) => right(it),
        }
    }

    /// The same with a value of the first type changed.
    pub fn map_left<M>(self, change: impl FnOnce(L) -> M) -> Either<M, R> {
        self.map_either(change, |it| it)
    }

    /// The same with a value of the second type changed.
    pub fn map_right<S>(self, change: impl FnOnce(R) -> S) -> Either<L, S> {
        self.map_either(|it| it, change)
    }

    /// The same with the value changed by one of two functions.
    pub fn map_either<M, S>(self, left: impl FnOnce(L) -> M, right: impl FnOnce(R) -> S) -> Either<M, S> {
        match self {
            Either::Left(it) => Either::Left(left(it)),
            Either::Right(it) => Either::Right(right(it)),
        }
    }

    /// The value of the first type, or another one.
    pub fn left_or(self, other: L) -> L {
        self.left().unwrap_or(other)
    }

    /// The value of the second type, or another one.
    pub fn right_or(self, other: R) -> R {
        self.right().unwrap_or(other)
    }

    /// The value of the first type, or what a function makes of that of the second.
    pub fn left_or_else(self, other: impl FnOnce(R) -> L) -> L {
        self.either(|it| it, other)
    }

    /// The value of the second type, or what a function makes of that of the first.
    pub fn right_or_else(self, other: impl FnOnce(L) -> R) -> R {
        self.either(other, |it| it)
    }
}

impl<T> Either<T, T> {
    /// The value.
    pub fn into_inner(self) -> T {
        self.either(|it| it, |it| it)
    }

    /// The same with the value changed.
    pub fn map<U>(self, change: impl FnOnce(T) -> U) -> Either<U, U> {
        match self {
            Either::Left(it) => Either::Left(change(it)),
            Either::Right(it) => Either::Right(change(it)),
        }
    }
}

impl<L: Iterator, R: Iterator<Item = L::Item>> Iterator for Either<L, R> {
    type Item = L::Item;

    fn next(&mut self) -> Option<L::Item> {
        match self {
            Either::Left(it) => it.next(),
            Either::Right(it) => it.next(),
        }
    }

    fn size_hint(&self) -> (usize, Option<usize>) {
        match self {
            Either::Left(it) => it.size_hint(),
            Either::Right(it) => it.size_hint(),
        }
    }
}

impl<L: fmt::Display, R: fmt::Display> fmt::Display for Either<L, R> {
    fn fmt(&self, f: &mut fmt::Formatter<'_>) -> fmt::Result {
        match self {
            Either::Left(it) => it.fmt(f),
            Either::Right(it) => it.fmt(f),
        }
    }
}
