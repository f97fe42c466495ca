"""Views of expressions of control flow. Written by bindings/make."""
from __future__ import annotations

from typing import TYPE_CHECKING, List, Optional

from ._lookups import View, every, first, second, token
from ._shared import *

if TYPE_CHECKING:
    from .. import Element
    from . import *


class BecomeExpr(Expr, HasAttrs):
    """A tail call: `become f(a)`."""

    KIND = "BECOME_EXPR"

    @property
    def become_token(self) -> Optional[Element]:
        """Example: `become` of `become f(a)`."""
        return token(self, "BECOME_KW")

    @property
    def expr(self) -> Optional[Expr]:
        """Example: `f(a)` of `become f(a)`."""
        return first(self, "Expr")


class BlockExpr(ElseBranch, Expr, HasAttrs):
    """A block: `{ a; b }`, also `unsafe`, `async`, `const`, `try` and labelled ones."""

    KIND = "BLOCK_EXPR"

    @property
    def async_token(self) -> Optional[Element]:
        """Example: `async` of `async move {}`."""
        return token(self, "ASYNC_KW")

    @property
    def const_token(self) -> Optional[Element]:
        """Example: `const` of `const {}`."""
        return token(self, "CONST_KW")

    @property
    def gen_token(self) -> Optional[Element]:
        """Example: `gen` of `gen {}`."""
        return token(self, "GEN_KW")

    @property
    def label(self) -> Optional[Label]:
        """Example: `'a:` of `'a: {}`."""
        return first(self, "Label")

    @property
    def move_token(self) -> Optional[Element]:
        """Example: `move` of `async move {}`."""
        return token(self, "MOVE_KW")

    @property
    def stmt_list(self) -> Optional[StmtList]:
        """Example: `{ a; b }` of `{ a; b }`."""
        return first(self, "StmtList")

    @property
    def try_block_modifier(self) -> Optional[TryBlockModifier]:
        """Example: `try bikeshed T` of `try bikeshed T {}`."""
        return first(self, "TryBlockModifier")

    @property
    def unsafe_token(self) -> Optional[Element]:
        """Example: `unsafe` of `unsafe {}`."""
        return token(self, "UNSAFE_KW")


class BreakExpr(Expr, HasAttrs):
    """`break`, with a label and a value where it has them."""

    KIND = "BREAK_EXPR"

    @property
    def break_token(self) -> Optional[Element]:
        """Example: `break` of `break 'a b`."""
        return token(self, "BREAK_KW")

    @property
    def expr(self) -> Optional[Expr]:
        """Example: `b` of `break 'a b`."""
        return first(self, "Expr")

    @property
    def lifetime(self) -> Optional[Lifetime]:
        """Example: `'a` of `break 'a b`."""
        return first(self, "Lifetime")


class ContinueExpr(Expr, HasAttrs):
    """`continue`, with a label where it has one."""

    KIND = "CONTINUE_EXPR"

    @property
    def continue_token(self) -> Optional[Element]:
        """Example: `continue` of `continue 'a`."""
        return token(self, "CONTINUE_KW")

    @property
    def lifetime(self) -> Optional[Lifetime]:
        """Example: `'a` of `continue 'a`."""
        return first(self, "Lifetime")


class ForExpr(Expr, HasLoopBody, HasAttrs):
    """A `for` loop: `for p in a { .. }`."""

    KIND = "FOR_EXPR"

    @property
    def for_token(self) -> Optional[Element]:
        """Example: `for` of `for p in a { b }`."""
        return token(self, "FOR_KW")

    @property
    def in_token(self) -> Optional[Element]:
        """Example: `in` of `for p in a { b }`."""
        return token(self, "IN_KW")

    @property
    def pat(self) -> Optional[Pat]:
        """Example: `p` of `for p in a { b }`."""
        return first(self, "Pat")


class IfExpr(ElseBranch, Expr, HasAttrs):
    """`if a { .. } else { .. }`."""

    KIND = "IF_EXPR"

    @property
    def else_token(self) -> Optional[Element]:
        """Example: `else` of `if a { b } else { c }`."""
        return token(self, "ELSE_KW")

    @property
    def if_token(self) -> Optional[Element]:
        """Example: `if` of `if a { b } else { c }`."""
        return token(self, "IF_KW")


class LetExpr(Expr, HasAttrs):
    """A `let` in a condition: `let p = a`."""

    KIND = "LET_EXPR"

    @property
    def eq_token(self) -> Optional[Element]:
        """Example: `=` of `let p = a`."""
        return token(self, "EQ")

    @property
    def expr(self) -> Optional[Expr]:
        """Example: `a` of `let p = a`."""
        return first(self, "Expr")

    @property
    def let_token(self) -> Optional[Element]:
        """Example: `let` of `let p = a`."""
        return token(self, "LET_KW")

    @property
    def pat(self) -> Optional[Pat]:
        """Example: `p` of `let p = a`."""
        return first(self, "Pat")


class LoopExpr(Expr, HasLoopBody, HasAttrs):
    """A `loop { .. }`."""

    KIND = "LOOP_EXPR"

    @property
    def loop_token(self) -> Optional[Element]:
        """Example: `loop` of `loop {}`."""
        return token(self, "LOOP_KW")


class MatchExpr(Expr, HasAttrs):
    """`match a { .. }`."""

    KIND = "MATCH_EXPR"

    @property
    def expr(self) -> Optional[Expr]:
        """Example: `a` of `match a { p => b }`."""
        return first(self, "Expr")

    @property
    def match_arm_list(self) -> Optional[MatchArmList]:
        """Example: `{ p => b }` of `match a { p => b }`."""
        return first(self, "MatchArmList")

    @property
    def match_token(self) -> Optional[Element]:
        """Example: `match` of `match a { p => b }`."""
        return token(self, "MATCH_KW")


class ReturnExpr(Expr, HasAttrs):
    """`return`, with a value where it has one."""

    KIND = "RETURN_EXPR"

    @property
    def expr(self) -> Optional[Expr]:
        """Example: `a` of `return a`."""
        return first(self, "Expr")

    @property
    def return_token(self) -> Optional[Element]:
        """Example: `return` of `return a`."""
        return token(self, "RETURN_KW")


class WhileExpr(Expr, HasLoopBody, HasAttrs):
    """A `while` loop: `while a { .. }`."""

    KIND = "WHILE_EXPR"

    @property
    def while_token(self) -> Optional[Element]:
        """Example: `while` of `while a {}`."""
        return token(self, "WHILE_KW")


class YeetExpr(Expr, HasAttrs):
    """`do yeet a`."""

    KIND = "YEET_EXPR"

    @property
    def do_token(self) -> Optional[Element]:
        """Example: `do` of `do yeet a`."""
        return token(self, "DO_KW")

    @property
    def expr(self) -> Optional[Expr]:
        """Example: `a` of `do yeet a`."""
        return first(self, "Expr")

    @property
    def yeet_token(self) -> Optional[Element]:
        """Example: `yeet` of `do yeet a`."""
        return token(self, "YEET_KW")


class YieldExpr(Expr, HasAttrs):
    """`yield a`."""

    KIND = "YIELD_EXPR"

    @property
    def expr(self) -> Optional[Expr]:
        """Example: `a` of `yield a`."""
        return first(self, "Expr")

    @property
    def yield_token(self) -> Optional[Element]:
        """Example: `yield` of `yield a`."""
        return token(self, "YIELD_KW")
