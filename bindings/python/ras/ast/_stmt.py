"""Views of statements and parts of expressions. Written by bindings/make."""
from __future__ import annotations

from typing import TYPE_CHECKING, List, Optional

from ._lookups import View, every, first, second, token
from ._shared import *

if TYPE_CHECKING:
    from .. import Element
    from . import *


class ArgList(View):
    """The arguments of a call: `(a, b)`."""

    KIND = "ARG_LIST"

    @property
    def args(self) -> List[Expr]:
        """Example: `a` and `b` of `(a, b)`."""
        return every(self, "Expr")

    @property
    def l_paren_token(self) -> Optional[Element]:
        """Example: `(` of `(a, b)`."""
        return token(self, "L_PAREN")

    @property
    def r_paren_token(self) -> Optional[Element]:
        """Example: `)` of `(a, b)`."""
        return token(self, "R_PAREN")


class ExprStmt(Stmt):
    """An expression that is a statement: `a;`."""

    KIND = "EXPR_STMT"

    @property
    def expr(self) -> Optional[Expr]:
        """Example: `a` of `a;`."""
        return first(self, "Expr")

    @property
    def semicolon_token(self) -> Optional[Element]:
        """Example: `;` of `a;`."""
        return token(self, "SEMICOLON")


class FormatArgsArg(View):
    """An argument of `format_args`: `x = a`."""

    KIND = "FORMAT_ARGS_ARG"

    @property
    def arg_name(self) -> Optional[FormatArgsArgName]:
        """Example: `a =` of `a = b`."""
        return first(self, "FormatArgsArgName")

    @property
    def expr(self) -> Optional[Expr]:
        """Example: `b` of `a = b`."""
        return first(self, "Expr")


class Label(View):
    """A label: `'a:`."""

    KIND = "LABEL"

    @property
    def colon_token(self) -> Optional[Element]:
        """Example: `:` of `'a:`."""
        return token(self, "COLON")

    @property
    def lifetime(self) -> Optional[Lifetime]:
        """Example: `'a` of `'a:`."""
        return first(self, "Lifetime")


class LetElse(View):
    """The `else { .. }` of a `let`."""

    KIND = "LET_ELSE"

    @property
    def block_expr(self) -> Optional[BlockExpr]:
        """Example: `{ b }` of `else { b }`."""
        return first(self, "BlockExpr")

    @property
    def else_token(self) -> Optional[Element]:
        """Example: `else` of `else { b }`."""
        return token(self, "ELSE_KW")


class LetStmt(Stmt, HasAttrs):
    """`let p: T = a else { .. };`."""

    KIND = "LET_STMT"

    @property
    def colon_token(self) -> Optional[Element]:
        """Example: `:` of `let p: T = a else { b };`."""
        return token(self, "COLON")

    @property
    def eq_token(self) -> Optional[Element]:
        """Example: `=` of `let p: T = a else { b };`."""
        return token(self, "EQ")

    @property
    def initializer(self) -> Optional[Expr]:
        """Example: `a` of `let p: T = a else { b };`."""
        return first(self, "Expr")

    @property
    def let_else(self) -> Optional[LetElse]:
        """Example: `else { b }` of `let p: T = a else { b };`."""
        return first(self, "LetElse")

    @property
    def let_token(self) -> Optional[Element]:
        """Example: `let` of `let p: T = a else { b };`."""
        return token(self, "LET_KW")

    @property
    def pat(self) -> Optional[Pat]:
        """Example: `p` of `let p: T = a else { b };`."""
        return first(self, "Pat")

    @property
    def semicolon_token(self) -> Optional[Element]:
        """Example: `;` of `let p: T = a else { b };`."""
        return token(self, "SEMICOLON")

    @property
    def super_token(self) -> Optional[Element]:
        """Example: `super` of `super let p = a;`."""
        return token(self, "SUPER_KW")

    @property
    def ty(self) -> Optional[Type]:
        """Example: `T` of `let p: T = a else { b };`."""
        return first(self, "Type")


class MatchArm(HasAttrs):
    """An arm of a `match`: `p if a => b,`."""

    KIND = "MATCH_ARM"

    @property
    def comma_token(self) -> Optional[Element]:
        """Example: `,` of `p if a => b,`."""
        return token(self, "COMMA")

    @property
    def expr(self) -> Optional[Expr]:
        """Example: `b` of `p if a => b,`."""
        return first(self, "Expr")

    @property
    def fat_arrow_token(self) -> Optional[Element]:
        """Example: `=>` of `p if a => b,`."""
        return token(self, "FAT_ARROW")

    @property
    def guard(self) -> Optional[MatchGuard]:
        """Example: `if a` of `p if a => b,`."""
        return first(self, "MatchGuard")

    @property
    def pat(self) -> Optional[Pat]:
        """Example: `p` of `p if a => b,`."""
        return first(self, "Pat")


class MatchArmList(HasAttrs):
    """The arms of a `match` with their braces."""

    KIND = "MATCH_ARM_LIST"

    @property
    def arms(self) -> List[MatchArm]:
        """Example: `p => b,` and `q => c` of `{ p => b, q => c }`."""
        return every(self, "MatchArm")

    @property
    def l_curly_token(self) -> Optional[Element]:
        """Example: `{` of `{ p => b, q => c }`."""
        return token(self, "L_CURLY")

    @property
    def r_curly_token(self) -> Optional[Element]:
        """Example: `}` of `{ p => b, q => c }`."""
        return token(self, "R_CURLY")


class MatchGuard(View):
    """The guard of an arm: `if a`."""

    KIND = "MATCH_GUARD"

    @property
    def condition(self) -> Optional[Expr]:
        """Example: `a` of `if a`."""
        return first(self, "Expr")

    @property
    def if_token(self) -> Optional[Element]:
        """Example: `if` of `if a`."""
        return token(self, "IF_KW")


class RecordExprField(HasAttrs):
    """A field of a struct that is made: `f: a`."""

    KIND = "RECORD_EXPR_FIELD"

    @property
    def colon_token(self) -> Optional[Element]:
        """Example: `:` of `f: a`."""
        return token(self, "COLON")

    @property
    def expr(self) -> Optional[Expr]:
        """Example: `a` of `f: a`."""
        return first(self, "Expr")

    @property
    def name_ref(self) -> Optional[NameRef]:
        """Example: `f` of `f: a`."""
        return first(self, "NameRef")


class StmtList(HasModuleItem, HasAttrs):
    """The statements of a block with its braces: `{ a; b }`."""

    KIND = "STMT_LIST"

    @property
    def l_curly_token(self) -> Optional[Element]:
        """Example: `{` of `{ a; fn g() {} b }`."""
        return token(self, "L_CURLY")

    @property
    def r_curly_token(self) -> Optional[Element]:
        """Example: `}` of `{ a; fn g() {} b }`."""
        return token(self, "R_CURLY")

    @property
    def statements(self) -> List[Stmt]:
        """Example: `a;` and `fn g() {}` of `{ a; fn g() {} b }`."""
        return every(self, "Stmt")

    @property
    def tail_expr(self) -> Optional[Expr]:
        """Example: `b` of `{ a; fn g() {} b }`."""
        return first(self, "Expr")


class TryBlockModifier(View):
    """The `try` of a block, with its type: `try bikeshed T`."""

    KIND = "TRY_BLOCK_MODIFIER"

    @property
    def bikeshed_token(self) -> Optional[Element]:
        """Example: `bikeshed` of `try bikeshed T`."""
        return token(self, "BIKESHED_KW")

    @property
    def try_token(self) -> Optional[Element]:
        """Example: `try` of `try bikeshed T`."""
        return token(self, "TRY_KW")

    @property
    def ty(self) -> Optional[Type]:
        """Example: `T` of `try bikeshed T`."""
        return first(self, "Type")
