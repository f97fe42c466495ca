"""Views of expressions. Written by bindings/make."""
from __future__ import annotations

from typing import TYPE_CHECKING, List, Optional

from ._lookups import View, every, first, second, token
from ._shared import *

if TYPE_CHECKING:
    from .. import Element
    from . import *


class ArrayExpr(Expr, HasAttrs):
    """An array: `[a, b]`, `[a; n]`."""

    KIND = "ARRAY_EXPR"

    @property
    def expr(self) -> Optional[Expr]:
        """Example: `a` of `[a, b]`."""
        return first(self, "Expr")

    @property
    def exprs(self) -> List[Expr]:
        """Example: `a` and `b` of `[a, b]`."""
        return every(self, "Expr")

    @property
    def l_brack_token(self) -> Optional[Element]:
        """Example: `[` of `[a, b]`."""
        return token(self, "L_BRACK")

    @property
    def r_brack_token(self) -> Optional[Element]:
        """Example: `]` of `[a, b]`."""
        return token(self, "R_BRACK")

    @property
    def semicolon_token(self) -> Optional[Element]:
        """Example: `;` of `[a; n]`."""
        return token(self, "SEMICOLON")


class AsmExpr(Item, Expr, HasAttrs):
    """Inline assembly: `builtin # asm(..)`."""

    KIND = "ASM_EXPR"

    @property
    def asm_pieces(self) -> List[AsmPiece]:
        """Example: `out(r) c` of `builtin # asm("a", "b", out(r) c)`."""
        return every(self, "AsmPiece")

    @property
    def asm_token(self) -> Optional[Element]:
        """Example: `asm` of `builtin # asm("a", "b", out(r) c)`."""
        return token(self, "ASM_KW")

    @property
    def builtin_token(self) -> Optional[Element]:
        """Example: `builtin` of `builtin # asm("a", "b", out(r) c)`."""
        return token(self, "BUILTIN_KW")

    @property
    def comma_token(self) -> Optional[Element]:
        """Example: `,` of `builtin # asm("a", "b", out(r) c)`."""
        return token(self, "COMMA")

    @property
    def global_asm_token(self) -> Optional[Element]:
        """Example: `global_asm` of `builtin # global_asm("a")`."""
        return token(self, "GLOBAL_ASM_KW")

    @property
    def l_paren_token(self) -> Optional[Element]:
        """Example: `(` of `builtin # asm("a", "b", out(r) c)`."""
        return token(self, "L_PAREN")

    @property
    def naked_asm_token(self) -> Optional[Element]:
        """Example: `naked_asm` of `builtin # naked_asm("a")`."""
        return token(self, "NAKED_ASM_KW")

    @property
    def pound_token(self) -> Optional[Element]:
        """Example: `#` of `builtin # asm("a", "b", out(r) c)`."""
        return token(self, "POUND")

    @property
    def r_paren_token(self) -> Optional[Element]:
        """Example: `)` of `builtin # asm("a", "b", out(r) c)`."""
        return token(self, "R_PAREN")

    @property
    def template(self) -> List[Expr]:
        """Example: `"a"` and `"b"` of `builtin # asm("a", "b", out(r) c)`."""
        return every(self, "Expr")


class AwaitExpr(Expr, HasAttrs):
    """A future that is awaited: `a.await`."""

    KIND = "AWAIT_EXPR"

    @property
    def await_token(self) -> Optional[Element]:
        """Example: `await` of `a.await`."""
        return token(self, "AWAIT_KW")

    @property
    def dot_token(self) -> Optional[Element]:
        """Example: `.` of `a.await`."""
        return token(self, "DOT")

    @property
    def expr(self) -> Optional[Expr]:
        """Example: `a` of `a.await`."""
        return first(self, "Expr")


class BinExpr(Expr, HasAttrs):
    """A binary operator and its operands: `a + b`, `a = b`, `a && b`."""

    KIND = "BIN_EXPR"


class CallExpr(CallableExpr, Expr, HasArgList, HasAttrs):
    """A call: `f(a, b)`."""

    KIND = "CALL_EXPR"

    @property
    def expr(self) -> Optional[Expr]:
        """Example: `f` of `f(a, b)`."""
        return first(self, "Expr")


class CastExpr(Expr, HasAttrs):
    """A cast: `a as T`."""

    KIND = "CAST_EXPR"

    @property
    def as_token(self) -> Optional[Element]:
        """Example: `as` of `a as T`."""
        return token(self, "AS_KW")

    @property
    def expr(self) -> Optional[Expr]:
        """Example: `a` of `a as T`."""
        return first(self, "Expr")

    @property
    def ty(self) -> Optional[Type]:
        """Example: `T` of `a as T`."""
        return first(self, "Type")


class CfgPredExpr(Expr, HasAttrs):
    """A `cfg!` predicate where an expression is."""

    KIND = "CFG_PRED_EXPR"


class ClosureExpr(Expr, HasAttrs):
    """A closure: `|a| b`, `move || a`."""

    KIND = "CLOSURE_EXPR"

    @property
    def async_token(self) -> Optional[Element]:
        """Example: `async` of `async move |a| b`."""
        return token(self, "ASYNC_KW")

    @property
    def body(self) -> Optional[Expr]:
        """Example: `{ b }` of `|a| -> T { b }`."""
        return first(self, "Expr")

    @property
    def const_token(self) -> Optional[Element]:
        """Example: `const` of `const |a| b`."""
        return token(self, "CONST_KW")

    @property
    def for_binder(self) -> Optional[ForBinder]:
        """Example: `for<'a>` of `for<'a> |b| c`."""
        return first(self, "ForBinder")

    @property
    def gen_token(self) -> Optional[Element]:
        """Example: `gen` of `async gen |a| b`."""
        return token(self, "GEN_KW")

    @property
    def move_token(self) -> Optional[Element]:
        """Example: `move` of `async move |a| b`."""
        return token(self, "MOVE_KW")

    @property
    def param_list(self) -> Optional[ParamList]:
        """Example: `|a|` of `|a| -> T { b }`."""
        return first(self, "ParamList")

    @property
    def ret_type(self) -> Optional[RetType]:
        """Example: `-> T` of `|a| -> T { b }`."""
        return first(self, "RetType")

    @property
    def static_token(self) -> Optional[Element]:
        """Example: `static` of `static |a| b`."""
        return token(self, "STATIC_KW")


class FieldExpr(Expr, HasAttrs):
    """A field: `a.f`, `a.0`."""

    KIND = "FIELD_EXPR"

    @property
    def dot_token(self) -> Optional[Element]:
        """Example: `.` of `a.f`."""
        return token(self, "DOT")

    @property
    def expr(self) -> Optional[Expr]:
        """Example: `a` of `a.f`."""
        return first(self, "Expr")

    @property
    def name_ref(self) -> Optional[NameRef]:
        """Example: `f` of `a.f`."""
        return first(self, "NameRef")


class FormatArgsArgName(View):
    """The name of an argument of `format_args`, and its `=`."""

    KIND = "FORMAT_ARGS_ARG_NAME"

    @property
    def eq_token(self) -> Optional[Element]:
        """Example: `=` of `a =`."""
        return token(self, "EQ")


class FormatArgsExpr(Expr, HasAttrs):
    """Formatted arguments: `builtin # format_args("{}", a)`."""

    KIND = "FORMAT_ARGS_EXPR"

    @property
    def args(self) -> List[FormatArgsArg]:
        """Example: `a = b` of `builtin # format_args("{}", a = b)`."""
        return every(self, "FormatArgsArg")

    @property
    def builtin_token(self) -> Optional[Element]:
        """Example: `builtin` of `builtin # format_args("{}", a = b)`."""
        return token(self, "BUILTIN_KW")

    @property
    def comma_token(self) -> Optional[Element]:
        """Example: `,` of `builtin # format_args("{}", a = b)`."""
        return token(self, "COMMA")

    @property
    def format_args_token(self) -> Optional[Element]:
        """Example: `format_args` of `builtin # format_args("{}", a = b)`."""
        return token(self, "FORMAT_ARGS_KW")

    @property
    def l_paren_token(self) -> Optional[Element]:
        """Example: `(` of `builtin # format_args("{}", a = b)`."""
        return token(self, "L_PAREN")

    @property
    def pound_token(self) -> Optional[Element]:
        """Example: `#` of `builtin # format_args("{}", a = b)`."""
        return token(self, "POUND")

    @property
    def r_paren_token(self) -> Optional[Element]:
        """Example: `)` of `builtin # format_args("{}", a = b)`."""
        return token(self, "R_PAREN")

    @property
    def template(self) -> Optional[Expr]:
        """Example: `"{}"` of `builtin # format_args("{}", a = b)`."""
        return first(self, "Expr")


class IncludeBytesExpr(Expr, HasAttrs):
    """The bytes of a file: `builtin # include_bytes("f")`."""

    KIND = "INCLUDE_BYTES_EXPR"


class IndexExpr(Expr, HasAttrs):
    """An index: `a[i]`."""

    KIND = "INDEX_EXPR"

    @property
    def l_brack_token(self) -> Optional[Element]:
        """Example: `[` of `a[i]`."""
        return token(self, "L_BRACK")

    @property
    def r_brack_token(self) -> Optional[Element]:
        """Example: `]` of `a[i]`."""
        return token(self, "R_BRACK")


class Literal(Expr, HasAttrs):
    """A literal: a number, a string, a character, a byte, `true` or `false`."""

    KIND = "LITERAL"


class MacroExpr(Expr, HasAttrs):
    """A macro call as an expression."""

    KIND = "MACRO_EXPR"

    @property
    def macro_call(self) -> Optional[MacroCall]:
        """Example: `m!(a)` of `m!(a)`."""
        return first(self, "MacroCall")


class MethodCallExpr(CallableExpr, Expr, HasArgList, HasGenericArgs, HasAttrs):
    """A method call: `a.f(b)`."""

    KIND = "METHOD_CALL_EXPR"

    @property
    def dot_token(self) -> Optional[Element]:
        """Example: `.` of `a.f::<T>(b)`."""
        return token(self, "DOT")

    @property
    def name_ref(self) -> Optional[NameRef]:
        """Example: `f` of `a.f::<T>(b)`."""
        return first(self, "NameRef")

    @property
    def receiver(self) -> Optional[Expr]:
        """Example: `a` of `a.f::<T>(b)`."""
        return first(self, "Expr")


class OffsetOfExpr(Expr, HasAttrs):
    """The offset of a field: `builtin # offset_of(T, f)`."""

    KIND = "OFFSET_OF_EXPR"

    @property
    def builtin_token(self) -> Optional[Element]:
        """Example: `builtin` of `builtin # offset_of(T, f.g)`."""
        return token(self, "BUILTIN_KW")

    @property
    def comma_token(self) -> Optional[Element]:
        """Example: `,` of `builtin # offset_of(T, f.g)`."""
        return token(self, "COMMA")

    @property
    def fields(self) -> List[NameRef]:
        """Example: `f` and `g` of `builtin # offset_of(T, f.g)`."""
        return every(self, "NameRef")

    @property
    def l_paren_token(self) -> Optional[Element]:
        """Example: `(` of `builtin # offset_of(T, f.g)`."""
        return token(self, "L_PAREN")

    @property
    def offset_of_token(self) -> Optional[Element]:
        """Example: `offset_of` of `builtin # offset_of(T, f.g)`."""
        return token(self, "OFFSET_OF_KW")

    @property
    def pound_token(self) -> Optional[Element]:
        """Example: `#` of `builtin # offset_of(T, f.g)`."""
        return token(self, "POUND")

    @property
    def r_paren_token(self) -> Optional[Element]:
        """Example: `)` of `builtin # offset_of(T, f.g)`."""
        return token(self, "R_PAREN")

    @property
    def ty(self) -> Optional[Type]:
        """Example: `T` of `builtin # offset_of(T, f.g)`."""
        return first(self, "Type")


class ParenExpr(Expr, HasAttrs):
    """An expression in parentheses: `(a)`."""

    KIND = "PAREN_EXPR"

    @property
    def expr(self) -> Optional[Expr]:
        """Example: `a` of `(a)`."""
        return first(self, "Expr")

    @property
    def l_paren_token(self) -> Optional[Element]:
        """Example: `(` of `(a)`."""
        return token(self, "L_PAREN")

    @property
    def r_paren_token(self) -> Optional[Element]:
        """Example: `)` of `(a)`."""
        return token(self, "R_PAREN")


class PathExpr(Expr, HasAttrs):
    """A path as an expression: `a::b`."""

    KIND = "PATH_EXPR"

    @property
    def path(self) -> Optional[Path]:
        """Example: `a::b` of `a::b`."""
        return first(self, "Path")


class PrefixExpr(Expr, HasAttrs):
    """A prefix operator and its operand: `-a`, `!a`, `*a`."""

    KIND = "PREFIX_EXPR"

    @property
    def expr(self) -> Optional[Expr]:
        """Example: `a` of `-a`."""
        return first(self, "Expr")


class RangeExpr(Expr, HasAttrs):
    """A range: `a..b`, `a..=b`, `..`."""

    KIND = "RANGE_EXPR"


class RecordExpr(Expr, HasAttrs):
    """A struct with its fields: `S { f: a, ..b }`."""

    KIND = "RECORD_EXPR"

    @property
    def path(self) -> Optional[Path]:
        """Example: `S` of `S { f: a, ..b }`."""
        return first(self, "Path")

    @property
    def record_expr_field_list(self) -> Optional[RecordExprFieldList]:
        """Example: `{ f: a, ..b }` of `S { f: a, ..b }`."""
        return first(self, "RecordExprFieldList")


class RecordExprFieldList(View):
    """The fields of a struct that is made, with their braces: `{ f: a, ..b }`."""

    KIND = "RECORD_EXPR_FIELD_LIST"

    @property
    def attrs(self) -> List[Attr]:
        """Its attrs."""
        return every(self, "Attr")

    @property
    def dotdot_token(self) -> Optional[Element]:
        """Example: `..` of `{ f: a, ..b }`."""
        return token(self, "DOT2")

    @property
    def fields(self) -> List[RecordExprField]:
        """Example: `f: a` of `{ f: a, ..b }`."""
        return every(self, "RecordExprField")

    @property
    def l_curly_token(self) -> Optional[Element]:
        """Example: `{` of `{ f: a, ..b }`."""
        return token(self, "L_CURLY")

    @property
    def r_curly_token(self) -> Optional[Element]:
        """Example: `}` of `{ f: a, ..b }`."""
        return token(self, "R_CURLY")

    @property
    def spread(self) -> Optional[Expr]:
        """Example: `b` of `{ f: a, ..b }`."""
        return first(self, "Expr")


class RefExpr(Expr, HasAttrs):
    """A borrow: `&a`, `&mut a`, `&raw const a`."""

    KIND = "REF_EXPR"

    @property
    def amp_token(self) -> Optional[Element]:
        """Example: `&` of `&a`."""
        return token(self, "AMP")

    @property
    def const_token(self) -> Optional[Element]:
        """Example: `const` of `&raw const a`."""
        return token(self, "CONST_KW")

    @property
    def expr(self) -> Optional[Expr]:
        """Example: `a` of `&a`."""
        return first(self, "Expr")

    @property
    def mut_token(self) -> Optional[Element]:
        """Example: `mut` of `&mut a`."""
        return token(self, "MUT_KW")

    @property
    def raw_token(self) -> Optional[Element]:
        """Example: `raw` of `&raw const a`."""
        return token(self, "RAW_KW")


class TryExpr(Expr, HasAttrs):
    """The question mark: `a?`."""

    KIND = "TRY_EXPR"

    @property
    def expr(self) -> Optional[Expr]:
        """Example: `a` of `a?`."""
        return first(self, "Expr")

    @property
    def question_mark_token(self) -> Optional[Element]:
        """Example: `?` of `a?`."""
        return token(self, "QUESTION")


class TupleExpr(Expr, HasAttrs):
    """A tuple: `(a, b)`, `()`."""

    KIND = "TUPLE_EXPR"

    @property
    def fields(self) -> List[Expr]:
        """Example: `a` and `b` of `(a, b)`."""
        return every(self, "Expr")

    @property
    def l_paren_token(self) -> Optional[Element]:
        """Example: `(` of `(a, b)`."""
        return token(self, "L_PAREN")

    @property
    def r_paren_token(self) -> Optional[Element]:
        """Example: `)` of `(a, b)`."""
        return token(self, "R_PAREN")


class UnderscoreExpr(Expr, HasAttrs):
    """The `_` that is assigned to."""

    KIND = "UNDERSCORE_EXPR"

    @property
    def underscore_token(self) -> Optional[Element]:
        """Example: `_` of `_`."""
        return token(self, "UNDERSCORE")
