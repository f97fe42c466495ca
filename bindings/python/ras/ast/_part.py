"""Views of parts of items. Written by bindings/make."""
from __future__ import annotations

from typing import TYPE_CHECKING, List, Optional

from ._lookups import View, every, first, second, token
from ._shared import *

if TYPE_CHECKING:
    from .. import Element
    from . import *


class Abi(View):
    """`extern "C"`."""

    KIND = "ABI"

    @property
    def extern_token(self) -> Optional[Element]:
        """Example: `extern` of `extern "C"`."""
        return token(self, "EXTERN_KW")

    @property
    def string_token(self) -> Optional[Element]:
        """Example: `"C"` of `extern "C"`."""
        return token(self, "STRING")


class AssocItemList(HasAttrs):
    """The items of a trait or an implementation with their braces."""

    KIND = "ASSOC_ITEM_LIST"

    @property
    def assoc_items(self) -> List[AssocItem]:
        """Example: `fn f() {}` of `{ fn f() {} }`."""
        return every(self, "AssocItem")

    @property
    def l_curly_token(self) -> Optional[Element]:
        """Example: `{` of `{ fn f() {} }`."""
        return token(self, "L_CURLY")

    @property
    def r_curly_token(self) -> Optional[Element]:
        """Example: `}` of `{ fn f() {} }`."""
        return token(self, "R_CURLY")


class ExternItemList(HasAttrs):
    """The items of an `extern` block with their braces."""

    KIND = "EXTERN_ITEM_LIST"

    @property
    def extern_items(self) -> List[ExternItem]:
        """Example: `fn f();` of `{ fn f(); }`."""
        return every(self, "ExternItem")

    @property
    def l_curly_token(self) -> Optional[Element]:
        """Example: `{` of `{ fn f(); }`."""
        return token(self, "L_CURLY")

    @property
    def r_curly_token(self) -> Optional[Element]:
        """Example: `}` of `{ fn f(); }`."""
        return token(self, "R_CURLY")


class ItemList(HasModuleItem, HasAttrs):
    """The items of a module with their braces."""

    KIND = "ITEM_LIST"

    @property
    def l_curly_token(self) -> Optional[Element]:
        """Example: `{` of `{ fn f() {} }`."""
        return token(self, "L_CURLY")

    @property
    def r_curly_token(self) -> Optional[Element]:
        """Example: `}` of `{ fn f() {} }`."""
        return token(self, "R_CURLY")


class MacroStmts(View):
    """The statements that a macro expands to."""

    KIND = "MACRO_STMTS"

    @property
    def expr(self) -> Optional[Expr]:
        """Its expr."""
        return first(self, "Expr")

    @property
    def statements(self) -> List[Stmt]:
        """Its statements."""
        return every(self, "Stmt")


class Param(HasAttrs):
    """A parameter: `a: T`."""

    KIND = "PARAM"

    @property
    def colon_token(self) -> Optional[Element]:
        """Example: `:` of `a: T`."""
        return token(self, "COLON")

    @property
    def dotdotdot_token(self) -> Optional[Element]:
        """Example: `...` of `...`."""
        return token(self, "DOT3")

    @property
    def pat(self) -> Optional[Pat]:
        """Example: `a` of `a: T`."""
        return first(self, "Pat")

    @property
    def ty(self) -> Optional[Type]:
        """Example: `T` of `a: T`."""
        return first(self, "Type")


class ParamList(View):
    """The parameters of a function or closure: `(&self, a: T)`, `|a|`."""

    KIND = "PARAM_LIST"

    @property
    def comma_token(self) -> Optional[Element]:
        """Example: `,` of `(self, a: T, b: U)`."""
        return token(self, "COMMA")

    @property
    def l_paren_token(self) -> Optional[Element]:
        """Example: `(` of `(self, a: T, b: U)`."""
        return token(self, "L_PAREN")

    @property
    def params(self) -> List[Param]:
        """Example: `a: T` and `b: U` of `(self, a: T, b: U)`."""
        return every(self, "Param")

    @property
    def pipe_token(self) -> Optional[Element]:
        """Example: `|` of `|a, b|`."""
        return token(self, "PIPE")

    @property
    def r_paren_token(self) -> Optional[Element]:
        """Example: `)` of `(self, a: T, b: U)`."""
        return token(self, "R_PAREN")

    @property
    def self_param(self) -> Optional[SelfParam]:
        """Example: `self` of `(self, a: T, b: U)`."""
        return first(self, "SelfParam")


class RecordField(HasName, HasVisibility, HasAttrs):
    """A named field of a type: `pub f: T`."""

    KIND = "RECORD_FIELD"

    @property
    def colon_token(self) -> Optional[Element]:
        """Example: `:` of `f: T = 1`."""
        return token(self, "COLON")

    @property
    def default_val(self) -> Optional[ConstArg]:
        """Example: `1` of `f: T = 1`."""
        return first(self, "ConstArg")

    @property
    def eq_token(self) -> Optional[Element]:
        """Example: `=` of `f: T = 1`."""
        return token(self, "EQ")

    @property
    def ty(self) -> Optional[Type]:
        """Example: `T` of `f: T = 1`."""
        return first(self, "Type")

    @property
    def unsafe_token(self) -> Optional[Element]:
        """Example: `unsafe` of `unsafe f: T`."""
        return token(self, "UNSAFE_KW")


class RecordFieldList(FieldList):
    """The named fields of a type with their braces."""

    KIND = "RECORD_FIELD_LIST"

    @property
    def fields(self) -> List[RecordField]:
        """Example: `f: T` and `g: U` of `{ f: T, g: U }`."""
        return every(self, "RecordField")

    @property
    def l_curly_token(self) -> Optional[Element]:
        """Example: `{` of `{ f: T, g: U }`."""
        return token(self, "L_CURLY")

    @property
    def r_curly_token(self) -> Optional[Element]:
        """Example: `}` of `{ f: T, g: U }`."""
        return token(self, "R_CURLY")


class SelfParam(HasName, HasAttrs):
    """The receiver: `&mut self`, `self: T`."""

    KIND = "SELF_PARAM"

    @property
    def amp_token(self) -> Optional[Element]:
        """Example: `&` of `&'a mut self`."""
        return token(self, "AMP")

    @property
    def colon_token(self) -> Optional[Element]:
        """Example: `:` of `self: T`."""
        return token(self, "COLON")

    @property
    def lifetime(self) -> Optional[Lifetime]:
        """Example: `'a` of `&'a mut self`."""
        return first(self, "Lifetime")

    @property
    def mut_token(self) -> Optional[Element]:
        """Example: `mut` of `&'a mut self`."""
        return token(self, "MUT_KW")

    @property
    def ty(self) -> Optional[Type]:
        """Example: `T` of `self: T`."""
        return first(self, "Type")


class TupleField(HasVisibility, HasAttrs):
    """A field of a tuple struct: `pub T`."""

    KIND = "TUPLE_FIELD"

    @property
    def ty(self) -> Optional[Type]:
        """Example: `T` of `T`."""
        return first(self, "Type")


class TupleFieldList(FieldList):
    """The fields of a tuple struct with their parentheses."""

    KIND = "TUPLE_FIELD_LIST"

    @property
    def fields(self) -> List[TupleField]:
        """Example: `T` and `U` of `(T, U)`."""
        return every(self, "TupleField")

    @property
    def l_paren_token(self) -> Optional[Element]:
        """Example: `(` of `(T, U)`."""
        return token(self, "L_PAREN")

    @property
    def r_paren_token(self) -> Optional[Element]:
        """Example: `)` of `(T, U)`."""
        return token(self, "R_PAREN")


class UseTree(View):
    """A tree of imports: `a::{b, c as d}`, `a::*`."""

    KIND = "USE_TREE"

    @property
    def coloncolon_token(self) -> Optional[Element]:
        """Example: `::` of `a::{b, c}`."""
        return token(self, "COLON2")

    @property
    def path(self) -> Optional[Path]:
        """Example: `a` of `a::{b, c}`."""
        return first(self, "Path")

    @property
    def rename(self) -> Optional[Rename]:
        """Example: `as b` of `a as b`."""
        return first(self, "Rename")

    @property
    def star_token(self) -> Optional[Element]:
        """Example: `*` of `a::*`."""
        return token(self, "STAR")

    @property
    def use_tree_list(self) -> Optional[UseTreeList]:
        """Example: `{b, c}` of `a::{b, c}`."""
        return first(self, "UseTreeList")


class UseTreeList(View):
    """The trees in braces: `{b, c}`."""

    KIND = "USE_TREE_LIST"

    @property
    def l_curly_token(self) -> Optional[Element]:
        """Example: `{` of `{b, c}`."""
        return token(self, "L_CURLY")

    @property
    def r_curly_token(self) -> Optional[Element]:
        """Example: `}` of `{b, c}`."""
        return token(self, "R_CURLY")

    @property
    def use_trees(self) -> List[UseTree]:
        """Example: `b` and `c` of `{b, c}`."""
        return every(self, "UseTree")


class Variant(VariantDef, HasName, HasVisibility, HasAttrs):
    """A variant of an enum: `A(T) = 1`."""

    KIND = "VARIANT"

    @property
    def const_arg(self) -> Optional[ConstArg]:
        """Example: `1` of `A = 1`."""
        return first(self, "ConstArg")

    @property
    def eq_token(self) -> Optional[Element]:
        """Example: `=` of `A = 1`."""
        return token(self, "EQ")

    @property
    def field_list(self) -> Optional[FieldList]:
        """Example: `(T)` of `A(T)`."""
        return first(self, "FieldList")


class Visibility(View):
    """A visibility: `pub`, `pub(in a)`."""

    KIND = "VISIBILITY"

    @property
    def pub_token(self) -> Optional[Element]:
        """Example: `pub` of `pub(in a)`."""
        return token(self, "PUB_KW")

    @property
    def visibility_inner(self) -> Optional[VisibilityInner]:
        """Example: `(in a)` of `pub(in a)`."""
        return first(self, "VisibilityInner")


class VisibilityInner(View):
    """The part of a visibility in parentheses: `(crate)`, `(in a)`."""

    KIND = "VISIBILITY_INNER"

    @property
    def in_token(self) -> Optional[Element]:
        """Example: `in` of `(in a)`."""
        return token(self, "IN_KW")

    @property
    def l_paren_token(self) -> Optional[Element]:
        """Example: `(` of `(in a)`."""
        return token(self, "L_PAREN")

    @property
    def path(self) -> Optional[Path]:
        """Example: `a` of `(in a)`."""
        return first(self, "Path")

    @property
    def r_paren_token(self) -> Optional[Element]:
        """Example: `)` of `(in a)`."""
        return token(self, "R_PAREN")
