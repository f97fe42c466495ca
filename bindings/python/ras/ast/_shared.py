"""What several views share. Written by bindings/make."""
from __future__ import annotations

from typing import TYPE_CHECKING, List, Optional

from ._lookups import View, every, first, second, token

if TYPE_CHECKING:
    from .. import Element
    from . import *


class HasName(View):
    """A node with a name."""

    @property
    def name(self) -> Optional[Name]:
        """Example: `f` of `fn f() {}`."""
        return first(self, "Name")


class HasVisibility(View):
    """A node that can have a visibility."""

    @property
    def visibility(self) -> Optional[Visibility]:
        """Example: `pub` of `pub fn f() {}`."""
        return first(self, "Visibility")


class HasLoopBody(View):
    """A loop."""

    @property
    def label(self) -> Optional[Label]:
        """Example: `'a:` of `'a: loop {}`."""
        return first(self, "Label")


class HasArgList(View):
    """A call."""

    @property
    def arg_list(self) -> Optional[ArgList]:
        """Example: `(a)` of `f(a)`."""
        return first(self, "ArgList")


class HasModuleItem(View):
    """A container of items."""

    @property
    def items(self) -> List[Item]:
        """Example: `fn f() {}` and `struct S;` of `fn f() {} struct S;`."""
        return every(self, "Item")


class HasGenericParams(View):
    """A node that can have generic parameters."""

    @property
    def generic_param_list(self) -> Optional[GenericParamList]:
        """Example: `<T>` of `fn f<T>() where T: U {}`."""
        return first(self, "GenericParamList")

    @property
    def where_clause(self) -> Optional[WhereClause]:
        """Example: `where T: U` of `fn f<T>() where T: U {}`."""
        return first(self, "WhereClause")


class HasGenericArgs(View):
    """A node that can have generic arguments."""

    @property
    def generic_arg_list(self) -> Optional[GenericArgList]:
        """Example: `::<T>` of `a.f::<T>()`."""
        return first(self, "GenericArgList")


class HasTypeBounds(View):
    """A node that can have type bounds."""

    @property
    def colon_token(self) -> Optional[Element]:
        """Example: `:` of `T: U + V`."""
        return token(self, "COLON")

    @property
    def type_bound_list(self) -> Optional[TypeBoundList]:
        """Example: `U + V` of `T: U + V`."""
        return first(self, "TypeBoundList")


class HasAttrs(View):
    """A node that can have attributes and documentation."""

    @property
    def attrs(self) -> List[Attr]:
        """Example: `#[a]` and `#[b]` of `#[a] #[b]\\n/// c\\nfn f() {}`."""
        return every(self, "Attr")

    @property
    def attrs_with_doc(self) -> List[AnyAttr]:
        """Example: `#[a]`, `#[b]` and `/// c` of `#[a] #[b]\\n/// c\\nfn f() {}`."""
        return every(self, "AnyAttr")

    @property
    def doc_comments(self) -> List[DocComment]:
        """Example: `/// c` of `#[a] #[b]\\n/// c\\nfn f() {}`."""
        return every(self, "DocComment")


class Adt(HasAttrs):
    """An item that defines a type of its own."""


class AnyAttr(View):
    """An attribute or a documentation comment."""


class AsmOperand(View):
    """An operand of inline assembly."""


class AsmPiece(View):
    """A part of inline assembly after its templates."""


class AssocItem(HasAttrs):
    """An item of a trait or an implementation."""


class CallableExpr(HasArgList, HasAttrs):
    """A call or a method call."""


class ElseBranch(View):
    """The branch after an `else`: a block, or another `if`."""


class Expr(HasAttrs):
    """An expression."""


class ExternItem(HasAttrs):
    """An item of an `extern` block."""


class FieldList(View):
    """The fields of a struct or variant."""


class GenericArg(View):
    """A generic argument."""


class GenericParam(HasAttrs):
    """A generic parameter."""


class Macro(HasName, HasAttrs):
    """A definition of a macro."""


class Meta(View):
    """The contents of an attribute."""

    @property
    def eq_token(self) -> Optional[Element]:
        """Example: `=` of `a = b`."""
        return token(self, "EQ")

    @property
    def expr(self) -> Optional[Expr]:
        """Example: `b` of `a = b`."""
        return first(self, "Expr")

    @property
    def l_paren_token(self) -> Optional[Element]:
        """Example: `(` of `unsafe(m)`."""
        return token(self, "L_PAREN")

    @property
    def r_paren_token(self) -> Optional[Element]:
        """Example: `)` of `unsafe(m)`."""
        return token(self, "R_PAREN")

    @property
    def token_tree(self) -> Optional[TokenTree]:
        """Example: `(b)` of `a(b)`."""
        return first(self, "TokenTree")

    @property
    def unsafe_token(self) -> Optional[Element]:
        """Example: `unsafe` of `unsafe(m)`."""
        return token(self, "UNSAFE_KW")


class NameLike(View):
    """A name where it is used or defined, or a lifetime."""


class NameOrNameRef(View):
    """A name where it is defined or used."""


class Pat(View):
    """A pattern."""


class Stmt(View):
    """A statement."""


class Type(View):
    """A type."""


class TypeOrConstParam(HasAttrs):
    """A type parameter or a constant parameter."""


class UseBoundGenericArg(View):
    """A parameter of a `use` bound."""


class VariantDef(HasName, HasVisibility, HasAttrs):
    """An item or variant that has fields."""


class Item(Stmt, HasAttrs):
    """An item: of a file, a module or a block."""


__all__ = ["HasName", "HasVisibility", "HasLoopBody", "HasArgList", "HasModuleItem", "HasGenericParams", "HasGenericArgs", "HasTypeBounds", "HasAttrs", "Adt", "AnyAttr", "AsmOperand", "AsmPiece", "AssocItem", "CallableExpr", "ElseBranch", "Expr", "ExternItem", "FieldList", "GenericArg", "GenericParam", "Item", "Macro", "Meta", "NameLike", "NameOrNameRef", "Pat", "Stmt", "Type", "TypeOrConstParam", "UseBoundGenericArg", "VariantDef"]
