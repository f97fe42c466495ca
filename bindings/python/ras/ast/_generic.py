"""Views of generic parameters and arguments, bounds and where clauses. Written by bindings/make."""
from __future__ import annotations

from typing import TYPE_CHECKING, List, Optional

from ._lookups import View, every, first, second, token
from ._shared import *

if TYPE_CHECKING:
    from .. import Element
    from . import *


class AssocTypeArg(GenericArg, HasGenericArgs, HasTypeBounds):
    """A named argument: `Item = T`, `Item: T`."""

    KIND = "ASSOC_TYPE_ARG"

    @property
    def const_arg(self) -> Optional[ConstArg]:
        """Example: `1` of `C = 1`."""
        return first(self, "ConstArg")

    @property
    def eq_token(self) -> Optional[Element]:
        """Example: `=` of `C = T`."""
        return token(self, "EQ")

    @property
    def name_ref(self) -> Optional[NameRef]:
        """Example: `C` of `C = T`."""
        return first(self, "NameRef")

    @property
    def param_list(self) -> Optional[ParamList]:
        """Its param list."""
        return first(self, "ParamList")

    @property
    def ret_type(self) -> Optional[RetType]:
        """Example: `-> E` of `C(D) -> E = T`."""
        return first(self, "RetType")

    @property
    def return_type_syntax(self) -> Optional[ReturnTypeSyntax]:
        """Example: `(..)` of `C(..): T`."""
        return first(self, "ReturnTypeSyntax")

    @property
    def ty(self) -> Optional[Type]:
        """Example: `T` of `C = T`."""
        return first(self, "Type")


class ConstArg(GenericArg):
    """A constant argument: the `1` of `A<1>`."""

    KIND = "CONST_ARG"

    @property
    def expr(self) -> Optional[Expr]:
        """Example: `1` of `1`."""
        return first(self, "Expr")


class ConstParam(GenericParam, TypeOrConstParam, HasName, HasAttrs):
    """A constant parameter: `const N: T = a`."""

    KIND = "CONST_PARAM"

    @property
    def colon_token(self) -> Optional[Element]:
        """Example: `:` of `const N: T = 1`."""
        return token(self, "COLON")

    @property
    def const_token(self) -> Optional[Element]:
        """Example: `const` of `const N: T = 1`."""
        return token(self, "CONST_KW")

    @property
    def default_val(self) -> Optional[ConstArg]:
        """Example: `1` of `const N: T = 1`."""
        return first(self, "ConstArg")

    @property
    def eq_token(self) -> Optional[Element]:
        """Example: `=` of `const N: T = 1`."""
        return token(self, "EQ")

    @property
    def ty(self) -> Optional[Type]:
        """Example: `T` of `const N: T = 1`."""
        return first(self, "Type")


class ForBinder(View):
    """Lifetimes that are bound: `for<'a>`."""

    KIND = "FOR_BINDER"

    @property
    def for_token(self) -> Optional[Element]:
        """Example: `for` of `for<'a>`."""
        return token(self, "FOR_KW")

    @property
    def generic_param_list(self) -> Optional[GenericParamList]:
        """Example: `<'a>` of `for<'a>`."""
        return first(self, "GenericParamList")


class GenericArgList(View):
    """Generic arguments with their angles: `<'a, T>`, `::<T>`."""

    KIND = "GENERIC_ARG_LIST"

    @property
    def coloncolon_token(self) -> Optional[Element]:
        """Example: `::` of `::<'a, T>`."""
        return token(self, "COLON2")

    @property
    def generic_args(self) -> List[GenericArg]:
        """Example: `'a` and `T` of `::<'a, T>`."""
        return every(self, "GenericArg")

    @property
    def l_angle_token(self) -> Optional[Element]:
        """Example: `<` of `::<'a, T>`."""
        return token(self, "L_ANGLE")

    @property
    def r_angle_token(self) -> Optional[Element]:
        """Example: `>` of `::<'a, T>`."""
        return token(self, "R_ANGLE")


class GenericParamList(View):
    """Generic parameters with their angles: `<'a, T>`."""

    KIND = "GENERIC_PARAM_LIST"

    @property
    def generic_params(self) -> List[GenericParam]:
        """Example: `'a` and `T` of `<'a, T>`."""
        return every(self, "GenericParam")

    @property
    def l_angle_token(self) -> Optional[Element]:
        """Example: `<` of `<'a, T>`."""
        return token(self, "L_ANGLE")

    @property
    def r_angle_token(self) -> Optional[Element]:
        """Example: `>` of `<'a, T>`."""
        return token(self, "R_ANGLE")


class LifetimeArg(GenericArg):
    """A lifetime argument: the `'a` of `A<'a>`."""

    KIND = "LIFETIME_ARG"

    @property
    def lifetime(self) -> Optional[Lifetime]:
        """Example: `'a` of `'a`."""
        return first(self, "Lifetime")


class LifetimeParam(GenericParam, HasTypeBounds, HasAttrs):
    """A lifetime parameter: `'a: 'b`."""

    KIND = "LIFETIME_PARAM"

    @property
    def lifetime(self) -> Optional[Lifetime]:
        """Example: `'a` of `'a: 'b`."""
        return first(self, "Lifetime")


class TypeArg(GenericArg):
    """A type argument: the `T` of `A<T>`."""

    KIND = "TYPE_ARG"

    @property
    def ty(self) -> Optional[Type]:
        """Example: `T` of `T`."""
        return first(self, "Type")


class TypeBound(View):
    """A bound: `T`, `'a`, `?T`, `use<..>`."""

    KIND = "TYPE_BOUND"

    @property
    def async_token(self) -> Optional[Element]:
        """Example: `async` of `async T`."""
        return token(self, "ASYNC_KW")

    @property
    def const_token(self) -> Optional[Element]:
        """Example: `const` of `const T`."""
        return token(self, "CONST_KW")

    @property
    def for_binder(self) -> Optional[ForBinder]:
        """Example: `for<'a>` of `for<'a> ?T`."""
        return first(self, "ForBinder")

    @property
    def l_brack_token(self) -> Optional[Element]:
        """Example: `[` of `[const] T`."""
        return token(self, "L_BRACK")

    @property
    def lifetime(self) -> Optional[Lifetime]:
        """Example: `'a` of `'a`."""
        return first(self, "Lifetime")

    @property
    def question_mark_token(self) -> Optional[Element]:
        """Example: `?` of `for<'a> ?T`."""
        return token(self, "QUESTION")

    @property
    def r_brack_token(self) -> Optional[Element]:
        """Example: `]` of `[const] T`."""
        return token(self, "R_BRACK")

    @property
    def tilde_token(self) -> Optional[Element]:
        """Example: `~` of `~const T`."""
        return token(self, "TILDE")

    @property
    def ty(self) -> Optional[Type]:
        """Example: `T` of `for<'a> ?T`."""
        return first(self, "Type")

    @property
    def use_bound_generic_args(self) -> Optional[UseBoundGenericArgs]:
        """Example: `<'a, T>` of `use<'a, T>`."""
        return first(self, "UseBoundGenericArgs")

    @property
    def use_token(self) -> Optional[Element]:
        """Example: `use` of `use<'a, T>`."""
        return token(self, "USE_KW")


class TypeBoundList(View):
    """Bounds: `T + U`."""

    KIND = "TYPE_BOUND_LIST"

    @property
    def bounds(self) -> List[TypeBound]:
        """Example: `T` and `U` of `T + U`."""
        return every(self, "TypeBound")


class TypeParam(GenericParam, TypeOrConstParam, HasName, HasTypeBounds, HasAttrs):
    """A type parameter: `T: U = V`."""

    KIND = "TYPE_PARAM"

    @property
    def default_type(self) -> Optional[Type]:
        """Example: `U` of `T = U`."""
        return first(self, "Type")

    @property
    def eq_token(self) -> Optional[Element]:
        """Example: `=` of `T = U`."""
        return token(self, "EQ")


class UseBoundGenericArgs(View):
    """The parameters of a `use` bound: `<'a, T>`."""

    KIND = "USE_BOUND_GENERIC_ARGS"

    @property
    def l_angle_token(self) -> Optional[Element]:
        """Example: `<` of `<'a, T>`."""
        return token(self, "L_ANGLE")

    @property
    def r_angle_token(self) -> Optional[Element]:
        """Example: `>` of `<'a, T>`."""
        return token(self, "R_ANGLE")

    @property
    def use_bound_generic_args(self) -> List[UseBoundGenericArg]:
        """Example: `'a` and `T` of `<'a, T>`."""
        return every(self, "UseBoundGenericArg")


class WhereClause(View):
    """`where T: U, V: W`."""

    KIND = "WHERE_CLAUSE"

    @property
    def predicates(self) -> List[WherePred]:
        """Example: `T: U` and `V: W` of `where T: U, V: W`."""
        return every(self, "WherePred")

    @property
    def where_token(self) -> Optional[Element]:
        """Example: `where` of `where T: U, V: W`."""
        return token(self, "WHERE_KW")


class WherePred(HasTypeBounds):
    """A predicate of a `where` clause: `T: U`."""

    KIND = "WHERE_PRED"

    @property
    def for_binder(self) -> Optional[ForBinder]:
        """Example: `for<'a>` of `for<'a> T: U`."""
        return first(self, "ForBinder")

    @property
    def lifetime(self) -> Optional[Lifetime]:
        """Example: `'a` of `'a: 'b`."""
        return first(self, "Lifetime")

    @property
    def ty(self) -> Optional[Type]:
        """Example: `T` of `for<'a> T: U`."""
        return first(self, "Type")
