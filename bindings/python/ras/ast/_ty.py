"""Views of types. Written by bindings/make."""
from __future__ import annotations

from typing import TYPE_CHECKING, List, Optional

from ._lookups import View, every, first, second, token
from ._shared import *

if TYPE_CHECKING:
    from .. import Element
    from . import *


class ArrayType(Type):
    """An array type: `[T; n]`."""

    KIND = "ARRAY_TYPE"

    @property
    def const_arg(self) -> Optional[ConstArg]:
        """Example: `1` of `[T; 1]`."""
        return first(self, "ConstArg")

    @property
    def l_brack_token(self) -> Optional[Element]:
        """Example: `[` of `[T; 1]`."""
        return token(self, "L_BRACK")

    @property
    def r_brack_token(self) -> Optional[Element]:
        """Example: `]` of `[T; 1]`."""
        return token(self, "R_BRACK")

    @property
    def semicolon_token(self) -> Optional[Element]:
        """Example: `;` of `[T; 1]`."""
        return token(self, "SEMICOLON")

    @property
    def ty(self) -> Optional[Type]:
        """Example: `T` of `[T; 1]`."""
        return first(self, "Type")


class DynTraitType(Type):
    """A trait object type: `dyn T + U`."""

    KIND = "DYN_TRAIT_TYPE"

    @property
    def dyn_token(self) -> Optional[Element]:
        """Example: `dyn` of `dyn T + U`."""
        return token(self, "DYN_KW")

    @property
    def type_bound_list(self) -> Optional[TypeBoundList]:
        """Example: `T + U` of `dyn T + U`."""
        return first(self, "TypeBoundList")


class FnPtrType(Type):
    """A function pointer type: `fn(T) -> U`."""

    KIND = "FN_PTR_TYPE"

    @property
    def abi(self) -> Optional[Abi]:
        """Example: `extern "C"` of `unsafe extern "C" fn(T) -> U`."""
        return first(self, "Abi")

    @property
    def async_token(self) -> Optional[Element]:
        """Its async token."""
        return token(self, "ASYNC_KW")

    @property
    def const_token(self) -> Optional[Element]:
        """Its const token."""
        return token(self, "CONST_KW")

    @property
    def fn_token(self) -> Optional[Element]:
        """Example: `fn` of `unsafe extern "C" fn(T) -> U`."""
        return token(self, "FN_KW")

    @property
    def param_list(self) -> Optional[ParamList]:
        """Example: `(T)` of `unsafe extern "C" fn(T) -> U`."""
        return first(self, "ParamList")

    @property
    def ret_type(self) -> Optional[RetType]:
        """Example: `-> U` of `unsafe extern "C" fn(T) -> U`."""
        return first(self, "RetType")

    @property
    def unsafe_token(self) -> Optional[Element]:
        """Example: `unsafe` of `unsafe extern "C" fn(T) -> U`."""
        return token(self, "UNSAFE_KW")


class ForType(Type):
    """A type with bound lifetimes: `for<'a> fn(&'a T)`."""

    KIND = "FOR_TYPE"

    @property
    def for_binder(self) -> Optional[ForBinder]:
        """Example: `for<'a>` of `for<'a> fn(&'a T)`."""
        return first(self, "ForBinder")

    @property
    def ty(self) -> Optional[Type]:
        """Example: `fn(&'a T)` of `for<'a> fn(&'a T)`."""
        return first(self, "Type")


class ImplTraitType(Type):
    """`impl T + U`."""

    KIND = "IMPL_TRAIT_TYPE"

    @property
    def impl_token(self) -> Optional[Element]:
        """Example: `impl` of `impl T + U`."""
        return token(self, "IMPL_KW")

    @property
    def type_bound_list(self) -> Optional[TypeBoundList]:
        """Example: `T + U` of `impl T + U`."""
        return first(self, "TypeBoundList")


class InferType(Type):
    """The type that is left out: `_`."""

    KIND = "INFER_TYPE"

    @property
    def underscore_token(self) -> Optional[Element]:
        """Example: `_` of `_`."""
        return token(self, "UNDERSCORE")


class MacroType(Type):
    """A macro call as a type."""

    KIND = "MACRO_TYPE"

    @property
    def macro_call(self) -> Optional[MacroCall]:
        """Example: `m!(a)` of `m!(a)`."""
        return first(self, "MacroCall")


class NeverType(Type):
    """The type without values: `!`."""

    KIND = "NEVER_TYPE"

    @property
    def excl_token(self) -> Optional[Element]:
        """Example: `!` of `!`."""
        return token(self, "BANG")


class ParenType(Type):
    """A type in parentheses: `(T)`."""

    KIND = "PAREN_TYPE"

    @property
    def l_paren_token(self) -> Optional[Element]:
        """Example: `(` of `(T)`."""
        return token(self, "L_PAREN")

    @property
    def r_paren_token(self) -> Optional[Element]:
        """Example: `)` of `(T)`."""
        return token(self, "R_PAREN")

    @property
    def ty(self) -> Optional[Type]:
        """Example: `T` of `(T)`."""
        return first(self, "Type")


class PathType(Type):
    """A path as a type: `a::T<U>`."""

    KIND = "PATH_TYPE"

    @property
    def path(self) -> Optional[Path]:
        """Example: `a::T` of `a::T`."""
        return first(self, "Path")


class PtrType(Type):
    """A raw pointer type: `*const T`, `*mut T`."""

    KIND = "PTR_TYPE"

    @property
    def const_token(self) -> Optional[Element]:
        """Example: `const` of `*const T`."""
        return token(self, "CONST_KW")

    @property
    def mut_token(self) -> Optional[Element]:
        """Example: `mut` of `*mut T`."""
        return token(self, "MUT_KW")

    @property
    def star_token(self) -> Optional[Element]:
        """Example: `*` of `*const T`."""
        return token(self, "STAR")

    @property
    def ty(self) -> Optional[Type]:
        """Example: `T` of `*const T`."""
        return first(self, "Type")


class RefType(Type):
    """A reference type: `&'a T`, `&mut T`."""

    KIND = "REF_TYPE"

    @property
    def amp_token(self) -> Optional[Element]:
        """Example: `&` of `&'a mut T`."""
        return token(self, "AMP")

    @property
    def lifetime(self) -> Optional[Lifetime]:
        """Example: `'a` of `&'a mut T`."""
        return first(self, "Lifetime")

    @property
    def mut_token(self) -> Optional[Element]:
        """Example: `mut` of `&'a mut T`."""
        return token(self, "MUT_KW")

    @property
    def ty(self) -> Optional[Type]:
        """Example: `T` of `&'a mut T`."""
        return first(self, "Type")


class RetType(View):
    """The type that is returned: `-> T`."""

    KIND = "RET_TYPE"

    @property
    def thin_arrow_token(self) -> Optional[Element]:
        """Example: `->` of `-> T`."""
        return token(self, "THIN_ARROW")

    @property
    def ty(self) -> Optional[Type]:
        """Example: `T` of `-> T`."""
        return first(self, "Type")


class SliceType(Type):
    """A slice type: `[T]`."""

    KIND = "SLICE_TYPE"

    @property
    def l_brack_token(self) -> Optional[Element]:
        """Example: `[` of `[T]`."""
        return token(self, "L_BRACK")

    @property
    def r_brack_token(self) -> Optional[Element]:
        """Example: `]` of `[T]`."""
        return token(self, "R_BRACK")

    @property
    def ty(self) -> Optional[Type]:
        """Example: `T` of `[T]`."""
        return first(self, "Type")


class TupleType(Type):
    """A tuple type: `(T, U)`, `()`."""

    KIND = "TUPLE_TYPE"

    @property
    def fields(self) -> List[Type]:
        """Example: `T` and `U` of `(T, U)`."""
        return every(self, "Type")

    @property
    def l_paren_token(self) -> Optional[Element]:
        """Example: `(` of `(T, U)`."""
        return token(self, "L_PAREN")

    @property
    def r_paren_token(self) -> Optional[Element]:
        """Example: `)` of `(T, U)`."""
        return token(self, "R_PAREN")
