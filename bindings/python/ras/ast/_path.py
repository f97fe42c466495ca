"""Views of paths and names. Written by bindings/make."""
from __future__ import annotations

from typing import TYPE_CHECKING, List, Optional

from ._lookups import View, every, first, second, token
from ._shared import *

if TYPE_CHECKING:
    from .. import Element
    from . import *


class Lifetime(NameLike, UseBoundGenericArg):
    """A lifetime: `'a`."""

    KIND = "LIFETIME"

    @property
    def lifetime_ident_token(self) -> Optional[Element]:
        """Example: `'a` of `'a`."""
        return token(self, "LIFETIME_IDENT")


class Name(NameLike, NameOrNameRef):
    """A name where it is defined."""

    KIND = "NAME"

    @property
    def ident_token(self) -> Optional[Element]:
        """Example: `f` of `f`."""
        return token(self, "IDENT")

    @property
    def self_token(self) -> Optional[Element]:
        """Example: `self` of `self`."""
        return token(self, "SELF_KW")


class NameRef(NameLike, NameOrNameRef, UseBoundGenericArg):
    """A name where it is used."""

    KIND = "NAME_REF"

    @property
    def crate_token(self) -> Optional[Element]:
        """Example: `crate` of `crate`."""
        return token(self, "CRATE_KW")

    @property
    def ident_token(self) -> Optional[Element]:
        """Example: `a` of `a`."""
        return token(self, "IDENT")

    @property
    def int_number_token(self) -> Optional[Element]:
        """Example: `0` of `0`."""
        return token(self, "INT_NUMBER")

    @property
    def self_token(self) -> Optional[Element]:
        """Example: `self` of `self`."""
        return token(self, "SELF_KW")

    @property
    def self_type_token(self) -> Optional[Element]:
        """Example: `Self` of `Self`."""
        return token(self, "SELF_TYPE_KW")

    @property
    def super_token(self) -> Optional[Element]:
        """Example: `super` of `super`."""
        return token(self, "SUPER_KW")


class ParenthesizedArgList(View):
    """The types of the arguments in a path: the `(A, B)` of `Fn(A, B) -> C`."""

    KIND = "PARENTHESIZED_ARG_LIST"

    @property
    def coloncolon_token(self) -> Optional[Element]:
        """Example: `::` of `::(T, U)`."""
        return token(self, "COLON2")

    @property
    def l_paren_token(self) -> Optional[Element]:
        """Example: `(` of `::(T, U)`."""
        return token(self, "L_PAREN")

    @property
    def r_paren_token(self) -> Optional[Element]:
        """Example: `)` of `::(T, U)`."""
        return token(self, "R_PAREN")

    @property
    def type_args(self) -> List[TypeArg]:
        """Example: `T` and `U` of `::(T, U)`."""
        return every(self, "TypeArg")


class Path(View):
    """A path: `a::b::<T>::c`."""

    KIND = "PATH"

    @property
    def coloncolon_token(self) -> Optional[Element]:
        """Example: `::` of `a::b`."""
        return token(self, "COLON2")

    @property
    def qualifier(self) -> Optional[Path]:
        """Example: `a` of `a::b`."""
        return first(self, "Path")

    @property
    def segment(self) -> Optional[PathSegment]:
        """Example: `b` of `a::b`."""
        return first(self, "PathSegment")


class PathSegment(HasGenericArgs):
    """A segment of a path: `b::<T>`, `<T as U>`."""

    KIND = "PATH_SEGMENT"

    @property
    def coloncolon_token(self) -> Optional[Element]:
        """Example: `::` of `::a`."""
        return token(self, "COLON2")

    @property
    def name_ref(self) -> Optional[NameRef]:
        """Example: `a` of `::a`."""
        return first(self, "NameRef")

    @property
    def parenthesized_arg_list(self) -> Optional[ParenthesizedArgList]:
        """Example: `(T)` of `Fn(T) -> U`."""
        return first(self, "ParenthesizedArgList")

    @property
    def ret_type(self) -> Optional[RetType]:
        """Example: `-> U` of `Fn(T) -> U`."""
        return first(self, "RetType")

    @property
    def return_type_syntax(self) -> Optional[ReturnTypeSyntax]:
        """Example: `(..)` of `f(..)`."""
        return first(self, "ReturnTypeSyntax")

    @property
    def type_anchor(self) -> Optional[TypeAnchor]:
        """Example: `<T as U>` of `<T as U>`."""
        return first(self, "TypeAnchor")


class ReturnTypeSyntax(View):
    """`(..)` after the name of a function in a bound."""

    KIND = "RETURN_TYPE_SYNTAX"

    @property
    def dotdot_token(self) -> Optional[Element]:
        """Example: `..` of `(..)`."""
        return token(self, "DOT2")

    @property
    def l_paren_token(self) -> Optional[Element]:
        """Example: `(` of `(..)`."""
        return token(self, "L_PAREN")

    @property
    def r_paren_token(self) -> Optional[Element]:
        """Example: `)` of `(..)`."""
        return token(self, "R_PAREN")


class TypeAnchor(View):
    """The type that a path starts at: `<T as U>`."""

    KIND = "TYPE_ANCHOR"

    @property
    def as_token(self) -> Optional[Element]:
        """Example: `as` of `<T as U>`."""
        return token(self, "AS_KW")

    @property
    def l_angle_token(self) -> Optional[Element]:
        """Example: `<` of `<T as U>`."""
        return token(self, "L_ANGLE")

    @property
    def path_type(self) -> Optional[PathType]:
        """Example: `T` of `<T as U>`."""
        return first(self, "PathType")

    @property
    def r_angle_token(self) -> Optional[Element]:
        """Example: `>` of `<T as U>`."""
        return token(self, "R_ANGLE")

    @property
    def ty(self) -> Optional[Type]:
        """Example: `T` of `<T as U>`."""
        return first(self, "Type")
