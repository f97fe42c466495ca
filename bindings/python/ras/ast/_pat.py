"""Views of patterns. Written by bindings/make."""
from __future__ import annotations

from typing import TYPE_CHECKING, List, Optional

from ._lookups import View, every, first, second, token
from ._shared import *

if TYPE_CHECKING:
    from .. import Element
    from . import *


class BoxPat(Pat):
    """`box p`."""

    KIND = "BOX_PAT"

    @property
    def box_token(self) -> Optional[Element]:
        """Example: `box` of `box p`."""
        return token(self, "BOX_KW")

    @property
    def pat(self) -> Optional[Pat]:
        """Example: `p` of `box p`."""
        return first(self, "Pat")


class ConstBlockPat(Pat):
    """A constant block as a pattern: `const { .. }`."""

    KIND = "CONST_BLOCK_PAT"

    @property
    def block_expr(self) -> Optional[BlockExpr]:
        """Example: `{ b }` of `const { b }`."""
        return first(self, "BlockExpr")

    @property
    def const_token(self) -> Optional[Element]:
        """Example: `const` of `const { b }`."""
        return token(self, "CONST_KW")


class IdentPat(Pat, HasName):
    """A name that is bound: `ref mut x @ p`."""

    KIND = "IDENT_PAT"

    @property
    def at_token(self) -> Optional[Element]:
        """Example: `@` of `ref mut x @ p`."""
        return token(self, "AT")

    @property
    def mut_token(self) -> Optional[Element]:
        """Example: `mut` of `ref mut x @ p`."""
        return token(self, "MUT_KW")

    @property
    def pat(self) -> Optional[Pat]:
        """Example: `p` of `ref mut x @ p`."""
        return first(self, "Pat")

    @property
    def ref_token(self) -> Optional[Element]:
        """Example: `ref` of `ref mut x @ p`."""
        return token(self, "REF_KW")


class LiteralPat(Pat):
    """A literal as a pattern."""

    KIND = "LITERAL_PAT"

    @property
    def literal(self) -> Optional[Literal]:
        """Example: `1` of `-1`."""
        return first(self, "Literal")

    @property
    def minus_token(self) -> Optional[Element]:
        """Example: `-` of `-1`."""
        return token(self, "MINUS")


class MacroPat(Pat):
    """A macro call as a pattern."""

    KIND = "MACRO_PAT"

    @property
    def macro_call(self) -> Optional[MacroCall]:
        """Example: `m!(a)` of `m!(a)`."""
        return first(self, "MacroCall")


class OrPat(Pat):
    """Alternatives: `p | q`."""

    KIND = "OR_PAT"

    @property
    def pats(self) -> List[Pat]:
        """Example: `p` and `q` of `p | q`."""
        return every(self, "Pat")

    @property
    def pipe_token(self) -> Optional[Element]:
        """Example: `|` of `p | q`."""
        return token(self, "PIPE")


class ParenPat(Pat):
    """A pattern in parentheses: `(p)`."""

    KIND = "PAREN_PAT"

    @property
    def l_paren_token(self) -> Optional[Element]:
        """Example: `(` of `(p)`."""
        return token(self, "L_PAREN")

    @property
    def pat(self) -> Optional[Pat]:
        """Example: `p` of `(p)`."""
        return first(self, "Pat")

    @property
    def r_paren_token(self) -> Optional[Element]:
        """Example: `)` of `(p)`."""
        return token(self, "R_PAREN")


class PathPat(Pat):
    """A path as a pattern."""

    KIND = "PATH_PAT"

    @property
    def path(self) -> Optional[Path]:
        """Example: `a::b` of `a::b`."""
        return first(self, "Path")


class RangePat(Pat):
    """A range of values: `a..=b`."""

    KIND = "RANGE_PAT"


class RecordPat(Pat):
    """A struct and patterns of its fields: `S { f: p, .. }`."""

    KIND = "RECORD_PAT"

    @property
    def path(self) -> Optional[Path]:
        """Example: `S` of `S { f: p, .. }`."""
        return first(self, "Path")

    @property
    def record_pat_field_list(self) -> Optional[RecordPatFieldList]:
        """Example: `{ f: p, .. }` of `S { f: p, .. }`."""
        return first(self, "RecordPatFieldList")


class RecordPatField(HasAttrs):
    """A field of a struct that is matched: `f: p`."""

    KIND = "RECORD_PAT_FIELD"

    @property
    def colon_token(self) -> Optional[Element]:
        """Example: `:` of `f: p`."""
        return token(self, "COLON")

    @property
    def name_ref(self) -> Optional[NameRef]:
        """Example: `f` of `f: p`."""
        return first(self, "NameRef")

    @property
    def pat(self) -> Optional[Pat]:
        """Example: `p` of `f: p`."""
        return first(self, "Pat")


class RecordPatFieldList(View):
    """The fields of a struct that is matched, with their braces: `{ f: p, .. }`."""

    KIND = "RECORD_PAT_FIELD_LIST"

    @property
    def fields(self) -> List[RecordPatField]:
        """Example: `f: p` of `{ f: p, .. }`."""
        return every(self, "RecordPatField")

    @property
    def l_curly_token(self) -> Optional[Element]:
        """Example: `{` of `{ f: p, .. }`."""
        return token(self, "L_CURLY")

    @property
    def r_curly_token(self) -> Optional[Element]:
        """Example: `}` of `{ f: p, .. }`."""
        return token(self, "R_CURLY")

    @property
    def rest_pat(self) -> Optional[RestPat]:
        """Example: `..` of `{ f: p, .. }`."""
        return first(self, "RestPat")


class RefPat(Pat):
    """A reference pattern: `&p`."""

    KIND = "REF_PAT"

    @property
    def amp_token(self) -> Optional[Element]:
        """Example: `&` of `&mut p`."""
        return token(self, "AMP")

    @property
    def mut_token(self) -> Optional[Element]:
        """Example: `mut` of `&mut p`."""
        return token(self, "MUT_KW")

    @property
    def pat(self) -> Optional[Pat]:
        """Example: `p` of `&mut p`."""
        return first(self, "Pat")


class RestPat(Pat):
    """The rest: `..`."""

    KIND = "REST_PAT"

    @property
    def dotdot_token(self) -> Optional[Element]:
        """Example: `..` of `..`."""
        return token(self, "DOT2")


class SlicePat(Pat):
    """A slice and patterns of its elements: `[p, .., q]`."""

    KIND = "SLICE_PAT"

    @property
    def l_brack_token(self) -> Optional[Element]:
        """Example: `[` of `[p, q]`."""
        return token(self, "L_BRACK")

    @property
    def pats(self) -> List[Pat]:
        """Example: `p` and `q` of `[p, q]`."""
        return every(self, "Pat")

    @property
    def r_brack_token(self) -> Optional[Element]:
        """Example: `]` of `[p, q]`."""
        return token(self, "R_BRACK")


class TuplePat(Pat):
    """A tuple and patterns of its fields: `(p, q)`."""

    KIND = "TUPLE_PAT"

    @property
    def fields(self) -> List[Pat]:
        """Example: `p` and `q` of `(p, q)`."""
        return every(self, "Pat")

    @property
    def l_paren_token(self) -> Optional[Element]:
        """Example: `(` of `(p, q)`."""
        return token(self, "L_PAREN")

    @property
    def r_paren_token(self) -> Optional[Element]:
        """Example: `)` of `(p, q)`."""
        return token(self, "R_PAREN")


class TupleStructPat(Pat):
    """A tuple struct and patterns of its fields: `S(p, q)`."""

    KIND = "TUPLE_STRUCT_PAT"

    @property
    def fields(self) -> List[Pat]:
        """Example: `p` and `q` of `S(p, q)`."""
        return every(self, "Pat")

    @property
    def l_paren_token(self) -> Optional[Element]:
        """Example: `(` of `S(p, q)`."""
        return token(self, "L_PAREN")

    @property
    def path(self) -> Optional[Path]:
        """Example: `S` of `S(p, q)`."""
        return first(self, "Path")

    @property
    def r_paren_token(self) -> Optional[Element]:
        """Example: `)` of `S(p, q)`."""
        return token(self, "R_PAREN")


class WildcardPat(Pat):
    """The pattern that takes all: `_`."""

    KIND = "WILDCARD_PAT"

    @property
    def underscore_token(self) -> Optional[Element]:
        """Example: `_` of `_`."""
        return token(self, "UNDERSCORE")
