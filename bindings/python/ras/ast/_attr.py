"""Views of attributes and doc comments. Written by bindings/make."""
from __future__ import annotations

from typing import TYPE_CHECKING, List, Optional

from ._lookups import View, every, first, second, token
from ._shared import *

if TYPE_CHECKING:
    from .. import Element
    from . import *


class Attr(AnyAttr):
    """An attribute: `#[a]`, `#![a]`."""

    KIND = "ATTR"

    @property
    def excl_token(self) -> Optional[Element]:
        """Example: `!` of `#![a]`."""
        return token(self, "BANG")

    @property
    def l_brack_token(self) -> Optional[Element]:
        """Example: `[` of `#[a]`."""
        return token(self, "L_BRACK")

    @property
    def meta(self) -> Optional[Meta]:
        """Example: `a` of `#[a]`."""
        return first(self, "Meta")

    @property
    def pound_token(self) -> Optional[Element]:
        """Example: `#` of `#[a]`."""
        return token(self, "POUND")

    @property
    def r_brack_token(self) -> Optional[Element]:
        """Example: `]` of `#[a]`."""
        return token(self, "R_BRACK")


class CfgAtom(View):
    """A `cfg` predicate of one option: `a`, `a = "b"`."""

    KIND = "CFG_ATOM"

    @property
    def false_token(self) -> Optional[Element]:
        """Example: `false` of `false`."""
        return token(self, "FALSE_KW")

    @property
    def ident_token(self) -> Optional[Element]:
        """Example: `a` of `a`."""
        return token(self, "IDENT")

    @property
    def true_token(self) -> Optional[Element]:
        """Example: `true` of `true`."""
        return token(self, "TRUE_KW")


class CfgAttrMeta(Meta):
    """`cfg_attr(p, m)`."""

    KIND = "CFG_ATTR_META"

    @property
    def comma_token(self) -> Optional[Element]:
        """Example: `,` of `cfg_attr(p, m)`."""
        return token(self, "COMMA")

    @property
    def l_paren_token(self) -> Optional[Element]:
        """Example: `(` of `cfg_attr(p, m)`."""
        return token(self, "L_PAREN")

    @property
    def metas(self) -> List[Meta]:
        """Example: `m` of `cfg_attr(p, m)`."""
        return every(self, "Meta")

    @property
    def r_paren_token(self) -> Optional[Element]:
        """Example: `)` of `cfg_attr(p, m)`."""
        return token(self, "R_PAREN")


class CfgMeta(Meta):
    """`cfg(p)`."""

    KIND = "CFG_META"

    @property
    def l_paren_token(self) -> Optional[Element]:
        """Example: `(` of `cfg(p)`."""
        return token(self, "L_PAREN")

    @property
    def r_paren_token(self) -> Optional[Element]:
        """Example: `)` of `cfg(p)`."""
        return token(self, "R_PAREN")


class DocComment(AnyAttr):
    """A documentation comment."""

    KIND = "DOC_COMMENT"

    @property
    def inner_doc_comment_token(self) -> Optional[Element]:
        """Example: `//! a` of `//! a`."""
        return token(self, "INNER_DOC_COMMENT")

    @property
    def outer_doc_comment_token(self) -> Optional[Element]:
        """Example: `/// a` of `/// a`."""
        return token(self, "OUTER_DOC_COMMENT")


class KeyValueMeta(Meta):
    """An attribute with a value: `a = b`."""

    KIND = "KEY_VALUE_META"

    @property
    def eq_token(self) -> Optional[Element]:
        """Example: `=` of `a = b`."""
        return token(self, "EQ")

    @property
    def expr(self) -> Optional[Expr]:
        """Example: `b` of `a = b`."""
        return first(self, "Expr")

    @property
    def path(self) -> Optional[Path]:
        """Example: `a` of `a = b`."""
        return first(self, "Path")


class PathMeta(Meta):
    """An attribute that is a path: `a::b`."""

    KIND = "PATH_META"

    @property
    def path(self) -> Optional[Path]:
        """Example: `a::b` of `a::b`."""
        return first(self, "Path")


class TokenTree(View):
    """Tokens with delimiters around them, as of a macro call."""

    KIND = "TOKEN_TREE"

    @property
    def l_brack_token(self) -> Optional[Element]:
        """Example: `[` of `[a]`."""
        return token(self, "L_BRACK")

    @property
    def l_curly_token(self) -> Optional[Element]:
        """Example: `{` of `{a}`."""
        return token(self, "L_CURLY")

    @property
    def l_paren_token(self) -> Optional[Element]:
        """Example: `(` of `(a)`."""
        return token(self, "L_PAREN")

    @property
    def r_brack_token(self) -> Optional[Element]:
        """Example: `]` of `[a]`."""
        return token(self, "R_BRACK")

    @property
    def r_curly_token(self) -> Optional[Element]:
        """Example: `}` of `{a}`."""
        return token(self, "R_CURLY")

    @property
    def r_paren_token(self) -> Optional[Element]:
        """Example: `)` of `(a)`."""
        return token(self, "R_PAREN")


class TokenTreeMeta(Meta):
    """An attribute with arguments: `a(..)`."""

    KIND = "TOKEN_TREE_META"

    @property
    def path(self) -> Optional[Path]:
        """Example: `a` of `a(b)`."""
        return first(self, "Path")

    @property
    def token_tree(self) -> Optional[TokenTree]:
        """Example: `(b)` of `a(b)`."""
        return first(self, "TokenTree")


class UnsafeMeta(Meta):
    """`unsafe(m)`."""

    KIND = "UNSAFE_META"

    @property
    def l_paren_token(self) -> Optional[Element]:
        """Example: `(` of `unsafe(m)`."""
        return token(self, "L_PAREN")

    @property
    def meta(self) -> Optional[Meta]:
        """Example: `m` of `unsafe(m)`."""
        return first(self, "Meta")

    @property
    def r_paren_token(self) -> Optional[Element]:
        """Example: `)` of `unsafe(m)`."""
        return token(self, "R_PAREN")

    @property
    def unsafe_token(self) -> Optional[Element]:
        """Example: `unsafe` of `unsafe(m)`."""
        return token(self, "UNSAFE_KW")
