"""What the views are made of. The names of the calls are those of rust-analyzer's crate `syntax`."""
from __future__ import annotations

from typing import TYPE_CHECKING, Any, Dict, Iterator, Optional, Type, TypeVar

if TYPE_CHECKING:
    from .. import Element

V = TypeVar("V", bound="View")
# The views by the names of their kinds, and all classes of views by their own names.
_by_kind: Dict[str, Type[View]] = {}
_by_name: Dict[str, Type[View]] = {}


class View:
    """A node, or a token, of a kind that has a view: its parts have names. Views are equal if their nodes are."""

    __slots__ = ("syntax",)
    # The name of the kind; none for a class of several kinds.
    KIND = ""
    syntax: Element

    def __init_subclass__(cls) -> None:
        _by_name[cls.__name__] = cls
        if "KIND" in vars(cls):
            _by_kind[cls.KIND] = cls

    def __init__(self, syntax: Element) -> None:
        self.syntax = syntax

    @classmethod
    def cast(cls: Type[V], element: Optional[Element]) -> Optional[V]:
        """The view of a node or token; None if its kind is of no such view, as of `Expr` for a FN."""
        if element is None:
            return None
        view = _by_kind.get(element.kind)
        return view(element) if view is not None and issubclass(view, cls) else None

    @classmethod
    def within(cls: Type[V], element: Element) -> Iterator[V]:
        """The views of a node and of all below it, in preorder, of which the kind is one of these."""
        return (it for it in map(cls.cast, element.descendants()) if it is not None)

    @property
    def text(self) -> str:
        """Its text."""
        return self.syntax.text

    def __eq__(self, other: object) -> bool:
        return isinstance(other, View) and self.syntax == other.syntax

    def __hash__(self) -> int:
        return hash(self.syntax)

    def __repr__(self) -> str:
        return f"{type(self).__name__}({self.syntax!r})"


def _all(view: View, of: str) -> Iterator[View]:
    kinds = _by_name[of]
    return (it for it in map(kinds.cast, view.syntax.children()) if it is not None)


def first(view: View, of: str) -> Any:
    """The first child with a view of this name; None if there is none."""
    return next(_all(view, of), None)


def second(view: View, of: str) -> Any:
    """The second child with a view of this name; None if there is none."""
    found = _all(view, of)
    next(found, None)
    return next(found, None)


def every(view: View, of: str) -> Any:
    """The children with a view of this name, in order."""
    return list(_all(view, of))


def token(view: View, kind: str) -> Optional[Element]:
    """The first child that is a token of this kind; None if there is none."""
    return next((it for it in view.syntax.children() if it.kind == kind and it.is_token), None)
