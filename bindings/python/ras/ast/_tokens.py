"""Views of tokens. Written by bindings/make."""
from ._lookups import View


class Byte(View):
    """A token of the kind `BYTE`."""

    KIND = "BYTE"


class ByteString(View):
    """A token of the kind `BYTE_STRING`."""

    KIND = "BYTE_STRING"


class CString(View):
    """A token of the kind `C_STRING`."""

    KIND = "C_STRING"


class Char(View):
    """A token of the kind `CHAR`."""

    KIND = "CHAR"


class Comment(View):
    """A token of the kind `COMMENT`."""

    KIND = "COMMENT"


class FloatNumber(View):
    """A token of the kind `FLOAT_NUMBER`."""

    KIND = "FLOAT_NUMBER"


class IntNumber(View):
    """A token of the kind `INT_NUMBER`."""

    KIND = "INT_NUMBER"


class String(View):
    """A token of the kind `STRING`."""

    KIND = "STRING"


class Whitespace(View):
    """A token of the kind `WHITESPACE`."""

    KIND = "WHITESPACE"
