"""The calls of the library, as `crates/ras_c` declares them. Written by bindings/make."""
import ctypes

# What a change puts in stands in the place of the element; with nothing, the element is deleted.
PLACE_INSTEAD = 0

# It is put before the element.
PLACE_BEFORE = 1

# It is put after the element.
PLACE_AFTER = 2

# It is put into the node, before its first child.
PLACE_FIRST = 3

# It is put into the node, after its last child.
PLACE_LAST = 4

# A change puts nothing in.
CONTENT_NOTHING = 0

# A change puts a text in: bytes `start` to `end` of the texts.
CONTENT_TEXT = 1

# A change puts a copy of an element of the old tree in, that at the row `start`.
CONTENT_ROW = 2

# A change is before, after or in the place of the root. Nothing was written.
BESIDE_ROOT = 21

# A change puts a child into a token. Nothing was written.
INTO_TOKEN = 22

# A change is of an element that another one replaces or deletes. Nothing was written.
REPLACED = 23

# A change is inside an element that another one replaces or deletes. Nothing was written.
IN_REPLACED = 24

# A change replaces an element inside which there are others. Nothing was written.
CHANGED_INSIDE = 25

# No place or no content of a change has the number. Nothing was written.
NO_CHANGE = 26

# The entry of a file: the root is a `SOURCE_FILE`.
ENTRY_FILE = 0

# The entry of an expression: the root is a node of an expression, or `ERROR` if the text is not
# one expression. If only its beginning is one, as in `a b`, there may be no errors.
ENTRY_EXPR = 1

# The entry of a type, with its bounds: the root is a node of a type, or `ERROR` if the text is
# not one type, as for [`ENTRY_EXPR`].
ENTRY_TYPE = 2

# The entry of a pattern, with its alternatives: the root is a node of a pattern, or `ERROR` if
# the text is not one pattern, as for [`ENTRY_EXPR`].
ENTRY_PATTERN = 3

# The entry of statements, as a macro may stand for: the root is a `MACRO_STMTS`.
ENTRY_STATEMENTS = 4

# The entry of items, as a macro may stand for: the root is a `MACRO_ITEMS`.
ENTRY_ITEMS = 5

# The entry of what is between the brackets of an attribute: the root is a `PATH_META`,
# `KEY_VALUE_META`, `TOKEN_TREE_META`, `UNSAFE_META`, `CFG_META` or `CFG_ATTR_META`, or `ERROR` if
# the text is not one of these, as for [`ENTRY_EXPR`].
ENTRY_META_ITEM = 6

# No errors are told.
NO_ERRORS = 0

# The errors of the parser, and then those of the lexer, are told. The tree is not walked for
# violations of rules beyond the grammar.
PARSE_ERRORS = 1

# The violations of rules beyond the grammar are told, without the errors of the parse.
VIOLATIONS = 2

# All errors are told: those of the parse, and then the violations.
ALL_ERRORS = 3

# Two ranges of an edit overlap. Nothing was written.
OVERLAP = 19

# The lengths of the inserted texts do not cut their bytes into texts: there are more or fewer
# bytes, or a text would end inside a character. Nothing was written.
NOT_CUT = 20

# A number that no kind has.
NO_KIND = 4294967295

# Columns are counted in bytes, the units of UTF-8.
ENCODING_UTF8 = 0

# Columns are counted in units of UTF-16, as editors count: two for a character past U+FFFF.
ENCODING_UTF16 = 1

# Columns are counted in characters, the units of UTF-32.
ENCODING_UTF32 = 2

# No encoding has the number. Nothing was written.
NO_ENCODING = 18

# The text in place of an expression is not one expression. Nothing was written.
NO_EXPR = 17

# The rules are refused. `message` and `fault` say why and where; nothing else was written.
BAD_RULE = 13

# A rule to replace by has no template. Nothing was written.
NO_TEMPLATE = 14

# A comment would be lost: it is in what stands for a placeholder that the template has not.
# Nothing was written.
LOSES_COMMENT = 15

# The new text would be read otherwise than it is meant. Nothing was written.
READS_OTHERWISE = 16

# Success. The buffers and the counts were written.
OK = 0

# The text is not UTF-8. Nothing was written.
NOT_UTF8 = 1

# The text, its rows or its messages have 2^32 bytes or elements or more. Nothing was written.
TOO_LONG = 2

# Out of memory. Nothing was written.
NO_MEMORY = 3

# A buffer is too small. The counts are the sizes that are needed; nothing else was written.
NO_ROOM = 4

# The edition is not 2015, 2018, 2021 or 2024. Nothing was written.
NO_EDITION = 5

# The text has no such range, or its tree no such node; or an element of a list is no offset or
# place of the text. Nothing was written, but for the number of that element.
NO_PLACE = 6

# The handle holds no parse. Nothing was written.
NO_PARSE = 7

# No entry has the number. Nothing was written.
NO_ENTRY = 11

# No choice of errors has the number. Nothing was written.
NO_CHOICE = 12

# A unit that is a character: its value is the character's number.
UNIT_CHAR = 0

# A unit that is a byte from 80 (hexadecimal) on, as `\xff` of a byte string or a C string: its
# value is the byte.
UNIT_BYTE = 1

# A unit that is wrong, or a warning: its value is the status of the fault, from [`FAULT`] on.
UNIT_FAULT = 2

# An integer without a digit. Nothing was written.
NO_DIGIT = 8

# An integer with a character that is no digit of its radix. Nothing was written.
BAD_DIGIT = 9

# An integer of 2^128 or more. Nothing was written.
TOO_LARGE = 10

# From this status on, an escape or a character of a literal is wrong: [`FAULT`] + n, where n
# counts `EscapeError`'s variants. Nothing was written.
FAULT = 64

# A number made of the kinds, constants, structs and calls of the library. Bindings that know another number were made for others.
VERSION = 1426711408

# What can be wrong with an escape or a character: the names and the messages, from the status FAULT on.
FAULTS = [
    ("ZeroChars", "Literal must not be empty"),
    ("MoreThanOneChar", "Literal must be one character long"),
    ("LoneSlash", "Character must be escaped: `\\`"),
    ("InvalidEscape", "Invalid escape"),
    ("BareCarriageReturn", "Character must be escaped: `\r`"),
    ("BareCarriageReturnInRawString", "Character must be escaped: `\r`"),
    ("EscapeOnlyChar", "Escape character `\\` must be escaped itself"),
    ("TooShortHexEscape", "ASCII hex escape code must have exactly two digits"),
    ("InvalidCharInHexEscape", "ASCII hex escape code must contain only hex characters"),
    ("OutOfRangeHexEscape", "ASCII hex escape code must be at most 0x7F"),
    ("NoBraceInUnicodeEscape", "Missing `{` to begin the unicode escape"),
    ("InvalidCharInUnicodeEscape", "Unicode escape must contain only hex characters and underscores"),
    ("EmptyUnicodeEscape", "Unicode escape must not be empty"),
    ("UnclosedUnicodeEscape", "Missing `}` to terminate the unicode escape"),
    ("LeadingUnderscoreUnicodeEscape", "Unicode escape code must not begin with an underscore"),
    ("OverlongUnicodeEscape", "Unicode escape code must have at most 6 digits"),
    ("LoneSurrogateUnicodeEscape", "Unicode escape code must not be a surrogate"),
    ("OutOfRangeUnicodeEscape", "Unicode escape code must be at most 0x10FFFF"),
    ("UnicodeEscapeInByte", "Byte literals must not contain unicode escapes"),
    ("NonAsciiCharInByte", "Byte literals must not contain non-ASCII characters"),
    ("NulInCStr", "C strings literals must not contain null characters"),
    ("MultipleSkippedLinesWarning", "Multiple lines are skipped by this escape"),
    ("UnskippedWhitespaceWarning", "Whitespace after this escape is not skipped"),
]


class FlatRow(ctypes.Structure):
    """One node or token, in 16 bytes. Rows are numbered from 0 in preorder."""

    _fields_ = [
        ("kind", ctypes.c_uint32),
        ("start", ctypes.c_uint32),
        ("subtree_end", ctypes.c_uint32),
        ("parent", ctypes.c_uint32),
    ]


class ChangeRow(ctypes.Structure):
    """One of several changes of a tree."""

    _fields_ = [
        ("row", ctypes.c_uint32),
        ("place", ctypes.c_uint32),
        ("content", ctypes.c_uint32),
        ("start", ctypes.c_uint32),
        ("end", ctypes.c_uint32),
    ]


class EditRow(ctypes.Structure):
    """One of several replacements of a text. Their inserted texts lie in a buffer, one behind the"""

    _fields_ = [
        ("start", ctypes.c_uint32),
        ("end", ctypes.c_uint32),
        ("insert", ctypes.c_uint32),
    ]


class Handle(ctypes.Structure):
    """A parse that is kept between calls, or no parse. A handle of all zeros holds none."""

    _fields_ = [
        ("full", ctypes.c_bool),
        ("at", ctypes.c_void_p),
    ]


class LineCol(ctypes.Structure):
    """A place in a text, by its line and its column, both counted from 0."""

    _fields_ = [
        ("line", ctypes.c_uint32),
        ("col", ctypes.c_uint32),
    ]


class TreeOwner(ctypes.Structure):
    """The memory of a tree that was handed over, or none. Its fields are private to the library."""

    _fields_ = [
        ("full", ctypes.c_bool),
        ("at", ctypes.c_void_p),
    ]


class Range(ctypes.Structure):
    """A range of the text, in bytes."""

    _fields_ = [
        ("start", ctypes.c_uint32),
        ("end", ctypes.c_uint32),
    ]


class ErrorRow(ctypes.Structure):
    """One error: its range in the text, in bytes, and the length of its message."""

    _fields_ = [
        ("start", ctypes.c_uint32),
        ("end", ctypes.c_uint32),
        ("message", ctypes.c_uint32),
    ]


class Counts(ctypes.Structure):
    """How many rows, errors and bytes of messages a text has."""

    _fields_ = [
        ("rows", ctypes.c_uint32),
        ("errors", ctypes.c_uint32),
        ("violations", ctypes.c_uint32),
        ("messages", ctypes.c_uint32),
    ]


class MatchRow(ctypes.Structure):
    """A place where a rule matches."""

    _fields_ = [
        ("rule", ctypes.c_size_t),
        ("start", ctypes.c_uint32),
        ("end", ctypes.c_uint32),
    ]


class RuleFault(ctypes.Structure):
    """What is wrong with rules."""

    _fields_ = [
        ("offset", ctypes.c_size_t),
        ("message", ctypes.c_size_t),
    ]


class TokenRow(ctypes.Structure):
    """One token."""

    _fields_ = [
        ("kind", ctypes.c_uint32),
        ("bytes", ctypes.c_uint32),
    ]


class TreeRows(ctypes.Structure):
    """A tree in memory that the caller owns: its rows, those that `ras_c_rows` writes, and its text."""

    _fields_ = [
        ("rows", ctypes.c_void_p),
        ("row_count", ctypes.c_size_t),
        ("text", ctypes.c_void_p),
        ("text_len", ctypes.c_size_t),
        ("owner", TreeOwner),
    ]


class UnitRow(ctypes.Structure):
    """One unit of a string literal: a character or an escape."""

    _fields_ = [
        ("start", ctypes.c_uint32),
        ("end", ctypes.c_uint32),
        ("sort", ctypes.c_uint32),
        ("value", ctypes.c_uint32),
    ]


class Word(ctypes.Structure):
    """What a word is in an edition."""

    _fields_ = [
        ("keyword", ctypes.c_uint32),
        ("contextual", ctypes.c_uint32),
        ("is_identifier", ctypes.c_bool),
        ("is_raw_identifier", ctypes.c_bool),
    ]


def declare(library: ctypes.CDLL) -> ctypes.CDLL:
    """Says of each function of the library what it takes and answers."""
    library.ras_c_change_tree.argtypes = [ctypes.c_void_p, ctypes.c_void_p, ctypes.c_size_t, ctypes.c_void_p, ctypes.c_size_t, ctypes.c_void_p, ctypes.c_size_t, ctypes.c_void_p]
    library.ras_c_change_tree.restype = ctypes.c_uint32
    library.ras_c_edits.argtypes = [ctypes.c_void_p, ctypes.c_uint32, ctypes.c_void_p, ctypes.c_size_t, ctypes.c_void_p, ctypes.c_size_t]
    library.ras_c_edits.restype = ctypes.c_uint32
    library.ras_c_errors.argtypes = [ctypes.c_void_p, ctypes.c_uint32, ctypes.c_void_p, ctypes.c_size_t, ctypes.c_void_p, ctypes.c_size_t, ctypes.c_void_p]
    library.ras_c_errors.restype = ctypes.c_uint32
    library.ras_c_kind_name.argtypes = [ctypes.c_uint32, ctypes.c_void_p, ctypes.c_size_t]
    library.ras_c_kind_name.restype = ctypes.c_size_t
    library.ras_c_kind_of_name.argtypes = [ctypes.c_void_p, ctypes.c_size_t]
    library.ras_c_kind_of_name.restype = ctypes.c_uint32
    library.ras_c_line_starts.argtypes = [ctypes.c_void_p, ctypes.c_size_t, ctypes.c_void_p, ctypes.c_size_t, ctypes.c_void_p]
    library.ras_c_line_starts.restype = ctypes.c_uint32
    library.ras_c_line_cols.argtypes = [ctypes.c_void_p, ctypes.c_size_t, ctypes.c_uint32, ctypes.c_void_p, ctypes.c_size_t, ctypes.c_void_p, ctypes.c_size_t, ctypes.c_void_p]
    library.ras_c_line_cols.restype = ctypes.c_uint32
    library.ras_c_offsets.argtypes = [ctypes.c_void_p, ctypes.c_size_t, ctypes.c_uint32, ctypes.c_void_p, ctypes.c_size_t, ctypes.c_void_p, ctypes.c_size_t, ctypes.c_void_p]
    library.ras_c_offsets.restype = ctypes.c_uint32
    library.ras_c_parse.argtypes = [ctypes.c_void_p, ctypes.c_size_t, ctypes.c_uint32, ctypes.c_void_p]
    library.ras_c_parse.restype = ctypes.c_uint32
    library.ras_c_rows.argtypes = [ctypes.c_void_p, ctypes.c_void_p, ctypes.c_size_t, ctypes.c_void_p, ctypes.c_size_t, ctypes.c_void_p, ctypes.c_size_t, ctypes.c_void_p]
    library.ras_c_rows.restype = ctypes.c_uint32
    library.ras_c_rows_as.argtypes = [ctypes.c_void_p, ctypes.c_uint32, ctypes.c_void_p, ctypes.c_size_t, ctypes.c_void_p, ctypes.c_size_t, ctypes.c_void_p, ctypes.c_size_t, ctypes.c_void_p]
    library.ras_c_rows_as.restype = ctypes.c_uint32
    library.ras_c_rows_at.argtypes = [ctypes.c_void_p, ctypes.c_uint32, ctypes.c_uint32, ctypes.c_uint32, ctypes.c_void_p, ctypes.c_size_t, ctypes.c_void_p, ctypes.c_size_t, ctypes.c_void_p, ctypes.c_size_t, ctypes.c_void_p]
    library.ras_c_rows_at.restype = ctypes.c_uint32
    library.ras_c_edit.argtypes = [ctypes.c_void_p, ctypes.c_uint32, ctypes.c_uint32, ctypes.c_uint32, ctypes.c_void_p, ctypes.c_size_t]
    library.ras_c_edit.restype = ctypes.c_uint32
    library.ras_c_edit_told.argtypes = [ctypes.c_void_p, ctypes.c_uint32, ctypes.c_uint32, ctypes.c_uint32, ctypes.c_void_p, ctypes.c_size_t, ctypes.c_void_p]
    library.ras_c_edit_told.restype = ctypes.c_uint32
    library.ras_c_free.argtypes = [ctypes.c_void_p]
    library.ras_c_free.restype = None
    library.ras_c_parens.argtypes = [ctypes.c_void_p, ctypes.c_size_t, ctypes.c_uint32, ctypes.c_void_p, ctypes.c_size_t, ctypes.c_void_p]
    library.ras_c_parens.restype = ctypes.c_uint32
    library.ras_c_reads_back.argtypes = [ctypes.c_void_p, ctypes.c_size_t, ctypes.c_uint32, ctypes.c_uint32, ctypes.c_uint32, ctypes.c_void_p]
    library.ras_c_reads_back.restype = ctypes.c_uint32
    library.ras_c_rows_from.argtypes = [ctypes.c_void_p, ctypes.c_uint32, ctypes.c_void_p, ctypes.c_size_t]
    library.ras_c_rows_from.restype = ctypes.c_uint32
    library.ras_c_needs_parens.argtypes = [ctypes.c_void_p, ctypes.c_size_t, ctypes.c_uint32, ctypes.c_uint32, ctypes.c_uint32, ctypes.c_void_p, ctypes.c_size_t, ctypes.c_void_p]
    library.ras_c_needs_parens.restype = ctypes.c_uint32
    library.ras_c_read.argtypes = [ctypes.c_void_p, ctypes.c_size_t, ctypes.c_uint32, ctypes.c_void_p, ctypes.c_size_t, ctypes.c_void_p, ctypes.c_size_t, ctypes.c_void_p, ctypes.c_size_t, ctypes.c_void_p]
    library.ras_c_read.restype = ctypes.c_uint32
    library.ras_c_read_expr.argtypes = [ctypes.c_void_p, ctypes.c_size_t, ctypes.c_uint32, ctypes.c_void_p, ctypes.c_size_t, ctypes.c_void_p, ctypes.c_size_t, ctypes.c_void_p, ctypes.c_size_t, ctypes.c_void_p]
    library.ras_c_read_expr.restype = ctypes.c_uint32
    library.ras_c_read_as.argtypes = [ctypes.c_uint32, ctypes.c_uint32, ctypes.c_void_p, ctypes.c_size_t, ctypes.c_uint32, ctypes.c_void_p, ctypes.c_size_t, ctypes.c_void_p, ctypes.c_size_t, ctypes.c_void_p, ctypes.c_size_t, ctypes.c_void_p]
    library.ras_c_read_as.restype = ctypes.c_uint32
    library.ras_c_search.argtypes = [ctypes.c_void_p, ctypes.c_size_t, ctypes.c_bool, ctypes.c_void_p, ctypes.c_size_t, ctypes.c_uint32, ctypes.c_void_p, ctypes.c_size_t, ctypes.c_void_p, ctypes.c_void_p, ctypes.c_size_t, ctypes.c_void_p]
    library.ras_c_search.restype = ctypes.c_uint32
    library.ras_c_rewrite.argtypes = [ctypes.c_void_p, ctypes.c_size_t, ctypes.c_bool, ctypes.c_void_p, ctypes.c_size_t, ctypes.c_uint32, ctypes.c_void_p, ctypes.c_size_t, ctypes.c_void_p, ctypes.c_void_p, ctypes.c_void_p, ctypes.c_size_t, ctypes.c_void_p]
    library.ras_c_rewrite.restype = ctypes.c_uint32
    library.ras_c_tokens.argtypes = [ctypes.c_void_p, ctypes.c_size_t, ctypes.c_uint32, ctypes.c_void_p, ctypes.c_size_t, ctypes.c_void_p]
    library.ras_c_tokens.restype = ctypes.c_uint32
    library.ras_c_take_tree.argtypes = [ctypes.c_void_p, ctypes.c_void_p]
    library.ras_c_take_tree.restype = ctypes.c_uint32
    library.ras_c_free_tree.argtypes = [ctypes.c_void_p]
    library.ras_c_free_tree.restype = None
    library.ras_c_char_ranges.argtypes = [ctypes.c_void_p, ctypes.c_size_t, ctypes.c_void_p, ctypes.c_size_t, ctypes.c_void_p]
    library.ras_c_char_ranges.restype = ctypes.c_uint32
    library.ras_c_string_value.argtypes = [ctypes.c_void_p, ctypes.c_size_t, ctypes.c_void_p, ctypes.c_size_t, ctypes.c_void_p]
    library.ras_c_string_value.restype = ctypes.c_uint32
    library.ras_c_byte_string_value.argtypes = [ctypes.c_void_p, ctypes.c_size_t, ctypes.c_void_p, ctypes.c_size_t, ctypes.c_void_p]
    library.ras_c_byte_string_value.restype = ctypes.c_uint32
    library.ras_c_c_string_value.argtypes = [ctypes.c_void_p, ctypes.c_size_t, ctypes.c_void_p, ctypes.c_size_t, ctypes.c_void_p]
    library.ras_c_c_string_value.restype = ctypes.c_uint32
    library.ras_c_char_value.argtypes = [ctypes.c_void_p, ctypes.c_size_t, ctypes.c_void_p]
    library.ras_c_char_value.restype = ctypes.c_uint32
    library.ras_c_byte_value.argtypes = [ctypes.c_void_p, ctypes.c_size_t, ctypes.c_void_p]
    library.ras_c_byte_value.restype = ctypes.c_uint32
    library.ras_c_int_value.argtypes = [ctypes.c_void_p, ctypes.c_size_t, ctypes.c_void_p, ctypes.c_void_p]
    library.ras_c_int_value.restype = ctypes.c_uint32
    library.ras_c_violations_at.argtypes = [ctypes.c_void_p, ctypes.c_uint32, ctypes.c_void_p, ctypes.c_size_t, ctypes.c_void_p, ctypes.c_size_t, ctypes.c_void_p]
    library.ras_c_violations_at.restype = ctypes.c_uint32
    library.ras_c_violations_among.argtypes = [ctypes.c_void_p, ctypes.c_uint32, ctypes.c_uint32, ctypes.c_void_p, ctypes.c_size_t, ctypes.c_void_p, ctypes.c_size_t, ctypes.c_void_p]
    library.ras_c_violations_among.restype = ctypes.c_uint32
    library.ras_c_word.argtypes = [ctypes.c_void_p, ctypes.c_size_t, ctypes.c_uint32, ctypes.c_void_p]
    library.ras_c_word.restype = ctypes.c_uint32
    library.ras_c_version.argtypes = []
    library.ras_c_version.restype = ctypes.c_uint32
    return library
