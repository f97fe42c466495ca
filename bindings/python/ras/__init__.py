"""Lossless syntax trees for Rust, over a parser of which each function is proved.

>>> import ras
>>> tree = ras.parse("fn main() { let x = (1 + 2) * 3; }")
>>> tree.errors
[]
>>> [it.text for it in tree.root.descendants() if it.kind == "BIN_EXPR"]
['(1 + 2) * 3', '1 + 2']

There is a tree whatever the text is, and each byte of the text is in one token of it. One call reads a text; nodes and tokens
are made on demand. Offsets and ranges are in bytes of the text's UTF-8.
"""
import bisect
import ctypes
import functools
import mmap
import os
import threading
import typing
import weakref

from . import _raw

__all__ = [
    "Element", "EscapeError", "LineCol", "Live", "Match", "ParseError", "RewriteError", "RuleError", "SyntaxError", "Tree", "Unit", "contextual_keyword", "is_identifier",
    "is_raw_identifier", "keyword", "kind_name", "kind_of_name", "parse", "parse_expr", "parse_items",
    "parse_meta_item", "parse_pattern", "parse_statements", "parse_type", "rewrite",
]

_TOKEN = 1 << 31


def _checked(library, place):
    """The library, if it has the kinds and calls that this module knows."""
    known = getattr(library, "ras_c_version", None)
    version = known() & 0xFFFFFFFF if known else None
    if version != _raw.VERSION:
        told = "no number" if version is None else f"the number {version:08x}"
        raise ImportError(f"{place} has {told} of kinds and calls, and this module {_raw.VERSION:08x}: build both from one state of the repository")
    return _raw.declare(library)


def _find():
    named = os.environ.get("RAS_LIBRARY")
    here = os.path.dirname(os.path.abspath(__file__))
    places = [named] if named else [os.path.join(here, "libras.so"), os.path.join(here, "..", "..", "..", "crates", "ras_c", "out", "libras.so")]
    for place in places:
        if os.path.exists(place):
            return _checked(ctypes.CDLL(place), place)
    raise ImportError(f"no library at {' or '.join(places)}: `pip install .` builds it here, and `./run --lib` at the top of the repository")


_library = _find()


class ParseError(Exception):
    """Why a text has no tree: it is too long, memory ran out, or the library holds no parse of it."""


_WHY = {
    _raw.TOO_LONG: "the text is too long: it has 4294967296 bytes or more, or its tree as many rows",
    _raw.NO_MEMORY: "out of memory",
    _raw.NO_EDITION: "the edition is none of 2015, 2018, 2021 and 2024",
    _raw.NO_PARSE: "the library holds no parse of the text",
}


def _had_room(status):
    """Whether a call was done; False if a buffer was too small."""
    if status in (_raw.OK, _raw.NO_ROOM):
        return status == _raw.OK
    if status == _raw.NOT_UTF8:
        raise ValueError("the text is not UTF-8")
    if status in _WHY:
        raise (ValueError if status == _raw.NO_EDITION else ParseError)(_WHY[status])
    raise RuntimeError(f"the library answered with the status {status}")


class SyntaxError(Exception):
    """What is wrong with a text: `message`, the bytes `start` and `end`, and whether it is a violation of a rule beyond the grammar."""

    def __init__(self, message, start, end, is_violation):
        super().__init__(message)
        self.message, self.start, self.end, self.is_violation = message, start, end, is_violation

    def __repr__(self):
        return f"{self.start}..{self.end}: {self.message}"


class EscapeError(ValueError):
    """What is wrong with a literal that has no value: `name`, as "InvalidEscape", and a message."""

    def __init__(self, name, message):
        super().__init__(message)
        self.name, self.message = name, message


class RuleError(ValueError):
    """Why a text is no rule of search and replace: a message, and the byte `offset` of the text where it is wrong."""

    def __init__(self, message, offset):
        super().__init__(message)
        self.message, self.offset = message, offset


class RewriteError(Exception):
    """Why the matches of a text are not replaced: a rule has no template, a comment would be lost, or the new text would be read otherwise
    than it is meant."""


class Match(typing.NamedTuple):
    """A place where a rule matches: the number of the rule, from 0, and the bytes where the match starts and ends."""

    rule: int
    start: int
    end: int


class Unit(typing.NamedTuple):
    """A character or an escape of a string literal: the bytes of the text where it starts and ends, and its value: a `str` of one character,
    an `int` for a byte that is not one, or the EscapeError, which may be a warning."""

    start: int
    end: int
    value: typing.Union[str, int, EscapeError]


class LineCol(typing.NamedTuple):
    """A place in a text: its line and its column, both from 0."""

    line: int
    col: int


_ENCODINGS = {"utf-8": _raw.ENCODING_UTF8, "utf-16": _raw.ENCODING_UTF16, "utf-32": _raw.ENCODING_UTF32}


def _first_unanswered(call, data, encoding, given, out):
    """Converts a list of offsets or places of a text: the number of the first that the text has not, or None."""
    if encoding not in _ENCODINGS:
        raise ValueError(f"an encoding of columns is one of {', '.join(map(repr, _ENCODINGS))}, not {encoding!r}")
    count = ctypes.c_uint32()
    status = call(data, len(data), _ENCODINGS[encoding], given, len(given), out, len(out), ctypes.byref(count))
    if status == _raw.NO_PLACE:
        return count.value
    _had_room(status)
    return None


def _line_cols(data, at, offsets, encoding):
    """The places of offsets of a text that starts at another offset of the whole text."""
    for it in offsets:
        if not 0 <= it <= len(data):
            raise ValueError(f"{at + it} is no offset of the text")
    given, places = (ctypes.c_uint32 * len(offsets))(*offsets), (_raw.LineCol * len(offsets))()
    first = _first_unanswered(_library.ras_c_line_cols, data, encoding, given, places)
    if first is not None:
        raise ValueError(f"{at + offsets[first]} is inside a character")
    return [LineCol(it.line, it.col) for it in places]


def _offsets_of(data, at, places, encoding):
    """The offsets of places of a text whose first line has a number in the whole text."""
    given, offsets = (_raw.LineCol * len(places))(), (ctypes.c_uint32 * len(places))()
    for n, (line, col) in enumerate(places):
        # ctypes would cut a larger number to 32 bits.
        if not (0 <= line < 1 << 32 and 0 <= col < 1 << 32):
            raise ValueError(f"the text has no line {at + line} with a column {col}")
        given[n] = line, col
    first = _first_unanswered(_library.ras_c_offsets, data, encoding, given, offsets)
    if first is not None:
        line, col = places[first]
        raise ValueError(f"the text has no line {at + line} with a column {col}, or it is inside a character")
    return list(offsets)


_NOT_REPLACED = {
    _raw.NO_TEMPLATE: "a rule has no template",
    _raw.LOSES_COMMENT: "a comment would be lost: it is in what stands for a placeholder that the template has not",
    _raw.READS_OTHERWISE: "the new text would be read otherwise than it is meant",
}


def _by_rules(call, rules, lines, data, edition, *out):
    """Calls a function that takes rules and a text; False if a buffer was too small."""
    rules, message, fault = _bytes_of(rules), ctypes.create_string_buffer(4096), _raw.RuleFault()
    status = call(rules, len(rules), bool(lines), data, len(data), edition, *out, message, len(message), ctypes.byref(fault))
    if status == _raw.BAD_RULE:
        told = message.raw[: fault.message].decode() if fault.message <= len(message) else "this is no rule"
        raise RuleError(told, fault.offset)
    if status in _NOT_REPLACED:
        raise RewriteError(_NOT_REPLACED[status])
    return _had_room(status)


def rewrite(rule, text, edition=2024, lines=False):
    """A text in which each match of a rule `PATTERN ==>> TEMPLATE` is replaced, with parentheses exactly where they are needed; what is
    outside of the matches stays as it is. With `lines`, `rule` has several, one a line. RuleError if it is no rule, RewriteError if the
    matches are not replaced; ParseError as for `parse`.

    >>> rewrite("add($a, $b) ==>> $a + $b", "fn f() { add(1, 2) * 3 }")
    'fn f() { (1 + 2) * 3 }'
    """
    return _rewritten(rule, _bytes_of(text), _edition_of(edition), lines).decode()


def _rewritten(rule, data, edition, lines):
    out, count, matches = ctypes.create_string_buffer(len(data) * 5 // 4 + 64), ctypes.c_uint32(), ctypes.c_size_t()
    while not _by_rules(_library.ras_c_rewrite, rule, lines, data, edition, out, len(out), ctypes.byref(count), ctypes.byref(matches)):
        out = ctypes.create_string_buffer(count.value)
    return ctypes.string_at(out, count.value)


def _word(text, edition):
    data, word = _bytes_of(text), _raw.Word()
    _had_room(_library.ras_c_word(data, len(data), _edition_of(edition), ctypes.byref(word)))
    return word


def _kind_in(number):
    return None if number == _raw.NO_KIND else kind_name(number)


def is_identifier(text, edition=2024):
    """Whether a text is an identifier that is no keyword everywhere in the edition; it may be one in some places, as "union"."""
    return _word(text, edition).is_identifier


def is_raw_identifier(text, edition=2024):
    """Whether a text is an identifier only behind `r#`: a keyword everywhere, but for "self", "super", "crate" and "Self"."""
    return _word(text, edition).is_raw_identifier


def keyword(text, edition=2024):
    """The kind of a word that is a keyword everywhere in the edition, as "FN_KW"; None for other texts.

    >>> keyword("gen", 2024), keyword("gen", 2021), keyword("union")
    ('GEN_KW', None, None)
    """
    return _kind_in(_word(text, edition).keyword)


def contextual_keyword(text, edition=2024):
    """The kind of a word that is a keyword in some places alone, as "UNION_KW"; None for other texts."""
    return _kind_in(_word(text, edition).contextual)


_WRONG_NUMBERS = {
    _raw.NO_DIGIT: "the integer has no digit",
    _raw.BAD_DIGIT: "the integer has a character that is no digit of its radix",
    _raw.TOO_LARGE: "the integer has more than 128 bits",
}


def _valued(status):
    if status >= _raw.FAULT:
        raise EscapeError(*_raw.FAULTS[status - _raw.FAULT])
    if status in _WRONG_NUMBERS:
        raise ValueError(_WRONG_NUMBERS[status])
    _had_room(status)


def _string_value(call, data):
    # A value is at most as long as the text.
    value, count = ctypes.create_string_buffer(max(len(data), 1)), ctypes.c_uint32()
    _valued(call(data, len(data), value, len(data), ctypes.byref(count)))
    return value.raw[: count.value]


def _units_of(data, at):
    """The units of a string literal with this text, which starts at an offset."""
    # There are at most as many as bytes.
    units, count = (_raw.UnitRow * len(data))(), ctypes.c_uint32()
    while not _had_room(_library.ras_c_char_ranges(data, len(data), units, len(units), ctypes.byref(count))):
        units = (_raw.UnitRow * count.value)()
    return [Unit(at + it.start, at + it.end, _SORTS[it.sort](it.value)) for it in units[: count.value]]


_SORTS = {
    _raw.UNIT_CHAR: chr,
    _raw.UNIT_BYTE: int,
    _raw.UNIT_FAULT: lambda status: EscapeError(*_raw.FAULTS[status - _raw.FAULT]),
}


def _sign_value(call, data):
    value = ctypes.c_uint32()
    _valued(call(data, len(data), ctypes.byref(value)))
    return value.value


def _int_value(data):
    high, low = ctypes.c_uint64(), ctypes.c_uint64()
    _valued(_library.ras_c_int_value(data, len(data), ctypes.byref(high), ctypes.byref(low)))
    return high.value << 64 | low.value


_VALUES = {
    "STRING": lambda data: _string_value(_library.ras_c_string_value, data).decode(),
    "BYTE_STRING": functools.partial(_string_value, _library.ras_c_byte_string_value),
    "C_STRING": functools.partial(_string_value, _library.ras_c_c_string_value),
    "CHAR": lambda data: chr(_sign_value(_library.ras_c_char_value, data)),
    "BYTE": functools.partial(_sign_value, _library.ras_c_byte_value),
    "INT_NUMBER": _int_value,
}


@functools.lru_cache(maxsize=None)
def kind_name(number):
    """The name of the kind with this number, as "FN"; None if no kind has it."""
    name = ctypes.create_string_buffer(64)
    length = _library.ras_c_kind_name(number, name, len(name))
    return name.raw[:length].decode() or None


@functools.lru_cache(maxsize=None)
def kind_of_name(name):
    """The number of the kind with this name; None if no kind has it."""
    data = name.encode()
    number = _library.ras_c_kind_of_name(data, len(data))
    return None if number == _raw.NO_KIND else number


_ERRORS = {"none": _raw.NO_ERRORS, "parse": _raw.PARSE_ERRORS, "violations": _raw.VIOLATIONS, "all": _raw.ALL_ERRORS}


def _choice(errors):
    if errors not in _ERRORS:
        raise ValueError(f"a choice of errors is one of {', '.join(map(repr, _ERRORS))}, not {errors!r}")
    return _ERRORS[errors]


def parse(text, edition=2024, errors="all"):
    """The tree of a text, a `str` or its UTF-8 as `bytes`, read as a file. `errors` says which errors it has: those of the parser and the
    lexer ("parse"), what breaks rules beyond the grammar ("violations"), which takes a further walk through the tree, "all" or "none".

    >>> [len(parse("fn f() { 1 + } impl T for S { pub fn g() {} }", errors=it).errors) for it in ("none", "parse", "violations", "all")]
    [0, 1, 1, 2]
    """
    return Tree(text, edition, errors)


def parse_expr(text, edition=2024, errors="all"):
    """The tree of a text, read as an expression. Its root is an ERROR if the text is not one expression. If only its beginning is one, as in
    "a b", the root has it first and then the tokens that are left, and there may be no errors.

    >>> [parse_expr(it).root.kind for it in ("a + b", "a b")]
    ['BIN_EXPR', 'ERROR']
    """
    return Tree.__new__(Tree)._read(_raw.ENTRY_EXPR, text, edition, errors)


def parse_type(text, edition=2024, errors="all"):
    """The tree of a text, read as a type, with its bounds. Its root is an ERROR if the text is not one type, as for `parse_expr`.

    >>> [parse_type(it).root.kind for it in ("&'a [u8]", "impl A + B", "A B")]
    ['REF_TYPE', 'IMPL_TRAIT_TYPE', 'ERROR']
    """
    return Tree.__new__(Tree)._read(_raw.ENTRY_TYPE, text, edition, errors)


def parse_pattern(text, edition=2024, errors="all"):
    """The tree of a text, read as a pattern, with its alternatives. Its root is an ERROR if the text is not one pattern, as for `parse_expr`.

    >>> [parse_pattern(it).root.kind for it in ("Some(a) | None", "a if b")]
    ['OR_PAT', 'ERROR']
    """
    return Tree.__new__(Tree)._read(_raw.ENTRY_PATTERN, text, edition, errors)


def parse_statements(text, edition=2024, errors="all"):
    """The tree of a text, read as the statements that a macro stands for, each with or without its `;`, and an expression. Its root is a
    MACRO_STMTS.

    >>> [it.kind for it in parse_statements("let a = 1; a").root.children()]
    ['LET_STMT', 'WHITESPACE', 'PATH_EXPR']
    """
    return Tree.__new__(Tree)._read(_raw.ENTRY_STATEMENTS, text, edition, errors)


def parse_items(text, edition=2024, errors="all"):
    """The tree of a text, read as the items that a macro stands for. Its root is a MACRO_ITEMS.

    >>> [it.kind for it in parse_items("use a; fn f() {}").root.children()]
    ['USE', 'WHITESPACE', 'FN']
    """
    return Tree.__new__(Tree)._read(_raw.ENTRY_ITEMS, text, edition, errors)


def parse_meta_item(text, edition=2024, errors="all"):
    """The tree of a text, read as the contents of an attribute. Its root is one of the nodes of `ast.Meta`, or an ERROR if the text is not
    such contents, as for `parse_expr`.

    >>> [parse_meta_item(it).root.kind for it in ("derive(Debug)", "doc = 'a'", "inline", "#[inline]")]
    ['TOKEN_TREE_META', 'KEY_VALUE_META', 'PATH_META', 'ERROR']
    """
    return Tree.__new__(Tree)._read(_raw.ENTRY_META_ITEM, text, edition, errors)


def _bytes_of(text):
    if isinstance(text, str):
        return text.encode()
    if isinstance(text, bytes):
        return text
    raise TypeError(f"a text is a str or bytes, not {type(text).__name__}")


def _edition_of(edition):
    # ctypes would cut a larger number to 32 bits.
    if edition not in (2015, 2018, 2021, 2024):
        raise ValueError(_WHY[_raw.NO_EDITION])
    return int(edition)


def _edited(data, edits):
    """A text in which each range of bytes is replaced."""
    pieces, at = [], 0
    for start, end, text in sorted(edits, key=lambda it: it[:2]):
        if not 0 <= start <= end <= len(data):
            raise ValueError(f"{start}..{end} is no range of the text, which has {len(data)} bytes")
        if start < at:
            raise ValueError(f"{start}..{end} overlaps the range before it, which ends at {at}")
        if any(it < len(data) and data[it] & 0xC0 == 0x80 for it in (start, end)):
            raise ValueError(f"{start}..{end} does not start and end between characters")
        pieces += [data[at:start], _bytes_of(text)]
        at = end
    return b"".join([*pieces, data[at:]])


# So many errors and bytes of messages have room at first.
_ERROR_ROOM, _MESSAGE_ROOM = 16, 1024


def _told_errors(counts, errors, messages):
    """The errors that a call wrote."""
    found, told, at = [], messages.raw[: counts.messages], 0
    for n in range(counts.errors):
        row = errors[n]
        message = told[at : at + row.message].decode()
        found.append(SyntaxError(message, row.start, row.end, n >= counts.errors - counts.violations))
        at += row.message
    return found


def _errors_of(call):
    """The errors that a call writes to its buffers, which is called again if they had too little room."""
    counts, error_room, message_room = _raw.Counts(), _ERROR_ROOM, _MESSAGE_ROOM
    while True:
        errors, messages = (_raw.ErrorRow * error_room)(), ctypes.create_string_buffer(message_room)
        if _had_room(call(errors, error_room, messages, message_room, ctypes.byref(counts))):
            return _told_errors(counts, errors, messages)
        error_room, message_room = counts.errors, max(counts.messages, 1)


class Tree:
    """A text, its lossless tree, and what is wrong with it."""

    # What its text was read as. Its `rows` have four numbers for each node and token: the kind, where it starts, the first row after its
    # subtree, its parent's row.
    _entry = _raw.ENTRY_FILE

    def __init__(self, text, edition=2024, errors="all"):
        self._read(_raw.ENTRY_FILE, text, edition, errors)

    def _read(self, entry, text, edition, errors):
        """Takes the tree of a text from the library."""
        data, edition, choice = _bytes_of(text), _edition_of(edition), _choice(errors)
        self._entry = entry
        if entry == _raw.ENTRY_FILE:
            self._take(data, edition, choice)
        else:
            self._tell(data, edition, functools.partial(_library.ras_c_read_as, entry, choice, data, len(data), edition))
        return self

    def _take(self, data, edition, choice):
        """Takes the rows of a file in the library's own memory, without a copy of them."""
        self.data, self.edition = data, edition
        handle, tree = _raw.Handle(), _raw.TreeRows()
        try:
            _had_room(_library.ras_c_parse(data, len(data), edition, ctypes.byref(handle)))
            self.errors = _errors_of(functools.partial(_library.ras_c_errors, ctypes.byref(handle), choice))
            _had_room(_library.ras_c_take_tree(ctypes.byref(handle), ctypes.byref(tree)))
        finally:
            _library.ras_c_free(ctypes.byref(handle))
        rows = (ctypes.c_uint32 * (4 * tree.row_count)).from_address(tree.rows)
        # A view of the rows keeps `rows`, and `rows` the library's memory. A view may outlive what runs at the exit.
        weakref.finalize(rows, _library.ras_c_free_tree, ctypes.byref(tree)).atexit = False
        self.rows = memoryview(rows).cast("B").cast("I").toreadonly()

    def _tell(self, data, edition, call):
        """Takes the rows that a call writes to its buffers, which is called again if they had too little room."""
        self.data, self.edition = data, edition
        counts, row_room, error_room, message_room = _raw.Counts(), 2 * len(data) + 64, _ERROR_ROOM, _MESSAGE_ROOM
        while True:
            # A page of it is made when the library writes to it.
            rows = mmap.mmap(-1, 16 * row_room, flags=mmap.MAP_PRIVATE | mmap.MAP_ANONYMOUS)
            errors = (_raw.ErrorRow * error_room)()
            messages = ctypes.create_string_buffer(message_room)
            at = ctypes.addressof(ctypes.c_char.from_buffer(rows))
            if _had_room(call(at, row_room, errors, error_room, messages, message_room, ctypes.byref(counts))):
                break
            row_room, error_room, message_room = counts.rows, counts.errors, max(counts.messages, 1)
        self.rows = memoryview(rows).cast("I")[: 4 * counts.rows].toreadonly()
        self.errors = _told_errors(counts, errors, messages)

    def __len__(self):
        return len(self.rows) // 4

    @property
    def text(self):
        """The text."""
        return self.data.decode()

    @property
    def root(self):
        """The root, a SOURCE_FILE; of `parse_expr`, an expression or an ERROR; and so on."""
        return Element(self, 0)

    def find(self, kind):
        """The nodes and tokens of a kind, in preorder. It looks at numbers alone until one is found."""
        return self.root.find(kind)

    @functools.cached_property
    def _lines(self):
        """Where each line starts."""
        starts, count = (ctypes.c_uint32 * (len(self.data) // 24 + 16))(), ctypes.c_uint32()
        while not _had_room(_library.ras_c_line_starts(self.data, len(self.data), starts, len(starts), ctypes.byref(count))):
            starts = (ctypes.c_uint32 * count.value)()
        return starts[: count.value]

    def _line(self, line):
        """A line with its line feed."""
        return self.data[self._lines[line] : (self._lines[line + 1] if line + 1 < len(self._lines) else len(self.data))]

    def line_col(self, offset, encoding="utf-8"):
        """The line and the column of an offset in bytes, both from 0. The column is in units of an encoding: in bytes for "utf-8", in what
        editors count for "utf-16", in characters for "utf-32". ValueError if the offset is not in the text, or is inside a character.

        The first call takes time linear in the text, and each one time linear in the line.

        >>> tree = parse("// \\U0001f980\\nfn f() {}")
        >>> tree.line_col(tree.root.child("FN").end), tree.line_col(7), tree.line_col(7, "utf-16")
        (LineCol(line=1, col=9), LineCol(line=0, col=7), LineCol(line=0, col=5))
        """
        if not 0 <= offset <= len(self.data):
            raise ValueError(f"{offset} is no offset of the text, which has {len(self.data)} bytes")
        line = bisect.bisect_right(self._lines, offset) - 1
        start = self._lines[line]
        return LineCol(line, _line_cols(self._line(line), start, [offset - start], encoding)[0].col)

    def line_cols(self, offsets, encoding="utf-8"):
        """The lines and columns of some offsets, as `line_col` gives each. It looks through the text once, which is sooner for many.

        >>> parse("// \\U0001f980\\nfn f() {}").line_cols([0, 7, 11], "utf-16")
        [LineCol(line=0, col=0), LineCol(line=0, col=5), LineCol(line=1, col=3)]
        """
        return _line_cols(self.data, 0, list(offsets), encoding)

    def offset(self, line, col, encoding="utf-8"):
        """The offset in bytes of a line and a column, as `line_col` gives them. A line feed is the last character of its line. ValueError if
        the text has no such line, the line no such column, or the column is inside a character.

        >>> tree = parse("// \\U0001f980\\nfn f() {}")
        >>> tree.offset(1, 3), tree.offset(0, 5, "utf-16")
        (11, 7)
        """
        if not 0 <= line < len(self._lines):
            raise ValueError(f"the text has no line {line}: it has {len(self._lines)}, counted from 0")
        return self._lines[line] + _offsets_of(self._line(line), line, [(0, col)], encoding)[0]

    def offsets(self, places, encoding="utf-8"):
        """The offsets of some places, each a line and a column, as `offset` gives each. It looks through the text once.

        >>> parse("// \\U0001f980\\nfn f() {}").offsets([(1, 3), (0, 5)], "utf-16")
        [11, 7]
        """
        return _offsets_of(self.data, 0, list(places), encoding)

    def edit(self, edits):
        """The tree of the text in which each range of bytes is replaced: `edits` are tuples of a start, an end and a text, in any order.
        The text is read as this tree's was, as a file or an expression, say. The tree itself stays. Inserts at one place keep their order. ValueError if two ranges overlap, or one is not in the text or does
        not start and end between characters; ParseError as for `parse`.

        >>> tree = parse("fn f() { a + b }")
        >>> tree.edit([(13, 14, "g()"), (3, 4, "h")]).text
        'fn h() { a + g() }'
        """
        return Tree.__new__(Tree)._read(self._entry, _edited(self.data, edits), self.edition, "all")

    def search(self, pattern, lines=False):
        """Where a pattern matches, in preorder: the outermost matches, and those inside what stands for placeholders. With `lines`,
        `pattern` has several, one a line; at one place the first that matches counts. RuleError if it is no pattern. The text is parsed
        again.

        >>> parse("fn f() { a == None; (b + 1) == None }").search("$a == None")
        [Match(rule=0, start=9, end=18), Match(rule=0, start=20, end=35)]
        """
        matches, count = (_raw.MatchRow * 64)(), ctypes.c_uint32()
        while not _by_rules(_library.ras_c_search, pattern, lines, self.data, self.edition, matches, len(matches), ctypes.byref(count)):
            matches = (_raw.MatchRow * count.value)()
        return [Match(it.rule, it.start, it.end) for it in matches[: count.value]]

    def rewrite(self, rule, lines=False):
        """The tree of the text in which each match of a rule is replaced, as `rewrite` does it. The tree itself stays.

        >>> parse("fn f() { add(1, 2) * 3 }").rewrite("add($a, $b) ==>> $a + $b").text
        'fn f() { (1 + 2) * 3 }'
        """
        return Tree(_rewritten(rule, self.data, self.edition, lines), self.edition)

    def needless_parens(self):
        """The needless pairs of parentheses, each a PAREN_EXPR or a PAREN_PAT, in preorder: those that `rust_tree parens --all --mixed`
        lists.

        All of them can be removed together, with a blank in place of a parenthesis whose neighbours would be joined, as in `return(a)`.
        The text is parsed again, usually a few times; at worst once for each pair that stays.

        >>> parse("fn f() { if let x = (a && b) {} g((a * b) + c) }").needless_parens()
        [PAREN_EXPR@34..41]
        """
        pairs, count = (_raw.Range * (len(self.data) // 64 + 16))(), ctypes.c_uint32()
        while not _had_room(_library.ras_c_parens(self.data, len(self.data), self.edition, pairs, len(pairs), ctypes.byref(count))):
            pairs = (_raw.Range * count.value)()
        wanted = {(it.start, it.end) for it in pairs[: count.value]}
        found = sorted([*self.find("PAREN_EXPR"), *self.find("PAREN_PAT")], key=lambda it: it.row)
        return [it for it in found if (it.start, it.end) in wanted]


class Live:
    """A text that is edited, and its parse, which stays with the library: one token gets another text or one block is
    parsed again if that is enough. Tree and errors are always those of a new parse of the text.

    >>> live = Live("fn f() { a + b }")
    >>> live.edit(9, 10, "(c * d)")
    >>> live.text
    'fn f() { (c * d) + b }'
    >>> [it.text for it in live.tree().needless_parens()]
    ['(c * d)']

    It stays on the thread that made it: `edit` and `tree` raise RuntimeError on another, and it is not copied or pickled. Its trees may go
    to others, and later edits leave them as they are.
    """

    def __init__(self, text, edition=2024):
        self.data, self.edition, self._handle = _bytes_of(text), _edition_of(edition), _raw.Handle()
        self._thread = threading.get_ident()
        edition = self.edition
        _had_room(_library.ras_c_parse(self.data, len(self.data), edition, ctypes.byref(self._handle)))
        weakref.finalize(self, _library.ras_c_free, ctypes.byref(self._handle))

    def _on_its_thread(self):
        if threading.get_ident() != self._thread:
            raise RuntimeError("a Live stays on the thread that made it")

    def _refuse_copy(self, *_):
        raise TypeError("a Live cannot be copied or pickled, since it owns a parse in the library; copy its text or its tree()")

    __copy__ = __deepcopy__ = __reduce_ex__ = __reduce__ = _refuse_copy

    def edit(self, start, end, insert):
        """Replaces the bytes from `start` to `end`. If it raises, the text and its parse stay as they were: ValueError if the range is not
        in the text, or does not start and end between characters; ParseError if the new text is too long, or memory ran out.
        """
        self._on_its_thread()
        data = _bytes_of(insert)
        if not 0 <= start <= end <= len(self.data):
            raise ValueError(f"{start}..{end} is no range of the text, which has {len(self.data)} bytes")
        status = _library.ras_c_edit(ctypes.byref(self._handle), self.edition, start, end, data, len(data))
        if status == _raw.NO_PLACE:
            raise ValueError(f"{start}..{end} does not start and end between characters")
        _had_room(status)
        self.data = self.data[:start] + data + self.data[end:]

    def edits(self, edits):
        """Replaces several ranges of bytes at once, of the text as it is: `edits` are tuples of a start, an end and a text, in any order.
        Inserts at one place keep their order. All are made or, if it raises, none: ValueError if two ranges overlap, or one is not in the
        text or does not start and end between characters; ParseError as for `edit`.

        >>> live = Live("fn f(a: u8) { a }")
        >>> live.edits([(14, 15, "b + 1"), (5, 6, "b")])
        >>> live.text
        'fn f(b: u8) { b + 1 }'
        """
        self._on_its_thread()
        edits = [(start, end, _bytes_of(text)) for start, end, text in edits]
        new = _edited(self.data, edits)
        rows, inserts = (_raw.EditRow * len(edits))(*((start, end, len(text)) for start, end, text in edits)), b"".join(it[2] for it in edits)
        status = _library.ras_c_edits(ctypes.byref(self._handle), self.edition, rows, len(rows), inserts, len(inserts))
        if status == _raw.NOT_CUT:
            raise ValueError("a text is not UTF-8")
        _had_room(status)
        self.data = new

    def changed(self, changes):
        """The text with some changes of its tree, made at once: tuples of an element of `tree()`, a place, and what is put there, which is
        a text, an element, or None. A place is "before" or "after" the element, "first" or "last" in the node, or "instead": in the place
        of the element, which None deletes. All elements are those of the tree as it is, so no change moves another, and what is put at one
        place stays in the order of the list. The text itself stays. ValueError if a change is beside the root, in a token, or of what
        another one replaces, or if an element is not of the tree.

        >>> live = Live("fn f() {}")
        >>> name = next(live.tree().find("NAME"))
        >>> live.changed([(name, "instead", "g"), (name.parent, "before", "/* a */ "), (name.parent, "after", name.parent)])
        '/* a */ fn g() {}fn f() {}'
        """
        self._on_its_thread()
        rows, texts, length = [], [], 0
        for element, place, content in changes:
            if place not in _PLACES:
                raise ValueError(f"a place is one of {', '.join(map(repr, _PLACES))}, not {place!r}")
            if content is None:
                told = _raw.CONTENT_NOTHING, 0, 0
            elif isinstance(content, Element):
                told = _raw.CONTENT_ROW, self._row(content), 0
            else:
                texts.append(_bytes_of(content))
                told = _raw.CONTENT_TEXT, length, length + len(texts[-1])
                length = told[2]
            rows.append((self._row(element), _PLACES[place], *told))
        given, count, text = (_raw.ChangeRow * len(rows))(*rows), ctypes.c_uint32(), b"".join(texts)
        out = ctypes.create_string_buffer(len(self.data) + length + 64)
        while True:
            status = _library.ras_c_change_tree(ctypes.byref(self._handle), given, len(given), text, length, out, len(out), ctypes.byref(count))
            if status in _NOT_CHANGED:
                raise ValueError(_NOT_CHANGED[status])
            if _had_room(status):
                return ctypes.string_at(out, count.value).decode()
            out = ctypes.create_string_buffer(count.value)

    def _row(self, element):
        """The row of an element of the tree as it is now."""
        if element.tree.data != self.data or element.tree._entry != _raw.ENTRY_FILE or element.tree.edition != self.edition:
            raise ValueError(f"{element!r} is not of the tree of the text")
        return element.row

    @property
    def text(self):
        """The text as it is now."""
        return self.data.decode()

    def tree(self, errors="all"):
        """The tree of the text as it is now, with the errors that `errors` chooses, as for `parse`."""
        self._on_its_thread()
        tree = Tree.__new__(Tree)
        tree._tell(self.data, self.edition, functools.partial(_library.ras_c_rows_as, ctypes.byref(self._handle), _choice(errors)))
        return tree


_PLACES = {"instead": _raw.PLACE_INSTEAD, "before": _raw.PLACE_BEFORE, "after": _raw.PLACE_AFTER, "first": _raw.PLACE_FIRST, "last": _raw.PLACE_LAST}

_NOT_CHANGED = {
    _raw.BESIDE_ROOT: "the root has no siblings, and is not replaced",
    _raw.INTO_TOKEN: "a token has no children",
    _raw.REPLACED: "an element is replaced already",
    _raw.IN_REPLACED: "an element is inside one that is replaced",
    _raw.CHANGED_INSIDE: "something inside an element is changed already, so that it cannot be replaced",
    _raw.NOT_CUT: "a text is not UTF-8",
}

_NO_EXPRESSION = {_raw.NO_PLACE: "no expression has its range", _raw.NO_EXPR: "the text is not one expression"}


class Element:
    """A node or a token of a tree. Two are equal if they are the same place of the same tree."""

    __slots__ = ("tree", "row")

    def __init__(self, tree, row):
        self.tree, self.row = tree, row

    def __eq__(self, other):
        return isinstance(other, Element) and self.tree is other.tree and self.row == other.row

    def __hash__(self):
        return hash((id(self.tree), self.row))

    def __repr__(self):
        told = f" {self.text!r}" if self.is_token else ""
        return f"{self.kind}@{self.start}..{self.end}{told}"

    @property
    def is_token(self):
        """Whether it is a token, and no node."""
        return self.tree.rows[4 * self.row] >= _TOKEN

    @property
    def kind(self):
        """The name of its kind, as "FN"."""
        return kind_name(self.tree.rows[4 * self.row] % _TOKEN)

    @property
    def start(self):
        """The byte where its text starts."""
        return self.tree.rows[4 * self.row + 1]

    @property
    def end(self):
        """The byte where its text ends."""
        after = self.subtree_end
        return self.tree.rows[4 * after + 1] if after < len(self.tree) else len(self.tree.data)

    @property
    def subtree_end(self):
        """The first row after its subtree."""
        return self.tree.rows[4 * self.row + 2]

    @property
    def text(self):
        """Its text."""
        return self.tree.data[self.start : self.end].decode()

    @property
    def value(self):
        """What a literal token stands for: a `str` of STRING and CHAR, `bytes` of BYTE_STRING and C_STRING, an `int` of BYTE and INT_NUMBER;
        None of any other element. EscapeError, a ValueError, if an escape or a character is wrong, and ValueError for a wrong integer.

        >>> [it.value for it in parse('const A: T = ("a\\\\n", b"\\\\xff", 0x10u8);').root.tokens() if it.value is not None]
        ['a\\n', b'\\xff', 16]
        """
        value_of = _VALUES.get(self.kind) if self.is_token else None
        return value_of and value_of(self.tree.data[self.start : self.end])

    def units(self):
        """The characters and escapes of a STRING, BYTE_STRING or C_STRING, each a `Unit` with its range in the text of the tree, its value or
        what is wrong with it; none of any other element. In a raw one each character is a unit. A backslash at the end of a line is none,
        but a warning about it is one.

        >>> string = next(parse('const A: T = b"a\\\\xff\\\\q";').find("BYTE_STRING"))
        >>> [(string.tree.text[it.start : it.end], getattr(it.value, "name", it.value)) for it in string.units()]
        [('a', 'a'), ('\\\\xff', 255), ('\\\\q', 'InvalidEscape')]
        """
        has_units = self.is_token and self.kind in ("STRING", "BYTE_STRING", "C_STRING")
        return _units_of(self.tree.data[self.start : self.end], self.start) if has_units else []

    def needs_parens(self, text):
        """Whether an expression with this text needs parentheses in place of this one, in a tree of a file, by rust-analyzer's test. The place
        is the innermost expression with its range. The test is exact for operands, and does not see that the place begins a statement,
        where `if a {} else {} + b` would be two; `rewrite` sees that. Both texts are parsed. ValueError if the text is not one expression,
        if nothing with its range is one, or if its tree was read as a part of a file; ParseError as for `parse`.

        >>> a = next(parse("fn f() { a * b }").find("PATH_EXPR"))
        >>> a.needs_parens("x + y"), a.needs_parens("x.y")
        (True, False)
        """
        data, own, answer = self.tree.data, _bytes_of(text), ctypes.c_uint32()
        if self.tree._entry != _raw.ENTRY_FILE:
            raise ValueError("its tree is not one of a file")
        status = _library.ras_c_needs_parens(data, len(data), self.tree.edition, self.start, self.end, own, len(own), ctypes.byref(answer))
        if status in _NO_EXPRESSION:
            raise ValueError(_NO_EXPRESSION[status])
        _had_room(status)
        return answer.value == 1

    @property
    def parent(self):
        """The node that it is a child of; None for the root."""
        return Element(self.tree, self.tree.rows[4 * self.row + 3]) if self.row else None

    def ancestors(self):
        """Its parent, the parent's parent, and so on up to the root."""
        above = self.parent
        while above:
            yield above
            above = above.parent

    def children(self):
        """Its children, nodes and tokens, in order."""
        row, after = self.row + 1, self.subtree_end
        while row < after:
            child = Element(self.tree, row)
            yield child
            row = child.subtree_end

    def child(self, kind):
        """The first child of a kind; None if there is none."""
        return next((it for it in self.children() if it.kind == kind), None)

    def descendants(self):
        """It and all nodes and tokens below it, in preorder."""
        return (Element(self.tree, row) for row in range(self.row, self.subtree_end))

    def find(self, kind):
        """It and the nodes and tokens below it that are of a kind, in preorder. It looks at numbers alone until one is found."""
        number = kind_of_name(kind)
        if number is None:
            raise ValueError(f"no kind has the name {kind}")
        for n, it in enumerate(self.tree.rows[4 * self.row : 4 * self.subtree_end : 4].tolist(), self.row):
            if it % _TOKEN == number:
                yield Element(self.tree, n)

    def walk(self):
        """It and all nodes and tokens below it, entered and left: pairs of True and an element where what is below it comes next, and of
        False and the element where all of that came. A token is entered and left at once.

        To pass over what is below an element that was just entered, send False to the generator; it gives the pair that leaves it.

        >>> steps = parse("fn f() {}").root.walk()
        >>> [(enters, it.kind) for enters, it in steps][:4]
        [(True, 'SOURCE_FILE'), (True, 'FN'), (True, 'FN_KW'), (False, 'FN_KW')]
        """
        opened, row, after = [], self.row, self.subtree_end
        while row < after or opened:
            if opened and opened[-1].subtree_end <= row:
                yield False, opened.pop()
                continue
            element = Element(self.tree, row)
            opened.append(element)
            row += 1
            if (yield True, element) is False:
                row = element.subtree_end
                yield False, opened.pop()

    def tokens(self):
        """Its tokens, in order; of a token itself."""
        return (it for it in self.descendants() if it.is_token)
