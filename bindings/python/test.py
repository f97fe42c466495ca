#!/usr/bin/env python3
"""Tests the module: what trees owe whatever the text is, and what some texts give."""
import ast
import copy
import doctest
import gc
import inspect
import os
import pickle
import random
import subprocess
import sys
import threading
import unittest
import weakref

import ras
import ras.ast as views

TEXTS = [
    "",
    "fn main() {}\n",
    "struct S { a: u8 }\nimpl S { fn f(&self) -> u8 { self.a + 1 } }\n",
    "fn broken( { let = ; } }} 'a \"",
    "fn ü() { \"ä\\q\"; 1.5e3; 'x' }",
]


# Without the pairs these texts have errors or mean something else.
STAY = [
    "if let x = (a && b) {}",
    "if (S {} == x) {}",
    "for x in (S {}.f()) {}",
    "match (a..{ 0 }) {}",
    "({ 0 } + 1);",
    "let x = (a && b) else { return };",
    "let x = &(S {}) else { return };",
    "while (S {}.x) {}",
    "for _ in (0..{3}) {}",
    "(m! {});",
    "(continue) as u8;",
    "match (|| S {}) { _ => {} }",
]


def raised(call, *given):
    """The class of what a call raises."""
    try:
        call(*given)
    except Exception as error:
        return type(error)
    return None


class Trees(unittest.TestCase):
    def test_each_byte_stands_in_one_token(self):
        for text in TEXTS:
            tree = ras.parse(text)
            self.assertEqual("".join(it.text for it in tree.root.tokens()), text)
            self.assertEqual(tree.root.kind, "SOURCE_FILE")
            self.assertEqual(tree.text, text)

    def test_children_have_their_parent(self):
        for text in TEXTS:
            tree = ras.parse(text)
            for node in tree.root.descendants():
                for child in node.children():
                    self.assertEqual(child.parent, node)
                    self.assertTrue(node.start <= child.start <= child.end <= node.end)
            self.assertIsNone(tree.root.parent)
            self.assertEqual(sum(1 for _ in tree.root.descendants()), len(tree))

    def test_walks_enter_and_leave(self):
        def wanted(element):
            yield True, element
            for child in element.children():
                yield from wanted(child)
            yield False, element

        for text in TEXTS:
            tree = ras.parse(text)
            for element in tree.root.descendants():
                self.assertEqual(list(element.walk()), list(wanted(element)))
        steps, kinds = ras.parse("fn f() { fn g() {} } struct S;").root.walk(), []
        for enters, it in steps:
            if enters and not it.is_token:
                kinds.append(it.kind)
                if it.kind == "FN":
                    self.assertEqual(steps.send(False), (False, it))
        self.assertEqual(kinds, ["SOURCE_FILE", "FN", "STRUCT", "NAME"])

    def test_kinds_are_found_below_an_element(self):
        for text in TEXTS:
            root = ras.parse(text).root
            for element in root.descendants():
                for kind in ("NAME", "WHITESPACE", element.kind):
                    self.assertEqual(list(element.find(kind)), [it for it in element.descendants() if it.kind == kind])
        with self.assertRaises(ValueError):
            list(root.find("NO_SUCH_KIND"))

    def test_expressions(self):
        tree = ras.parse_expr("a + b")
        self.assertEqual((tree.root.kind, tree.errors), ("BIN_EXPR", []))
        tree = ras.parse_expr(b"let a = b;")
        self.assertEqual((tree.root.kind, tree.text), ("ERROR", "let a = b;"))
        self.assertTrue(tree.errors)

    def test_parts_of_files(self):
        cases = [
            (ras.parse_type, "&'a [u8]", "REF_TYPE"),
            (ras.parse_type, "A B", "ERROR"),
            (ras.parse_type, "", "ERROR"),
            (ras.parse_pattern, "A | Some(b)", "OR_PAT"),
            (ras.parse_pattern, "a if b", "ERROR"),
            (ras.parse_statements, "let a = 1; a", "MACRO_STMTS"),
            (ras.parse_statements, "} let", "MACRO_STMTS"),
            (ras.parse_items, "use a; fn f() {}", "MACRO_ITEMS"),
            (ras.parse_items, "fn f(", "MACRO_ITEMS"),
            (ras.parse_meta_item, "derive(Debug)", "TOKEN_TREE_META"),
            (ras.parse_meta_item, "#[inline]", "ERROR"),
        ]
        for parse, text, kind in cases:
            tree = parse(text)
            self.assertEqual((tree.root.kind, tree.root.text), (kind, text))
            self.assertEqual((tree.root.start, tree.root.end), (0, len(text)))
        self.assertEqual([it.kind for it in ras.parse_type("A B").root.children()], ["PATH_TYPE", "WHITESPACE", "IDENT"])
        self.assertTrue(ras.parse_items("fn f(").errors)
        self.assertEqual(ras.parse_items("fn f(", errors="none").errors, [])

    def test_an_edited_part_is_read_as_the_part(self):
        self.assertEqual(ras.parse_type("Vec<u8>").edit([(4, 6, "&str")]).root.kind, "PATH_TYPE")
        self.assertEqual(ras.parse_expr("a + b").edit([(2, 3, "*")]).root.kind, "BIN_EXPR")
        self.assertEqual(ras.parse("fn f() {}").edit([(3, 4, "g")]).root.kind, "SOURCE_FILE")

    def test_errors_have_messages(self):
        tree = ras.parse("fn foo() { 1 + }")
        self.assertEqual(repr(tree.errors), "[14..14: expected expression]")
        many = ras.parse('"\\q"; ' * 3000)
        self.assertGreaterEqual(len(many.errors), 3000)
        self.assertTrue(all(it.message for it in many.errors))

    def test_errors_are_chosen(self):
        text = "fn foo() { 1 + } impl T for S { pub fn g() {} }"
        told = {it: [error.is_violation for error in ras.parse(text, errors=it).errors] for it in ("none", "parse", "violations", "all")}
        self.assertEqual(told, {"none": [], "parse": [False], "violations": [True], "all": [False, True]})
        live = ras.Live(text)
        self.assertEqual({it: [error.is_violation for error in live.tree(it).errors] for it in told}, told)
        self.assertEqual(ras.parse_expr("{ impl T for S { pub fn g() {} } }", errors="parse").errors, [])
        self.assertRaises(ValueError, ras.parse, text, errors="some")

    def test_words_are_known(self):
        self.assertEqual([ras.keyword(it) for it in ("fn", "abstract", "union", "f", "r#fn", "")], ["FN_KW", "ABSTRACT_KW", None, None, None, None])
        self.assertEqual((ras.keyword("dyn", 2015), ras.contextual_keyword("dyn", 2015), ras.contextual_keyword("dyn")), (None, "DYN_KW", None))
        self.assertEqual([ras.is_identifier(it) for it in ("union", "_", "\u00fc1", "fn", "1a", "a b", "")], [True, True, True, False, False, False, False])
        self.assertEqual([ras.is_raw_identifier(it) for it in ("fn", "self", "f")], [True, False, False])
        self.assertRaises(ValueError, ras.keyword, b"\xff")
        self.assertRaises(ValueError, ras.keyword, "fn", 2016)

    def test_a_text_is_searched_and_rewritten(self):
        tree = ras.parse("fn f() { g(1, 2) * 3; g(g(a, b), [/* c */ d]); }")
        self.assertEqual([(it.rule, tree.data[it.start : it.end]) for it in tree.search("g($a, $b)")], [(0, b"g(1, 2)"), (0, b"g(g(a, b), [/* c */ d])"), (0, b"g(a, b)")])
        self.assertEqual([it.rule for it in tree.search("$a * $b\n# calls\ng($a, $b)", lines=True)], [0, 1, 1, 1])
        self.assertEqual(len(ras.parse("fn f() { " + "g(1); " * 300 + "}").search("g($a)")), 300)
        self.assertEqual(tree.rewrite("g($a, $b) ==>> $a + $b").text, "fn f() { (1 + 2) * 3; a + b + [/* c */ d]; }")
        self.assertEqual(ras.rewrite("a ==>> b\nb ==>> a\n", "fn f() { a(b) }", lines=True), "fn f() { b(a) }")
        long = ras.rewrite("a ==>> aaaaaaaaaaaaaaaa", "fn f() { " + "a; " * 300 + "}")
        self.assertEqual(long.count("aaaaaaaaaaaaaaaa;"), 300)
        for rule, offset in (("g($a, $b)", 9), ("g($a) ==>> $b", 11)):
            with self.assertRaises(ras.RuleError) as found:
                tree.rewrite(rule)
            self.assertEqual(found.exception.offset, offset)
            self.assertTrue(found.exception.message)
        self.assertRaises(ras.RuleError, tree.search, "a ==>> b")
        self.assertRaisesRegex(ras.RewriteError, "comment", tree.rewrite, "g($a, $b) ==>> $a")
        self.assertRaisesRegex(ras.RewriteError, "template", tree.rewrite, "g($a, $b)", lines=True)
        self.assertRaises(TypeError, tree.search, 5)

    def test_needless_pairs_are_found(self):
        tree = ras.parse("fn f() { (a * b) + c; (a + b) * c; g((x)) }")
        self.assertEqual([it.text for it in tree.needless_parens()], ["(a * b)", "(x)"])
        tree = ras.parse("fn f((a): u8) { let (b) = (c); let (A | B) = d; }")
        self.assertEqual([it.text for it in tree.needless_parens()], ["(a)", "(b)", "(c)"])

    def test_literals_have_values(self):
        def value(text):
            tree = ras.parse(f"const A: T = {text};")
            return next(it.value for it in tree.root.tokens() if it.text == text)

        self.assertEqual(value('"a\\n\\u{e9}"'), "a\n\u00e9")
        self.assertEqual((value('r#"\\n"#'), value('""')), ("\\n", ""))
        self.assertEqual((value('b"\\xff\\0"'), value('c"\u00e9\\xff"')), (b"\xff\0", b"\xc3\xa9\xff"))
        self.assertEqual((value("'\\u{1F600}'"), value("b'\\xfe'")), ("\U0001f600", 254))
        self.assertEqual((value("0x1_0000_0000_0000_0002u128"), value(str(2**128 - 1))), (2**64 + 2, 2**128 - 1))
        self.assertIsNone(value("A"))
        self.assertIsNone(ras.parse("fn f() {}").root.value)
        for text, name in (('"\\q"', "InvalidEscape"), ('b"\u00e9"', "NonAsciiCharInByte"), ('c"\\0"', "NulInCStr"), ("'ab'", "MoreThanOneChar"), ("b''", "ZeroChars")):
            with self.assertRaises(ras.EscapeError) as found:
                value(text)
            self.assertEqual(found.exception.name, name)
        for text in ("0b_", "0b12", str(2**128)):
            self.assertRaises(ValueError, value, text)

    def test_strings_have_units(self):
        for prefix, kind, unit in (("", "STRING", "\u00e9"), ("b", "BYTE_STRING", "e"), ("c", "C_STRING", "\u00e9")):
            string = next(ras.parse(f'const \u00c0: T = {prefix}"a{unit}\\n";').find(kind))
            texts = [string.tree.data[it.start : it.end].decode() for it in string.units()]
            self.assertEqual((texts, [it.value for it in string.units()]), (["a", unit, "\\n"], ["a", unit, "\n"]))
            self.assertEqual(string.units()[0].start, string.start + len(prefix) + 1)
            raw = next(ras.parse(f'const A: T = {prefix}r"\\n";').find(kind))
            self.assertEqual([it.value for it in raw.units()], ["\\", "n"])
        units = next(ras.parse('const A: T = c"\\xff\\q\\\n\n";').find("C_STRING")).units()
        self.assertEqual(units[0].value, 255)
        self.assertEqual([it.value.name for it in units[1:]], ["InvalidEscape", "MultipleSkippedLinesWarning"])
        self.assertEqual([it.units() for it in ras.parse("const A: T = 'a';").root.descendants() if it.units()], [])

    def test_a_tree_is_edited(self):
        tree = ras.parse("fn f() { \u00e9 + b }")
        self.assertEqual(tree.edit([(14, 15, "c"), (3, 4, b"g"), (3, 3, "h")]).text, "fn hg() { \u00e9 + c }")
        self.assertEqual((tree.edit([]).text, tree.edit([]).edition), (tree.text, 2024))
        for wrong in ([(0, 3, ""), (2, 4, "")], [(5, 99, "")], [(10, 11, "")], [(4, 3, "")], [(-1, 0, "")], [(0, 0, b"\xff")]):
            self.assertRaises(ValueError, tree.edit, wrong)
        self.assertRaises(TypeError, tree.edit, [(0, 0, 5)])

    def test_views_have_parts(self):
        tree = ras.parse("pub fn f(a: u8) -> u8 { a + 1 } struct S; fn (")
        one, other = views.Fn.within(tree.root)
        self.assertEqual((one.name.text, one.visibility.text, one.ret_type.ty.text, one.fn_token.text), ("f", "pub", "u8", "fn"))
        self.assertEqual((other.name, other.body, other.async_token), (None, None, None))
        self.assertEqual([type(it) for it in views.SourceFile.cast(tree.root).items], [views.Fn, views.Struct, views.Fn])
        self.assertEqual([it.name.text for it in views.HasName.within(tree.root) if it.name], ["f", "a", "S"])
        self.assertIsInstance(one, views.Item)
        self.assertIsNone(views.Expr.cast(one.syntax))
        self.assertIsNone(views.Fn.cast(None))
        self.assertEqual((one, {one}), (views.Fn.cast(one.syntax), {views.Item.cast(one.syntax)}))
        self.assertNotEqual(one, other)
        self.assertEqual([views.String.cast(it).text for it in ras.parse('const A: T = "a";').root.tokens() if views.String.cast(it)], ['"a"'])

    def test_needed_pairs_stay(self):
        for text in STAY:
            self.assertEqual(ras.parse(f"fn f() {{ {text} }}").needless_parens(), [], text)

    def test_pairs_are_needed_in_places(self):
        tree = ras.parse("fn f() { a * b + c; if d {} (e); }")
        needs = {it.text: it for it in [*tree.find("PATH_EXPR"), *tree.find("BIN_EXPR")]}
        for place, text, is_needed in [
            ("a", "x + y", True), ("a", "x * y", False), ("b", "x * y", True), ("a * b", "x + y", False), ("c", "x + y", True),
            ("d", "S {}", True), ("d", b"s.a", False), ("e", "x = y", False),
        ]:
            self.assertIs(needs[place].needs_parens(text), is_needed, (place, text))
        for text in ("", "x y", "let x = 1;"):
            self.assertRaises(ValueError, needs["a"].needs_parens, text)
        self.assertRaises(ValueError, tree.root.needs_parens, "x")
        self.assertRaises(ValueError, ras.parse_expr("a").root.needs_parens, "x")
        self.assertRaises(TypeError, needs["a"].needs_parens, 5)

    def test_offsets_have_lines_and_columns(self):
        text = "ab\n\U0001f980c\r\n\nü"
        tree = ras.parse(text)
        for encoding, width in (("utf-8", lambda it: len(it.encode())), ("utf-16", lambda it: len(it.encode("utf-16-le")) // 2), ("utf-32", len)):
            for n in range(len(text) + 1):
                before, offset = text[:n], len(text[:n].encode())
                place = tree.line_col(offset, encoding)
                self.assertEqual(place, (before.count("\n"), width(before[before.rfind("\n") + 1 :])))
                self.assertEqual(tree.offset(*place, encoding), offset)
            offsets = [len(text[:n].encode()) for n in range(len(text) + 1)]
            places = tree.line_cols(offsets[::-1], encoding)
            self.assertEqual(places, [tree.line_col(it, encoding) for it in offsets[::-1]])
            self.assertEqual(tree.offsets(iter(places), encoding), offsets[::-1])
        self.assertEqual((ras.parse("").line_col(0), tree.line_cols([]), tree.offsets([])), ((0, 0), [], []))
        self.assertRaises(ValueError, tree.line_cols, [0, 4])
        self.assertRaises(ValueError, tree.line_cols, [0, 1 << 32])
        self.assertRaises(ValueError, tree.offsets, [(0, 0), (1 << 32, 0)])
        self.assertRaises(ValueError, tree.offsets, [(0, 0), (4, 0)])
        lines = ras.parse("a\n" * 1000)
        self.assertEqual((lines.line_col(1999), lines.line_col(2000), lines.offset(1000, 0)), ((999, 1), (1000, 0), 2000))
        for refused in (-1, len(tree.data) + 1, 4, 12):
            self.assertRaises(ValueError, tree.line_col, refused)
        for line, col, encoding in ((-1, 0, "utf-8"), (4, 0, "utf-8"), (0, 3, "utf-8"), (1, 1, "utf-8"), (1, 1, "utf-16"), (1, 5, "utf-16"), (0, 0, "latin-1")):
            self.assertRaises(ValueError, tree.offset, line, col, encoding)

    def test_a_tree_goes_when_nothing_holds_it(self):
        tree = ras.parse("fn f() {}")
        rows, node, copied = tree.rows, weakref.ref(tree), copy.copy(tree)
        del tree
        gc.collect()
        self.assertIsNone(node())
        self.assertEqual([it.kind for it in copied.root.children()], ["FN"])
        del copied
        gc.collect()
        # A view of the rows keeps their memory, and nothing writes to it.
        self.assertEqual(rows[: 4].tolist()[1:], [0, len(rows) // 4, 0])
        self.assertRaises(TypeError, rows.__setitem__, 0, 1)

    def test_texts_are_str_or_bytes(self):
        live = ras.Live("")
        for wrong in (5, None, ["fn f() {}"], bytearray(b"a"), memoryview(b"a"), object()):
            self.assertRaises(TypeError, ras.parse, wrong)
            self.assertRaises(TypeError, ras.Live, wrong)
            self.assertRaises(TypeError, live.edit, 0, 0, wrong)
        self.assertEqual((ras.parse("a").data, ras.parse(b"a").data), (b"a", b"a"))

    def test_a_live_stays_on_its_thread(self):
        live, found = ras.Live("fn f() {}"), []
        other = threading.Thread(target=lambda: found.extend([raised(live.edit, 3, 4, "g"), raised(live.tree)]))
        other.start()
        other.join()
        self.assertEqual((found, live.text), ([RuntimeError, RuntimeError], "fn f() {}"))

    def test_a_live_is_not_copied(self):
        live = ras.Live("fn f() {}")
        for copied in (copy.copy, copy.deepcopy, pickle.dumps):
            self.assertRaises(TypeError, copied, live)
        self.assertEqual(live.tree().text, "fn f() {}")

    def test_a_handle_without_a_parse_is_an_error(self):
        live = ras.Live("fn f() {}")
        live._handle = type(live._handle)()
        self.assertRaises(ras.ParseError, live.tree)
        self.assertRaises(ras.ParseError, live.edit, 0, 0, "a")

    def test_another_library_is_refused(self):
        path = os.path.join(os.path.dirname(ras.__file__), "_raw.py")
        code = f"""
import importlib.util, sys
spec = importlib.util.spec_from_file_location("ras._raw", {path!r})
sys.modules["ras._raw"] = raw = importlib.util.module_from_spec(spec)
spec.loader.exec_module(raw)
raw.VERSION ^= 1
import ras
"""
        done = subprocess.run([sys.executable, "-c", code], capture_output=True, text=True)
        self.assertNotEqual(done.returncode, 0)
        for number in (ras._raw.VERSION, ras._raw.VERSION ^ 1):
            self.assertIn(f"{number:08x}", done.stderr)

    def test_each_edit_gives_the_tree_of_the_edited_text(self):
        text = "use a::{b, c};\nfn f(x: u8) -> u8 {\n    let y = x + 1;\n    g(y, \"s\");\n    y\n}\nmod m { fn h() { i(); } }\n"
        inserts = {"IDENT": ("x", "größe"), "INT_NUMBER": ("7", "0x1f"), "STRING": ('""', '"{}"'), "LET_STMT": ("let a = |b| { c };", "f();")}
        inserts["EXPR_STMT"] = ("let a = { b };", "loop { break; }")
        numbers, live = random.Random(1), ras.Live(text)
        for _ in range(200):
            kind = numbers.choice(sorted(inserts))
            places = list(live.tree().find(kind))
            if not places:
                continue
            place, insert = numbers.choice(places), numbers.choice(inserts[kind])
            data = live.data[: place.start] + insert.encode() + live.data[place.end :]
            live.edit(place.start, place.end, insert)
            self.assertEqual(live.data, data)
            whole, tree = ras.parse(data), live.tree()
            self.assertEqual((tree.data, tree.rows.tolist()), (data, whole.rows.tolist()))
            self.assertEqual((repr(tree.errors), tree.errors), (repr(whole.errors), []))

    def test_each_edit_that_breaks_a_text_gives_its_tree(self):
        text = "fn f() { a; { b } }\nmod m { struct S { c: u8 } /* d */ }\n"
        inserts = ("", "{", "}", "(", '"', "/*", "*/", "'", "\n", "{ x }", " + ", "größe")
        numbers, live = random.Random(2), ras.Live(text)
        for n in range(600):
            if n % 12 == 0:
                live.edit(0, len(live.data), text)
            places = [it for it in range(len(live.data) + 1) if it == len(live.data) or live.data[it] & 0xC0 != 0x80]
            start = numbers.randrange(len(places))
            end = min(start + numbers.choice((0, 0, 1, 3)), len(places) - 1)
            live.edit(places[start], places[end], numbers.choice(inserts))
            whole, tree = ras.parse(live.data), live.tree()
            self.assertEqual((tree.rows.tolist(), repr(tree.errors)), (whole.rows.tolist(), repr(whole.errors)))

    def test_several_edits_give_the_tree_of_the_edited_text(self):
        text = "fn f() { a; { b } }\nmod m { struct S { c: u8 } /* d */ }\n"
        inserts = ("", "", "g", "7", "(", "{ x }", " + ", "größe")
        numbers, live = random.Random(3), ras.Live(text)
        for n in range(300):
            if n % 6 == 0:
                live.edit(0, len(live.data), text)
            places = [it for it in range(len(live.data) + 1) if it == len(live.data) or live.data[it] & 0xC0 != 0x80]
            bounds = sorted(numbers.choice(places) for _ in range(2 * numbers.choice((1, 2, 3, 10))))
            # The ranges are apart, or touch; some insert at one place.
            edits = [(start, end, numbers.choice(inserts)) for start, end in zip(bounds[::2], bounds[1::2])]
            edits += [(bounds[0], bounds[0], it) for it in numbers.choice(([], ["a", "b"]))]
            numbers.shuffle(edits)
            tree = live.tree().edit(edits)
            live.edits(iter(edits))
            self.assertEqual((live.text, live.tree().rows.tolist()), (tree.text, tree.rows.tolist()))
            self.assertEqual(repr(live.tree().errors), repr(tree.errors))
        live = ras.Live("fn ü() {}")
        for refused in ([(0, 2, ""), (1, 3, "")], [(5, 4, "")], [(4, 5, "")], [(0, 99, "")], [(0, 0, b"\xc3"), (0, 0, b"\xa9")], [(0, 0, b"\xff")]):
            self.assertRaises(ValueError, live.edits, refused)
        live.edits([])
        self.assertEqual((live.text, live.tree().text), ("fn ü() {}", "fn ü() {}"))

    def test_a_tree_is_changed(self):
        live = ras.Live("fn ü() { a }")
        tree = live.tree()
        item, name, path, brace = (next(tree.find(it)) for it in ("FN", "NAME", "PATH_EXPR", "L_CURLY"))
        new = live.changed([(name, "instead", "g"), (item, "before", "// ü\n"), (brace, "after", " b;"), (path, "first", "("), (path, "last", b")"), (item, "after", item)])
        self.assertEqual(new, "// ü\nfn g() { b; (a) }fn ü() { a }")
        self.assertEqual((live.changed([]), live.changed(iter([(path, "instead", None)]))), (live.text, "fn ü() {  }"))
        self.assertEqual(live.changed([(item, "after", it) for it in ("b", item, "x" * 1000)]), live.text + "b" + live.text + "x" * 1000)
        self.assertEqual(live.changed([(item, "before", item)] * 20), live.text * 21)
        refused = [
            [(tree.root, "before", "x")], [(brace, "first", "x")], [(item, "instead", None), (name, "after", "x")], [(name, "after", "x"), (item, "instead", "y")],
            [(item, "instead", "x"), (item, "last", "y")], [(item, "behind", "x")], [(item, "after", b"\xff")], [(item, "before", b"\xc3"), (item, "after", b"\xbc")],
            [(ras.parse("fn f() {}").root, "first", "x")], [(ras.parse_expr("fn ü() { a }").root, "first", "x")], [(item, "after", ras.parse("a").root)],
        ]
        for changes in refused:
            self.assertRaises(ValueError, live.changed, changes)
        self.assertRaises(TypeError, live.changed, [(item, "after", 5)])
        live.edit(3, 5, "v")
        self.assertRaises(ValueError, live.changed, [(item, "instead", None)])
        self.assertEqual(live.changed([(live.tree().root, "first", "x")]), "xfn v() { a }")

    def test_a_refused_edit_leaves_all_as_it_was(self):
        live = ras.Live("fn ü() {}")
        rows = live.tree().rows.tolist()
        for start, end in ((4, 5), (3, 4), (0, 11), (5, 4), (-1, 0), (11, 11)):
            self.assertRaises(ValueError, live.edit, start, end, "x")
        self.assertRaises(ValueError, live.edit, 0, 0, b"\xff")
        self.assertEqual((live.text, live.tree().rows.tolist()), ("fn ü() {}", rows))
        tree = live.tree()
        live.edit(0, 10, "")
        self.assertEqual((live.text, len(live.tree()), tree.text), ("", 1, "fn ü() {}"))

    def test_what_is_no_text_is_not_kept(self):
        self.assertRaises(ValueError, ras.Live, b"\xff")
        self.assertRaises(ValueError, ras.Live, "", 2016)

    def test_kinds_have_names(self):
        for name in ("FN", "WHITESPACE", "VARIANT_LIST"):
            self.assertEqual(ras.kind_name(ras.kind_of_name(name)), name)
        self.assertIsNone(ras.kind_name(300))
        self.assertIsNone(ras.kind_of_name("NO_SUCH_KIND"))

    def test_what_is_no_text_is_refused(self):
        self.assertRaises(ValueError, ras.parse, b"\xff")
        for edition in (2016, 2024 + 2**32, "2024", None):
            self.assertRaises(ValueError, ras.parse, "", edition)


def load_tests(loader, tests, pattern):
    tests.addTests(doctest.DocTestSuite(ras))
    tests.addTests(doctest.DocTestSuite(views))
    return tests


class Types(unittest.TestCase):
    def test_each_name_has_its_types(self):
        """The file of types is installed, and has the names and parameters of the module."""
        folder = os.path.dirname(ras.__file__)
        self.assertTrue(os.path.exists(os.path.join(folder, "py.typed")))
        with open(os.path.join(folder, "__init__.pyi"), encoding="utf-8") as file:
            told = ast.parse(file.read())
        functions = {it.name: [arg.arg for arg in it.args.args] for it in told.body if isinstance(it, ast.FunctionDef)}
        for name, parameters in functions.items():
            self.assertEqual(list(inspect.signature(inspect.unwrap(getattr(ras, name))).parameters), parameters, name)
        classes = {it.name: it for it in told.body if isinstance(it, ast.ClassDef)}
        self.assertEqual({*functions, *classes}, set(ras.__all__))
        for name, of in classes.items():
            heads = {it.name: it.args for it in of.body if isinstance(it, ast.FunctionDef)}
            members = {name: [arg.arg for arg in [*it.args, *filter(None, [it.vararg])]] for name, it in heads.items()}
            annotated = {it.target.id for it in of.body if isinstance(it, ast.AnnAssign)}
            known = vars(getattr(ras, name))
            for member, parameters in members.items():
                if not isinstance(known[member], property):
                    self.assertEqual(list(inspect.signature(known[member]).parameters), parameters, f"{name}.{member}")
            public = {it for it in known if not it.startswith("_")} - {"tree", "row"} if name == "Element" else {it for it in known if not it.startswith("_")}
            self.assertLessEqual(public, {*members, *annotated}, name)


if __name__ == "__main__":
    unittest.main()
