"""The files that a grammar's tables are."""
import collections
import json
import os
import re


from .checks import bits
from .language import ONE, Answered, Flag, GrammarError, Seen

VIEWS = ["View::One", "View::Two", "View::Three", "View::Word"]
# How many kinds of tokens syntax_kind names, which come first.
TOKEN_KINDS = 117
# The kinds that the sights ask for by name, where a grammar has words or shapes.
NUMBERED = [
    ("IDENT", "an identifier"),
    ("FLOAT_NUMBER", "a number with a dot or an exponent"),
    ("FLOAT_PAIR", "a number with digits after its dot"),
    ("FLOAT_DOT", "a number that ends with its dot"),
]
# So many messages make a function of their own.
MESSAGES_A_PART = 25
# What the tables name of libraries
LIBRARIES = [("grammar_machine", ["Level", "Op", "Part", "Test", "View"]), ("rust_kinds", ["kinds"]), ("syntax_kind", ["SyntaxKind"])]

# Where a grammar is: a crate, and the name of the text in the crate's folder; for the documentation what it is, and which kinds of the
# lexer have no number in it
Source = collections.namedtuple("Source", "crate text title unknown")
# The tables of a grammar: what lends each out, the type of its items, and the comment above that function
TABLES = [
    ("ops", "Op", "The operations of all rules."),
    ("sets", "u64", "The sets of kinds, as bits."),
    ("rows", "u16", "The rows of targets."),
    ("powers", "Option<Power>", "How the operators bind."),
    ("kinds", "SyntaxKind", "The kinds of tokens, by their numbers."),
    ("sealed", "SyntaxKind", "The kinds of the nodes that sealed calls make."),
]


def named_kind(name, library, others):
    if name in library:
        return f"SyntaxKind::{name}"
    if name in others:
        return f"kinds::{name}"
    raise GrammarError(f"{name} is no kind of syntax_kind and none of rust_kinds")


def op_text(op, table, kind_text):
    """An operation as the tables write it."""
    test = op.fields.get("test")
    if isinstance(test, Seen) and test.view == ONE and test.ahead == 0:
        if len(test.kinds) == 1:
            return f"Op::{op.name}Kind {{ kind: {min(test.kinds)}, target: {op.target} }}"
        return f"Op::{op.name}In {{ set: {table.set_number[test.kinds]}, target: {op.target} }}"
    if test is not None:
        if isinstance(test, Flag):
            what = f"Test::Flag {{ mask: {test.mask} }}"
        elif isinstance(test, Answered):
            what = f"Test::Answered {{ answer: {test.answer} }}"
        elif test.ahead < 0:
            what = f"Test::After {{ kind: {min(test.kinds)} }}"
        elif len(test.kinds) == 1:
            what = f"Test::Sees {{ view: {VIEWS[test.view]}, ahead: {test.ahead}, kind: {min(test.kinds)} }}"
        else:
            name = "In" if test.view == ONE else "WordIn"
            what = f"Test::{name} {{ ahead: {test.ahead}, set: {table.set_number[test.kinds]} }}"
        return f"Op::{op.name} {{ test: {what}, target: {op.target} }}"
    if op.name in ("CallWith", "Become"):
        levels = {"same": "Level::Same", "operand": "Level::Operand"}
        level = levels.get(op.level) or f"Level::Own {{ level: {op.level} }}"
        return f"Op::{op.name} {{ target: {op.target}, level: {level}, keep: {op.keep}, add: {op.add} }}"
    fields = []
    for name in ("row", "target", "view", "part", "last", "kind", "message", "answer", "keep", "add"):
        if name in op.fields and not (op.name in ("Call", "Enter") and name in ("keep", "add")):
            value = op.fields[name]
            if name == "kind" and isinstance(value, str):
                value = kind_text(value)
            elif name == "view":
                value = VIEWS[value]
            elif name == "part":
                value = f"Part::{value}"
            fields.append(f"{name}: {str(value).lower() if isinstance(value, bool) else value}")
    return f"Op::{op.name} {{ {', '.join(fields)} }}" if fields else f"Op::{op.name}"


def in_lines(items, width):
    """Items of a list after commas, as many a line as fit."""
    lines, line = [], "   "
    for item in items:
        if len(line) + len(item) + 2 > width:
            lines.append(line)
            line = "   "
        line += f" {item},"
    return "\n".join(lines + [line])


def named_in(items):
    """The imports of what items name of the libraries."""
    uses = []
    for library, names in LIBRARIES:
        names = [name for name in names if any(re.search(rf"\b{name}::", item) for item in items)]
        if names:
            uses.append(f"{library}::{names[0]}" if len(names) == 1 else f"{library}::{{{', '.join(names)}}}")
    return uses


def page(source, doc, items, ghosts=(), uses=None):
    """A file of Rattle, with what it imports and its items."""
    ghost = "".join(f"ghost use {use};\n" for use in ghosts)
    text = "".join(f"use {use};\n" for use in (named_in(items) if uses is None else uses))
    return f"//! {doc} Written by tools/grammar from {source.text}.\n{ghost}" + (f"\n{text}" if text else "") + "\n" + "\n\n".join(items) + "\n"


def codes(text):
    """A text's bytes as a definition writes them; a line's end is 10."""
    return " ++ (10 ∷ []) ++ ".join(f'codes "{line}"' for line in text.split("\n"))


def static(doc, name, kind, items, width=120):
    lines = f"\n{in_lines(items, width)}\n" if items else ""
    return f"/// {doc}\n#[rattlefmt::skip]\npub(crate) static {name}: [{kind}; {len(items)}] = [{lines}];"


def camel(name):
    return "".join(part.capitalize() for part in name.split("_"))


def arm(number, text):
    """An arm as rt fmt lays it out."""
    line = f"        {number} => {text},\n"
    return line if len(line) <= 101 else f"        {number} =>\n            {text},\n"


def message_choice(name, doc, choices):
    """A choice of texts by a number, as a function and as its definition."""
    arms = "".join(arm(number, json.dumps(text)) for number, text in choices)
    code = f"{doc}fn {name}(number: u16) -> &'static str\n    ensures {{ result.now ≡ {name}_of number }}\n{{\n    match number {{\n{arms}        _ => \"\",\n    }}\n}}"
    lines = "".join(f"    if n == {number} then {codes(text)} else (\n" for number, text in choices)
    return code, f"abbrev pub {name}_of : ℕ → List ℕ\n{name}_of n =\n{lines}    []" + ")" * len(choices)


def message_pages(source, messages):
    """The messages as a function and as its definition, in parts, since a proof about a long choice is expensive."""
    parts = [list(enumerate(messages))[at : at + MESSAGES_A_PART] for at in range(0, len(messages), MESSAGES_A_PART)]
    doc = "/// The message of the error with this number, or an empty text if there is none. A `%` stands for the name of the next token's kind.\npub "
    comment = "-- the message of an error by its number; no text where no error has it\n"
    limit, joins = ["nat_lt"] if len(parts) > 1 else [], ["◌∷◌", "◌++◌"] if any("\n" in text for text in messages) else []
    names, words = ["message_of"], ["ℕ", "◌==◌", *limit, "if◌then◌else◌", "List", "[]", *joins, "codes"]
    if len(parts) == 1:
        code, definition = message_choice("message", doc, parts[0])
        codes_of, definitions = [code], [comment + definition]
    else:
        codes_of, definitions = map(list, zip(*(message_choice(f"part_{which}", "", part) for which, part in enumerate(parts))))
        names, last = [f"part_{which}_of" for which in range(len(parts))] + names, len(parts) - 1
        limits = [part[-1][0] + 1 for part in parts[:-1]]
        choice = "".join(f"if number < {limit} {{\n        part_{which}(number)\n    }} else " for which, limit in enumerate(limits))
        codes_of.append(f"{doc}fn message(number: u16) -> &'static str\n    ensures {{ result.now ≡ message_of number }}\n{{\n    {choice}{{\n        part_{last}(number)\n    }}\n}}")
        choices = "".join(f"    if nat_lt n {limit} then part_{which}_of n else (\n" for which, limit in enumerate(limits))
        definitions.append(f"{comment}abbrev pub message_of : ℕ → List ℕ\nmessage_of n =\n{choices}    part_{last}_of n" + ")" * len(limits))
    ghosts = ["Rattle.std.specs.Prelude.{◌≡◌}", f"Rattle.{source.crate}.specs.Messages.{{{', '.join(names)}}}"]
    head = f"-- The parser's messages. Written by tools/grammar from {source.text}.\nuse Rattle.std.specs.Prelude.{{{', '.join(words)}}}\n\n"
    return page(source, "The parser's messages.", codes_of, ghosts, []), head + "\n\n".join(definitions) + "\n"


def joint_page(source, grammar):
    """The file that says what signs make together."""
    by_kind = {}
    for text, kind in grammar.joint.items():
        by_kind[tuple(grammar.texts[sign] for sign in text)] = kind
    signs = {grammar.texts[sign] for sign in "".join(grammar.joint)}
    first, last = min(signs), max(signs)
    joints = []
    for left in range(len(grammar.kinds)):
        parts = next((signs for signs, kind in by_kind.items() if kind == left), (left,))
        joints += [str(by_kind.get(parts + (right,), 0)) for right in range(first, last + 1)]
    return page(
        source,
        "What punctuation makes together.",
        [
            f"/// The number of the first sign that a joint token may have after its first.\npub(crate) const FIRST_SIGN: u8 = {first};",
            f"/// How many signs there are from that one on.\npub(crate) const SIGNS: usize = {last - first + 1};",
            static("The kind that a token makes with a sign after it, or 0: a row of signs for each kind.", "JOINTS", "u8", joints),
        ],
    )


def kind_page(source, grammar, library, others):
    """The file of the kinds and their numbers; tables that would be of zeros alone are left out."""
    names = {"NONE": "ERROR", "EOF": "ERROR", "FLOAT_PAIR": "FLOAT_NUMBER", "FLOAT_DOT": "FLOAT_NUMBER"}
    names = [named_kind(names.get(name, name), library, others) for name in grammar.kinds]
    singles, words = set(grammar.kinds[: grammar.width]), {grammar.kinds[kind] for kind in grammar.by_word.values()}

    def by_token(names):
        return [str(grammar.kinds.index(name)) if name in names else "0" for name in library[:TOKEN_KINDS]]

    def by_other(names):
        numbers = {int(number): grammar.kinds.index(name) for name, number in others.items() if name in names}
        return [str(numbers.get(n, 0)) for n in range(max(numbers, default=0) + 1)]

    items = [
        static("The kinds, by their numbers. A finer kind of a number with a dot is that of the number.", "KINDS", "SyntaxKind", names),
        static(f"The numbers of the lexer's kinds, by `to_raw`; 0 for {source.unknown}.", "TOKENS", "u8", by_token(singles)),
    ]
    if singles & set(others):
        items.append(static("The same of the kinds `OTHER(n)`, by n.", "OTHERS", "u8", by_other(singles)))
    if words:
        items.append(static("The numbers of the kinds of contextual keywords, by `to_raw`, else 0.", "WORD_TOKENS", "u8", by_token(words)))
        items.append(static("The same of the kinds `OTHER(n)`, by n.", "WORD_OTHERS", "u8", by_other(words)))
        items += [f"/// The number of {what}.\npub(crate) const {name}: u8 = {grammar.kinds.index(name)};" for name, what in NUMBERED if name in grammar.kinds]
    return page(source, "The kinds of tokens and their numbers.", items)


def braces(grammar):
    """The numbers of the kinds of braces, as the fields of tables and of their definition."""
    return [(name, grammar.texts.get(text, 0)) for name, text in (("opening", "{"), ("closing", "}"))]


def table_pages(source, grammar):
    """The file that lends the tables out, and the definition that names them."""
    name = f"{source.text.removesuffix('.grammar')}_tables"
    modules = [("pub(crate) ", "joint_table")] * bool(grammar.joint) + [("pub(crate) ", "kind_table")]
    modules += [("", module) for module in ("messages", "op_table", "power_table", "row_table", "rules", "sealed_table", "set_table")]
    lent = "".join(f"// {doc}\nfn {it}() -> &'static [{kind}]\n    ensures {{ result.now ≡ {it.upper()} }}\n{{\n    &{it.upper()}\n}}\n\n" for it, kind, doc in TABLES)
    code = (
        f"//! The tables, which `tools/grammar` writes from `{source.text}`, lent out.\n"
        "ghost use Rattle.std.specs.Prelude.{◌≡◌};\n"
        "ghost use Rattle.grammar_machine.specs.Running.{tables_of};\n"
        f"ghost use Rattle.{source.crate}.specs.Tables.{{{name}}};\n\n"
        + "".join(f"{visible}mod {module};\n" for visible, module in modules)
        + "\nuse grammar_machine::{Grammar, Op, Power};\nuse kind_table::KINDS;\npub use messages::message;\nuse op_table::OPS;\n"
        "use power_table::POWERS;\nuse row_table::ROWS;\npub use rules::{Rule, rule_of};\nuse sealed_table::SEALED;\nuse set_table::SETS;\nuse syntax_kind::SyntaxKind;\n\n"
        + lent
        + f"/// {source.title}, as the text `{source.text}` of this crate has it.\n///\n/// It costs nothing: the tables are part of the program.\n"
        f"#[tactic(auto, unfolding(crate::specs::Tables::{name}))]\n"
        f"pub fn grammar() -> Grammar<'static>\n    ensures {{ tables_of result ≡ {name} }}\n{{\n    Grammar {{\n"
        + "".join(f"        {it}: {it}(),\n" for it, _, _ in TABLES)
        + "".join(f"        {it}: {number},\n" for it, number in braces(grammar))
        + "    }\n}\n"
    )
    definition = (
        "-- The grammar's tables.\nuse Rattle.grammar_machine.specs.Running.{Tables}\n"
        + "".join(f"use Rattle.{source.crate}.specs.declared.tables.{it.removesuffix('s')}_table.TheConstants.{{{it.upper()}}}\n" for it, _, _ in TABLES)
        + f"\nunfoldable pub {name} : Tables\n{name} = record {{ {'; '.join([f'{it} = {it.upper()}' for it, _, _ in TABLES] + [f'{it} = {number}' for it, number in braces(grammar)])} }}\n"
    )
    return code, definition


def bodies(table, others):
    """Where the bodies of sealed rules begin, by the kinds of their nodes, and how many operations there are."""
    targets = {op.fields["kind"]: op.target for op in table.ops if op.name == "Sealed"}
    named = [f"body_of (Node node.{kind}) = {target}\n" for kind, target in sorted(targets.items()) if kind not in others]
    numbered = "0"
    for kind, target in sorted(targets.items(), reverse=True):
        if kind in others:
            numbered = f"if nat_eq n {others[kind]} then {target} else " + (f"({numbered})" if " " in numbered else numbered)
    return (
        "\n-- the number of the first operation of what is called for a node of the kind\nabbrev pub body_of : SyntaxKind → ℕ\n"
        + "".join(named) + f"body_of (OTHER n) = {numbered}\nbody_of _ = 0\n"
        f"\n-- how many operations there are\nabbrev pub op_count : ℕ\nop_count = {len(table.ops)}\n"
    )


def rule_page(source, grammar, table, others):
    """Where the rules begin."""
    words, uses, more = "ℕ", "", ""
    if grammar.sealed:
        kinds = "Rattle.syntax_kind.specs.declared.syntax_kind"
        words = "ℕ, nat_eq, if◌then◌else◌"
        uses = f"use {kinds}.SyntaxKind.{{SyntaxKind}}\nuse {kinds}.SyntaxKind.TheVariants.{{Node, OTHER}}\nuse {kinds}.node_kind.NodeKind.TheVariants as node\n"
        more = bodies(table, others)
    return (
        f"-- Where the rules begin. Written by tools/grammar from {source.text}.\n"
        f"use Rattle.std.specs.Prelude.{{{words}}}\n{uses}"
        f"use Rattle.{source.crate}.specs.declared.tables.rules.Rule.{{Rule}}\n"
        f"use Rattle.{source.crate}.specs.declared.tables.rules.Rule.TheVariants as rule\n\n"
        "-- the number of a rule's first operation\nabbrev pub first_op : Rule → ℕ\n"
        + "".join(f"first_op rule.{camel(name)} = {table.start_of[name]}\n" for name in grammar.entries) + more
    )


def pages(source, grammar, table, top):
    """The files that the tables of a grammar make, by their paths in the crate."""
    kinds = os.path.join(top, "crates", "syntax_kind", "src", "syntax_kind", "all.rt")
    other_kinds = os.path.join(top, "crates", "rust_kinds", "src", "kinds.rt")
    library = re.findall(r"^    SyntaxKind::(\w+),$", open(kinds, encoding="utf-8").read(), re.M)
    others = dict(re.findall(r"^pub const (\w+): SyntaxKind = SyntaxKind::OTHER\((\d+)\);$", open(other_kinds, encoding="utf-8").read(), re.M))
    def text_of(name):
        return named_kind(name, library, others)

    made = {}
    ops = [op_text(op, table, text_of) for op in table.ops]
    made["src/tables/op_table.rt"] = page(source, "The operations.", [static("The operations of all rules.", "OPS", "Op", ops, 240)])
    words = [bits(kind for kind in kinds if kind // 64 == word) >> 64 * word for kinds in table.sets for word in range(4)]
    made["src/tables/set_table.rt"] = page(source, "The sets of kinds.", [static("Four words of 64 bits for each set.", "SETS", "u64", [f"0x{word:x}" for word in words])])
    made["src/tables/row_table.rt"] = page(source, "The rows of targets.", [static(f"A target for each of the {grammar.width} kinds of single tokens, row after row.", "ROWS", "u16", list(map(str, table.rows)), 240)])
    powers = [grammar.powers.get(kind) for kind in range(len(grammar.kinds))]
    powers = [f"Some(Power {{ level: {p[0]}, right: {p[1]} }})" if p else "None" for p in powers]
    made["src/tables/power_table.rt"] = page(source, "How operators bind.", [static("The powers of operators, by the numbers of kinds.", "POWERS", "Option<Power>", powers)], uses=["grammar_machine::Power"])
    sealed = static("The kinds of the nodes that sealed calls make.", "SEALED", "SyntaxKind", [text_of(kind) for kind in grammar.sealed.values()])
    uses = sorted({*named_in([sealed]), "syntax_kind::SyntaxKind"})
    made["src/tables/sealed_table.rt"] = page(source, "The nodes of sealed calls.", [sealed], uses=uses)
    made["src/tables/kind_table.rt"] = kind_page(source, grammar, library, others)
    if grammar.joint:
        made["src/tables/joint_table.rt"] = joint_page(source, grammar)
    made["src/tables.rt"], made["specs/Tables.antt"] = table_pages(source, grammar)
    made["src/tables/messages.rt"], made["specs/Messages.antt"] = message_pages(source, grammar.messages)
    entries = "".join(f"    /// The rule `{name}`.\n    {camel(name)},\n" for name in grammar.entries)
    starts = "".join(f"        Rule::{camel(name)} => {table.start_of[name]},\n" for name in grammar.entries)
    made["src/tables/rules.rt"] = page(
        source,
        "The rules that a text can be read by.",
        [
            f"/// A rule that a text can be read by. The grammar's text says what each one reads.\n#[derive(Clone, Copy, Debug, PartialEq, Eq)]\npub enum Rule {{\n{entries}}}",
            f"/// The number of the rule's first operation.\npub fn rule_of(rule: Rule) -> usize\n    ensures {{ result ≡ first_op rule }}\n{{\n    match rule {{\n{starts}    }}\n}}",
        ],
        ["Rattle.std.specs.Prelude.{◌≡◌}", f"Rattle.{source.crate}.specs.Rules.{{first_op}}"],
    )
    made["specs/Rules.antt"] = rule_page(source, grammar, table, others)
    return made
