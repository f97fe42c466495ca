"""What the scripts that write the typed views share: how a lookup is written, its documentation, and lists of names."""
import itertools
import re
import textwrap


MADE = "Made by `tools/views` from `views.txt`."
# How many characters the formatter fills a line with, and the arguments of a call.
WIDTH, GIVEN = 100, 60
# Names of modules and of definitions, where those of the enums are words of the language.
MODULES = {"Type": "ty", "Macro": "macros"}
WORDS = {"Type": "ty"}
# Of an enum with more variants than these the derived impls take minutes to prove, so they go by its node.
DERIVED = 8
# How many calls a function of the program makes, and how many of one view: more take long to prove.
CALLS, CALLS_OF_ONE = 8, 4
# What the parts of a name mean in a sentence.
MEANINGS = {
    "abi": "ABI", "arg": "argument", "args": "arguments", "assoc": "associated", "attr": "attribute", "expr": "expression", "for": "`for`",
    "ident": "identifier", "meta": "meta item", "param": "parameter", "pat": "pattern", "pred": "predicate", "ref": "reference",
    "ret": "return", "stmt": "statement", "where": "`where`",
}  # fmt: skip


def comment(mark, text):
    """A comment, in as many lines as it takes."""
    width = WIDTH - len(mark) - 1
    return [f"{mark} {line}" for line in textwrap.wrap(text, width, break_long_words=False, break_on_hyphens=False)]


def file_head(mark, text):
    """The comment at the head of a made file."""
    return comment(mark, f"{text} {MADE}")


def is_made(text):
    """Whether the comment at the head of a file says that the table made it."""
    lines = itertools.takewhile(lambda line: line.startswith(("//", "--")), text.split("\n"))
    return MADE in " ".join(line.lstrip("/!-").strip() for line in lines)


def snake(name):
    return re.sub(r"(?<!^)([A-Z])", r"_\1", name).lower()


def word(name):
    return WORDS.get(name, snake(name))


def module(name):
    return MODULES.get(name, snake(name))


def in_specs(name):
    return f"«{name}»" if name == "Type" else name


def meaning(name):
    """What a view is called in a sentence, without an article: `GenericParamList` is a list of generic parameters."""
    words = [MEANINGS.get(it, it) for it in snake(name).split("_")]
    return f"list of {' '.join(words[:-1])}s" if words[-1] == "list" else " ".join(words)


def article(said):
    return "an" if said[0] in "aeiouAEIOU" and not said.lower().startswith(("use", "union")) else "a"


def sentence(lookup):
    """The documentation of a lookup."""
    if lookup.doc:
        return lookup.doc
    if lookup.text:
        return f"The first token `{lookup.text}` among the children, if there is one."
    if lookup.way == "token":
        return f"The first {' '.join(MEANINGS.get(it, it) for it in lookup.of.lower().split('_'))} token among the children, if there is one."
    if lookup.way == "all":
        return f"The children that are {meaning(lookup.of)}s, in order."
    said = meaning(lookup.of)
    return f"The {lookup.way} child that is {article(said)} {said}, if there is one."


def listed(head, names, indent=""):
    """`head {a, b};` as the formatter lays it out; of more names than it fills lines with, it is told to leave them."""
    whole = f"{indent}{head}{'{' + ', '.join(names) + '}' if len(names) > 1 else names[0]};"
    if len(whole) <= WIDTH:
        return [whole]
    lines = [f"{indent}{head}{{"]
    row = ""
    for name in names:
        if row and len(f"{indent}    {row} {name},") >= WIDTH:
            lines.append(f"{indent}    {row}")
            row = ""
        row += (" " if row else "") + name + ","
    return [*lines, f"{indent}    {row}", f"{indent}}};"]


def of_ast(names):
    """What a file imports of the views of `ra_ap_syntax`."""
    return ["use ra_ap_syntax::ast;"] if names == ["self"] else listed("use ra_ap_syntax::ast::", by_name(names)) if names else []


def by_name(names):
    """As the formatter sorts names: `self` first, and those that begin with a small letter last."""
    return sorted(names, key=lambda it: (it != "self", it[0].islower(), it))


def quoted(text):
    """A piece of Rust as documentation shows it."""
    return f"`{text.replace(chr(10), chr(92) + 'n')}`"


def part_of(lookup):
    """The part of its example that a lookup returns, in words."""
    *parts, last = [quoted(it) for it in lookup.parts]
    return f"{', '.join(parts)} and {last}" if parts else last


def shown(lookup):
    """The part of its example that a lookup returns, on a second line where it is too long."""
    if not lookup.example:
        return []
    whole = f"    /// Example: {part_of(lookup)} of {quoted(lookup.example.text)}."
    return [whole] if len(whole) <= WIDTH else [f"    /// Example: {part_of(lookup)} of", f"    /// {quoted(lookup.example.text)}."]


def view(name):
    return f"ast::{name}"


def kinds_of(name):
    """The word for the kinds of a view in clauses: `expr_kinds`."""
    return f"{snake(name)}_kinds"


def clause_of(lookup, place):
    """The clause of a lookup, and the words of its view that it cites."""
    of = lookup.of
    if lookup.way == "first":
        return f"IsFirst{of} {place} result", [f"IsFirst{of}"]
    if lookup.way == "second":
        return f"Is{of} (second_typed_child {kinds_of(of)} {place}) result", [f"Is{of}", kinds_of(of)]
    if lookup.way == "all":
        return f"result ≡ typed_children {kinds_of(of)} {place}", [kinds_of(of)]
    return f"result ≡ token_child {of if lookup.is_other else f'SyntaxKind.{of}'} {place}", []


def call(lookup, head, place, node, view=view):
    """A lookup as a function."""
    of = view(lookup.of)
    if lookup.way == "token":
        quote = f"'{lookup.text}'" if lookup.text and lookup.text in "(){}[]$" else lookup.text
        kind = lookup.of if lookup.is_other else f"SyntaxKind::{lookup.of}"
        answer, found = "Option<SyntaxToken>", f"support::token(%s, {f'T![{quote}]' if quote and not lookup.is_other else kind})"
    elif lookup.way == "all":
        answer, found = f"AstChildren<{of}>", "support::children(%s)"
    else:
        answer, found = f"Option<{of}>", f"support::{'child' if lookup.way == 'first' else 'second_child'}(%s)"
    return [
        f"    /// {sentence(lookup)}",
        *shown(lookup),
        f"    {head} {lookup.name}(&self) -> {answer}",
        f"        ensures {{ {clause_of(lookup, place)[0]} }}",
        "    {",
        f"        {found % node}",
        "    }",
    ]


def cited(lookups, place, spec_of):
    """What a file with these lookups imports for their clauses. `spec_of` gives the spec that has the words of a view."""
    clauses = [clause_of(it, place) for it in lookups]
    said = "\n".join(clause for clause, _ in clauses)
    out = ["ghost use Rattle.std.specs.Prelude.{◌≡◌};"] if "result ≡" in said else []
    files = {"Lookups": ["second_typed_child"], "Nodes": ["token_child", "typed_children"]}
    for file, words in files.items():
        found = [it for it in words if f"{it} " in said.replace("(", "")]
        out += [f"ghost use Rattle.ras_node.specs.{file}.{{{', '.join(found)}}};"] if found else []
    specs = {}
    for lookup, (_, words) in zip(lookups, clauses):
        specs.setdefault(spec_of(lookup.of) if words else None, set()).update(words)
    specs.pop(None, None)
    return out + [f"ghost use {spec}.{{{', '.join(sorted(specs[spec]))}}};" for spec in sorted(specs)]


def words_of(name, type_of, kinds, node, firsts):
    """The definitions that clauses cite of a view. `firsts` are the views that a lookup returns the first child of."""
    out = ["", f"abbrev pub {kinds_of(name)} : SyntaxKind → Bool", f"{kinds_of(name)} {kinds}"]
    out += ["", f"-- r is the view of the node at c as {article(name)} `{name}`; there is none if there is no node"]
    out += [f"abbrev pub Is{name} : Option Cursor → Option {type_of} → Type 0", f"Is{name} c r = option_map {node} r ≡ c"]
    if name in firsts:
        out += ["", f"abbrev pub IsFirst{name} : Cursor → Option {type_of} → Type 0"]
        out += [f"IsFirst{name} c r = Is{name} (typed_child {kinds_of(name)} c) r"]
    return out


def words_head(kinds, firsts, numbers, typed):
    """What a spec with the words of these kinds imports. `numbers` is the crate that has their raw numbers, and `typed` where their type is."""
    out = ["use Rattle.std.specs.Prelude.{◌≡◌, Bool, Option, nat_eq, option_map}"]
    out += ["use Rattle.syntax_kind.specs.declared.syntax_kind.SyntaxKind.{SyntaxKind}", "use Rattle.syntax_kind.specs.Kinds.{kind_raw}"]
    out += [f"use Rattle.{numbers}.specs.declared.raw.TheConstants.{{{', '.join(it.kind for it in kinds)}}}"]
    out += ["use Rattle.tree_model.specs.Cursor.{Cursor}"]
    out += ["use Rattle.ras_node.specs.Nodes.{typed_child}"] if any(it.name in firsts for it in kinds) else []
    return out + [f"use Rattle.{typed}.Typed.{{Typed}}"]


def words_of_kinds(kinds, firsts):
    """The words of the views of these kinds."""
    return [
        line
        for it in kinds
        for line in words_of(it.name, f"(Typed {it.kind})", f"= λ kind. nat_eq (kind_raw kind) {it.kind}", "(λ it. it.syntax)", firsts)
    ]


def uses_of(lookups, place, spec_of, traits=False):
    """What a file of `ra_ap_syntax` with these lookups imports."""
    ways = {it.way for it in lookups}
    names = ["self"] + ["AstChildren"] * ("all" in ways) + ["AstNode"] * traits + ["support"]
    out = [*cited(lookups, place, spec_of), "", f"use crate::ast::{{{', '.join(names)}}};"]
    tokens = [it for it in lookups if it.way == "token"]
    if tokens:
        out += listed("use lossless_tree::", ["SyntaxKind", "SyntaxToken"] + ["T"] * any(it.text for it in tokens))
    return out
