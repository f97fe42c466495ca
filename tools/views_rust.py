"""Writes the crate `rust_views`: the views of the kinds that have no constant in `SyntaxKind`, from crates/rust_views/views.txt."""
import os

from views_text import MADE, WIDTH, by_name, call, cited, file_head, listed, of_ast, snake, word, words_head, words_of, words_of_kinds

CRATE = os.path.join("crates", "rust_views")
CURSORS = [
    "ghost use Rattle.tree_model.specs.Tree.{text};",
    "ghost use Rattle.tree_model.specs.Cursor.{focus};",
    "ghost use Rattle.lossless_tree.specs.Dump.{span_text};",
]
EQUALITY = [
    "ghost use Rattle.std.specs.Cmp.{partial_equiv_from_equiv, on_equiv};",
    "ghost use Rattle.tree_model.specs.Equality.{is_same_cursor, cursor_hash};",
    "ghost use Rattle.tree_model.specs.EqualityLaws.{cursor_equivalence, cursors_alike};",
]
HEAD = """//! Views of the nodes of Rust's trees for whose kinds `SyntaxKind` has no constant, and the lookups
//! that lead to them and on from them. {made}
//!
//! All other views are in `ra_ap_syntax`. A lookup is a method of a trait with the name of the view
//! and `Ext`, because a view is an alias of `ra_ap_syntax`'s `Typed`: after
//! `use rust_views::EnumExt;`, `it.variant_list()` is rust-analyzer's call. A call takes time
//! linear in the number of children that it passes, and no memory.
#![tactic(auto)]
"""


def indented(lines, depth=2):
    return "\n".join(f"{'    ' * depth}{line}" for line in lines)


class Writer:
    """The files of a table and of the table below it. `templates` are those that `tools/views` shares, `firsts` the views that a lookup
    returns the first child of, and `spec_below` gives the spec with the words of a view of the table below."""

    def __init__(self, table, filled, templates, firsts, spec_below):
        self.table, self.below, self.filled, self.templates = table, table.below, filled, templates
        self.firsts, self.spec_below = firsts, spec_below

    def spec_of(self, name):
        """The spec with the words of a view."""
        if name not in self.table.kinds and name not in self.table.enums:
            return self.spec_below(name)
        return f"Rattle.rust_views.specs.{f'{name}Cases' if name in self.table.enums else self.views_of(self.table.kinds[name].section)}"

    @staticmethod
    def views_of(section):
        return f"{section.capitalize()}Views"

    def view(self, name):
        """How the crate names a view: those of `ra_ap_syntax` by their module."""
        return name if name in self.table.kinds or name in self.table.enums else f"ast::{name}"

    def kind(self, name):
        return (self.table.kinds.get(name) or self.below.kinds[name]).kind

    def uses(self, names, more=()):
        """What a file that names these views imports of the crate and of `ra_ap_syntax`."""
        own = sorted({it for it in names if not self.view(it).startswith("ast::")})
        theirs = ["self"] * any(self.view(it).startswith("ast::") for it in names) + [*more]
        return [*(listed("use crate::", own) if own else []), *of_ast(theirs)]

    # ---- lookups

    def extended(self, section):
        """The views of a section that have lookups here."""
        views = [*self.table.kinds.values(), *self.table.added.values()]
        return sorted((it for it in views if it.section == section and it.lookups), key=lambda it: it.name)

    def lookups(self, section):
        views = self.extended(section)
        lookups = [lookup for it in views for lookup in it.lookups]
        ways = {it.way for it in lookups}
        out = [*file_head("//!", f"Lookups in {self.table.sections[section]}.")]
        out += cited(lookups, "(Self.node self.now)", self.spec_of)
        others = sorted({it.of for it in lookups if it.is_other})
        out += [f"ghost use Rattle.rust_kinds.specs.declared.kinds.TheConstants.{{{', '.join(others)}}};"] if others else []
        names = [it.of for it in lookups if it.way != "token"] + [it.name for it in views]
        out += ["", *self.uses(names, ["AstNode"] + ["AstChildren"] * ("all" in ways))]
        tokens = ["SyntaxKind"] * any(it.way == "token" and not it.is_other for it in lookups) + ["SyntaxToken"] * ("token" in ways)
        tokens += ["T"] * any(it.text and not it.is_other for it in lookups)
        out += listed("use ra_ap_syntax::", tokens) if tokens else []
        out += ["use ras_node::support;"] + (listed("use rust_kinds::kinds::", others) if others else [])
        for it in views:
            out += ["", f"/// The lookups of {'an' if it.name[0] in 'AEIOU' else 'a'} `{it.name}`{' that lead to a view or token of this table' * (it.name in self.table.added)}."]
            out += [f"pub trait {it.name}Ext: AstNode {{"]
            for number, lookup in enumerate(it.lookups):
                out += [""] * (number > 0) + call(lookup, "final fn", "(Self.node self.now)", "self.syntax()", self.view)
            out += ["}", "", f"impl {it.name}Ext for {self.view(it.name)} {{}}"]
        return out

    # ---- enums, and views of several kinds

    def shown(self, name, node, own):
        return self.filled(self.templates.DISPLAY, name=name, it=node, own=own)

    def enum(self, enum):
        name, own = enum.name, word(enum.name)
        views = [self.view(of) for _, of in enum.variants]
        out = [*file_head("//!", f"{enum.doc}"), "ghost use Rattle.std.specs.Prelude.{◌≡◌, Some};", *CURSORS]
        out += [f"ghost use Rattle.rust_views.specs.declared.enums.{own}.{name}.TheVariants as {own};"]
        out += [f"ghost use Rattle.rust_views.specs.{name}Cases.{{{own}_node, {own}_castable, is_{own}}};"]
        out += ["", *self.uses([of for _, of in enum.variants], ["AstNode"]), *listed("use ra_ap_syntax::", ["SyntaxKind", "SyntaxNode"])]
        out += ["use std::fmt;", "use std::hash::Hash;"]
        derives = [it for it in enum.words if it != "From"]
        out += ["", f"/// {enum.doc}", f"#[derive({', '.join([*derives, 'Drop'])})]", f"pub enum {name} {{"]
        out += [*(f"    {variant}({self.view(of)})," for variant, of in enum.variants), "}"]
        tests = [f"{it}::can_cast(kind)" for it in views]
        can_cast = [" || ".join(tests)]
        if len(can_cast[0]) > WIDTH - 8:
            can_cast = [tests[0], *(f"    || {it}" for it in tests[1:])]
        cast = []
        for (variant, _), it in zip(enum.variants, views):
            cast += [f"{'} else ' * bool(cast)}if {it}::can_cast(syntax.kind()) {{", f"    match {it}::cast(syntax) {{"]
            cast += [f"        Some(it) => Some({name}::{variant}(it)),", "        None => None,", "    }"]
        cast += ["} else {", "    None", "}"]
        syntax = ["match self {", *(f"    {name}::{variant}(it) => it.syntax()," for variant, _ in enum.variants), "}"]
        casts = {"casts": f"is_{own}", "node": f"{own}_node", "castable": f"{own}_castable"}
        out += self.filled(self.templates.NODE, name=name, **casts, can_cast=indented(can_cast), cast=indented(cast), syntax=indented(syntax))
        out += self.shown(name, f"({own}_node it)", "self.syntax()")
        for (variant, _), it in zip(enum.variants, views):
            body = f"        {name}::{variant}(it)"
            out += self.filled(self.templates.FROM.replace("ast::{of}", "{of}"), name=name, of=it, made=f"made ≡ {own}.{variant} it", body=body)
        return out

    def numbers(self, names):
        """What a spec imports of the raw numbers of these views."""
        own = [self.kind(it) for it in names if it in self.table.kinds]
        other = [self.kind(it) for it in names if it not in self.table.kinds]
        out = [f"use Rattle.rust_views.specs.declared.raw.TheConstants.{{{', '.join(own)}}}"] if own else []
        return out + ([f"use Rattle.syntax_kind.specs.declared.raw.TheConstants.{{{', '.join(other)}}}"] if other else [])

    def cases(self, enum):
        """The spec of an enum: its kinds, the node of each variant, and that its kind is one of these."""
        name, own = enum.name, word(enum.name)
        declared = f"Rattle.rust_views.specs.declared.enums.{own}.{name}"
        out = [*file_head("--", f"`{name}`: its kinds by their raw numbers, the node of each variant, and words of clauses.")]
        out += ["use Rattle.std.specs.Prelude.{◌≡◌, ◌||◌, Bool, true, ℕ, nat_eq, Option, option_map}", "use Rattle.std.proofs.lemmas.Bool.{eq-eqb}"]
        out += ["use Rattle.syntax_kind.specs.declared.syntax_kind.SyntaxKind.{SyntaxKind}", "use Rattle.syntax_kind.specs.Kinds.{kind_raw}"]
        out += self.numbers([of for _, of in enum.variants])
        out += ["use Rattle.tree_model.specs.Cursor.{Cursor}"]
        out += [f"use Rattle.ras_node.specs.Nodes.{{kind_at{', typed_child' if name in self.firsts else ''}}}"]
        out += ["use Rattle.rust_views.specs.Sides.{or_left, or_right}"]
        out += [f"use {declared}.{{{name}}}", f"use {declared}.TheVariants.{{{', '.join(variant for variant, _ in enum.variants)}}}"]
        *tests, whole = [f"nat_eq n {self.kind(of)}" for _, of in enum.variants]
        for test in reversed(tests):
            whole = f"{test} || {f'({whole})' if '||' in whole else whole}"
        out += ["", f"abbrev is_{own}_number : ℕ → Bool", f"is_{own}_number n = {whole}"]
        out += ["", f"abbrev pub is_{own} : SyntaxKind → Bool", f"is_{own} kind = is_{own}_number (kind_raw kind)"]
        out += ["", f"abbrev pub {own}_node : {name} → Cursor", *(f"{own}_node ({variant} it) = it.syntax" for variant, _ in enum.variants)]
        whole = f"pub {own}_castable : (it : {name}) → is_{own} (kind_at ({own}_node it)) ≡ true"
        out += ["", "-- its kind is one of these"]
        out += [whole] if len(whole) <= WIDTH else [f"pub {own}_castable : (it : {name}) →", f"    is_{own} (kind_at ({own}_node it)) ≡ true"]
        for number, (variant, _) in enumerate(enum.variants):
            law = "eq-eqb _ _ it.is"
            if number < len(enum.variants) - 1:
                law = f"or_left _ _ ({law})"
            # Where three sides or more are passed and none is left, the prover wants to be told which.
            is_told = number > 2 and number == len(enum.variants) - 1
            at = f"(kind_raw (kind_at ({own}_node ({variant} it))))"
            for _, passed in reversed(enum.variants[:number]):
                law = f"or_right (nat_eq {at} {self.kind(passed)}) _\n    ({law})" if is_told else f"or_right _ _ ({law})"
            out += [f"{own}_castable ({variant} it) ={chr(10) + '    ' if is_told else ' '}{law}"]
        return out + words_of(name, name, f"= is_{own}", f"{own}_node", self.firsts)

    def views_spec(self, section):
        """The spec with the words of clauses of the views of a section."""
        kinds = sorted((it for it in self.table.kinds.values() if it.section == section), key=lambda it: it.name)
        out = [*file_head("--", f"Words of clauses for the views of {self.table.sections[section]}: the kinds of each, and what is one.")]
        return out + words_head(kinds, self.firsts, "rust_views", "ra_ap_syntax.specs.declared.ast.typed") + words_of_kinds(kinds, self.firsts)

    def holders(self, trait):
        """The views of kinds that have a trait."""
        return sorted(name for table in (self.below, self.table) for name, kind in table.kinds.items() if trait in kind.traits)

    def sets(self):
        """The spec of the kinds of the views of several kinds."""
        out = [*file_head("--", "The kinds of nodes that have a trait."), "use Rattle.std.specs.Prelude.{Bool, true, false}"]
        out += ["use Rattle.syntax_kind.specs.declared.syntax_kind.SyntaxKind.{SyntaxKind}"]
        out += ["use Rattle.syntax_kind.specs.declared.syntax_kind.SyntaxKind.TheVariants.{Node}"]
        out += ["use Rattle.syntax_kind.specs.declared.syntax_kind.node_kind.NodeKind.TheVariants as node"]
        for it in self.table.anys.values():
            own = snake(it.traits[0])
            out += ["", f"abbrev pub {own} : SyntaxKind → Bool", *(f"{own} (Node node.{self.kind(name)}) = true" for name in self.holders(it.traits[0]))]
            out += [f"{own} _ = false"]
        return out

    def any(self, it):
        name, trait = it.name, it.traits[0]
        kinds = snake(trait)
        out = [*file_head("//!", f"{it.doc}"), "ghost use Rattle.std.specs.Prelude.{◌≡◌, Some, true, ⊤, option_map};", *CURSORS, *EQUALITY]
        out += ["ghost use Rattle.ras_node.specs.Nodes.{kind_at};", "ghost use Rattle.ras_node.specs.Lookups.{if_of};"]
        out += [f"ghost use Rattle.rust_views.specs.Sets.{{{kinds}}};", "", *listed("use ra_ap_syntax::ast::", sorted(["AstNode", trait, "Within"]))]
        out += ["use ra_ap_syntax::{SyntaxKind, SyntaxNode};", "use ras_node::support;", "use std::alloc::AllocError;", "use std::fmt;", "use std::hash::{Hash, Hasher};", ""]
        out += [f"/// {it.doc}", "#[derive(Drop)]", f"pub struct {name} {{", "    syntax: SyntaxNode,"]
        out += [f"    ghost is: {{ {kinds} (kind_at syntax) ≡ true }},", "}"]
        out += self.templates.new_of(name, trait, kinds)
        cast = ["if Self::can_cast(syntax.kind()) {", f"    Some({name} {{ syntax }})", "} else {", "    None", "}"]
        clone = ["let syntax = self.syntax.clone()?;", f"Ok({name} {{ syntax }})"]
        words = {"casts": kinds, "node": "λ it. it.syntax", "castable": "λ it. it.is"}
        matched = self.templates.matched([self.kind(of) for of in self.holders(trait)])
        out += self.filled(self.templates.NODE, name=name, **words, can_cast="\n".join(matched), cast=indented(cast), syntax="        &self.syntax")
        words = {key: f"{key}.syntax" for key in ("it", "a", "b")} | {"own": "self.syntax", "other": "other.syntax"}
        out += self.filled(self.templates.BY_NODE, name=name, node="(λ it. it.syntax)", is_clone="copy ≡ s", clone=indented(clone), **words)
        return out + self.shown(name, words["it"], words["own"]) + self.templates.from_of(name, "support::share")

    # ---- the crate's other files

    def within(self):
        anys = self.table.anys.values()
        out = [*file_head("//!", "Which views are within a view of several kinds."), *self.templates.WITHIN]
        out += [f"ghost use Rattle.rust_views.specs.Sets.{{{', '.join(sorted(snake(it.traits[0]) for it in anys))}}};", ""]
        out += [*listed("use crate::", list(self.table.anys)), *listed("use ra_ap_syntax::ast::", ["self", "Within"])]
        for it in anys:
            for name in self.holders(it.traits[0]):
                out += self.templates.within_impl(f"ast::{name}", it.name, snake(it.traits[0]), self.kind(name))
        return out

    def lib(self):
        sections = [it for it in self.table.sections if self.extended(it)]
        enums, anys = self.table.enums, self.table.anys
        out = [*HEAD.format(made=MADE).rstrip("\n").split("\n"), ""]
        modules = {it: "pub mod" for it in ("anys", "enums", "laws", "lookups", "raw")} | {"kinds": "mod", "shared_traits": "mod", "within": "mod"}
        out += [f"{modules[it]} {it};" for it in sorted(modules)] + [""]
        uses = [(f"pub use anys::{snake(it)}::", [it]) for it in anys] + [(f"pub use enums::{snake(it)}::", [it]) for it in enums]
        uses += [("pub use kinds::", sorted(self.table.kinds))]
        uses += [(f"pub use lookups::{it}::", [f"{view.name}Ext" for view in self.extended(it)]) for it in sections]
        for head, names in sorted(uses):
            out += ["// The formatter would write this many names one per line.", "#[rattlefmt::skip]"] * (len(names) > 16)
            out += listed(head, by_name(names))
        return out

    def laws(self):
        kinds = sorted(self.table.kinds.values(), key=lambda it: it.name)
        out = [*file_head("//!", "The views are of the kinds that they are named for. The function does nothing: the contract is the law.")]
        out += ["ghost use Rattle.std.specs.Prelude.{◌≡◌};", "ghost use Rattle.ra_ap_syntax.specs.Words.{Views};"]
        out += [f"ghost use Rattle.rust_kinds.specs.declared.kinds.TheConstants.{{{', '.join(it.kind for it in kinds)}}};", ""]
        out += ["// The formatter would write this many names one per line.", "#[rattlefmt::skip]"] * (len(kinds) > 16)
        out += [*listed("use crate::", [it.name for it in kinds]), "use ra_ap_syntax::AstNode;"]
        out += ["", "/// Each view is of the kind `SyntaxKind::OTHER(n)` whose number `rust_kinds` gives its name.", "pub fn names_of_views()"]
        for it in kinds:
            whole, named = f"    ensures {snake(it.name)} {{ Views ⟦<{it.name} as AstNode>⟧ {it.kind} }}", snake(it.name).removesuffix("_list")
            out += [whole if len(whole) <= WIDTH else f"    ensures {named} {{ Views ⟦<{it.name} as AstNode>⟧ {it.kind} }}"]
        return [*out, "{}"]

    def shared_traits(self):
        rows = [(trait, name) for name, it in sorted(self.table.enums.items()) for trait in it.traits]
        out = [*file_head("//!", "Which views have which of the shared traits.")]
        rows += [(it.traits[0], it.name) for it in self.table.anys.values()]
        out += listed("use crate::", sorted({name for _, name in rows})) + listed("use ra_ap_syntax::ast::", sorted({trait for trait, _ in rows}))
        for trait, name in rows:
            out += ["", f"impl {trait} for {name} {{}}"]
        return out

    def raw(self):
        out = [*file_head("//!", "The raw numbers of the kinds, as `SyntaxKind::to_raw` gives them."), "", "// The number of `SyntaxKind::OTHER(0)`.", "const FIRST_OTHER: u32 = 65_536;"]
        for it in sorted(self.table.kinds.values(), key=lambda it: it.kind):
            out += ["", f"pub const {it.kind}: u32 = FIRST_OTHER + {self.table.numbers[it.kind]};"]
        return out

    def kinds(self):
        out = [*file_head("//!", "A view for each kind of node."), "use crate::raw;", "use ra_ap_syntax::ast::Typed;"]
        for it in self.table.kinds.values():
            out += ["", f"/// {it.doc}", f"pub type {it.name} = Typed<{{ raw::{it.kind} }}>;"]
        return out

    def files(self):
        src, specs = os.path.join(CRATE, "src"), os.path.join(CRATE, "specs")
        sections = sorted(it for it in self.table.sections if self.extended(it))
        out = {"lib": self.lib(), "laws": self.laws(), "raw": self.raw(), "kinds": self.kinds(), "shared_traits": self.shared_traits(), "within": self.within()}
        out |= {"lookups": [*file_head("//!", "Lookups of children by their kinds."), *(f"pub mod {it};" for it in sections)]}
        out |= {"enums": [*file_head("//!", "Views of one of several kinds."), *(f"pub mod {snake(it)};" for it in sorted(self.table.enums))]}
        out |= {"anys": [*file_head("//!", "Views of all nodes that have a trait."), *(f"pub mod {snake(it)};" for it in sorted(self.table.anys))]}
        out |= {os.path.join("lookups", it): self.lookups(it) for it in sections}
        out |= {os.path.join("enums", snake(it.name)): self.enum(it) for it in self.table.enums.values()}
        out |= {os.path.join("anys", snake(it.name)): self.any(it) for it in self.table.anys.values()}
        files = {os.path.join(src, f"{name}.rt"): lines for name, lines in out.items()}
        files |= {os.path.join(specs, f"{it.name}Cases.antt"): self.cases(it) for it in self.table.enums.values()}
        every = sorted({it.section for it in self.table.kinds.values()})
        files |= {os.path.join(specs, f"{self.views_of(it)}.antt"): self.views_spec(it) for it in every}
        return files | {os.path.join(specs, "Sets.antt"): self.sets()}
