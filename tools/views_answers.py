"""Writes the lookups of the program `answers_views`, which calls each and prints its result."""
import os

from views_text import CALLS, CALLS_OF_ONE, GIVEN, WIDTH, comment, file_head, listed, snake

ASKING = os.path.join("crates", "answers_views")
# ---- the program that asks the lookups

ASKED = ["sheet: &mut Sheet", "node: &SyntaxNode"]


def opened(head, takes):
    """The head of a function that takes these, on several lines where it is too long."""
    gives = " -> Result<(), AllocError> {"
    whole = f"{head}({', '.join(takes)}){gives}"
    return [whole] if len(whole) <= WIDTH else [f"{head}(", *(f"    {it}," for it in takes), f"){gives}"]


def called(head, given):
    """A call as a statement without its end, on several lines where it is too long."""
    listed = ", ".join(given)
    whole = f"    {head}({listed})"
    fits = len(whole) + 2 <= WIDTH and len(listed) <= GIVEN
    return [whole] if fits else [f"    {head}(", *(f"        {it}," for it in given), "    )"]


def asked(lookup, said):
    """The statement that asks a lookup of the view `it`, without its end."""
    way = {"all": "nodes", "token": "token"}.get(lookup.way, "node")
    return called(f"sheet.{way}", [said, f"it.{lookup.name}()"])


def chained(statements):
    """Statements of which all but the last are tried."""
    return [line for one in statements[:-1] for line in [*one[:-1], one[-1] + "?;"]] + statements[-1]


def chain(name, calls, doc=None):
    """Functions that make these calls, each at most `CALLS` of them and then the next function: more in one take long to prove."""
    out = []
    for at in range(0, len(calls), CALLS):
        heading = [*comment("///", doc), *opened(f"pub fn {name}", ASKED)] if at == 0 and doc else opened(f"fn {name}", ASKED)
        name = f"from_{calls[at + CALLS][0]}" if at + CALLS < len(calls) else None
        rest = [[f"    {name}(sheet, node)"]] if name else []
        out += ["", *heading, *chained([lines for _, lines in calls[at : at + CALLS]] + rest), "}"]
    return out


def asking(title, uses):
    out = [*file_head("//", f"Plain lookups {title}."), "use crate::sheet::Sheet;", "use ra_ap_syntax::SyntaxNode;"]
    return [*out, *listed("use ra_ap_syntax::ast::", uses), "use std::alloc::AllocError;"]


def asking_file(title, kinds, uses, view=lambda name: f"ast::{name}"):
    """A file that asks the lookups of these views."""
    out = asking(f"in {title}", ["self", "AstNode", "cast_ref"]) if not uses else asking(f"in {title}", uses)
    calls = [(snake(kind.name), [f"    of_{snake(kind.name)}(sheet, node)"]) for kind in kinds]
    out += chain("answers", calls, f"Prints the results, for a node, of the plain lookups in {title}.")
    for kind in kinds:
        of = f"of_{snake(kind.name)}"
        rows = [asked(lookup, f'"{kind.name}.{lookup.name}"') for lookup in kind.lookups]
        first, rest = (rows[:CALLS_OF_ONE], rows[CALLS_OF_ONE:]) if len(rows) > CALLS_OF_ONE + 1 else (rows, [])
        out += ["", *opened(f"fn {of}", ASKED)]
        out += [f"    let Some(it) = cast_ref::<{view(kind.name)}>(node) else {{", "        return Ok(());", "    };"]
        out += [*chained(first + ([[f"    rest_{of}(sheet, &it)"]] if rest else [])), "}"]
        if rest:
            out += ["", *opened(f"fn rest_{of}", [ASKED[0], f"it: &{view(kind.name)}"]), *chained(rest), "}"]
    return out


def asking_rust_file(rust, section):
    """The same of the views of `rust_views`, and of what it adds to the others."""
    views = [*rust.kinds.values(), *rust.added.values()]
    views = sorted((it for it in views if it.section == section and it.lookups), key=lambda it: it.name)

    def view(name):
        return name if name in rust.kinds else f"ast::{name}"

    uses = ["self"] * any(it.name in rust.added for it in views) + ["AstNode", "cast_ref"]
    out = asking_file(f"{rust.sections[section]}, of `rust_views`", views, uses, view)
    named = sorted({it.name for it in views if it.name in rust.kinds} | {f"{it.name}Ext" for it in views})
    place = next(number for number, line in enumerate(out) if line.startswith("use std::"))
    return [*out[:place], *listed("use rust_views::", named), *out[place:]]


def owners_asked(table, trait):
    """The views whose shared lookups are asked one by one: of the others one answer is all, by a view of all that have the trait."""
    everyone = [name for name in table.anys if trait.name in table.anys[name].traits]
    return [] if trait.name == "HasAttrs" else everyone or table.having(trait.name)


def asking_shared_file(table):
    traits = [it for it in table.traits.values() if owners_asked(table, it)]
    out = asking("of shared traits", ["self", *sorted(it.name for it in traits), "cast_ref"])
    calls = [(snake(it.name), [f"    of_{snake(it.name)}(sheet, node)"]) for it in traits]
    out += chain("answers", calls, "Prints the results, for a node, of the plain lookups of shared traits.")
    for trait in traits:
        it = snake(trait.name)
        names = [lookup.name for lookup in trait.lookups]
        out += ["", *opened(f"fn {it}<N: {trait.name} + Drop>", [*ASKED, *(f"{name}: &str" for name in names)])]
        out += ["    let Some(it) = cast_ref::<N>(node) else {", "        return Ok(());", "    };"]
        out += [*chained([asked(lookup, lookup.name) for lookup in trait.lookups]), "}"]
        calls = []
        for owner in owners_asked(table, trait):
            said = [f'"{owner}.{name}"' for name in names]
            calls.append((f"{it}_of_{snake(owner)}", called(f"{it}::<ast::{owner}>", ["sheet", "node", *said])))
        out += chain(f"of_{it}", calls)
    return out


def asking_files(table, rust, sections):
    added = [f"rust_{it}" for it in rust.sections]
    parts = sorted([*sections, "enums", "shared", *added])
    out = [*file_head("//", "Plain lookups."), *(f"mod {it};" for it in parts), "", "use crate::sheet::Sheet;", "use ra_ap_syntax::SyntaxNode;"]
    out += ["use std::alloc::AllocError;"]
    calls = [(it, [f"    {it}::answers(sheet, node)"]) for it in parts]
    out += chain("answers", calls, "Prints the results of the plain lookups for a node.")
    files = {}
    for it in sections:
        kinds = sorted((kind for kind in table.kinds.values() if kind.section == it and kind.lookups), key=lambda kind: kind.name)
        files[it] = asking_file(table.sections[it], kinds, [])
    files["enums"] = asking_file("enums", sorted((it for it in table.enums.values() if it.lookups), key=lambda it: it.name), [])
    files |= {f"rust_{it}": asking_rust_file(rust, it) for it in rust.sections}
    files = {os.path.join(ASKING, "src", "lookups", f"{it}.rt"): lines for it, lines in files.items()}
    return files | {
        os.path.join(ASKING, "src", "lookups", "shared.rt"): asking_shared_file(table),
        os.path.join(ASKING, "src", "lookups.rt"): out,
    }
