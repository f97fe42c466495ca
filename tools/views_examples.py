"""Writes the crate `view_examples`: a test for each view, which calls its lookups on the examples of the tables."""
import os

from views_text import file_head, listed, of_ast, snake

EXAMPLES = os.path.join("crates", "view_examples")


def literal(text):
    return '"' + text.replace("\\", "\\\\").replace('"', '\\"').replace("\n", "\\n") + '"'


def called(name, given):
    """A call with `?`, as the formatter lays it out: on several lines where it is too long."""
    whole = f"    {name}({', '.join(given)})?;"
    # The formatter puts the arguments of a call into one line up to sixty characters.
    if len(whole) <= 100 and len(", ".join(given)) <= 60:
        return [whole]
    return [f"    {name}(", *(f"        {it}," for it in given), "    )?;"]


def tested(name, view, lookups):
    """The test of the lookups that have an example."""
    out = ["", "#[test]", f"fn of_{name}(rt: HostRuntime) -> Result<(), Fail> {{"]
    last = None
    for it in lookups:
        if it.example is not last:
            given = ["&rt", literal(it.example.file), literal(it.example.text)]
            whole = f"    let it: {view(it.example.view)} = find({', '.join(given)})?;"
            if len(whole) <= 100 and len(", ".join(given)) <= 60:
                out += [whole]
            else:
                out += [f"    let it: {view(it.example.view)} = find(", *(f"        {word}," for word in given), "    )?;"]
            last = it.example
        way = {"all": "nodes", "token": "token"}.get(it.way, "node")
        parts = f"&[{', '.join(literal(part) for part in it.parts)}]" if it.way == "all" else literal(it.parts[0])
        out += called(f"is_{way}", [f"it.{it.name}()", parts])
    return [*out, "    Ok(())", "}"]


def file(title, rows, view, traits):
    """A file of tests: rows of a name and lookups."""
    rows = [(name, [it for it in lookups if it.example]) for name, lookups in rows]
    rows = [row for row in rows if row[1]]
    ways = {it.way for _, lookups in rows for it in lookups}
    calls = ["find"] + [f"is_{name}" for name, those in (("node", {"first", "second"}), ("nodes", {"all"}), ("token", {"token"})) if ways & those]
    out = [*file_head("//!", f"{title}"), *listed("use crate::", sorted(calls))]
    named = sorted({view(it.example.view) for _, lookups in rows for it in lookups})
    out += of_ast(["self"] * any(it.startswith("ast::") for it in named) + [it for owner, it in traits if owner == "ast"])
    own = [it for it in named if not it.startswith("ast::")] + [it for owner, it in traits if owner == "rust_views"]
    out += listed("use rust_views::", sorted(own)) if own else []
    out += ["use std::test::Fail;"]
    return [*out, *(line for name, lookups in rows for line in tested(name, view, lookups))]


def example_files(table, rust):
    src = os.path.join(EXAMPLES, "src")

    def view(name):
        return name if name in rust.kinds else f"ast::{name}"

    files, modules = {}, []
    for section, title in table.sections.items():
        rows = [(snake(it.name), it.lookups) for it in sorted(table.kinds.values(), key=lambda it: it.name) if it.section == section]
        files[section] = file(f"Lookups in {title}.", rows, view, [])
    rows = [(snake(name), it.lookups) for name, it in sorted(table.enums.items()) if it.lookups]
    files["enums"] = file("Lookups in the nodes of enums.", rows, view, [])
    rows = [(snake(name), it.lookups) for name, it in sorted(table.traits.items())]
    files["shared"] = file("Lookups that several views share.", rows, view, [("ast", name) for name in sorted(table.traits)])
    for section, title in rust.sections.items():
        views = [*rust.kinds.values(), *rust.added.values()]
        views = sorted((it for it in views if it.section == section and any(lookup.example for lookup in it.lookups)), key=lambda it: it.name)
        traits = [("rust_views", f"{it.name}Ext") for it in views]
        files[f"rust_{section}"] = file(f"Lookups of `rust_views` in {title}.", [(snake(it.name), it.lookups) for it in views], view, traits)
    modules = [*file_head("//!", "The examples by the parts of the language.")] + [line for it in sorted(files) for line in ("#[cfg(test)]", f"mod {it};")]
    made = {os.path.join(src, "examples", f"{name}.rt"): lines for name, lines in files.items()}
    return made | {os.path.join(src, "examples.rt"): modules}
