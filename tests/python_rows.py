#!/usr/bin/env python3
"""Compares what the Python module reads of small texts with the trees of tests/rust_rows.txt, also of types, patterns and other parts.

usage: python_rows.py ROWS   ROWS is tests/rust_rows.txt, whose form `tests/rust_rows --help` describes

It needs the module. The exit status is 0 if no tree and no error differs, and at least LEAST texts of each entry were compared.
"""
import collections
import re
import sys

import ras

READ = {
    "file": ras.parse,
    "expr": ras.parse_expr,
    "whole_type": ras.parse_type,
    "whole_pattern": ras.parse_pattern,
    "macro_stmts": ras.parse_statements,
    "macro_items": ras.parse_items,
    "whole_meta": ras.parse_meta_item,
}
LEAST = 5
# A row: its entry, its text and its tree. The edition stands behind the entry if it is not 2024.
ROW = re.compile(r"^== (\w+)(?: (\d{4}))?[^\n]*\n(.*?)^-- \n(.*?)(?=^== |\Z)", re.M | re.S)
LINE = re.compile(r"( *)(\w+)@(\d+)\.\.(\d+)")


def lines_of(tree):
    """The nodes and tokens of a tree, each by its depth, kind and range, and the errors of its parse."""
    depths = {tree.root.row: 0}
    for element in tree.root.descendants():
        if element.row:
            depths[element.row] = depths[element.parent.row] + 1
        yield f"{'  ' * depths[element.row]}{element.kind}@{element.start}..{element.end}"
    yield from (f"error {it.start}..{it.end}: {it.message}".replace("\n", "␊") for it in tree.errors)


def main(path):
    with open(path, encoding="utf-8", newline="") as file:
        rows = ROW.findall(file.read())
    counts, different = collections.Counter(), 0
    for entry, year, text, tree in rows:
        if entry not in READ:
            continue
        counts[entry] += 1
        wanted = [LINE.match(it)[0] if LINE.match(it) else it for it in tree.split("\n") if LINE.match(it) or it.startswith("error ")]
        got = list(lines_of(READ[entry](text, int(year or 2024), errors="parse")))
        if got != wanted:
            different += 1
            print(f"{entry}: {text!r} has another tree:")
            print("\n".join(got))
    lacking = [it for it in READ if counts[it] < LEAST]
    print(f"{sum(counts.values())} rows are read, {different} otherwise" + f"; too few for {' '.join(lacking)}" * bool(lacking))
    return 1 if different or lacking else 0


if __name__ == "__main__":
    sys.exit(main(*sys.argv[1:]))
