#!/usr/bin/env python3
"""Turns `x == None` into `x.is_none()`, and `x != None` into `x.is_some()`, in a Rust file; an operand gets parentheses where it needs them.

usage: codemod.py FILE   writes the new text to the standard output
"""
import sys
from typing import Iterator, Tuple

import ras
from ras import ast

CALLS = {"==": "is_none", "!=": "is_some"}
# What a method can be called on without a pair of parentheses.
FIRM = (ast.PathExpr, ast.ParenExpr, ast.CallExpr, ast.MethodCallExpr, ast.FieldExpr, ast.IndexExpr, ast.TryExpr, ast.AwaitExpr, ast.MacroExpr)


def edits(tree: ras.Tree) -> Iterator[Tuple[int, int, str]]:
    for sum in ast.BinExpr.within(tree.root):
        parts = [it for it in sum.syntax.children() if it.kind not in ("WHITESPACE", "COMMENT")]
        if len(parts) != 3 or parts[2].text != "None" or parts[1].text not in CALLS:
            continue
        left, call = parts[0], f".{CALLS[parts[1].text]}()"
        firm = isinstance(ast.Expr.cast(left), FIRM)
        yield from [(left.start, left.start, "" if firm else "("), (left.end, parts[2].end, call if firm else ")" + call)]


if __name__ == "__main__":
    if len(sys.argv) != 2:
        sys.exit(__doc__)
    with open(sys.argv[1], "rb") as file:
        tree = ras.parse(file.read())
    sys.stdout.write(tree.edit(edits(tree)).text)
