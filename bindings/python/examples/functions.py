#!/usr/bin/env python3
"""Lists the functions of the Rust files of a folder: file, line, and name with the names of what the function is in.

usage: functions.py FOLDER
"""
import os
import sys
from typing import Iterator, Tuple

import ras


def name_of(node: ras.Element) -> str:
    """The text of a node's name, or of the type that an implementation is for."""
    names = [it for it in node.children() if it.kind == "NAME"] or [it for it in node.children() if it.kind.endswith("_TYPE")][-1:]
    return names[0].text if names else "?"


def functions(tree: ras.Tree) -> Iterator[Tuple[ras.Element, str]]:
    for function in tree.find("FN"):
        around = [it for it in function.ancestors() if it.kind in ("MODULE", "IMPL", "TRAIT", "FN")]
        yield function, "::".join(name_of(it) for it in [*reversed(around), function])


def main(folder: str) -> None:
    for place, _, names in sorted(os.walk(folder)):
        for name in sorted(it for it in names if it.endswith(".rs")):
            path = os.path.join(place, name)
            with open(path, "rb") as file:
                tree = ras.parse(file.read())
            for function, called in functions(tree):
                line = tree.data[: function.start].count(b"\n") + 1
                print(f"{path}:{line}: {called}")


if __name__ == "__main__":
    if len(sys.argv) != 2:
        sys.exit(__doc__)
    main(sys.argv[1])
