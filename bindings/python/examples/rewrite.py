#!/usr/bin/env python3
"""Replaces what matches a rule in Rust files, such as '$a == None ==>> $a.is_none()', with parentheses where they are needed.

usage: rewrite.py RULE FILE..
"""
import sys
from typing import List

import ras


def main(rule: str, paths: List[str]) -> None:
    for path in paths:
        with open(path, "rb") as file:
            tree = ras.parse(file.read(), errors="none")
        try:
            new = tree.rewrite(rule)
        except ras.RuleError as error:
            sys.exit(f"{rule}\n{' ' * error.offset}^ {error}")
        except ras.RewriteError as error:
            print(f"{path}: {error}", file=sys.stderr)
            continue
        if new.data != tree.data:
            with open(path, "wb") as file:
                file.write(new.data)
            print(path)


if __name__ == "__main__":
    if len(sys.argv) < 3:
        sys.exit(__doc__)
    main(sys.argv[1], sys.argv[2:])
