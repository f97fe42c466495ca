"""Times `rust_tree parens` on generated files with thousands of needless pairs, and prints a table.

usage: bench/run pairs [--rounds N] PROGRAM

PROGRAM is the built program rust_tree. A file has needless pairs, and 100 pairs that have to stay: none, or pairs of one of the shapes in
the table. For the first shape the operator test decides that a pair stays, for the others parses of an expression around it. A time is the
processor time of a whole run with reading and printing, the minimum of N rounds (3). Each run has to list as many pairs as are needless.
"""
import argparse
import os
import subprocess
import sys
import tempfile

NEEDLESS = "    let _ = (a + b);\n"
# What decides that a pair has to stay, and a statement with such a pair.
SHAPES = (
    ("none", 20_000, None),
    ("`(a as usize) < b`", 5_000, "    let _ = (a as usize) < b;\n"),
    ("`((a + b)) * c`", 5_000, "    let _ = ((a + b)) * c;\n"),
    ("`(1).0`", 5_000, "    let _ = (1).0;\n"),
    ("`A => ({ 1 } + 2)`", 5_000, "    match a { A => ({ 1 } + 2) }\n"),
)
STAYING = 100


def text_of(needless, staying):
    """A function with so many needless pairs, and a pair that has to stay after every few of them."""
    lines = [NEEDLESS] * needless
    if staying:
        step = needless // STAYING
        for number in range(STAYING, 0, -1):
            lines.insert(number * step, staying)
    return "fn f(a: u8, b: usize, c: u8) {\n" + "".join(lines) + "}\n"


def measured(words, rounds):
    """The least processor time of some rounds, in seconds, and the number of lines that were printed."""
    least, lines = float("inf"), 0
    for _ in range(rounds):
        before = os.times()
        run = subprocess.run(words, stdin=subprocess.DEVNULL, stdout=subprocess.PIPE, check=False)
        after = os.times()
        if run.returncode != 1:
            raise SystemExit(f"bench/run pairs: {' '.join(words)}: status {run.returncode}")
        lines = run.stdout.count(b"\n")
        least = min(least, after.children_user + after.children_system - before.children_user - before.children_system)
    return least, lines


def main():
    words = argparse.ArgumentParser(prog="bench/run pairs", description=__doc__, formatter_class=argparse.RawDescriptionHelpFormatter)
    words.add_argument("program", metavar="PROGRAM", help="the built program rust_tree")
    words.add_argument("--rounds", type=int, default=3, metavar="N", help="the number of rounds (default: 3)")
    given = words.parse_args()
    print("| pairs that stay | needless pairs | bytes | seconds |\n|---|---:|---:|---:|", flush=True)
    with tempfile.TemporaryDirectory() as folder:
        path = os.path.join(folder, "pairs.rs")
        for name, needless, staying in SHAPES:
            text = text_of(needless, staying)
            with open(path, "w", encoding="utf-8") as file:
                file.write(text)
            seconds, lines = measured([os.path.abspath(given.program), "parens", "--all", path], given.rounds)
            # One of the two pairs of `((a + b))` is needless.
            if lines != needless + STAYING * (staying is not None and "((" in staying):
                raise SystemExit(f"bench/run pairs: {name}: {lines} lines")
            print(f"| {name if staying is None else f'100 times {name}'} | {lines:,} | {len(text):,} | {seconds:.2f} |", flush=True)


if __name__ == "__main__":
    sys.exit(main())
