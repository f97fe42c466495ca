"""Builds `benches` and `bench/front_like.rs`, runs `benches fronts` and the other program in turn, and prints a table.

usage: bench/run parses [ROUNDS [PROGRAM]]

A row has the operation, the text, its bytes, the minimum time of all runs of both programs, in ROUNDS rounds (2), and the ratio. The
operations are lexing, a parse with its tree, a parse with its dump, and an edit that parses one token, one block or the whole text again;
and three that the other program does not have: a copy of the tree's text, one of its text and rows, and another text of one token. PROGRAM
is `benches` if it is built already.
"""
import os
import subprocess
import sys
import tempfile

TOP = os.path.dirname(os.path.dirname(os.path.dirname(os.path.abspath(__file__))))
sys.path.insert(0, os.path.join(TOP, "tools"))
sys.dont_write_bytecode = True
import repository


def built():
    """The two programs; ours is proved first, which takes a few minutes where nothing of it is kept."""
    ours = sys.argv[2] if len(sys.argv) > 2 else repository.built("benches")
    theirs = os.path.join(tempfile.mkdtemp(), "front_like")
    subprocess.run(["rustc", "--edition", "2024", "-O", "-o", theirs, os.path.join(TOP, "bench", "front_like.rs")], check=True)
    return [ours, "fronts"], [theirs]


def least(command, best):
    """Runs a program, whose lines are: what, text, bytes, nanoseconds; keeps the least of each."""
    for line in subprocess.run(command, check=True, stdout=subprocess.PIPE, text=True).stdout.splitlines():
        what, text, size, nanoseconds = line.split()
        key = (what, text, int(size))
        best[key] = min(best.get(key, float("inf")), int(nanoseconds))


def main():
    if sys.argv[1:2] in (["--help"], ["-h"]):
        print(__doc__.strip())
        return
    rounds = int(sys.argv[1]) if len(sys.argv) > 1 else 2
    ours, theirs = built()
    mine, other = {}, {}
    for _ in range(rounds):
        least(ours, mine)
        least(theirs, other)
    print("| measure | text | bytes | ours, microseconds | `front_like`, microseconds | ratio |\n|---|---|---:|---:|---:|---:|")
    for key, nanoseconds in mine.items():
        what, text, size = key
        beside = f"{other[key] / 1000:,.1f} | {nanoseconds / other[key]:.2f}" if key in other else " | "
        print(f"| {what} | {text} | {size:,} | {nanoseconds / 1000:,.1f} | {beside} |")


main()
