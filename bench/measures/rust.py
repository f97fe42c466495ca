"""Times the lexer and the front end for Rust on files, and rust-analyzer's own lexer and parser if a program with them is given.

usage: bench/run rust [--theirs PROGRAM] [--rounds N] FILE..

Proves and builds `benches` first. For each file it prints the minimum of N rounds (20), in nanoseconds per byte: lexing, from the text to
steps, from the text to the tree. PROGRAM prints lines of its own for `PROGRAM --bench FILE N`; they are printed below.
"""
import argparse
import os
import subprocess
import sys

TOP = os.path.dirname(os.path.dirname(os.path.dirname(os.path.abspath(__file__))))
sys.path.insert(0, os.path.join(TOP, "tools"))
sys.dont_write_bytecode = True
import repository


def main():
    words = argparse.ArgumentParser(prog="bench/run rust", description=__doc__, formatter_class=argparse.RawDescriptionHelpFormatter)
    words.add_argument("--theirs", metavar="PROGRAM", help="a program with rust-analyzer's lexer and parser")
    words.add_argument("--rounds", default="20", metavar="N", help="the number of rounds (default: 20)")
    words.add_argument("files", nargs="+", metavar="FILE")
    given = words.parse_args()
    program = repository.built("benches")
    for name in given.files:
        print(f"{name}:")
        ours = subprocess.run([program, "rust", name, given.rounds], capture_output=True, text=True).stdout
        theirs = subprocess.run([given.theirs, "--bench", name, given.rounds], capture_output=True, text=True).stdout if given.theirs else ""
        for line in ours.splitlines():
            print(f"  {line}")
        for line in theirs.splitlines():
            print(f"  theirs: {line}")


if __name__ == "__main__":
    main()
