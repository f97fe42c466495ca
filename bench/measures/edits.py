"""Counts the instructions of random edits: those of a document beside those of a reparse, which may give another tree than a new parse.

usage: bench/run edits [--edits N] [--seed SEED] [--program PROGRAM] FILE..

Each file gets N edits by chance (4), one after the other: once by `Document::edit`, once by `Parse::reparse`, and once by neither, to which
the others are compared. PROGRAM is the built program rust_corpus, by default the one that `tools/built rust_corpus` makes. It is run by
valgrind, so what else the machine does is no matter.
"""
import argparse
import os
import re
import subprocess

TOP = os.path.dirname(os.path.dirname(os.path.dirname(os.path.abspath(__file__))))
PROGRAM = os.path.join(TOP, "crates", "rust_corpus", "out", "rust_corpus")


def counted(program, turn, edits, seed, text):
    """The instructions of one run over a list of files."""
    words = ["valgrind", "--tool=cachegrind", "--cache-sim=no", "--cachegrind-out-file=/dev/null", program, f"turns-of-{turn}", str(edits), str(seed)]
    ran = subprocess.run(words, input=text, capture_output=True, text=True, errors="replace")
    found = re.search(r"I +refs: +([\d,]+)", ran.stderr)
    if ran.returncode or not found:
        raise SystemExit(f"bench/run edits: status {ran.returncode}\n{ran.stderr[-2000:]}")
    return int(found[1].replace(",", ""))


def main():
    words = argparse.ArgumentParser(prog="bench/run edits", description=__doc__, formatter_class=argparse.RawDescriptionHelpFormatter)
    words.add_argument("--edits", type=int, default=4)
    words.add_argument("--seed", type=int, default=1)
    words.add_argument("--program", default=PROGRAM)
    words.add_argument("files", nargs="+", metavar="FILE")
    given = words.parse_args()
    text = "".join(f"2024\t{os.path.abspath(file)}\n" for file in given.files)
    none, reparse, document = (counted(given.program, turn, given.edits, given.seed, text) for turn in ("none", "reparse", "document"))
    count = given.edits * len(given.files)
    print(f"{count} edits: reparse {(reparse - none) / count:,.0f} instructions an edit, a document {(document - none) / count:,.0f}, "
          f"{(document - none) / (reparse - none):.3f} times")


if __name__ == "__main__":
    main()
