"""Counts the instructions of a parse by callgrind, for each byte of the text and by part. They do not depend on what else the machine does.

usage: bench/run instructions [--program PROGRAM] FILE..
       bench/run instructions [--program PROGRAM] --check | --write

PROGRAM is the built program rust_tree, by default the one that `./check` or `./run --prove` built. It runs `check -q --no-validation`; what
that takes on an empty file is taken off. The part of a function is with all that it calls; a function that the compiler put into its
callers has no line, and counts there. --check compares the whole of one text, the plain programs of bench/ one after another, with the number
in bench/instructions.txt, and fails if it has grown by more than 5 %; --write stores the number. Without valgrind, and while no number is
stored, --check says `not measured`, and passes.
"""
import argparse
import glob
import os
import re
import shutil
import subprocess
import sys
import tempfile

TOP = os.path.dirname(os.path.dirname(os.path.dirname(os.path.abspath(__file__))))
# Where the program was built: the copy that `./check` proves, or this repository.
PROGRAM = os.path.join(os.environ.get("BUILT") or TOP, "crates", "rust_tree", "out", "rust_tree")
STORED = os.path.join(TOP, "bench", "instructions.txt")
# How much it may grow.
MOST = 1.05
PARTS = (
    ("tokens", "rust_lexer::lexer::lex"),
    ("sights", "rust_grammar::views::sights"),
    ("events", "grammar_machine::machine::run"),
    ("where nodes begin", "event_layout::starts::find_starts"),
    ("steps, and rows of them", "event_layout::layout::walked"),
    ("of these, rows that begin", "ras_parsing::sink::TreeSink::start"),
    ("from the text to rows", "rust_front::front::whole_into"),
    ("from the text to the tree", "ras_parsing::sink::read_tree"),
)


def counted(program, path, folder):
    """The instructions of a run over a file: all, and by function, each with all that it calls."""
    out = os.path.join(folder, "callgrind")
    words = ["valgrind", "--tool=callgrind", f"--callgrind-out-file={out}", program, "check", "-q", "--no-validation", path]
    ran = subprocess.run(words, stdin=subprocess.DEVNULL, stdout=subprocess.DEVNULL, stderr=subprocess.PIPE, text=True, errors="replace")
    whole = re.search(r"Collected : (\d+)", ran.stderr)
    if ran.returncode not in (0, 1) or not whole:
        raise SystemExit(f"bench/run instructions: {path}: status {ran.returncode}\n{ran.stderr[-2000:]}")
    words = ["callgrind_annotate", "--inclusive=yes", "--threshold=100", out]
    text = subprocess.run(words, capture_output=True, text=True, errors="replace").stdout
    found = {}
    for count, name in re.findall(r"(?m)^ *([\d,]+) \([ \d.]+%\) +\S+?:(\S+)", text):
        # Without the types that a generic function was made for.
        name = name.partition("'")[0].partition("::<")[0]
        found[name] = max(found.get(name, 0), int(count.replace(",", "")))
    return int(whole[1]), found


def text_of_programs():
    """The text of --check."""
    return b"".join(open(path, "rb").read() for path in sorted(glob.glob(os.path.join(TOP, "bench", "*.rs"))))


def main():
    words = argparse.ArgumentParser(prog="bench/run instructions", description=__doc__, formatter_class=argparse.RawDescriptionHelpFormatter)
    words.add_argument("--program", default=PROGRAM, metavar="PROGRAM", help="the built program rust_tree")
    words.add_argument("--check", action="store_true", help="compares the number of one text with the stored one")
    words.add_argument("--write", action="store_true", help="stores that number")
    words.add_argument("files", nargs="*", metavar="FILE")
    given = words.parse_args()
    if given.check + given.write + bool(given.files) != 1:
        words.error("give files, or one of --check and --write")
    missing = next((it for it in ("valgrind", "callgrind_annotate") if not shutil.which(it)), None)
    if missing:
        print(f"bench/run instructions: {missing} is not here: not measured")
        return 0 if given.check else 2
    if given.check and not os.path.isfile(STORED):
        print("bench/run instructions: no number is stored: not measured")
        return 0
    if not os.access(given.program, os.X_OK):
        raise SystemExit(f"bench/run instructions: {given.program} is not built; `./run --prove` builds it")
    with tempfile.TemporaryDirectory() as folder:
        empty = os.path.join(folder, "empty.rs")
        open(empty, "w").close()
        start, _ = counted(given.program, empty, folder)
        if given.files:
            for path in given.files:
                size = max(os.path.getsize(path), 1)
                whole, found = counted(given.program, path, folder)
                print(f"{path}: {size} bytes")
                for what, name in PARTS:
                    if name in found:
                        print(f"  {what:28}{found[name] / size:8.1f} a byte")
                print(f"  {'all, with reading the file':28}{(whole - start) / size:8.1f} a byte")
            return 0
        path = os.path.join(folder, "programs.rs")
        text = text_of_programs()
        with open(path, "wb") as file:
            file.write(text)
        whole, _ = counted(given.program, path, folder)
    now = (whole - start) / len(text)
    if given.write:
        with open(STORED, "w", encoding="utf-8") as file:
            file.write(f"{now:.1f} instructions a byte, from the file to its tree, for the plain programs of bench/, one after another\n")
        return 0
    stored = float(open(STORED, encoding="utf-8").read().split()[0])
    if now > stored * MOST:
        print(f"bench/run instructions: {now:.1f} instructions a byte, and {stored:.1f} are stored: more than 5 % more")
        return 1
    print(f"bench/run instructions: {now:.1f} instructions a byte, {stored:.1f} stored")
    return 0


if __name__ == "__main__":
    sys.exit(main())
