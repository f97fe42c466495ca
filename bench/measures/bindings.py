"""Times the library for C, cargo and Python: reading a text, a walk over its tree, an edit, and the first node from Python.

usage: bench/run bindings [--theirs PROGRAM] [--rounds N] [--turns N] [--count LINE].. [--sources FOLDER] [FILE..]

The library is the one in crates/ras_c/out, where `./run --lib` puts it. For each file it prints the minimum processor time of N rounds
(20). With a folder of Rust sources it makes three files of 20 KB, 200 KB and 1.6 MB, by joining the sources without inner attributes
in the order of their names. PROGRAM prints lines of its own for `PROGRAM --bench FILE N`; they are printed below, by processor time if
they have it. With --turns both run so often, in turn, and the minimum of all is printed. With --count the instructions of the lines of
that name are printed too, for each byte, by valgrind: those of three rounds without those of one, halved. Then nothing that the library
makes is dropped; PROGRAM takes the name of a line behind N, and may drop what it makes.
"""
import argparse
import os
import re
import subprocess
import sys
import tempfile

TOP = os.path.dirname(os.path.dirname(os.path.dirname(os.path.abspath(__file__))))
RUST = os.path.join(TOP, "bindings", "rust")
SIZES = {"20KB.rs": 20_000, "200KB.rs": 200_000, "1600KB.rs": 1_600_000}
# A process of its own for each round: the first node needs the module, the library and the names of kinds too.
FIRST = """
import sys, time
text = open(sys.argv[1], encoding="utf-8").read()
begun = time.process_time()
import ras
loaded = time.process_time()
node = next(iter(ras.parse(text).root.children()))
print(loaded - begun, time.process_time() - loaded)
"""


def made(sources, folder):
    """Files of the three sizes, of the sources below a folder."""
    paths = sorted(os.path.join(at, name) for at, _, names in os.walk(sources) for name in names if name.endswith(".rs"))
    texts = (open(path, encoding="utf-8", errors="replace").read() for path in paths)
    joined = ""
    for name, size in SIZES.items():
        while len(joined.encode()) < size:
            text = next(texts, None)
            if text is None:
                sys.exit(f"bench/run bindings: {sources} has fewer than {size} bytes of sources")
            joined += "" if "#![" in text or "//!" in text else text
        path = os.path.join(folder, name)
        open(path, "w", encoding="utf-8").write(joined)
        yield path


def first_node(path, rounds):
    """The least seconds to load the module, and then to a first node."""
    env = {**os.environ, "PYTHONPATH": os.path.join(TOP, "bindings", "python"), "PYTHONDONTWRITEBYTECODE": "1"}
    runs = [subprocess.run([sys.executable, "-c", FIRST, path], env=env, capture_output=True, text=True, check=True).stdout.split() for _ in range(rounds)]
    return [min(float(run[n]) for run in runs) for n in (0, 1)]


def figures(command, found):
    """Runs a program, and keeps the least figure of each of its lines `NAME: FIGURE UNIT`, or `.. (cpu FIGURE)`."""
    for line in subprocess.run(command, capture_output=True, text=True, check=True).stdout.splitlines():
        match = re.match(r"(.+): ([\d.]+) (\S+?),?(?: \(cpu ([\d.]+)\).*)?$", line)
        if match:
            name, wall, unit, processor = match.groups()
            found[name, unit] = min(found.get((name, unit), float("inf")), float(processor or wall))


def instructions(command, path, line):
    """The instructions of one round of a line, for each byte of the file."""
    counts = []
    for rounds in ("1", "3"):
        words = ["valgrind", "--tool=cachegrind", "--cache-sim=no", "--cachegrind-out-file=/dev/null", *command, path, rounds, line]
        told = subprocess.run(words, capture_output=True, text=True, check=True).stderr
        counts.append(int(re.search(r"I\s+refs:\s+([\d,]+)", told)[1].replace(",", "")))
    return (counts[1] - counts[0]) / 2 / os.path.getsize(path)


def main():
    words = argparse.ArgumentParser(prog="bench/run bindings", description=__doc__, formatter_class=argparse.RawDescriptionHelpFormatter)
    words.add_argument("--theirs", metavar="PROGRAM", help="a program with rust-analyzer's lexer and parser")
    words.add_argument("--rounds", type=int, default=20, metavar="N", help="the number of rounds (default: 20)")
    words.add_argument("--turns", type=int, default=1, metavar="N", help="how often the programs run, in turn (default: 1)")
    words.add_argument("--count", action="append", default=[], metavar="LINE", help="also count the instructions of a line, as 'Tree::parse'")
    words.add_argument("--sources", metavar="FOLDER", help="a folder of Rust sources, of which three files are made")
    words.add_argument("files", nargs="*", metavar="FILE")
    given = words.parse_args()
    with tempfile.TemporaryDirectory(prefix="bench-") as folder:
        env = {**os.environ, "CARGO_TARGET_DIR": os.path.join(folder, "cargo")}
        subprocess.run(["cargo", "build", "--offline", "--quiet", "--release", "--example", "measure"], cwd=RUST, env=env, check=True)
        program = os.path.join(folder, "cargo", "release", "examples", "measure")
        for path in [*given.files, *(made(given.sources, folder) if given.sources else [])]:
            print(f"{os.path.basename(path)}:")
            ours, theirs = {}, {}
            for _ in range(given.turns):
                figures([program, path, str(given.rounds)], ours)
                if given.theirs:
                    figures([given.theirs, "--bench", path, str(given.rounds)], theirs)
            for what, found in (("", ours), ("theirs: ", theirs)):
                for (name, unit), figure in found.items():
                    print(f"{what}{name}: {figure:.2f} {unit}", flush=True)
            for command, what, found in (([program], "", ours), ([given.theirs, "--bench"], "theirs: ", theirs)):
                for name in (it for it, _ in found if it in given.count):
                    print(f"{what}{name}: {instructions(command, path, name):.1f} instructions/byte", flush=True)
            load, first = first_node(path, min(given.rounds, 10))
            print(f"python: the module is loaded in {load * 1e3:.1f} ms, and then the first node is there in {first * 1e3:.2f} ms", flush=True)


if __name__ == "__main__":
    main()
