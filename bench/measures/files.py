"""Times the commands of rust_tree over a list of files and over one file of 10 MB, and prints processor time and memory.

usage: bench/run files [--theirs PROGRAM] [--every N] [--rounds N] PROGRAM LIST

PROGRAM is the built program rust_tree. Each line of LIST is a file, or an edition, a tab and a file; --every takes each N-th. The file of
10 MB is made of these files, one after another. A time is the processor time, of the user and the system, of a whole command with
reading and printing, to /dev/null, the minimum of N rounds (3); the memory is the peak of a process. `highlight` takes one file, so
one process runs for each file. The program of --theirs reads the files of a list with rust-analyzer's lexer and parser, as
`PROGRAM --list LIST -`, and makes no trees of nodes.
"""
import argparse
import os
import subprocess
import sys
import tempfile

TOP = os.path.dirname(os.path.dirname(os.path.dirname(os.path.abspath(__file__))))
sys.path.insert(0, os.path.join(TOP, "tools"))
sys.dont_write_bytecode = True
import rust_files

SIZE = 10_000_000
COMMANDS = (
    ("check", ["check"]), ("outline", ["outline"]), ("query 'FN > NAME'", ["query", "FN > NAME"]),
    ("query '*//IF_EXPR//CALL_EXPR'", ["query", "*//IF_EXPR//CALL_EXPR"]), ("query '*'", ["query", "*"]), ("tokens", ["tokens"]),
    ("tree", ["tree"]), ("highlight", ["highlight"]),
)


def read(name):
    with open(name, encoding="utf-8", newline="") as file:
        return file.read()


def listed(path, every):
    """Pairs of an edition and a file, of those that are UTF-8."""
    for edition, name in list(rust_files.listed(path))[::every]:
        try:
            read(name)
        except UnicodeDecodeError:
            continue
        yield edition, name


def text_of_size(files):
    """The texts of the files, one after another and over again, up to 10 MB."""
    texts, size = [], 0
    while size < SIZE:
        before = size
        for _, name in files:
            if size < SIZE:
                texts.append(read(name))
                size += len(texts[-1].encode("utf-8"))
        if size == before:
            raise SystemExit("bench/run files: the files have no text")
    return "".join(texts).encode("utf-8")[:SIZE].decode("utf-8", "ignore")


def measured(runs, rounds):
    """The least processor time of some rounds of these runs, in seconds, and the most megabytes of a process."""
    least, most = float("inf"), 0
    with tempfile.NamedTemporaryFile("r+") as said:
        for _ in range(rounds):
            seconds = 0.0
            for words in runs:
                # Not by `os.wait4`, which counts the memory of this process too.
                timed = ["/usr/bin/time", "-q", "-o", said.name, "-f", "%U %S %M", *words]
                run = subprocess.run(timed, stdin=subprocess.DEVNULL, stdout=subprocess.DEVNULL, stderr=subprocess.DEVNULL)
                if run.returncode not in (0, 1):
                    raise SystemExit(f"bench/run files: {' '.join(words[:3])}: status {run.returncode}")
                said.seek(0)
                user, system, room = map(float, said.read().split())
                most = max(most, room / 1024)
                seconds += user + system
            least = min(least, seconds)
    return least, most


def runs_of(program, words, files):
    """The processes that run a command over these files."""
    for edition in sorted({edition for edition, _ in files}):
        names = [name for its, name in files if its == edition]
        for some in ([name] for name in names) if words == ["highlight"] else [names]:
            yield [program, *words, "--edition", edition, *some]


def main():
    words = argparse.ArgumentParser(prog="bench/run files", description=__doc__, formatter_class=argparse.RawDescriptionHelpFormatter)
    words.add_argument("program", metavar="PROGRAM", help="the built program rust_tree")
    words.add_argument("list", metavar="LIST", help="a list of files")
    words.add_argument("--theirs", metavar="PROGRAM", help="a program with rust-analyzer's lexer and parser")
    words.add_argument("--every", type=int, default=1, metavar="N", help="takes only each N-th file")
    words.add_argument("--rounds", type=int, default=3, metavar="N", help="the number of rounds (default: 3)")
    given = words.parse_args()
    files = list(listed(given.list, given.every))
    size = sum(os.path.getsize(name) for _, name in files)
    with tempfile.TemporaryDirectory() as folder:
        large = os.path.join(folder, "large.rs")
        with open(large, "w", encoding="utf-8", newline="") as out:
            out.write(text_of_size(files))
        whole = [("2024", large)]
        print(f"| command | {len(files):,} files, {size / 1e6:.1f} MB: seconds | files a second | MB of memory | one file, {os.path.getsize(large) / 1e6:.1f} MB: seconds | ns a byte | MB of memory |")
        print("|---|---:|---:|---:|---:|---:|---:|", flush=True)

        def row(name, many, one):
            seconds, room = measured(many, given.rounds)
            alone, room_alone = measured(one, given.rounds)
            print(f"| {name} | {seconds:.2f} | {len(files) / seconds:,.0f} | {room:,.0f} | {alone:.2f} | {alone * 1e9 / os.path.getsize(large):.0f} | {room_alone:,.0f} |", flush=True)

        for name, command in COMMANDS:
            row(f"`{name}`", list(runs_of(given.program, command, files)), list(runs_of(given.program, command, whole)))
        if given.theirs:
            lists = []
            for name, some in (("many", files), ("one", whole)):
                lists.append(os.path.join(folder, name))
                with open(lists[-1], "w", encoding="utf-8") as out:
                    out.writelines(f"{edition}\t{file}\n" for edition, file in some)
            row("rust-analyzer, no nodes", *([[given.theirs, "--list", one, "-"]] for one in lists))


if __name__ == "__main__":
    main()
