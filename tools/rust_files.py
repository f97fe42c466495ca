"""Lists of Rust files, as scripts take them, and what a command of rust_tree prints of such files."""
import json
import os
import subprocess

# How many files a run gets at most.
MOST = 500


def listed(path, edition="2024"):
    """The files of a list, each behind its edition. A line is an edition, a tab and a path, or a path of the edition `edition`."""
    with open(path, encoding="utf-8") as lines:
        for line in lines:
            own, _, name = line.rstrip("\n").rpartition("\t")
            if name:
                yield own or edition, name


def below(names, edition="2024"):
    """These files, and all `.rs` files of those that are folders, each behind the edition."""
    for name in names:
        if not os.path.isdir(name):
            yield edition, name
        for folder, folders, inside in os.walk(name):
            folders.sort()
            for one in sorted(inside):
                if one.endswith(".rs"):
                    yield edition, os.path.join(folder, one)


def objects(program, words, edition, names):
    """The objects that a command of the program prints of these files with `--format json`."""
    for start in range(0, len(names), MOST):
        command = [program, *words, "--format", "json", "--edition", edition, *names[start : start + MOST]]
        run = subprocess.run(command, stdout=subprocess.PIPE, stderr=subprocess.PIPE)
        if run.returncode not in (0, 1):
            raise SystemExit(f"{program} {words[0]} ended with status {run.returncode}: {run.stderr.decode('utf-8', 'replace')[-2000:]}")
        yield from map(json.loads, run.stdout.splitlines())
