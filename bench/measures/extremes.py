"""Runs each command of the built program on a text of 10 MB and on texts that nest 10,000 and 100,000 deep, and prints time and memory.

usage: bench/run extremes [PROGRAM]

Each row is one run of the whole command with reading and printing, with 12 GB of address space. If a run is refused, its line has the
refusal: a dump's indentation grows with the square of the depth, and the whole dump is in memory before the first byte is written.
"""
import os
import resource
import subprocess
import sys
import time

TOP = os.path.dirname(os.path.dirname(os.path.dirname(os.path.abspath(__file__))))
SIZE = 10_000_000
ROOM = 12 << 30
FUNCTION = "fn name() {\n    let mut sum = a + b * (c - 1);\n    f(sum, 2)[0].g()?;\n}\n"


def measured(program, command, text):
    """The seconds and megabytes of a run, how many bytes it wrote, and what it wrote first."""
    begun = time.monotonic()
    run = subprocess.Popen(
        [program, command],
        stdin=subprocess.PIPE,
        stdout=subprocess.PIPE,
        preexec_fn=lambda: resource.setrlimit(resource.RLIMIT_AS, (ROOM, ROOM)),
    )
    # The program reads all before it writes.
    run.stdin.write(text.encode())
    run.stdin.close()
    first = run.stdout.read(80)
    written = len(first)
    while piece := run.stdout.read1(1 << 20):
        written += len(piece)
    _, status, usage = os.wait4(run.pid, 0)
    seconds, megabytes = time.monotonic() - begun, usage.ru_maxrss / 1024
    said = first.decode().strip() if os.waitstatus_to_exitcode(status) else f"{written:,} bytes"
    return seconds, megabytes, said


def nested(depth):
    """For each command, a name and an input that nests so deep."""
    pairs = "(" * depth + "a" + ")" * depth
    file = f"fn f() {{ {pairs} }}"
    inner = file.index("a")
    yield "events", "", "enter PAREN_EXPR\n" * depth + "token IDENT a\n" + "exit\n" * depth
    yield "dump", "", file
    yield "reparse", ", the name inside", f"{inner} {inner + 1}\nb\n{file}"
    yield "parens", "", pairs


def large():
    """For each command, a name and an input of 10 MB."""
    leaf = "token IDENT name\n"
    file = FUNCTION * (SIZE // len(FUNCTION))
    middle = file.index("name", SIZE // 2)
    yield "events", "", "enter SOURCE_FILE\n" + leaf * (SIZE // len(leaf)) + "exit\n"
    yield "dump", "", file
    yield "reparse", ", a name in the middle", f"{middle} {middle + 4}\nother\n{file}"
    yield "parens", "", "a" + " + a" * (SIZE // 4)


def main():
    if sys.argv[1:2] in (["--help"], ["-h"]):
        print(__doc__.strip())
        return
    program = sys.argv[1] if len(sys.argv) > 1 else os.path.join(TOP, "crates", "syntax_tool_main", "out", "syntax_tool_main")
    print("| command | input | seconds | MB | answer |\n|---|---|---:|---:|---|")
    for size, inputs in (("10 MB", large()), ("10,000 deep", nested(10_000)), ("100,000 deep", nested(100_000))):
        for command, more, text in inputs:
            seconds, megabytes, said = measured(program, command, text)
            print(f"| `{command}` | {size}{more} | {seconds:.2f} | {megabytes:,.0f} | {said} |", flush=True)


main()
