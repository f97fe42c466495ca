"""Times the built program's commands over growing inputs, and prints nanoseconds per operator, or per byte, and the memory.

usage: bench/run commands [PROGRAM]

`parens` reads expressions of 1,000 to 1,000,000 operators, of seven shapes: flat sums, nested pairs, pairs before `<<`,
prefixes, postfixes, arguments in arguments, and mixed. `dump` reads files of 10,000 to 10,000,000 bytes. `reparse` edits one token, or
one block, in the middle of a file of 1,000,000 bytes. Each time is that of the whole command with reading and printing, the minimum of
three runs.
"""
import os
import resource
import subprocess
import sys
import time

TOP = os.path.dirname(os.path.dirname(os.path.dirname(os.path.abspath(__file__))))
SHAPES = {
    "flat": lambda n: "a" + " + a" * n,
    "nested pairs": lambda n: "(" * n + "a" + ")" * n,
    "pairs before <<": lambda n: "(" * n + "a" + " << a)" * n,
    "prefixes": lambda n: "-" * n + "a",
    "postfixes": lambda n: "a" + ".b" * n,
    "arguments": lambda n: "f(" * n + "a" + ")" * n,
    "mixed": lambda n: "a" + " + (a * -b.c)" * n,
}
FUNCTION = "fn name(x) {\n    let mut sum = a + b * (c - 1);\n    f(sum, 2)[0].g()?;\n}\n".replace("(x)", "()")


def timed(program, command, text):
    """The least seconds of three runs, and how many bytes were written."""
    least, written = float("inf"), 0
    for _ in range(3):
        begun = time.monotonic()
        done = subprocess.run([program, command], input=text.encode(), stdout=subprocess.PIPE, check=True)
        least, written = min(least, time.monotonic() - begun), len(done.stdout)
    return least, written


def main():
    if sys.argv[1:2] in (["--help"], ["-h"]):
        print(__doc__.strip())
        return
    program = sys.argv[1] if len(sys.argv) > 1 else os.path.join(TOP, "crates", "syntax_tool_main", "out", "syntax_tool_main")
    print("| `parens` | operators | ns an operator |\n|---|---|---|")
    for name, shape in SHAPES.items():
        for count in (1_000, 10_000, 100_000, 1_000_000):
            seconds, _ = timed(program, "parens", "--all", shape(count))
            print(f"| {name} | {count:,} | {seconds * 1e9 / count:,.0f} |", flush=True)
    print("\n| `dump`: bytes | written | ns a byte |\n|---|---|---|")
    for size in (10_000, 100_000, 1_000_000, 10_000_000):
        text = FUNCTION * (size // len(FUNCTION))
        seconds, written = timed(program, "dump", text)
        print(f"| {len(text):,} | {written:,} | {seconds * 1e9 / len(text):,.0f} |", flush=True)
    print("\n| `reparse` of 1,000,000 bytes | seconds |\n|---|---|")
    text = FUNCTION * (1_000_000 // len(FUNCTION))
    middle = text.index("fn", len(text) // 2)
    for name, start, end, insert in (
        ("a name", middle + 3, middle + 7, "other"),
        ("within a block", middle + 16, middle + 16, "1;"),
        ("between items", middle, middle, "fn g() {} "),
    ):
        seconds, _ = timed(program, "reparse", f"{start} {end}\n{insert}\n{text}")
        print(f"| {name} | {seconds:.2f} |", flush=True)
    print(f"\nAt most {resource.getrusage(resource.RUSAGE_CHILDREN).ru_maxrss / 1024:,.0f} MB in a run.")


main()
