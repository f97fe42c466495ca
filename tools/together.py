"""Makes one crate of several programs, and one of several crates' tests, in a copy of the repository: without proof what they depend on is
then built once, where it took most of the time of each. `check` runs them."""
import os
import re
import tempfile

import repository

PROGRAMS, TESTS = "every_program", "every_test"
# The rest of the standard input is the program's, so no more than the first line is read of it.
DISPATCH = """//! Runs the program that the first line of standard input names.
#![tactic(auto)]

use std::io::Read;
use std::process::ExitCode;

trait Ended {{
    fn status(self) -> anyhow::Result<ExitCode>;
}}

impl Ended for () {{
    fn status(self) -> anyhow::Result<ExitCode> {{
        Ok(ExitCode::SUCCESS)
    }}
}}

impl Ended for ExitCode {{
    fn status(self) -> anyhow::Result<ExitCode> {{
        Ok(self)
    }}
}}

impl<T: Ended, E> Ended for Result<T, E>
where
    anyhow::Error: From<E>,
{{
    fn status(self) -> anyhow::Result<ExitCode> {{
        self?.status()
    }}
}}

fn first_line(rt: &HostRuntime) -> anyhow::Result<String> {{
    let mut line = String::new(rt.alloc());
    let mut byte = [0u8];
    let mut reader = rt.reader();
    while reader.read(&mut byte)? == 1 && byte[0] != b'\\n' {{
        line.push(byte[0] as char)?;
    }}
    Ok(line)
}}

fn main(rt: HostRuntime) -> anyhow::Result<ExitCode> {{
    match first_line(&rt)?.as_str() {{
{arms}        _ => Ok(ExitCode::FAILURE),
    }}
}}
"""


def read(path):
    with open(path, encoding="utf-8") as file:
        return file.read()


def write(path, text):
    os.makedirs(os.path.dirname(path), exist_ok=True)
    with open(path, "w", encoding="utf-8") as file:
        file.write(text)


def add(crates, name, uses, file, text):
    """Adds a crate of one file to the repository."""
    crates.named[name] = list(dict.fromkeys(uses))
    write(os.path.join(crates.folder(name), "src", file), text)
    with open(os.path.join(crates.top, "crates.txt"), "a", encoding="utf-8") as lines:
        lines.write(f"{name}: {' '.join(crates.named[name])}\n")


def add_programs(crates, names):
    """Adds the crate of these programs, each of which becomes a library whose `main` is public."""
    for name in names:
        main = os.path.join(crates.folder(name), "src", "main.rt")
        write(os.path.join(os.path.dirname(main), "lib.rt"), re.sub(r"(?m)^fn main\(", "pub fn main(", read(main)))
        os.remove(main)
    arms = "".join(f'        "{name}" => {name}::main(rt).status(),\n' for name in names)
    add(crates, PROGRAMS, [*names, "anyhow"], "main.rt", DISPATCH.format(arms=arms))


def add_tests(crates, names):
    """Adds the crate of these crates' tests, each of which becomes a module: a test is of the crate that is built."""
    add(crates, TESTS, [it for name in names for it in crates.named[name]], "lib.rt", "".join(f"mod {name};\n" for name in names))
    for name in names:
        for path in crates.files(name, ["src"]):
            place = os.path.relpath(path, os.path.join(crates.folder(name), "src"))
            place = f"{name}.rt" if place in ("lib.rt", "main.rt") else os.path.join(name, place)
            text = re.sub(r"(?m)^#!\[.*\]\n", "", read(path)).replace("crate::", f"crate::{name}::")
            write(os.path.join(crates.folder(TESTS), "src", place), text)


def run_programs(crates, names, given):
    """Runs these programs of the crate that was added, and yields of each its name, whether it ended as it should, and what was said of it.
    `given(name, file)` has the bytes of its files stdin, args, stdout and status."""
    data = [(os.path.basename(path), path) for name in names for path in crates.files(name, ["data"])]
    with tempfile.TemporaryDirectory() as cases:
        for name in names:
            files = {name: name.encode() + b"\n" + given(name, "stdin")}
            files |= {f"{name}.{file}": given(name, file) for file in ("args", "stdout")}
            for case, text in files.items():
                with open(os.path.join(cases, case), "wb") as file:
                    file.write(text)
        _, _, said = repository.run_unproved(crates, PROGRAMS, data=data, cases=cases)
    # A line for each program follows what was said of it.
    *parts, rest = re.split(r"(?m)^case=(\w+) (.*)\n", said.decode(errors="replace"))
    ended = {name: (text, line) for text, name, line in zip(parts[::3], parts[1::3], parts[2::3])}
    for name in names:
        text, line = ended.get(name, (rest, "it was not run"))
        status = int(given(name, "status") or b"0")
        is_well = re.match(rf"run=ended status={status} .*\boutput=expected ", line) is not None
        yield name, is_well, f"{text[-3000:]}{line}, status {status} is due\n"


def run_tests(crates, names):
    """Runs these crates' tests of the crate that was added, and yields of each its name, whether all passed, their number, and what was
    said."""
    status, output, said = repository.run_unproved(crates, TESTS, is_test=True)
    output = output.decode(errors="replace")
    is_whole = status == 0 or "\ntest result: FAILED. " in output
    for name in names:
        # What is said of a test that fails follows its line.
        tests = re.findall(rf"(?m)^test {name}::\S+ \.\.\. .*\n(?:    .*\n)*", output)
        failed = [it for it in tests if not it.endswith("... ok\n")]
        text = "".join(failed) or said.decode(errors="replace")
        yield name, is_whole and bool(tests) and not failed, len(tests), text[-4000:]
