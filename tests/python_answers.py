#!/usr/bin/env python3
r"""Compares what the accessors of the Python module return with what the program `answers_views` printed.

usage: python_answers.py TEXTS ANSWERS   TEXTS has a text on each line, with `\n` for its line feeds; ANSWERS is what `answers_views texts`
                                         printed of them

It needs the module. The exit status is 0 if no answer differs, and at least LEAST were compared.
"""
import sys

import ras
import ras.ast as views

LEAST = 50_000


def shown(found):
    """What an accessor returns, as that program prints it."""
    if found is None:
        return "-"
    if isinstance(found, list):
        return f"[ {''.join(f'{shown(it)} ' for it in found)}]"
    if isinstance(found, views.View):
        it = found.syntax
        return f'{it.kind}@{it.start}..{it.end} "{it.text}"'
    return repr_of(found)


def repr_of(token):
    """A token with its text, as the library's dump prints it; None where that cuts or escapes the text."""
    plain = len(token.text) < 25 and token.text.isascii() and token.text.isprintable() and not set(token.text) & set("\"'\\")
    return f'{token.kind}@{token.start}..{token.end} "{token.text}"' if plain else None


def parts_of(output, nodes, at):
    """The output of each node, from its own line on, and where the last one ends."""
    heads = [output.index(f"\n{it.kind}@{it.start}..{it.end}\n", at) for it in nodes[:1]]
    for it in nodes[1:]:
        heads.append(output.index(f"\n{it.kind}@{it.start}..{it.end}\n", heads[-1] + 1))
    return heads


def read(name):
    with open(name, encoding="utf-8", newline="") as file:
        return file.read()


def main(texts, answers):
    texts, output = read(texts).split("\n")[:-1], "\n" + read(answers)
    at, compared, wrong, calls = 0, 0, [], set()
    for line in texts:
        nodes = [it for it in ras.parse(line.replace("\\n", "\n")).root.descendants() if not it.is_token]
        heads = parts_of(output, nodes, at)
        for it, head, end in zip(nodes, heads, [*heads[1:], heads[-1] + 200_000]):
            view = views.View.cast(it)
            names = [key for key in dir(view) if isinstance(getattr(type(view), key, None), property) and key != "text"] if view else []
            for key in names:
                call, answer = f"{type(view).__name__}.{key}", shown(getattr(view, key))
                found = output.find(f"\n  {call} = ", head, end)
                if found < 0 or answer is None:
                    continue
                compared += 1
                calls.add(call)
                if not output.startswith(f"\n  {call} = {answer}\n", found):
                    wrong.append(f"{line}: {call} is {answer}, and not {output[found + 1 : found + 80]!r}")
        at = heads[-1] + 1
    print(f"python: {compared} answers of {len(calls)} accessors are compared, {len(wrong)} differ", *wrong[:20], sep="\n")
    return 1 if wrong or compared < LEAST else 0


if __name__ == "__main__":
    if len(sys.argv) != 3:
        sys.exit(__doc__)
    sys.exit(main(*sys.argv[1:]))
