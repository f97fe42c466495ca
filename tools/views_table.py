"""Reads the tables of the typed views, crates/ra_ap_syntax/views.txt and crates/rust_views/views.txt; the head of the first says what
their lines mean."""
import os
import re
import sys

TOP = os.path.dirname(os.path.dirname(os.path.abspath(__file__)))
TABLE, RUST_TABLE = (os.path.join("crates", crate, "views.txt") for crate in ("ra_ap_syntax", "rust_views"))
OTHERS = os.path.join("crates", "rust_kinds", "kinds.txt")
# Where the text of an example has a line break, and where an example stands in a file.
BREAK, PLACE = "⏎", "…"
DERIVES = ["Clone", "PartialEq", "Eq", "Hash", "From"]
# The enums whose kinds have a law of their own on their names too; of the other enums the definition of their kinds says as much.
WITH_LAWS = ["AnyAttr", "NameLike", "NameOrNameRef"]


def kind_of(name):
    """The kind that a view is named for: `BIN_EXPR` for `BinExpr`."""
    return re.sub(r"(?<!^)([A-Z])", r"_\1", name).upper()


class Example:
    """A piece of Rust, the view of its node, and the file around it."""

    def __init__(self, view, text, around):
        self.view, self.text, self.file = view, text.replace(BREAK, "\n"), around.replace(PLACE, text).replace(BREAK, "\n")


class Lookup:
    """A call that finds children: `way` is `first`, `second`, `all` or `token`, and `of` a view or a kind of token. Its result in its
    example has the texts `parts`. The kind of a token that has no constant in `SyntaxKind` is one of `rust_kinds`: `is_other`."""

    def __init__(self, name, way, of, text, doc, is_other=False):
        self.name, self.way, self.of, self.text, self.doc, self.is_other = name, way, of, text, doc, is_other
        self.example, self.parts = None, []


class View:
    """A kind, an enum, a trait or a view of several kinds; or what a table adds to a view of the table below it."""

    def __init__(self, name, words, traits, doc, section):
        self.name, self.words, self.traits, self.doc, self.section = name, words, traits, doc, section
        self.lookups, self.variants, self.sources, self.around, self.example = [], [], [], PLACE, None

    @property
    def kind(self):
        return kind_of(self.name)


def kinds_of_tokens():
    """What `T![..]` names: the kind of each text, from the macro's own arms."""
    with open(os.path.join(TOP, "crates", "lossless_tree", "src", "macros.rt"), encoding="utf-8") as macros:
        arms = re.findall(r"^    \[(.+?)\] => \{ \$crate::SyntaxKind::(\w+) \}", macros.read(), re.M)
    return {text.strip("'"): kind for text, kind in arms}


def other_kinds():
    """The kinds of `rust_kinds` with their numbers, and those of words by their texts."""
    with open(os.path.join(TOP, OTHERS), encoding="utf-8") as kinds:
        rows = [line.split() for line in kinds if line.strip() and not line.startswith("#")]
    return {row[1]: int(row[0]) for row in rows}, {row[2]: row[1] for row in rows if len(row) > 2}


class Table:
    """A table of views. `below` is the table that it adds to, whose views it names too."""

    def __init__(self, path=TABLE, below=None):
        self.path, self.below = path, below
        self.sections, self.kinds, self.enums, self.anys, self.traits, self.added = {}, {}, {}, {}, {}, {}
        self.tokens, self.modules, self.uses = [], [], []
        self.texts = kinds_of_tokens()
        self.numbers, self.words = other_kinds() if below else ({}, {})
        section, last = None, None
        with open(os.path.join(TOP, path), encoding="utf-8") as table:
            lines = table.read().split("\n")
        for number, line in enumerate(lines, 1):
            self.place = f"{path}:{number}"
            line, _, doc = line.partition(" // ")
            if not line.strip() or line.startswith("#"):
                continue
            if line.startswith("  "):
                self.part(last, line.strip(), doc)
                continue
            head, _, rest = line.partition(":") if not line.startswith("use") else line.partition(": ")
            first, _, name = head.partition(" ")
            name, rest = name.strip(), rest.split()
            if first == "section":
                section, last = name, None
                self.sections[name] = " ".join(rest)
            elif first == "token":
                self.tokens += name.split()
            elif first in ("mod", "pub"):
                self.modules.append(line)
            elif first in ("use", "use(crate)"):
                last = (f"pub{first[3:]}", name, rest)
                self.uses.append(last)
            elif first in ("enum", "any", "trait"):
                name, _, words = name.partition(" ")
                last = View(name, re.findall(r"\w[\w ]*", words) if first == "trait" else words.strip("[]").split(), rest, doc, None)
                {"enum": self.enums, "any": self.anys, "trait": self.traits}[first][name] = last
                if first == "enum" and not words:
                    last.words = list(DERIVES)
            elif first == "on":
                last = View(name, [], rest, doc, section)
                self.added[name] = last
            elif re.fullmatch(r"\w+", line.partition(":")[0]):
                last = View(first.rstrip(":"), [], rest, doc, section)
                self.kinds[last.name] = last
            else:
                self.stop("a line that is none of those that the head lists")
        self.check()

    def stop(self, what):
        sys.exit(f"tools/views: {self.place}: {what}")

    def part(self, last, line, doc):
        """An indented line: what it says of the view above it."""
        if isinstance(last, tuple):
            last[2].extend(line.split())
        elif line[0] in "=|":
            words = [word.partition(":") for word in line[1:].replace("|", " ").split()]
            last.variants += [(variant, of or variant) for variant, _, of in words]
        elif line.startswith("from "):
            last.sources += line.split()[1:]
        elif line.startswith("within "):
            last.around = line.removeprefix("within ")
        elif line.startswith("eg "):
            text, view = line.removeprefix("eg "), last.name
            if last.name in self.traits:
                view, _, text = text.partition(": ")
            last.example = Example(view, text, last.around)
        elif found := re.fullmatch(r"(\w+) = (?:'(\S+)'|([A-Z][A-Z_0-9]+)|(\w+)(\*|\[2\])?)((?: `[^`]+`)*)", line):
            name, text, kind, view, many, parts = found.groups()
            if text and text not in self.texts and text not in self.words:
                self.stop(f"no token is written {text}")
            way = "token" if text or kind else {"*": "all", "[2]": "second"}.get(many, "first")
            of = view or kind or self.texts.get(text) or self.words[text]
            lookup = Lookup(name, way, of, text, doc, way == "token" and of in self.numbers)
            lookup.example, lookup.parts = last.example, re.findall(r"`([^`]+)`", parts.replace(BREAK, "\n")) or [text] * bool(text)
            if last.example and not lookup.parts:
                self.stop("the lookup is below an example, and it is not told what part of it it returns")
            last.lookups.append(lookup)
        else:
            self.stop("a part that is none of those that the head lists")

    def check(self):
        """Whether each name that a line mentions is one of the table."""
        below = {**self.below.kinds, **self.below.enums} if self.below else {}
        views, traits = {**below, **self.kinds, **self.enums}, {**(self.below.traits if self.below else {}), **self.traits}
        for view in [*self.kinds.values(), *self.enums.values(), *self.anys.values(), *self.traits.values(), *self.added.values()]:
            named = [lookup.of for lookup in view.lookups if lookup.way != "token"] + [of for _, of in view.variants]
            lost = [it for it in named if it not in views] + [it for it in view.traits if it not in traits]
            lost += [it for it in view.sources if it not in self.enums]
            lost += [view.name] * (view.name not in below if view.name in self.added else not view.doc)
            if lost:
                sys.exit(f"tools/views: {self.path}: {view.name}: there is no {lost[0]}, or it has no documentation")

    def with_laws(self):
        """The kinds that have a law of their own on their names."""
        within = {of for enum in self.enums.values() if enum.name not in WITH_LAWS for _, of in enum.variants}
        return [kind for kind in self.kinds.values() if kind.name not in within]

    def having(self, trait):
        """The views that have a shared trait, by name."""
        views = [*self.kinds.values(), *self.enums.values(), *self.anys.values()]
        return sorted(view.name for view in views if trait in view.traits)
