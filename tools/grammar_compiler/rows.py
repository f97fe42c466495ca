"""The rows of tests/rust_rows.txt: texts with their trees, and the rules that read them."""
import collections
import re

from .language import GrammarError, kind_of_word
from .running import Raw, Run

# The rules by which rust_tree reads a text. The rows of another rule that can be asked for have its name as their entry.
ENTRIES = {"file": "source_file", "expr": "whole_expr"}
TRIVIA = ("WHITESPACE", "COMMENT")
# A row: the line where it begins, what reads it, the edition, the rules that it shows, the text, and the tree with its errors
Row = collections.namedtuple("Row", "line entry edition rules text dump")
ELEMENT = re.compile(r'( *)(\w+)@(\d+)\.\.(\d+)( ".*")?')


def rows(text):
    """The rows of a file's text."""
    front, *parts = re.split(r"(?m)^== ", text)
    line = 1 + front.count("\n")
    for part in parts:
        head, _, dump = part.partition("\n-- \n")
        first, _, text = head.partition("\n")
        entry, *rules = first.split()
        edition = rules.pop(0) if rules and rules[0].isdigit() else "2024"
        yield Row(line, entry, edition, rules, text + "\n", dump.rstrip("\n"))
        line += part.count("\n")


class Stored:
    """The tree of a row without white space and comments, its errors, and its tokens as the lexer cuts them."""

    def __init__(self, row, grammar):
        self.tokens, self.errors = [], []
        text, places, above = row.text.encode(), [], [(-1, [])]
        for line in row.dump.split("\n"):
            element = ELEMENT.fullmatch(line)
            if not element:
                self.errors.append(re.match(r"error \d+\.\.\d+: (.*)", line)[1].replace("␊", "\n"))
                continue
            blanks, kind, begin, end, leaf = element.groups()
            if kind in TRIVIA:
                continue
            while above[-1][0] >= len(blanks):
                above.pop()
            if leaf:
                above[-1][1].append(kind)
                places += cut(grammar, row.edition, kind, text[int(begin) : int(end)].decode(), int(begin))
            else:
                above[-1][1].append((kind, []))
                above.append((len(blanks), above[-1][1][-1][1]))
        self.tree = above[0][1][0]
        places = with_floats(places, text)
        for number, (kind, it, begin) in enumerate(places):
            behind = places[number + 1][2] if number + 1 < len(places) else None
            self.tokens.append(Raw(kind, it, behind == begin + len(it.encode())))


def cut(grammar, edition, kind, text, begin):
    """The tokens that a leaf of a tree is for the lexer, each with its kind, its text and its place."""
    number = grammar.kinds.index(kind)
    if grammar.joint.get(text) == number:
        return [(grammar.kinds[grammar.texts[sign]], sign, begin + at) for at, sign in enumerate(text)]
    is_word = number >= grammar.width or edition == "2015" and kind == kind_of_word("dyn")
    return [("IDENT" if is_word else kind, text, begin)]


def with_floats(places, text):
    """With what is a number with a dot for the lexer as one, of which a tree has the parts: `1.2`, `1.`."""
    made = []
    for kind, it, begin in places:
        front = made[-1] if made else ("", "", -1)
        joins = begin == front[2] + len(front[1])
        if joins and kind == "DOT" and front[0] == "INT_NUMBER" and not re.match(rb"[.\w]", text[begin + 1 :].lstrip(b"0123456789")):
            made[-1] = ("FLOAT_NUMBER", front[1] + it, front[2])
        elif joins and kind == "INT_NUMBER" and front[0] == "FLOAT_NUMBER" and front[1].endswith("."):
            made[-1] = ("FLOAT_NUMBER", front[1] + it, front[2])
        else:
            made.append((kind, it, begin))
    return made


def texts_of(text):
    """The texts that stand above each rule of a grammar, in lines `# test: TEXT`, with the lines' numbers."""
    found, above = {}, []
    for number, line in enumerate(text.split("\n"), 1):
        if test := re.match("# test: (.*)", line):
            above.append((number, test[1]))
        elif rule := re.match(r"rule (\w+)", line):
            found[rule[1]], above = above, []
        elif above and not line.startswith("#"):
            raise GrammarError(f"line {above[0][0]}: no rule follows the test")
    return found


class Checked:
    """The rows of a file, compared with a grammar: what is wrong with them, and which operations they run."""

    def __init__(self, grammar, text, name, stored):
        self.grammar, self.name, self.wrong, self.done = grammar, name, [], set()
        shown = collections.defaultdict(set)
        for row in rows(stored):
            for rule in self.row(row):
                shown[rule].add(row.text)
        for rule, texts in texts_of(text).items():
            if not texts:
                self.wrong.append(f"the rule {rule} has no line `# test: TEXT`")
            if rule not in shown:
                self.wrong.append(f"no row of {self.name} names the rule {rule}")
            without = [(line, it) for line, it in texts if it + "\n" not in shown[rule]]
            self.wrong += [f"line {line}: no row of {self.name} has the test `{it}` of the rule {rule}" for line, it in without]

    def row(self, row):
        """The rules that a row names, once it is compared with what the rules make of its tokens."""
        place, grammar = f"{self.name}, line {row.line}", self.grammar
        rule = ENTRIES.get(row.entry, row.entry)
        if rule not in grammar.entries:
            self.wrong.append(f"{place}: no text can be read by {row.entry}")
            return []
        stored = Stored(row, grammar)
        run = Run(grammar, rule, stored.tokens)
        self.done |= run.done
        trees, (kind, inner) = run.trees(), stored.tree
        if trees != [stored.tree] and (kind != "ERROR" or trees != inner):
            self.wrong.append(f"{place}: the rules make another tree of the text")
        # The errors of the lexer are behind those of the rules.
        if stored.errors[: len(run.messages())] != run.messages():
            self.wrong.append(f"{place}: the rules make other errors of the text")
        if not row.rules:
            self.wrong.append(f"{place}: the row names no rule")
        for rule in row.rules:
            if rule not in grammar.bodies:
                self.wrong.append(f"{place}: {rule} is no rule")
            elif rule not in run.read:
                self.wrong.append(f"{place}: the rule {rule} reads nothing of the text")
        return row.rules
