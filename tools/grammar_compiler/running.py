"""Runs the rules of a grammar over tokens as they are written, without the tables that are made of them.

So it is known which rules read a text, and the tree that comes of it does not depend on how the tables are made.
"""
import collections

from .language import END, NONE, ONE, THREE, TWO, WORD, Answered, Flag, Label, Op, inside

# A token between the white space of a text: its kind by its name, its text, and whether the next one follows with nothing between
Raw = collections.namedtuple("Raw", "kind text joins")
# What a rule makes: a token of a kind, of so many raw ones; a node over the events from that number on; an error, with the next token
Token = collections.namedtuple("Token", "kind signs")
Node = collections.namedtuple("Node", "kind begin")
Error = collections.namedtuple("Error", "text")
PIECES = {"Whole": "INT_NUMBER", "Dot": "DOT", "Fraction": "INT_NUMBER"}
# What decides and answers, but reads nothing
SILENT = ("If", "Unless", "Jump", "Answer", "Return")


class Run:
    """A run of a rule over the tokens of a text: the events, the rules that read a token, and the operations that were run."""

    def __init__(self, grammar, rule, tokens):
        self.grammar, self.tokens = grammar, tokens
        self.sights = [self.sight(number) for number in range(len(tokens))]
        self.at = self.operand = self.answer = 0
        self.events, self.marks, self.read, self.done = [], [], {rule}, set()
        self.call(rule, 0, 0)

    def sight(self, number):
        """The kinds that a token has by itself, with the next, with the next two, and as a word."""
        one, *others = self.tokens[number : number + 3]
        kinds, text = [self.grammar.kinds.index(one.kind)], one.text
        for last, after in zip([one, *others], others):
            text = text + after.text if text and last.joins else ""
            kinds.append(self.grammar.joint.get(text, NONE))
        word = NONE
        if one.kind == "IDENT":
            word = self.grammar.by_word.get(one.text, NONE)
        elif one.kind == "FLOAT_NUMBER" and "." in one.text:
            word = self.grammar.by_word.get("FLOAT_DOT" if one.text.endswith(".") else "FLOAT_PAIR", NONE)
        return [*kinds, NONE, NONE][:3] + [word]

    def seen(self, view, number):
        if number < len(self.sights):
            return self.sights[number][view]
        return END if view == ONE else NONE

    def sees(self, view, ahead):
        """The kind of a token that comes; none over a brace."""
        braces = [self.grammar.texts[brace] for brace in "{}" if brace in self.grammar.texts]
        if any(self.seen(ONE, self.at + number) in braces for number in range(ahead)):
            return NONE
        return self.seen(view, self.at + ahead)

    def holds(self, test, flags):
        if isinstance(test, Flag):
            return flags & test.mask != 0
        if isinstance(test, Answered):
            return self.answer == test.answer
        if test.ahead < 0:
            return self.at > 0 and self.seen(ONE, self.at - 1) in test.kinds
        return self.sees(test.view, test.ahead) in test.kinds

    def operator(self):
        """The longest operator here: its view and its powers."""
        for view in (THREE, TWO, ONE):
            powers = self.grammar.powers.get(self.seen(view, self.at))
            if powers or view == ONE:
                return view, powers

    def take(self, view):
        if self.at == len(self.tokens):
            return
        kind, signs = self.seen(view, self.at), {TWO: 2, THREE: 3}.get(view, 1)
        self.events.append(Token(self.grammar.kinds[kind], signs if kind else 1))
        self.at += signs if kind else 1

    def error(self, number):
        kind = self.grammar.kinds[self.seen(ONE, self.at)]
        self.events.append(Error(self.grammar.messages[number].replace("%", kind)))

    def call(self, name, level, flags):
        """Runs a rule: each operation by its name, up to a return."""
        ops, begin = self.grammar.rules[name], self.at
        place = {label: number for number, label in enumerate(ops) if isinstance(label, Label)}
        number = 0
        while True:
            op, number = ops[number], number + 1
            if isinstance(op, Label):
                continue
            self.done.add((name, number - 1))
            if op.name == "Return":
                break
            to = self.run(op, level, flags)
            if op.name == "Flags":
                flags = flags & op.keep | op.add
            if to:
                number = place[op.target]
        if self.at > begin or all(op.name in SILENT for op in ops if isinstance(op, Op)):
            self.read.add(name.removesuffix(inside("")))

    def run(self, op, level, flags):
        """Runs an operation, and says whether the next one is that at its target."""
        name, events = op.name, self.events
        if name in ("If", "Unless"):
            return self.holds(op.test, flags) == (name == "If")
        if name == "Jump":
            return True
        if name == "Operator":
            powers = self.operator()[1]
            if not powers or powers[0] == 0 or powers[0] < level:
                return True
            self.operand = powers[1]
        elif name == "CallWith":
            own = {"same": level, "operand": self.operand}.get(op.level, op.level)
            self.call(op.target, own, flags & op.keep | op.add)
        elif name == "Sealed":
            self.sealed(op)
        elif name in ("Take", "TakeAs", "TakeOperator"):
            self.take(op.view if name == "TakeAs" else self.operator()[0] if name == "TakeOperator" else ONE)
        elif name == "Expect":
            if self.seen(ONE, self.at) == op.kind:
                self.take(ONE)
            else:
                self.error(op.message)
        elif name == "Piece":
            if self.seen(WORD, self.at):
                events.append(Token(PIECES[op.part], int(op.last)))
                self.at += op.last
        elif name == "Open":
            self.marks.append(len(events))
        elif name == "Drop":
            self.marks.pop()
        elif name == "Close":
            events.append(Node(op.kind, self.marks.pop()))
        elif name == "Wrap":
            events.append(Node(op.kind, self.marks[-1]))
        elif name == "Extend":
            if isinstance(events[-1], Node) and events[-1].kind not in self.grammar.sealed.values():
                events[-1] = events[-1]._replace(begin=min(events[-1].begin, self.marks[-1]))
        elif name == "Error":
            self.error(op.message)
        elif name == "Answer":
            self.answer = op.answer
        elif name != "Flags":
            raise ValueError(f"no operation {name}")
        return False

    def sealed(self, op):
        """A sealed call, whose rule sees no mark, level, flag or answer of the caller."""
        if self.at == len(self.tokens):
            return
        begin, marks, self.marks = len(self.events), self.marks, []
        self.take(ONE)
        self.read.add(op.target.removesuffix(inside("")))
        self.operand = self.answer = 0
        self.call(op.target, 0, 0)
        self.operand = self.answer = 0
        self.marks = marks
        self.events.append(Node(op.kind, begin))

    # ---- what comes of it

    def trees(self):
        """The trees that the events make: a node as its kind and a list, a token as its kind."""
        made = []  # each with the number of its first event
        for number, event in enumerate(self.events):
            if isinstance(event, Token):
                made.append((number, event.kind))
            elif isinstance(event, Node):
                inner = len(made)
                while inner and made[inner - 1][0] >= event.begin:
                    inner -= 1
                made[inner:] = [(event.begin, (event.kind, [tree for _, tree in made[inner:]]))]
        left = [self.grammar.kinds[self.seen(ONE, number)] for number in range(self.at, len(self.tokens))]
        return [tree for _, tree in made] + left

    def messages(self):
        return [event.text for event in self.events if isinstance(event, Error)]
