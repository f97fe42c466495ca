"""From rules to one table of operations, with what often comes together made one operation."""
import collections

from .language import ONE, WORD, Flag, Label, Op, Seen
from .sharpen import Sharpened

# A rule of at most so many operations that looks at no flag and no level is in place of its calls.
INLINED = 12
# From so many tests of the next token's kind on, one after the other, a row of targets takes their place.
SWITCHED = 2
# A jump to at most so many operations and a return does these itself.
REPEATED = 3
# Operations after which the machine does not go on with the next one
ENDS = ("Jump", "Return", "Leave", "Reply", "Become", "Switch")


def is_plain(op):
    """Whether it neither looks at flags or the level nor changes or hands on any."""
    if op.name in ("If", "Unless"):
        return not isinstance(op.test, Flag)
    if op.name == "CallWith":
        return op.keep == 0 and op.level != "same"
    return op.name not in ("Flags", "Operator")


def inlined(grammar):
    """The rules, with short plain ones in place of their calls."""
    rules = dict(grammar.rules)
    short = {}
    for name, ops in rules.items():
        own = [op for op in ops if isinstance(op, Op)]
        if len(own) <= INLINED + 1 and all(map(is_plain, own)) and all(op.fields.get("target") != name for op in own):
            short[name] = ops

    def body(ops, depth):
        made = []
        for op in ops:
            if depth and isinstance(op, Op) and op.name == "CallWith" and op.target in short:
                labels = {label: Label() for label in short[op.target] if isinstance(label, Label)}
                after = Label()
                copied = [labels[x] if isinstance(x, Label) else x.copy(labels) for x in short[op.target]]
                copied = [Op(x.line, "Jump", target=after) if isinstance(x, Op) and x.name == "Return" else x for x in copied]
                made += body(copied, depth - 1) + [after]
            else:
                made.append(op)
        return made

    return {name: body(ops, 3) for name, ops in rules.items()}


class Table:
    """The operations of all rules by number, as the machine runs them."""

    def __init__(self, grammar):
        self.grammar = grammar
        rules = {name: fused(without_dead(without_jumps(without_dead(ops)))) for name, ops in inlined(grammar).items()}
        flat, place, self.start_of = [], {}, {}
        for name, ops in rules.items():
            self.start_of[name] = len(flat)
            for op in ops:
                if isinstance(op, Label):
                    place[op] = len(flat)
                else:
                    flat.append(op)
        for number, op in enumerate(flat):
            if "target" in op.fields:
                target = op.target
                flat[number] = op = Op(op.line, op.name, **op.fields)
                op.fields["target"] = place[target] if isinstance(target, Label) else self.start_of[target]
        self.ops = flat
        self.enter()
        self.first_joint = collections.defaultdict(set)
        for text, kind in grammar.joint.items():
            self.first_joint[kind].add(grammar.texts[text[0]])
        self.prune()
        self.ops, self.rows, self.start_of = Sharpened(self).laid()
        self.number_sets()

    def landing(self, number):
        """Where a jump to the operation ends up."""
        seen = set()
        while self.ops[number].name == "Jump" and number not in seen:
            seen.add(number)
            number = self.ops[number].target
        return number

    def enter(self):
        """A plain call of a rule that begins with a mark sets the mark too."""
        for number, op in enumerate(self.ops):
            if op.name == "CallWith":
                op.name = "Call" if (op.level, op.keep, op.add) == (0, 0, 0) else op.name
                if op.name == "Call" and self.ops[op.target].name == "Open":
                    self.ops[number] = Op(op.line, "Enter", target=op.target + 1)

    # ---- tests of the next token's kind, one after the other

    def decided(self, op, kind):
        """Whether the test of a branch holds, if that follows from the next token's kind; else None."""
        test = op.test
        if not isinstance(test, Seen) or test.ahead != 0:
            return None
        if test.view == ONE:
            return kind in test.kinds
        if test.view == WORD:
            return None if kind in self.grammar.worded else False
        return None if any(kind in self.first_joint[it] for it in test.kinds) else False

    def walk(self, number, kind):
        """Where the machine gets to with a next token of the kind, by jumps and decided tests, and how many tests that takes."""
        tests, seen = 0, set()
        while True:
            number = self.landing(number)
            op = self.ops[number]
            if op.name not in ("If", "Unless") or number in seen:
                return number, tests
            seen.add(number)
            holds = self.decided(op, kind)
            if holds is None:
                return number, tests
            tests += 1
            number = op.target if holds == (op.name == "If") else number + 1

    def prune(self):
        """Leaves out what is never run, and has rows take the place of many tests."""
        grammar = self.grammar
        rows, succ, switch_of = {}, {}, {}
        work = [self.start_of[name] for name in grammar.entries]
        while work:
            number = work.pop()
            if number in succ:
                continue
            op = self.ops[number]
            at = self.landing(number)
            if self.ops[at].name in ("If", "Unless"):
                walks = [self.walk(at, kind) for kind in range(grammar.width)]
                if min(tests for _, tests in walks) > 0 and max(tests for _, tests in walks) >= SWITCHED:
                    switch_of[number] = row = tuple(place for place, _ in walks)
                    succ[number] = list(row)
                    work += row
                    continue
            next_ones = []
            if "target" in op.fields:
                next_ones.append(self.landing(op.target))
            if op.name not in ENDS:
                next_ones.append(number + 1)
            succ[number] = next_ones
            work += next_ones
        live = sorted(succ)
        new = {number: place for place, number in enumerate(live)}
        ops = []
        for number in live:
            op = self.ops[number]
            if number in switch_of:
                row = tuple(new[place] for place in switch_of[number])
                op = Op(op.line, "Switch", row=rows.setdefault(row, len(rows)) * grammar.width)
            elif "target" in op.fields:
                op = Op(op.line, op.name, **op.fields)
                op.fields["target"] = new[self.landing(op.target)]
            ops.append(op)
        self.ops, self.rows = ops, [place for row in rows for place in row]
        self.start_of = {name: new[number] for name, number in self.start_of.items() if number in new}

    def number_sets(self):
        sets = {}
        for op in self.ops:
            test = op.fields.get("test")
            if isinstance(test, Seen) and len(test.kinds) > 1:
                sets.setdefault(test.kinds, len(sets))
        self.sets, self.set_number = list(sets), sets


def fused(ops):
    """Operations that often follow one another as one: a node of one token, and what comes before a return."""
    made = []
    for op in ops:
        made.append(op)
        names = [x.name if isinstance(x, Op) else "" for x in made[-3:]]
        if names == ["Open", "Take", "Close"]:
            made[-3:] = [Op(op.line, "Leaf", kind=op.kind)]
        elif names[-2:] == ["Drop", "Return"]:
            made[-2:] = [Op(op.line, "Leave")]
        elif names[-2:] == ["Answer", "Return"]:
            made[-2:] = [Op(op.line, "Reply", answer=made[-2].answer)]
        elif names[-2:] == ["CallWith", "Return"]:
            made[-2:] = [Op(op.line, "Become", **made[-2].fields)]
    return made


def without_jumps(ops):
    """With what a jump leads to in its place, where that is short and ends with a return."""
    place = {label: number for number, label in enumerate(ops) if isinstance(label, Label)}

    def tail(label):
        made, number, seen = [], place[label], set()
        while len(made) <= REPEATED and number not in seen:
            seen.add(number)
            op = ops[number]
            number += 1
            if isinstance(op, Label):
                continue
            if op.name == "Jump":
                if number == place[op.target]:
                    return None
                number = place[op.target]
            elif "target" in op.fields and op.name not in ("CallWith", "Sealed"):
                return None
            else:
                made.append(op)
                if op.name == "Return":
                    return made
        return None

    made = []
    for op in ops:
        short = isinstance(op, Op) and op.name == "Jump" and tail(op.target)
        made += short or [op]
    return made


def without_dead(ops):
    """Without the labels that no operation names, and without what follows a return or a jump and has no label."""
    named = {op.target for op in ops if isinstance(op, Op) and isinstance(op.fields.get("target"), Label)}
    made, runs = [], True
    for op in ops:
        if isinstance(op, Label):
            if op not in named:
                continue
            runs = True
        if runs:
            made.append(op)
        if isinstance(op, Op) and op.name in ("Jump", "Return"):
            runs = False
    return made
