"""A table whose operations ask nothing that is known.

Each place of the old table is taken once for what may be known there: the kinds that the next token may have, the flags, the last answer,
and the calls that the rule's own operations stand in for. What a test gives there is mostly known, so the test is left out, and flags are
never asked for. Places that do the same are then one place again.
"""
import collections

from .language import END, ONE, WORD, Answered, Flag, Op, Seen

# Operations after which the machine does not go on with the next one
STOPS = ("Return", "Leave", "Reply", "Become", "Switch")
# A rule of at most so many operations stands in for its calls, so deep.
INLINED, DEPTH = 24, 3
# A row of targets tells these kinds from all others.
OFTEN = ["IDENT", "L_PAREN", "DOT", "AMP", "SELF_KW"]
# So many operations up to a stop stand at each place that leads to them, in place of a jump.
REPEATED = 6


def bits(kinds):
    return sum(1 << kind for kind in kinds)


class Sharpened:
    """What a table does, as a graph of operations, and that as a table."""

    def __init__(self, table, inlined=INLINED, depth=DEPTH):
        self.table, self.grammar, self.ops = table, table.grammar, table.ops
        self.inlined, self.depth = inlined, depth
        grammar = self.grammar
        self.all = (1 << grammar.width) - 1
        self.worded = bits(grammar.worded)
        self.often = [grammar.kinds.index(kind) for kind in OFTEN if kind in grammar.kinds]
        self.frequent = bits(self.often)
        self.groups = {op.row: self.grouped(op.row) for op in self.ops if op.name == "Switch"}
        firsts = [text[0] for text, kind in grammar.joint.items() if kind in grammar.powers]
        firsts += [text for text, kind in grammar.texts.items() if kind in grammar.powers]
        self.operators = frozenset(grammar.texts[text] for text in firsts)
        self.tests = {id(op): self.told(op.test) for op in self.ops if op.name in ("If", "Unless")}
        self.bodies = {}
        self.nodes, self.work = {}, []
        # of each node the answers and the kinds of the next token with which its rule may return
        self.returns = collections.defaultdict(lambda: (0, 0))
        # what leads to a node in its rule, and the calls of it
        self.before, self.calls = collections.defaultdict(list), collections.defaultdict(set)
        self.changed = set()
        self.starts = {name: self.goto(table.start_of[name], self.all, 0, 1, ()) for name in grammar.entries}
        while self.work or self.changed:
            while self.work:
                self.grow(self.work.pop())
            changed, self.changed = self.changed, set()
            for state in changed:
                self.grow(state)
        self.prune()
        self.merge()

    def grouped(self, row):
        """The kinds of each target of a row."""
        groups = collections.OrderedDict()
        for kind in range(self.grammar.width):
            place = self.table.rows[row + kind]
            groups[place] = groups.get(place, 0) | 1 << kind
        return list(groups.items())

    def told(self, test):
        """Of a test of the next token: the kinds with which it may hold, and with which it may not."""
        if isinstance(test, (Flag, Answered)) or test.ahead != 0:
            return None
        if test.view == ONE:
            kinds = bits(test.kinds)
            return kinds, self.all & ~kinds
        if test.view == WORD:
            return self.worded, self.all
        return bits(set().union(*(self.table.first_joint[kind] for kind in test.kinds))), self.all

    # ---- what is known

    def ways(self, op, kinds, flags, answers):
        """What is known where a test holds and where it does not; None for what cannot be."""
        test = op.test
        if isinstance(test, Flag):
            return ((kinds, answers), None) if flags & test.mask else (None, (kinds, answers))
        if isinstance(test, Answered):
            one = answers & 1 << test.answer
            other = answers & ~one
            return (kinds, one) if one else None, (kinds, other) if other else None
        told = self.tests[id(op)]
        if told is None:
            return (kinds, answers), (kinds, answers)
        yes, no = kinds & told[0], kinds & told[1]
        if yes and test.view != ONE:
            no = kinds
        return (yes, answers) if yes else None, (no, answers) if no else None

    def goto(self, number, kinds, flags, answers, calls):
        """The node of the first operation from this one on that does more than what is known already."""
        seen = set()
        while True:
            op = self.ops[number]
            name = op.name
            state = (number, kinds, flags, answers, calls)
            if state in seen:
                break
            seen.add(state)
            if name == "Jump":
                number = op.target
            elif name == "Switch":
                ways = [(place, group & kinds) for place, group in self.groups[op.row] if group & kinds]
                if len(ways) > 1:
                    break
                number = ways[0][0]
            elif name in ("If", "Unless"):
                yes, no = self.ways(op, kinds, flags, answers)
                if yes and no:
                    break
                kinds, answers = yes or no
                number = op.target if bool(yes) == (name == "If") else number + 1
            elif name == "Flags":
                flags, number = flags & op.keep | op.add, number + 1
            elif name == "Operator" and not kinds & bits(self.operators):
                number = op.target
            elif name == "Return" and calls:
                (number, flags), calls = calls[-1], calls[:-1]
            elif name in ("Call", "CallWith", "Become") and self.stands_in(op, calls):
                inner = flags & op.fields.get("keep", 0) | op.fields.get("add", 0)
                if name != "Become":
                    calls += ((number + 1, flags),)
                number, flags = op.target, inner
            else:
                break
        if state not in self.nodes:
            self.nodes[state] = None
            self.work.append(state)
        return state

    def body(self, start):
        """The operations that a call runs by itself; nothing if it asks for its level."""
        if start not in self.bodies:
            seen, work = set(), [start]
            while work:
                number = work.pop()
                if number in seen:
                    continue
                seen.add(number)
                op = self.ops[number]
                if op.name == "Operator" or op.fields.get("level") == "same":
                    seen = set()
                    break
                if op.name == "Switch":
                    work += [place for place, _ in self.groups[op.row]]
                elif op.name in ("If", "Unless", "Jump", "Become"):
                    work.append(op.target)
                if op.name not in STOPS and op.name != "Jump":
                    work.append(number + 1)
            self.bodies[start] = seen
        return self.bodies[start]

    def stands_in(self, op, calls):
        if op.fields.get("level", 0) != 0 or len(calls) >= self.depth:
            return False
        return 0 < len(self.body(op.target)) <= self.inlined and all(number not in self.body(op.target) for number, _ in calls)

    # ---- the graph

    def grow(self, state):
        """An operation: its name, its fields, where the machine goes on after it, and its targets. A test that takes the place of an
        operation has `further`, the same place with what that test tells."""
        number, kinds, flags, answers, calls = state
        op, name = self.ops[number], self.ops[number].name
        fields = {key: value for key, value in op.fields.items() if key not in ("target", "row")}
        after, targets = None, ()

        def then(kinds=kinds, answers=answers):
            return self.goto(number + 1, kinds, flags, answers, calls)

        if name == "Switch":
            parts = []
            for place, group in self.groups[op.row]:
                left = group & kinds
                parts += [(place, left & 1 << kind) for kind in self.often] + [(place, left & ~self.frequent)]
            parts = [(place, part) for place, part in parts if part]
            targets = tuple(self.goto(place, part, flags, answers, calls) for place, part in parts)
            fields["parts"] = tuple(part for _, part in parts)
        elif name in ("If", "Unless"):
            yes, no = self.ways(op, kinds, flags, answers)
            there, here = (yes, no) if name == "If" else (no, yes)
            targets = (self.goto(op.target, there[0], flags, there[1], calls),)
            after = then(*here)
        elif name in ("Call", "Enter", "CallWith", "Become"):
            inner = flags & fields.pop("keep", 0) | fields.pop("add", 0)
            if fields.get("level", 0) == 0:
                fields.pop("level", None)
            else:
                fields.update(keep=0, add=0)
            target = self.goto(op.target, kinds, inner, answers, ())
            targets = (target,)
            if name != "Enter":
                name = ("Become" if name == "Become" and not calls else "CallWith") if "level" in fields else name if name == "Become" and not calls else "Call"
            if name == "Become":
                fields.update({key: 0 for key in ("level", "keep", "add") if key not in fields})
            else:
                found, ahead = self.returns[target]
                if found and op.name == "Become":
                    back, outer = calls[-1]
                    after = self.goto(back, ahead, outer, found, calls[:-1])
                elif found:
                    after = then(ahead, found)
        elif name == "Sealed":
            targets = (self.goto(op.target, self.all, 0, 1, ()),)
            after = then(self.all, 1 if not kinds & 1 << END else answers | 1)
        elif name == "Expect" and not kinds & 1 << op.kind:
            name, fields, after = "Error", {"message": op.message}, then()
        elif name == "Expect" and kinds == 1 << op.kind:
            name, fields, after = "Take", {}, then(self.all)
        elif name in ("Expect", "Take", "TakeAs", "TakeOperator", "Leaf", "Piece"):
            after = then(self.all)
        elif name == "Answer":
            after = then(kinds, 1 << op.answer)
        elif name == "Operator":
            firsts = bits(self.operators)
            if kinds & ~firsts:
                # First whether it may be one, by its kind alone.
                name, fields["test"] = "If", Seen(ONE, 0, self.operators)
                after = self.goto(op.target, kinds & ~firsts, flags, answers, calls)
                targets = (self.goto(number, kinds & firsts, flags, answers, calls),)
            else:
                targets, after = (self.goto(op.target, kinds, flags, answers, calls),), then()
        elif name in ("Leave", "Reply") and calls:
            (back, outer), rest = calls[-1], calls[:-1]
            if name == "Leave":
                name, after = "Drop", self.goto(back, kinds, outer, answers, rest)
            else:
                name, after = "Answer", self.goto(back, kinds, outer, 1 << op.answer, rest)
        elif name not in STOPS:
            after = then()
        self.nodes[state] = (name, tuple(sorted(fields.items(), key=repr)), op.line, after, targets)
        if name in ("Call", "Enter", "CallWith"):
            self.calls[targets[0]].add(state)
        elif name == "Sealed":
            pass
        else:
            for way in set(targets):
                self.leads(state, way)
        if after:
            self.leads(state, after)
        if name in ("Return", "Leave", "Reply"):
            self.note(state, 1 << fields["answer"] if name == "Reply" else answers, kinds)

    def leads(self, state, way):
        self.before[way].append(state)
        self.note(state, *self.returns[way])

    def note(self, state, answers, kinds):
        """That the rule may return so from this node on."""
        work = [state]
        while work:
            state = work.pop()
            old = self.returns[state]
            new = (old[0] | answers, old[1] | kinds)
            if new != old:
                self.returns[state] = new
                self.changed |= self.calls[state]
                work += self.before[state]

    def prune(self):
        """Leaves out what was known too well for a time."""
        left, work = {}, list(self.starts.values())
        while work:
            state = work.pop()
            if state not in left:
                left[state] = self.nodes[state]
                _, _, _, after, targets = left[state]
                work += [it for it in (after, *targets) if it]
        self.nodes = left

    def merge(self):
        """One node for all that do the same."""
        rows = {state: dict(fields)["parts"] for state, (name, fields, *_) in self.nodes.items() if name == "Switch"}
        heads = {}
        of = {state: heads.setdefault((name, () if state in rows else fields), len(heads)) for state, (name, fields, *_) in self.nodes.items()}
        count = 0
        while len(set(of.values())) > count:
            count = len(set(of.values()))
            numbers, new = {}, {}
            for state, (_, _, _, after, targets) in self.nodes.items():
                what = tuple(map(of.get, targets))
                if state in rows:
                    parts = {}
                    for part, it in zip(rows[state], what):
                        parts[it] = parts.get(it, 0) | part
                    what = frozenset(parts.items())
                new[state] = numbers.setdefault((of[state], of.get(after), what), len(numbers))
            of = new
        self.graph = {}
        for state, (name, fields, line, after, targets) in self.nodes.items():
            self.graph.setdefault(of[state], (name, dict(fields), line, of.get(after), tuple(map(of.get, targets))))
        self.starts = {name: of[state] for name, state in self.starts.items()}

    # ---- the graph as a list

    def tail(self, node):
        """The operations from a node up to a stop, if they are few."""
        made = []
        while node is not None and len(made) < REPEATED:
            made.append(node)
            name, _, _, after, _ = self.graph[node]
            if after is None:
                return made if name != "Switch" or len(made) <= 2 else None
            node = after
        return None

    def laid(self):
        """The operations in a list, their targets by number, and the rows; what begins where in `start_of`."""
        place, flat = {}, []
        pending = [self.starts[name] for name in self.grammar.entries]
        pending.reverse()
        while pending:
            node = pending.pop()
            if node in place:
                continue
            later = []
            while node is not None:
                if node in place:
                    again = self.tail(node)
                    if again:
                        flat += [(it, self.graph[it][0]) for it in again]
                    else:
                        flat.append((node, "Jump"))
                    break
                place[node] = len(flat)
                name, _, _, after, targets = self.graph[node]
                if name in ("If", "Unless") and after in place and targets[0] not in place:
                    flat.append((node, "Unless" if name == "If" else "If"))
                    after, targets = targets[0], (after,)
                else:
                    flat.append((node, name))
                later += targets
                node = after
            pending += reversed(later)
        rows, ops = [], []
        for node, name in flat:
            own, fields, line, after, targets = self.graph[node]
            if name == "Jump":
                ops.append(Op(line, "Jump", target=place[node]))
            elif name == "Switch":
                row = [None] * self.grammar.width
                for part, it in zip(fields["parts"], targets):
                    for kind in range(self.grammar.width):
                        if part >> kind & 1:
                            row[kind] = place[it]
                for number, other in enumerate(rows):
                    if all(a is None or b is None or a == b for a, b in zip(row, other)):
                        rows[number] = [b if a is None else a for a, b in zip(row, other)]
                        break
                else:
                    number = len(rows)
                    rows.append(row)
                ops.append(Op(line, name, row=number * self.grammar.width))
            else:
                fields = dict(fields)
                if targets:
                    fields["target"] = place[after if name != own else targets[0]]
                ops.append(Op(line, name, **fields))
        stop = next(number for number, op in enumerate(ops) if op.name == "Return")
        self.flat = flat
        return ops, [stop if it is None else it for row in rows for it in row], {name: place[node] for name, node in self.starts.items()}
