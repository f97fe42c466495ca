"""What is checked of a grammar: that marks balance, and that the machine always gets on."""
from .language import END, NONE, THREE, TWO, WORD, Answered, Flag, GrammarError, Label, Op


def bits(kinds):
    made = 0
    for kind in kinds:
        made |= 1 << kind
    return made


def check_marks(grammar):
    """Each rule forgets as many marks as it sets, on every way, and no jump leaves its rule."""
    for name, ops in grammar.rules.items():
        place = {label: number for number, label in enumerate(ops) if isinstance(label, Label)}
        depth, work = {0: 0}, [0]

        def go(number, marks):
            if number >= len(ops) or marks < 0:
                raise GrammarError(f"a way leaves the rule {name}")
            if depth.setdefault(number, marks) != marks:
                raise GrammarError(f"{name} has an operation with {marks} marks and with {depth[number]}")
            if number not in done:
                work.append(number)

        done = set()
        while work:
            number = work.pop()
            if number in done:
                continue
            done.add(number)
            op, marks = ops[number], depth[number]
            if isinstance(op, Label):
                go(number + 1, marks)
                continue
            marks += {"Open": 1, "Close": -1, "Drop": -1}.get(op.name, 0)
            if op.name == "Return":
                if marks:
                    raise GrammarError(f"{name} returns with a mark, line {op.line}")
                continue
            if isinstance(op.fields.get("target"), Label):
                if op.target not in place:
                    raise GrammarError(f"{name} jumps out of itself, line {op.line}")
                go(place[op.target], marks)
            if op.name != "Jump":
                go(number + 1, marks)


def check_seals(grammar):
    """A node of a kind that a sealed call makes is made by nothing else, so its rule is known from its kind."""
    kinds = list(grammar.sealed.values())
    for kind in kinds:
        if kinds.count(kind) > 1:
            raise GrammarError(f"two sealed rules make nodes {kind}")
    for name, ops in grammar.rules.items():
        for op in ops:
            if isinstance(op, Op) and op.name in ("Wrap", "Close", "Leaf") and op.kind in kinds:
                raise GrammarError(f"line {op.line}: a node {op.kind} is made by its sealed rule alone")


class Views:
    """What may be known of the next four tokens: for each view and each of them a set of kinds, as a number's bits."""

    def __init__(self, grammar):
        joint = {kind: [grammar.texts[sign] for sign in text] for text, kind in grammar.joint.items()}
        self.joint = [(view, kind, signs) for kind, signs in joint.items() for view in [len(signs) - 1]]
        words = set(grammar.by_word.values())
        self.all = (1 << len(grammar.kinds)) - 1
        self.none, self.end = 1 << NONE, 1 << END
        self.ident, self.number = (1 << grammar.kinds.index(kind) if kind in grammar.kinds else 0 for kind in ("IDENT", "FLOAT_NUMBER"))
        self.shapes = bits(kind for text, kind in grammar.by_word.items() if text.isupper())
        singles = (1 << grammar.width) - 1 & ~self.none
        full = [singles, self.none | bits(k for v, k, _ in self.joint if v == TWO), self.none | bits(k for v, k, _ in self.joint if v == THREE), self.none | bits(words)]
        self.start = tuple(full[view] for view in range(4) for _ in range(4))
        self.known = {}
        # Two of the three signs may be a token too.
        self.halves = {kind: [k for v, k, s in self.joint if v == TWO and s == signs[:2]] for v, kind, signs in self.joint if v == THREE}

    def narrowed(self, views, place, kinds):
        """With the kinds at that place alone; None where that cannot be."""
        key = (views, place, kinds)
        if key not in self.known:
            left = views[place] & kinds
            whole = views[:place] + (left,) + views[place + 1 :]
            self.known[key] = None if not left else views if left == views[place] else self.settled(list(whole))
        return self.known[key]

    def settled(self, views):
        """What the views know of one another."""
        while True:
            old = tuple(views)
            for at in range(3):
                if views[at] == self.end:
                    views[at + 1] &= self.end
            for view in (TWO, THREE):
                for at in range(4):
                    fits = views[4 * view + at] & self.none
                    starts = [0] * 3
                    for of, kind, signs in self.joint:
                        here = of == view and views[4 * view + at] >> kind & 1
                        if here and all(at + i > 3 or views[at + i] >> sign & 1 for i, sign in enumerate(signs)):
                            fits |= 1 << kind
                            for i, sign in enumerate(signs):
                                starts[i] |= 1 << sign
                    views[4 * view + at] = fits
                    if fits and not fits & self.none:
                        for i in range(view + 1):
                            if at + i < 4:
                                views[at + i] &= starts[i]
                        halves = bits(k for kind, ks in self.halves.items() if fits >> kind & 1 for k in ks)
                        if view == THREE and halves:
                            views[4 * TWO + at] &= halves
            for at in range(4):
                word = views[4 * WORD + at]
                if not word & self.none:
                    views[at] &= (self.number if word & self.shapes else 0) | (self.ident if word & ~self.shapes else 0)
                if not views[at] & self.ident:
                    views[4 * WORD + at] &= self.none | self.shapes
                if not views[at] & self.number:
                    views[4 * WORD + at] &= ~self.shapes
            if not all(views):
                return None
            if tuple(views) == old:
                return old


class Steps:
    """The longest way of the machine between two takes, and how many calls it may leave open.

    The machine is run without tokens: what is not known of the next four, of the flags and of the last answer at first
    goes both ways at a test, and is known after it. A way begins after a take, after a call, where it returns, and
    at each rule. It ends with a take, with a sealed call, which takes a token too, or with a return out of the rule that it began in.
    """

    def __init__(self, table):
        self.table, self.grammar, self.ops = table, table.grammar, table.ops
        self.views = Views(self.grammar)
        self.frames, self.longest, self.length = 0, 0, {}
        operators = {text[0] for text in list(self.grammar.joint) + list(self.grammar.texts) if self.grammar.powers.get(self.grammar.joint.get(text, self.grammar.texts.get(text)))}
        words = {text for text in self.grammar.texts if self.grammar.texts[text] in self.grammar.powers}
        self.operators = bits(self.grammar.texts[text] for text in (operators | words) & set(self.grammar.texts))
        begins = set(table.start_of.values())
        begins |= {number + 1 for number, op in enumerate(self.ops) if op.name in ("Take", "TakeAs", "TakeOperator", "Expect", "Leaf", "Piece", "Call", "Enter", "CallWith", "Sealed")}
        for number in begins:
            self.longest = max(self.longest, self.way_from((number, (), 0, 0, 7, self.views.start)))

    def way_from(self, start):
        stack, best, open_ones = [(start, iter(self.after(start)))], {start: 0}, {start}
        if start in self.length:
            return self.length[start]
        while stack:
            state, coming = stack[-1]
            for one in coming:
                if one in self.length:
                    best[state] = max(best[state], self.length[one] + 1)
                    continue
                if one in open_ones or len(one[1]) > 200:
                    op = self.ops[one[0]]
                    raise GrammarError(f"line {op.line}: the machine can go in a circle without taking a token")
                open_ones.add(one)
                best[one] = 0
                stack.append((one, iter(self.after(one))))
                break
            else:
                stack.pop()
                open_ones.discard(state)
                self.length[state] = best[state] + 1
                if stack:
                    above = stack[-1][0]
                    best[above] = max(best[above], self.length[state])
        return self.length[start]

    def taken(self, views, frames, stays):
        """After a take: the way ends, but where there was no token to take."""
        if self.views.narrowed(views, 0, ~self.views.end & self.views.all):
            self.frames = max(self.frames, len(frames))
        at_end = self.views.narrowed(views, 0, self.views.end)
        return stays(at_end) if at_end else []

    def after(self, state):
        number, frames, off, on, answers, views = state
        op, narrowed = self.ops[number], self.views.narrowed
        forward = (number + 1, frames, off, on, answers, views)
        if op.name in ("If", "Unless"):
            made, test = [], op.test

            def go(holds, off=off, on=on, answers=answers, views=views):
                if views:
                    made.append((op.target if holds == (op.name == "If") else number + 1, frames, off, on, answers, views))

            if isinstance(test, Flag):
                if on & test.mask:
                    go(True)
                elif off & test.mask:
                    go(False)
                else:
                    go(True, on=on | test.mask)
                    go(False, off=off | test.mask)
            elif isinstance(test, Answered):
                one = 1 << test.answer
                if answers & one:
                    go(True, answers=one)
                if answers & ~one:
                    go(False, answers=answers & ~one)
            elif test.ahead < 0:
                go(True)
                go(False)
            else:
                kinds = bits(test.kinds)
                go(True, views=narrowed(views, 4 * test.view + test.ahead, kinds))
                go(False, views=narrowed(views, 4 * test.view + test.ahead, ~kinds & self.views.all))
            return made
        if op.name == "Switch":
            row = self.table.rows[op.row : op.row + self.grammar.width]
            ways = [(place, narrowed(views, 0, bits(k for k, p in enumerate(row) if p == place))) for place in sorted(set(row))]
            return [(place, frames, off, on, answers, left) for place, left in ways if left]
        if op.name == "Expect":
            made = self.taken(narrowed(views, 0, 1 << op.kind) or (), frames, lambda left: [forward]) if narrowed(views, 0, 1 << op.kind) else []
            left = narrowed(views, 0, ~(1 << op.kind) & self.views.all)
            return made + ([(number + 1, frames, off, on, answers, left)] if left else [])
        if op.name in ("Take", "TakeAs", "TakeOperator", "Leaf", "Sealed") or op.name == "Piece" and op.last:
            return self.taken(views, frames, lambda left: [(number + 1, frames, off, on, answers, left)])
        if op.name in ("Call", "Enter"):
            return [(op.target, frames + ((number + 1, off, on),), 0xFF, 0, answers, views)]
        if op.name in ("CallWith", "Become"):
            on_then, off_then = on & op.keep | op.add, (off & op.keep | 0xFF & ~op.keep) & ~op.add
            then = frames if op.name == "Become" else frames + ((number + 1, off, on),)
            return [(op.target, then, off_then, on_then, answers, views)]
        if op.name in ("Return", "Leave", "Reply"):
            answers = 1 << op.answer if op.name == "Reply" else answers
            return [(frames[-1][0], frames[:-1], frames[-1][1], frames[-1][2], answers, views)] if frames else []
        if op.name == "Jump":
            return [(op.target,) + state[1:]]
        if op.name == "Answer":
            return [(number + 1, frames, off, on, 1 << op.answer, views)]
        if op.name == "Flags":
            return [(number + 1, frames, (off & op.keep | 0xFF & ~op.keep) & ~op.add, on & op.keep | op.add, answers, views)]
        if op.name == "Operator":
            left = narrowed(views, 0, self.operators)
            return [(op.target,) + state[1:]] + ([(number + 1, frames, off, on, answers, left)] if left else [])
        return [forward]
