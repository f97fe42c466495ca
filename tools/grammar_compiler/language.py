"""The text of a grammar, and its rules as operations with labels."""
import collections
import re

ONE, TWO, THREE, WORD = range(4)
ANSWERS = {"no": 0, "yes": 1, "block": 2}
# The words that begin a statement, or follow `take`: a call of a rule with such a name would silently be something else.
RESERVED = {*ANSWERS, "if", "else", "while", "loop", "break", "continue", "return", "node", "mark", "wrap", "extend", "error", "blame", "recover", "take", "take2",
            "take3", "piece", "note", "forget", "operator", "list", "word"}
NONE, END = 0, 1


class GrammarError(Exception):
    pass


class Words:
    """The words of a text with the numbers of their lines. A `#` that stands alone begins a comment."""

    def __init__(self, text):
        self.words, self.next = [], 0
        for number, line in enumerate(text.split("\n"), 1):
            for word in re.findall(r'"[^"]*"|\S+', line):
                if word == "#":
                    break
                self.words.append((number, word))

    @staticmethod
    def of(words):
        """These words with their lines."""
        made = Words("")
        made.words = words
        return made

    def __bool__(self):
        return self.next < len(self.words)

    @property
    def line(self):
        return self.words[min(self.next, len(self.words)) - 1][0]

    def fail(self, message):
        raise GrammarError(f"line {self.line}: {message}")

    def peek(self):
        return self.words[self.next][1] if self else ""

    def take(self):
        if not self:
            self.fail("the text ends in the middle")
        self.next += 1
        return self.words[self.next - 1][1]

    def need(self, word):
        if self.take() != word:
            self.fail(f"expected {word}")

    def till_semicolon(self):
        while self.peek() != ";":
            yield self.take()
        self.take()


def kind_of_word(text):
    return "SELF_TYPE_KW" if text == "Self" else text.upper() + "_KW"


class Label:
    """A place in the operations, which targets name until all are numbered."""


class Op:
    """An operation by its name in the machine, with its fields; a target is a label, or a rule's name."""

    def __init__(self, line, name, **fields):
        self.line, self.name, self.fields = line, name, fields

    def __getattr__(self, field):
        try:
            return self.fields[field]
        except KeyError:
            raise AttributeError(field) from None

    def copy(self, labels):
        made = Op(self.line, self.name, **self.fields)
        if isinstance(self.fields.get("target"), Label):
            made.fields["target"] = labels[self.target]
        return made


# A test of a token: how it is seen, how far ahead (-1: the token taken last), and the kinds that pass
Seen = collections.namedtuple("Seen", "view ahead kinds")
Flag = collections.namedtuple("Flag", "mask")
Answered = collections.namedtuple("Answered", "answer")


class Grammar:
    """What a grammar declares, and its rules as operations."""

    def __init__(self, text):
        self.kinds = ["NONE", "EOF"]  # by number
        self.width = None  # how many of them are kinds of single tokens
        self.texts, self.joint, self.by_word = {}, {}, {}
        self.sets, self.flags, self.family_of = {}, {}, {}
        self.powers, self.messages, self.entries = {}, [], []
        self.rules, self.words = {}, Words(text)
        self.bodies = {}  # the words of each rule between its braces
        self.sealed = {}  # the kinds of the nodes that sealed calls make, by their rules
        self.known, self.kept, self.given = {}, [], []
        while self.words:
            self.declaration()
        self.end_of_singles()
        # what a contextual keyword is by itself, and what a number with a dot is
        self.worded = {self.kinds.index(kind) for kind in ("IDENT", "FLOAT_NUMBER") if kind in self.kinds}
        self.check_names()
        self.seal()

    # ---- declarations

    def number(self, kind):
        if kind not in self.kinds:
            self.kinds.append(kind)
        return self.kinds.index(kind)

    def declaration(self):
        words = self.words
        what = words.take()
        if what == "tokens":
            for kind in words.till_semicolon():
                self.number(kind)
        elif what == "keywords":
            for text in words.till_semicolon():
                self.texts[text] = self.number(kind_of_word(text))
        elif what in ("signs", "joint"):
            for quoted in words.till_semicolon():
                if what == "signs":
                    self.texts[quoted[1:-1]] = self.number(words.take())
                else:
                    self.end_of_singles()
                    self.joint[quoted[1:-1]] = self.number(words.take())
        elif what in ("words", "shapes"):
            self.end_of_singles()
            for text in words.till_semicolon():
                self.by_word[text] = self.number(kind_of_word(text) if what == "words" else text)
        elif what == "entries":
            self.entries += words.till_semicolon()
        elif what == "set":
            name = words.take()
            words.need("=")
            parts = [self.kinds_of(word) for word in words.till_semicolon()]
            views = {view for view, _ in parts}
            if len(views) != 1 or not views <= {ONE, WORD}:
                words.fail("a set is of single tokens, or of contextual words")
            self.sets[name] = (views.pop(), frozenset().union(*(kinds for _, kinds in parts)))
        elif what == "flags":
            family = len(set(self.family_of.values()))
            for bit, name in enumerate(words.till_semicolon()):
                if bit > 7:
                    words.fail("a family has at most eight flags")
                self.family_of[name], self.flags[name] = family, 1 << bit
        elif what == "power":
            power = (int(words.take()), int(words.take()))
            for text in words.till_semicolon():
                for kind in self.kinds_of(text)[1]:
                    self.powers[kind] = power
        elif what == "rule":
            name = words.take()
            if name in self.rules:
                words.fail(f"the rule {name} is there twice")
            if name in RESERVED:
                words.fail(f"no rule is named {name}, which is a word of the language")
            if words.peek() == "sealed":
                words.take()
                self.sealed[name] = words.take()
            words.need("{")
            begin = words.next
            self.rules[name] = Rule(self, name).ops
            self.bodies[name] = words.words[begin : words.next - 1]
        else:
            words.fail(f"{what} begins no declaration")

    def end_of_singles(self):
        if self.width is None:
            self.width = len(self.kinds)

    def kinds_of(self, word):
        """The view and the kinds that a quoted token, a contextual word, a set or a kind names."""
        if len(word) > 2 and word[0] == word[-1] == "'":
            text = word[1:-1]
            if text in self.texts:
                return ONE, frozenset([self.texts[text]])
            if text in self.joint:
                return len(text) - 1, frozenset([self.joint[text]])
        elif word[0] == "@" and word[1:] in self.by_word:
            return WORD, frozenset([self.by_word[word[1:]]])
        elif word in self.sets:
            return self.sets[word]
        elif word in self.kinds:
            return ONE, frozenset([self.kinds.index(word)])
        self.words.fail(f"{word} names no token and no set")

    def message(self, text):
        text = text.strip('"').replace("\\n", "\n")
        if text not in self.messages:
            self.messages.append(text)
        return self.messages.index(text)

    def check_names(self):
        """Calls name rules; a rule knows the flags of one family, and so do those that hand flags on to each other."""
        for ops in self.rules.values():
            for op in ops:
                if isinstance(op, Op) and op.name == "CallWith" and op.target not in self.rules:
                    raise GrammarError(f"line {op.line}: no rule {op.target}")
        for name in self.entries:
            if name not in self.rules:
                raise GrammarError(f"the entry {name} is no rule")
        family = {}

        def known(rule, one, line):
            if family.setdefault(rule, one) != one:
                raise GrammarError(f"line {line}: {rule} would know flags of two families")

        for (rule, one), line in self.known.items():
            known(rule, one, line)
        for line, rule, one in self.given:
            known(rule, one, line)
        for _ in self.rules:
            for line, caller, called in self.kept:
                one = family.get(caller, family.get(called))
                if one is not None:
                    known(caller, one, line)
                    known(called, one, line)


    def seal(self):
        """Has the calls of sealed rules be sealed calls. Such a rule, as an entry, is an operation that makes such a call."""
        for name, ops in list(self.rules.items()):
            for number, op in enumerate(ops):
                if isinstance(op, Op) and op.name == "CallWith" and op.target in self.sealed:
                    if (op.level, op.keep, op.add) != (0, 0, 0):
                        raise GrammarError(f"line {op.line}: a sealed rule has no level and no flags of its caller")
                    ops[number] = Op(op.line, "Sealed", target=inside(op.target), kind=self.sealed[op.target])
        for name, kind in self.sealed.items():
            self.rules[inside(name)] = self.rules[name]
            line = self.rules[name][-1].line
            self.rules[name] = [Op(line, "Sealed", target=inside(name), kind=kind), Op(line, "Return")]


def inside(name):
    """The name of what a sealed rule does behind its first token."""
    return f"{name} inside"


class Rule:
    """Compiles the statements of one rule."""

    def __init__(self, grammar, name):
        self.grammar, self.words, self.name = grammar, grammar.words, name
        self.ops = []
        # What is open around: a loop's labels, or a mark to be forgotten by who leaves
        self.around = []
        self.block()
        self.emit("Return")

    # ---- operations

    def emit(self, name, **fields):
        self.ops.append(Op(self.words.line, name, **fields))

    def place(self, label):
        self.ops.append(label)

    def branch(self, test, holds, target):
        """Goes to the target if the test holds, or if it does not."""
        self.emit("If" if holds else "Unless", test=test, target=target)

    def jump(self, target):
        self.emit("Jump", target=target)

    def take(self, view):
        if view == ONE:
            self.emit("Take")
        else:
            self.emit("TakeAs", view=view)

    def error(self, text):
        self.emit("Error", message=self.grammar.message(text))

    def blame(self, text):
        self.emit("Open")
        self.error(text)
        self.take(ONE)
        self.emit("Close", kind="ERROR")

    def seen(self, word, ahead=0):
        view, kinds = self.grammar.kinds_of(word)
        return Seen(view, ahead, kinds)

    def expect(self, word):
        view, kinds = self.grammar.kinds_of(word)
        message = self.grammar.message("expected " + self.grammar.kinds[min(kinds)])
        if view == ONE and len(kinds) == 1:
            self.emit("Expect", kind=min(kinds), message=message)
            return
        there, after = Label(), Label()
        self.branch(Seen(view, 0, kinds), True, there)
        self.emit("Error", message=message)
        self.jump(after)
        self.place(there)
        self.take(view)
        self.place(after)

    def call(self, word):
        grammar = self.grammar
        name, *parts = word.split(":")
        level, keep, add = 0, 0, 0
        for part in parts:
            if part.isdigit():
                level = int(part)
            elif part in ("same", "operand"):
                level = part
            elif part == "keep":
                keep = 0xFF
                grammar.kept.append((self.words.line, self.name, name))
            elif part.startswith("-") and part[1:] in grammar.flags:
                keep &= ~grammar.flags[part[1:]]
            elif part in grammar.flags:
                add |= grammar.flags[part]
                grammar.given.append((self.words.line, name, grammar.family_of[part]))
            else:
                self.words.fail(f"no flag {part}")
        self.emit("CallWith", target=name, level=level, keep=keep, add=add)

    def own_flag(self, name):
        if name not in self.grammar.flags:
            self.words.fail(f"no flag {name}")
        self.grammar.known[self.name, self.grammar.family_of[name]] = self.words.line
        return self.grammar.flags[name]

    # ---- conditions

    def test(self):
        word, holds = self.words.take(), True
        if word[0] == "!":
            word, holds = word[1:], False
        if word == "yes":
            return Answered(ANSWERS["no"]), not holds
        if word in ANSWERS:
            return Answered(ANSWERS[word]), holds
        if word.startswith("flag:"):
            return Flag(self.own_flag(word[5:])), holds
        if word.startswith("last:"):
            return self.seen(word[5:], -1), holds
        if re.match("[0-9]:", word):
            return self.seen(word[2:], int(word[0])), holds
        return self.seen(word), holds

    def condition(self):
        """Up to the `{`. It goes on where the condition holds; the label that it gives is where to go else."""
        true, false = Label(), Label()
        while True:
            tests = [self.test()]
            while self.words.peek() == "and":
                self.words.take()
                tests.append(self.test())
            how = self.words.take()
            if how == "{":
                for test, holds in tests:
                    self.branch(test, not holds, false)
                self.place(true)
                return false
            if how != "or":
                self.words.fail("expected `and`, `or` or `{`")
            other = Label()
            for test, holds in tests[:-1]:
                self.branch(test, not holds, other)
            test, holds = tests[-1]
            self.branch(test, holds, true)
            self.place(other)

    # ---- statements

    def block(self):
        """The statements up to the closing brace."""
        while self.words.peek() != "}":
            self.statement(self.words.take())
        self.words.take()

    def marked(self):
        self.words.need("{")
        self.emit("Open")
        self.around.append(None)
        self.block()
        self.around.pop()

    def choice(self, otherwise):
        """A block, and what `else` says."""
        self.block()
        if self.words.peek() == "else":
            self.words.take()
            after = Label()
            self.jump(after)
            self.place(otherwise)
            if self.words.peek() == "if":
                self.words.take()
                self.choice(self.condition())
            else:
                self.words.need("{")
                self.block()
            self.place(after)
        else:
            self.place(otherwise)

    def repeated(self, again, after):
        self.around.append((again, after))
        self.block()
        self.around.pop()
        self.jump(again)
        self.place(after)

    def leave(self, word):
        for open_one in reversed(self.around):
            if open_one is None:
                self.emit("Drop")
            elif word != "return":
                self.jump(open_one[0 if word == "continue" else 1])
                return
        if word != "return":
            self.words.fail(f"{word} is in no loop")
        self.emit("Return")

    def statement(self, word):
        words = self.words
        if word == "if":
            self.choice(self.condition())
        elif word == "while":
            again = Label()
            self.place(again)
            self.repeated(again, self.condition())
        elif word == "loop":
            words.need("{")
            again = Label()
            self.place(again)
            self.repeated(again, Label())
        elif word in ("break", "continue", "return"):
            self.leave(word)
        elif word == "node":
            kind = words.take()
            self.marked()
            self.emit("Close", kind=kind)
        elif word == "mark":
            self.marked()
            self.emit("Drop")
        elif word == "wrap":
            self.emit("Wrap", kind=words.take())
        elif word == "extend":
            self.emit("Extend")
        elif word == "error":
            self.error(words.take())
        elif word == "blame":
            self.blame(words.take())
        elif word == "recover":
            self.recover(words.take())
        elif word == "take":
            if words.peek() == "operator":
                words.take()
                self.emit("TakeOperator")
            elif words.peek() == "word":
                words.take()
                self.take(WORD)
            else:
                self.take(ONE)
        elif word in ("take2", "take3"):
            self.take(int(word[4]) - 1)
        elif word == "piece":
            part = words.take()
            self.emit("Piece", part=part.rstrip("!").capitalize(), last=part.endswith("!"))
        elif word in ANSWERS:
            self.emit("Answer", answer=ANSWERS[word])
        elif word == "note":
            self.emit("Flags", keep=0xFF, add=self.own_flag(words.take()))
        elif word == "forget":
            self.emit("Flags", keep=0xFF & ~self.own_flag(words.take()), add=0)
        elif word == "operator":
            words.need("{")
            otherwise = Label()
            self.emit("Operator", target=otherwise)
            self.choice(otherwise)
        elif word == "list":
            self.list()
        elif word[0] == "'" or word.rstrip("?") in self.grammar.kinds:
            if word.endswith("?"):
                after = Label()
                test = self.seen(word[:-1])
                self.branch(test, False, after)
                self.take(test.view)
                self.place(after)
            else:
                self.expect(word)
        elif re.fullmatch(r"[a-z_]+(:-?[a-z0-9_]+)*", word):
            self.call(word)
        else:
            words.fail(f"{word} begins no statement")

    def recover(self, text):
        kinds = frozenset(self.grammar.texts[brace] for brace in "{}" if brace in self.grammar.texts)
        if self.words.peek() in self.grammar.sets:
            kinds |= self.grammar.sets[self.words.take()][1]
        take, after = Label(), Label()
        self.branch(Seen(ONE, 0, kinds), False, take)
        self.error(text)
        self.jump(after)
        self.place(take)
        self.blame(text)
        self.place(after)

    def list(self):
        words = self.words
        opening, closing, text = words.take(), words.take(), words.take()
        first, rule = self.seen(words.take()), words.take()
        close, comma = self.seen(closing), self.seen("','")
        again, item, behind, after = Label(), Label(), Label(), Label()
        if not opening.startswith("last:"):
            self.take(self.grammar.kinds_of(opening)[0])
        self.place(again)
        self.branch(Seen(ONE, 0, close.kinds | {END}), True, after)
        self.branch(comma, False, item)
        self.blame(text)
        self.jump(again)
        self.place(item)
        self.call(rule)
        self.branch(Answered(ANSWERS["no"]), True, after)
        self.branch(comma, False, behind)
        self.take(ONE)
        self.jump(again)
        self.place(behind)
        self.branch(first, False, after)
        self.error("expected COMMA")
        self.jump(again)
        self.place(after)
        self.expect(closing)
