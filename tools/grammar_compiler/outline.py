"""The rules of a grammar as what they read: sequences, alternatives and loops, which can be drawn.

What a rule reads is a tuple of items, in the order of the text. A rule is a program with tests and jumps; here each way through it becomes
an alternative. A test of the next token is left out, since the way begins with such a token; other tests are notes.
"""
import collections
import re

from .language import ANSWERS, GrammarError, Words

Token = collections.namedtuple("Token", "word")  # as the grammar writes it; with a blank: a description
Call = collections.namedtuple("Call", "rule given")  # the level and the flags that are given
Choice = collections.namedtuple("Choice", "ways")
Loop = collections.namedtuple("Loop", "body back")  # the body once or more, and `back` between two; of an empty body `back` any number of times
Node = collections.namedtuple("Node", "kind body")
Wrap = collections.namedtuple("Wrap", "kind")  # ends a node that began at the last mark
Mark = collections.namedtuple("Mark", "")
Note = collections.namedtuple("Note", "text")
Error = collections.namedtuple("Error", "text")
# A test: its word without `!`, how far ahead it looks (None: it is of no token that comes), and whether it has to hold.
Test = collections.namedtuple("Test", "word ahead holds")
PIECES = {"whole": "digits", "dot": "'.'", "fraction": "digits"}


def parts(item):
    """The sequences that an item consists of."""
    return {Choice: lambda: item.ways, Loop: lambda: (item.body, item.back), Node: lambda: (item.body,)}.get(type(item), tuple)()


def items_in(way):
    for item in way:
        yield item
        for part in parts(item):
            yield from items_in(part)


def choice(ways):
    """One of these sequences. What neighbours have in front, or all of them at the end, is there once."""
    found = []
    for way in ways:
        for one in way[0].ways if len(way) == 1 and isinstance(way[0], Choice) else [way]:
            if one and found and found[-1] and one[0] == found[-1][0]:
                one = one[:1] + choice([found.pop()[1:], one[1:]])
            if one not in found:
                found.append(one)
    if () in found:
        found = [way for way in found if not way or not all(isinstance(item, Note) for item in way)]
    if len(found) == 1:
        return found[0]
    end = 0
    while all(len(way) > end and way[-1 - end] == found[0][-1 - end] for way in found):
        end += 1
    return (Choice(tuple(way[: len(way) - end] for way in found)),) + found[0][len(found[0]) - end :]


def repeated(again, leaving):
    """A loop: `again` is a turn, and `leaving` has what each exit does in the last turn."""
    ways, front = [again, *leaving.values()], 0
    while all(len(way) > front and way[front] == again[front] for way in ways):
        front += 1
    loop = Loop(again[:front], again[front:])
    return {exit: (loop,) + way[front:] for exit, way in leaving.items()}


def without_errors(way, wrong):
    """The same without the ways that report an error, as the rules in `wrong` do always; None if there are no others."""
    made = ()
    for item in way:
        if isinstance(item, Error) or isinstance(item, Call) and item.rule in wrong:
            return None
        inner = [without_errors(part, wrong) for part in parts(item)]
        if isinstance(item, Choice):
            inner = [one for one in inner if one is not None]
            if not inner:
                return None
            made += choice(inner)
        elif inner and inner[0] is None:
            return None
        elif isinstance(item, Loop):
            made += inner[0] if inner[1] is None or inner == [(), ()] else (Loop(*inner),)
        else:
            made += (item._replace(body=inner[0]),) if inner else (item,)
    return made


class Outline:
    """What each rule of a grammar reads, by its name: `rules` with what reports errors, `right` without."""

    def __init__(self, grammar):
        self.grammar, self.rules = grammar, {}
        # What is known of the tokens before a rule, which rules take nothing, and which make nodes from a mark of their caller
        self.before, self.silent, self.open = {}, set(), set()
        # These follow from the rules, and the rules are read again with them.
        known = None
        while known != (self.before, self.silent, self.open):
            known = (self.before, self.silent, self.open)
            self.calls = {}
            self.rules = {name: Reading(self, name, words).whole() for name, words in grammar.bodies.items()}
            self.before = {name: self.known_at(name) for name in self.rules}
            self.silent = {name for name, way in self.rules.items() if all(isinstance(item, (Note, Choice)) for item in items_in(way))}
            self.open = {name for name, way in self.rules.items() if self.is_open(way)}
        self.right, wrong = {}, None
        while wrong is None or len(wrong) < list(self.right.values()).count(None):
            wrong = {name for name, way in self.right.items() if way is None}
            self.right = {name: without_errors(way, wrong) for name, way in self.rules.items()}

    def known_at(self, rule):
        """What all callers of a rule know of the tokens that come."""
        calls = self.calls.get(rule)
        if not calls or rule in self.grammar.entries:
            return {}
        return {ahead: list(dict.fromkeys(word for known in calls for word in known[ahead])) for ahead in range(4) if all(known.get(ahead) for known in calls)}

    def is_open(self, way):
        """Whether a node in this sequence begins at a mark before it."""
        for item in way:
            if isinstance(item, Mark):
                return False
            if isinstance(item, Wrap) or isinstance(item, Call) and item.rule in self.open:
                return True
            if not isinstance(item, Node) and any(self.is_open(part) for part in parts(item)):
                return True
        return False


class Reading:
    """Reads the words of a rule. `known` has what tests said of the tokens that come: by how far ahead they are, the words that fit."""

    def __init__(self, outline, name, words):
        self.outline, self.grammar, self.name = outline, outline.grammar, name
        self.words, self.known = Words.of(words), dict(outline.before.get(name, {}))

    def whole(self):
        exits = self.block()
        way = choice([exits[exit] for exit in ("return", "next") if exit in exits])
        sealed = self.grammar.sealed.get(self.name)
        if sealed:
            opening = "OPENING" if "last:'('" in [word for _, word in self.words.words] else "'{'"
            way = (Node(sealed, (Token(opening),) + way),)
        return way

    # ---- conditions

    def condition(self):
        """The alternatives of a condition, each a list of tests, and its text. It ends behind the `{`."""
        ways, text = [[]], []
        while self.words.peek() != "{":
            word = self.words.take()
            text.append(word)
            if word == "or":
                ways.append([])
            elif word != "and":
                ways[-1].append(self.test(word.lstrip("!"), not word.startswith("!")))
        self.words.take()
        return ways, " ".join(text)

    def test(self, word, holds):
        if re.match("[1-3]:", word):
            return Test(word[2:], int(word[0]), holds)
        return Test(word, None if word in ANSWERS or word.startswith(("flag:", "last:")) else 0, holds)

    def assume(self, ways):
        """Knows that a condition holds."""
        for ahead in range(4):
            tests = [[test.word for test in way if test.ahead == ahead and test.holds] for way in ways]
            if all(tests):
                self.known[ahead] = [word for way in tests for word in way[-1:]]
        not_ones = [test.word for way in ways for test in way if test.ahead == 0 and not test.holds]
        if len(ways) == 1 and not_ones and self.fits(0) is None:
            self.known[0] = ["any token but " + ", ".join(not_ones)]

    def deny(self, ways):
        """Knows that a condition does not hold."""
        if len(ways) == 1 and len(ways[0]) == 1:
            self.assume([[ways[0][0]._replace(holds=not ways[0][0].holds)]])
        elif all(len(way) == 1 and way[0].ahead == 0 for way in ways):
            self.known[0] = [word for word in self.fits(0) or [] if word not in [way[0].word for way in ways]] or None

    def fits(self, ahead):
        return self.known.get(ahead)

    def guard(self, ways, text):
        """A note of a condition that more than the next tokens decide. It is asked for behind the condition."""
        taken, at = 0, self.words.next
        while word := self.words.words[at][1] if at < len(self.words.words) else "":
            step = {"take": 1, "take2": 2, "take3": 3}.get(word, int(word[0] == "'" or word in self.grammar.kinds or word in self.grammar.sealed))
            if not step and word not in ("word", "{", "node", "mark"):
                break
            taken, at = taken + step, at + 1
        seen = all(test.ahead is not None and test.ahead < max(taken, 1) for way in ways for test in way)
        return () if seen else (Note(text),)

    # ---- statements: each gives what is read up to each exit

    def block(self):
        """The statements up to the closing brace."""
        exits = {"next": ()}
        while self.words and self.words.peek() != "}":
            front = exits.pop("next", None)
            found = self.statement(self.words.take())
            if front is None:
                raise GrammarError(f"line {self.words.line}: {self.name} never comes here")
            for exit, way in found.items():
                exits[exit] = choice([exits[exit], front + way]) if exit in exits else front + way
        if self.words:
            self.words.take()
        return exits

    def statement(self, word):
        words = self.words
        if word in ("break", "continue", "return"):
            return {word: ()}
        if word == "if":
            return self.branches(*self.condition())
        if word in ("while", "loop"):
            return self.loop(word)
        if word in ("node", "mark"):
            return self.marked(words.take() if word == "node" else None)
        if word == "operator":
            words.need("{")
            return self.branches([[Test("operator", 0, True)]], "")
        return {"next": self.simple(word)}

    def simple(self, word):
        words, grammar = self.words, self.grammar
        if word in ("yes", "no", "block"):
            return ()
        if word == "take" and words.peek() in ("word", "operator"):
            what = words.take()
            return self.taken(1, "operator" if what == "operator" else None)
        if word in ("take", "take2", "take3"):
            return self.taken(int(word[4:] or 1), None)
        if word == "piece":
            return (Token(PIECES[words.take().rstrip("!")]),)
        if word in ("note", "forget"):
            return (Note(f"{word} {words.take()}"),)
        if word == "extend":
            return (Note(word),)
        if word == "wrap":
            return (Wrap(words.take()),)
        if word in ("error", "blame", "recover"):
            text = (Error(words.take().strip('"')),)
            if word == "error":
                return text
            if word == "recover" and words.peek() in grammar.sets:
                words.take()
            self.known = {}
            return (Node("ERROR", text),)
        if word == "list":
            return self.list()
        if word[0] == "'" or word.rstrip("?") in grammar.kinds:
            self.known = {}
            return choice([(Token(word[:-1]),), ()]) if word.endswith("?") else (Token(word),)
        rule, *given = word.split(":")
        self.outline.calls.setdefault(rule, []).append({ahead: words for ahead, words in self.known.items() if words and " " not in words[0]})
        body = [one for _, one in grammar.bodies[rule]]
        if body[:1] == ["node"] and body[2:] == ["{", "take", "}"]:
            self.passed(1)
        elif rule not in self.outline.silent:
            self.known = {}
        return (Call(rule, ":".join(it for it in given if it not in ("keep", "same"))),)

    def taken(self, count, word):
        """A token of so many signs, one of those that the tests before allow."""
        fits = [word] if word else self.fits(0) or ["any token"]
        if count > 1:
            fits = [one for one in fits if len(one) == count + 2] or fits
        self.passed(count)
        return choice([(Token(one),) for one in fits])

    def passed(self, count):
        self.known = {ahead - count: words for ahead, words in self.known.items() if ahead >= count}

    def branches(self, ways, text):
        before = dict(self.known)
        self.assume(ways)
        guard = self.guard(ways, text)
        exits = [{exit: guard + way for exit, way in self.block().items()}]
        held, self.known = self.known, before
        self.deny(ways)
        if self.words.peek() == "else":
            self.words.take()
            if self.words.take() == "if":
                exits.append(self.branches(*self.condition()))
            else:
                exits.append(self.block())
        else:
            exits.append({"next": ()})
        if "next" in exits[0] and self.known != held:
            self.known = held if "next" not in exits[1] else {}
        names = dict.fromkeys(name for one in exits for name in one)
        return {name: choice([one[name] for one in exits if name in one]) for name in names}

    def loop(self, word):
        self.known, ways, guard = {}, None, ()
        if word == "while":
            ways, text = self.condition()
            self.assume(ways)
            guard = self.guard(ways, text)
        else:
            self.words.need("{")
        exits = {exit: guard + way for exit, way in self.block().items()}
        again = choice([exits.pop(exit) for exit in ("next", "continue") if exit in exits])
        if ways:
            exits["break"] = choice([exits["break"], ()]) if "break" in exits else ()
        exits = repeated(again, exits)
        self.known = {}
        return {"next" if exit == "break" else exit: way for exit, way in exits.items()}

    def marked(self, kind):
        self.words.need("{")
        exits = self.block()
        if kind is None:
            return {exit: self.settled((Mark(),) + way) for exit, way in exits.items()}
        if "next" in exits:
            exits["next"] = (Node(kind, exits["next"]),)
        return exits

    def list(self):
        opening, closing, text, _, rule = (self.words.take() for _ in range(5))
        self.known = {}
        item, *given = rule.split(":")
        self.outline.calls.setdefault(item, []).append({})
        early = Loop((), (Node("ERROR", (Error(text.strip('"')),)),))
        between = choice([(Token("','"),), (Error("expected COMMA"),)])
        items = (Loop((early, Call(item, ":".join(given))), between),) + choice([(Token("','"),), ()])
        return (() if opening.startswith("last:") else (Token(opening),)) + choice([items, ()]) + (Token(closing),)

    def settled(self, way):
        """Behind a mark: nodes in the place of what `wrap` makes nodes of, as far as these end in the sequence of the mark."""
        mark, rest = way[0], way[1:]
        while True:
            at = next((at for at, item in enumerate(rest) if isinstance(item, Wrap)), None)
            if at is None or self.outline.is_open(rest[:at]):
                break
            rest = (Node(rest[at].kind, rest[:at]),) + rest[at + 1 :]
        if not self.outline.is_open(rest):
            return rest
        if len(rest) == 1 and isinstance(rest[0], Choice):
            return choice([self.settled((mark,) + one) for one in rest[0].ways])
        return (mark,) + rest
