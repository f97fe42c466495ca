"""Railroad diagrams of what the rules of a grammar read, as SVG.

A Shape is as wide as its track is long, and reaches `up` above the track and `down` below it. `draw(x, y)` gives its lines of SVG, with
the track from (x, y) to (x + wide, y).
"""
import collections
from html import escape

from .outline import Call, Choice, Error, Loop, Mark, Node, Note, Token, Wrap

Shape = collections.namedtuple("Shape", "wide up down draw")
LETTER, HALF, ARC, GAP, WIDEST = 7.3, 11, 9, 10, 1000  # in pixels; HALF: of a box's height


def track(*steps):
    return f'<path d="{" ".join(steps)}"/>'


def line(x, y, to):
    return [track(f"M{x:.0f} {y:.0f}H{to:.0f}")] if to > x else []


def label(text, x, y, cls, link):
    """A text around a point, which may lead somewhere."""
    made = f'<text x="{x:.0f}" y="{y + 4:.0f}" class="{cls}">{escape(text)}</text>'
    return f'<a href="#{escape(link)}">{made}</a>' if link else made


def box(text, cls, link="", title="", rounded=0):
    """A text in a box."""
    wide = len(text) * LETTER + 16

    def draw(x, y):
        about = f"<title>{escape(title)}</title>" if title else ""
        rect = f'<rect x="{x:.0f}" y="{y - HALF:.0f}" width="{wide:.0f}" height="{2 * HALF}" rx="{rounded}" class="{cls}"/>'
        return [f"<g>{about}{rect}{label(text, x + wide / 2, y, cls, link)}</g>"]

    return Shape(wide, HALF, HALF, draw)


def note(text, cls, title=""):
    """A small text over the track."""
    shown = text if len(text) <= 40 else text[:39] + "…"
    wide = len(shown) * LETTER * 0.8 + 8

    def draw(x, y):
        about = f"<title>{escape(title or text)}</title>"
        return line(x, y, x + wide) + [f'<g>{about}<text x="{x + wide / 2:.0f}" y="{y - 5:.0f}" class="{cls}">{escape(shown)}</text></g>']

    return Shape(wide, 16, 2, draw)


def dot():
    return Shape(12, 4, 4, lambda x, y: line(x, y, x + 12) + [f'<circle cx="{x + 6:.0f}" cy="{y:.0f}" r="4"/>'])


def row(shapes):
    """One behind another."""
    wide = sum(shape.wide for shape in shapes) + GAP * max(0, len(shapes) - 1)

    def draw(x, y):
        made = []
        for number, shape in enumerate(shapes):
            if number:
                made += line(x, y, x + GAP)
                x += GAP
            made += shape.draw(x, y)
            x += shape.wide
        return made

    return Shape(wide, max([shape.up for shape in shapes], default=0), max([shape.down for shape in shapes], default=0), draw)


def rows(lines):
    """Rows below each other: the track goes from the end of each back to the left."""
    wide, at = max(one.wide for one in lines) + 4 * ARC, [0]
    for above, below in zip(lines, lines[1:]):
        at.append(at[-1] + above.down + below.up + 3 * GAP)

    def draw(x, y):
        made = []
        for number, one in enumerate(lines):
            here, end = y + at[number], x + 2 * ARC + one.wide
            made += line(x, here, x + 2 * ARC) if not number else []
            made += one.draw(x + 2 * ARC, here)
            if number + 1 < len(lines):
                turn, below = here + one.down + GAP, y + at[number + 1]
                made.append(track(f"M{end:.0f} {here:.0f}h{ARC}V{turn:.0f}H{x + ARC:.0f}V{below:.0f}h{ARC}"))
            else:
                made.append(track(f"M{end:.0f} {here:.0f}H{x + wide:.0f}V{y:.0f}") if number else "")
        return made

    return Shape(wide, lines[0].up, at[-1] + lines[-1].down, draw)


def fork(ways):
    """The first straight on, the others below."""
    wide, at = max(way.wide for way in ways) + 4 * ARC, [0]
    for above, below in zip(ways, ways[1:]):
        at.append(at[-1] + max(above.down + below.up + 6, 2 * ARC))

    def draw(x, y):
        made = []
        for number, way in enumerate(ways):
            here, end = y + at[number], x + wide
            if number:
                made.append(track(f"M{x:.0f} {y:.0f}q{ARC} 0 {ARC} {ARC}V{here - ARC:.0f}q0 {ARC} {ARC} {ARC}"))
                made.append(track(f"M{end:.0f} {y:.0f}q-{ARC} 0 -{ARC} {ARC}V{here - ARC:.0f}q0 {ARC} -{ARC} {ARC}"))
                made += way.draw(x + 2 * ARC, here) + line(x + 2 * ARC + way.wide, here, end - 2 * ARC)
            else:
                made += line(x, y, x + 2 * ARC) + way.draw(x + 2 * ARC, y) + line(x + 2 * ARC + way.wide, y, end)
        return made

    return Shape(wide, ways[0].up, at[-1] + ways[-1].down, draw)


def loop(body, back):
    """The body straight on, and below it the way back, against the direction of the track."""
    inner = max(body.wide, back.wide)
    wide, low = inner + 4 * ARC, max(body.down + back.up + 6, 2 * ARC)

    def draw(x, y):
        left, right = x + 2 * ARC, x + 2 * ARC + inner
        made = line(x, y, left) + body.draw(left, y) + line(left + body.wide, y, x + wide)
        made.append(track(f"M{right:.0f} {y:.0f}q{ARC} 0 {ARC} {ARC}V{y + low - ARC:.0f}q0 {ARC} -{ARC} {ARC}"))
        made.append(track(f"M{left:.0f} {y:.0f}q-{ARC} 0 -{ARC} {ARC}V{y + low - ARC:.0f}q0 {ARC} {ARC} {ARC}"))
        made += line(left, y + low, right - back.wide) + back.draw(right - back.wide, y + low)
        return made + [f'<path class="arrow" d="M{left + 2:.0f} {y + low:.0f}l6 -4v8z"/>']

    return Shape(wide, body.up, low + back.down, draw)


def frame(kind, body, link):
    """A node: what it is made of, in a frame with its kind."""
    wide = max(body.wide, len(kind) * LETTER) + 2 * GAP

    def draw(x, y):
        top, high = y - body.up - 22, body.up + body.down + 30
        rect = f'<rect x="{x:.0f}" y="{top:.0f}" width="{wide:.0f}" height="{high:.0f}" rx="3" class="node"/>'
        name = label(kind, x + GAP, top + 10, "node", link)
        return [rect, name] + line(x, y, x + GAP) + body.draw(x + GAP, y) + line(x + GAP + body.wide, y, x + wide)

    return Shape(wide, body.up + 22, body.down + 8, draw)


class Drawing:
    """Draws what a rule reads. `link` gives the anchor of a word of the grammar, or nothing."""

    def __init__(self, link):
        self.link = link

    def way(self, items, room):
        """A sequence, in several rows if it is wider than there is room."""
        lines, last = [], []
        for shape in [self.item(item, room) for item in items]:
            if last and row(last + [shape]).wide > room:
                lines.append(row(last))
                last = []
            last.append(shape)
        return rows(lines + [row(last)]) if lines else row(last)

    def item(self, item, room):
        room -= 4 * ARC
        match item:
            case Token(word) if " " in word:
                return box(word, "other")
            case Token(word):
                plain = word.strip("'@") if word[0] in "'@" else word
                return box(plain, "sign" if word[0] in "'@" else "kind", self.link(word), rounded=HALF)
            case Call(rule, given):
                return box(f"{rule}:{given}" if given else rule, "rule", self.link(rule))
            case Node(kind, body):
                return frame(kind, self.way(body, room), kind)
            case Wrap(kind):
                return box(f"◂ {kind}", "node", kind, "a node of what was read since the mark")
            case Mark():
                return dot()
            case Note(text):
                return note(text, "note")
            case Error(text):
                return box("✗", "error", title=text)
            case Loop((), back):
                return fork([row([]), loop(self.way(back, room - 4 * ARC), row([]))])
            case Loop(body, back):
                return loop(self.way(body, room), self.way(back, room))
            case Choice(ways):
                return fork([self.way(way, room) for way in sorted(ways, key=bool)])


def picture(items, link, name):
    """The SVG of what a rule reads, which screens readers call by its name."""
    shape = Drawing(link).way(items, WIDEST)
    wide, high, x, y = shape.wide + 44, shape.up + shape.down + 8, 22, shape.up + 4
    ends = [track(f"M{at:.0f} {y - 7:.0f}v14m4 -14v14") for at in (6, wide - 10)]
    lines = ends + line(10, y, x) + shape.draw(x, y) + line(x + shape.wide, y, wide - 10)
    return f'<svg role="img" aria-label="{escape(name)}" width="{wide:.0f}" height="{high:.0f}" viewBox="0 0 {wide:.0f} {high:.0f}">\n' + "\n".join(filter(None, lines)) + "\n</svg>"
