"""Lists that scripts make within files which are otherwise written by hand."""
import os
import re

TOP = os.path.dirname(os.path.dirname(os.path.abspath(__file__)))


class Lost(Exception):
    """A file has no place for a list."""


def source(path):
    path = os.path.join(TOP, path)
    return open(path, encoding="utf-8").read() if os.path.exists(path) else ""


class Files:
    """The files with their lists, as they are to be."""

    def __init__(self):
        self.texts = {}

    def text(self, path):
        return self.texts.setdefault(path, source(path))

    def span(self, path, before, behind):
        """Where the lines between the first lines that are `before` and the next that are `behind` begin and end. No line is behind a list
        that the file ends with, as before an empty one."""
        text = self.text(path)
        at = text.find(f"{before}\n")
        start = at + len(before) + 1
        end = f"{text}\n".find(f"\n{behind}\n", start - 1) + 1
        if at < 0 or not end:
            raise Lost(f"{path} has no list between `{before.strip()}` and `{behind.strip()}`")
        return start, end

    def between(self, path, before, behind):
        start, end = self.span(path, before, behind)
        return self.text(path)[start:end]

    def put(self, path, before, lines, behind):
        """Puts lines between those that `span` finds, which stay."""
        start, end = self.span(path, before, behind)
        text = self.text(path)
        self.texts[path] = text[:start] + "".join(f"{line}\n" for line in lines) + text[end:]

    def count(self, path, pattern, number):
        """Sets each number that the pattern finds, its one group."""
        text, found = re.subn(pattern, lambda it: it[0].replace(it[1], str(number)), self.text(path))
        if not found:
            raise Lost(f"{path} has no number `{pattern}`")
        self.texts[path] = text
