"""Tries an edit that plants a bug in a crate, over proved libraries: the prover has to refuse it."""
import os
import re
import tempfile

import repository


class BadEdit(Exception):
    """An edit that does not apply to the crate as it is."""


def texts_of(folder, edit):
    """The files of a crate's folder that an edit changes, by their paths in it, each with its new text."""
    texts, place, old = {}, None, None
    for line in open(edit, encoding="utf-8").read().split("\n"):
        word, _, rest = line.partition(": ")
        if word == "file":
            place = rest.strip()
        elif word == "old":
            old = rest
        elif line.startswith("new:"):
            path = os.path.join(folder, place)
            text = texts.get(place) or open(path, encoding="utf-8").read()
            if text.count(old) != 1:
                raise BadEdit(f"its old text is in {place} {text.count(old)} times, and not once")
            texts[place] = text.replace(old, line[4:].removeprefix(" "))
    if not texts:
        raise BadEdit("no old and new text")
    return texts


def modules_of(places):
    """The modules of a crate's files, as the prover's option `--only` takes them; none if the whole crate has to be checked: a definition or
    a lemma has no module of its own, and the root file has none that means it alone."""
    found = [place.removeprefix("src/").removesuffix(".rt").replace("/", "::") for place in places]
    is_whole = any(not place.startswith("src/") for place in places) or any(it in ("lib", "main") for it in found)
    return [] if is_whole else found


# What the prover says of a text that it cannot read, where a false statement reads well.
UNREAD = re.compile(r"(?m)^(\./)?(src|specs)/\S+ error: .*(is not in scope|has no field|is no name|operand is missing|expected the end|cannot continue)")


def is_refused(status, text):
    """Whether the prover said of what it was asked to check that some of it is not proved."""
    told = re.search(r"(?m)^only=(\d+) proved=(\d+)$", text)
    if told:
        return status == 1 and int(told[2]) < int(told[1])
    return status == 1 and re.search(r"(?m)^logic=not-proved", text) is not None and not UNREAD.search(text)


def refused(crates, name, edit, built):
    """Whether the prover refuses an edit of a crate, and what was said. `built(other)` is the folder of a proved library.

    The modules that the edit changes are checked alone, with all that they call in their crate. An edit that does not compile is not
    refused by the prover, so it counts for nothing."""
    with tempfile.TemporaryDirectory(prefix="planted-", dir=crates.top) as folder:
        for path in crates.files(name, ["src", "specs", "proofs"]):
            to = os.path.join(folder, os.path.relpath(path, crates.folder(name)))
            os.makedirs(os.path.dirname(to), exist_ok=True)
            with open(path, "rb") as file, open(to, "wb") as copy:
                copy.write(file.read())
        try:
            texts = texts_of(folder, edit)
        except BadEdit as error:
            return False, str(error)
        for place, text in texts.items():
            with open(os.path.join(folder, place), "w", encoding="utf-8") as file:
                file.write(text)
        words = repository.build_words(crates, name, built)
        words[words.index("build")] = "check"
        status, text, _ = repository.call([*words, *[it for module in modules_of(texts) for it in ("--only", module)]], folder, text=True)
    return is_refused(status, text), text
