"""Proves programs, or the static library, and all crates below them by the toolchain's compiler alone, and keeps what it proved.

The compiler builds a crate only once it is proved. `rt ci`, by which `./check` proves, does more for each crate: it looks for contracts that no
call can meet, tries planted bugs, proves tests, and builds each program by two compilers. Whoever wants the program needs none of that.
"""
import contextlib
import fcntl
import hashlib
import os
import shutil
import tempfile
import time

import repository


class Proofs:
    """The libraries that are proved of the sources in a folder, which are kept in the folders out/proved of the repository's crates."""

    def __init__(self, crates, say):
        self.crates, self.say, self.digests = crates, say, {}
        self.kit = repository.kit()

    def kept(self, name):
        """Where the library of a crate is kept."""
        return os.path.join(repository.TOP, "crates", name, "out", "proved")

    def digest(self, name):
        """A number that any other file of the crate or of one below it, or another toolchain, changes."""
        if name not in self.digests:
            words = self.crates.named[name]
            whole = hashlib.sha256(open(os.path.join(self.kit, "KIT-ID"), "rb").read())
            whole.update(f"{name}: {' '.join(words)}\0{' '.join(self.digest(it) for it in words if it in self.crates.named)}\0".encode())
            for path in self.crates.files(name, ["src", "specs", "proofs"]):
                text = open(path, "rb").read()
                whole.update(f"{os.path.relpath(path, self.crates.folder(name))}\0{len(text)}\0".encode() + text)
            self.digests[name] = whole.hexdigest()
        return self.digests[name]

    def is_kept(self, name):
        stamp = os.path.join(self.kept(name), "stamp")
        return os.path.isfile(stamp) and open(stamp, encoding="utf-8").read() == self.digest(name)

    def made(self, name):
        """What the compiler makes of a crate: its library, the object of a program, or a static library."""
        file = f"lib{name}.a" if name in self.crates.static else f"{name}.{'o' if self.crates.is_program(name) else 'rlib'}"
        return os.path.join(self.kept(name), file)

    def prove(self, name):
        """Proves a crate over those below it, and keeps what is made of it. Gives the exit status and what was said."""
        shutil.rmtree(self.kept(name), ignore_errors=True)
        os.makedirs(self.kept(name))
        if name in self.crates.static:
            status, text = repository.build_static(self.crates, name, self.kept, self.made(name))
        else:
            words = repository.build_words(self.crates, name, self.kept)
            compiled = ["--toolchain", os.path.join(self.kit, "toolchain"), "--backend", "llvm"]
            words += compiled if self.crates.is_program(name) else ["--statements"]
            status, text, _ = repository.call([*words, "-o", self.made(name)], self.crates.folder(name), text=True)
            status = status or int(not repository.is_verdict(text))
        if status == 0:
            place = self.kept(name)
            with open(os.path.join(place, "stamp"), "w", encoding="utf-8") as file:
                file.write(self.digest(name))
        return status, text

    def prove_all(self, names):
        """Proves crates side by side, lowest first. Gives the name of the first that is not proved and what was said, or None."""
        begun, done = time.monotonic(), 0
        left = [it for it in self.crates.below(names) if not self.is_kept(it)]
        if not left:
            return None
        # The longest chain of crates decides when the last one is done.
        size = {it: sum(map(os.path.getsize, self.crates.files(it, ["src", "proofs"]))) for it in left}
        above = {it: size[it] for it in left}
        for name in reversed(left):
            above[name] += max((above[it] for it in left if name in self.crates.named[it]), default=0)
        tasks = sorted(left, key=lambda it: -above[it])
        waits_for = lambda name: [it for it in self.crates.named[name] if it in left]
        for name, (status, text) in repository.side_by_side(repository.LANES, tasks, waits_for, self.prove):
            if status:
                return name, text
            done += 1
            self.say(f"{done} of {len(left)} {name}, {time.monotonic() - begun:.0f} s")
        return None

    def link(self, name, to):
        """Links a program that is proved, as the file `to`. Gives the exit status and what was said."""
        archives = [os.path.join(self.kit, "c", it) for it in ("libos_c.a", "liblibc_c.a")]
        words = [os.path.join(self.kit, "bin", "rattle-link"), "--target", "x86_64-unknown-linux-gnu", "--toolchain", os.path.join(self.kit, "toolchain")]
        status, text, _ = repository.call([*words, "-o", to, self.made(name), *archives], repository.TOP, text=True)
        return status, text

    def put(self, name, to):
        """Puts a program, or a static library, that is proved at `to`. Gives the exit status and what was said."""
        if name in self.crates.static:
            shutil.copyfile(self.made(name), to)
            return 0, ""
        return self.link(name, to)


@contextlib.contextmanager
def proved(names, say):
    """Proves these crates and all below them, from a copy of the repository that lasts as long as the context. Gives what was proved, and the
    name of a crate that is not proved with what was said of it, or None."""
    crates = repository.Crates()
    inside = os.path.join(repository.TOP, ".git")
    # A second run waits for the first, and takes what it proved.
    lock = open(os.path.join(repository.TOP, "crates.txt"), encoding="utf-8")
    fcntl.flock(lock, fcntl.LOCK_EX)
    with lock, tempfile.TemporaryDirectory(prefix="build-", dir=inside if os.path.isdir(inside) and os.access(inside, os.W_OK) else None) as folder:
        # An edit of a source during the proof changes nothing in the copy.
        repository.copy_to(folder, crates, crates.below(names), with_edits=False)
        proofs = Proofs(repository.Crates(folder), say)
        yield proofs, proofs.prove_all(names)


def build(names, say):
    """Proves and builds these programs and static libraries, and puts each into its crate's folder out/: their paths, or the name of a crate
    that is not proved and what was said of it."""
    with proved(names, say) as (proofs, refused):
        if refused:
            return None, refused
        paths = []
        for name in names:
            path = os.path.join(repository.TOP, "crates", name, "out", f"lib{name}.a" if name in proofs.crates.static else name)
            # A program that runs while it is rebuilt keeps its file.
            status, text = proofs.put(name, path + ".new")
            if status:
                return None, (name, text)
            os.replace(path + ".new", path)
            paths.append(path)
        return paths, None
