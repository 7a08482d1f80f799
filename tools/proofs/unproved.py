"""Programs tried without a proof, some of their files changed: what an edited program does is seen by running it.

`rt try` compiles a program, with all that it is made of, from their sources, and runs it. For each try they are copied to
a folder outside the repository, and edited there. What a try said is kept under target/run-edits, under a name that
tells kit, sources and input, so that nothing is tried twice."""
import functools
import glob
import hashlib
import json
import os
import subprocess
import tempfile

HERE = os.path.dirname(os.path.realpath(__file__))
TOOLS = os.path.dirname(HERE)
TOP = os.path.dirname(TOOLS)
WORK = os.path.join(TOP, "target", "run-edits")
# what `rt try` ends with, besides a program's own status, where the program did not end by itself
NOT_TRIED, FAULT, OTHER_ANSWER, NO_ANSWER = (1, 2, 3), 4, 5, 6


@functools.lru_cache(None)
def kit():
    """The line that names the kit."""
    return subprocess.run(["rt", "version"], stdout=subprocess.PIPE, check=True).stdout.decode()


@functools.lru_cache(None)
def named_by():
    """What each crate names."""
    out = {}
    with open(os.path.join(TOP, "crates.txt")) as file:
        for line in file:
            name, colon, rest = line.partition("#")[0].partition(":")
            if colon:
                out[name.strip()] = rest.split()
    return out


@functools.lru_cache(None)
def reached(crate):
    """The crates that a crate is made of, itself apart."""
    out, left = [], list(named_by()[crate])
    while left:
        one = left.pop(0)
        if one not in out:
            out.append(one)
            left += named_by()[one]
    return tuple(out)


@functools.lru_cache(None)
def texts(crate):
    """The files of a crate's source: name and text."""
    folder = os.path.join(TOP, "crates", crate, "src")
    out = {}
    for path in sorted(glob.glob(os.path.join(folder, "**", "*.rt"), recursive=True)):
        with open(path) as file:
            out[os.path.relpath(path, folder)] = file.read()
    return out


def write(folder, files):
    for name, text in files.items():
        path = os.path.join(folder, name)
        os.makedirs(os.path.dirname(path), exist_ok=True)
        with open(path, "w") as file:
            file.write(text)


class Program:
    """A program by its name, its files, and the crates that it is made of."""

    def __init__(self, name, files, named, crates):
        self.name, self.files, self.named, self.crates = name, files, named, crates

    def sources(self, crate, files):
        """All its files by crate, with these in place of the crate's own."""
        return dict({one: files if one == crate else texts(one) for one in self.crates}, **{self.name: self.files})

    def tried(self, words, data, seconds, crate=None, files=None):
        """What it writes on this input, and how it came to no end of its own, as text, or None; with these files in place
        of the crate's own. None where it cannot be compiled."""
        sources = self.sources(crate, files)
        told = repr((kit(), self.name, sorted((one, sorted(of.items())) for one, of in sources.items()), words, seconds, data))
        kept = os.path.join(WORK, hashlib.sha256(told.encode()).hexdigest())
        if not os.path.exists(kept):
            said = self.said(sources, words, data, seconds)
            os.makedirs(WORK, exist_ok=True)
            with tempfile.NamedTemporaryFile("w", dir=WORK, delete=False) as file:
                json.dump(said, file)
            os.replace(file.name, kept)
        with open(kept) as file:
            said = json.load(file)
        return said and (said[0].encode("latin-1"), said[1])

    def said(self, sources, words, data, seconds):
        with tempfile.TemporaryDirectory(prefix="run-edits-") as folder:
            lines = ["%s: %s\n" % (one, " ".join(self.named if one == self.name else named_by()[one])) for one in sources]
            write(folder, {"crates.txt": "".join(lines)})
            for one, files in sources.items():
                write(os.path.join(folder, "crates", one, "src"), files)
            command = ["rt", "try", "--seconds", str(seconds)] + (["--"] + words if words else [])
            done = subprocess.run(command, cwd=os.path.join(folder, "crates", self.name), input=data, stdout=subprocess.PIPE, stderr=subprocess.PIPE)
        if done.returncode in NOT_TRIED:
            return None
        ends = {0: None, FAULT: "crashes", OTHER_ANSWER: "answers now so, now so", NO_ANSWER: "does not end in %d s" % seconds}
        return done.stdout.decode("latin-1"), ends.get(done.returncode, "ends with %d" % done.returncode)


def crate_program(name):
    return Program(name, texts(name), named_by()[name], reached(name))
