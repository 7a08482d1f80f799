"""Books and triples by name, for run-edits.

    stored sound 12, stored rewrite 3, stored judge 7     of the stored runs, counted from 1
    sample book-a                                         of samples/
    damaged 1 5, small 1 5                                of seed 1 the fifth book of damaged_books.py, small_books.py
    sixty-five rows, ..                                   of the list BY_HAND below

The name says which program is run on it. `areas of NAME` has the rewriter's two areas printed whole,
`contents of NAME` is run by contents.rattle, which calls the loader and the functions on contents.
"""
import itertools
import os
import struct
import sys

from generators import damaged_books
from generators import small_books
from books.book import book, stream, unstream

TOP = os.path.dirname(os.path.dirname(os.path.dirname(os.path.realpath(__file__))))


def endless(maker):
    while True:
        yield maker.next()


# what stands before a book's name, and the program and its word that it asks for
FORMS = {"areas of ": ("rewrite", "areas"), "contents of ": ("contents", "")}
# random books: a program, and the books of a seed
RANDOM = {"damaged": ("sound", lambda seed: (b for b, _ in endless(damaged_books.Maker(seed)))),
          "small": ("rewrite", lambda seed: endless(small_books.Maker(seed)))}


def whole(arities, question, *summaries):
    return book(arities, 1, question, [(1, s) for s in summaries])


def loose(relation, count):
    return ", ".join("%d(X%d)" % (relation, i) for i in range(count))


PAIR = "(A,B) from 0(A), 0(B)"
# of each name the program and the book
BY_HAND = {
    # each of the two subgoals can go to either of the summary's, and back
    "two ways there": ("rewrite", whole([2], "(X0) from 0(X0,X1), 0(X0,X2)", "(A) from 0(A,B), 0(A,C)")),
    # the first row does not do, each of the two others does
    "two that would do": ("rewrite", whole([1, 1], "(X0) from 0(X0), 1(X0)", "(A) from 1(A)", *["(A) from 0(A), 1(A)"] * 2)),
    # two meters in one street, of which no summary shows the street
    "a hidden street": ("rewrite", whole([2], "(X0,X2) from 0(X0,X1), 0(X2,X1)", "(A) from 0(A,B)")),
    # 64 rows of the first summary and one of the second
    "sixty-five rows": ("rewrite", whole([1, 1], "() from " + loose(0, 8) + ", 1(X0)", PAIR, "(A) from 1(A)")),
}


def untriple(data):
    """The triples of a stream, each as its bytes."""
    out, at = [], 0
    while at < len(data):
        end = at + 12 + sum(struct.unpack_from("<III", data, at))
        out.append(data[at:end])
        at = end
    return out


def read(*path):
    with open(os.path.join(TOP, *path), "rb") as file:
        return file.read()


def stored(program):
    """Each book or triple of a stored run as a stream of its own."""
    data = read("crates", program, "stdin")
    return untriple(data) if program == "judge" else [stream([b]) for b in unstream(data)]


def found(name):
    """The program that a name asks for, and a stream of the one book or triple."""
    words = name.split()
    if name in BY_HAND:
        return BY_HAND[name][0], stream([BY_HAND[name][1]])
    if words[0] == "stored":
        return words[1], stored(words[1])[int(words[2]) - 1]
    if words[0] == "sample":
        return "rewrite", stream([read("samples", words[1])])
    if words[0] not in RANDOM:
        sys.exit("there is no book '%s'" % name)
    program, make = RANDOM[words[0]]
    return program, stream([next(itertools.islice(make(int(words[1])), int(words[2]) - 1, None))])


def task(name):
    """What shows an edit: the program, its word and what it is given."""
    for form, (program, word) in FORMS.items():
        if name.startswith(form):
            return program, word, found(name[len(form):])[1]
    program, data = found(name)
    return program, "many", data


def source_of(form):
    """Whose books a program is run on, and how their names begin."""
    program, _ = form
    return {"contents": "sound"}.get(program, program), next((f for f, asked in FORMS.items() if asked == form), "")


def written(form):
    """What people wrote for a program and its word: names, with what is given."""
    source, prefix = source_of(form)
    for number, data in enumerate(stored(source), 1):
        yield "%sstored %s %d" % (prefix, source, number), data
    for name, (asked, a_book) in BY_HAND.items():
        if asked == source:
            yield prefix + name, stream([a_book])


def random_books(form, count):
    """So many random books for it."""
    source, prefix = source_of(form)
    for kind, (asked, make) in RANDOM.items():
        if asked == source:
            for number, a_book in zip(range(1, count + 1), make(1)):
                yield "%s%s 1 %d" % (prefix, kind, number), stream([a_book])
