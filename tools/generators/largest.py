"""The longest of all: a sound book of 25,040 bytes, a rewriting of 534 and a witness of 120, worked
out by hand. Summary i shows relation i and hides seven more subgoals, all of eight terms; the rewriting
uses twelve summaries, one for each of the question's subgoals."""
from books.book import LONGEST, book, rule_bytes, terms

EIGHT, HIDDEN = "(A,B,C,D,E,F,G,H)", "(I,J,K,L,M,N,O,P)"
QUESTION = EIGHT + " from " + ", ".join("%d%s" % (i, EIGHT) for i in range(12))
THERE = [(i + 1, 1) for i in range(12)]
BACK = [(i + h) % 12 + 1 for i in range(12) for h in range(8)]


def summary(i):
    return EIGHT + " from %d%s, " % (i, EIGHT) + ", ".join("%d%s" % ((i + h) % 12, HIDDEN) for h in range(1, 8))


def book_of(relations, summaries):
    """The book with so many relations and summaries, from 12 on; summary i + 12 is alike summary i."""
    return book([8] * relations, 1, QUESTION, [(1, summary(s % 12)) for s in range(summaries)])


def body(step=0):
    """The rewriting's subgoals: those of the first twelve summaries, or of alike ones further on."""
    return [(i + 1 + 12 * (i % 5) * step, terms(EIGHT[1:-1])) for i in range(12)]


def triple(a_book, step=0):
    """The three as bytes."""
    witness = bytes(n for pair in THERE for n in pair) + bytes(BACK)
    return a_book, rule_bytes((terms(EIGHT[1:-1]), body(step))), witness


BOOK = book_of(32, 64)
assert len(BOOK) == LONGEST
