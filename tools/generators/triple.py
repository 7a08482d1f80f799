"""A triple of book, rewriting and witness as values, for the makers of triples."""
import copy

from books.book import book, read, rows, rule_bytes
from generators.mappings import RIGHT
from books.stamps import is_admitted


class Triple:
    """A sound book, a rewriting's head and body, and both parts of a witness (from 1), all as values."""

    def __init__(self, a_book, body, there, back):
        self.arities, self.need, self.question, self.summaries = read(a_book)
        self.head, self.body, self.there, self.back = self.question[0], body, there, back
        self.known_rows = None

    def but(self, **changes):
        other = copy.copy(self)
        other.__dict__.update(changes)
        if "summaries" in changes:
            other.known_rows = None
        return other

    def book(self):
        return book(self.arities, self.need, self.question, self.summaries)

    def bytes(self):
        witness = bytes(n for pair in self.there for n in pair) + bytes(self.back)
        return self.book(), rule_bytes((self.head, self.body)), witness

    def rules(self):
        return [rule for _, rule in self.summaries]

    def uses(self, sense=RIGHT):
        return sense.expansion(self.rules(), self.body)

    def admitted(self):
        return [i + 1 for i, (stamp, _) in enumerate(self.summaries) if is_admitted(self.need, stamp)]

    def rows(self):
        """Rows of the admitted summaries, at most some twenty of each."""
        if self.known_rows is None:
            found = {i: sorted(rows(self.summaries[i - 1][1], self.question, 20)) for i in self.admitted()}
            self.known_rows = [(i, list(terms)) for i in found for terms in found[i]]
        return self.known_rows

    def variables(self):
        return sorted({t for _, ts in self.body for t in ts if t[0] == 0})

    def renamed(self, names):
        other = lambda ts: [names.get(t, t) for t in ts]
        return self.but(head=other(self.head), body=[(i, other(ts)) for i, ts in self.body])

    def is_right(self):
        """Whether both parts of the witness are mappings; the book and the rewriting are taken for sound."""
        uses, goals = self.uses(), self.question[1]
        return (RIGHT.follows(goals, [uses[u - 1][g - 1] for u, g in self.there], self.head)
                and RIGHT.follows([g for use in uses for g in use], [goals[i - 1] for i in self.back], self.head))

    def hidden_images(self):
        """What each use's hidden variables are sent to on the way back: pairs of summary and variable, and the images."""
        images, sources = {}, [(number, g) for (number, _), use in zip(self.body, self.uses()) for g in use]
        for (number, (_, terms)), place in zip(sources, self.back):
            for s, t in zip(terms, self.question[1][place - 1][1]):
                if s[0] == 2:
                    images.setdefault((number, s[2]), set()).add(t)
        return images
