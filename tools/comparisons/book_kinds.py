"""What kinds of books a comparison has reached: each kind with a test of a book and its listing."""
from books import stamps
from books.book import read, rows

MOST = 64


class Told:
    """A book, its listing, and what can be said of them."""

    def __init__(self, a_book, listing):
        self.lines = listing.splitlines()
        first = self.lines[0].split()
        self.refused = int(first[1]) if first[0] == "refused" else 0
        self.length = 0 if self.refused else int(next(l for l in self.lines if l.startswith("rewriting")).split()[1])
        self.is_sound = self.refused in (0, 9, 10)
        if self.is_sound:
            _, self.need, self.question, self.summaries = read(a_book)
            self.admitted = [rule for stamp, rule in self.summaries if stamps.is_admitted(self.need, stamp)]
            self.body = self.question[1]

    def row_count(self):
        total = 0
        for s in self.admitted:
            if total <= MOST:
                total += len(rows(s, self.question, MOST))
        return total

    def uses(self):
        """The summaries of the answer's subgoals."""
        return [int(l.split()[0]) for l in self.lines if l[0].isdigit()]


def sound_kinds(t):
    """The kinds of a sound book, whatever its outcome."""
    head, body = t.question
    if len({r for r, _ in body}) < len(body):
        yield "self-join"
    if any(tag == 1 for _, ts in body for tag, _ in ts):
        yield "constant in the question"
    if any(tag == 1 for s in t.admitted for _, ts in s[1] for tag, _ in ts):
        yield "constant in a summary"
    if any(tag == 1 for tag, _ in head) or len(set(head)) < len(head):
        yield "constant or repetition in the question's head"
    if not head:
        yield "question with an empty head"
    if any(not s[0] for s in t.admitted):
        yield "summary with an empty head"
    if any(body.count(g) > 1 for g in body):
        yield "repeated subgoal"
    if len(t.admitted) < len(t.summaries):
        yield "summary left out"
    for stamp, _ in t.summaries:
        yield from stamps.stamp_kinds(t.need, stamp)


def kinds(a_book, listing):
    t = Told(a_book, listing)
    if t.refused:
        yield "refused %d" % t.refused
    if t.length:
        yield "answer of %s" % (t.length if t.length <= 4 else "5 to 8" if t.length <= 8 else "9 to 12")
        if len(set(t.uses())) < t.length:
            yield "answer that uses a summary twice"
    if not t.is_sound:
        return
    yield from sound_kinds(t)
    count = t.row_count()
    if count == MOST:
        yield "64 rows"
    if MOST - 4 <= count < MOST:
        yield "60 to 63 rows"
    if count == 0:
        yield "no row"


ALL = (["refused %d" % n for n in range(2, 11)] + ["answer of %s" % n for n in (1, 2, 3, 4, "5 to 8", "9 to 12")]
       + ["answer that uses a summary twice", "self-join", "constant in the question", "constant in a summary",
          "constant or repetition in the question's head", "question with an empty head", "summary with an empty head",
          "repeated subgoal", "summary left out", *stamps.KINDS, "64 rows", "60 to 63 rows", "no row"])
# how many books of a kind there must be
LEAST = {kind: stamps.LEAST if kind in stamps.KINDS else 1 for kind in ALL}
